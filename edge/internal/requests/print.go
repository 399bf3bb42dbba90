package requests

import (
	"context"
	"io"

	"finavoluth/edge/internal/fields"
	"finavoluth/edge/internal/signal"
	"finavoluth/edge/internal/text"
)

// A Printer writes the requests of streams as OTLP's JSON, one on each line or indented.
type Printer struct {
	Signal signal.Signal
	Indent bool
	Target io.Writer
	Say    func(format string, values ...interface{})

	Refused int // requests that aren't of the signal; each is said
	fields  fields.Count
}

// Print writes all requests of a stream. Those that can't be read are said, and passed over.
func (p *Printer) Print(ctx context.Context, name string, s *Stream) error {
	for n := 0; ; n++ {
		request, err := s.Next()
		if err == io.EOF {
			return nil
		}
		if ctx.Err() != nil {
			return ctx.Err()
		}
		if err != nil {
			return err
		}
		line, err := text.Write(p.Signal, request, p.Indent)
		if err != nil {
			p.Refused++
			p.Say("%s, request %d: %v", name, n, err)
			continue
		}
		_ = fields.Uncarried(p.Signal, request, &p.fields) // the request was read: at most it is too deep to be looked into
		if _, err := p.Target.Write(append(line, '\n')); err != nil {
			return err
		}
	}
}

// SayUnknown lists the fields that OTLP doesn't have, and so JSON can't show.
func (p *Printer) SayUnknown() {
	for _, field := range p.fields.Fields() {
		if field.Unknown {
			p.Say("not shown: %d × %s, a field that OTLP doesn't have", field.Times, field.Path)
		}
	}
}
