package live

import (
	"context"
	"crypto/tls"
	"time"

	"finavoluth/edge/internal/child"
	"finavoluth/edge/internal/live/far"
	"finavoluth/edge/internal/live/listen"
	"finavoluth/edge/internal/live/near"
	"finavoluth/edge/internal/live/record"
	"finavoluth/edge/internal/live/wire"
	"finavoluth/edge/internal/signal"
)

// NearOptions are those of the near end.
type NearOptions struct {
	Options
	Signals         []string
	Streams, Window int
	Lifetime        time.Duration
	MaxBatch        int
	// Resend keeps requests over the end of a stream, and sends them again.
	Resend bool
}

// Near runs a near end until the context ends.
func Near(ctx context.Context, program *child.Program, o NearOptions) error {
	e, err := begin(o.Options, listen.AheadOfCall)
	if err != nil {
		return err
	}
	var signals []signal.Signal
	for _, word := range o.Signals {
		s, err := signal.Parse(word)
		if err != nil {
			return err
		}
		signals = append(signals, s)
	}
	encoders := near.Encode(program, o.Timeout)
	if o.Resend {
		encoders = near.Resend(program, o.Window, o.Timeout)
	}
	shareProcessors()
	n, err := near.Open(near.Config{
		Signals: signals, Streams: o.Streams, Window: o.Window, Timeout: o.Timeout, Lifetime: o.Lifetime, MaxBatch: o.MaxBatch,
		Resend: o.Resend, Messages: e.limits(), Start: encoders, Connect: o.To.Connect, Log: e.log, Metrics: e.metrics,
		Up: func(s signal.Signal, up bool) { e.server.Serving(wire.Service{Signal: s}.Name(), up) },
	})
	if err != nil {
		return err
	}
	defer n.Close()
	e.handler = n.Serve
	return e.serve(ctx, nil, func() {})
}

// FarOptions are those of the far end.
type FarOptions struct {
	Options
	MaxStreams, Window int
}

// Far runs a far end until the context ends.
func Far(ctx context.Context, program *child.Program, o FarOptions) error {
	e, err := begin(o.Options, listen.AheadOfStream)
	if err != nil {
		return err
	}
	backend, err := o.To.Connect()
	if err != nil {
		return err
	}
	defer backend.Close()
	shareProcessors()
	f, err := far.Open(far.Config{
		Streams: o.MaxStreams, Window: o.Window, Timeout: o.Timeout, Messages: e.limits(), Start: far.Decode(program, o.Timeout),
		Backend: backend, Log: e.log, Metrics: e.metrics,
	})
	if err != nil {
		return err
	}
	for _, s := range signal.All() {
		e.server.Serving(wire.Service{Signal: s, Arrow: true}.Name(), true)
	}
	e.handler = f.Serve
	return e.serve(ctx, nil, f.Stop)
}

// RecordOptions are those of the recorder.
type RecordOptions struct {
	Options
	// HTTP is the address for OTLP over HTTP; empty for none.
	HTTP             string
	Dir              string
	MaxBytes, Rotate int64
	MaxStreams       int
}

// Record runs a recorder until the context ends.
func Record(ctx context.Context, o RecordOptions) error {
	e, err := begin(o.Options, listen.AheadOfCall)
	if err != nil {
		return err
	}
	store, err := record.OpenStore(o.Dir, o.MaxBytes, o.Rotate)
	if err != nil {
		return err
	}
	config := record.Config{Store: store, Messages: e.limits(), Timeout: o.Timeout, Streams: o.MaxStreams, Log: e.log, Metrics: e.metrics}
	if o.To.Address != "" {
		if config.Forward, err = o.To.Connect(); err != nil {
			return err
		}
		defer config.Forward.Close()
	}
	r := record.New(config)
	var others []beside
	if o.HTTP != "" {
		l, err := listen.Open(o.HTTP, e.tls != nil, o.Insecure, o.Connections)
		if err != nil {
			return err
		}
		if e.tls != nil {
			l = tls.NewListener(l, e.tls)
		}
		others = append(others, beside{"http", l, r.HTTP()})
	}
	e.handler = r.Serve
	err = e.serve(ctx, others, r.Stop)
	if closed := store.Close(); err == nil {
		err = closed
	}
	return err
}
