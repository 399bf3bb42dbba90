// Package pcap makes captures of a packet trace, for those who may not stand in the path of what Collectors send. It has
// tshark take TCP and HTTP/2 apart, and trusts it for that; the traffic has to be plain, as keys aren't asked for.
package pcap

import (
	"context"
	"encoding/hex"
	"encoding/xml"
	"errors"
	"fmt"
	"io"
	"os/exec"
	"sort"
	"strconv"
	"strings"

	"finavoluth/edge/internal/live/record"
	"finavoluth/edge/internal/live/wire"
)

// Options say what to read, and where to write.
type Options struct {
	// Trace is the file of packets; "-" is standard input.
	Trace string
	Stdin io.Reader
	// Port is the port that was served.
	Port int
	// MaxMessage is how long a message may be.
	MaxMessage int
	Store      *record.Store
}

// A Report says what was found.
type Report struct {
	// Messages has the number of messages by signal and form, as "logs otlp".
	Messages map[string]int
	// Calls is how many calls there were of the services that are known.
	Calls int
	// Damaged has what is wrong with calls, in the order in which they began.
	Damaged []string
	// Unnamed is how many calls began before the trace did, so that nobody knows what they are.
	Unnamed int
}

// ErrNone says that the trace has nothing to make captures of.
var ErrNone = errors.New("no plain HTTP/2 to that port in the trace")

// Extract reads a trace to its end.
func Extract(ctx context.Context, o Options) (*Report, error) {
	ctx, cancel := context.WithCancel(ctx)
	defer cancel()
	port := strconv.Itoa(o.Port)
	cmd := exec.CommandContext(ctx, "tshark", "-n", "-r", o.Trace, "-d", "tcp.port=="+port+",http2",
		"-Y", "http2 && tcp.dstport=="+port, "-T", "pdml", "-J", "tcp http2")
	cmd.Stdin = o.Stdin
	var said strings.Builder
	cmd.Stderr = &said
	out, err := cmd.StdoutPipe()
	if err != nil {
		return nil, fmt.Errorf("start tshark: %w", err)
	}
	if err := cmd.Start(); errors.Is(err, exec.ErrNotFound) {
		return nil, errors.New("this takes tshark, which isn't on the path; Debian's package for it is tshark")
	} else if err != nil {
		return nil, fmt.Errorf("start tshark: %w", err)
	}
	x := &extractor{options: o, calls: map[callID]*call{}, report: &Report{Messages: map[string]int{}}}
	err = frames(out, x.frame)
	if err != nil {
		cancel()
		cmd.Wait()
		return nil, fmt.Errorf("read what tshark makes of the trace: %w", err)
	}
	if err := cmd.Wait(); err != nil {
		return nil, fmt.Errorf("tshark: %w: %s", err, strings.TrimSpace(said.String()))
	}
	return x.end()
}

// A frame of HTTP/2, of the kinds that matter.
type frame struct {
	connection string
	kind       string
	stream     string
	headers    map[string]string
	data       []byte
}

// The types of frames (RFC 9113, section 6).
const (
	data    = "0"
	headers = "1"
)

// frames calls each for every frame of HTTP/2 that tshark prints, in order.
func frames(from io.Reader, each func(*frame) error) error {
	d := xml.NewDecoder(from)
	connection, depth, began, name := "", 0, 0, ""
	var f *frame
	for {
		token, err := d.Token()
		if err == io.EOF {
			return nil
		}
		if err != nil {
			return err
		}
		switch t := token.(type) {
		case xml.StartElement:
			depth++
			field, show, value := attributes(t)
			switch {
			case field == "tcp.stream":
				connection = show
			case field == "http2.stream" && f == nil:
				f, began = &frame{connection: connection, headers: map[string]string{}}, depth
			case f == nil:
			case field == "http2.type":
				f.kind = show
			case field == "http2.streamid":
				f.stream = show
			case field == "http2.header.name":
				name = show
			case field == "http2.header.value":
				f.headers[name] = show
			case field == "http2.data.data":
				if f.data, err = hex.DecodeString(value); err != nil {
					return fmt.Errorf("the bytes of a DATA frame: %w", err)
				}
			}
		case xml.EndElement:
			if f != nil && depth == began {
				if err := each(f); err != nil {
					return err
				}
				f = nil
			}
			depth--
		}
	}
}

func attributes(of xml.StartElement) (name, show, value string) {
	for _, a := range of.Attr {
		switch a.Name.Local {
		case "name":
			name = a.Value
		case "show":
			show = a.Value
		case "value":
			value = a.Value
		}
	}
	return name, show, value
}

type callID struct{ connection, stream string }

// A call has what came of its direction and isn't a whole message yet.
type call struct {
	number   int
	id       callID
	service  wire.Service
	encoding string
	rest     []byte
	file     *record.File
	damage   string
}

type extractor struct {
	options Options
	calls   map[callID]*call
	report  *Report
	seen    int
}

func (x *extractor) frame(f *frame) error {
	x.seen++
	id := callID{f.connection, f.stream}
	switch f.kind {
	case headers:
		if path, ok := f.headers[":path"]; ok {
			x.begin(id, path, f.headers["grpc-encoding"])
		}
	case data:
		c := x.calls[id]
		if c == nil {
			c = x.begin(id, "", "")
		}
		if c.file == nil || c.damage != "" {
			return nil
		}
		c.rest = append(c.rest, f.data...)
		return x.messages(c)
	}
	return nil
}

func (x *extractor) begin(id callID, path, encoding string) *call {
	c := &call{number: len(x.calls), id: id, encoding: encoding}
	x.calls[id] = c
	service, ok := wire.ByMethod(path)
	switch {
	case ok && service.Arrow:
		c.service, c.file = service, x.options.Store.File(service.Signal, "otap")
	case ok:
		c.service, c.file = service, x.options.Store.OTLP(service.Signal)
	case path == "":
		x.report.Unnamed++
	}
	if ok {
		x.report.Calls++
	}
	return c
}

// messages writes the messages that are whole.
func (x *extractor) messages(c *call) error {
	for {
		message, rest, err := wire.Cut(c.rest, c.encoding, x.options.MaxMessage)
		if err != nil {
			c.damage = err.Error()
			return nil
		}
		if message == nil {
			return nil
		}
		c.rest = rest
		if err := c.file.Append(message); err != nil {
			return err
		}
		form := "otlp"
		if c.service.Arrow {
			form = "otap"
		}
		x.report.Messages[c.service.Signal.String()+" "+form]++
	}
}

func (x *extractor) end() (*Report, error) {
	calls := make([]*call, 0, len(x.calls))
	for _, c := range x.calls {
		calls = append(calls, c)
	}
	sort.Slice(calls, func(i, j int) bool { return calls[i].number < calls[j].number })
	for _, c := range calls {
		if c.damage == "" && len(c.rest) > 0 {
			c.damage = fmt.Sprintf("it ends within a message, %d bytes of which are there", len(c.rest))
		}
		if c.damage != "" {
			x.report.Damaged = append(x.report.Damaged,
				fmt.Sprintf("%s, stream %s of connection %s: %s", c.service.Method(), c.id.stream, c.id.connection, c.damage))
		}
		if c.file != nil && c.service.Arrow {
			if err := c.file.Close(); err != nil {
				return nil, err
			}
		}
	}
	if x.seen == 0 {
		return nil, ErrNone
	}
	return x.report, x.options.Store.Close()
}
