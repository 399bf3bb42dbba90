// Package record keeps what Collectors send as captures, and passes it on or answers by itself. It reads no telemetry;
// of a batch it reads the id, where it has to answer it. Headers are passed on and never kept.
package record

import (
	"context"
	"errors"
	"fmt"
	"io"
	"strings"
	"sync/atomic"
	"time"

	"finavoluth/edge/internal/live/logline"
	"finavoluth/edge/internal/live/metrics"
	"finavoluth/edge/internal/live/wire"
	"finavoluth/edge/internal/signal"

	"google.golang.org/grpc"
	"google.golang.org/grpc/codes"
	"google.golang.org/grpc/metadata"
	"google.golang.org/grpc/status"
)

// A Config says how a recorder works.
type Config struct {
	Store    *Store
	Messages wire.Limits
	// Timeout is how long the next hop may take for a request.
	Timeout time.Duration
	// Streams is how many OTel-Arrow streams there may be at once.
	Streams int
	// Forward is the connection to the next hop; nil where the recorder answers by itself.
	Forward *grpc.ClientConn
	Log     *logline.Log
	Metrics *metrics.Registry
}

// A Recorder serves OTLP and OTel-Arrow.
type Recorder struct {
	Config
	streams int64
	stop    chan struct{}
}

// New makes a recorder.
func New(config Config) *Recorder { return &Recorder{Config: config, stop: make(chan struct{})} }

// Stop has each stream take no more batches and end.
func (r *Recorder) Stop() { close(r.stop) }

// Serve is the handler of a call over gRPC.
func (r *Recorder) Serve(service wire.Service, call grpc.ServerStream) error {
	messages, err := wire.NewMessages(call, r.Messages)
	if err != nil {
		return err
	}
	if service.Arrow {
		defer atomic.AddInt64(&r.streams, -1)
		if atomic.AddInt64(&r.streams, 1) > int64(r.Streams) {
			r.Metrics.Add("otap_streams_refused_total", 1, service.Signal.String())
			return status.Errorf(codes.ResourceExhausted, "more than %d streams", r.Streams)
		}
		return r.stream(service, call, messages)
	}
	message, err := messages.Next()
	if err == io.EOF {
		return status.Error(codes.Internal, "a call without a request")
	}
	if err != nil {
		return err
	}
	defer message.Ticket.Release()
	incoming, _ := metadata.FromIncomingContext(call.Context())
	response, err := r.export(call.Context(), service.Signal, message.Bytes, incoming)
	if err != nil {
		return err
	}
	return call.SendMsg(&response)
}

// export keeps a request, and gives the answer to it.
func (r *Recorder) export(ctx context.Context, s signal.Signal, request []byte, headers metadata.MD) ([]byte, error) {
	if err := r.keep(r.Store.OTLP(s), s, "otlp", request); err != nil {
		return nil, err
	}
	if r.Forward == nil {
		return []byte{}, nil
	}
	ctx, cancel := context.WithTimeout(metadata.NewOutgoingContext(ctx, passedOn(headers)), r.Timeout)
	defer cancel()
	response := []byte{}
	err := r.Forward.Invoke(ctx, wire.Service{Signal: s}.Method(), &request, &response)
	return response, err
}

func (r *Recorder) keep(file *File, s signal.Signal, form string, message []byte) error {
	err := file.Append(message)
	switch {
	case errors.Is(err, ErrFull):
		r.Metrics.Add("otap_not_kept_total", 1, s.String(), form)
		return status.Error(codes.ResourceExhausted, err.Error())
	case err != nil:
		r.Log.Warn("a message isn't kept", "signal", s, "reason", err)
		r.Metrics.Add("otap_not_kept_total", 1, s.String(), form)
		return status.Error(codes.Unavailable, "the recorder can't write its capture")
	}
	r.Metrics.Add("otap_kept_total", 1, s.String(), form)
	r.Metrics.Add("otap_kept_bytes_total", float64(len(message)), s.String(), form)
	return nil
}

// A batch taken, or why there is none.
type taken struct {
	message wire.Message
	err     error
}

// stream keeps the batches of one stream in a capture of their own. Its goroutine alone writes to the capture and to both
// sides.
func (r *Recorder) stream(service wire.Service, call grpc.ServerStream, messages *wire.Messages) error {
	ctx, cancel := context.WithCancel(call.Context())
	defer cancel()
	file := r.Store.File(service.Signal, "otap")
	defer file.Close()
	var onward grpc.ClientStream
	back := make(chan error, 1)
	if r.Forward != nil {
		incoming, _ := metadata.FromIncomingContext(call.Context())
		var err error
		onward, err = r.Forward.NewStream(metadata.NewOutgoingContext(ctx, passedOn(incoming)),
			&grpc.StreamDesc{ClientStreams: true, ServerStreams: true}, service.Method())
		if err != nil {
			return err
		}
		go func() { back <- pump(onward, call) }()
	}
	from := make(chan taken)
	go take(ctx, messages, from)
	r.Log.Info("stream open", "signal", service.Signal)
	for {
		select {
		case t := <-from:
			if t.err == io.EOF && onward != nil {
				onward.CloseSend()
				from = nil
				continue
			}
			if t.err == io.EOF {
				return nil
			}
			if t.err != nil {
				return t.err
			}
			err := r.batch(service.Signal, file, t.message, call, onward)
			t.message.Ticket.Release()
			if err == io.EOF {
				return <-back // the next hop ended the stream, and the receiving side knows why
			}
			if err != nil {
				return err
			}
		case err := <-back:
			return err
		case <-r.stop:
			return status.Error(codes.Unavailable, "shutting down")
		}
	}
}

func take(ctx context.Context, messages *wire.Messages, to chan<- taken) {
	for {
		message, err := messages.Next()
		select {
		case to <- taken{message, err}:
		case <-ctx.Done():
			message.Ticket.Release()
			return
		}
		if err != nil {
			return
		}
	}
}

// batch keeps a batch, and passes it on or answers it. The error io.EOF is that of a next hop that takes no more.
func (r *Recorder) batch(s signal.Signal, file *File, message wire.Message, call grpc.ServerStream, onward grpc.ClientStream) error {
	if err := r.keep(file, s, "otap", message.Bytes); err != nil {
		return err
	}
	if onward != nil {
		return onward.SendMsg(&message.Bytes)
	}
	answer := wire.Status{}
	id, err := wire.BatchID(message.Bytes)
	if answer.ID = id; err != nil {
		answer = wire.Status{ID: wire.Unreadable, Code: codes.InvalidArgument, Message: err.Error()}
	}
	bytes := answer.Append(nil)
	if err := call.SendMsg(&bytes); err != nil {
		return fmt.Errorf("send the status of batch %d: %w", id, err)
	}
	return nil
}

// pump hands the statuses of the next hop back, and its end.
func pump(onward grpc.ClientStream, call grpc.ServerStream) error {
	for {
		var bytes []byte
		if err := onward.RecvMsg(&bytes); err == io.EOF {
			return nil
		} else if err != nil {
			return err
		}
		if err := call.SendMsg(&bytes); err != nil {
			return err
		}
	}
}

// ofItsOwn has the headers that belong to one connection or one encoding; those that begin with grpc- do too.
var ofItsOwn = map[string]bool{
	"accept": true, "accept-encoding": true, "connection": true, "content-encoding": true, "content-length": true,
	"content-type": true, "expect": true, "host": true, "keep-alive": true, "proxy-connection": true, "te": true,
	"trailer": true, "transfer-encoding": true, "upgrade": true, "user-agent": true,
}

// passedOn are the headers that the next hop gets.
func passedOn(headers metadata.MD) metadata.MD {
	passed := metadata.MD{}
	for name, values := range headers {
		name = strings.ToLower(name)
		if !ofItsOwn[name] && !strings.HasPrefix(name, "grpc-") && !strings.HasPrefix(name, ":") {
			passed[name] = values
		}
	}
	return passed
}
