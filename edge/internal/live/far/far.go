// Package far is the far end of a bridge: it takes OTel-Arrow's streams, has the proved program decode their batches, and
// sends the requests on as OTLP. A batch is acknowledged only once the backend has acknowledged its request.
//
// It trusts the program for all that is in a batch or a request. A stream's batches build on each other, so each stream
// has a child of its own, which ends with it.
package far

import (
	"context"
	"errors"
	"fmt"
	"io"
	"sync/atomic"
	"time"

	"finavoluth/edge/internal/child"
	"finavoluth/edge/internal/live/logline"
	"finavoluth/edge/internal/live/metrics"
	"finavoluth/edge/internal/live/wire"
	"finavoluth/edge/internal/signal"

	"google.golang.org/grpc"
	"google.golang.org/grpc/codes"
	"google.golang.org/grpc/status"
)

// A Config says how a far end works.
type Config struct {
	// Streams is how many streams there may be at once.
	Streams int
	// Window is how many batches of a stream may be unanswered.
	Window int
	// Timeout is how long the backend may take for a request.
	Timeout  time.Duration
	Messages wire.Limits
	// Start begins a conversation for a signal.
	Start func(context.Context, signal.Signal) (Decoder, error)
	// Backend is the connection to the backend.
	Backend *grpc.ClientConn
	Log     *logline.Log
	Metrics *metrics.Registry
}

// Far is a far end.
type Far struct {
	config  Config
	streams int64
	stop    chan struct{}
}

// Open probes the program.
func Open(config Config) (*Far, error) {
	for _, s := range signal.All() {
		if err := probe(config, s); err != nil {
			return nil, err
		}
	}
	return &Far{config: config, stop: make(chan struct{})}, nil
}

// Stop has each stream take no more batches, answer those that it has, and end.
func (f *Far) Stop() { close(f.stop) }

// Serve is the handler of a call.
func (f *Far) Serve(service wire.Service, call grpc.ServerStream) error {
	if !service.Arrow {
		return status.Errorf(codes.Unimplemented, "%s isn't served here", service.Name())
	}
	defer atomic.AddInt64(&f.streams, -1)
	if atomic.AddInt64(&f.streams, 1) > int64(f.config.Streams) {
		f.config.Metrics.Add("otap_streams_refused_total", 1, service.Signal.String())
		return status.Errorf(codes.ResourceExhausted, "more than %d streams", f.config.Streams)
	}
	s := service.Signal.String()
	f.config.Metrics.Add("otap_streams_started_total", 1, s)
	f.config.Metrics.Add("otap_streams_open", 1, s)
	defer f.config.Metrics.Add("otap_streams_open", -1, s)
	err := f.stream(service.Signal, call)
	f.config.Metrics.Add("otap_streams_ended_total", 1, s, status.Code(err).String())
	if err != nil {
		f.config.Log.Warn("stream ended", "signal", s, "code", status.Code(err), "reason", status.Convert(err).Message())
	}
	return err
}

// A stream is what its owner, the goroutine of its handler, has: the child, the call, and the batches that wait for the
// backend.
type stream struct {
	*Far
	signal signal.Signal
	call   grpc.ServerStream
	child  Decoder
	taken  chan taken
	// asked is the batch that the child has; nil where it has none.
	asked *wire.Message
	// requests is for the senders that wait for one; there are never more answers than the window has room for.
	requests chan request
	answers  chan answer
	// room has a token for each batch that may be taken.
	room    chan struct{}
	waiting int
	// ending says that no more batches are taken.
	ending bool
}

// taken is a message of the near end, or why there is none.
type taken struct {
	message wire.Message
	err     error
}

// request is what the child made of a batch, which it has the id of.
type request struct {
	id      int64
	message wire.Message
}

// answer is what the backend said of a request.
type answer struct {
	id  int64
	err error
}

func (f *Far) stream(s signal.Signal, call grpc.ServerStream) error {
	ctx, cancel := context.WithCancel(call.Context())
	defer cancel()
	decoder, err := f.config.Start(ctx, s)
	if err != nil {
		return status.Errorf(codes.Unavailable, "start a child: %v", err)
	}
	f.config.Metrics.Add("otap_children_started_total", 1, "decode")
	defer decoder.Close()
	messages, err := wire.NewMessages(call, f.config.Messages)
	if err != nil {
		return err
	}
	x := &stream{Far: f, signal: s, call: call, child: decoder, taken: make(chan taken),
		requests: make(chan request), answers: make(chan answer, f.config.Window), room: make(chan struct{}, f.config.Window)}
	for i := 0; i < f.config.Window; i++ {
		x.room <- struct{}{}
	}
	go x.take(ctx, messages)
	return x.serve(ctx)
}

// take reads messages as far as there is room for them.
func (x *stream) take(ctx context.Context, messages *wire.Messages) {
	for {
		select {
		case <-x.room:
		case <-ctx.Done():
			return
		}
		message, err := messages.Next()
		select {
		case x.taken <- taken{message, err}:
		case <-ctx.Done():
			message.Ticket.Release()
			return
		}
		if err != nil {
			return
		}
	}
}

// serve answers batches until the stream ends. Once it is to end, it takes no more and waits for the child's answer and
// the backend's.
func (x *stream) serve(ctx context.Context) error {
	defer x.forget()
	stop := x.stop
	var end error
	for !x.ending || x.asked != nil || x.waiting > 0 {
		var err error
		select {
		case t := <-x.batches():
			if err = t.err; err == nil {
				err = x.ask(t.message)
			}
		case said := <-x.said():
			err = x.decoded(ctx, said)
		case a := <-x.answers:
			if err := x.answer(a); err != nil {
				return err
			}
		case <-stop:
			err = status.Error(codes.Unavailable, "shutting down")
		case <-ctx.Done():
			return status.FromContextError(ctx.Err()).Err()
		}
		if err != nil {
			x.ending, stop = true, nil
			if err != io.EOF {
				end = err
			}
		}
	}
	return end
}

// batches is where the next batch comes from, while the child has none.
func (x *stream) batches() <-chan taken {
	if x.asked != nil || x.ending {
		return nil
	}
	return x.taken
}

// said is where the child answers. How it ends doesn't matter to a stream that ends.
func (x *stream) said() <-chan child.Said {
	if x.asked == nil && x.ending {
		return nil
	}
	return x.child.Said()
}

// forget gives up the batch that the child has.
func (x *stream) forget() {
	if x.asked != nil {
		x.asked.Ticket.Release()
	}
}

// ask has the child decode a batch. An error ends the stream, after what is open was answered.
func (x *stream) ask(message wire.Message) error {
	s := x.signal.String()
	x.config.Metrics.Add("otap_batches_total", 1, s)
	x.config.Metrics.Add("otap_batch_bytes_total", float64(len(message.Bytes)), s)
	if err := x.child.Ask(message.Bytes); err != nil {
		message.Ticket.Release()
		return x.lost(err)
	}
	x.asked = &message
	return nil
}

func (x *stream) lost(err error) error {
	x.config.Metrics.Add("otap_children_lost_total", 1, "decode")
	return status.Errorf(codes.Unavailable, "the decoding child ended: %v", err)
}

// decoded sends the request of the batch that the child had. An error ends the stream, as for ask.
func (x *stream) decoded(ctx context.Context, said child.Said) error {
	message := x.asked
	x.asked = nil
	made, refused, err := x.child.Answer(said)
	if message == nil && err == nil {
		err = errors.New("it answered what it wasn't asked")
	}
	if err != nil {
		if message != nil {
			message.Ticket.Release()
		}
		return x.lost(err)
	}
	if refused != nil {
		message.Ticket.Release()
		x.config.Metrics.Add("otap_refused_total", 1, x.signal.String(), refused.Cause)
		if err := x.say(refused.Status); err != nil {
			return err
		}
		return status.Errorf(codes.Aborted, "batch %d refused: %s", refused.Status.ID, refused.Status.Message)
	}
	id, err := wire.BatchID(message.Bytes)
	if err != nil {
		message.Ticket.Release()
		return status.Errorf(codes.Internal, "a batch that decode took: %v", err)
	}
	if most := x.config.Messages.Bytes; len(made) > most {
		message.Ticket.Release()
		x.room <- struct{}{}
		return x.say(wire.Status{ID: id, Code: codes.ResourceExhausted,
			Message: fmt.Sprintf("its request has %d bytes, above the %d of --max-message", len(made), most)})
	}
	message.Bytes = made
	message.Ticket.Resize(int64(len(made)))
	x.waiting++
	select {
	case x.requests <- request{id, *message}:
	default:
		go x.send(ctx, request{id, *message})
	}
	return nil
}

// send asks the backend, and then waits for the next request. So there are as many senders as there were requests at once,
// and their stacks, which a call makes grow, are used again.
func (x *stream) send(ctx context.Context, r request) {
	for {
		err := x.invoke(ctx, r.message.Bytes)
		r.message.Bytes = nil
		r.message.Ticket.Release()
		x.answers <- answer{r.id, err}
		select {
		case r = <-x.requests:
		case <-ctx.Done():
			return
		}
	}
}

func (x *stream) invoke(ctx context.Context, bytes []byte) error {
	ctx, cancel := context.WithTimeout(ctx, x.config.Timeout)
	defer cancel()
	var response []byte
	return x.config.Backend.Invoke(ctx, wire.Service{Signal: x.signal}.Method(), &bytes, &response)
}

// answer puts what the backend said into the status of its batch.
func (x *stream) answer(a answer) error {
	x.waiting--
	x.room <- struct{}{}
	s := status.Convert(a.err)
	x.config.Metrics.Add("otap_requests_total", 1, x.signal.String(), s.Code().String())
	return x.say(wire.Status{ID: a.id, Code: wire.ToEnum(s.Code()), Message: s.Message()})
}

func (x *stream) say(s wire.Status) error {
	x.config.Metrics.Add("otap_statuses_total", 1, x.signal.String(), s.Code.String())
	bytes := s.Append(nil)
	if err := x.call.SendMsg(&bytes); err != nil {
		return fmt.Errorf("send the status of batch %d: %w", s.ID, err)
	}
	return nil
}
