// Package near is the near end of a bridge: it takes OTLP's requests, has the proved program encode them, and sends the
// batches over OTel-Arrow's streams. A request is acknowledged only once its batch was.
//
// It trusts the program for all that is in a request or a batch; of a batch it reads the id alone. It holds nothing
// back: what isn't acknowledged when a stream or a child ends is answered with Unavailable, and whoever sent it has to
// send it again. Where the program keeps the requests (`resend`), a stream's end leaves them open: they are sent again on
// the next stream, as long as somebody waits for them.
package near

import (
	"context"
	"io"
	"sync"
	"sync/atomic"
	"time"

	"finavoluth/edge/internal/live/logline"
	"finavoluth/edge/internal/live/metrics"
	"finavoluth/edge/internal/live/wire"
	"finavoluth/edge/internal/signal"

	"google.golang.org/grpc"
	"google.golang.org/grpc/codes"
	"google.golang.org/grpc/status"
)

// A Config says how a near end works.
type Config struct {
	Signals []signal.Signal
	// Streams is how many streams each signal has.
	Streams int
	// Window is how many batches of a stream may be unanswered.
	Window int
	// Timeout is how long a request may take, and how long a stream may leave all its batches unanswered.
	Timeout time.Duration
	// Lifetime is how long a stream lives before it is replaced; 0 for ever.
	Lifetime time.Duration
	// MaxBatch is how long a batch may be for the far end to take it.
	MaxBatch int
	Messages wire.Limits
	// Resend says that the encoder keeps its requests, so that it goes on with the next stream.
	Resend bool
	// Start begins a conversation for a signal.
	Start func(context.Context, signal.Signal) (Encoder, error)
	// Connect makes a connection to the far end.
	Connect func() (*grpc.ClientConn, error)
	// Up is called whenever a signal has its first stream, or has lost its last.
	Up      func(signal.Signal, bool)
	Log     *logline.Log
	Metrics *metrics.Registry
}

// Near is a near end.
type Near struct {
	config Config
	pools  map[signal.Signal]*pool
	conns  []*grpc.ClientConn
	stop   context.CancelFunc
	owners sync.WaitGroup
}

// A pool is the streams of a signal, which take requests from one queue.
type pool struct {
	signal signal.Signal
	queue  chan *request
	// open is how many of the streams are open, and last when one of them ended last: a time.Time, once one did.
	open int64
	last atomic.Value
}

// lately says whether a stream of the signal was open within this time.
func (p *pool) lately(within time.Duration) bool {
	last, ended := p.last.Load().(time.Time)
	return ended && time.Since(last) < within
}

// A request waits for its answer. Its stream's owner settles it exactly once.
type request struct {
	ctx     context.Context
	message wire.Message
	answer  chan *status.Status
	// number is that of the request among those that became batches, and batch the id of its batch on its stream.
	number uint64
	batch  int64
}

func (r *request) settle(code codes.Code, text string) {
	r.message.Ticket.Release()
	r.answer <- status.New(code, text)
}

// Open probes the program and starts the streams.
func Open(config Config) (*Near, error) {
	n := &Near{config: config, pools: map[signal.Signal]*pool{}}
	for _, s := range config.Signals {
		if err := probe(config, s); err != nil {
			return nil, err
		}
		n.pools[s] = &pool{signal: s, queue: make(chan *request)}
	}
	for k := 0; k < config.Streams; k++ {
		conn, err := config.Connect()
		if err != nil {
			n.disconnect()
			return nil, err
		}
		n.conns = append(n.conns, conn)
	}
	ctx, stop := context.WithCancel(context.Background())
	n.stop = stop
	for _, p := range n.pools {
		for k, conn := range n.conns {
			n.owners.Add(1)
			go func(p *pool, k int, conn *grpc.ClientConn) {
				defer n.owners.Done()
				(&owner{config: config, pool: p, number: k, conn: conn}).run(ctx)
			}(p, k, conn)
		}
	}
	return n, nil
}

// Close ends the streams and their children. It is called once the handlers have ended, or are no longer waited for.
func (n *Near) Close() {
	n.stop()
	n.owners.Wait()
	n.disconnect()
}

func (n *Near) disconnect() {
	for _, conn := range n.conns {
		conn.Close()
	}
}

// none is a response: one with no partial success.
var none = []byte{}

// Serve is the handler of a call. The answer is sent from here and not from within, where the goroutine's stack would have
// to grow for it.
func (n *Near) Serve(service wire.Service, call grpc.ServerStream) error {
	p := n.pools[service.Signal]
	if service.Arrow || p == nil {
		return status.Errorf(codes.Unimplemented, "%s isn't served here", service.Name())
	}
	err := n.export(p, call)
	if err == nil {
		err = call.SendMsg(&none)
	}
	n.config.Metrics.Add("otap_requests_total", 1, p.signal.String(), status.Code(err).String())
	return err
}

// export has a request sent on, and waits until it is acknowledged.
func (n *Near) export(p *pool, call grpc.ServerStream) error {
	messages, err := wire.NewMessages(call, n.config.Messages)
	if err != nil {
		return err
	}
	message, err := messages.Next()
	if err == io.EOF {
		return status.Error(codes.Internal, "a call without a request")
	}
	if err != nil {
		return err
	}
	n.config.Metrics.Add("otap_request_bytes_total", float64(len(message.Bytes)), p.signal.String())
	ctx, cancel := context.WithTimeout(call.Context(), n.config.Timeout)
	defer cancel()
	r := &request{ctx: ctx, message: message, answer: make(chan *status.Status, 1)}
	select {
	case p.queue <- r:
	case <-ctx.Done():
		message.Ticket.Release()
		return n.late(call, "no stream had room")
	}
	select {
	case s := <-r.answer:
		return s.Err()
	case <-ctx.Done():
		return n.late(call, "no answer")
	}
}

// late is the answer to a request that nobody waits for any longer: what its own context says, or ours.
func (n *Near) late(call grpc.ServerStream, what string) error {
	if err := call.Context().Err(); err != nil {
		return status.FromContextError(err).Err()
	}
	return status.Errorf(codes.Unavailable, "%s within %v", what, n.config.Timeout)
}

func (p *pool) opened(config Config, by int64) {
	if by < 0 {
		p.last.Store(time.Now())
	}
	now := atomic.AddInt64(&p.open, by)
	config.Metrics.Add("otap_streams_open", float64(by), p.signal.String())
	if config.Up != nil && (now == 0 || now == 1 && by > 0) {
		config.Up(p.signal, now > 0)
	}
}
