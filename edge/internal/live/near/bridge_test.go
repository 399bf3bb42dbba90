package near

import (
	"context"
	"io"
	"net"
	"os"
	"sync"
	"testing"
	"time"

	"google.golang.org/grpc"
	"google.golang.org/grpc/codes"
	"google.golang.org/grpc/status"
	"google.golang.org/protobuf/encoding/protowire"

	"finavoluth/edge/internal/child"
	"finavoluth/edge/internal/live/logline"
	"finavoluth/edge/internal/live/metrics"
	"finavoluth/edge/internal/live/window"
	"finavoluth/edge/internal/live/wire"
	"finavoluth/edge/internal/signal"
)

// limit is how long a wait for an event may take.
const limit = 60 * time.Second

// A batch is what a far end got: on which stream, with which id, and the request in it.
type batch struct {
	stream  int
	id      int64
	request string
}

// far is a far end that answers each batch as a test says.
type far struct {
	address string
	// answer says what is replied to a batch; an error ends the stream in its place, and nil replies nothing.
	answer func(b batch) (*wire.Status, error)

	mu      sync.Mutex
	streams int
	came    []batch
	grew    chan struct{}
}

func serve(t *testing.T, handler grpc.StreamHandler) string {
	t.Helper()
	l, err := net.Listen("tcp", "127.0.0.1:0")
	if err != nil {
		t.Fatal(err)
	}
	server := grpc.NewServer(grpc.CustomCodec(wire.Codec{}), grpc.UnknownServiceHandler(handler))
	go server.Serve(l)
	t.Cleanup(server.Stop)
	return l.Addr().String()
}

func newFar(t *testing.T, answer func(batch) (*wire.Status, error)) *far {
	t.Helper()
	f := &far{answer: answer, grew: make(chan struct{})}
	f.address = serve(t, func(_ interface{}, call grpc.ServerStream) error { return f.serve(call) })
	return f
}

func (f *far) serve(call grpc.ServerStream) error {
	f.mu.Lock()
	stream := f.streams
	f.streams++
	f.tell()
	f.mu.Unlock()
	for {
		var bytes []byte
		if err := call.RecvMsg(&bytes); err == io.EOF {
			return nil
		} else if err != nil {
			return err
		}
		b := batch{stream: stream}
		b.id, _ = wire.BatchID(bytes)
		for rest := bytes; len(rest) > 0; {
			number, kind, n := protowire.ConsumeTag(rest)
			if number == 2 {
				part, _ := protowire.ConsumeBytes(rest[n:])
				b.request = string(part)
			}
			rest = rest[n+protowire.ConsumeFieldValue(number, kind, rest[n:]):]
		}
		f.mu.Lock()
		f.came = append(f.came, b)
		f.tell()
		f.mu.Unlock()
		reply, err := f.answer(b)
		if err != nil {
			return err
		}
		if reply == nil {
			continue
		}
		reply.ID = b.id
		out := reply.Append(nil)
		if err := call.SendMsg(&out); err != nil {
			return err
		}
	}
}

// tell wakes those who wait; the lock is held.
func (f *far) tell() {
	close(f.grew)
	f.grew = make(chan struct{})
}

// until waits for a condition, which is looked at under the lock.
func (f *far) until(t *testing.T, what string, is func() bool) {
	t.Helper()
	over := time.After(limit)
	for {
		f.mu.Lock()
		yes, grew := is(), f.grew
		f.mu.Unlock()
		if yes {
			return
		}
		select {
		case <-grew:
		case <-over:
			t.Fatalf("not within %v: %s; it has %v", limit, what, f.came)
		}
	}
}

// times says on how many streams a request came, and on which last.
func (f *far) times(request string) (n, last int) {
	f.mu.Lock()
	defer f.mu.Unlock()
	for _, b := range f.came {
		if b.request == request {
			n, last = n+1, b.stream
		}
	}
	return n, last
}

// A bridge is a near end that sends again, between a client and a far end.
type bridge struct {
	t    *testing.T
	near *Near
	far  *far
	conn *grpc.ClientConn
	// served gets a word whenever a call has ended within near.
	served chan struct{}
}

func newBridge(t *testing.T, f *far, most, maxBatch int) *bridge {
	t.Helper()
	t.Setenv(standIn, "yes")
	self, err := os.Executable()
	if err != nil {
		t.Fatal(err)
	}
	program, err := child.Find(self)
	if err != nil {
		t.Fatal(err)
	}
	dial := func(address string) (*grpc.ClientConn, error) {
		return grpc.Dial(address, grpc.WithInsecure(), grpc.WithDefaultCallOptions(grpc.ForceCodec(wire.Codec{})))
	}
	n, err := Open(Config{
		Signals: []signal.Signal{signal.Logs}, Streams: 1, Window: most, Timeout: limit, MaxBatch: maxBatch, Resend: true,
		Messages: wire.Limits{Bytes: 1 << 20, Patience: limit, Window: window.New(1 << 24)},
		Start:    Resend(program, most, limit),
		Connect:  func() (*grpc.ClientConn, error) { return dial(f.address) },
		Log:      logline.New(io.Discard), Metrics: metrics.New(nil),
	})
	if err != nil {
		t.Fatal(err)
	}
	x := &bridge{t: t, near: n, far: f, served: make(chan struct{}, 100)}
	address := serve(t, func(_ interface{}, call grpc.ServerStream) error {
		method, _ := grpc.MethodFromServerStream(call)
		service, _ := wire.ByMethod(method)
		defer func() { x.served <- struct{}{} }()
		return n.Serve(service, call)
	})
	if x.conn, err = dial(address); err != nil {
		t.Fatal(err)
	}
	t.Cleanup(func() {
		n.Close()
		x.conn.Close()
	})
	return x
}

// send sends a request, and gives the code of its answer once it is there.
func (x *bridge) send(ctx context.Context, request string) chan codes.Code {
	answer := make(chan codes.Code, 1)
	go func() {
		message, response := []byte(request), []byte(nil)
		answer <- status.Code(x.conn.Invoke(ctx, wire.Service{Signal: signal.Logs}.Method(), &message, &response))
	}()
	return answer
}

// get waits for an answer.
func (x *bridge) get(answer chan codes.Code) codes.Code {
	x.t.Helper()
	select {
	case code := <-answer:
		return code
	case <-time.After(limit):
		x.t.Fatalf("no answer within %v; the far end has %v", limit, x.far.came)
		return codes.Unknown
	}
}

// all sends requests at once, and wants OK for each.
func (x *bridge) all(requests ...string) {
	x.t.Helper()
	var answers []chan codes.Code
	for _, request := range requests {
		answers = append(answers, x.send(context.Background(), request))
	}
	for i, answer := range answers {
		if code := x.get(answer); code != codes.OK {
			x.t.Errorf("%s is answered by %v", requests[i], code)
		}
	}
}
