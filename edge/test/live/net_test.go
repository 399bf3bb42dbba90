package live_test

import (
	"context"
	"io"
	"net"
	"sync"
	"testing"
	"time"

	"finavoluth/edge/internal/live/wire"
	"finavoluth/edge/internal/signal"

	"google.golang.org/grpc"
	"google.golang.org/grpc/codes"
	"google.golang.org/grpc/credentials"
	"google.golang.org/grpc/metadata"
	"google.golang.org/grpc/status"
)

// A relay has one address, and connects whoever comes to a target that may change, so that what is restarted on another
// port is found again. Its connections can be cut.
type relay struct {
	listener net.Listener
	mu       sync.Mutex
	target   string
	passing  map[net.Conn]bool
}

func newRelay(t *testing.T) *relay {
	l, err := net.Listen("tcp", "127.0.0.1:0")
	if err != nil {
		t.Fatal(err)
	}
	r := &relay{listener: l, passing: map[net.Conn]bool{}}
	t.Cleanup(func() { l.Close() })
	go func() {
		for {
			c, err := l.Accept()
			if err != nil {
				return
			}
			go r.pass(c)
		}
	}()
	return r
}

func (r *relay) address() string { return r.listener.Addr().String() }

func (r *relay) to(target string) {
	r.mu.Lock()
	r.target = target
	r.mu.Unlock()
}

// cut ends the connections that there are, at both of their ends, and says how many they were.
func (r *relay) cut() int {
	r.mu.Lock()
	defer r.mu.Unlock()
	for c := range r.passing {
		c.Close()
	}
	return len(r.passing)
}

func (r *relay) pass(c net.Conn) {
	defer c.Close()
	r.mu.Lock()
	target := r.target
	r.passing[c] = true
	r.mu.Unlock()
	defer func() {
		r.mu.Lock()
		delete(r.passing, c)
		r.mu.Unlock()
	}()
	d, err := net.Dial("tcp", target)
	if err != nil {
		return
	}
	defer d.Close()
	ends := make(chan struct{}, 2)
	for _, way := range [][2]net.Conn{{c, d}, {d, c}} {
		go func(from, to net.Conn) {
			io.Copy(to, from)
			ends <- struct{}{}
		}(way[0], way[1])
	}
	<-ends
}

// A backend keeps what it is sent.
type backend struct {
	server  *grpc.Server
	address string
	// forget has it keep nothing.
	forget bool
	// before is called before a request is answered, with how many came before it; an error is the answer.
	before func(n int, request []byte) error

	mu      sync.Mutex
	came    int
	kept    map[string]int // each request that was answered with OK, and how often
	order   [][]byte       // these requests as they came
	headers metadata.MD
	grew    chan struct{}
	now     int // how many requests are with it
	most    int // how many were with it at once
}

// newBackend serves all three signals; creds may be nil.
func newBackend(t *testing.T, creds credentials.TransportCredentials, before func(int, []byte) error) *backend {
	l, err := net.Listen("tcp", "127.0.0.1:0")
	if err != nil {
		t.Fatal(err)
	}
	return serveBackend(t, l, creds, before)
}

func serveBackend(t *testing.T, l net.Listener, creds credentials.TransportCredentials, before func(int, []byte) error) *backend {
	b := &backend{before: before, kept: map[string]int{}, grew: make(chan struct{}), address: l.Addr().String()}
	options := []grpc.ServerOption{grpc.CustomCodec(wire.Codec{}), grpc.MaxRecvMsgSize(1 << 30), grpc.UnknownServiceHandler(b.serve)}
	if creds != nil {
		options = append(options, grpc.Creds(creds))
	}
	b.server = grpc.NewServer(options...)
	go b.server.Serve(l)
	t.Cleanup(b.server.Stop)
	return b
}

func (b *backend) serve(_ interface{}, call grpc.ServerStream) error {
	method, _ := grpc.MethodFromServerStream(call)
	if s, ok := wire.ByMethod(method); !ok || s.Arrow {
		return status.Error(codes.Unimplemented, method)
	}
	var request []byte
	if err := call.RecvMsg(&request); err != nil {
		return err
	}
	b.mu.Lock()
	n := b.came
	b.came++
	if b.now++; b.now > b.most {
		b.most = b.now
	}
	b.headers, _ = metadata.FromIncomingContext(call.Context())
	b.tell()
	b.mu.Unlock()
	defer func() {
		b.mu.Lock()
		b.now--
		b.tell()
		b.mu.Unlock()
	}()
	if b.before != nil {
		if err := b.before(n, request); err != nil {
			return err
		}
	}
	b.mu.Lock()
	if !b.forget {
		b.kept[string(request)]++
		b.order = append(b.order, request)
	}
	b.tell()
	b.mu.Unlock()
	none := []byte{}
	return call.SendMsg(&none)
}

// tell wakes those who wait; the lock is held.
func (b *backend) tell() {
	close(b.grew)
	b.grew = make(chan struct{})
}

// until waits for a condition on the backend, which is looked at under its lock.
func (b *backend) until(t *testing.T, what string, is func() bool) {
	t.Helper()
	over := time.After(limit)
	for {
		b.mu.Lock()
		yes, grew := is(), b.grew
		b.mu.Unlock()
		if yes {
			return
		}
		select {
		case <-grew:
		case <-over:
			t.Fatalf("not within %v: %s", limit, what)
		}
	}
}

func (b *backend) snapshot() map[string]int {
	b.mu.Lock()
	defer b.mu.Unlock()
	copied := map[string]int{}
	for k, v := range b.kept {
		copied[k] = v
	}
	return copied
}

// connect makes a client's connection.
func connect(t *testing.T, address string, options ...grpc.DialOption) *grpc.ClientConn {
	t.Helper()
	if len(options) == 0 {
		options = append(options, grpc.WithInsecure())
	}
	options = append(options, grpc.WithDefaultCallOptions(grpc.ForceCodec(wire.Codec{}), grpc.MaxCallSendMsgSize(1<<30), grpc.MaxCallRecvMsgSize(1<<30)))
	c, err := grpc.Dial(address, options...)
	if err != nil {
		t.Fatal(err)
	}
	t.Cleanup(func() { c.Close() })
	return c
}

// export sends one request, and waits for its answer.
func export(ctx context.Context, c *grpc.ClientConn, s signal.Signal, request []byte, options ...grpc.CallOption) error {
	ctx, cancel := context.WithTimeout(ctx, limit)
	defer cancel()
	var response []byte
	return c.Invoke(ctx, wire.Service{Signal: s}.Method(), &request, &response, options...)
}

// arrow opens a stream of OTel-Arrow.
func arrow(t *testing.T, c *grpc.ClientConn, s signal.Signal, options ...grpc.CallOption) grpc.ClientStream {
	t.Helper()
	ctx, cancel := context.WithTimeout(context.Background(), limit)
	t.Cleanup(cancel)
	stream, err := c.NewStream(ctx, &grpc.StreamDesc{ClientStreams: true, ServerStreams: true}, wire.Service{Signal: s, Arrow: true}.Method(), options...)
	if err != nil {
		t.Fatal(err)
	}
	return stream
}
