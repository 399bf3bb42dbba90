// Package listen serves gRPC with the limits that a listener on a network needs: TLS, a number of connections, of calls
// on each and of those in all, the length of headers, silence. It trusts grpc-go for HTTP/2 and crypto/tls for TLS.
package listen

import (
	"context"
	"errors"
	"fmt"
	"net"
	"sync/atomic"
	"time"

	"finavoluth/edge/internal/live/wire"

	"golang.org/x/net/netutil"
	"google.golang.org/grpc"
	"google.golang.org/grpc/codes"
	"google.golang.org/grpc/credentials"
	"google.golang.org/grpc/health"
	healthpb "google.golang.org/grpc/health/grpc_health_v1"
	"google.golang.org/grpc/keepalive"
	"google.golang.org/grpc/peer"
	"google.golang.org/grpc/status"
)

// How many bytes of a call a peer may send ahead of its handler, which grpc-go holds.
const (
	// AheadOfCall is for calls of one message, of which there may be many.
	AheadOfCall = 64 << 10
	// AheadOfStream is for streams, which are few. A peer is told of more room after each quarter of it, so it bounds how
	// much goes through a stream in a round trip.
	AheadOfStream = 256 << 10
)

const (
	// connWindow is what grpc-go lets a connection send before it acknowledges.
	connWindow = 1 << 20
	// longestHeaders is how long the headers of a call may be.
	longestHeaders = 16 << 10
	// longestOther is how long a message may be that the library reads itself: those of health.
	longestOther = 64 << 10
	handshake    = 10 * time.Second
	pingAfter    = 30 * time.Second
	pingTimeout  = 10 * time.Second
	leastPing    = 10 * time.Second
)

// Open listens on an address. Beyond the loopback it takes TLS, or the word that none is wanted.
func Open(address string, secured, insecure bool, connections int) (net.Listener, error) {
	l, err := net.Listen("tcp", address)
	if err != nil {
		return nil, fmt.Errorf("listen on %s: %w", address, err)
	}
	at, ok := l.Addr().(*net.TCPAddr)
	if !secured && !insecure && (!ok || !at.IP.IsLoopback()) {
		l.Close()
		return nil, fmt.Errorf("listen on %s: beyond the loopback this takes --tls-cert and --tls-key, or --insecure", address)
	}
	return netutil.LimitListener(l, connections), nil
}

// A Server is grpc's, with health.
type Server struct {
	*grpc.Server
	health *health.Server
	// unwatch ends the calls that watch health, which would go on for ever.
	unwatch context.CancelFunc
}

// Serve takes connections until the server stops.
func (s *Server) Serve(l net.Listener) error { return s.Server.Serve(counting{l}) }

// watching is the health service whose calls that watch end with a context besides their own.
type watching struct {
	*health.Server
	server context.Context
}

func (w watching) Watch(of *healthpb.HealthCheckRequest, call healthpb.Health_WatchServer) error {
	ctx, cancel := context.WithCancel(call.Context())
	defer cancel()
	go func() {
		select {
		case <-w.server.Done():
			cancel()
		case <-ctx.Done():
		}
	}()
	return w.Server.Watch(of, watched{call, ctx})
}

type watched struct {
	healthpb.Health_WatchServer
	ctx context.Context
}

func (w watched) Context() context.Context { return w.ctx }

// A Handler serves a call of one of the services of package wire.
type Handler func(service wire.Service, call grpc.ServerStream) error

// New makes a server whose calls go to the handler; nil credentials stand for none. A connection may have so many calls,
// those among them that the peer gave up and whose handler still runs, and may send so far ahead on each.
func New(calls int, ahead int32, creds credentials.TransportCredentials, handler Handler) *Server {
	ctx, unwatch := context.WithCancel(context.Background())
	options := []grpc.ServerOption{
		grpc.CustomCodec(wire.Codec{}),
		grpc.UnknownServiceHandler(func(_ interface{}, call grpc.ServerStream) error { return serve(call, calls, handler) }),
		grpc.MaxRecvMsgSize(longestOther),
		grpc.MaxSendMsgSize(1 << 30),
		grpc.MaxConcurrentStreams(uint32(calls)),
		grpc.MaxHeaderListSize(longestHeaders),
		grpc.InitialWindowSize(ahead),
		grpc.InitialConnWindowSize(connWindow),
		grpc.ConnectionTimeout(handshake),
		grpc.KeepaliveParams(keepalive.ServerParameters{Time: pingAfter, Timeout: pingTimeout}),
		grpc.KeepaliveEnforcementPolicy(keepalive.EnforcementPolicy{MinTime: leastPing, PermitWithoutStream: true}),
	}
	if creds != nil {
		options = append(options, grpc.Creds(creds))
	}
	s := &Server{Server: grpc.NewServer(options...), health: health.NewServer(), unwatch: unwatch}
	healthpb.RegisterHealthServer(s.Server, watching{s.health, ctx})
	return s
}

// Serving says of a service whether it takes calls, to those who ask or watch health; the empty name is the process.
func (s *Server) Serving(name string, yes bool) {
	state := healthpb.HealthCheckResponse_NOT_SERVING
	if yes {
		state = healthpb.HealthCheckResponse_SERVING
	}
	s.health.SetServingStatus(name, state)
}

// StopWithin lets the calls that run come to their end, and after that long ends them. Health says that nothing is
// served any more from the beginning.
func (s *Server) StopWithin(grace time.Duration) (inTime bool) {
	s.health.Shutdown()
	s.unwatch()
	done := make(chan struct{})
	go func() {
		s.GracefulStop()
		close(done)
	}()
	select {
	case <-done:
		return true
	case <-time.After(grace):
		s.Stop()
		<-done
		return false
	}
}

func serve(call grpc.ServerStream, most int, handler Handler) error {
	method, _ := grpc.MethodFromServerStream(call)
	service, ok := wire.ByMethod(method)
	if !ok {
		return status.Errorf(codes.Unimplemented, "%s isn't served here", method)
	}
	from := peerOf(call)
	if from == nil {
		return status.Error(codes.Internal, "a call without its connection")
	}
	defer atomic.AddInt64(&from.running, -1)
	if atomic.AddInt64(&from.running, 1) > int64(most) {
		return status.Errorf(codes.Unavailable, "more than %d calls on this connection", most)
	}
	return asStatus(handler(service, call))
}

// asStatus keeps the words of an error that isn't grpc's.
func asStatus(err error) error {
	if err == nil {
		return nil
	}
	if _, ok := status.FromError(err); ok {
		return err
	}
	if errors.Is(err, context.Canceled) || errors.Is(err, context.DeadlineExceeded) {
		return status.FromContextError(err).Err()
	}
	return status.Error(codes.Unavailable, err.Error())
}

// counting has each connection count its handlers, since grpc-go 1.33 counts a call no more once its peer has reset it.
// The count comes with the peer's address, the one thing of a connection that grpc-go shows to each of its calls at no
// cost.
type counting struct{ net.Listener }

func (l counting) Accept() (net.Conn, error) {
	c, err := l.Listener.Accept()
	if err != nil {
		return nil, err
	}
	return connection{c, &counted{Addr: c.RemoteAddr()}}, nil
}

type connection struct {
	net.Conn
	from *counted
}

func (c connection) RemoteAddr() net.Addr { return c.from }

// counted is an address, and how many handlers run for the connection from there.
type counted struct {
	net.Addr
	running int64
}

// peerOf is nil for a call that didn't come by a counted connection.
func peerOf(call grpc.ServerStream) *counted {
	if p, ok := peer.FromContext(call.Context()); ok {
		from, _ := p.Addr.(*counted)
		return from
	}
	return nil
}
