// Package dial connects to the next hop: with TLS, but to the loopback or where that is refused by name. It trusts
// grpc-go for HTTP/2 and crypto/tls for TLS, and has no way to leave out verification.
package dial

import (
	"crypto/tls"
	"errors"
	"fmt"
	"net"
	"time"

	"finavoluth/edge/internal/live/listen"
	"finavoluth/edge/internal/live/wire"

	"google.golang.org/grpc"
	"google.golang.org/grpc/backoff"
	"google.golang.org/grpc/credentials"
	"google.golang.org/grpc/keepalive"
)

// A Target is where to connect to, and how.
type Target struct {
	Address       string
	CA, Cert, Key string
	// Insecure allows plain connections beyond the loopback.
	Insecure bool
	// Compression is none, gzip or zstd.
	Compression string
}

const (
	// longestAnswer is how long an answer may be: a response of an Export, or a BatchStatus.
	longestAnswer = 1 << 20
	// window is HTTP/2's own, of a call and of the connection. Answers are short, so it needn't grow; where it is named,
	// grpc-go doesn't measure the connection either, by a ping for nearly each answer.
	window       = 64<<10 - 1
	connectFirst = 200 * time.Millisecond
	connectMost  = 5 * time.Second
	// pingAfter is longer than the five minutes below which servers of grpc-go, as they come, end a connection for its
	// pings. A next hop that falls silent is noticed sooner, by what isn't answered.
	pingAfter   = 5*time.Minute + 30*time.Second
	pingTimeout = 20 * time.Second
)

// Connect makes a connection, which is opened when it is first used and again whenever it breaks.
func (t Target) Connect() (*grpc.ClientConn, error) {
	security, err := t.security()
	if err != nil {
		return nil, err
	}
	calls := []grpc.CallOption{
		grpc.ForceCodec(wire.Codec{}),
		grpc.MaxCallRecvMsgSize(longestAnswer),
		grpc.MaxCallSendMsgSize(1 << 30),
	}
	switch t.Compression {
	case "", "none":
	case "gzip", "zstd":
		calls = append(calls, grpc.UseCompressor(t.Compression))
	default:
		return nil, fmt.Errorf("--compression %s: it is none, gzip or zstd", t.Compression)
	}
	conn, err := grpc.Dial(t.Address, security,
		grpc.WithDefaultCallOptions(calls...),
		grpc.WithConnectParams(grpc.ConnectParams{
			Backoff:           backoff.Config{BaseDelay: connectFirst, Multiplier: 1.6, Jitter: 0.2, MaxDelay: connectMost},
			MinConnectTimeout: connectMost,
		}),
		grpc.WithInitialWindowSize(window),
		grpc.WithInitialConnWindowSize(window),
		grpc.WithKeepaliveParams(keepalive.ClientParameters{Time: pingAfter, Timeout: pingTimeout}),
		grpc.WithDisableServiceConfig(),
		grpc.WithUserAgent("otap"))
	if err != nil {
		return nil, fmt.Errorf("connect to %s: %w", t.Address, err)
	}
	return conn, nil
}

func (t Target) security() (grpc.DialOption, error) {
	host, _, err := net.SplitHostPort(t.Address)
	if err != nil {
		return nil, fmt.Errorf("%q is no HOST:PORT: %w", t.Address, err)
	}
	if t.CA == "" && t.Cert == "" && t.Key == "" && (t.Insecure || loopback(host)) {
		return grpc.WithInsecure(), nil
	}
	if t.Insecure {
		return nil, errors.New("--to-insecure doesn't go with --to-ca, --to-cert and --to-key")
	}
	config := &tls.Config{MinVersion: tls.VersionTLS12}
	if t.CA != "" {
		if config.RootCAs, err = listen.Pool(t.CA); err != nil {
			return nil, fmt.Errorf("read --to-ca: %w", err)
		}
	}
	if t.Cert != "" || t.Key != "" {
		pair, err := tls.LoadX509KeyPair(t.Cert, t.Key)
		if err != nil {
			return nil, fmt.Errorf("read --to-cert %s and --to-key %s: %w", t.Cert, t.Key, err)
		}
		config.Certificates = []tls.Certificate{pair}
	}
	return grpc.WithTransportCredentials(credentials.NewTLS(config)), nil
}

func loopback(host string) bool {
	if host == "localhost" {
		return true
	}
	ip := net.ParseIP(host)
	return ip != nil && ip.IsLoopback()
}
