// Package live runs the live edge: near and far ends of a bridge between Collectors, and a recorder. It puts together
// what the packages below it do, from flags to the end of the process.
package live

import (
	"context"
	"crypto/tls"
	"errors"
	"fmt"
	"io"
	"net"
	"net/http"
	"os"
	"runtime"
	"runtime/debug"
	"time"

	"finavoluth/edge/internal/live/dial"
	"finavoluth/edge/internal/live/listen"
	"finavoluth/edge/internal/live/logline"
	"finavoluth/edge/internal/live/metrics"
	"finavoluth/edge/internal/live/window"
	"finavoluth/edge/internal/live/wire"

	"google.golang.org/grpc"
	"google.golang.org/grpc/credentials"
)

// Options are those that near, far and record share.
type Options struct {
	Listen   string
	TLS      listen.Files
	Insecure bool
	// Connections is how many connections there may be, Calls how many calls on each.
	Connections, Calls int
	To                 dial.Target
	WindowBytes        int64
	MaxMessage         int
	Timeout, Grace     time.Duration
	// Metrics is the address for /metrics; empty for none.
	Metrics string
	// Log is where the log goes.
	Log io.Writer
}

// The metrics of all three.
var table = []metrics.Metric{
	{Name: "otap_requests_total", Kind: metrics.Counter, Help: "OTLP requests that were answered, by gRPC's code.", Labels: []string{"signal", "code"}},
	{Name: "otap_request_bytes_total", Kind: metrics.Counter, Help: "Bytes of OTLP requests that came.", Labels: []string{"signal"}},
	{Name: "otap_batches_total", Kind: metrics.Counter, Help: "Batches that were sent (near) or came (far).", Labels: []string{"signal"}},
	{Name: "otap_batch_bytes_total", Kind: metrics.Counter, Help: "Bytes of these batches.", Labels: []string{"signal"}},
	{Name: "otap_resent_total", Kind: metrics.Counter, Help: "Batches of requests that were sent again on a new stream.", Labels: []string{"signal"}},
	{Name: "otap_statuses_total", Kind: metrics.Counter, Help: "Statuses of batches, by code.", Labels: []string{"signal", "code"}},
	{Name: "otap_refused_total", Kind: metrics.Counter, Help: "Requests or batches that the program refused, by cause.", Labels: []string{"signal", "cause"}},
	{Name: "otap_streams_open", Kind: metrics.Gauge, Help: "OTel-Arrow streams that are open.", Labels: []string{"signal"}},
	{Name: "otap_streams_started_total", Kind: metrics.Counter, Help: "OTel-Arrow streams that were opened.", Labels: []string{"signal"}},
	{Name: "otap_streams_ended_total", Kind: metrics.Counter, Help: "OTel-Arrow streams that ended, by code.", Labels: []string{"signal", "code"}},
	{Name: "otap_streams_refused_total", Kind: metrics.Counter, Help: "OTel-Arrow streams above --max-streams.", Labels: []string{"signal"}},
	{Name: "otap_children_started_total", Kind: metrics.Counter, Help: "Children that were started.", Labels: []string{"job"}},
	{Name: "otap_children_lost_total", Kind: metrics.Counter, Help: "Children that ended by themselves.", Labels: []string{"job"}},
	{Name: "otap_kept_total", Kind: metrics.Counter, Help: "Messages written to captures.", Labels: []string{"signal", "form"}},
	{Name: "otap_kept_bytes_total", Kind: metrics.Counter, Help: "Bytes of these messages.", Labels: []string{"signal", "form"}},
	{Name: "otap_not_kept_total", Kind: metrics.Counter, Help: "Messages that couldn't be written.", Labels: []string{"signal", "form"}},
	{Name: "otap_window_bytes", Kind: metrics.Gauge, Help: "Bytes on their way."},
	{Name: "otap_window_messages", Kind: metrics.Gauge, Help: "Messages on their way."},
}

// An edge is what a process of the live edge has, whatever it does.
type edge struct {
	Options
	log     *logline.Log
	metrics *metrics.Registry
	window  *window.Window
	server  *listen.Server
	tls     *tls.Config // nil where there is none
	handler listen.Handler
}

// begin checks the options and makes what all have. A peer may send so many bytes of a call ahead of its handler.
func begin(o Options, ahead int32) (*edge, error) {
	if o.WindowBytes < 2*int64(o.MaxMessage) {
		return nil, fmt.Errorf("--window-bytes %d: it has to be at least twice --max-message, %d", o.WindowBytes, o.MaxMessage)
	}
	config, err := o.TLS.Config()
	if err != nil {
		return nil, err
	}
	e := &edge{Options: o, log: logline.New(o.Log), metrics: metrics.New(table), window: window.New(o.WindowBytes), tls: config}
	var creds credentials.TransportCredentials
	if config != nil {
		creds = credentials.NewTLS(config)
	}
	e.server = listen.New(o.Calls, ahead, creds, func(s wire.Service, call grpc.ServerStream) error { return e.handler(s, call) })
	e.metrics.Read("otap_window_bytes", func() float64 { bytes, _ := e.window.Used(); return float64(bytes) })
	e.metrics.Read("otap_window_messages", func() float64 { _, tickets := e.window.Used(); return float64(tickets) })
	boundMemory(o.WindowBytes)
	return e, nil
}

// boundMemory has the garbage collector keep this process's part of the memory that the window allows: half of what a
// message costs is its child's. Below that, it may wait until four times as much is dead as lives.
func boundMemory(windowBytes int64) {
	debug.SetMemoryLimit(32<<20 + 3*windowBytes)
	debug.SetGCPercent(400)
}

// shareProcessors leaves half of the processors to the children, which take as much as the edge does. More would do little
// but wake each other: Go has a thread look for work for each goroutine that could run on another processor.
func shareProcessors() {
	if os.Getenv("GOMAXPROCS") == "" {
		runtime.GOMAXPROCS((runtime.NumCPU() + 1) / 2)
	}
}

func (e *edge) limits() wire.Limits {
	return wire.Limits{Bytes: e.MaxMessage, Patience: e.Timeout, Window: e.window}
}

// A second listener, beside gRPC's, and who serves it.
type beside struct {
	name   string
	listen net.Listener
	server *http.Server
}

// serve serves until the context ends, then calls stop, and ends what doesn't end within the grace.
func (e *edge) serve(ctx context.Context, others []beside, stop func()) error {
	at, err := listen.Open(e.Listen, e.tls != nil, e.Insecure, e.Connections)
	if err != nil {
		return err
	}
	if e.Metrics != "" {
		l, err := listen.Open(e.Metrics, false, e.Insecure, e.Connections)
		if err != nil {
			at.Close()
			return err
		}
		others = append(others, beside{"metrics", l, &http.Server{Handler: e.metrics, ReadHeaderTimeout: e.Timeout}})
	}
	failed := make(chan error, 1+len(others))
	for _, o := range others {
		go func(o beside) { failed <- o.server.Serve(o.listen) }(o)
		e.log.Info("listening", "service", o.name, "addr", o.listen.Addr())
	}
	go func() { failed <- e.server.Serve(at) }()
	e.server.Serving("", true)
	e.log.Info("listening", "service", "grpc", "addr", at.Addr())
	select {
	case err = <-failed:
		err = fmt.Errorf("serve: %w", err)
	case <-ctx.Done():
		e.log.Info("ending", "grace", e.Grace)
	}
	return e.end(others, stop, err)
}

func (e *edge) end(others []beside, stop func(), err error) error {
	stop()
	until, cancel := context.WithTimeout(context.Background(), e.Grace)
	defer cancel()
	inTime := e.server.StopWithin(e.Grace)
	for _, o := range others {
		if shut := o.server.Shutdown(until); shut != nil {
			inTime = false
			o.server.Close()
		}
	}
	if !inTime {
		e.log.Warn("some calls were ended before they were answered", "grace", e.Grace)
	}
	e.log.Info("ended")
	if errors.Is(err, http.ErrServerClosed) {
		return nil
	}
	return err
}
