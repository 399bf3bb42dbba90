package live_test

import (
	"context"
	"crypto/tls"
	"net/http"
	"os/exec"
	"regexp"
	"strings"
	"testing"

	"finavoluth/edge/internal/live/wire"
	"finavoluth/edge/internal/signal"

	"google.golang.org/grpc"
	"google.golang.org/grpc/codes"
	"google.golang.org/grpc/credentials"
	healthpb "google.golang.org/grpc/health/grpc_health_v1"
	"google.golang.org/grpc/status"
)

// TestMutualTLS has TLS on all three hops, with certificates of both sides on the first two.
func TestMutualTLS(t *testing.T) {
	t.Parallel()
	ours, theirs := newAuthority(t), newAuthority(t)
	b := newBackend(t, credentials.NewTLS(&tls.Config{Certificates: []tls.Certificate{ours.pair("backend")}}), nil)
	farCert, farKey := ours.files("far")
	nearCert, nearKey := ours.files("near")
	serverCert, serverKey := ours.files("server")
	x := newBridge(t, b,
		[]string{"--signals", "logs", "--tls-cert", serverCert, "--tls-key", serverKey, "--tls-client-ca", ours.file,
			"--to-ca", ours.file, "--to-cert", nearCert, "--to-key", nearKey},
		[]string{"--tls-cert", farCert, "--tls-key", farKey, "--tls-client-ca", ours.file, "--to-ca", ours.file})
	address := x.near.at("grpc")
	cases := []struct {
		name string
		with grpc.DialOption
		code codes.Code
	}{
		{"a client of our authority", grpc.WithTransportCredentials(ours.client(ours.pair("client"))), codes.OK},
		{"one without a certificate", grpc.WithTransportCredentials(ours.client()), codes.Unavailable},
		{"one of another authority", grpc.WithTransportCredentials(ours.client(theirs.pair("stranger"))), codes.Unavailable},
		{"one that trusts another authority", grpc.WithTransportCredentials(theirs.client(ours.pair("client"))), codes.Unavailable},
		{"one without TLS", grpc.WithInsecure(), codes.Unavailable},
		{"one of TLS 1.1", grpc.WithTransportCredentials(credentials.NewTLS(&tls.Config{RootCAs: ours.pool(), MaxVersion: tls.VersionTLS11,
			MinVersion: tls.VersionTLS10, Certificates: []tls.Certificate{ours.pair("client")}})), codes.Unavailable},
		{"ours again", grpc.WithTransportCredentials(ours.client(ours.pair("client"))), codes.OK},
	}
	for i, c := range cases {
		err := export(context.Background(), connect(t, address, c.with), signal.Logs, numbered(i, 0))
		if status.Code(err) != c.code {
			t.Errorf("%s: %v, expected %v", c.name, err, c.code)
		}
	}
	if n := len(b.snapshot()); n != 2 {
		t.Errorf("the backend has %d requests, and two clients might send", n)
	}
	x.end(nil)
}

// TestStrangersServer has a near end that trusts another authority than the far end's.
func TestStrangersServer(t *testing.T) {
	t.Parallel()
	ours, theirs := newAuthority(t), newAuthority(t)
	cert, key := ours.files("far")
	x := newBridge(t, newBackend(t, nil, nil), []string{"--signals", "logs", "--to-ca", theirs.file},
		[]string{"--tls-cert", cert, "--tls-key", key})
	err := export(context.Background(), connect(t, x.near.at("grpc")), signal.Logs, numbered(1, 0))
	if status.Code(err) != codes.Unavailable || !strings.Contains(err.Error(), "certificate") {
		t.Errorf("to a far end that isn't trusted: %v", err)
	}
	x.end(nil)
}

// TestRefusedWords has words with which nothing is served.
func TestRefusedWords(t *testing.T) {
	t.Parallel()
	cases := []struct {
		words []string
		says  string
	}{
		{[]string{"near", "--listen", "0.0.0.0:0", "--to", "127.0.0.1:1"}, "--insecure"},
		{[]string{"far", "--listen", "[::]:0", "--to", "127.0.0.1:1"}, "--insecure"},
		{[]string{"record", "--listen", "0.0.0.0:0", "--dir", t.TempDir()}, "--insecure"},
		{[]string{"near", "--listen", "127.0.0.1:0", "--to", "127.0.0.1:1", "--metrics", "0.0.0.0:0"}, "--insecure"},
		{[]string{"near", "--listen", "127.0.0.1:0", "--to", "127.0.0.1:1", "--tls-client-ca", "none"}, "--tls-cert"},
		{[]string{"near", "--listen", "127.0.0.1:0", "--to", "127.0.0.1:1", "--to-ca", "none"}, "--to-ca"},
		{[]string{"near", "--listen", "127.0.0.1:0", "--to", "127.0.0.1:1", "--window-bytes", "1000"}, "--window-bytes"},
		{[]string{"near", "--listen", "127.0.0.1:0"}, "--to"},
		{[]string{"near", "--to", "127.0.0.1:1", "--signals", "profiles"}, "profiles"},
		{[]string{"far", "--to", "127.0.0.1"}, "HOST:PORT"},
		{[]string{"near", "--to", "127.0.0.1:1", "--otap-cli", "/bin/false"}, "probe the program"},
	}
	for _, c := range cases {
		out, err := exec.Command(built(t), append(words(), c.words...)...).CombinedOutput()
		exit, ok := err.(*exec.ExitError)
		if !ok || exit.ExitCode() != 2 || !strings.Contains(string(out), c.says) {
			t.Errorf("%v: %v, %s", c.words, err, out)
		}
	}
}

func TestHealth(t *testing.T) {
	t.Parallel()
	x := newBridge(t, newBackend(t, nil, nil), []string{"--signals", "logs"}, nil)
	x.near.said(streamOpen, 1)
	ctx, cancel := context.WithTimeout(context.Background(), limit)
	defer cancel()
	conn, err := grpc.Dial(x.near.at("grpc"), grpc.WithInsecure())
	if err != nil {
		t.Fatal(err)
	}
	defer conn.Close()
	health := healthpb.NewHealthClient(conn)
	watch := func(service string) func() healthpb.HealthCheckResponse_ServingStatus {
		w, err := health.Watch(ctx, &healthpb.HealthCheckRequest{Service: service})
		if err != nil {
			t.Fatal(err)
		}
		return func() healthpb.HealthCheckResponse_ServingStatus {
			r, err := w.Recv()
			if err != nil {
				t.Fatalf("watch %q: %v", service, err)
			}
			return r.Status
		}
	}
	whole, logs := watch(""), watch(wire.Service{Signal: signal.Logs}.Name())
	serving, not := healthpb.HealthCheckResponse_SERVING, healthpb.HealthCheckResponse_NOT_SERVING
	if got := whole(); got != serving {
		t.Errorf("the process is %v", got)
	}
	for logs() != serving { // until the stream counts as open
	}
	x.far.kill()
	if got := logs(); got != not {
		t.Errorf("without a far end, logs are %v", got)
	}
	x.startFar()
	if got := logs(); got != serving {
		t.Errorf("with a far end again, logs are %v", got)
	}
	if r, err := health.Check(ctx, &healthpb.HealthCheckRequest{}); err != nil || r.Status != serving {
		t.Errorf("check: %v, %v", r, err)
	}
	x.end(nil)
}

func TestMetrics(t *testing.T) {
	t.Parallel()
	x := newBridge(t, newBackend(t, nil, nil), []string{"--signals", "logs", "--metrics", "127.0.0.1:0"}, nil)
	l := x.load(4, 0, times(30))
	l.finish(l.begin())
	export(context.Background(), l.conn, signal.Logs, []byte{0xff})
	text := get(t, "http://"+x.near.at("metrics")+"/metrics")
	for _, line := range []string{
		`otap_requests_total{signal="logs",code="OK"} 30`,
		`otap_requests_total{signal="logs",code="InvalidArgument"} 1`,
		`otap_refused_total{signal="logs",cause="BadMessage"} 1`,
		`otap_batches_total{signal="logs"} 30`,
		`otap_statuses_total{signal="logs",code="OK"} 30`,
		`otap_streams_open{signal="logs"} 1`,
		`otap_window_bytes 0`,
		`# TYPE otap_requests_total counter`,
	} {
		if !strings.Contains(text, line+"\n") {
			t.Errorf("the metrics lack %q:\n%s", line, text)
		}
	}
	form := regexp.MustCompile(`^(# (HELP|TYPE) [a-z_]+ .+|[a-z_]+(\{([a-z]+="[^"\n]*",?)+\})? [0-9.e+-]+)$`)
	for _, line := range strings.Split(strings.TrimSuffix(text, "\n"), "\n") {
		if !form.MatchString(line) {
			t.Errorf("not in Prometheus' form: %q", line)
		}
	}
	x.end(l)
}

func get(t *testing.T, url string) string {
	t.Helper()
	r, err := http.Get(url)
	if err != nil {
		t.Fatal(err)
	}
	defer r.Body.Close()
	var b strings.Builder
	buffer := make([]byte, 1<<16)
	for {
		n, err := r.Body.Read(buffer)
		b.Write(buffer[:n])
		if err != nil {
			return b.String()
		}
	}
}
