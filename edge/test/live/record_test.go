package live_test

import (
	"bytes"
	"compress/gzip"
	"context"
	"net/http"
	"os"
	"path/filepath"
	"regexp"
	"sort"
	"strings"
	"testing"

	"finavoluth/edge/internal/live/wire"
	"finavoluth/edge/internal/signal"

	"google.golang.org/grpc"
	"google.golang.org/grpc/codes"
	"google.golang.org/grpc/metadata"
	"google.golang.org/grpc/status"
)

func newRecorder(t *testing.T, args ...string) (*process, string) {
	t.Helper()
	dir := filepath.Join(t.TempDir(), "captures")
	p := start(t, append([]string{"record", "--listen", "127.0.0.1:0", "--listen-http", "127.0.0.1:0", "--dir", dir}, args...)...)
	p.at("grpc")
	return p, dir
}

// kept are the messages of the captures of a folder whose names begin so, in the order of their names.
func kept(t *testing.T, dir, front string) (messages [][]byte, files int) {
	t.Helper()
	names, _ := filepath.Glob(filepath.Join(dir, front+"*"))
	sort.Strings(names)
	form := regexp.MustCompile(`^(traces|logs|metrics)-(otlp|otap)-\d{8}T\d{6}Z-\d{4}\.capture$`)
	for _, name := range names {
		if !form.MatchString(filepath.Base(name)) {
			t.Errorf("a capture is called %s", name)
		}
		info, err := os.Stat(name)
		if err != nil || info.Mode().Perm() != 0o600 {
			t.Errorf("%s: %v, %v", name, info.Mode(), err)
		}
		data, err := os.ReadFile(name)
		if err != nil {
			t.Fatal(err)
		}
		messages = append(messages, frames(t, data)...)
	}
	return messages, len(names)
}

// TestRecordOTLP has requests in each encoding kept as they are, uncompressed.
func TestRecordOTLP(t *testing.T) {
	t.Parallel()
	p, dir := newRecorder(t)
	conn := connect(t, p.at("grpc"))
	for _, s := range signal.All() {
		requests := examples(t, s)
		encodings := []string{"", "gzip", "zstd", "zstdarrow1", "zstdarrow5", "zstdarrow10"}
		var sent [][]byte
		for i, r := range requests {
			var options []grpc.CallOption
			if e := encodings[i%len(encodings)]; e != "" {
				options = append(options, grpc.UseCompressor(e))
			}
			if err := export(context.Background(), conn, s, r, options...); err != nil {
				t.Fatalf("%s %d: %v", s, i, err)
			}
			sent = append(sent, r)
		}
		got, files := kept(t, dir, s.String()+"-otlp")
		same(t, s.String(), got, sent)
		if files != 1 {
			t.Errorf("%s: %d captures", s, files)
		}
	}
	if err := sendPacked(conn, "snappy", []byte("x")); status.Code(err) != codes.Unimplemented {
		t.Errorf("an encoding that isn't known: %v", err)
	}
	p.term()
}

// TestRecordArrow has two streams kept in a capture each, and answered.
func TestRecordArrow(t *testing.T) {
	t.Parallel()
	p, dir := newRecorder(t)
	conn := connect(t, p.at("grpc"))
	batches := frames(t, ask(t, captured(examples(t, signal.Logs)...), "encode", "logs"))
	for k, encoding := range []string{"", "zstdarrow5"} {
		var options []grpc.CallOption
		if encoding != "" {
			options = append(options, grpc.UseCompressor(encoding))
		}
		answerAll(t, arrow(t, conn, signal.Logs, options...), batches)
		got, files := kept(t, dir, "logs-otap")
		if files != k+1 {
			t.Errorf("%d captures after %d streams", files, k+1)
		}
		same(t, "the last stream", got[k*len(batches):], batches)
	}
	p.term()
}

// answerAll sends batches on a stream, each with the status of the one before it heard, and ends the stream.
func answerAll(t *testing.T, stream grpc.ClientStream, batches [][]byte) {
	t.Helper()
	for i := range batches {
		if err := stream.SendMsg(&batches[i]); err != nil {
			t.Fatalf("batch %d: %v", i, err)
		}
		var answer []byte
		if err := stream.RecvMsg(&answer); err != nil {
			t.Fatalf("batch %d: %v", i, err)
		}
		if s, err := wire.ReadStatus(answer); err != nil || s.Code != codes.OK || s.ID != int64(i) {
			t.Fatalf("batch %d: %+v, %v", i, s, err)
		}
	}
	stream.CloseSend()
	var answer []byte
	if err := stream.RecvMsg(&answer); status.Code(err) != codes.Unknown { // io.EOF
		t.Errorf("the stream's end: %v", err)
	}
}

// TestRecordForwards has a recorder before a far end and a backend, by both protocols, with headers.
func TestRecordForwards(t *testing.T) {
	t.Parallel()
	b := newBackend(t, nil, func(_ int, request []byte) error {
		if bytes.Contains(request, []byte("request 7 ")) {
			return status.Error(codes.PermissionDenied, "not you")
		}
		return nil
	})
	p, dir := newRecorder(t, "--forward", b.address)
	conn := connect(t, p.at("grpc"))
	ctx := metadata.AppendToOutgoingContext(context.Background(), "x-tenant", "of mine", "authorization", "Bearer secret")
	if err := export(ctx, conn, signal.Logs, numbered(1, 0)); err != nil {
		t.Fatal(err)
	}
	if got := b.headers.Get("x-tenant"); len(got) != 1 || got[0] != "of mine" {
		t.Errorf("the backend got the headers %v", b.headers)
	}
	if err := export(ctx, conn, signal.Logs, numbered(7, 0)); status.Code(err) != codes.PermissionDenied || !strings.Contains(err.Error(), "not you") {
		t.Errorf("what the backend refuses: %v", err)
	}
	requests := [][]byte{numbered(1, 0), numbered(7, 0)}
	got, _ := kept(t, dir, "logs-otlp")
	same(t, "kept", got, requests)
	for _, name := range names(t, dir) {
		data, _ := os.ReadFile(name)
		if bytes.Contains(data, []byte("secret")) {
			t.Errorf("%s has a header", name)
		}
	}
	p.term()

	far := start(t, "far", "--listen", "127.0.0.1:0", "--to", b.address)
	p, dir = newRecorder(t, "--forward", far.at("grpc"))
	batches := frames(t, ask(t, captured(numbered(20, 0), numbered(21, 0), numbered(22, 0)), "encode", "logs"))
	answerAll(t, arrow(t, connect(t, p.at("grpc")), signal.Logs), batches)
	got, _ = kept(t, dir, "logs-otap")
	same(t, "kept of a stream", got, batches)
	same(t, "at the backend", b.order[1:], throughBoth(t, signal.Logs, [][]byte{numbered(20, 0), numbered(21, 0), numbered(22, 0)}))
	p.term()
	far.term()
}

func names(t *testing.T, dir string) []string {
	t.Helper()
	found, err := filepath.Glob(filepath.Join(dir, "*"))
	if err != nil || len(found) == 0 {
		t.Fatalf("no captures in %s (%v)", dir, err)
	}
	return found
}

// TestRecordBounds has a capture go on in a new one, and a folder that is full.
func TestRecordBounds(t *testing.T) {
	t.Parallel()
	const size = 1000
	p, dir := newRecorder(t, "--rotate", "2500", "--max-bytes", "6500")
	conn := connect(t, p.at("grpc"))
	var sent [][]byte
	for i := 0; ; i++ {
		err := export(context.Background(), conn, signal.Logs, numbered(i, size))
		if status.Code(err) == codes.ResourceExhausted {
			break
		}
		if err != nil || i > 6 {
			t.Fatalf("request %d: %v", i, err)
		}
		sent = append(sent, numbered(i, size))
	}
	got, files := kept(t, dir, "logs-otlp")
	same(t, "kept", got, sent)
	if files != 3 || len(sent) != 6 {
		t.Errorf("%d requests in %d captures; 6 fit, two to a capture", len(sent), files)
	}
	code, _ := post(t, p, "/v1/logs", "application/x-protobuf", "", numbered(9, size))
	if code != http.StatusInsufficientStorage {
		t.Errorf("over HTTP, a full folder is %d", code)
	}
	p.term()
	again := start(t, "record", "--listen", "127.0.0.1:0", "--listen-http", "", "--dir", dir, "--max-bytes", "6500")
	err := export(context.Background(), connect(t, again.at("grpc")), signal.Logs, numbered(9, size))
	if status.Code(err) != codes.ResourceExhausted {
		t.Errorf("what is in the folder doesn't count: %v", err)
	}
	again.term()
}

func post(t *testing.T, p *process, path, kind, encoding string, body []byte) (int, string) {
	t.Helper()
	request, _ := http.NewRequest("POST", "http://"+p.at("http")+path, bytes.NewReader(body))
	request.Header.Set("Content-Type", kind)
	request.Header.Set("X-Tenant", "of mine")
	if encoding != "" {
		request.Header.Set("Content-Encoding", encoding)
	}
	r, err := http.DefaultClient.Do(request)
	if err != nil {
		t.Fatal(err)
	}
	defer r.Body.Close()
	return r.StatusCode, r.Header.Get("Content-Type")
}

func TestRecordHTTP(t *testing.T) {
	t.Parallel()
	b := newBackend(t, nil, nil)
	p, dir := newRecorder(t, "--forward", b.address, "--max-message", "1000000")
	zip := func(b []byte) []byte {
		var z bytes.Buffer
		w := gzip.NewWriter(&z)
		w.Write(b)
		w.Close()
		return z.Bytes()
	}
	const protobuf = "application/x-protobuf"
	cases := []struct {
		name, path, kind, encoding string
		body                       []byte
		code                       int
	}{
		{"plain", "/v1/logs", protobuf, "", numbered(1, 0), 200},
		{"gzip", "/v1/logs", protobuf, "gzip", zip(numbered(2, 0)), 200},
		{"with a parameter", "/v1/logs", protobuf + "; charset=x", "", numbered(3, 0), 200},
		{"JSON", "/v1/logs", "application/json", "", []byte("{}"), 415},
		{"zstd", "/v1/logs", protobuf, "zstd", []byte("x"), 415},
		{"no gzip", "/v1/logs", protobuf, "gzip", []byte("no gzip at all"), 400},
		{"too long", "/v1/logs", protobuf, "", make([]byte, 1_000_001), 413},
		{"a bomb", "/v1/logs", protobuf, "gzip", zip(make([]byte, 1_000_001)), 413},
		{"another path", "/v1/profiles", protobuf, "", numbered(4, 0), 404},
	}
	for _, c := range cases {
		if code, kind := post(t, p, c.path, c.kind, c.encoding, c.body); code != c.code || kind != protobuf {
			t.Errorf("%s: %d %s, expected %d", c.name, code, kind, c.code)
		}
	}
	got, _ := kept(t, dir, "logs-otlp")
	sent := [][]byte{numbered(1, 0), numbered(2, 0), numbered(3, 0)}
	same(t, "kept", got, sent)
	same(t, "at the backend", b.order, sent)
	if tenant := b.headers.Get("x-tenant"); len(tenant) != 1 {
		t.Errorf("the backend got the headers %v", b.headers)
	}
	r, err := http.Get("http://" + p.at("http") + "/v1/logs")
	if err != nil || r.StatusCode != 405 {
		t.Errorf("GET: %v, %v", r, err)
	}
	p.term()
}
