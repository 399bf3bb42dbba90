package live_test

import (
	"bytes"

	"context"
	"io"
	"math/rand"
	"net"
	"net/http"
	"strings"
	"testing"

	"finavoluth/edge/internal/live/wire"
	"finavoluth/edge/internal/signal"

	"github.com/klauspost/compress/gzip"
	"github.com/klauspost/compress/zstd"
	"google.golang.org/grpc"
	"google.golang.org/grpc/codes"
	"google.golang.org/grpc/status"
)

// TestHostilePeers sends near and far what no Collector sends, and then a load that has to pass.
func TestHostilePeers(t *testing.T) {
	t.Parallel()
	const total = 60
	x := newBridge(t, newBackend(t, nil, nil), []string{"--signals", "logs"}, []string{"--max-streams", "8"})
	for _, p := range []*process{x.near, x.far} {
		address := p.at("grpc")
		randomBytes(t, address)
		olderHTTP(t, address)
		conn := connect(t, address)
		other := []byte{}
		err := conn.Invoke(context.Background(), "/opentelemetry.proto.collector.profiles.v1development.ProfilesService/Export", &other, &other)
		if status.Code(err) != codes.Unimplemented {
			t.Errorf("%s: a service that isn't served: %v", p.name, err)
		}
	}
	bombs(t, connect(t, x.near.at("grpc")))
	x.near.within(x.windows)
	wrongSignal(t, connect(t, x.far.at("grpc")))
	tooManyStreams(t, x)
	l := x.load(4, 100, times(total))
	l.finish(l.begin())
	if len(l.acked) != total {
		t.Errorf("%d of %d were acknowledged after all that", len(l.acked), total)
	}
	x.end(l)
}

func randomBytes(t *testing.T, address string) {
	t.Helper()
	source := rand.New(rand.NewSource(1))
	for i := 0; i < 20; i++ {
		c, err := net.Dial("tcp", address)
		if err != nil {
			t.Fatal(err)
		}
		noise := make([]byte, 1<<uint(source.Intn(14)))
		source.Read(noise)
		if i%2 == 0 { // after what HTTP/2 begins with, too
			noise = append([]byte("PRI * HTTP/2.0\r\n\r\nSM\r\n\r\n"), noise...)
		}
		c.Write(noise)
		c.(*net.TCPConn).CloseWrite()
		io.Copy(io.Discard, c) // until the other end gives up
		c.Close()
	}
}

func olderHTTP(t *testing.T, address string) {
	t.Helper()
	r, err := http.Post("http://"+address+"/v1/logs", "application/x-protobuf", bytes.NewReader(numbered(1, 0)))
	if err == nil {
		r.Body.Close()
		t.Errorf("HTTP/1.1 got %s", r.Status)
	}
}

// bombs are messages that unpack to far more than a message may have.
func bombs(t *testing.T, conn *grpc.ClientConn) {
	t.Helper()
	zeros := make([]byte, 1<<20) // 128 of them, above each limit
	var z bytes.Buffer
	g := gzip.NewWriter(&z)
	for i := 0; i < 128; i++ {
		g.Write(zeros)
	}
	g.Close()
	var s bytes.Buffer
	e, _ := zstd.NewWriter(&s)
	for i := 0; i < 128; i++ {
		e.Write(zeros)
	}
	e.Close()
	for _, bomb := range []struct {
		encoding string
		packed   []byte
	}{{"gzip", z.Bytes()}, {"zstd", s.Bytes()}} {
		t.Logf("a %s bomb of %d bytes", bomb.encoding, len(bomb.packed))
		err := sendPacked(conn, bomb.encoding, bomb.packed)
		if status.Code(err) != codes.ResourceExhausted || !strings.Contains(err.Error(), "--max-message") {
			t.Errorf("a %s bomb: %v", bomb.encoding, err)
		}
		if err := sendPacked(conn, bomb.encoding, []byte("no such thing")); status.Code(err) != codes.Internal {
			t.Errorf("what is no %s: %v", bomb.encoding, err)
		}
	}
	if err := sendPacked(conn, "snappy", []byte("x")); status.Code(err) != codes.Unimplemented {
		t.Errorf("an encoding that isn't known: %v", err)
	}
}

// packed says that what it is given is compressed already.
type packed string

func (p packed) Name() string                                 { return string(p) }
func (p packed) Compress(w io.Writer) (io.WriteCloser, error) { return open{w}, nil }
func (p packed) Decompress(r io.Reader) (io.Reader, error)    { return r, nil }
func (p packed) Type() string                                 { return string(p) }
func (p packed) Do(w io.Writer, b []byte) error               { _, err := w.Write(b); return err }

type open struct{ io.Writer }

func (open) Close() error { return nil }

// sendPacked sends bytes to Export as a message in an encoding.
func sendPacked(conn *grpc.ClientConn, encoding string, bytes []byte) error {
	c, err := grpc.Dial(conn.Target(), grpc.WithInsecure(), grpc.WithCompressor(packed(encoding)),
		grpc.WithDefaultCallOptions(grpc.ForceCodec(wire.Codec{})))
	if err != nil {
		return err
	}
	defer c.Close()
	return export(context.Background(), c, signal.Logs, bytes)
}

// wrongSignal sends batches of logs as traces, and looks at the status and at the end of the stream.
func wrongSignal(t *testing.T, conn *grpc.ClientConn) {
	t.Helper()
	stream := arrow(t, conn, signal.Traces)
	for _, batch := range frames(t, ask(t, captured(numbered(1, 0), numbered(2, 0)), "encode", "logs")) {
		stream.SendMsg(&batch)
	}
	var answer []byte
	if err := stream.RecvMsg(&answer); err != nil {
		t.Errorf("batches of another signal: %v", err)
	}
	s, err := wire.ReadStatus(answer)
	if err != nil || s.Code != codes.InvalidArgument || !strings.HasPrefix(s.Message, "stage 2 PayloadType") {
		t.Errorf("batches of another signal: %+v, %v", s, err)
	}
	if err := stream.RecvMsg(&answer); status.Code(err) != codes.Aborted {
		t.Errorf("after a batch that is refused, the stream ends with %v", err)
	}
}

// tooManyStreams opens 20 streams to a far end that takes 8, of which near has one.
func tooManyStreams(t *testing.T, x *bridge) {
	t.Helper()
	x.near.said(streamOpen, 1)
	conn := connect(t, x.far.at("grpc"))
	batch := frames(t, ask(t, captured(numbered(0, 100)), "encode", "logs"))[0] // one of the load
	taken, refused := []grpc.ClientStream{}, 0
	for i := 0; i < 20; i++ {
		stream := arrow(t, conn, signal.Logs)
		stream.SendMsg(&batch)
		var answer []byte
		switch err := stream.RecvMsg(&answer); status.Code(err) {
		case codes.OK:
			taken = append(taken, stream)
		case codes.ResourceExhausted:
			refused++
		default:
			t.Errorf("stream %d: %v", i, err)
		}
	}
	if len(taken) != 7 || refused != 13 {
		t.Errorf("of 20 streams %d were taken and %d refused, where 7 were free", len(taken), refused)
	}
	for _, stream := range taken {
		stream.CloseSend()
		var answer []byte
		if err := stream.RecvMsg(&answer); err != io.EOF {
			t.Errorf("a stream that its client ends: %v", err)
		}
	}
}

// TestLongRequests has requests of 60 MB, whose memory stays within the bound.
func TestLongRequests(t *testing.T) {
	t.Parallel()
	const megabytes60, total = 60_000_000, 3
	sizes := []string{"--max-message", "67108864", "--window-bytes", "134217728"}
	x := newBridge(t, newBackend(t, nil, nil), append([]string{"--signals", "logs"}, sizes...), sizes)
	x.windows = 128 << 20
	l := x.load(2, megabytes60, times(total))
	l.finish(l.begin())
	if len(l.acked) != total {
		t.Errorf("%d of %d were acknowledged", len(l.acked), total)
	}
	x.end(l)
}
