package live_test

import (
	"bytes"
	"io"
	"net"
	"sync"
	"testing"
	"time"

	"finavoluth/edge/internal/live/wire"
	"finavoluth/edge/internal/signal"

	"golang.org/x/net/http2"
	"golang.org/x/net/http2/hpack"
)

// TestCallsOfAConnection has more calls on a connection than it may have: those above the limit wait.
func TestCallsOfAConnection(t *testing.T) {
	t.Parallel()
	const most, total = 4, 40
	var mu sync.Mutex
	waiting, full := 0, make(chan struct{})
	b := newBackend(t, nil, func(int, []byte) error {
		mu.Lock()
		wait := full
		if waiting++; waiting == most {
			waiting, full = 0, make(chan struct{})
			close(wait)
		}
		mu.Unlock()
		<-wait
		return nil
	})
	x := newBridge(t, b, []string{"--signals", "logs", "--max-calls", "4"}, nil)
	l := x.load(16, 0, times(total))
	l.finish(l.begin())
	x.end(l)
	if len(l.acked) != total || len(l.failures) > 0 || b.most != most {
		t.Errorf("%d of %d were acknowledged, with failures %v; %d at once, where %d may be", len(l.acked), total, l.failures, b.most, most)
	}
}

// TestConnections has a connection more than there may be: it is served once another one ends.
func TestConnections(t *testing.T) {
	t.Parallel()
	x := newBridge(t, newBackend(t, nil, nil), []string{"--signals", "logs", "--max-connections", "2"}, nil)
	first := x.load(1, 0, times(1))
	first.finish(first.begin())
	second := x.load(1, 0, times(2))
	second.next = 1
	second.finish(second.begin())
	third := x.load(1, 0, times(3))
	third.next = 2
	done := third.begin()
	first.conn.Close()
	third.finish(done)
	if len(first.acked)+len(second.acked)+len(third.acked) != 3 {
		t.Errorf("failures %v, %v, %v", first.failures, second.failures, third.failures)
	}
	x.end(nil)
}

// TestCallsThatAreReset begins thousands of calls, each with a message that claims to be long, and gives each up at once.
func TestCallsThatAreReset(t *testing.T) {
	t.Parallel()
	const total = 3000
	x := newBridge(t, newBackend(t, nil, nil), []string{"--signals", "logs"}, nil)
	resets(t, x.near.at("grpc"), total)
	l := x.load(8, 100, times(40))
	l.finish(l.begin())
	if len(l.acked) != 40 {
		t.Errorf("%d of 40 were acknowledged after it, with failures %v", len(l.acked), l.failures)
	}
	x.end(l)
}

// resets waits, at the end, until the server has read it all: until it answers a ping, or ends the connection.
func resets(t *testing.T, address string, total int) {
	t.Helper()
	c, err := net.Dial("tcp", address)
	if err != nil {
		t.Fatal(err)
	}
	defer c.Close()
	c.SetDeadline(time.Now().Add(limit))
	io.WriteString(c, http2.ClientPreface)
	f := http2.NewFramer(c, c)
	ponged := make(chan struct{})
	go func() {
		defer close(ponged)
		for {
			frame, err := f.ReadFrame()
			if err != nil {
				return
			}
			if ping, ok := frame.(*http2.PingFrame); ok && ping.IsAck() {
				return
			}
		}
	}()
	f.WriteSettings()
	var block bytes.Buffer
	e := hpack.NewEncoder(&block)
	for i := 0; i < total; i++ {
		block.Reset()
		for _, h := range [][2]string{{":method", "POST"}, {":scheme", "http"}, {":path", wire.Service{Signal: signal.Logs}.Method()},
			{":authority", address}, {"content-type", "application/grpc"}, {"te", "trailers"}} {
			e.WriteField(hpack.HeaderField{Name: h[0], Value: h[1]})
		}
		id := uint32(2*i + 1)
		f.WriteHeaders(http2.HeadersFrameParam{StreamID: id, BlockFragment: block.Bytes(), EndHeaders: true})
		f.WriteData(id, false, []byte{0, 1, 0, 0, 0, 'x'}) // 16 MiB, the most that there may be
		if err := f.WriteRSTStream(id, http2.ErrCodeCancel); err != nil {
			t.Logf("the server ended the connection after %d calls", i)
			break
		}
	}
	f.WritePing(false, [8]byte{1})
	select {
	case <-ponged:
	case <-time.After(limit):
		t.Errorf("no answer within %v", limit)
	}
}
