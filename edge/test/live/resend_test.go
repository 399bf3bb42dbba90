package live_test

import (
	"context"
	"fmt"
	"sync"
	"sync/atomic"
	"syscall"
	"testing"

	"finavoluth/edge/internal/signal"

	"google.golang.org/grpc/codes"
	"google.golang.org/grpc/status"
)

// unseen fails where a client saw anything of a disturbance.
func unseen(t *testing.T, l *load, total int) {
	t.Helper()
	if len(l.acked) != total || len(l.failures) > 0 {
		t.Errorf("%d of %d were acknowledged, with failures %v", len(l.acked), total, l.failures)
	}
}

// once fails where the backend has a request more than once.
func once(t *testing.T, b *backend) {
	t.Helper()
	for k, n := range b.snapshot() {
		if n > 1 {
			t.Errorf("the backend has %d times: %.40q", n, k)
		}
	}
}

func newResending(t *testing.T, b *backend, more ...string) *bridge {
	t.Helper()
	return newBridge(t, b, append([]string{"--signals", "logs", "--window", "16", "--resend"}, more...), nil)
}

// TestFarKilledUnseen kills the far end three times under load: no client has to send again.
func TestFarKilledUnseen(t *testing.T) {
	t.Parallel()
	const total = 600
	x := newResending(t, newBackend(t, nil, nil))
	l := x.load(16, 100, times(total))
	done := l.begin()
	for k := 1; k <= 3; k++ {
		l.reached(total * k / 5)
		children := x.far.watch()
		x.far.kill()
		fell(t, l, total)
		gone(t, children)
		x.startFar()
	}
	l.finish(done)
	x.end(l)
	unseen(t, l, total)
	if x.near.count(streamOpen) < 4 {
		t.Error("near's stream didn't end three times")
	}
}

// TestStreamsCutUnseen cuts the connections of near's four streams three times under load, while both ends go on. gRPC itself
// opens a stream again that the far end hasn't seen by the cut, and near says nothing of that: so not each stream ends at each
// cut, but some do.
func TestStreamsCutUnseen(t *testing.T) {
	t.Parallel()
	const streams, between = 4, 120
	x := newResending(t, newBackend(t, nil, nil), "--streams", fmt.Sprint(streams))
	var enough int32
	l := x.load(32, 100, func(int) bool { return atomic.LoadInt32(&enough) == 0 })
	done := l.begin()
	for k := 1; k <= 3; k++ {
		x.near.until("have all its streams open", func() bool {
			return x.near.count(streamOpen)-x.near.count(streamEnded) == streams
		})
		l.reached(l.count() + between)
		ended := x.near.count(streamEnded)
		if n := x.relay.cut(); n < streams {
			t.Errorf("there were only %d connections to cut", n)
		}
		fell(t, l, 1<<30)
		x.near.said(streamEnded, ended+1)
	}
	l.reached(l.count() + between)
	atomic.StoreInt32(&enough, 1)
	l.finish(done)
	x.end(l)
	unseen(t, l, l.next)
}

// TestStatusesLateUnseen cuts near's connection while the backend has a whole window of long requests, and lets the backend
// answer once near's next stream is open: these statuses are of a stream that is gone, so the requests go out again.
func TestStatusesLateUnseen(t *testing.T) {
	t.Parallel()
	const window, total, padding = 16, 40, 1_000_000
	cut := make(chan struct{})
	b := newBackend(t, nil, func(n int, _ []byte) error {
		if n < window {
			<-cut
		}
		return nil
	})
	x := newResending(t, b)
	l := x.load(window, padding, times(total))
	done := l.begin()
	b.until(t, "the backend has a window of requests", func() bool { return b.came == window })
	x.relay.cut()
	x.near.said(streamOpen, 2)
	fell(t, l, total)
	close(cut)
	l.finish(done)
	x.end(l)
	unseen(t, l, total)
	if twice := b.came - total; twice != window {
		t.Errorf("%d requests came twice, and not the %d that were open", twice, window)
	}
}

// TestFarTermedUnseen ends the far end in order under load, so that all that it had is answered, and starts it again when near
// couldn't open a stream twice.
func TestFarTermedUnseen(t *testing.T) {
	t.Parallel()
	const total = 500
	x := newResending(t, newBackend(t, nil, nil))
	l := x.load(16, 100, times(total))
	done := l.begin()
	l.reached(total / 4)
	x.far.term()
	fell(t, l, total)
	x.near.said(streamEnded, 3)
	x.startFar()
	l.finish(done)
	x.end(l)
	unseen(t, l, total)
}

// TestStreamsOfHalfASecondUnseen replaces streams in order: nothing goes out twice.
func TestStreamsOfHalfASecondUnseen(t *testing.T) {
	t.Parallel()
	x := newResending(t, newBackend(t, nil, nil), "--max-stream-lifetime", "500ms")
	var enough int32
	l := x.load(8, 100, func(int) bool { return atomic.LoadInt32(&enough) == 0 })
	done := l.begin()
	x.near.said(streamOpen, 4) // three streams were replaced under load
	fell(t, l, 1<<30)
	atomic.StoreInt32(&enough, 1)
	l.finish(done)
	x.end(l)
	unseen(t, l, l.next)
	once(t, x.backend)
}

// TestBackendFailsUnseen has a backend that refuses each third request by Unavailable when it comes first.
func TestBackendFailsUnseen(t *testing.T) {
	t.Parallel()
	const total = 60
	var mu sync.Mutex
	failed := map[string]bool{}
	b := newBackend(t, nil, func(n int, request []byte) error {
		mu.Lock()
		defer mu.Unlock()
		if n%3 == 0 && !failed[string(request)] {
			failed[string(request)] = true
			return status.Error(codes.Unavailable, "not now")
		}
		return nil
	})
	x := newResending(t, b)
	l := x.load(8, 100, times(total))
	l.finish(l.begin())
	x.end(l)
	unseen(t, l, total)
	once(t, b)
}

// TestRefusedForGood has a backend that refuses a request for good: its client hears the code, and a stream that breaks later
// doesn't send it again.
func TestRefusedForGood(t *testing.T) {
	t.Parallel()
	const total = 40
	var bad int32
	b := newBackend(t, nil, func(n int, _ []byte) error {
		if n == 0 {
			atomic.AddInt32(&bad, 1)
			return status.Error(codes.PermissionDenied, "never")
		}
		return nil
	})
	x := newResending(t, b)
	conn := connect(t, x.near.at("grpc"))
	if code := status.Code(export(context.Background(), conn, signal.Logs, numbered(1_000_000, 0))); code != codes.PermissionDenied {
		t.Errorf("the client got %v", code)
	}
	l := x.load(8, 100, times(total))
	done := l.begin()
	l.reached(total / 4)
	x.far.kill()
	fell(t, l, total)
	x.startFar()
	l.finish(done)
	x.end(l)
	unseen(t, l, total)
	if n := atomic.LoadInt32(&bad); n != 1 {
		t.Errorf("the backend saw the bad request %d times", n)
	}
}

// TestResendingChildKilled kills near's child while the backend has a whole window of requests: what the child kept is gone, so
// these are answered by Unavailable, and their senders send again. Nobody else has to.
func TestResendingChildKilled(t *testing.T) {
	t.Parallel()
	const window, total = 16, 300
	killed := make(chan struct{})
	b := newBackend(t, nil, func(n int, _ []byte) error {
		if n < window {
			<-killed
		}
		return nil
	})
	x := newResending(t, b)
	l := x.load(2*window, 100, times(total))
	done := l.begin()
	b.until(t, "the backend has a window of requests", func() bool { return b.came == window })
	for _, pid := range x.near.children() {
		syscall.Kill(pid, syscall.SIGKILL)
	}
	x.near.said(streamEnded, 1)
	fell(t, l, total)
	close(killed)
	l.finish(done)
	x.end(l)
	if len(l.acked) != total || len(l.failures) != 1 || l.failures["Unavailable"] != window {
		t.Errorf("%d of %d were acknowledged, with failures %v, and not %d", len(l.acked), total, l.failures, window)
	}
}
