package live_test

import (
	"context"
	"sync"
	"sync/atomic"
	"syscall"
	"testing"

	"finavoluth/edge/internal/signal"

	"google.golang.org/grpc/codes"
	"google.golang.org/grpc/status"
)

// fell fails where a disturbance came when the load was over.
func fell(t *testing.T, l *load, total int) {
	t.Helper()
	if now := l.count(); now >= total {
		t.Errorf("the disturbance came after the load: %d of %d were acknowledged", now, total)
	} else {
		t.Logf("disturbed after %d of %d", now, total)
	}
}

func TestFarKilledThreeTimes(t *testing.T) {
	t.Parallel()
	const total = 600
	x := newBridge(t, newBackend(t, nil, nil), []string{"--window", "16"}, nil)
	l := x.load(16, 100, times(total))
	done := l.begin()
	for k := 1; k <= 3; k++ {
		l.reached(total * k / 5)
		children := x.far.watch()
		x.far.kill()
		fell(t, l, total)
		gone(t, children)
		x.startFar()
	}
	l.finish(done)
	x.end(l)
	if len(l.acked) != total {
		t.Errorf("%d of %d were acknowledged", len(l.acked), total)
	}
	if l.failures["Unavailable"] == 0 {
		t.Error("no request failed while the far end was killed")
	}
}

func TestChildrenKilled(t *testing.T) {
	t.Parallel()
	const total = 500
	x := newBridge(t, newBackend(t, nil, nil), []string{"--signals", "logs", "--window", "16"}, nil)
	l := x.load(16, 100, times(total))
	done := l.begin()
	for k, of := range []*process{x.near, x.far} {
		l.reached(total * (k + 1) / 4)
		children := of.children()
		if len(children) == 0 {
			t.Fatalf("%s has no child", of.name)
		}
		for _, pid := range children {
			syscall.Kill(pid, syscall.SIGKILL)
		}
		fell(t, l, total)
	}
	l.finish(done)
	x.end(l)
	if len(l.acked) != total {
		t.Errorf("%d of %d were acknowledged", len(l.acked), total)
	}
	if x.near.count(streamEnded) < 2 {
		t.Error("near's stream didn't end twice")
	}
}

// TestChildrenKilledWhileIdle has children end that nobody asks just then: a stream begins anew before anybody has to fail.
func TestChildrenKilledWhileIdle(t *testing.T) {
	t.Parallel()
	x := newBridge(t, newBackend(t, nil, nil), []string{"--signals", "logs"}, nil)
	l := x.load(4, 100, times(20))
	l.finish(l.begin())
	for k, of := range []*process{x.near, x.far} {
		children := of.watch()
		for _, pid := range of.children() {
			syscall.Kill(pid, syscall.SIGKILL)
		}
		gone(t, children)
		x.near.said(streamOpen, k+2)
		l.more = times(l.next + 20)
		l.finish(l.begin())
	}
	x.end(l)
	if len(l.acked) != 60 || len(l.failures) > 0 {
		t.Errorf("%d of 60 were acknowledged, with failures %v", len(l.acked), l.failures)
	}
}

func TestStreamsOfHalfASecond(t *testing.T) {
	t.Parallel()
	x := newBridge(t, newBackend(t, nil, nil), []string{"--signals", "logs", "--max-stream-lifetime", "500ms"}, nil)
	var enough int32
	l := x.load(8, 100, func(int) bool { return atomic.LoadInt32(&enough) == 0 })
	done := l.begin()
	x.near.said(streamOpen, 4) // three streams were replaced under load
	fell(t, l, 1<<30)
	atomic.StoreInt32(&enough, 1)
	l.finish(done)
	x.end(l)
	if len(l.acked) != l.next || len(l.failures) > 0 {
		t.Errorf("%d of %d were acknowledged, with failures %v", len(l.acked), l.next, l.failures)
	}
	for k, n := range x.backend.snapshot() {
		if n > 1 {
			t.Errorf("the backend has %d times: %.40q", n, k)
		}
	}
}

// TestSlowBackend has a backend that answers only when as many requests as the window has room for are with it.
func TestSlowBackend(t *testing.T) {
	t.Parallel()
	const window, total, padding = 8, 160, 200_000
	var mu sync.Mutex
	waiting, full := 0, make(chan struct{})
	b := newBackend(t, nil, func(int, []byte) error {
		mu.Lock()
		wait := full
		if waiting++; waiting == window {
			waiting, full = 0, make(chan struct{})
			close(wait)
		}
		mu.Unlock()
		<-wait
		return nil
	})
	x := newBridge(t, b, []string{"--signals", "logs", "--window", "8"}, []string{"--window", "8"})
	l := x.load(64, padding, times(total))
	done := l.begin()
	l.finish(done)
	x.end(l)
	if len(l.acked) != total || len(l.failures) > 0 {
		t.Errorf("%d of %d were acknowledged, with failures %v", len(l.acked), total, l.failures)
	}
	if b.most != window {
		t.Errorf("the backend had %d requests at once, the window is %d", b.most, window)
	}
}

// TestCodes has a backend that refuses the first request with each code.
func TestCodes(t *testing.T) {
	t.Parallel()
	answers := map[codes.Code]codes.Code{
		codes.InvalidArgument: codes.InvalidArgument, codes.PermissionDenied: codes.PermissionDenied,
		codes.ResourceExhausted: codes.ResourceExhausted, codes.Internal: codes.Internal,
		codes.Unavailable: codes.Unavailable, codes.DeadlineExceeded: codes.DeadlineExceeded,
		codes.Unauthenticated: codes.Unauthenticated,
		codes.NotFound:        codes.Internal, codes.Unimplemented: codes.Internal, // not in BatchStatus' enum
	}
	var next codes.Code
	b := newBackend(t, nil, func(int, []byte) error {
		if next != codes.OK {
			return status.Error(next, "refused by the backend")
		}
		return nil
	})
	x := newBridge(t, b, nil, nil)
	conn := connect(t, x.near.at("grpc"))
	for given, expected := range answers {
		next = given
		if got := status.Code(export(context.Background(), conn, signal.Logs, numbered(1, 0))); got != expected {
			t.Errorf("the backend answers %v, near %v and not %v", given, got, expected)
		}
	}
	next = codes.OK
	if err := export(context.Background(), conn, signal.Logs, numbered(1, 0)); err != nil {
		t.Errorf("after all refusals: %v", err)
	}
	if n := x.near.count(streamOpen + " signal=logs"); n != 1 {
		t.Errorf("near opened %d streams for logs, and the backend's refusals end none", n)
	}
	x.end(nil)
}

func TestBackendComesLate(t *testing.T) {
	t.Parallel()
	const total = 40
	later := newRelay(t)
	later.to("127.0.0.1:1") // where nobody listens
	early := &backend{address: later.address()}
	x := newBridge(t, early, []string{"--signals", "logs"}, nil)
	l := x.load(8, 100, times(total))
	var late *backend
	var once sync.Once
	came := make(chan struct{})
	l.again = func(_ int, err error) bool {
		if status.Code(err) != codes.Unavailable {
			t.Errorf("without a backend: %v", err)
		}
		once.Do(func() {
			late = newBackend(t, nil, nil)
			later.to(late.address)
			close(came)
		})
		<-came
		return true
	}
	l.finish(l.begin())
	if late == nil {
		t.Fatal("no request came before the backend")
	}
	x.backend = late
	x.end(l)
	if len(l.acked) != total {
		t.Errorf("%d of %d were acknowledged", len(l.acked), total)
	}
}

// TestClientsLeave has each second client give its request up while the backend has it.
func TestClientsLeave(t *testing.T) {
	t.Parallel()
	const total = 100
	held := make(chan chan struct{})
	b := newBackend(t, nil, func(n int, _ []byte) error {
		if n%2 == 1 && n < total {
			answer := make(chan struct{})
			held <- answer
			<-answer
		}
		return nil
	})
	x := newBridge(t, b, []string{"--signals", "logs"}, nil)
	conn := connect(t, x.near.at("grpc"))
	l := x.load(1, 0, times(total))
	l.acked, l.failures = map[int]bool{}, map[string]int{}
	for i := 0; i < total; i++ {
		ctx, leave := context.WithCancel(context.Background())
		result := make(chan error, 1)
		go func() { result <- export(ctx, conn, signal.Logs, numbered(i, 0)) }()
		if i%2 == 1 {
			answer := <-held
			leave()
			if err := <-result; status.Code(err) != codes.Canceled {
				t.Errorf("a client that left got %v", err)
			}
			close(answer)
		} else if err := <-result; err != nil {
			t.Errorf("request %d: %v", i, err)
		} else {
			l.acked[i] = true
		}
		leave()
	}
	if n := x.near.count(streamOpen); n != 1 {
		t.Errorf("near opened %d streams, and clients that leave end none", n)
	}
	l.workers, l.next, l.more = 4, total, times(total+40)
	l.finish(l.begin())
	if len(l.acked) != total/2+40 {
		t.Errorf("%d were acknowledged, and not each second of %d and 40", len(l.acked), total)
	}
	x.end(l)
}

func TestNearTermedUnderLoad(t *testing.T) {
	t.Parallel()
	const total = 100_000
	x := newBridge(t, newBackend(t, nil, nil), []string{"--signals", "logs"}, nil)
	var over int32
	l := x.load(16, 100, func(i int) bool { return i < total && atomic.LoadInt32(&over) == 0 })
	l.again = func(int, error) bool { return false }
	done := l.begin()
	l.reached(200)
	children := x.near.watch()
	x.near.term()
	fell(t, l, total)
	atomic.StoreInt32(&over, 1)
	l.finish(done)
	gone(t, children)
	x.far.within(x.windows)
	x.far.term()
	l.check(x.backend.snapshot())
}

func TestFarTermedUnderLoad(t *testing.T) {
	t.Parallel()
	const total = 500
	x := newBridge(t, newBackend(t, nil, nil), []string{"--signals", "logs"}, nil)
	l := x.load(16, 100, times(total))
	done := l.begin()
	l.reached(total / 4)
	children := x.far.watch()
	x.far.term()
	fell(t, l, total)
	gone(t, children)
	x.startFar()
	l.finish(done)
	x.end(l)
	if len(l.acked) != total {
		t.Errorf("%d of %d were acknowledged", len(l.acked), total)
	}
}

// TestChildHangs stops a child under load: it is killed once it has kept a request
// for longer than the timeout, and only its stream fails.
func TestChildHangs(t *testing.T) {
	t.Parallel()
	const total = 200
	x := newBridge(t, newBackend(t, nil, nil), []string{"--signals", "logs", "--timeout", "2s"}, nil)
	l := x.load(8, 100, times(total))
	l.again = func(_ int, err error) bool { return status.Code(err) == codes.Unavailable }
	done := l.begin()
	l.reached(total / 4)
	stopped := x.near.watch()
	for _, pid := range x.near.children() {
		syscall.Kill(pid, syscall.SIGSTOP)
	}
	fell(t, l, total)
	gone(t, stopped)
	l.finish(done)
	x.end(l)
	if len(l.acked) != total {
		t.Errorf("%d of %d were acknowledged", len(l.acked), total)
	}
}
