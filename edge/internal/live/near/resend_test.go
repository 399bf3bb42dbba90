package near

import (
	"context"
	"fmt"
	"sync"
	"testing"

	"google.golang.org/grpc/codes"
	"google.golang.org/grpc/status"

	"finavoluth/edge/internal/live/wire"
)

func names(n int) (all []string) {
	for i := 0; i < n; i++ {
		all = append(all, fmt.Sprintf("q%d", i))
	}
	return all
}

func ok() (*wire.Status, error) { return &wire.Status{}, nil }

var broken = status.Error(codes.Unavailable, "the stream breaks")

// TestAStreamBreaks has a stream end after some batches, of which the first are answered: nobody has to send again, what was
// accepted comes once, and the others come in their order.
func TestAStreamBreaks(t *testing.T) {
	const total = 20
	var mu sync.Mutex
	count, accepted := 0, map[string]int{}
	f := newFar(t, func(b batch) (*wire.Status, error) {
		mu.Lock()
		defer mu.Unlock()
		count++
		switch {
		case b.stream > 2 || count%8 < 3:
			accepted[b.request]++
			return ok()
		case count%8 == 7:
			return nil, broken
		}
		return nil, nil
	})
	x := newBridge(t, f, 8, 1<<20)
	x.all(names(total)...)
	if f.streams < 3 {
		t.Errorf("there were %d streams", f.streams)
	}
	for _, request := range names(total) {
		if accepted[request] != 1 {
			t.Errorf("%s was accepted %d times", request, accepted[request])
		}
	}
	order := map[string]int{}
	for i, b := range f.came {
		if b.id == 0 && i > 0 && f.came[i-1].stream == b.stream {
			t.Errorf("the id 0 came again on stream %d", b.stream)
		}
		if _, before := order[b.request]; !before {
			order[b.request] = len(order)
		}
	}
	for i := 1; i < len(f.came); i++ {
		one, next := f.came[i-1], f.came[i]
		if one.stream == next.stream && order[one.request] > order[next.request] {
			t.Errorf("on stream %d came %s before %s", one.stream, one.request, next.request)
		}
	}
}

// TestAcceptedOnce has a stream end when its first batches were answered.
func TestAcceptedOnce(t *testing.T) {
	answered := make(chan struct{})
	f := newFar(t, func(b batch) (*wire.Status, error) {
		switch {
		case b.stream == 0 && b.request == "the last":
			<-answered
			return nil, broken
		}
		return ok()
	})
	x := newBridge(t, f, 8, 1<<20)
	x.all("a", "b")
	last := x.send(context.Background(), "the last")
	close(answered)
	if code := x.get(last); code != codes.OK {
		t.Errorf("the last is answered by %v", code)
	}
	for request, expected := range map[string]int{"a": 1, "b": 1, "the last": 2} {
		if n, _ := f.times(request); n != expected {
			t.Errorf("%s came %d times", request, n)
		}
	}
}

// TestWorthwhile has the first batch refused by each code: some are sent again on a new stream, the others are answered.
func TestWorthwhile(t *testing.T) {
	for code := codes.Canceled; code <= codes.Unauthenticated; code++ {
		f := newFar(t, func(b batch) (*wire.Status, error) {
			if b.id == 0 && b.stream == 0 {
				return &wire.Status{Code: code, Message: "refused"}, nil
			}
			return ok()
		})
		x := newBridge(t, f, 2, 1<<20)
		expected, streams := code, 1
		if worthwhile[code] {
			expected, streams = codes.OK, 2
		}
		if got := x.get(x.send(context.Background(), "first")); got != expected {
			t.Errorf("%v is answered by %v", code, got)
		}
		x.all("second", "third", "fourth")
		if f.streams != streams {
			t.Errorf("%v: %d streams", code, f.streams)
		}
		if n, _ := f.times("first"); n != streams {
			t.Errorf("%v: the first came %d times", code, n)
		}
	}
}

// TestGivenUpAtTheNextStream has a request refused for good, and then its stream broken: it isn't sent again.
func TestGivenUpAtTheNextStream(t *testing.T) {
	f := newFar(t, func(b batch) (*wire.Status, error) {
		switch {
		case b.request == "bad":
			return &wire.Status{Code: codes.PermissionDenied}, nil
		case b.stream == 0:
			return nil, broken
		}
		return ok()
	})
	x := newBridge(t, f, 2, 1<<20)
	if code := x.get(x.send(context.Background(), "bad")); code != codes.PermissionDenied {
		t.Errorf("answered by %v", code)
	}
	x.all("good")
	if n, _ := f.times("bad"); n != 1 {
		t.Errorf("the bad one came %d times", n)
	}
}

// TestNobodyWaits has a client leave before its stream breaks: its request isn't sent again.
func TestNobodyWaits(t *testing.T) {
	leave := make(chan struct{})
	f := newFar(t, func(b batch) (*wire.Status, error) {
		if b.stream == 0 && b.request == "stays" {
			<-leave
			return nil, broken
		}
		if b.stream == 0 {
			return nil, nil
		}
		return ok()
	})
	x := newBridge(t, f, 4, 1<<20)
	ctx, cancel := context.WithCancel(context.Background())
	left := x.send(ctx, "goes")
	f.until(t, "the request came", func() bool { return len(f.came) == 1 })
	stays := x.send(context.Background(), "stays")
	f.until(t, "the second came", func() bool { return len(f.came) == 2 })
	cancel()
	if code := x.get(left); code != codes.Canceled {
		t.Errorf("the client that left got %v", code)
	}
	<-x.served // near knows that nobody waits
	close(leave)
	if code := x.get(stays); code != codes.OK {
		t.Errorf("the client that stayed got %v", code)
	}
	if n, _ := f.times("goes"); n != 1 {
		t.Errorf("the request that nobody waits for came %d times", n)
	}
}

// TestWindow has a far end that answers only when the window is full.
func TestWindow(t *testing.T) {
	const most = 4
	f := newFar(t, nil)
	var mu sync.Mutex
	waiting := 0
	full := make(chan struct{})
	f.answer = func(b batch) (*wire.Status, error) {
		mu.Lock()
		waiting++
		if waiting == most {
			close(full)
		}
		mu.Unlock()
		if b.stream == 0 {
			if b.id+1 < most {
				return nil, nil
			}
			<-full
			return nil, broken
		}
		return ok()
	}
	x := newBridge(t, f, most, 1<<20)
	x.all(names(5 * most)...)
	if n := len(f.came); n != 6*most {
		t.Errorf("%d batches came, not %d", n, 6*most)
	}
}

// TestEachItsOwnAnswer has open requests sent again of which each second one is refused then: each client gets its own answer.
func TestEachItsOwnAnswer(t *testing.T) {
	const most = 16
	all := names(most)
	odd := map[string]bool{}
	for i, request := range all {
		odd[request] = i%2 == 1
	}
	f := newFar(t, func(b batch) (*wire.Status, error) {
		switch {
		case b.stream == 0 && b.id+1 == most:
			return nil, broken
		case b.stream == 0:
			return nil, nil
		case odd[b.request]:
			return &wire.Status{Code: codes.PermissionDenied}, nil
		}
		return ok()
	})
	x := newBridge(t, f, most, 1<<20)
	var answers []chan codes.Code
	for _, request := range all {
		answers = append(answers, x.send(context.Background(), request))
	}
	for i, answer := range answers {
		expected := codes.OK
		if odd[all[i]] {
			expected = codes.PermissionDenied
		}
		if code := x.get(answer); code != expected {
			t.Errorf("%s is answered by %v", all[i], code)
		}
	}
}

// TestChildEnds has the child end with a request: what it had open is answered by Unavailable, and the next child goes on.
func TestChildEnds(t *testing.T) {
	f := newFar(t, func(b batch) (*wire.Status, error) {
		if b.request == "held" && b.stream == 0 {
			return nil, nil
		}
		return ok()
	})
	x := newBridge(t, f, 4, 1<<20)
	held := x.send(context.Background(), "held")
	f.until(t, "the request came", func() bool { return len(f.came) == 1 })
	if code := x.get(x.send(context.Background(), "ends the child")); code != codes.Unavailable {
		t.Errorf("the request that ended the child got %v", code)
	}
	if code := x.get(held); code != codes.Unavailable {
		t.Errorf("the open request got %v", code)
	}
	f.until(t, "a second stream", func() bool { return f.streams == 2 })
	x.all("a", "b")
}

// TestRefused has requests that the program refuses: nothing is sent, and the others go on.
func TestRefused(t *testing.T) {
	f := newFar(t, func(batch) (*wire.Status, error) { return ok() })
	x := newBridge(t, f, 4, 1<<20)
	if code := x.get(x.send(context.Background(), "refuse this")); code != codes.InvalidArgument {
		t.Errorf("answered by %v", code)
	}
	x.all("a", "b", "c")
	if len(f.came) != 3 || f.streams != 1 {
		t.Errorf("%d batches on %d streams", len(f.came), f.streams)
	}
}

// TestMaxBatch has a batch that is too long for the far end: its request is refused, and the others go on, on a new stream.
func TestMaxBatch(t *testing.T) {
	f := newFar(t, func(batch) (*wire.Status, error) { return ok() })
	x := newBridge(t, f, 4, long)
	x.all("a")
	if code := x.get(x.send(context.Background(), "long")); code != codes.ResourceExhausted {
		t.Errorf("answered by %v", code)
	}
	x.all("b", "c")
	f.mu.Lock()
	defer f.mu.Unlock()
	for _, b := range f.came {
		if len(b.request) >= long || b.request == "b" && b.stream != 1 {
			t.Errorf("%.20s came on stream %d", b.request, b.stream)
		}
	}
}

// TestCloses has the near end stop with open requests: they are answered.
func TestCloses(t *testing.T) {
	f := newFar(t, func(b batch) (*wire.Status, error) { return nil, nil })
	x := newBridge(t, f, 4, 1<<20)
	open := x.send(context.Background(), "open")
	f.until(t, "the request came", func() bool { return len(f.came) == 1 })
	x.near.Close()
	if code := x.get(open); code != codes.Unavailable {
		t.Errorf("answered by %v", code)
	}
}
