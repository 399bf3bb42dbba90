package window

import (
	"context"
	"testing"
)

func TestRoomInOrder(t *testing.T) {
	w := New(100)
	ctx := context.Background()
	first, err := w.Acquire(ctx, 60)
	if err != nil {
		t.Fatal(err)
	}
	if _, err := w.Acquire(ctx, 101); err == nil {
		t.Error("more than the window has")
	}
	order := make(chan int, 2)
	waits := func(n int, bytes int64) {
		before := w.waiting.Len()
		go func() {
			ticket, err := w.Acquire(ctx, bytes)
			if err != nil {
				t.Error(err)
			}
			order <- n
			ticket.Release()
		}()
		for { // until it waits
			w.mu.Lock()
			now := w.waiting.Len()
			w.mu.Unlock()
			if now > before {
				return
			}
		}
	}
	waits(1, 90)
	waits(2, 30) // there is room for it, but it came later
	first.Release()
	first.Release()
	if a, b := <-order, <-order; a != 1 || b != 2 {
		t.Errorf("room was given in the order %d, %d", a, b)
	}
	all, err := w.Acquire(ctx, 100)
	if err != nil {
		t.Fatal(err)
	}
	all.Release()
	if bytes, tickets := w.Used(); bytes != 0 || tickets != 0 {
		t.Errorf("%d bytes and %d tickets are held", bytes, tickets)
	}
}

func TestGivingUp(t *testing.T) {
	w := New(10)
	held, _ := w.Acquire(context.Background(), 10)
	ctx, cancel := context.WithCancel(context.Background())
	cancel()
	if _, err := w.Acquire(ctx, 5); err != context.Canceled {
		t.Errorf("given up: %v", err)
	}
	held.Release()
	if bytes, tickets := w.Used(); bytes != 0 || tickets != 0 {
		t.Errorf("%d bytes and %d tickets are held", bytes, tickets)
	}
}

func TestUnpack(t *testing.T) {
	w := New(100)
	ctx := context.Background()
	ticket, _ := w.Acquire(ctx, 10)
	made, err := ticket.Unpack(ctx, 50, func() ([]byte, error) {
		if bytes, _ := w.Used(); bytes != 50 {
			t.Errorf("while unpacking, %d bytes are held", bytes)
		}
		return make([]byte, 30), nil
	})
	if bytes, _ := w.Used(); err != nil || len(made) != 30 || bytes != 30 {
		t.Errorf("%d bytes, %v, and %d are held", len(made), err, bytes)
	}
	ticket.Resize(130) // above the window, as nobody else gets room then
	if bytes, _ := w.Used(); bytes != 130 {
		t.Errorf("%d bytes are held", bytes)
	}
	ticket.Release()
	if bytes, tickets := w.Used(); bytes != 0 || tickets != 0 {
		t.Errorf("%d bytes and %d tickets are held", bytes, tickets)
	}
}
