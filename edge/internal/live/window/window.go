// Package window bounds how many bytes are on their way through a process. Whoever takes a message off the wire first
// acquires room for it, and the room is released once the message is answered; so a peer that sends faster than the
// next one takes is slowed down by HTTP/2's own flow control, and memory stays within its bound.
//
// It trusts nothing: it counts what its callers say.
package window

import (
	"container/list"
	"context"
	"fmt"
	"sync"
)

// A Window has room for so many bytes. Those who wait for room get it in the order in which they came.
type Window struct {
	limit int64

	mu      sync.Mutex
	used    int64
	tickets int64
	waiting list.List // of *claim

	unpacking chan struct{}
}

// A Ticket stands for room that was acquired. Its methods may be called by one goroutine at a time.
type Ticket struct {
	window *Window
	held   int64
	done   bool
}

type claim struct {
	bytes   int64
	granted chan struct{}
}

// New makes a window of so many bytes.
func New(limit int64) *Window {
	return &Window{limit: limit, unpacking: make(chan struct{}, 1)}
}

// Limit is the number of bytes that the window has room for.
func (w *Window) Limit() int64 { return w.limit }

// Used says how many bytes and how many tickets are held.
func (w *Window) Used() (bytes, tickets int64) {
	w.mu.Lock()
	defer w.mu.Unlock()
	return w.used, w.tickets
}

// Acquire waits until there is room for so many bytes, or until the context ends.
func (w *Window) Acquire(ctx context.Context, bytes int64) (*Ticket, error) {
	if bytes > w.limit {
		return nil, fmt.Errorf("%d bytes don't fit a window of %d", bytes, w.limit)
	}
	if err := w.claim(ctx, bytes); err != nil {
		return nil, err
	}
	w.mu.Lock()
	w.tickets++
	w.mu.Unlock()
	return &Ticket{window: w, held: bytes}, nil
}

// Unpack calls unpack, which may make of a message one of up to limit bytes, while the ticket holds room for that. Only
// one message is unpacked at a time, so those that wait hold no more than they did. The ticket then holds as many bytes
// as unpack returned.
func (t *Ticket) Unpack(ctx context.Context, limit int64, unpack func() ([]byte, error)) ([]byte, error) {
	w := t.window
	select {
	case w.unpacking <- struct{}{}:
		defer func() { <-w.unpacking }()
	case <-ctx.Done():
		return nil, ctx.Err()
	}
	if more := limit - t.held; more > 0 {
		if err := w.claim(ctx, more); err != nil {
			return nil, err
		}
		t.held = limit
	}
	made, err := unpack()
	t.Resize(int64(len(made)))
	return made, err
}

// Resize makes the ticket hold so many bytes from now on, also where there is no room for them: then nobody else gets
// room until enough was released.
func (t *Ticket) Resize(bytes int64) {
	if t.done {
		return
	}
	t.window.release(t.held-bytes, 0)
	t.held = bytes
}

// Release gives the room back. Later calls do nothing.
func (t *Ticket) Release() {
	if t == nil || t.done {
		return
	}
	t.done = true
	t.window.release(t.held, 1)
}

func (w *Window) claim(ctx context.Context, bytes int64) error {
	w.mu.Lock()
	if w.waiting.Len() == 0 && w.used+bytes <= w.limit {
		w.used += bytes
		w.mu.Unlock()
		return nil
	}
	c := &claim{bytes, make(chan struct{})}
	place := w.waiting.PushBack(c)
	w.mu.Unlock()
	select {
	case <-c.granted:
		return nil
	case <-ctx.Done():
	}
	w.mu.Lock()
	defer w.mu.Unlock()
	select {
	case <-c.granted: // in the meantime
		w.used -= bytes
	default:
		w.waiting.Remove(place)
	}
	w.grant()
	return ctx.Err()
}

func (w *Window) release(bytes, tickets int64) {
	w.mu.Lock()
	w.used -= bytes
	w.tickets -= tickets
	w.grant()
	w.mu.Unlock()
}

// grant gives room to those who wait longest, as far as it goes. The lock is held.
func (w *Window) grant() {
	for first := w.waiting.Front(); first != nil; first = w.waiting.Front() {
		c := first.Value.(*claim)
		if w.used+c.bytes > w.limit {
			return
		}
		w.used += c.bytes
		close(c.granted)
		w.waiting.Remove(first)
	}
}
