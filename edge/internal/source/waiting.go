package source

import (
	"context"
	"io"
)

// waiting reads from something that may keep a reader waiting, as a pipe or a terminal does, and ends where the context
// does: with the context's error. The read that is going on then goes on in the background, and what it gets is lost.
type waiting struct {
	ctx    context.Context
	reader io.Reader
	room   []byte
	rest   []byte // of what the last read got
	err    error  // what comes after the rest
	got    chan result
}

type result struct {
	n   int
	err error
}

func newWaiting(ctx context.Context, reader io.Reader) *waiting {
	return &waiting{ctx: ctx, reader: reader, room: make([]byte, 1<<16), got: make(chan result, 1)}
}

func (w *waiting) Read(room []byte) (int, error) {
	if len(w.rest) == 0 && w.err == nil {
		w.read()
	}
	n := copy(room, w.rest)
	w.rest = w.rest[n:]
	if len(w.rest) > 0 {
		return n, nil
	}
	return n, w.err
}

// read reads once, or sees the end of the context.
func (w *waiting) read() {
	if w.err = w.ctx.Err(); w.err != nil {
		return
	}
	go func() {
		n, err := w.reader.Read(w.room)
		w.got <- result{n, err}
	}()
	select {
	case it := <-w.got:
		w.rest, w.err = w.room[:it.n], it.err
	case <-w.ctx.Done():
		w.err = w.ctx.Err()
	}
}
