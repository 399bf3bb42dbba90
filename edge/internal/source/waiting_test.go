package source

import (
	"bytes"
	"context"
	"errors"
	"io"
	"testing"
	"testing/iotest"
)

// What is read is what the reader gives, in pieces of any size, and then its error.
func TestWaitingReadsAll(t *testing.T) {
	content := bytes.Repeat([]byte("0123456789"), 20000)
	broken := errors.New("broken")
	for _, size := range []int{1, 7, 1 << 17} {
		for i, reader := range []io.Reader{
			bytes.NewReader(content),
			iotest.HalfReader(bytes.NewReader(content)),
			iotest.DataErrReader(bytes.NewReader(content)),
			io.MultiReader(bytes.NewReader(content), iotest.ErrReader(broken)),
		} {
			want := error(nil)
			if i == 3 {
				want = broken
			}
			var got bytes.Buffer
			waiting := newWaiting(context.Background(), reader)
			_, err := io.CopyBuffer(struct{ io.Writer }{&got}, struct{ io.Reader }{waiting}, make([]byte, size))
			if err != want || !bytes.Equal(got.Bytes(), content) {
				t.Errorf("reader %d by %d: %d bytes, %v", i, size, got.Len(), err)
			}
		}
	}
}

// The end of the context ends a read that waits, and all later ones.
func TestWaitingEnds(t *testing.T) {
	ctx, cancel := context.WithCancel(context.Background())
	out, in := io.Pipe()
	defer in.Close()
	waiting := newWaiting(ctx, out)
	go func() {
		if _, err := in.Write([]byte("ab")); err != nil {
			t.Error(err)
		}
	}()
	room := make([]byte, 1)
	for _, want := range []string{"a", "b"} {
		if n, err := waiting.Read(room); n != 1 || err != nil || string(room) != want {
			t.Errorf("%d %v %s", n, err, room)
		}
	}
	go cancel()
	for i := 0; i < 2; i++ {
		if n, err := waiting.Read(room); n != 0 || !errors.Is(err, context.Canceled) {
			t.Errorf("%d, %v", n, err)
		}
	}
}
