package capture

import (
	"bufio"
	"fmt"
	"io"
)

// A Writer puts frames into a capture.
type Writer struct {
	target *bufio.Writer
}

// NewWriter writes frames to a target, some 64 KiB at once.
func NewWriter(w io.Writer) *Writer { return &Writer{target: bufio.NewWriterSize(w, 1<<16)} }

// Write adds a frame. A frame that no capture can hold is refused, and nothing of it is written.
func (w *Writer) Write(f Frame) error {
	if f.Flag > FlagReset || f.IsReset() && len(f.Payload) > 0 {
		return fmt.Errorf("a frame of flag %d and %d bytes is none of a capture", f.Flag, len(f.Payload))
	}
	if len(f.Payload) > Limit {
		return fmt.Errorf("a message of %d bytes: above %d", len(f.Payload), Limit)
	}
	n := len(f.Payload)
	head := [HeadSize]byte{f.Flag, byte(n >> 24), byte(n >> 16), byte(n >> 8), byte(n)}
	if _, err := w.target.Write(head[:]); err != nil {
		return err
	}
	_, err := w.target.Write(f.Payload)
	return err
}

// Flush hands on what was written.
func (w *Writer) Flush() error { return w.target.Flush() }
