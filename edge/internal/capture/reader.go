package capture

import (
	"bufio"
	"bytes"
	"errors"
	"io"
)

// A Reader takes a capture apart.
type Reader struct {
	source *bufio.Reader
	offset int64  // of the next frame
	taken  []byte // of the damaged frame, what was read
	ended  error
}

// NewReader reads the frames of a capture.
func NewReader(r io.Reader) *Reader { return &Reader{source: bufio.NewReaderSize(r, 1<<16)} }

// Offset is where the next frame begins, counted from 0.
func (r *Reader) Offset() int64 { return r.offset }

// Next returns the next frame. At the end of the capture the error is io.EOF, where the bytes are no frame it is a
// *Damage, and where a read failed it is the reader's own. An error is returned again by each later call.
func (r *Reader) Next() (Frame, error) { return r.NextIn(nil) }

// NextIn is Next with room for the payload: a frame that fits is read into it, and is the caller's until the room is used
// again.
func (r *Reader) NextIn(room []byte) (Frame, error) {
	if r.ended != nil {
		return Frame{}, r.ended
	}
	frame, err := r.read(room)
	if err != nil {
		r.ended = err
		return Frame{}, err
	}
	r.offset += int64(HeadSize + len(frame.Payload))
	return frame, nil
}

// Rest is what follows the last whole frame, as it is: nothing at the end of a capture, and else the bytes from the damage
// on. It may be asked for once Next has returned an error.
func (r *Reader) Rest() io.Reader { return io.MultiReader(bytes.NewReader(r.taken), r.source) }

func (r *Reader) read(room []byte) (Frame, error) {
	var head [HeadSize]byte
	n, err := io.ReadFull(r.source, head[:])
	switch {
	case err == io.EOF:
		return Frame{}, io.EOF
	case err == io.ErrUnexpectedEOF:
		return Frame{}, r.damaged(Truncated, head[:n])
	case err != nil:
		r.taken = append([]byte(nil), head[:n]...)
		return Frame{}, err
	}
	length, reason := check(head[:])
	if reason != "" {
		return Frame{}, r.damaged(reason, head[:])
	}
	payload, err := ReadPayload(r.source, length, room)
	if err != nil {
		r.taken = append(head[:], payload...)
		if errors.Is(err, io.ErrUnexpectedEOF) {
			err = &Damage{Offset: r.offset, Reason: Truncated}
		}
		return Frame{}, err
	}
	return Frame{Flag: head[0], Payload: payload}, nil
}

func (r *Reader) damaged(reason Reason, taken []byte) error {
	r.taken = append([]byte(nil), taken...)
	return &Damage{Offset: r.offset, Reason: reason}
}

// ReadPayload takes as many bytes, or those that are there and an error (io.ErrUnexpectedEOF where they end). Room beyond what it was lent is taken step by
// step as the bytes come, so that a false length costs nothing.
func ReadPayload(source io.Reader, length int, room []byte) ([]byte, error) {
	const step = 1 << 20
	payload := room[:0]
	for len(payload) < length {
		next := length
		if next > cap(payload) && next-len(payload) > step {
			next = len(payload) + step
		}
		if next > cap(payload) {
			payload = append(make([]byte, 0, grown(cap(payload), next, length)), payload...)
		}
		from := len(payload)
		n, err := io.ReadFull(source, payload[from:next])
		payload = payload[:from+n]
		if err == io.EOF {
			err = io.ErrUnexpectedEOF
		}
		if err != nil {
			return payload, err
		}
	}
	return payload[:length], nil
}

// grown is a capacity from `next` to `most`, doubled where that fits.
func grown(now, next, most int) int {
	if now*2 > next {
		next = now * 2
	}
	if next > most {
		next = most
	}
	return next
}
