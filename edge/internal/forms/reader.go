package forms

import (
	"bufio"
	"bytes"
	"encoding/json"
	"errors"
	"fmt"
	"io"

	"github.com/klauspost/compress/gzip"
	"github.com/klauspost/compress/zstd"

	"finavoluth/edge/internal/capture"
	"finavoluth/edge/internal/signal"
	"finavoluth/edge/internal/source"
	"finavoluth/edge/internal/text"
)

// lengthSize is the number of bytes of the length before a request in a Collector's file, the highest first.
const lengthSize = 4

func lengthOf(b []byte) int { return int(b[0])<<24 | int(b[1])<<16 | int(b[2])<<8 | int(b[3]) }

// Half says that the last request of an input isn't whole, as in a file that still grows.
type Half struct {
	Name string
	Has  int64 // bytes of it that are there
}

func (h *Half) Error() string {
	return fmt.Sprintf("%s ends in a request that isn't whole (%d bytes): it is left out", h.Name, h.Has)
}

// Wrong says that an input isn't what its form says, from some place on.
type Wrong struct {
	Name, Place string
	Err         error
}

func (w *Wrong) Error() string { return fmt.Sprintf("%s, %s: %v", w.Name, w.Place, w.Err) }

func (w *Wrong) Unwrap() error { return w.Err }

// Messages are read one after the other, as frames; after the last one the error is io.EOF. A frame is the caller's until
// the next one is read.
type Messages interface {
	Next() (capture.Frame, error)
}

// UnknownKeys counts the keys of JSON that OTLP doesn't have, by their path.
type UnknownKeys map[string]int

// Read reads the requests of an input that has the form. Errors are *source.Failure where a read failed, *Half and *Wrong,
// and of captures *capture.Damage.
func Read(form Form, s signal.Signal, name string, content io.Reader, unknown UnknownKeys) Messages {
	switch form {
	case Proto:
		return &protoFile{name: name, source: bufio.NewReaderSize(content, 1<<16), signal: s, unknown: unknown}
	case JSON:
		counted := &counter{source: content}
		return &jsonFile{name: name, values: json.NewDecoder(counted), taken: counted, signal: s, unknown: unknown}
	}
	return &captureFile{frames: capture.NewReader(content)}
}

// captureFile reuses the room of a frame for the next one.
type captureFile struct {
	frames *capture.Reader
	room   []byte
}

func (c *captureFile) Next() (capture.Frame, error) {
	frame, err := c.frames.NextIn(c.room)
	if cap(frame.Payload) > cap(c.room) {
		c.room = frame.Payload
	}
	return frame, err
}

// Rest is what follows a damage.
func (c *captureFile) Rest() io.Reader { return c.frames.Rest() }

// protoFile reads what the Collector's file exporter writes in protobuf, or in either format where it compresses each
// request by itself.
type protoFile struct {
	name    string
	source  *bufio.Reader
	signal  signal.Signal
	unknown UnknownKeys
	offset  int64
	room    []byte
	undo    *zstd.Decoder
}

func (p *protoFile) Next() (capture.Frame, error) {
	var head [lengthSize]byte
	n, err := io.ReadFull(p.source, head[:])
	switch {
	case err == io.EOF:
		return capture.Frame{}, io.EOF
	case err == io.ErrUnexpectedEOF:
		return capture.Frame{}, &Half{Name: p.name, Has: int64(n)}
	case err != nil:
		return capture.Frame{}, err
	}
	length := lengthOf(head[:])
	if length > capture.Limit {
		return capture.Frame{}, p.wrong(fmt.Errorf("a request of %d bytes: above %d", length, capture.Limit))
	}
	payload, err := capture.ReadPayload(p.source, length, p.room)
	if cap(payload) > cap(p.room) {
		p.room = payload
	}
	switch {
	case err == io.ErrUnexpectedEOF:
		return capture.Frame{}, &Half{Name: p.name, Has: int64(lengthSize + len(payload))}
	case err != nil:
		return capture.Frame{}, err
	}
	request, err := p.unpack(payload)
	if err != nil {
		return capture.Frame{}, p.wrong(err)
	}
	p.offset += int64(lengthSize + length)
	return capture.Message(request), nil
}

func (p *protoFile) wrong(err error) error {
	return &Wrong{Name: p.name, Place: fmt.Sprintf("request at byte %d", p.offset), Err: err}
}

// unpack undoes the compression of one request, and turns JSON into protobuf.
func (p *protoFile) unpack(payload []byte) ([]byte, error) {
	var err error
	switch source.Magic(payload) {
	case source.Zstd:
		if payload, err = p.unzstd(payload); err != nil {
			return nil, fmt.Errorf("zstd: %w", err)
		}
	case source.Gzip:
		if payload, err = ungzip(payload); err != nil {
			return nil, fmt.Errorf("gzip: %w", err)
		}
	}
	if len(payload) == 0 || payload[0] != '{' {
		return payload, nil
	}
	request, unknown, err := text.Read(p.signal, payload)
	p.unknown.add(unknown)
	return request, err
}

func (p *protoFile) unzstd(packed []byte) ([]byte, error) {
	if p.undo == nil {
		undo, err := zstd.NewReader(nil, zstd.WithDecoderConcurrency(1), zstd.WithDecoderMaxMemory(capture.Limit))
		if err != nil {
			return nil, err
		}
		p.undo = undo
	}
	return p.undo.DecodeAll(packed, nil)
}

func ungzip(packed []byte) ([]byte, error) {
	undo, err := gzip.NewReader(bytes.NewReader(packed))
	if err != nil {
		return nil, err
	}
	whole, err := io.ReadAll(io.LimitReader(undo, capture.Limit+1))
	if len(whole) > capture.Limit {
		return nil, fmt.Errorf("a request above %d bytes", capture.Limit)
	}
	return whole, err
}

func (u UnknownKeys) add(paths []string) {
	for _, path := range paths {
		u[path]++
	}
}

// jsonFile reads JSON values, a request each: a line, or over several lines.
type jsonFile struct {
	name    string
	values  *json.Decoder
	taken   *counter
	signal  signal.Signal
	unknown UnknownKeys
	number  int
}

// counter counts what was read, and keeps an error that isn't the end, since encoding/json doesn't hand it on as it is.
type counter struct {
	source io.Reader
	n      int64
}

func (c *counter) Read(room []byte) (int, error) {
	n, err := c.source.Read(room)
	c.n += int64(n)
	return n, err
}

func (j *jsonFile) Next() (capture.Frame, error) {
	at := j.values.InputOffset()
	var value json.RawMessage
	err := j.values.Decode(&value)
	var failure *source.Failure
	switch {
	case err == io.EOF:
		return capture.Frame{}, io.EOF
	case errors.As(err, &failure):
		return capture.Frame{}, failure
	case errors.Is(err, io.ErrUnexpectedEOF):
		return capture.Frame{}, &Half{Name: j.name, Has: j.taken.n - at}
	case err != nil:
		return capture.Frame{}, j.wrong(err)
	}
	request, unknown, err := text.Read(j.signal, value)
	j.unknown.add(unknown)
	if err != nil {
		return capture.Frame{}, j.wrong(err)
	}
	j.number++
	return capture.Message(request), nil
}

func (j *jsonFile) wrong(err error) error {
	return &Wrong{Name: j.name, Place: fmt.Sprintf("request %d", j.number), Err: err}
}
