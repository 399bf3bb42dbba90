package record

import (
	"errors"
	"fmt"
	"os"
	"path/filepath"
	"sync"
	"time"

	"finavoluth/edge/internal/capture"
	"finavoluth/edge/internal/signal"
)

// ErrFull says that the folder has as many bytes as it may have.
var ErrFull = errors.New("the captures have as many bytes as --max-bytes allows")

// A Store is a folder of captures. It never deletes anything, and never has more bytes than its bound.
type Store struct {
	dir         string
	most        int64
	rotate      int64
	otlpCapture [3]*File

	mu    sync.Mutex
	bytes int64
	count int
}

// OpenStore makes the folder where it isn't there. What is in it counts.
func OpenStore(dir string, most, rotate int64) (*Store, error) {
	if err := os.MkdirAll(dir, 0o700); err != nil {
		return nil, fmt.Errorf("make the folder for captures: %w", err)
	}
	s := &Store{dir: dir, most: most, rotate: rotate}
	entries, err := os.ReadDir(dir)
	if err != nil {
		return nil, fmt.Errorf("read the folder for captures: %w", err)
	}
	for _, e := range entries {
		if info, err := e.Info(); err == nil && info.Mode().IsRegular() {
			s.bytes += info.Size()
		}
	}
	for _, of := range signal.All() {
		s.otlpCapture[of] = s.File(of, "otlp")
	}
	return s, nil
}

// OTLP is the capture for the requests of a signal, which all calls share.
func (s *Store) OTLP(of signal.Signal) *File { return s.otlpCapture[of] }

// Bytes says how many bytes the folder has.
func (s *Store) Bytes() int64 {
	s.mu.Lock()
	defer s.mu.Unlock()
	return s.bytes
}

// reserve counts bytes that are about to be written.
func (s *Store) reserve(n int64) error {
	s.mu.Lock()
	defer s.mu.Unlock()
	if s.bytes+n > s.most {
		return ErrFull
	}
	s.bytes += n
	return nil
}

func (s *Store) number() int {
	s.mu.Lock()
	defer s.mu.Unlock()
	s.count++
	return s.count
}

// A File is a capture that grows, and goes on in a new one where that was asked for.
type File struct {
	store *Store
	stem  string

	mu   sync.Mutex
	file *os.File
	to   *capture.Writer
	size int64
}

// File begins a capture of a signal in a form, otlp or otap. There is no file before the first message.
func (s *Store) File(of signal.Signal, form string) *File {
	return &File{store: s, stem: of.String() + "-" + form}
}

// Append writes one message as a frame. It is all there, or nothing of it is; after an error that isn't ErrFull the next
// message begins a new file.
func (f *File) Append(message []byte) error {
	f.mu.Lock()
	defer f.mu.Unlock()
	n := int64(capture.HeadSize + len(message))
	if err := f.store.reserve(n); err != nil {
		return err
	}
	err := f.append(message, n)
	if err != nil {
		f.store.reserve(-n)
	}
	return err
}

func (f *File) append(message []byte, n int64) error {
	if f.file != nil && f.size > 0 && f.size+n > f.store.rotate {
		if err := f.close(); err != nil {
			return err
		}
	}
	if f.file == nil {
		if err := f.open(); err != nil {
			return err
		}
	}
	err := f.to.Write(capture.Message(message))
	if err == nil {
		err = f.to.Flush()
	}
	if err != nil {
		err = fmt.Errorf("write a capture: %w", err)
		if cut := f.file.Truncate(f.size); cut != nil {
			err = fmt.Errorf("%w; it now ends within a frame: %v", err, cut)
		}
		f.close()
		return err
	}
	f.size += n
	return nil
}

// open makes a file whose name has the signal, the form, the time and a counter, and nothing that a peer sent.
func (f *File) open() error {
	for {
		name := fmt.Sprintf("%s-%s-%04d.capture", f.stem, time.Now().UTC().Format("20060102T150405Z"), f.store.number())
		file, err := os.OpenFile(filepath.Join(f.store.dir, name), os.O_WRONLY|os.O_CREATE|os.O_EXCL, 0o600)
		if errors.Is(err, os.ErrExist) {
			continue
		}
		if err != nil {
			return fmt.Errorf("begin a capture: %w", err)
		}
		f.file, f.to, f.size = file, capture.NewWriter(file), 0
		return nil
	}
}

// Close ends the capture.
func (f *File) Close() error {
	f.mu.Lock()
	defer f.mu.Unlock()
	return f.close()
}

func (f *File) close() error {
	if f.file == nil {
		return nil
	}
	err := f.file.Close()
	f.file, f.to, f.size = nil, nil, 0
	if err != nil {
		return fmt.Errorf("close a capture: %w", err)
	}
	return nil
}

// Close ends the captures that calls share.
func (s *Store) Close() error {
	var first error
	for _, f := range s.otlpCapture {
		if err := f.Close(); err != nil && first == nil {
			first = err
		}
	}
	return first
}
