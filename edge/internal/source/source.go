// Package source opens the inputs of a command: files by name, or standard input; in gzip or zstd where they begin so; and
// files that still grow. Each error of a read says which input it is, and the system's reason. What an input holds is no
// matter of this package.
package source

import (
	"bufio"
	"bytes"
	"context"
	"errors"
	"fmt"
	"io"
	"os"
	"sync/atomic"

	"github.com/klauspost/compress/gzip"
	"github.com/klauspost/compress/zstd"
)

// Stdin is the name that means standard input.
const Stdin = "-"

// A Packing is the compression of an input as a whole.
type Packing string

// The packings.
const (
	Plain Packing = ""
	Gzip  Packing = "gzip"
	Zstd  Packing = "zstd"
)

// Magic says by the first bytes how something is packed.
func Magic(begin []byte) Packing {
	switch {
	case bytes.HasPrefix(begin, []byte{0x1f, 0x8b}):
		return Gzip
	case bytes.HasPrefix(begin, []byte{0x28, 0xb5, 0x2f, 0xfd}):
		return Zstd
	}
	return Plain
}

// A Source is an input that is open, and not yet read.
type Source struct {
	name    string
	file    *os.File
	info    os.FileInfo
	size    int64 // of the file, or -1 where it isn't known
	begin   int64 // where in the file the content begins, where the size is known
	taken   int64 // bytes of the file that were read; atomic
	content *bufio.Reader
	packing Packing
	follow  bool
	end     func() error
}

// Options say how inputs are opened.
type Options struct {
	Stdin  *os.File
	Follow bool // whether to wait at the end of a file until it grows, and until the context ends
}

// Open opens an input by its name, Stdin for standard input.
func Open(ctx context.Context, name string, options Options) (*Source, error) {
	s := &Source{name: name, size: -1, follow: options.Follow, end: func() error { return nil }}
	if name == Stdin {
		s.name, s.file = "standard input", options.Stdin
	} else {
		file, err := os.Open(name)
		if err != nil {
			return nil, fmt.Errorf("reading %s: %w", name, Reason(err))
		}
		s.file = file
	}
	what, err := s.file.Stat()
	if err != nil {
		s.Close()
		return nil, fmt.Errorf("reading %s: %w", s.name, Reason(err))
	}
	s.info = what
	if what.Mode().IsRegular() && !s.follow {
		s.size = what.Size()
		if s.begin, err = s.file.Seek(0, io.SeekCurrent); err != nil {
			s.Close()
			return nil, fmt.Errorf("reading %s: %w", s.name, Reason(err))
		}
	}
	var raw io.Reader = &counted{source: s}
	if !what.Mode().IsRegular() {
		raw = newWaiting(ctx, raw)
	}
	if s.follow {
		raw = &growing{ctx: ctx, source: s}
	}
	if err := s.unpack(raw); err != nil {
		s.Close()
		return nil, err
	}
	return s, nil
}

// unpack looks at the first bytes, and undoes the packing that they name.
func (s *Source) unpack(raw io.Reader) error {
	begin := bufio.NewReaderSize(raw, 1<<16)
	magic, err := begin.Peek(4)
	if err != nil && err != io.EOF {
		return err
	}
	s.packing = Magic(magic)
	switch s.packing {
	case Gzip:
		unpacked, err := gzip.NewReader(begin)
		if err != nil {
			return s.failed(err)
		}
		s.content = bufio.NewReaderSize(&named{source: s, reader: unpacked}, 1<<16)
	case Zstd:
		unpacked, err := zstd.NewReader(begin, zstd.WithDecoderConcurrency(1))
		if err != nil {
			return s.failed(err)
		}
		s.end = func() error { unpacked.Close(); return nil }
		s.content = bufio.NewReaderSize(&named{source: s, reader: unpacked}, 1<<16)
	default:
		s.content = begin
	}
	return nil
}

// Name is what to call the input.
func (s *Source) Name() string { return s.name }

// Packing is how the input is packed as a whole.
func (s *Source) Packing() Packing { return s.packing }

// Size is the size of the file, packed as it is, or -1 where it isn't known or may change.
func (s *Source) Size() int64 { return s.size }

// Taken is how many bytes of the file were read. It may be asked for from another goroutine.
func (s *Source) Taken() int64 { return atomic.LoadInt64(&s.taken) }

// Regular says whether the content can be looked at without waiting for somebody who writes it.
func (s *Source) Regular() bool { return s.size >= 0 }

// File is the file at the begin of its content, to be read by a process as it is: nil where that isn't possible. Nothing is
// read by Read afterwards.
func (s *Source) File() (*os.File, error) {
	if !s.Regular() || s.packing != Plain {
		return nil, nil
	}
	if _, err := s.file.Seek(s.begin, io.SeekStart); err != nil {
		return nil, s.failed(err)
	}
	return s.file, nil
}

// Read reads the content, unpacked.
func (s *Source) Read(room []byte) (int, error) { return s.content.Read(room) }

// Info is what the system knew of the file when it was opened.
func (s *Source) Info() os.FileInfo { return s.info }

// Close closes the input; standard input stays open.
func (s *Source) Close() error {
	err := s.end()
	if s.name != "standard input" && s.file != nil {
		if closed := s.file.Close(); err == nil {
			err = closed
		}
	}
	return err
}

func (s *Source) failed(err error) error {
	if err == io.EOF || err == nil {
		return err
	}
	var said *Failure
	if errors.As(err, &said) {
		return said
	}
	return &Failure{Name: s.name, Err: Reason(err)}
}

// A Failure is a read that failed.
type Failure struct {
	Name string
	Err  error // the system's reason, or what is wrong with packed bytes
}

func (f *Failure) Error() string { return fmt.Sprintf("reading %s: %v", f.Name, f.Err) }

func (f *Failure) Unwrap() error { return f.Err }

// Reason is the system's reason alone, where the file is named already.
func Reason(err error) error {
	var path *os.PathError
	if errors.As(err, &path) {
		return path.Err
	}
	var link *os.LinkError
	if errors.As(err, &link) {
		return link.Err
	}
	var call *os.SyscallError
	if errors.As(err, &call) {
		return call.Err
	}
	return err
}

// counted reads the file, and counts.
type counted struct{ source *Source }

func (c *counted) Read(room []byte) (int, error) {
	n, err := c.source.file.Read(room)
	atomic.AddInt64(&c.source.taken, int64(n))
	return n, c.source.failed(err)
}

// named reads unpacked bytes; an error names the input.
type named struct {
	source *Source
	reader io.Reader
}

func (n *named) Read(room []byte) (int, error) {
	got, err := n.reader.Read(room)
	if err == io.EOF || err == nil {
		return got, err
	}
	var said *Failure
	if errors.As(err, &said) {
		return got, said
	}
	return got, &Failure{Name: n.source.name, Err: fmt.Errorf("%s: %w", n.source.packing, err)}
}
