// Package pieces cuts a capture into pieces, runs a job of the proved program on each, and puts the results together to
// what one run writes.
//
// A capture may be cut before a reset: nothing that comes after it builds on what came before. That is a promise of the
// proved program's definitions (a segment is read by its own frames), and what is joined rests on it. Jobs that judge
// each frame by itself (list, schema, tidy) may be cut before any frame.
package pieces

import (
	"bufio"
	"context"
	"errors"
	"fmt"
	"io"
	"os"
	"path/filepath"
	"strings"

	"finavoluth/edge/internal/capture"
)

// Where a capture may be cut.
const (
	AtResets = "resets"
	AtFrames = "frames"
)

// Index is the name of the file that lists the pieces of a folder.
const Index = "pieces"

// Suffix is the end of the name of a piece.
const Suffix = ".capture"

// longest is the number of bytes from which on a program calls a capture damaged, wherever that is; a piece of it would
// be judged otherwise.
const longest = 1 << 40

// ErrThere says that there is something already where the pieces should go.
var ErrThere = errors.New("is there already")

// Piece is a part of a capture: whole frames, and in the last piece what may follow them.
type Piece struct {
	Name   string // of its file, without the folder
	Frame  int64  // the number of its first frame
	Offset int64  // of its first byte
}

// List is what the index of a folder says.
type List struct {
	At     string // where it was cut
	Pieces []Piece
}

// Split writes the frames of a capture into a folder, in pieces of about size bytes. The folder must not be there yet; it
// appears with all its pieces at once, or not at all.
func Split(ctx context.Context, source io.Reader, folder, at string, size int64) (List, error) {
	list := List{At: at}
	if _, err := os.Lstat(folder); err == nil {
		return list, fmt.Errorf("%s %w", folder, ErrThere)
	}
	room := fmt.Sprintf("%s.part%d", filepath.Clean(folder), os.Getpid())
	if err := os.Mkdir(room, 0o777); err != nil {
		return list, err
	}
	defer os.RemoveAll(room)
	s := splitter{folder: room, list: list}
	if err := s.run(ctx, capture.NewReader(source), size); err != nil {
		s.abandon()
		return list, err
	}
	if err := s.list.write(filepath.Join(room, Index)); err != nil {
		return list, err
	}
	return s.list, os.Rename(room, folder)
}

type splitter struct {
	folder string
	list   List
	file   *os.File
	frames *capture.Writer
	frame  int64
}

func (s *splitter) run(ctx context.Context, reader *capture.Reader, size int64) error {
	if err := s.begin(0); err != nil {
		return err
	}
	for began := int64(0); ; s.frame++ {
		offset := reader.Offset()
		frame, err := reader.Next()
		if err != nil {
			return s.finish(reader, err)
		}
		if err := ctx.Err(); err != nil {
			return err
		}
		if reader.Offset() >= longest {
			return fmt.Errorf("a capture of 2^40 bytes or more can't be split: the program reads none so long")
		}
		if offset-began >= size && (s.list.At == AtFrames || frame.IsReset()) {
			if err := s.end(); err != nil {
				return err
			}
			if err := s.begin(offset); err != nil {
				return err
			}
			began = offset
		}
		if err := s.frames.Write(frame); err != nil {
			return fmt.Errorf("writing %s: %w", s.file.Name(), err)
		}
	}
}

// finish ends the last piece. What is no frame is put there as it is, for the program to find the damage in it.
func (s *splitter) finish(reader *capture.Reader, ended error) error {
	var damage *capture.Damage
	switch {
	case errors.Is(ended, io.EOF):
		return s.end()
	case !errors.As(ended, &damage):
		return ended
	}
	if err := s.frames.Flush(); err != nil {
		return err
	}
	if _, err := io.Copy(s.file, reader.Rest()); err != nil {
		return err
	}
	return s.file.Close()
}

func (s *splitter) begin(offset int64) error {
	name := fmt.Sprintf("%06d%s", len(s.list.Pieces), Suffix)
	file, err := os.Create(filepath.Join(s.folder, name))
	if err != nil {
		return err
	}
	s.file, s.frames = file, capture.NewWriter(file)
	s.list.Pieces = append(s.list.Pieces, Piece{Name: name, Frame: s.frame, Offset: offset})
	return nil
}

func (s *splitter) end() error {
	if err := s.frames.Flush(); err != nil {
		return fmt.Errorf("writing %s: %w", s.file.Name(), err)
	}
	return s.file.Close()
}

func (s *splitter) abandon() {
	if s.file != nil {
		s.file.Close()
	}
}

// write writes the index: a line that says where it was cut, and one for each piece.
func (l List) write(name string) error {
	file, err := os.Create(name)
	if err != nil {
		return err
	}
	fmt.Fprintf(file, "cut at %s\n", l.At)
	for _, p := range l.Pieces {
		if _, err = fmt.Fprintf(file, "%s frame %d offset %d\n", p.Name, p.Frame, p.Offset); err != nil {
			break
		}
	}
	if closed := file.Close(); err == nil {
		err = closed
	}
	return err
}

// Read reads the index of a folder.
func Read(folder string) (List, error) {
	var list List
	name := filepath.Join(folder, Index)
	file, err := os.Open(name)
	if err != nil {
		return list, err
	}
	defer file.Close()
	lines := bufio.NewScanner(file)
	for n := 1; lines.Scan(); n++ {
		if n == 1 {
			list.At = strings.TrimPrefix(lines.Text(), "cut at ")
			if list.At != AtResets && list.At != AtFrames {
				return list, fmt.Errorf("%s isn't an index that otap split wrote", name)
			}
			continue
		}
		var p Piece
		if _, err := fmt.Sscanf(lines.Text(), "%s frame %d offset %d", &p.Name, &p.Frame, &p.Offset); err != nil || p.Name != filepath.Base(p.Name) {
			return list, fmt.Errorf("%s, line %d: %q is no piece", name, n, lines.Text())
		}
		list.Pieces = append(list.Pieces, p)
	}
	if err := lines.Err(); err != nil {
		return list, fmt.Errorf("reading %s: %w", name, err)
	}
	if len(list.Pieces) == 0 {
		return list, fmt.Errorf("%s names no piece", name)
	}
	return list, nil
}
