// Package replies runs jobs of the proved program over a capture and hands over, frame by frame, what they say.
//
// Several jobs run side by side over one file, each at its own speed: a job that prints names the frame in each of its
// lines, so that what two jobs say of one frame comes together without asking them in lock-step.
//
// It trusts the printed forms that docs/PROFILE.md gives ("Printed text"), and that a job writes one frame for each
// frame that it doesn't refuse. Where either doesn't hold, that is an error and nothing is guessed.
package replies

import (
	"bufio"
	"bytes"
	"context"
	"errors"
	"fmt"
	"io"
	"os"
	"os/exec"
	"strconv"
	"strings"

	"finavoluth/edge/internal/capture"
	"finavoluth/edge/internal/child"
)

// Reply is what a job that prints says of one frame.
type Reply struct {
	Frame   int64
	Lines   []string // on standard output; the first without "frame N: "
	Refused string   // the line on standard error, or "" where the frame wasn't refused
}

// Reset says whether the frame was a reset.
func (r Reply) Reset() bool { return len(r.Lines) == 1 && r.Lines[0] == "reset" }

// Ending is how a job ended: 0, or 1 where a frame was refused, or 5 where the capture is damaged.
type Ending struct {
	Status int
	Damage string // the line of the damage, "" where there is none
}

// Texts is a job that prints lines, as list, schema, show and replay do.
type Texts struct {
	run      *run
	out, err chan Reply
	nextOut  *Reply
	nextErr  *Reply
}

// Print starts a job that prints, over the capture in the file. Of the lines that follow a line that begins with
// "payload", at most limit are kept, all where limit is below 0.
func Print(ctx context.Context, program *child.Program, file string, limit int, words ...string) (*Texts, error) {
	r, err := start(ctx, program, file, words)
	if err != nil {
		return nil, err
	}
	t := &Texts{run: r, out: make(chan Reply, 256), err: make(chan Reply, 256)}
	r.read(func() error { defer close(t.out); return t.readOut(limit) })
	r.read(func() error { defer close(t.err); return t.readErr() })
	return t, nil
}

// Next gives what the job says of the frame; each frame is asked for once, in ascending order. io.EOF where the job
// ended before it.
func (t *Texts) Next(frame int64) (Reply, error) {
	for {
		if t.nextOut != nil && t.nextOut.Frame == frame {
			reply := *t.nextOut
			t.nextOut = nil
			return reply, nil
		}
		if t.nextErr != nil && t.nextErr.Frame == frame {
			reply := *t.nextErr
			t.nextErr = nil
			return reply, nil
		}
		if err := t.fill(frame); err != nil {
			return Reply{}, err
		}
	}
}

// fill takes one more reply from either side.
func (t *Texts) fill(frame int64) error {
	out, err := t.out, t.err
	if t.nextOut != nil {
		out = nil
	}
	if t.nextErr != nil {
		err = nil
	}
	if out == nil && err == nil {
		if t.nextOut == nil && t.nextErr == nil {
			return io.EOF
		}
		return fmt.Errorf("%s says nothing of frame %d", t.run.name, frame)
	}
	select {
	case reply, ok := <-out:
		if !ok {
			t.out = nil
		} else {
			t.nextOut = &reply
		}
	case reply, ok := <-err:
		if !ok {
			t.err = nil
		} else {
			t.nextErr = &reply
		}
	}
	return nil
}

// End waits for the job. It must have been read to its end, or its context be done.
func (t *Texts) End() (Ending, error) { return t.run.end() }

func (t *Texts) send(to chan Reply, reply Reply) error {
	select {
	case to <- reply:
		return nil
	case <-t.run.ctx.Done():
		return t.run.ctx.Err()
	}
}

func (t *Texts) readOut(limit int) error {
	var now *Reply
	kept := 0
	err := eachLine(t.run.stdout, func(line []byte) error {
		if frame, rest, ok := ofFrame(line); ok {
			if now != nil {
				if err := t.send(t.out, *now); err != nil {
					return err
				}
			}
			now, kept = &Reply{Frame: frame, Lines: []string{string(rest)}}, 0
			return nil
		}
		if now == nil {
			return fmt.Errorf("%s prints %q before any frame", t.run.name, line)
		}
		if bytes.HasPrefix(line, []byte("payload ")) {
			kept = -1
		}
		if kept++; limit < 0 || kept <= limit {
			now.Lines = append(now.Lines, string(line))
		}
		return nil
	})
	if err == nil && now != nil {
		err = t.send(t.out, *now)
	}
	return err
}

func (t *Texts) readErr() error {
	return eachLine(t.run.stderr, func(line []byte) error {
		if frame, _, ok := ofFrame(line); ok {
			return t.send(t.err, Reply{Frame: frame, Refused: string(line)})
		}
		return t.run.other(line)
	})
}

// Messages is a job that writes frames, as encode and decode do.
type Messages struct {
	run    *run
	frames chan capture.Frame
	said   func(Reply)
}

// Write starts a job that writes frames, over the capture in the file. What it says of refused frames is given to said,
// on another goroutine, unless that is nil.
func Write(ctx context.Context, program *child.Program, file string, said func(Reply), words ...string) (*Messages, error) {
	r, err := start(ctx, program, file, words)
	if err != nil {
		return nil, err
	}
	m := &Messages{run: r, frames: make(chan capture.Frame, 16), said: said}
	r.read(func() error { defer close(m.frames); return m.readOut() })
	r.read(m.readErr)
	return m, nil
}

// Next gives the next frame that the job writes, and io.EOF at its end.
func (m *Messages) Next() (capture.Frame, error) {
	if frame, ok := <-m.frames; ok {
		return frame, nil
	}
	return capture.Frame{}, io.EOF
}

// End waits for the job. It must have been read to its end, or its context be done.
func (m *Messages) End() (Ending, error) { return m.run.end() }

func (m *Messages) readOut() error {
	frames := capture.NewReader(m.run.stdout)
	for {
		frame, err := frames.Next()
		if errors.Is(err, io.EOF) {
			return nil
		}
		if err != nil {
			return fmt.Errorf("reading what %s writes: %w", m.run.name, err)
		}
		select {
		case m.frames <- frame:
		case <-m.run.ctx.Done():
			return m.run.ctx.Err()
		}
	}
}

func (m *Messages) readErr() error {
	return eachLine(m.run.stderr, func(line []byte) error {
		if frame, _, ok := ofFrame(line); ok {
			if m.said != nil {
				m.said(Reply{Frame: frame, Refused: string(line)})
			}
			return nil
		}
		return m.run.other(line)
	})
}

// run is one job as a process, with the goroutines that read its outputs.
type run struct {
	ctx            context.Context
	name           string
	command        *exec.Cmd
	file           *os.File
	stdout, stderr io.Reader
	readers        []chan error
	damage         string
}

func start(ctx context.Context, program *child.Program, file string, words []string) (*run, error) {
	input, err := os.Open(file)
	if err != nil {
		return nil, err
	}
	r := &run{ctx: ctx, name: strings.Join(words, " "), file: input, command: program.Command(ctx, words...)}
	r.command.Stdin = input
	if r.stdout, err = r.command.StdoutPipe(); err == nil {
		r.stderr, err = r.command.StderrPipe()
	}
	if err == nil {
		err = r.command.Start()
	}
	if err != nil {
		input.Close()
		return nil, fmt.Errorf("starting %s: %w", r.name, err)
	}
	return r, nil
}

// read runs a reader of one output to its end.
func (r *run) read(body func() error) {
	done := make(chan error, 1)
	r.readers = append(r.readers, done)
	go func() { done <- body() }()
}

// other takes a line on standard error that is of no frame.
func (r *run) other(line []byte) error {
	if !bytes.HasPrefix(line, []byte("damage at ")) {
		return fmt.Errorf("%s says %q", r.name, line)
	}
	r.damage = string(line)
	return nil
}

func (r *run) end() (Ending, error) {
	var failed error
	for _, done := range r.readers {
		if err := <-done; err != nil && failed == nil {
			failed = err
		}
	}
	err := r.command.Wait()
	r.file.Close()
	if r.ctx.Err() != nil {
		return Ending{}, r.ctx.Err()
	}
	if failed != nil {
		return Ending{}, failed
	}
	ending := Ending{Status: r.command.ProcessState.ExitCode(), Damage: r.damage}
	switch ending.Status {
	case 0, 1, 5:
		return ending, nil
	case 2:
		return ending, fmt.Errorf("the program has no job %q", r.name)
	case 3, 4, 6:
		why := map[int]string{3: "a read failed", 4: "a write failed", 6: "out of memory"}
		return ending, fmt.Errorf("%s: %s", r.name, why[ending.Status])
	}
	return ending, fmt.Errorf("%s: %w", r.name, err)
}

// eachLine calls body on each line, without its newline; an end without one is a line too.
func eachLine(source io.Reader, body func(line []byte) error) error {
	lines := bufio.NewReaderSize(source, 1<<16)
	var long []byte
	for {
		part, err := lines.ReadSlice('\n')
		if errors.Is(err, bufio.ErrBufferFull) {
			long = append(long, part...)
			continue
		}
		if err != nil && !errors.Is(err, io.EOF) {
			return err
		}
		if len(long) > 0 {
			long = append(long, part...)
			part, long = long, nil
		}
		if len(part) > 0 {
			if failed := body(bytes.TrimSuffix(part, []byte{'\n'})); failed != nil {
				return failed
			}
		}
		if err != nil {
			return nil
		}
	}
}

// ofFrame splits "frame 12: rest".
func ofFrame(line []byte) (frame int64, rest []byte, ok bool) {
	number, rest, found := bytes.Cut(line, []byte(": "))
	if !found || !bytes.HasPrefix(number, []byte("frame ")) {
		return 0, nil, false
	}
	frame, err := strconv.ParseInt(string(number[len("frame "):]), 10, 64)
	return frame, rest, err == nil
}
