package run

import (
	"bufio"
	"errors"
	"fmt"
	"io"
	"io/fs"
	"os"
	"path/filepath"
	"syscall"

	"finavoluth/edge/internal/command"
	"finavoluth/edge/internal/forms"
	"finavoluth/edge/internal/source"
)

// A Target is where output goes: standard output, a file that is written beside the one that is named and takes its place
// at the end, or something that is named and is no regular file, as a device, which is written to as it is.
type Target struct {
	name   string
	file   *os.File
	buffer *bufio.Writer
	beside string // the name of the file that is written, where it is to take the place of another
	final  string // the name that it takes
	end    error
}

// OpenTarget opens the target. One that is an input is refused.
func OpenTarget(output string, stdout *os.File, inputs []*forms.Input) (*Target, error) {
	if output == "" {
		if what, err := stdout.Stat(); err == nil && what.Mode().IsRegular() {
			if name, same := inputOf(inputs, what); same {
				return nil, command.Misuse("standard output is the input %s: nothing was written", name)
			}
		}
		return newTarget("standard output", stdout), nil
	}
	what, err := os.Stat(output)
	switch {
	case err == nil:
		if name, same := inputOf(inputs, what); same && what.Mode().IsRegular() {
			return nil, command.Misuse("-o %s is the input %s: nothing was written", output, name)
		}
		if what.IsDir() {
			return nil, command.Misuse("-o %s is a folder", output)
		}
		if !what.Mode().IsRegular() {
			file, err := os.OpenFile(output, os.O_WRONLY, 0)
			if err != nil {
				return nil, writing(output, err)
			}
			return newTarget(output, file), nil
		}
	case !errors.Is(err, fs.ErrNotExist):
		return nil, writing(output, err)
	}
	return openBeside(output, what)
}

func newTarget(name string, file *os.File) *Target {
	return &Target{name: name, file: file, buffer: bufio.NewWriterSize(file, 1<<16)}
}

func inputOf(inputs []*forms.Input, what os.FileInfo) (string, bool) {
	for _, input := range inputs {
		if input.IsFile(what) {
			return input.Name, true
		}
	}
	return "", false
}

// openBeside makes a new file in the folder of the output; `old` is what stands there now, or nil.
func openBeside(output string, old os.FileInfo) (*Target, error) {
	final := output
	if old != nil {
		whole, err := filepath.EvalSymlinks(output)
		if err != nil {
			return nil, writing(output, err)
		}
		final = whole
	}
	for try := 0; ; try++ {
		beside := fmt.Sprintf("%s.part%d", final, os.Getpid()+try)
		file, err := os.OpenFile(beside, os.O_WRONLY|os.O_CREATE|os.O_EXCL, 0o666)
		if errors.Is(err, fs.ErrExist) && try < 100 {
			continue
		}
		if err != nil {
			return nil, writing(output, err)
		}
		if old != nil {
			_ = file.Chmod(old.Mode().Perm())
		}
		t := newTarget(output, file)
		t.beside, t.final = beside, final
		return t, nil
	}
}

func writing(name string, err error) error {
	return &command.Exit{Status: command.WriteFailed, Err: fmt.Errorf("writing %s: %w", name, source.Reason(err))}
}

// Write keeps the text until Flush, or until there is much of it.
func (t *Target) Write(text []byte) (int, error) {
	n, err := t.buffer.Write(text)
	return n, t.failed(err)
}

// Flush hands on what was written.
func (t *Target) Flush() error { return t.failed(t.buffer.Flush()) }

func (t *Target) failed(err error) error {
	if err == nil {
		return nil
	}
	return writing(t.name, err)
}

// why is the system's reason for a write of the program's own that failed. A pipe or a socket has none but that nobody
// reads; elsewhere a byte is written once more, and taken back where that goes well.
func (t *Target) why() error {
	what, err := t.file.Stat()
	if err != nil || what.Mode()&(fs.ModeNamedPipe|fs.ModeSocket) != 0 {
		return writing(t.name, syscall.EPIPE)
	}
	if _, err := t.file.Write([]byte{'\n'}); err != nil {
		return writing(t.name, err)
	}
	end, err := t.file.Seek(0, io.SeekCurrent)
	if grown, failed := t.file.Stat(); err == nil && failed == nil && grown.Mode().IsRegular() && grown.Size() == end {
		_ = t.file.Truncate(end - 1)
	}
	return nil
}

// Keep ends a good run: the file takes its name.
func (t *Target) Keep() error {
	if err := t.Flush(); err != nil {
		return err
	}
	if t.beside == "" {
		return nil
	}
	if err := t.file.Close(); err != nil {
		return writing(t.name, err)
	}
	if err := os.Rename(t.beside, t.final); err != nil {
		return writing(t.name, err)
	}
	t.beside = ""
	return nil
}

// Discard ends a run that wasn't kept: what stood under the name stays.
func (t *Target) Discard() {
	if t.beside != "" {
		t.file.Close()
		os.Remove(t.beside)
		t.beside = ""
	}
}
