package forms

import (
	"bufio"
	"context"
	"fmt"
	"io"
	"os"

	"finavoluth/edge/internal/signal"
	"finavoluth/edge/internal/source"
)

// Options say how an input is opened and what it is taken for.
type Options struct {
	source.Options
	From     Form // the form, or Unknown to find it out
	Captures bool // whether it can only be a capture, as batches are
}

// An Input is a file or standard input, whose form is known.
type Input struct {
	Name string
	Form Form
	Look Look // what was seen of it; of no use where the form was given

	file    string
	options Options
	packing source.Packing
	size    int64
	is      os.FileInfo
	open    *Opened // where it can't be opened again: standard input, a pipe, a file that is followed
}

// An Opened is the content of an input.
type Opened struct {
	*bufio.Reader
	source *source.Source
}

// Taken is how many bytes of the file were read; another goroutine may ask.
func (o *Opened) Taken() int64 { return o.source.Taken() }

// File is the file itself at the begin of its content, or nil where it can't be read by another process as it is. It is asked
// for before anything is read.
func (o *Opened) File() (*os.File, error) { return o.source.File() }

// Close closes the file.
func (o *Opened) Close() error { return o.source.Close() }

// Inspect opens an input, and finds out its form where that isn't given: an *Ambiguous says that it can't be known. A file
// is closed again.
func Inspect(ctx context.Context, name string, options Options) (*Input, error) {
	opened, err := openSource(ctx, name, options)
	if err != nil {
		return nil, err
	}
	input := &Input{Name: opened.source.Name(), Form: options.From, file: name, options: options,
		packing: opened.source.Packing(), size: opened.source.Size(), is: opened.source.Info()}
	if input.Form == Unknown {
		if err := input.detect(opened); err != nil {
			opened.Close()
			return nil, err
		}
	}
	if opened.source.Regular() && name != source.Stdin {
		return input, opened.Close()
	}
	input.open = opened
	return input, nil
}

func openSource(ctx context.Context, name string, options Options) (*Opened, error) {
	from, err := source.Open(ctx, name, options.Options)
	if err != nil {
		return nil, err
	}
	return &Opened{Reader: bufio.NewReaderSize(from, Window), source: from}, nil
}

// Open is the content, from its first byte on. It is asked for once.
func (i *Input) Open(ctx context.Context) (*Opened, error) {
	if i.open != nil {
		return i.open, nil
	}
	return openSource(ctx, i.file, i.options)
}

// IsPlainFile says whether the input is a file that isn't packed, and that doesn't grow.
func (i *Input) IsPlainFile() bool { return i.size >= 0 && i.packing == source.Plain }

// IsFile says whether the input is the file of which this is known.
func (i *Input) IsFile(other os.FileInfo) bool { return os.SameFile(i.is, other) }

// Path is the file, where it can be opened by its name again.
func (i *Input) Path() (string, bool) { return i.file, i.open == nil }

// Size is the size of the file, packed as it is, or -1 where it isn't known.
func (i *Input) Size() int64 { return i.size }

// Packing is how the input is packed as a whole.
func (i *Input) Packing() source.Packing { return i.packing }

// Describe says what the input was taken for.
func (i *Input) Describe() string {
	packed := ""
	if i.packing != source.Plain {
		packed = fmt.Sprintf(" in %s", i.packing)
	}
	return fmt.Sprintf("%s is read as %s%s (--from %s)", i.Name, i.Form.Describe(), packed, i.Form)
}

// Messages reads the requests of opened content.
func (i *Input) Messages(s signal.Signal, content io.Reader, unknown UnknownKeys) Messages {
	return Read(i.Form, s, i.Name, content, unknown)
}

// detect looks at all that is there, at most a Window. Where somebody is still writing, it looks again after each piece
// that comes, and waits for more only as long as several framings hold, or none has a whole message.
func (i *Input) detect(opened *Opened) error {
	want := 1
	if opened.source.Regular() {
		want = Window
	}
	for {
		_, err := opened.Peek(want)
		if err != nil && err != io.EOF {
			return err
		}
		begin, _ := opened.Peek(opened.Buffered())
		end := err == io.EOF
		left := int64(-1)
		if opened.source.Regular() && i.packing == source.Plain {
			left = i.size - int64(len(begin))
		}
		look, failed := i.judge(begin, end, left)
		if end || len(begin) == Window || failed == nil && look.Whole > 0 || failed != nil && hopeless(failed) {
			i.Form, i.Look = look.Form, look
			return failed
		}
		want = len(begin) + 1
	}
}

func (i *Input) judge(begin []byte, end bool, left int64) (Look, error) {
	if !i.options.Captures {
		return Detect(i.Name, begin, end, left)
	}
	looks := LookAll(begin, end, left)
	if looks[0].Holds() {
		return looks[0], nil
	}
	return Look{}, &NoCapture{Name: i.Name, Looks: looks}
}

// hopeless says whether more bytes can't help.
func hopeless(err error) bool {
	var looks []Look
	switch it := err.(type) {
	case *Ambiguous:
		looks = it.Looks
	case *NoCapture:
		looks = it.Looks[:1]
	}
	for _, look := range looks {
		if look.Ending != Broken {
			return false
		}
	}
	return true
}

// NoCapture is the error of an input that can only be a capture, and isn't one.
type NoCapture struct {
	Name  string
	Looks []Look
}

func (n *NoCapture) Error() string {
	look := n.Looks[0]
	if look.Whole > 0 {
		return fmt.Sprintf("%s is a capture that is damaged at byte %d (%s); `--from capture` has it read up to there", n.Name, look.Offset, look.Reason)
	}
	for _, other := range n.Looks[1:] {
		if other.Holds() && other.Whole > 0 {
			return fmt.Sprintf("%s is no capture, as batches are, but looks like %s: `otap encode` makes batches of these", n.Name, other.Form.Describe())
		}
	}
	return fmt.Sprintf("%s is no capture, as batches are (%s at byte %d); `--from capture` has it read all the same", n.Name, look.Reason, look.Offset)
}
