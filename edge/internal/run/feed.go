package run

import (
	"context"
	"errors"
	"io"
	"os"
	"syscall"

	"finavoluth/edge/internal/capture"
	"finavoluth/edge/internal/command"
	"finavoluth/edge/internal/forms"
	"finavoluth/edge/internal/jobs"
	"finavoluth/edge/internal/source"
	"finavoluth/edge/internal/text"
)

// errGone says that the program takes nothing more. Why, it says itself.
var errGone = errors.New("the program has ended")

// A feeder brings the inputs to the program, frame by frame.
type feeder struct {
	*running
	to     *capture.Writer
	raw    io.Writer // what `to` writes to
	beside *lister   // asked for the ids of batches; nil where nobody asks
}

// feed brings all inputs to the program's standard input.
func (r *running) feed(reading, running context.Context, in *os.File) error {
	err := r.feedAll(reading, running, in)
	if errors.Is(err, errGone) || errors.Is(err, syscall.EPIPE) || errors.Is(err, os.ErrClosed) {
		return nil
	}
	return err
}

func (r *running) feedAll(reading, running context.Context, in *os.File) error {
	if r.passesOn() {
		return r.passOn(reading, in)
	}
	f := &feeder{running: r, to: capture.NewWriter(in), raw: in}
	if r.plan.Job.Takes == jobs.Batches && (r.plan.Streams || !r.plan.NoCheck) {
		beside, err := newLister(running, r)
		if err != nil {
			return err
		}
		f.beside = beside
		defer beside.end()
	}
	for i, input := range r.inputs {
		if i > 0 && r.plan.Job.Takes == jobs.Batches {
			if err := f.send(capture.Reset()); err != nil {
				return err
			}
		}
		if err := f.input(reading, input); err != nil {
			// What came before is whole, and is handled.
			if gone := f.flush(); gone != nil {
				return gone
			}
			var damage *capture.Damage
			if errors.As(err, &damage) {
				r.notes.damaged(input.Name, damage, r.inputs[i+1:])
				return nil
			}
			return err
		}
	}
	return f.flush()
}

// passesOn says whether bytes are only passed on: where nobody wants to look at them, and they are what the program reads.
func (r *running) passesOn() bool {
	return r.plan.NoCheck && !r.plan.Streams && len(r.inputs) == 1 && r.inputs[0].Form == forms.Capture
}

func (r *running) passOn(reading context.Context, in *os.File) error {
	opened, err := r.open(reading, r.inputs[0])
	if err != nil {
		return err
	}
	defer opened.Close()
	_, err = io.CopyBuffer(struct{ io.Writer }{in}, struct{ io.Reader }{opened}, make([]byte, 1<<18))
	return err
}

func (r *running) open(reading context.Context, input *forms.Input) (*forms.Opened, error) {
	opened, err := input.Open(reading)
	if err == nil {
		r.notes.opens(opened)
	}
	return opened, err
}

// input brings one input to the program. A *capture.Damage says that it broke off, and that the rest was passed on.
func (f *feeder) input(reading context.Context, input *forms.Input) error {
	opened, err := f.open(reading, input)
	if err != nil {
		return err
	}
	defer opened.Close()
	f.notes.begins(input.Name)
	content := &flushing{source: opened, flush: f.flush}
	messages := input.Messages(f.plan.Signal, content, f.notes.unknown())
	for {
		frame, err := messages.Next()
		var half *forms.Half
		var damage *capture.Damage
		switch {
		case err == io.EOF:
			return nil
		case errors.As(err, &half):
			f.env.Say("%v", half)
			return nil
		case errors.As(err, &damage):
			return f.pass(messages, damage)
		case err != nil:
			return err
		}
		if err := f.send(frame); err != nil {
			return err
		}
	}
}

// pass passes on what follows a damage as it is: the program names it.
func (f *feeder) pass(messages forms.Messages, damage *capture.Damage) error {
	if err := f.flush(); err != nil {
		return err
	}
	rest, ok := messages.(interface{ Rest() io.Reader })
	if !ok {
		return damage
	}
	if _, err := io.Copy(f.raw, rest.Rest()); err != nil && !errors.Is(err, syscall.EPIPE) {
		return err
	}
	return damage
}

// send hands one frame to the program, once it was looked at.
func (f *feeder) send(frame capture.Frame) error {
	if f.beside != nil {
		if err := f.beside.see(f, frame); err != nil {
			return err
		}
	}
	if !f.plan.NoCheck {
		f.notes.look(f.plan.Job.Takes, f.plan.Signal, frame)
	}
	f.notes.sent(frame)
	return f.put(frame)
}

func (f *feeder) put(frame capture.Frame) error {
	if err := f.to.Write(frame); err != nil {
		return gone(err)
	}
	return nil
}

func (f *feeder) flush() error {
	if f.beside != nil {
		f.beside.flush()
	}
	return gone(f.to.Flush())
}

func gone(err error) error {
	if errors.Is(err, syscall.EPIPE) {
		return errGone
	}
	return err
}

// flushing hands on what is there before it asks for more, so that nobody waits for a frame that has come.
type flushing struct {
	source io.Reader
	flush  func() error
}

func (f *flushing) Read(room []byte) (int, error) {
	if err := f.flush(); err != nil {
		return 0, err
	}
	return f.source.Read(room)
}

// Failed is the Exit for an error of an input.
func Failed(err error) error {
	var failure *source.Failure
	var wrong *forms.Wrong
	var signal *text.WrongSignal
	switch {
	case errors.As(err, &failure):
		return &command.Exit{Status: command.ReadFailed, Err: err}
	case errors.As(err, &signal):
		return &command.Exit{Status: command.Misused, Err: err}
	case errors.As(err, &wrong):
		return &command.Exit{Status: command.Damaged, Err: err}
	}
	var exit *command.Exit
	if errors.As(err, &exit) {
		return err
	}
	return &command.Exit{Status: command.ReadFailed, Err: err}
}
