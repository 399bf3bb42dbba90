// Package spool makes of an input a capture in a file, so that several runs of the proved program can read it, and asks
// the program whether the capture holds batches or requests.
//
// It trusts package forms for what an input is; what a message holds only the program says.
package spool

import (
	"context"
	"errors"
	"fmt"
	"io"
	"os"
	"strings"

	"finavoluth/edge/internal/capture"
	"finavoluth/edge/internal/child"
	"finavoluth/edge/internal/forms"
	"finavoluth/edge/internal/jobs"
	"finavoluth/edge/internal/profile"
	"finavoluth/edge/internal/replies"
	"finavoluth/edge/internal/signal"
	"finavoluth/edge/internal/source"
)

// A Capture is a capture in a file.
type Capture struct {
	File   string
	Frames int64           // that are whole
	Damage *capture.Damage // nil where all of it is frames

	temporary *os.File // where it was made here: a file without a name, which ends with this process
}

// Close gives up the file where it was made here.
func (c *Capture) Close() error {
	if c.temporary == nil {
		return nil
	}
	return c.temporary.Close()
}

// Of makes a capture of an input. A capture that lies in a plain file is that file.
func Of(ctx context.Context, input *forms.Input, s signal.Signal) (*Capture, error) {
	opened, err := input.Open(ctx)
	if err != nil {
		return nil, err
	}
	defer opened.Close()
	if path, plain := input.Path(); plain && input.Form == forms.Capture && input.Packing() == source.Plain {
		c := &Capture{File: path}
		return c, c.count(ctx, input.Messages(s, opened, forms.UnknownKeys{}))
	}
	c, err := temporary()
	if err != nil {
		return nil, err
	}
	if err := c.fill(ctx, input.Messages(s, opened, forms.UnknownKeys{}), c.temporary); err != nil {
		c.Close()
		return nil, err
	}
	return c, nil
}

// temporary makes a file whose name is taken away at once, so that nothing is left however this process ends. It is
// opened anew by its place among this process's files.
func temporary() (*Capture, error) {
	file, err := os.CreateTemp("", "otap-*.capture")
	if err != nil {
		return nil, fmt.Errorf("a temporary file: %w", err)
	}
	if err := os.Remove(file.Name()); err != nil {
		file.Close()
		return nil, fmt.Errorf("a temporary file: %w", err)
	}
	return &Capture{File: fmt.Sprintf("/proc/self/fd/%d", file.Fd()), temporary: file}, nil
}

// count counts the frames of a capture that stays where it is.
func (c *Capture) count(ctx context.Context, messages forms.Messages) error {
	for ; ctx.Err() == nil; c.Frames++ {
		if _, err := messages.Next(); err != nil {
			return c.ended(err)
		}
	}
	return ctx.Err()
}

// ended takes the end of an input: a damage and half a request are no errors here.
func (c *Capture) ended(err error) error {
	var half *forms.Half
	switch {
	case errors.Is(err, io.EOF), errors.As(err, &half):
		return nil
	case errors.As(err, &c.Damage):
		return nil
	}
	return err
}

// fill copies messages to the file, and what follows a damage as it is.
func (c *Capture) fill(ctx context.Context, messages forms.Messages, target *os.File) error {
	frames := capture.NewWriter(target)
	for ; ctx.Err() == nil; c.Frames++ {
		frame, err := messages.Next()
		if err != nil {
			if err := c.ended(err); err != nil {
				return err
			}
			break
		}
		if err := frames.Write(frame); err != nil {
			return fmt.Errorf("writing a temporary file: %w", source.Reason(err))
		}
	}
	if err := frames.Flush(); err != nil {
		return fmt.Errorf("writing a temporary file: %w", source.Reason(err))
	}
	if rest, has := messages.(interface{ Rest() io.Reader }); has && c.Damage != nil {
		if _, err := io.Copy(target, rest.Rest()); err != nil {
			return err
		}
	}
	return ctx.Err()
}

// looked is how many messages are looked at to find out what a capture holds.
const looked = 16

// Holds asks the program whether the capture holds batches or requests. Where its first messages can be read as neither,
// it is taken for one of batches.
func (c *Capture) Holds(ctx context.Context, program *child.Program, s signal.Signal, page *profile.Page) (jobs.Kind, error) {
	file, err := os.Open(c.File)
	if err != nil {
		return jobs.Batches, err
	}
	defer file.Close()
	list, err := program.Ask(ctx, "list")
	if err != nil {
		return jobs.Batches, err
	}
	defer list.Close()
	tidy, err := program.Ask(ctx, "tidy", s.String())
	if err != nil {
		return jobs.Batches, err
	}
	defer tidy.Close()
	frames := capture.NewReader(file)
	for n := 0; n < looked; {
		frame, err := frames.Next()
		if err != nil {
			break
		}
		if frame.IsReset() || len(frame.Payload) == 0 {
			continue
		}
		n++
		kind, known, err := judge(frame, list, tidy, page)
		if err != nil || known {
			return kind, err
		}
	}
	return jobs.Batches, nil
}

// judge asks of one message: a batch has payloads of types that the profile has; a request is read by tidy.
func judge(frame capture.Frame, list, tidy *child.Conversation, page *profile.Page) (kind jobs.Kind, known bool, err error) {
	listed, err := list.Send(frame)
	if err != nil {
		return jobs.Batches, false, err
	}
	if !listed.Refused() {
		_, payloads, err := replies.Listed(afterFrame(listed.Text))
		if err != nil {
			return jobs.Batches, false, err
		}
		for _, p := range payloads {
			if _, has := page.Table(p.Type); has {
				return jobs.Batches, true, nil
			}
		}
		return jobs.Batches, false, nil
	}
	tidied, err := tidy.Send(frame)
	return jobs.Requests, err == nil && !tidied.Refused(), err
}

// afterFrame is a line without "frame N: ".
func afterFrame(line string) string {
	if _, rest, found := strings.Cut(line, ": "); found {
		return rest
	}
	return line
}

// Encoded is what encode made of a capture of requests.
type Encoded struct {
	*Capture
	Requests int64
	Refused  []string // the lines on the first requests that were refused
	Count    int64    // of all that were refused
}

// keep is how many lines on refused requests are kept.
const keep = 200

// Encode makes a capture of batches of one of requests.
func (c *Capture) Encode(ctx context.Context, program *child.Program, s signal.Signal) (*Encoded, error) {
	made, err := temporary()
	if err != nil {
		return nil, err
	}
	e := &Encoded{Capture: made}
	if err := e.run(ctx, program, s, c.File, made.temporary); err != nil {
		made.Close()
		return nil, err
	}
	e.Damage = c.Damage
	return e, nil
}

func (e *Encoded) run(ctx context.Context, program *child.Program, s signal.Signal, file string, target io.Writer) error {
	ctx, cancel := context.WithCancel(ctx)
	defer cancel()
	// Only one goroutine calls this, and it has ended once the job has.
	refused := func(reply replies.Reply) {
		if e.Count++; len(e.Refused) < keep {
			e.Refused = append(e.Refused, reply.Refused)
		}
	}
	job, err := replies.Write(ctx, program, file, refused, "encode", s.String())
	if err != nil {
		return err
	}
	frames := capture.NewWriter(target)
	var failed error
	for {
		frame, err := job.Next()
		if err != nil {
			break
		}
		if failed = frames.Write(frame); failed != nil {
			cancel()
			break
		}
		e.Frames++
		if !frame.IsReset() {
			e.Requests++
		}
	}
	if failed == nil {
		failed = frames.Flush()
	}
	_, err = job.End()
	if failed != nil {
		return fmt.Errorf("writing a temporary file: %w", source.Reason(failed))
	}
	e.Requests += e.Count
	return err
}
