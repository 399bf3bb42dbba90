// Package requests reads the requests of an input, whatever it has: requests as they are, or batches, which the proved
// program decodes. Which of the two a capture has, the program says by its job `list`.
package requests

import (
	"context"
	"errors"
	"fmt"
	"io"

	"finavoluth/edge/internal/capture"
	"finavoluth/edge/internal/child"
	"finavoluth/edge/internal/forms"
	"finavoluth/edge/internal/signal"
	"finavoluth/edge/internal/streams"
)

// A Stream is the requests of one input, one after the other. It is used by one goroutine.
type Stream struct {
	options  Options
	input    *forms.Input
	opened   *forms.Opened
	messages forms.Messages
	ahead    []capture.Frame // read to know what the input has, and not yet handed out
	known    bool            // whether it is known what the input has
	list     *child.Conversation
	decode   *child.Conversation // nil for requests
	ids      streams.Rising
	anew     bool // whether it was said that a stream begins anew

	Refused int // messages that were refused
	Damaged bool
	Keys    forms.UnknownKeys
}

// Options say how a Stream is read.
type Options struct {
	Signal  signal.Signal
	Program func() (*child.Program, error) // asked for once batches are met, or a capture
	Say     func(format string, values ...interface{})
	Line    func(line string) // takes what the program says of a batch
	Streams bool              // whether a stream of batches that begins anew is read as after a reset
	Before  func() error      // called before more of the input is asked for, where the caller has to hand on what it has
}

// asking calls a function before each read.
type asking struct {
	io.Reader
	before func() error
}

func (a *asking) Read(room []byte) (int, error) {
	if err := a.before(); err != nil {
		return 0, err
	}
	return a.Reader.Read(room)
}

// Open begins to read an input.
func Open(ctx context.Context, input *forms.Input, options Options) (*Stream, error) {
	opened, err := input.Open(ctx)
	if err != nil {
		return nil, err
	}
	s := &Stream{options: options, input: input, opened: opened, Keys: forms.UnknownKeys{}}
	var content io.Reader = opened
	if options.Before != nil {
		content = &asking{opened, options.Before}
	}
	s.messages = input.Messages(options.Signal, content, s.Keys)
	if input.Form == forms.Capture {
		err = s.look(ctx)
	}
	if err != nil {
		s.Close()
		return nil, err
	}
	return s, nil
}

// look reads up to the first message that isn't empty, and asks the program whether it is a batch.
func (s *Stream) look(ctx context.Context) error {
	for {
		frame, err := s.messages.Next()
		if err == io.EOF {
			return nil
		}
		var damage *capture.Damage
		if errors.As(err, &damage) {
			s.damaged(damage)
			return nil
		}
		if err != nil {
			return err
		}
		s.ahead = append(s.ahead, capture.Frame{Flag: frame.Flag, Payload: append([]byte(nil), frame.Payload...)})
		if frame.Flag == capture.FlagMessage && len(frame.Payload) > 0 {
			return s.ask(ctx, frame)
		}
	}
}

func (s *Stream) ask(ctx context.Context, frame capture.Frame) error {
	program, err := s.options.Program()
	if err != nil {
		return err
	}
	list, err := program.Ask(ctx, "list")
	if err != nil {
		return err
	}
	answer, err := list.Send(frame)
	if closed := list.Close(); err == nil {
		err = closed
	}
	if err != nil || answer.Refused() {
		return err
	}
	if s.list, err = program.Ask(ctx, "list"); err != nil {
		return err
	}
	s.decode, err = program.Ask(ctx, "decode", s.options.Signal.String())
	return err
}

// Next is the next request; after the last one the error is io.EOF. It is the caller's until the next one is asked for.
func (s *Stream) Next() ([]byte, error) {
	for {
		frame, err := s.frame()
		var half *forms.Half
		var damage *capture.Damage
		switch {
		case errors.As(err, &half):
			s.options.Say("%v", half)
			return nil, io.EOF
		case errors.As(err, &damage):
			s.damaged(damage)
			return nil, io.EOF
		case err != nil:
			return nil, err
		}
		if s.decode != nil {
			request, err := s.decoded(frame)
			if err != nil || request != nil {
				return request, err
			}
			continue
		}
		switch frame.Flag {
		case capture.FlagMessage:
			return frame.Payload, nil
		case capture.FlagCompressed:
			s.Refused++
			s.options.Say("%s has a compressed message, which isn't read", s.input.Name)
		}
	}
}

func (s *Stream) damaged(damage *capture.Damage) {
	s.Damaged = true
	s.options.Say("%s is damaged at byte %d (%s): what follows isn't read", s.input.Name, damage.Offset, damage.Reason)
}

func (s *Stream) frame() (capture.Frame, error) {
	if len(s.ahead) > 0 {
		frame := s.ahead[0]
		s.ahead = s.ahead[1:]
		return frame, nil
	}
	if s.Damaged {
		return capture.Frame{}, io.EOF
	}
	return s.messages.Next()
}

// decoded is the request of a batch, or nothing for a reset or a batch that is refused.
func (s *Stream) decoded(frame capture.Frame) ([]byte, error) {
	listed, err := s.list.Send(frame)
	if err != nil {
		return nil, err
	}
	if anew, before, id := s.ids.Next(listed.Text); anew {
		if err := s.begins(before, id); err != nil {
			return nil, err
		}
	}
	answer, err := s.decode.Send(frame)
	if err != nil {
		return nil, err
	}
	if answer.Refused() {
		s.Refused++
		s.options.Line(answer.Line)
		return nil, nil
	}
	if answer.Frame.IsReset() {
		return nil, nil
	}
	if answer.Frame.Payload == nil {
		return []byte{}, nil
	}
	return answer.Frame.Payload, nil
}

// begins handles a stream that begins anew without a reset.
func (s *Stream) begins(before, id int64) error {
	if s.options.Streams {
		_, err := s.decode.Send(capture.Reset())
		return err
	}
	if !s.anew {
		s.anew = true
		s.options.Say("%s: batch %d follows batch %d: a stream begins there without a reset; `--streams` puts resets in", s.input.Name, id, before)
	}
	return nil
}

// Close ends the reading.
func (s *Stream) Close() error {
	err := s.opened.Close()
	for _, talk := range []*child.Conversation{s.list, s.decode} {
		if talk == nil {
			continue
		}
		if closed := talk.Close(); err == nil && closed != nil {
			err = fmt.Errorf("%s: %w", s.input.Name, closed)
		}
	}
	return err
}
