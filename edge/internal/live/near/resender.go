package near

import (
	"context"
	"encoding/binary"
	"fmt"
	"strings"
	"time"

	"finavoluth/edge/internal/capture"
	"finavoluth/edge/internal/child"
	"finavoluth/edge/internal/live/wire"
	"finavoluth/edge/internal/signal"

	"google.golang.org/protobuf/encoding/protowire"
)

// MostResent is how many requests `resend` keeps at most.
const MostResent = 64

// A Resender is an Encoder that keeps each request until a status for its batch ends it, over one stream after the other.
type Resender interface {
	Encoder
	// Tell hands over a status, once all before it is answered: one that ends a request, by OK or InvalidArgument.
	Tell(wire.Status) error
	// Told reads what is said of a status.
	Told(child.Said) error
	// Begin begins a stream: the batches of all open requests, so many, come anew, in the order in which they were sent.
	Begin(open int, take func(batch []byte) error) error
}

// Resend starts a child that runs `resend` with a window; one that takes longer than the timeout for an answer is killed.
func Resend(program *child.Program, window int, timeout time.Duration) func(context.Context, signal.Signal) (Encoder, error) {
	return func(ctx context.Context, s signal.Signal) (Encoder, error) {
		talk, err := program.Ask(ctx, "resend", s.String(), fmt.Sprint(window))
		if err != nil {
			return nil, err
		}
		return resender{encoder{talk.Within(timeout)}}, nil
	}
}

type resender struct{ encoder }

// The fields of an event.
const (
	eventRequest protowire.Number = 1
	eventStatus  protowire.Number = 2
)

func event(number protowire.Number, part []byte) capture.Frame {
	message := make([]byte, 0, 1+binary.MaxVarintLen32+len(part))
	return capture.Message(protowire.AppendBytes(protowire.AppendTag(message, number, protowire.BytesType), part))
}

func (r resender) Ask(request []byte) error { return r.Put(event(eventRequest, request)) }

func (r resender) Tell(s wire.Status) error { return r.Put(event(eventStatus, s.Append(nil))) }

func (r resender) Told(said child.Said) error {
	answer, err := r.Conversation.Answer(said)
	if err != nil {
		return err
	}
	if !strings.HasSuffix(answer.Line, " done") && !strings.HasSuffix(answer.Line, " given up") {
		return fmt.Errorf("resend said %q of a status", answer.Line)
	}
	return nil
}

func (r resender) Begin(open int, take func([]byte) error) error {
	begun := false
	return r.Collect(capture.Reset(), 1+open, func(answer child.Answer) error {
		if f := answer.Frame; f == nil || f.IsReset() == begun {
			return fmt.Errorf("resend answered a reset out of turn: %q", answer.Line)
		}
		if !begun {
			begun = true
			return nil
		}
		return take(answer.Frame.Payload)
	})
}
