package near

import (
	"context"
	"fmt"
	"strings"
	"time"

	"finavoluth/edge/internal/capture"
	"finavoluth/edge/internal/child"
	"finavoluth/edge/internal/signal"

	"google.golang.org/grpc/codes"
)

// An Encoder is a conversation with the program, which runs `encode`, or `resend` (a Resender).
type Encoder interface {
	// Ask has a request encoded, once the one before is answered.
	Ask(request []byte) error
	// Said is where the answers come, and the end of a program that ends by itself.
	Said() <-chan child.Said
	// Answer gives the batch of the request, or the cause for which the program refused it.
	Answer(child.Said) (batch []byte, cause string, err error)
	Close() error
}

// Encode starts a child that runs `encode`; one that takes longer than the timeout for an answer is killed.
func Encode(program *child.Program, timeout time.Duration) func(context.Context, signal.Signal) (Encoder, error) {
	return func(ctx context.Context, s signal.Signal) (Encoder, error) {
		talk, err := program.Ask(ctx, "encode", s.String())
		if err != nil {
			return nil, err
		}
		return encoder{talk.Within(timeout)}, nil
	}
}

type encoder struct{ *child.Conversation }

func (e encoder) Ask(request []byte) error { return e.Put(capture.Message(request)) }

func (e encoder) Answer(said child.Said) ([]byte, string, error) {
	answer, err := e.Conversation.Answer(said)
	switch {
	case err != nil:
		return nil, "", err
	case answer.Refused():
		return nil, cause(answer.Line), nil
	case answer.Frame == nil || answer.Frame.IsReset():
		return nil, "", fmt.Errorf("encode answered a request by no batch")
	}
	return answer.Frame.Payload, "", nil
}

// cause is the last word of `frame 0: request refused: CAUSE`.
func cause(line string) string {
	const before = "request refused: "
	if at := strings.Index(line, before); at >= 0 {
		return line[at+len(before):]
	}
	return line
}

// refusals has the codes for causes that say more than that the request is wrong.
var refusals = map[string]codes.Code{
	"TooHeavy":     codes.ResourceExhausted,
	"TooManyItems": codes.ResourceExhausted,
}

func refusal(cause string) codes.Code {
	if code, ok := refusals[cause]; ok {
		return code
	}
	return codes.InvalidArgument
}

// probe has a child encode a request of no bytes, so that a program that can't do the job is found before anybody sends.
func probe(config Config, s signal.Signal) error {
	e, err := config.Start(context.Background(), s)
	if err != nil {
		return fmt.Errorf("probe the program for %s: %w", s, err)
	}
	defer e.Close()
	var cause string
	if err = e.Ask(nil); err == nil {
		_, cause, err = e.Answer(<-e.Said())
	}
	if err != nil || cause != "" {
		return fmt.Errorf("probe the program for %s: %v%s", s, err, cause)
	}
	return nil
}
