package far

import (
	"context"
	"fmt"
	"regexp"
	"strconv"
	"strings"
	"time"

	"finavoluth/edge/internal/capture"
	"finavoluth/edge/internal/child"
	"finavoluth/edge/internal/live/wire"
	"finavoluth/edge/internal/signal"

	"google.golang.org/grpc/codes"
)

// A Decoder is a conversation with the program.
type Decoder interface {
	// Ask has a batch decoded, once the one before is answered.
	Ask(batch []byte) error
	// Said is where the answers come, and the end of a program that ends by itself.
	Said() <-chan child.Said
	// Answer gives the request of the batch, or how the program refused it.
	Answer(child.Said) (request []byte, refused *Refusal, err error)
	Close() error
}

// A Refusal has the status that the program's own job `status` would give the batch.
type Refusal struct {
	Status wire.Status
	// Cause is the word for what was wrong.
	Cause string
}

// Decode starts a child that runs `decode`; one that takes longer than the timeout for an answer is killed.
func Decode(program *child.Program, timeout time.Duration) func(context.Context, signal.Signal) (Decoder, error) {
	return func(ctx context.Context, s signal.Signal) (Decoder, error) {
		talk, err := program.Ask(ctx, "decode", s.String())
		if err != nil {
			return nil, err
		}
		return decoder{talk.Within(timeout)}, nil
	}
}

type decoder struct{ *child.Conversation }

func (d decoder) Ask(batch []byte) error { return d.Put(capture.Message(batch)) }

func (d decoder) Answer(said child.Said) ([]byte, *Refusal, error) {
	answer, err := d.Conversation.Answer(said)
	switch {
	case err != nil:
		return nil, nil, err
	case answer.Refused():
		refused, err := readRefusal(answer.Line)
		return nil, refused, err
	case answer.Frame == nil || answer.Frame.IsReset():
		return nil, nil, fmt.Errorf("decode answered a batch by no request")
	}
	return answer.Frame.Payload, nil, nil
}

var refusalLine = regexp.MustCompile(`^frame \d+: batch (-|-?\d+) refused: (stage (\d+) (\S+).*)$`)

// byStage has the codes of the stages that say more than that the batch is wrong, as the job `status` gives them.
var byStage = map[string]codes.Code{
	"0": codes.Aborted,
	"4": codes.ResourceExhausted,
	"6": codes.ResourceExhausted,
}

// readRefusal reads `frame 0: batch 7 refused: stage 3 Order payload 30`.
func readRefusal(line string) (*Refusal, error) {
	part := refusalLine.FindStringSubmatch(line)
	if part == nil {
		return nil, fmt.Errorf("decode said %q", line)
	}
	r := &Refusal{Status: wire.Status{ID: wire.Unreadable, Code: codes.InvalidArgument, Message: part[2]}, Cause: strings.TrimSpace(part[4])}
	if part[1] != "-" {
		id, err := strconv.ParseInt(part[1], 10, 64)
		if err != nil {
			return nil, fmt.Errorf("decode said %q: %w", line, err)
		}
		r.Status.ID = id
	}
	if code, ok := byStage[part[3]]; ok {
		r.Status.Code = code
	}
	return r, nil
}

// probe has a child decode a batch of no bytes, so that a program that can't do the job is found before anybody sends.
func probe(config Config, s signal.Signal) error {
	d, err := config.Start(context.Background(), s)
	if err != nil {
		return fmt.Errorf("probe the program for %s: %w", s, err)
	}
	defer d.Close()
	if err = d.Ask(nil); err == nil {
		_, _, err = d.Answer(<-d.Said())
	}
	if err != nil {
		return fmt.Errorf("probe the program for %s: %w", s, err)
	}
	return nil
}
