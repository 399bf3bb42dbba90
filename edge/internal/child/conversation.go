package child

import (
	"bufio"
	"context"
	"errors"
	"fmt"
	"io"
	"os/exec"
	"strings"
	"sync"
	"time"

	"google.golang.org/protobuf/encoding/protowire"

	"finavoluth/edge/internal/capture"
)

// An Answer is what the program replies to one frame.
type Answer struct {
	Frame *capture.Frame // what it put out, where it put out a frame
	Text  string         // what it put out, where the job prints a line for each frame (list, replay), without the line's end
	Line  string         // what it said on standard error, without the line's end; empty where the frame wasn't refused
}

// Refused says whether the program refused the frame.
func (a Answer) Refused() bool { return a.Line != "" }

// A Conversation is a run of the program that is asked frame by frame, so that it is known which answer belongs to which
// frame. One goroutine uses it at a time. After an error it is of no more use but for Close.
type Conversation struct {
	job    string
	cmd    *exec.Cmd
	given  context.Context // its end kills the program
	cancel context.CancelFunc
	limit  time.Duration // for an answer; 0 for none
	late   *time.Timer   // runs while an answer is awaited
	stdin  io.WriteCloser
	frames *capture.Writer
	said   chan Said
	read   sync.WaitGroup // for both outputs to be read to their ends
	closed bool
	ended  error // how the run ended, once it is closed
}

// Said is a frame or a line of one of the program's outputs, or the output's end.
type Said struct {
	answer Answer
	err    error
}

// unheard is how much may be said before anybody listens: an answer, and the ends of both outputs.
const unheard = 3

// Ask begins a run for a lock-step. The jobs are those that answer each frame by one frame (encode, decode, tidy, status)
// or by one line (list, replay), and resend, whose reset is answered by several frames (Collect).
func (p *Program) Ask(ctx context.Context, words ...string) (*Conversation, error) {
	if len(words) == 0 {
		return nil, errors.New("no job to ask for")
	}
	ctx, cancel := context.WithCancel(ctx)
	c := &Conversation{job: words[0], cmd: p.Command(ctx, words...), given: ctx, cancel: cancel, said: make(chan Said, unheard)}
	c.late = time.AfterFunc(time.Hour, cancel)
	c.late.Stop()
	fail := func(err error) (*Conversation, error) {
		cancel()
		return nil, fmt.Errorf("starting %s: %w", p, err)
	}
	var err error
	if c.stdin, err = c.cmd.StdinPipe(); err != nil {
		return fail(err)
	}
	stdout, err := c.cmd.StdoutPipe()
	if err != nil {
		return fail(err)
	}
	stderr, err := c.cmd.StderrPipe()
	if err != nil {
		return fail(err)
	}
	if err := c.cmd.Start(); err != nil {
		return fail(reason(err))
	}
	c.frames = capture.NewWriter(c.stdin)
	c.read.Add(2)
	if lines(c.job) {
		go c.readLines(stdout, func(line string) Answer { return Answer{Text: line} })
	} else {
		go c.readFrames(stdout)
	}
	go c.readLines(stderr, func(line string) Answer { return Answer{Line: line} })
	return c, nil
}

// Within has the program killed where it takes longer for an answer, or to end when it is closed.
func (c *Conversation) Within(limit time.Duration) *Conversation {
	c.limit = limit
	return c
}

// lines says whether the job answers by a line on standard output.
func lines(job string) bool { return job == "list" || job == "replay" }

func (c *Conversation) readFrames(from io.Reader) {
	defer c.read.Done()
	source := capture.NewReader(from)
	for {
		frame, err := source.Next()
		if !c.tell(Said{Answer{Frame: &frame}, err}) || err != nil {
			return
		}
	}
}

func (c *Conversation) readLines(from io.Reader, as func(string) Answer) {
	defer c.read.Done()
	source := bufio.NewReader(from)
	for {
		line, err := source.ReadString('\n')
		if err == io.EOF && line != "" {
			err = nil
		}
		if !c.tell(Said{as(strings.TrimSuffix(line, "\n")), err}) || err != nil {
			return
		}
	}
}

// tell leaves off where nobody listens any more. What there is room for is said also then, as the end of a run that was
// killed.
func (c *Conversation) tell(what Said) bool {
	c.late.Stop()
	select {
	case c.said <- what:
		return true
	default:
	}
	select {
	case c.said <- what:
		return true
	case <-c.given.Done():
		return false
	}
}

// Send hands the program one frame, and waits for its answer.
func (c *Conversation) Send(f capture.Frame) (Answer, error) {
	if err := c.Put(f); err != nil {
		return Answer{}, err
	}
	answer, err := c.Answer(<-c.said)
	if err != nil || c.job != "status" {
		return answer, err
	}
	return c.status(answer)
}

// Put hands the program one frame. The answer is what is said next, and the next frame is put after it.
func (c *Conversation) Put(f capture.Frame) error {
	if c.limit > 0 {
		c.late.Reset(c.limit)
	}
	if err := c.frames.Write(f); err != nil {
		return c.broken(err)
	}
	if err := c.frames.Flush(); err != nil {
		return c.broken(err)
	}
	return nil
}

// Collect hands the program one frame that has so many answers, and each of these on as it comes. Where one isn't taken, it
// is done at once, and the conversation is of no more use.
func (c *Conversation) Collect(f capture.Frame, answers int, take func(Answer) error) error {
	if err := c.Put(f); err != nil {
		return err
	}
	defer c.late.Stop()
	for ; answers > 0; answers-- {
		if c.limit > 0 {
			c.late.Reset(c.limit)
		}
		answer, err := c.Answer(<-c.said)
		if err != nil {
			return err
		}
		if err := take(answer); err != nil {
			return err
		}
	}
	return nil
}

// Said is where the program's answers come. Where the job is `status`, Send puts together what it says of a batch.
func (c *Conversation) Said() <-chan Said { return c.said }

// Answer is what was said, or how the run ended.
func (c *Conversation) Answer(it Said) (Answer, error) {
	if it.err != nil {
		return Answer{}, c.broken(it.err)
	}
	return it.answer, nil
}

// status takes the line too where the status says that the batch was refused. Either may come first.
func (c *Conversation) status(first Answer) (Answer, error) {
	if f := first.Frame; f != nil && (f.IsReset() || statusCode(f.Payload) == 0) {
		return first, nil
	}
	second, err := c.Answer(<-c.said)
	if err != nil {
		return Answer{}, err
	}
	if second.Frame == nil {
		first, second = second, first
	}
	return Answer{Frame: second.Frame, Line: first.Line}, nil
}

// statusCode is the second field of a BatchStatus; 0 is OK.
func statusCode(status []byte) uint64 {
	code := uint64(0)
	for len(status) > 0 {
		number, kind, n := protowire.ConsumeField(status)
		if n < 0 {
			return code
		}
		if number == 2 && kind == protowire.VarintType {
			_, _, tag := protowire.ConsumeTag(status)
			code, _ = protowire.ConsumeVarint(status[tag:])
		}
		status = status[n:]
	}
	return code
}

// broken ends the run, and says how it ended.
func (c *Conversation) broken(err error) error {
	if ended := c.Close(); ended != nil {
		return ended
	}
	if errors.Is(err, io.EOF) {
		err = errors.New("it ended too early")
	}
	return fmt.Errorf("asking %s %s: %w", Name, c.job, err)
}

// Close ends the input, and waits for the program's end. It returns nothing where the program ended with 0 or 1.
func (c *Conversation) Close() error {
	if !c.closed {
		c.closed = true
		c.ended = c.end()
	}
	return c.ended
}

func (c *Conversation) end() error {
	defer c.cancel()
	c.late.Stop()
	if c.limit > 0 {
		defer time.AfterFunc(c.limit, c.cancel).Stop()
	}
	c.stdin.Close()
	go drain(c.said)
	c.read.Wait()
	err := c.cmd.Wait()
	close(c.said)
	if code := c.cmd.ProcessState.ExitCode(); code == 0 || code == 1 {
		return nil
	}
	return fmt.Errorf("%s %s ended with %s", Name, c.job, ending(c.cmd, err))
}

func drain(said <-chan Said) {
	for range said {
	}
}

func ending(cmd *exec.Cmd, err error) string {
	if cmd.ProcessState == nil {
		return err.Error()
	}
	if code := cmd.ProcessState.ExitCode(); code >= 0 {
		return fmt.Sprintf("status %d", code)
	}
	return cmd.ProcessState.String()
}
