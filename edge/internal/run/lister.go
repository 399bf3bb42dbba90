package run

import (
	"bufio"
	"context"
	"io"
	"os"
	"os/exec"
	"strconv"
	"strings"
	"sync"

	"finavoluth/edge/internal/capture"
	"finavoluth/edge/internal/child"
	"finavoluth/edge/internal/command"
	"finavoluth/edge/internal/source"
	"finavoluth/edge/internal/streams"
)

// A lister asks the program's `list` for the id of each batch, to see where a stream begins anew without a reset. It asks
// in lock-step where resets are to be put in, and else beside the job, which then doesn't wait.
type lister struct {
	notes *notes
	talk  *child.Conversation // in lock-step
	ids   streams.Rising

	to    *capture.Writer // beside
	in    *os.File
	cmd   *exec.Cmd
	heard sync.WaitGroup
	ended bool
}

func newLister(ctx context.Context, r *running) (*lister, error) {
	l := &lister{notes: &r.notes}
	if r.plan.Streams {
		talk, err := r.program.Ask(ctx, "list")
		if err != nil {
			return nil, &command.Exit{Status: command.Broken, Err: err}
		}
		l.talk = talk
		return l, nil
	}
	l.cmd = r.program.Command(ctx, "list")
	in, out, said, err := pipes(l.cmd, nil)
	if err != nil {
		return nil, &command.Exit{Status: command.Broken, Err: err}
	}
	said.Close()
	closeAll(l.cmd.Stderr)
	l.cmd.Stderr = nil
	if err := l.cmd.Start(); err != nil {
		return nil, command.Fail(command.Broken, "starting the program (%s): %w", r.program, source.Reason(err))
	}
	closeAll(l.cmd.Stdin, l.cmd.Stdout)
	l.in, l.to = in, capture.NewWriter(in)
	l.heard.Add(1)
	go l.hear(out)
	return l, nil
}

// hear reads what list prints beside the job.
func (l *lister) hear(out io.ReadCloser) {
	defer l.heard.Done()
	defer out.Close()
	lines := bufio.NewReaderSize(out, 1<<16)
	for {
		line, err := lines.ReadString('\n')
		if err != nil {
			return
		}
		if anew, before, id := l.ids.Next(line); anew {
			l.notes.begun(frameOf(line), before, id)
		}
	}
}

func frameOf(line string) int {
	number, _ := strconv.Atoi(strings.TrimSuffix(strings.Fields(line)[1], ":"))
	return number
}

// see shows the lister a frame before the job sees it. In lock-step it puts a reset before a batch that begins anew.
func (l *lister) see(f *feeder, frame capture.Frame) error {
	if l.talk == nil {
		if !l.ended && l.to.Write(frame) != nil {
			l.ended = true
		}
		return nil
	}
	answer, err := l.talk.Send(frame)
	if err != nil {
		return &command.Exit{Status: command.Broken, Err: err}
	}
	anew, before, id := l.ids.Next(answer.Text)
	if !anew {
		return nil
	}
	l.notes.begun(l.notes.count(), before, id)
	l.notes.sent(capture.Reset())
	return f.put(capture.Reset())
}

func (l *lister) flush() {
	if l.talk == nil && !l.ended && l.to.Flush() != nil {
		l.ended = true
	}
}

// end ends the list, and waits for what it has said.
func (l *lister) end() {
	if l.talk != nil {
		_ = l.talk.Close()
		return
	}
	l.flush()
	l.in.Close()
	l.heard.Wait()
	_ = l.cmd.Wait()
}
