package run

import (
	"bufio"
	"errors"
	"fmt"
	"io"
	"strings"
	"time"

	"finavoluth/edge/internal/capture"
	"finavoluth/edge/internal/command"
	"finavoluth/edge/internal/forms"
	"finavoluth/edge/internal/jobs"
	"finavoluth/edge/internal/signal"
	"finavoluth/edge/internal/text"
)

// translates says whether what the program puts out is wanted in another form.
func (r *running) translates() bool {
	return r.plan.Job.Gives == jobs.Requests && (r.plan.To == forms.Proto || r.plan.To == forms.JSON)
}

// drain takes what the program puts out to the target, in the form that is wanted.
func (r *running) drain(out io.ReadCloser) error {
	defer out.Close()
	if r.translates() {
		writer := &FormWriter{To: r.plan.To, Signal: r.plan.Signal, Indent: r.plan.Indent, Target: r.target}
		return writer.All(&flushing{source: out, flush: r.target.Flush})
	}
	room := make([]byte, 1<<18)
	for {
		n, err := out.Read(room)
		if n > 0 {
			if _, err := r.target.Write(room[:n]); err != nil {
				return err
			}
			if err := r.target.Flush(); err != nil {
				return err
			}
		}
		if err != nil {
			return nil
		}
	}
}

// A FormWriter writes requests in a form that is no capture.
type FormWriter struct {
	To     forms.Form
	Signal signal.Signal
	Indent bool
	Target io.Writer
}

// All writes all requests of a capture. Resets are left out: these forms have none.
func (w *FormWriter) All(captured io.Reader) error {
	frames := capture.NewReader(captured)
	for {
		frame, err := frames.Next()
		var damage *capture.Damage
		if err == io.EOF || errors.As(err, &damage) {
			return nil // where the program ended early, its status says why
		}
		var exit *command.Exit
		if errors.As(err, &exit) {
			return exit
		}
		if err != nil {
			return command.Fail(command.Broken, "reading what the program puts out: %w", err)
		}
		if frame.IsReset() {
			continue
		}
		if err := w.Write(frame.Payload); err != nil {
			return err
		}
	}
}

// Write writes one request.
func (w *FormWriter) Write(request []byte) error {
	if w.To == forms.Proto {
		n := len(request)
		if _, err := w.Target.Write([]byte{byte(n >> 24), byte(n >> 16), byte(n >> 8), byte(n)}); err != nil {
			return err
		}
		_, err := w.Target.Write(request)
		return err
	}
	line, err := text.Write(w.Signal, request, w.Indent)
	if err != nil {
		return command.Fail(command.Broken, "a request as JSON: %w", err)
	}
	if _, err := w.Target.Write(line); err != nil {
		return err
	}
	if len(line) == 0 || line[len(line)-1] != '\n' {
		_, err = w.Target.Write([]byte{'\n'})
	}
	return err
}

// hear passes on what the program says, line by line, and takes it in.
func (r *running) hear(said io.ReadCloser) {
	defer said.Close()
	lines := bufio.NewReaderSize(said, 1<<16)
	for {
		line, err := lines.ReadString('\n')
		if line != "" {
			r.notes.said(strings.TrimSuffix(line, "\n"))
			_, _ = io.WriteString(r.env.Stderr, line)
		}
		if err != nil {
			return
		}
	}
}

// progress shows how much of the inputs was read, where their size is known and there is a terminal, until the function
// that it returns is called.
func (r *running) progress(ctx interface{ Done() <-chan struct{} }) (end func()) {
	total := int64(0)
	for _, input := range r.inputs {
		if input.Size() < 0 {
			return func() {}
		}
		total += input.Size()
	}
	if r.env.Progress == nil || total == 0 {
		return func() {}
	}
	stop, ended := make(chan struct{}), make(chan struct{})
	go func() {
		defer close(ended)
		ticks := time.NewTicker(200 * time.Millisecond)
		defer ticks.Stop()
		for {
			select {
			case <-ticks.C:
				r.env.Progress(progressText(r.notes.taken(), total))
			case <-stop:
				r.env.Progress("")
				return
			case <-ctx.Done():
				r.env.Progress("")
				return
			}
		}
	}()
	return func() { close(stop); <-ended }
}

func progressText(taken, total int64) string {
	const mib = 1 << 20
	return fmt.Sprintf("%3d %% of %.1f MiB", taken*100/total, float64(total)/mib)
}
