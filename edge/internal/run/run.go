// Package run runs one job of the proved program over a user's files: it brings requests and batches to the program's
// standard input, its output to where the user wants it, and says what the program can't: the system's reason where a read
// or a write fails, what isn't carried, and what a refusal mostly comes from. The program's answers are trusted; batches
// pass through as they are.
package run

import (
	"context"
	"errors"
	"io"
	"os"
	"os/exec"
	"sync"
	"syscall"
	"time"

	"golang.org/x/sys/unix"

	"finavoluth/edge/internal/child"
	"finavoluth/edge/internal/command"
	"finavoluth/edge/internal/forms"
	"finavoluth/edge/internal/jobs"
	"finavoluth/edge/internal/signal"
	"finavoluth/edge/internal/source"
)

// A Plan is what to run.
type Plan struct {
	Job     jobs.Job
	Signal  signal.Signal
	Words   []string   // the program's words: the job's name, the signal, and what else it takes
	Files   []string   // none means standard input
	From    forms.Form // Unknown has it found out
	To      forms.Form // of requests; Unknown means a capture
	Indent  bool       // whether JSON is indented
	Output  string     // a file, or nothing for standard output
	Follow  bool
	Streams bool // whether resets are put in where a stream begins anew
	Strict  bool // whether what isn't carried ends the run with Refused
	NoCheck bool // whether bytes are only passed on where that is possible
}

// Run runs the plan. The error is a *command.Exit, or nil where all went well.
func (p *Plan) Run(ctx context.Context, env *command.Env) error {
	program, err := env.Program()
	if err != nil {
		return err
	}
	defer program.Close()
	inputs, err := p.inspect(ctx, env)
	if err != nil {
		return err
	}
	target, err := OpenTarget(p.Output, env.Stdout, inputs)
	if err != nil {
		return err
	}
	defer target.Discard()
	r := &running{plan: p, env: env, program: program, inputs: inputs, target: target}
	return r.run(ctx)
}

// inspect finds out the form of each input, before anything is run.
func (p *Plan) inspect(ctx context.Context, env *command.Env) ([]*forms.Input, error) {
	if p.Job.Takes == jobs.Nothing {
		return nil, nil
	}
	options := forms.Options{Options: source.Options{Stdin: env.Stdin, Follow: p.Follow}, From: p.From,
		Captures: p.Job.Takes == jobs.Batches}
	return Inspect(ctx, env, p.Files, options)
}

// Inspect finds out the forms of files, or of standard input where there are none, and says those of requests.
func Inspect(ctx context.Context, env *command.Env, files []string, options forms.Options) ([]*forms.Input, error) {
	if len(files) == 0 {
		files = []string{source.Stdin}
	}
	var inputs []*forms.Input
	for _, file := range files {
		input, err := forms.Inspect(ctx, file, options)
		if err != nil {
			return nil, inspected(err)
		}
		if options.From == forms.Unknown && !options.Captures {
			env.Say("%s", input.Describe())
		}
		inputs = append(inputs, input)
	}
	return inputs, nil
}

func inspected(err error) error {
	var ambiguous *forms.Ambiguous
	var none *forms.NoCapture
	if errors.As(err, &ambiguous) || errors.As(err, &none) {
		return &command.Exit{Status: command.Misused, Err: err}
	}
	return &command.Exit{Status: command.ReadFailed, Err: err}
}

// running is one run. The goroutines that feed the program, take its output and hear what it says tell what they met to
// notes and outcomes.
type running struct {
	plan    *Plan
	env     *command.Env
	program *child.Program
	inputs  []*forms.Input
	target  *Target
	notes   notes
}

// outcomes of the parts of a run. The zero outcome is a good end.
type outcomes struct {
	fed     error // from the inputs
	written error // to the target
	status  int   // of the program
	ended   error // how the program ended, where it gave no status
	left    bool  // whether the inputs are still being read
}

func (r *running) run(ctx context.Context) error {
	// Where a file is followed, an interrupt is its end, and the program handles what is there.
	background, cancel := context.WithCancel(context.Background())
	defer cancel()
	if !r.plan.Follow {
		go func() {
			<-ctx.Done()
			cancel()
		}()
	}
	result, err := r.start(ctx, background, cancel)
	if ctx.Err() != nil && !r.plan.Follow {
		return &command.Exit{Status: command.Interrupted, Err: errors.New("interrupted")}
	}
	if err != nil {
		return err
	}
	return r.conclude(ctx, result)
}

// A process is the program as it runs.
type process struct {
	cmd           *exec.Cmd
	in, out, said *os.File
	handed        *os.File // the input's file, where the program reads it itself; then nothing goes to `in`
	// where the program reads the input itself and its output stays as it is, it writes to the target itself, and `out` is nil
}

// launch starts the program.
func (r *running) launch(reading, running context.Context) (*process, error) {
	p := &process{cmd: r.program.Command(running, r.plan.Words...)}
	var err error
	if p.handed, err = r.handOver(reading); err != nil {
		return nil, err
	}
	if p.in, p.out, p.said, err = pipes(p.cmd, p.handed); err != nil {
		return nil, &command.Exit{Status: command.Broken, Err: err}
	}
	if p.handed != nil && !r.translates() {
		closeAll(p.out, p.cmd.Stdout)
		p.out, p.cmd.Stdout = nil, r.target.file
	}
	if err := p.cmd.Start(); err != nil {
		return nil, command.Fail(command.Broken, "starting the program (%s): %w", r.program, source.Reason(err))
	}
	if p.handed == nil {
		closeAll(p.cmd.Stdin)
	}
	if p.out != nil {
		closeAll(p.cmd.Stdout)
	}
	closeAll(p.cmd.Stderr)
	return p, nil
}

// start runs the program, and waits for its end.
func (r *running) start(reading, running context.Context, stop func()) (outcomes, error) {
	p, err := r.launch(reading, running)
	if err != nil {
		return outcomes{}, err
	}
	defer r.progress(running)()

	var result outcomes
	var taken sync.WaitGroup
	taken.Add(1)
	go func() {
		defer taken.Done()
		r.hear(p.said)
	}()
	if p.out != nil {
		taken.Add(1)
		go func() {
			defer taken.Done()
			if result.written = r.drain(p.out); result.written != nil {
				stop()
			}
		}()
	}
	fed := make(chan error, 1)
	if p.handed != nil {
		fed <- nil
	} else {
		go func() {
			fed <- r.feed(reading, running, p.in)
			p.in.Close()
		}()
	}
	taken.Wait()
	ended := p.cmd.Wait()
	select {
	case result.fed = <-fed:
	case <-time.After(grace):
		result.left = true // it waits for somebody who writes, and the program takes nothing more
	}
	result.status, result.ended = statusOf(p.cmd, ended)
	if p.out == nil && (result.status == command.WriteFailed || killedByPipe(p.cmd)) {
		result.written = r.target.why()
	}
	if p.handed != nil && result.status == command.ReadFailed {
		_, result.fed = io.Copy(io.Discard, p.handed) // the read that failed, once more, for the system's reason
	}
	return result, nil
}

// handOver is the input's file, where the program can read it as it is: bytes that are only passed on needn't pass through
// here.
func (r *running) handOver(reading context.Context) (*os.File, error) {
	if !r.passesOn() || !r.inputs[0].IsPlainFile() {
		return nil, nil
	}
	opened, err := r.open(reading, r.inputs[0])
	if err != nil {
		return nil, Failed(err)
	}
	file, err := opened.File()
	if err != nil {
		return nil, Failed(err)
	}
	return file, nil
}

// grace is how long the inputs are waited for once the program has ended.
const grace = time.Second / 4

// pipes connects a command with three pipes, or with two where a file is its standard input. Without input nothing comes on
// the first.
func pipes(cmd *exec.Cmd, input *os.File) (in, out, said *os.File, err error) {
	var ends [3][2]*os.File
	for i := range ends {
		if i == 0 && input != nil {
			continue
		}
		if ends[i][0], ends[i][1], err = os.Pipe(); err != nil {
			return nil, nil, nil, source.Reason(err)
		}
		if i < 2 {
			// A larger pipe saves turns between the processes; where the system allows none, the usual one does.
			_, _ = unix.FcntlInt(ends[i][1].Fd(), unix.F_SETPIPE_SZ, 1<<20)
		}
	}
	cmd.Stdin, cmd.Stdout, cmd.Stderr = ends[0][0], ends[1][1], ends[2][1]
	if input != nil {
		cmd.Stdin = input
	}
	return ends[0][1], ends[1][0], ends[2][0], nil
}

func closeAll(files ...interface{}) {
	for _, file := range files {
		if it, ok := file.(io.Closer); ok {
			it.Close()
		}
	}
}

// killedByPipe says whether the program was ended by the system, as nobody reads what it writes.
func killedByPipe(cmd *exec.Cmd) bool {
	status, ok := cmd.ProcessState.Sys().(syscall.WaitStatus)
	return ok && status.Signaled() && status.Signal() == syscall.SIGPIPE
}

// statusOf is the status of an ended program, or how else it ended.
func statusOf(cmd *exec.Cmd, ended error) (int, error) {
	if code := cmd.ProcessState.ExitCode(); code >= 0 && code <= command.NoMemory {
		return code, nil
	}
	if ended == nil {
		ended = errors.New(cmd.ProcessState.String())
	}
	return command.Broken, ended
}
