package main

import (
	"context"
	"fmt"
	"path/filepath"
	"strings"

	"github.com/spf13/cobra"

	"finavoluth/edge/internal/child"
	"finavoluth/edge/internal/command"
	"finavoluth/edge/internal/explain"
	"finavoluth/edge/internal/forms"
	"finavoluth/edge/internal/jobs"
	"finavoluth/edge/internal/profile"
	"finavoluth/edge/internal/refusal"
	"finavoluth/edge/internal/report"
	"finavoluth/edge/internal/run"
	"finavoluth/edge/internal/signal"
	"finavoluth/edge/internal/source"
	"finavoluth/edge/internal/spool"
)

// look is what explain and report begin with: one input as a capture in a file, and what it holds.
type look struct {
	env     *command.Env
	signal  signal.Signal
	input   *forms.Input
	program *child.Program
	page    *profile.Page
	capture *spool.Capture
	holds   jobs.Kind
}

// openLook takes the words SIGNAL [FILE].
func openLook(ctx context.Context, env *command.Env, cmd *cobra.Command, args []string, from string) (*look, error) {
	s, files, err := command.Signal(cmd, args)
	if err != nil {
		return nil, err
	}
	if len(files) > 1 {
		return nil, command.Misuse("%s wants one FILE", cmd.Name())
	}
	asked, err := form(from, "--from")
	if err != nil {
		return nil, err
	}
	l := &look{env: env, signal: s}
	if l.page, err = profile.Read(); err != nil {
		return nil, &command.Exit{Status: command.Broken, Err: err}
	}
	inputs, err := run.Inspect(ctx, env, files, forms.Options{Options: source.Options{Stdin: env.Stdin}, From: asked})
	if err != nil {
		return nil, err
	}
	l.input = inputs[0]
	if l.program, err = env.Program(); err != nil {
		return nil, err
	}
	if l.capture, err = spool.Of(ctx, l.input, s); err != nil {
		l.program.Close()
		return nil, failed(ctx, err)
	}
	l.holds = jobs.Requests
	if l.input.Form == forms.Capture {
		if l.holds, err = l.capture.Holds(ctx, l.program, s, l.page); err != nil {
			l.close()
			return nil, failed(ctx, err)
		}
	}
	return l, nil
}

func (l *look) close() {
	if err := l.capture.Close(); err != nil {
		l.env.Say("%v", err)
	}
	l.program.Close()
}

// damaged is how a command ends that did its work on an input that is damaged.
func (l *look) damaged() error {
	if l.capture.Damage == nil {
		return nil
	}
	return command.Fail(command.Damaged, "%s: %w: what follows is left out", l.input.Name, l.capture.Damage)
}

// failed is the Exit for an error of a run that isn't one already.
func failed(ctx context.Context, err error) error {
	if command.WasInterrupted(ctx) {
		return command.Fail(command.Interrupted, "interrupted")
	}
	if _, exit := err.(*command.Exit); exit {
		return err
	}
	return &command.Exit{Status: command.ReadFailed, Err: err}
}

func explainCommand(env *command.Env) *cobra.Command {
	var from string
	var rows int
	cmd := &cobra.Command{
		Use:   "explain traces|logs|metrics [FILE]",
		Short: "Why frames are refused, and where to look",
		Long: `explain prints for each refused frame the program's line, what its cause means by the profile, and where it is:
the columns whose type isn't the profile's, the rows of the payload as they are stored, or the frame that broke
the segment. Requests are looked at as encode takes them. Where a frame is refused the status is 1.`,
		Example: `  otap explain logs batches.capture
  otap explain traces otlp.json`,
		DisableFlagsInUseLine: true,
		ValidArgsFunction:     command.CompleteSignal,
	}
	cmd.Flags().StringVar(&from, "from", "", "take input as `FORM`: capture, proto or json, and don't find it out")
	cmd.Flags().IntVar(&rows, "rows", 5, "show at most `N` rows of a payload")
	completeForms(cmd)
	cmd.RunE = func(cmd *cobra.Command, args []string) error {
		ctx := cmd.Context()
		if rows < 0 {
			return command.Misuse("--rows wants a number from 0 on")
		}
		l, err := openLook(ctx, env, cmd, args, from)
		if err != nil {
			return err
		}
		defer l.close()
		return l.explain(ctx, rows)
	}
	return cmd
}

func (l *look) explain(ctx context.Context, rows int) error {
	out, err := run.OpenTarget("", l.env.Stdout, nil)
	if err != nil {
		return err
	}
	with := explain.Batches
	if l.holds == jobs.Requests {
		with = explain.Requests
	}
	options := explain.Options{Program: l.program, Signal: l.signal, Page: l.page, File: l.capture.File, Rows: rows}
	result, err := with(ctx, options, out)
	if err != nil {
		return failed(ctx, err)
	}
	if err := out.Keep(); err != nil {
		return err
	}
	if err := l.damaged(); err != nil {
		return err
	}
	what := map[jobs.Kind]string{jobs.Requests: "requests"}[l.holds]
	if what == "" {
		what = "batches"
	}
	if result.Refused == 0 {
		l.env.Say("nothing is refused: %d frames of %s", result.Frames, what)
		return nil
	}
	l.env.Say("%d of %d frames of %s are refused", result.Refused, result.Frames, what)
	return &command.Exit{Status: command.Refused}
}

func reportCommand(env *command.Env) *cobra.Command {
	var from, output string
	cmd := &cobra.Command{
		Use:   "report traces|logs|metrics [FILE] -o page.html",
		Short: "A page to look at: columns, bytes, and what OTAP saves",
		Long: `report draws a page of what is in a capture of batches: the form of each column over the batches, the bytes by
payload type, how OTAP compares with OTLP as a segment goes on, how the bytes of an item depend on the size of a
batch, and what was refused. Requests are encoded first. The page is one HTML file, which loads nothing and runs
nothing; it can be sent and printed.`,
		Example: `  otap report logs batches.capture -o page.html
  otap report traces otlp.json -o page.html`,
		DisableFlagsInUseLine: true,
		ValidArgsFunction:     command.CompleteSignal,
	}
	cmd.Flags().StringVar(&from, "from", "", "take input as `FORM`: capture, proto or json, and don't find it out")
	cmd.Flags().StringVarP(&output, "output", "o", "", "write the page to `FILE`, which is replaced once all is there")
	completeForms(cmd)
	cmd.RunE = func(cmd *cobra.Command, args []string) error {
		ctx := cmd.Context()
		if output == "" && isTerminal(env.Stdout) {
			return command.Misuse("a page isn't written to a terminal: give -o page.html")
		}
		l, err := openLook(ctx, env, cmd, args, from)
		if err != nil {
			return err
		}
		defer l.close()
		out, err := run.OpenTarget(output, env.Stdout, []*forms.Input{l.input})
		if err != nil {
			return err
		}
		defer out.Discard()
		page, err := l.report(ctx)
		if err != nil {
			return failed(ctx, err)
		}
		if err := page.Write(out); err != nil {
			return failed(ctx, err)
		}
		if err := out.Keep(); err != nil {
			return err
		}
		return l.damaged()
	}
	return cmd
}

func (l *look) report(ctx context.Context) (*report.Page, error) {
	sum, err := l.program.Sum()
	if err != nil {
		return nil, err
	}
	from := report.Source{Program: l.program, Signal: l.signal, Name: filepath.Base(l.input.Name), Batches: l.capture.File, Frames: l.capture.Frames,
		Tables: l.page.Rows(), Version: fmt.Sprintf("Made by otap report. The program that was asked has the SHA-256 %s.", sum)}
	if l.holds == jobs.Requests {
		made, err := l.capture.Encode(ctx, l.program, l.signal)
		if err != nil {
			return nil, err
		}
		defer made.Close()
		from.Batches, from.Frames = made.File, made.Frames
		if l.capture.Damage != nil {
			from.Damage = l.capture.Damage.Error()
		}
		from.Encoded = &report.Encoding{Requests: made.Requests, Count: made.Count}
		for _, line := range made.Refused {
			if why, ok := refusal.Parse(line); ok {
				from.Encoded.Refused = append(from.Encoded.Refused, report.Refused{Frame: int64(why.Frame), Cause: why.Cause})
			}
		}
	}
	if l.env.Progress != nil {
		from.Progress = bar(l.env.Progress)
		defer l.env.Progress("")
	}
	return report.Make(ctx, from)
}

// bar shows how far a report is, where that has changed.
func bar(show func(string)) func(done, all int64) {
	shown := int64(-1)
	return func(done, all int64) {
		percent := int64(100)
		if all > 0 {
			percent = 100 * done / all
		}
		if percent == shown {
			return
		}
		shown = percent
		const width = 30
		full := int(width * percent / 100)
		show(fmt.Sprintf("[%s%s] %3d %% of %d frames", strings.Repeat("#", full), strings.Repeat(" ", width-full), percent, all))
	}
}
