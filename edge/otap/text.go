package main

import (
	"context"
	"errors"
	"fmt"

	"github.com/spf13/cobra"

	"finavoluth/edge/internal/child"
	"finavoluth/edge/internal/command"
	"finavoluth/edge/internal/forms"
	"finavoluth/edge/internal/requests"
	"finavoluth/edge/internal/run"
	"finavoluth/edge/internal/signal"
	"finavoluth/edge/internal/source"
)

// readers are flags of the commands that read requests or batches themselves.
type readers struct {
	from    string
	streams bool
}

func (r *readers) register(cmd *cobra.Command) {
	cmd.Flags().StringVar(&r.from, "from", "", "take input as `FORM`: capture, proto or json, and don't find it out")
	cmd.Flags().BoolVar(&r.streams, "streams", false, "read a batch whose id doesn't rise as the first of a new stream")
	completeForms(cmd)
	cmd.ValidArgsFunction = command.CompleteSignal
}

// inspect finds out the forms of the files.
func (r *readers) inspect(ctx context.Context, env *command.Env, files []string) ([]*forms.Input, error) {
	from, err := form(r.from, "--from")
	if err != nil {
		return nil, err
	}
	return run.Inspect(ctx, env, files, forms.Options{Options: source.Options{Stdin: env.Stdin}, From: from})
}

func (r *readers) open(ctx context.Context, env *command.Env, program *lazyProgram, s signal.Signal, input *forms.Input, before func() error) (*requests.Stream, error) {
	return requests.Open(ctx, input, requests.Options{Signal: s, Program: program.get, Say: env.Say, Streams: r.streams, Before: before,
		Line: func(line string) { fmt.Fprintln(env.Stderr, line) }})
}

// lazyProgram finds the program when it is first needed.
type lazyProgram struct {
	env     *command.Env
	program *child.Program
}

func (l *lazyProgram) get() (*child.Program, error) {
	if l.program == nil {
		program, err := l.env.Program()
		if err != nil {
			return nil, err
		}
		l.program = program
	}
	return l.program, nil
}

func (l *lazyProgram) close() {
	if l.program != nil {
		l.program.Close()
	}
}

// textCommand prints requests, or batches decoded, as JSON.
func textCommand(env *command.Env) *cobra.Command {
	var reading readers
	var indent bool
	var output string
	cmd := &cobra.Command{
		Use:   "text traces|logs|metrics [FILE...]",
		Short: "Requests, or batches, as OTLP's JSON",
		Long: `text prints requests as OTLP's JSON, one on each line; batches are decoded first.
Ids are hexadecimal, other bytes base64, 64-bit numbers texts, and enums numbers, as a Collector writes them.`,
		Example: `  otap text logs batches.capture | jq .
  otap text traces otlp.bin --indent`,
		DisableFlagsInUseLine: true,
	}
	reading.register(cmd)
	cmd.Flags().BoolVar(&indent, "indent", false, "print each request over several lines")
	cmd.Flags().StringVarP(&output, "output", "o", "", "write to `FILE`, which is replaced once all is there")
	cmd.RunE = func(cmd *cobra.Command, args []string) error {
		s, files, err := command.Signal(cmd, args)
		if err != nil {
			return err
		}
		inputs, err := reading.inspect(cmd.Context(), env, files)
		if err != nil {
			return err
		}
		target, err := run.OpenTarget(output, env.Stdout, inputs)
		if err != nil {
			return err
		}
		defer target.Discard()
		program := &lazyProgram{env: env}
		defer program.close()
		printer := &requests.Printer{Signal: s, Indent: indent, Target: target, Say: env.Say}
		status := command.OK
		for _, input := range inputs {
			stream, err := reading.open(cmd.Context(), env, program, s, input, target.Flush)
			if err != nil {
				return run.Failed(err)
			}
			err = printer.Print(cmd.Context(), input.Name, stream)
			if closed := stream.Close(); err == nil {
				err = closed
			}
			if cmd.Context().Err() != nil {
				err = &command.Exit{Status: command.Interrupted, Err: errors.New("interrupted")}
			}
			if err != nil {
				_ = target.Flush()
				return run.Failed(err)
			}
			status = worst(status, streamStatus(env, stream))
		}
		printer.SayUnknown()
		if printer.Refused > 0 {
			status = worst(status, command.Refused)
		}
		if err := target.Keep(); err != nil {
			return err
		}
		if status != command.OK {
			return &command.Exit{Status: status}
		}
		return nil
	}
	return cmd
}

// streamStatus is the status for what a stream met; the keys that OTLP doesn't have are said.
func streamStatus(env *command.Env, stream *requests.Stream) int {
	run.SayKeys(env, stream.Keys)
	switch {
	case stream.Damaged:
		return command.Damaged
	case stream.Refused > 0:
		return command.Refused
	}
	return command.OK
}

func worst(a, b int) int {
	if a > b {
		return a
	}
	return b
}
