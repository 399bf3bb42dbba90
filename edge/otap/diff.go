package main

import (
	"errors"

	"github.com/spf13/cobra"

	"finavoluth/edge/internal/command"
	"finavoluth/edge/internal/diff"
	"finavoluth/edge/internal/run"
	"finavoluth/edge/internal/source"
)

// diffCommand compares the telemetry of two inputs.
func diffCommand(env *command.Env) *cobra.Command {
	var reading readers
	options := diff.Options{}
	cmd := &cobra.Command{
		Use:   "diff traces|logs|metrics A B",
		Short: "Whether two files have the same telemetry",
		Long: `diff compares the spans, log records or metrics of A and B in order, each with its resource and its scope, however
they are cut into requests. Attributes may come in any order; groups without items are passed over; doubles are compared
by their bits. A and B may be requests or batches, in any form. The status is 0 where they are the same, and 1 where
they differ; the first differences are printed with their paths, which are those of jq over all requests:
"otap text traces A | jq -s '.[0].resourceSpans[1]'" prints what is at .[0].resourceSpans[1].`,
		Example: `  otap diff logs otlp.json batches.capture
  otap diff metrics --carried otlp.bin back.bin`,
		DisableFlagsInUseLine: true,
	}
	reading.register(cmd)
	cmd.Flags().IntVar(&options.Most, "most", 10, "print at most `N` differences")
	cmd.Flags().BoolVar(&options.Carried, "carried", false, "leave out what encode and tidy don't carry")
	cmd.RunE = func(cmd *cobra.Command, args []string) error {
		s, files, err := command.Signal(cmd, args)
		if err != nil {
			return err
		}
		if len(files) != 2 {
			return command.Misuse("diff wants two files after the signal, A and B")
		}
		if files[0] == source.Stdin && files[1] == source.Stdin {
			return command.Misuse("there is one standard input: A and B can't both be -")
		}
		inputs, err := reading.inspect(cmd.Context(), env, files)
		if err != nil {
			return err
		}
		program := &lazyProgram{env: env}
		defer program.close()
		a, err := reading.open(cmd.Context(), env, program, s, inputs[0], nil)
		if err != nil {
			return run.Failed(err)
		}
		defer a.Close()
		b, err := reading.open(cmd.Context(), env, program, s, inputs[1], nil)
		if err != nil {
			return run.Failed(err)
		}
		defer b.Close()
		report, err := diff.Compare(s, a, b, options)
		var unreadable *diff.Unreadable
		if errors.As(err, &unreadable) {
			return &command.Exit{Status: command.Damaged, Err: err}
		}
		if err != nil {
			return run.Failed(err)
		}
		if err := print(env, report.Text(s)); err != nil {
			return err
		}
		status := worst(streamStatus(env, a), streamStatus(env, b))
		if !report.Same() {
			status = worst(status, command.Refused)
		}
		if status != command.OK {
			return &command.Exit{Status: status}
		}
		return nil
	}
	return cmd
}
