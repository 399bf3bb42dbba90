package main

import (
	"context"
	"errors"
	"io"
	"strconv"
	"strings"

	"github.com/spf13/cobra"

	"finavoluth/edge/internal/command"
	"finavoluth/edge/internal/forms"
	"finavoluth/edge/internal/pieces"
	"finavoluth/edge/internal/run"
	"finavoluth/edge/internal/source"
)

func splitCommand(env *command.Env) *cobra.Command {
	var folder, at, size, from string
	cmd := &cobra.Command{
		Use:   "split [CAPTURE] -o FOLDER",
		Short: "Cuts a capture at its resets, for several processors or machines",
		Long: `split writes a capture into a new folder, in pieces that can be read by themselves: each but the first begins with a
reset. Run otap part on each piece, on one machine or several; otap join then writes what one run over the whole
capture writes. A capture without resets is one piece. For list, schema and tidy, which judge each frame by itself,
--at frames cuts it anywhere.`,
		Example: `  otap split batches.capture -o pieces
  parallel --bar --joblog log otap part decode logs {} ::: pieces/*.capture
  otap join pieces decode logs -o requests.capture`,
		DisableFlagsInUseLine: true,
	}
	flags := cmd.Flags()
	flags.StringVarP(&folder, "output", "o", "", "write the pieces to `FOLDER`, which must not be there yet")
	flags.StringVar(&at, "at", pieces.AtResets, "cut at `PLACES`: resets or frames")
	flags.StringVar(&size, "size", "64M", "begin a new piece once one has `BYTES`; K, M and G are units")
	flags.StringVar(&from, "from", "", "take input as `FORM`: capture, even where it is damaged; the last piece has the damage")
	completeForms(cmd)
	_ = cmd.RegisterFlagCompletionFunc("at", cobra.FixedCompletions([]string{pieces.AtResets, pieces.AtFrames}, cobra.ShellCompDirectiveNoFileComp))
	cmd.RunE = func(cmd *cobra.Command, args []string) error {
		bytes, err := bytesOf(size)
		switch {
		case err != nil:
			return err
		case folder == "":
			return command.Misuse("split wants -o FOLDER")
		case len(args) > 1:
			return command.Misuse("split wants one CAPTURE")
		case at != pieces.AtResets && at != pieces.AtFrames:
			return command.Misuse("--at %s: it is resets or frames", at)
		}
		asked, err := form(from, "--from")
		if err != nil {
			return err
		}
		if asked != forms.Unknown && asked != forms.Capture {
			return command.Misuse("split cuts captures: not --from %v", asked)
		}
		return split(cmd.Context(), env, args, folder, at, bytes, asked)
	}
	return cmd
}

func split(ctx context.Context, env *command.Env, args []string, folder, at string, size int64, from forms.Form) error {
	options := forms.Options{Options: source.Options{Stdin: env.Stdin}, From: from, Captures: true}
	inputs, err := run.Inspect(ctx, env, args, options)
	if err != nil {
		return err
	}
	opened, err := inputs[0].Open(ctx)
	if err != nil {
		return &command.Exit{Status: command.ReadFailed, Err: err}
	}
	defer opened.Close()
	list, err := pieces.Split(ctx, opened, folder, at, size)
	if err != nil {
		if errors.Is(err, pieces.ErrThere) {
			return command.Misuse("%w", err)
		}
		return failed(ctx, err)
	}
	env.Say("%d pieces in %s", len(list.Pieces), folder)
	return nil
}

// bytesOf reads a number of bytes with K, M or G behind it.
func bytesOf(text string) (int64, error) {
	unit := int64(1)
	digits := text
	for suffix, by := range map[string]int64{"K": 1 << 10, "M": 1 << 20, "G": 1 << 30} {
		if strings.HasSuffix(text, suffix) {
			unit, digits = by, strings.TrimSuffix(text, suffix)
		}
	}
	n, err := strconv.ParseInt(digits, 10, 32)
	if err != nil || n < 1 {
		return 0, command.Misuse("--size %s: it wants a number from 1 on, and K, M or G behind it", text)
	}
	return n * unit, nil
}

func partCommand(env *command.Env) *cobra.Command {
	return &cobra.Command{
		Use:   "part JOB [traces|logs|metrics] PIECE",
		Short: "Runs a job on a piece, and leaves its result beside it",
		Long: `part runs one of the program's jobs on a piece that otap split made, and leaves what it writes and its status beside
the piece, as one file: 000002.decode-logs.tar for 000002.capture. The file appears as a whole or not at all; where
it is there already, nothing is run. The status is 0 where the result is there, also where frames were refused.`,
		Example: `  otap part decode logs pieces/000002.capture
  parallel --bar --joblog log --resume otap part decode logs {} ::: pieces/*.capture`,
		DisableFlagsInUseLine: true,
		RunE: func(cmd *cobra.Command, args []string) error {
			if len(args) < 2 {
				return command.Misuse("part wants the words of a job, and a piece")
			}
			words, piece := args[:len(args)-1], args[len(args)-1]
			if _, err := pieces.Check(words, pieces.AtResets); err != nil {
				return command.Misuse("%w", err)
			}
			program, err := env.Program()
			if err != nil {
				return err
			}
			defer program.Close()
			status, err := pieces.Run(cmd.Context(), program, piece, words)
			if err != nil {
				return partFailed(cmd.Context(), status, err)
			}
			return nil
		},
	}
}

func partFailed(ctx context.Context, status int, err error) error {
	if status > 0 && !command.WasInterrupted(ctx) {
		return &command.Exit{Status: status, Err: err}
	}
	return failed(ctx, err)
}

func joinCommand(env *command.Env) *cobra.Command {
	var output string
	cmd := &cobra.Command{
		Use:   "join FOLDER JOB [traces|logs|metrics]",
		Short: "Puts the results of pieces together, as one run writes them",
		Long: `join writes, from the results that otap part left, what one run of the job over the whole capture writes to standard
output and to standard error: the numbers of frames and the offset of a damage are those of the whole, and nothing
comes after a damage. It ends with the status of one run. Where a result is missing nothing is written.`,
		Example:               `  otap join pieces decode logs -o requests.capture`,
		DisableFlagsInUseLine: true,
	}
	cmd.Flags().StringVarP(&output, "output", "o", "", "write to `FILE`, which is replaced once all is there")
	cmd.RunE = func(cmd *cobra.Command, args []string) error {
		if len(args) < 2 {
			return command.Misuse("join wants a folder of pieces, and the words of a job")
		}
		out, err := run.OpenTarget(output, env.Stdout, nil)
		if err != nil {
			return err
		}
		defer out.Discard()
		return join(args[0], args[1:], out, env.Stderr)
	}
	return cmd
}

func join(folder string, words []string, out *run.Target, said io.Writer) error {
	status, err := pieces.Join(folder, words, out, said)
	var misfit *pieces.Misfit
	var exit *command.Exit
	switch {
	case errors.As(err, &misfit):
		return command.Misuse("%w", err)
	case errors.As(err, &exit):
		return exit
	case err != nil:
		return command.Fail(command.ReadFailed, "%w", err)
	}
	if err := out.Keep(); err != nil {
		return err
	}
	if status != 0 {
		return &command.Exit{Status: status}
	}
	return nil
}
