package main

import (
	"os"
	"strconv"
	"strings"

	"github.com/spf13/cobra"
	"golang.org/x/sys/unix"

	"finavoluth/edge/internal/command"
	"finavoluth/edge/internal/forms"
	"finavoluth/edge/internal/jobs"
	"finavoluth/edge/internal/run"
	"finavoluth/edge/internal/signal"
)

// jobCommand is the subcommand of one of the program's jobs.
func jobCommand(env *command.Env, job jobs.Job) *cobra.Command {
	plan := &run.Plan{Job: job}
	var from, to string
	use := job.Name
	if job.Signal {
		use += " traces|logs|metrics"
	}
	if job.Takes == jobs.Nothing {
		use += " N"
	} else {
		use += " [FILE...]"
	}
	cmd := &cobra.Command{Use: use, Short: job.Short, Long: job.Long, Example: job.Example, DisableFlagsInUseLine: true}
	flags := cmd.Flags()
	flags.StringVarP(&plan.Output, "output", "o", "", "write to `FILE`, which is replaced once all is there")
	if job.Takes != jobs.Nothing {
		flags.StringVar(&from, "from", "", fromText(job))
		flags.BoolVar(&plan.Follow, "follow", false, "go on as the file grows, until interrupted")
		flags.BoolVar(&plan.NoCheck, "no-check", false, noCheckText(job))
	}
	if job.Takes == jobs.Batches {
		flags.BoolVar(&plan.Streams, "streams", false, "put a reset before each batch whose id doesn't rise")
	}
	if job.Takes == jobs.Requests {
		flags.BoolVar(&plan.Strict, "strict", false, "end with status 1 where something isn't carried")
	}
	if job.Gives == jobs.Requests {
		flags.StringVar(&to, "to", "", "write requests as `FORM`: capture (the default), proto or json")
		flags.BoolVar(&plan.Indent, "indent", false, "with --to json: over several lines")
	}
	completeForms(cmd)
	cmd.ValidArgsFunction = command.CompleteSignal
	if !job.Signal {
		cmd.ValidArgsFunction = nil
	}
	cmd.RunE = func(cmd *cobra.Command, args []string) error {
		err := fill(plan, cmd, args, from, to)
		if err != nil {
			return err
		}
		if err := refuseTerminal(env, plan); err != nil {
			return err
		}
		if len(plan.Files) == 0 && job.Takes != jobs.Nothing && isTerminal(env.Stdin) {
			env.Say("reading standard input, which is a terminal")
		}
		return plan.Run(cmd.Context(), env)
	}
	return cmd
}

func fromText(job jobs.Job) string {
	if job.Takes == jobs.Batches {
		return "take input as `FORM`: capture, even where it is damaged"
	}
	return "take input as `FORM`: capture, proto or json, and don't find it out"
}

func noCheckText(job jobs.Job) string {
	if job.Takes == jobs.Batches {
		return "don't look for streams that begin without a reset, nor for what refusals come from"
	}
	return "don't look for what isn't carried, nor for what refusals come from"
}

func completeForms(cmd *cobra.Command) {
	for _, flag := range []string{"from", "to"} {
		if cmd.Flags().Lookup(flag) != nil {
			_ = cmd.RegisterFlagCompletionFunc(flag, cobra.FixedCompletions(forms.Names(), cobra.ShellCompDirectiveNoFileComp))
		}
	}
}

// fill puts the words of the command line into the plan.
func fill(plan *run.Plan, cmd *cobra.Command, args []string, from, to string) error {
	plan.Words = []string{plan.Job.Name}
	if plan.Job.Signal {
		s, rest, err := command.Signal(cmd, args)
		if err != nil {
			return err
		}
		plan.Signal, args = s, rest
		plan.Words = append(plan.Words, s.String())
	}
	if plan.Job.Takes == jobs.Nothing {
		if n, err := strconv.Atoi(strings.Join(args, " ")); err != nil || n < 1 || n > 1000 {
			return command.Misuse("%s wants one number of requests after the signal, 1 to 1000", plan.Job.Name)
		}
		plan.Words = append(plan.Words, args[0])
		return nil
	}
	if !plan.Job.Signal && len(args) > 0 {
		if _, err := signal.Parse(args[0]); err == nil && !exists(args[0]) {
			return command.Misuse("%s takes no signal, but files alone", plan.Job.Name)
		}
	}
	if plan.Indent && to != forms.JSON.String() {
		return command.Misuse("--indent goes with --to json")
	}
	plan.Files = args
	if plan.Follow && (len(args) != 1 || args[0] == "-") {
		return command.Misuse("--follow wants one FILE")
	}
	var err error
	if plan.From, err = form(from, "--from"); err != nil {
		return err
	}
	if plan.Job.Takes == jobs.Batches && plan.From != forms.Unknown && plan.From != forms.Capture {
		return command.Misuse("%s reads batches, which are always a capture: not --from %v", plan.Job.Name, plan.From)
	}
	plan.To, err = form(to, "--to")
	return err
}

func exists(file string) bool {
	_, err := os.Stat(file)
	return err == nil
}

func form(word, flag string) (forms.Form, error) {
	if word == "" {
		return forms.Unknown, nil
	}
	form, err := forms.Parse(word)
	if err != nil {
		return forms.Unknown, command.Misuse("%s: %w", flag, err)
	}
	return form, nil
}

// refuseTerminal refuses to write to a terminal what nobody can read there.
func refuseTerminal(env *command.Env, plan *run.Plan) error {
	if plan.Output != "" || plan.Job.Gives == jobs.Lines || plan.To == forms.JSON || !isTerminal(env.Stdout) {
		return nil
	}
	return command.Misuse("what %s writes is no text, and isn't written to a terminal: give -o FILE, or |, or >", plan.Job.Name)
}

func isTerminal(file *os.File) bool {
	_, err := unix.IoctlGetTermios(int(file.Fd()), unix.TCGETS)
	return err == nil
}
