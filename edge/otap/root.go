package main

import (
	"fmt"
	"io"
	"strings"

	"github.com/spf13/cobra"
	"github.com/spf13/pflag"

	"finavoluth/edge/internal/command"
	"finavoluth/edge/internal/jobs"
	"finavoluth/edge/internal/source"
	"finavoluth/edge/internal/words"
)

// The groups of subcommands, in the order in which help lists them.
const (
	groupJobs  = "jobs"
	groupFiles = "files"
	groupLive  = "live"
)

var groups = []*cobra.Group{
	{ID: groupJobs, Title: "Jobs of the proved program:"},
	{ID: groupFiles, Title: "To look at files, and to cut and join them:"},
	{ID: groupLive, Title: "Between running Collectors:"},
}

// The subcommands besides the jobs of the program, in the order in which help lists them.
var makers = []struct {
	group string
	make  command.Maker
}{
	{groupFiles, textCommand},
	{groupFiles, diffCommand},
	{groupFiles, explainCommand},
	{groupFiles, reportCommand},
	{groupFiles, splitCommand},
	{groupFiles, partCommand},
	{groupFiles, joinCommand},
	{groupLive, recordCommand},
	{groupLive, nearCommand},
	{groupLive, farCommand},
	{groupLive, pcapCommand},
}

const about = `otap turns OpenTelemetry requests (OTLP) into the columns of OTAP, and back.

It takes files as people have them: a Collector's file in protobuf or JSON, captures,
and all of these in gzip or zstd. Where no file is named, it reads standard input.
What concerns OTAP is done by a program that is proved; otap itself isn't.`

const examples = `  otap encode logs otlp.json -o batches.capture     a Collector's file, as batches
  otap decode logs batches.capture --to json        the requests that they stand for
  otap text logs batches.capture | jq .             the same, to look at
  otap diff logs otlp.json batches.capture          the same telemetry or not
  otap explain logs batches.capture                 why a batch is refused`

func newRoot(env *command.Env, out io.Writer) *cobra.Command {
	root := &cobra.Command{
		Use:               "otap",
		Short:             "Turns OpenTelemetry requests into the columns of OTAP, and back",
		Long:              about,
		Example:           examples,
		SilenceErrors:     true,
		SilenceUsage:      true,
		DisableAutoGenTag: true,
		Args:              cobra.ArbitraryArgs,
		CompletionOptions: cobra.CompletionOptions{HiddenDefaultCmd: false},
	}
	root.SetOut(out)
	root.SetErr(env.Stderr)
	root.PersistentFlags().StringVar(&env.OtapCLI, "otap-cli", "", "`FILE` of the proved program, instead of the one in otap")
	showVersion := root.Flags().Bool("version", false, "print the version, and the sum of the program that is asked")
	root.RunE = func(cmd *cobra.Command, args []string) error {
		switch {
		case *showVersion:
			text, err := versionText(env)
			if err != nil {
				return err
			}
			return print(env, text)
		case len(args) > 0:
			return unknownJob(root, args[0])
		}
		return cmd.Help()
	}
	root.SetFlagErrorFunc(flagError)
	for _, job := range jobs.All() {
		add(root, groupJobs, jobCommand(env, job))
	}
	for _, it := range makers {
		add(root, it.group, it.make(env))
	}
	root.SetHelpCommand(helpCommand(env))
	root.AddCommand(manCommand(env))
	return root
}

// add adds a subcommand to its group, which is there once it has one.
func add(root *cobra.Command, group string, cmd *cobra.Command) {
	for _, it := range groups {
		if it.ID == group && !root.ContainsGroup(group) {
			root.AddGroup(it)
		}
	}
	cmd.GroupID = group
	root.AddCommand(cmd)
}

// print writes to standard output, and names what fails.
func print(env *command.Env, text string) error {
	if _, err := fmt.Fprint(env.Stdout, text); err != nil {
		return writingFailed(err)
	}
	return nil
}

func writingFailed(err error) error {
	return command.Fail(command.WriteFailed, "writing standard output: %w", source.Reason(err))
}

// A helpWriter keeps what fails where help is printed, which cobra would print in its own words.
type helpWriter struct {
	target io.Writer
	failed error
}

func (h *helpWriter) Write(text []byte) (int, error) {
	if h.failed == nil {
		if _, err := h.target.Write(text); err != nil {
			h.failed = writingFailed(err)
		}
	}
	return len(text), nil
}

// unknownJob names the nearest word for a misspelt one.
func unknownJob(root *cobra.Command, word string) error {
	var names []string
	for _, cmd := range root.Commands() {
		if cmd.IsAvailableCommand() || cmd.Name() == "help" {
			names = append(names, cmd.Name())
		}
	}
	if nearest := words.Nearest(word, names); nearest != "" {
		return command.Misuse("no command is called %q: did you mean %s?", word, nearest)
	}
	return command.Misuse("no command is called %q: `otap --help` lists them", word)
}

// flagError names the nearest flag for a misspelt one.
func flagError(cmd *cobra.Command, err error) error {
	var names []string
	cmd.Flags().VisitAll(func(flag *pflag.Flag) { names = append(names, "--"+flag.Name) })
	text := err.Error()
	if word := strings.TrimPrefix(text, "unknown flag: "); word != text {
		if nearest := words.Nearest(word, names); nearest != "" {
			return command.Misuse("%s has no flag %s: did you mean %s?", cmd.Name(), word, nearest)
		}
		return command.Misuse("%s has no flag %s: `%s --help` lists them", cmd.Name(), word, cmd.CommandPath())
	}
	return command.Misuse("%s: %s", cmd.Name(), text)
}
