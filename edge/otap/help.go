package main

import (
	"fmt"
	"os"
	"path/filepath"
	"strings"

	"github.com/spf13/cobra"
	"github.com/spf13/pflag"

	"finavoluth/edge/internal/command"
)

// helpCommand is `otap help COMMAND`.
func helpCommand(env *command.Env) *cobra.Command {
	cmd := &cobra.Command{
		Use:                   "help [COMMAND]",
		Short:                 "What a command does, with examples",
		DisableFlagsInUseLine: true,
	}
	cmd.RunE = func(cmd *cobra.Command, args []string) error {
		root := cmd.Root()
		if len(args) == 0 {
			root.InitDefaultHelpFlag()
			return root.Help()
		}
		found, rest, err := root.Find(args)
		if err != nil || found == root || len(rest) > 0 {
			return unknownJob(root, args[0])
		}
		found.InitDefaultHelpFlag()
		return found.Help()
	}
	cmd.ValidArgsFunction = func(cmd *cobra.Command, _ []string, _ string) ([]string, cobra.ShellCompDirective) {
		var names []string
		for _, it := range cmd.Root().Commands() {
			if it.IsAvailableCommand() {
				names = append(names, it.Name())
			}
		}
		return names, cobra.ShellCompDirectiveNoFileComp
	}
	return cmd
}

// manCommand writes the man pages, of the texts that help has.
func manCommand(env *command.Env) *cobra.Command {
	cmd := &cobra.Command{
		Use:                   "man FOLDER",
		Short:                 "Write the man pages into a folder",
		DisableFlagsInUseLine: true,
	}
	cmd.RunE = func(cmd *cobra.Command, args []string) error {
		if len(args) != 1 {
			return command.Misuse("man wants one folder")
		}
		return writePages(cmd.Root(), args[0])
	}
	return cmd
}

func writePages(root *cobra.Command, folder string) error {
	if err := os.MkdirAll(folder, 0o777); err != nil {
		return command.Fail(command.WriteFailed, "writing the man pages: %w", err)
	}
	for _, cmd := range append([]*cobra.Command{root}, root.Commands()...) {
		if cmd != root && !cmd.IsAvailableCommand() {
			continue
		}
		name := strings.ReplaceAll(cmd.CommandPath(), " ", "-") + ".1"
		if err := os.WriteFile(filepath.Join(folder, name), []byte(manPage(root, cmd)), 0o666); err != nil {
			return command.Fail(command.WriteFailed, "writing the man pages: %w", err)
		}
	}
	return nil
}

// manPage is the page of a command, in the language of man(7).
func manPage(root, cmd *cobra.Command) string {
	var page strings.Builder
	name := strings.ReplaceAll(cmd.CommandPath(), " ", "-")
	fmt.Fprintf(&page, ".TH %s 1\n.SH NAME\n%s \\- %s\n", roff(strings.ToUpper(name)), roff(name), roff(lower(cmd.Short)))
	use := cmd.CommandPath() + strings.TrimPrefix(cmd.Use, cmd.Name())
	if cmd == root {
		use = "otap COMMAND"
	}
	fmt.Fprintf(&page, ".SH SYNOPSIS\n.B %s\n[flags]\n", roff(use))
	text := cmd.Long
	if text == "" {
		text = cmd.Short + "."
	}
	fmt.Fprintf(&page, ".SH DESCRIPTION\n%s\n", roff(strings.ReplaceAll(text, "\n\n", "\n.PP\n")))
	if cmd == root {
		page.WriteString(".SH COMMANDS\n")
		for _, it := range root.Commands() {
			if it.IsAvailableCommand() {
				fmt.Fprintf(&page, ".TP\n.B %s\n%s\n", roff(it.Name()), roff(it.Short))
			}
		}
	}
	page.WriteString(".SH OPTIONS\n")
	flag := func(it *pflag.Flag) {
		short, value := "", ""
		if it.Shorthand != "" {
			short = "-" + it.Shorthand + ", "
		}
		word, usage := pflag.UnquoteUsage(it)
		if word != "" {
			value = " " + word
		}
		fmt.Fprintf(&page, ".TP\n.B %s\n%s\n", roff(short+"--"+it.Name+value), roff(usage))
	}
	cmd.NonInheritedFlags().VisitAll(flag)
	cmd.InheritedFlags().VisitAll(flag)
	if cmd.Example != "" {
		fmt.Fprintf(&page, ".SH EXAMPLES\n.nf\n%s\n.fi\n", roff(cmd.Example))
	}
	page.WriteString(exitStatus)
	if cmd != root {
		page.WriteString(".SH SEE ALSO\n.BR otap (1)\n")
	}
	return page.String()
}

const exitStatus = `.SH EXIT STATUS
.TP
.B 0
all was handled
.TP
.B 1
a frame was refused, or two inputs differ, or something isn't carried and \-\-strict is given
.TP
.B 2
the words or the files aren't what the command takes; nothing was run
.TP
.B 3
a read failed
.TP
.B 4
a write failed
.TP
.B 5
an input is damaged; what stands before the damage was handled
.TP
.B 6
out of memory
.TP
.B 7
the program didn't start, or ended in a way that it doesn't name
`

// roff escapes a text for man(7).
func roff(text string) string {
	text = strings.NewReplacer(`\`, `\e`, "-", `\-`).Replace(text)
	lines := strings.Split(text, "\n")
	for i, line := range lines {
		if strings.HasPrefix(line, ".") && line != ".PP" || strings.HasPrefix(line, "'") {
			lines[i] = `\&` + line
		}
	}
	return strings.Join(lines, "\n")
}

func lower(text string) string {
	if text == "" {
		return text
	}
	return strings.ToLower(text[:1]) + text[1:]
}
