// Package command holds what the subcommands of otap share: the streams of the process, the program that they ask, and the
// statuses with which they end.
package command

import (
	"context"
	"errors"
	"fmt"
	"io"
	"os"
	"syscall"

	"github.com/spf13/cobra"

	"finavoluth/edge/internal/child"
	"finavoluth/edge/internal/signal"
	"finavoluth/edge/internal/words"
)

// The statuses with which otap ends: those of the proved program, and two more.
const (
	OK          = 0
	Refused     = 1   // a frame was refused, or two inputs differ, or something isn't carried and --strict is given
	Misused     = 2   // the words or the files aren't what a command takes; nothing was run
	ReadFailed  = 3   // a read failed
	WriteFailed = 4   // a write failed
	Damaged     = 5   // an input is damaged; what stands before the damage was handled
	NoMemory    = 6   // the program ran out of memory
	Broken      = 7   // the program didn't start, or ended in a way that it doesn't name
	Interrupted = 130 // by a signal
)

// An Exit is an error with the status that otap ends with. Where Err is nil, all is said already.
type Exit struct {
	Status int
	Err    error
}

func (e *Exit) Error() string {
	if e.Err == nil {
		return fmt.Sprintf("status %d", e.Status)
	}
	return e.Err.Error()
}

func (e *Exit) Unwrap() error { return e.Err }

// Fail is an Exit with a text.
func Fail(status int, format string, values ...interface{}) error {
	return &Exit{Status: status, Err: fmt.Errorf(format, values...)}
}

// Misuse is an Exit for words that a command doesn't take.
func Misuse(format string, values ...interface{}) error { return Fail(Misused, format, values...) }

// StatusOf is the status with which an error of a command ends otap, and the text to say; a text that is empty was said
// already, or is about a reader of the output that went away, which is no news.
func StatusOf(err error) (int, string) {
	var exit *Exit
	status := Misused
	if errors.As(err, &exit) {
		status = exit.Status
		if exit.Err == nil {
			return status, ""
		}
	}
	if errors.Is(err, syscall.EPIPE) {
		return WriteFailed, ""
	}
	return status, err.Error()
}

// An Env is what a subcommand works with. It is made once, by main or a test.
type Env struct {
	Stdin   *os.File
	Stdout  *os.File
	Stderr  io.Writer // where otap speaks; locked, so that several goroutines may speak
	OtapCLI string    // the program's file, where one is named by --otap-cli

	// Progress shows a text on the terminal until the next one, or until something is said; nil where standard error is no
	// terminal.
	Progress func(text string)
}

// Say prints one line on standard error, begun with the name of the command.
func (e *Env) Say(format string, values ...interface{}) {
	fmt.Fprintf(e.Stderr, "otap: "+format+"\n", values...)
}

// Program finds the program that is asked.
func (e *Env) Program() (*child.Program, error) {
	program, err := child.Find(e.OtapCLI)
	if err != nil {
		return nil, &Exit{Status: Broken, Err: err}
	}
	return program, nil
}

// Signal reads the first word of a command as a signal; what follows are its files.
func Signal(cmd *cobra.Command, args []string) (signal.Signal, []string, error) {
	if len(args) == 0 {
		return 0, nil, Misuse("%s wants a signal: traces, logs or metrics", cmd.Name())
	}
	if s, err := signal.Parse(args[0]); err == nil {
		return s, args[1:], nil
	}
	if nearest := words.Nearest(args[0], signal.Names()); nearest != "" {
		return 0, nil, Misuse("no signal is called %q: did you mean %s?", args[0], nearest)
	}
	if _, err := os.Stat(args[0]); err == nil {
		return 0, nil, Misuse("%s wants a signal before the file %s: traces, logs or metrics", cmd.Name(), args[0])
	}
	return 0, nil, Misuse("no signal is called %q: it is traces, logs or metrics", args[0])
}

// CompleteSignal completes the first word of a command as a signal, and all others as files.
func CompleteSignal(_ *cobra.Command, args []string, _ string) ([]string, cobra.ShellCompDirective) {
	if len(args) == 0 {
		return signal.Names(), cobra.ShellCompDirectiveNoFileComp
	}
	return nil, cobra.ShellCompDirectiveDefault
}

// A Maker makes a subcommand. The context of the command that it makes ends when the process is interrupted.
type Maker func(*Env) *cobra.Command

// WasInterrupted says whether a context ended by a signal.
func WasInterrupted(ctx context.Context) bool { return errors.Is(ctx.Err(), context.Canceled) }
