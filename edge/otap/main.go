// The command otap brings the proved program to people's files and between running Collectors. Nothing here is proved: it
// reads and writes files, text and sockets, and asks the program for all that concerns OTAP.
package main

import (
	"context"
	"fmt"
	"io"
	"os"
	ossignal "os/signal"
	"sync"
	"syscall"

	"github.com/spf13/cobra"

	"finavoluth/edge/internal/command"
)

// version is set by edge/build.
var version = "unknown"

func main() { os.Exit(otap(os.Args[1:])) }

func otap(args []string) int {
	cobra.EnableCommandSorting = false
	// A write to a pipe that nobody reads returns an error, and doesn't end the process.
	ossignal.Notify(make(chan os.Signal, 1), syscall.SIGPIPE)
	ctx, stop := ossignal.NotifyContext(context.Background(), os.Interrupt, syscall.SIGTERM)
	defer stop()
	// A second interrupt ends the process at once.
	go func() {
		<-ctx.Done()
		stop()
	}()
	stderr := &speaker{target: os.Stderr}
	env := &command.Env{Stdin: os.Stdin, Stdout: os.Stdout, Stderr: stderr}
	if isTerminal(os.Stderr) {
		env.Progress = stderr.progress
	}
	help := &helpWriter{target: os.Stdout}
	root := newRoot(env, help)
	root.SetArgs(args)
	err := root.ExecuteContext(ctx)
	if err == nil {
		err = help.failed
	}
	if err == nil {
		return command.OK
	}
	status, text := command.StatusOf(err)
	if ctx.Err() != nil {
		status, text = command.Interrupted, "interrupted"
	}
	if text != "" {
		env.Say("%s", text)
	}
	return status
}

// A speaker lets several goroutines write whole lines to one target, and shows progress below them.
type speaker struct {
	sync.Mutex
	target io.Writer
	shown  bool // whether progress stands in the last line
}

// clear is what a terminal takes for: go to the start of the line, and clear it.
const clear = "\r\033[K"

func (s *speaker) Write(text []byte) (int, error) {
	s.Lock()
	defer s.Unlock()
	s.hide()
	return s.target.Write(text)
}

func (s *speaker) progress(text string) {
	s.Lock()
	defer s.Unlock()
	s.hide()
	if text != "" {
		s.shown = true
		fmt.Fprint(s.target, text)
	}
}

func (s *speaker) hide() {
	if s.shown {
		fmt.Fprint(s.target, clear)
	}
	s.shown = false
}

// versionText says which build this is, and which program it asks.
func versionText(env *command.Env) (string, error) {
	text := fmt.Sprintf("otap %s\n", version)
	program, err := env.Program()
	if err != nil {
		return text + "program: none: " + err.Error() + "\n", nil
	}
	defer program.Close()
	sum, err := program.Sum()
	if err != nil {
		return "", &command.Exit{Status: command.ReadFailed, Err: err}
	}
	return text + fmt.Sprintf("program: %s, sha256 %s\n", program, sum), nil
}
