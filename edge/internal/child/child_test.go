package child

import (
	"bufio"
	"bytes"
	"context"
	"crypto/sha256"
	"encoding/hex"
	"errors"
	"fmt"
	"io"
	"os"
	"path/filepath"
	"strings"
	"testing"
	"time"

	"finavoluth/edge/internal/capture"
)

// standIn is set where this test's executable is to be the program: it answers as the program's jobs do, by the first byte
// of each message: o for a frame, t for three, r for a refusal, e for an end, k for an end in the middle of a frame, h for no
// answer and no end.
const standIn = "FINAVOLUTH_STAND_IN"

func TestMain(m *testing.M) {
	if os.Getenv(standIn) != "" {
		os.Exit(answer(os.Args[1], os.Stdin, os.Stdout, os.Stderr))
	}
	os.Exit(m.Run())
}

func answer(job string, in io.Reader, out, err io.Writer) int {
	frames := capture.NewReader(bufio.NewReader(in))
	for n := 0; ; n++ {
		frame, wrong := frames.Next()
		if wrong != nil {
			return 0
		}
		kind := byte('o')
		if len(frame.Payload) > 0 {
			kind = frame.Payload[0]
		}
		switch {
		case kind == 'e':
			return 6
		case kind == 'h':
			io.Copy(io.Discard, in)
		case kind == 'k':
			out.Write([]byte{0, 0, 0})
			return 0
		case job == "list" && kind == 'o':
			fmt.Fprintf(out, "frame %d: batch %d\n", n, n)
		case job == "status":
			status := []byte{8, 1}
			if kind == 'r' {
				status = append(status, 16, 3)
			}
			put(out, capture.Message(status))
			if kind == 'r' {
				fmt.Fprintf(err, "frame %d: batch 1 refused: stage 1 BadMessage payload -\n", n)
			}
		case kind == 't':
			put(out, frame)
			put(out, frame)
			put(out, frame)
		case kind == 'r':
			fmt.Fprintf(err, "frame %d: request refused: BadMessage\n", n)
		default:
			put(out, frame)
		}
	}
}

func put(out io.Writer, frame capture.Frame) {
	w := capture.NewWriter(out)
	w.Write(frame)
	w.Flush()
}

func program(t *testing.T) *Program {
	t.Helper()
	t.Setenv(standIn, "yes")
	self, err := os.Executable()
	if err != nil {
		t.Fatal(err)
	}
	p, err := Find(self)
	if err != nil {
		t.Fatal(err)
	}
	return p
}

func ask(t *testing.T, job string) *Conversation {
	t.Helper()
	c, err := program(t).Ask(context.Background(), job, "logs")
	if err != nil {
		t.Fatal(err)
	}
	t.Cleanup(func() { c.Close() })
	return c
}

func TestEachFrameHasItsAnswer(t *testing.T) {
	c := ask(t, "encode")
	for _, text := range []string{"o1", "r", "o2", "r", "r", "o3"} {
		answer, err := c.Send(capture.Message([]byte(text)))
		if err != nil {
			t.Fatal(err)
		}
		if answer.Refused() != (text == "r") || !answer.Refused() && string(answer.Frame.Payload) != text {
			t.Errorf("%s: %+v", text, answer)
		}
	}
	if answer, err := c.Send(capture.Reset()); err != nil || !answer.Frame.IsReset() {
		t.Errorf("a reset: %+v, %v", answer, err)
	}
	if err := c.Close(); err != nil {
		t.Error(err)
	}
}

func TestALineForEachFrame(t *testing.T) {
	c := ask(t, "list")
	for n, want := range []Answer{{Text: "frame 0: batch 0"}, {Line: "frame 1: request refused: BadMessage"}, {Text: "frame 2: batch 2"}} {
		answer, err := c.Send(capture.Message([]byte("oro"[n : n+1])))
		if err != nil || answer.Text != want.Text || answer.Line != want.Line {
			t.Errorf("frame %d: %+v, %v", n, answer, err)
		}
	}
}

// What is said comes while its asker does something else, and so does an end that nobody asked for.
func TestSaid(t *testing.T) {
	c := ask(t, "encode")
	for _, text := range []string{"o1", "r", "o2"} {
		if err := c.Put(capture.Message([]byte(text))); err != nil {
			t.Fatal(err)
		}
		answer, err := c.Answer(<-c.Said())
		if err != nil || answer.Refused() != (text == "r") || !answer.Refused() && string(answer.Frame.Payload) != text {
			t.Errorf("%s: %+v, %v", text, answer, err)
		}
	}
	c.cmd.Process.Kill()
	if _, err := c.Answer(<-c.Said()); err == nil || err.Error() != "otap_cli encode ended with signal: killed" {
		t.Errorf("killed while it wasn't asked: %v", err)
	}
}

func TestWithin(t *testing.T) {
	c := ask(t, "encode")
	if _, err := c.Send(capture.Message([]byte("o"))); err != nil {
		t.Error(err)
	}
	if _, err := c.Within(10 * time.Millisecond).Send(capture.Message([]byte("h"))); err == nil || err.Error() != "otap_cli encode ended with signal: killed" {
		t.Errorf("no answer: %v", err)
	}
}

func TestCollect(t *testing.T) {
	c := ask(t, "resend").Within(time.Minute)
	for _, text := range []string{"o", "t", "o"} {
		if text == "o" {
			if answer, err := c.Send(capture.Message([]byte(text))); err != nil || string(answer.Frame.Payload) != text {
				t.Errorf("%+v, %v", answer, err)
			}
			continue
		}
		got := ""
		err := c.Collect(capture.Message([]byte(text)), 3, func(a Answer) error {
			got += string(a.Frame.Payload)
			return nil
		})
		if err != nil || got != "ttt" {
			t.Errorf("%q, %v", got, err)
		}
	}
	untaken := errors.New("not taken")
	if err := c.Collect(capture.Message([]byte("t")), 3, func(Answer) error { return untaken }); err != untaken {
		t.Errorf("what isn't taken: %v", err)
	}
	if err := c.Close(); err != nil {
		t.Error(err)
	}
	c = ask(t, "resend").Within(10 * time.Millisecond)
	err := c.Collect(capture.Message([]byte("o")), 2, func(Answer) error { return nil })
	if err == nil || err.Error() != "otap_cli resend ended with signal: killed" {
		t.Errorf("one answer of two: %v", err)
	}
}

func TestAStatusAndItsLine(t *testing.T) {
	c := ask(t, "status")
	for n, text := range []string{"o", "r", "o", "r"} {
		answer, err := c.Send(capture.Message([]byte(text)))
		if err != nil || answer.Frame == nil || answer.Refused() != (text == "r") {
			t.Errorf("frame %d: %+v, %v", n, answer, err)
		}
	}
}

func TestAnEndIsAnError(t *testing.T) {
	for text, want := range map[string]string{
		"e": "otap_cli encode ended with status 6",
		"k": "asking otap_cli encode: ",
	} {
		c := ask(t, "encode")
		if _, err := c.Send(capture.Message([]byte(text))); err == nil || !strings.HasPrefix(err.Error(), want) {
			t.Errorf("%s: %v", text, err)
		}
		if _, err := c.Send(capture.Message([]byte("o"))); err == nil {
			t.Errorf("%s: a frame after the end is answered", text)
		}
		c.Close()
	}
}

func TestTheContextEndsAConversation(t *testing.T) {
	ctx, cancel := context.WithCancel(context.Background())
	c, err := program(t).Ask(ctx, "encode", "logs")
	if err != nil {
		t.Fatal(err)
	}
	if _, err := c.Send(capture.Message([]byte("o"))); err != nil {
		t.Fatal(err)
	}
	cancel()
	if err := c.Close(); err == nil {
		t.Log("the program ended before it was killed")
	}
}

func TestFind(t *testing.T) {
	folder := t.TempDir()
	file := filepath.Join(folder, Name)
	if err := os.WriteFile(file, []byte("#!/bin/sh\n"), 0o644); err != nil {
		t.Fatal(err)
	}
	for path, want := range map[string]string{
		filepath.Join(folder, "none"): "the program " + filepath.Join(folder, "none") + ": no such file or directory",
		folder:                        "the program " + folder + " is no executable file",
		file:                          "the program " + file + " is no executable file",
	} {
		if _, err := Find(path); err == nil || err.Error() != want {
			t.Errorf("%s: %v", path, err)
		}
	}
	if err := os.Chmod(file, 0o755); err != nil {
		t.Fatal(err)
	}
	p, err := Find(file)
	if err != nil || p.String() != file {
		t.Fatalf("%v, %v", p, err)
	}
	sum := sha256.Sum256([]byte("#!/bin/sh\n"))
	if got, err := p.Sum(); err != nil || got != hex.EncodeToString(sum[:]) {
		t.Errorf("%s, %v", got, err)
	}
}

// An executable that has no name runs, its sum is that of its bytes, and nobody can write to it.
func TestAnonymous(t *testing.T) {
	t.Setenv(standIn, "yes")
	self, err := os.Executable()
	if err != nil {
		t.Fatal(err)
	}
	executable, err := os.ReadFile(self)
	if err != nil {
		t.Fatal(err)
	}
	p, err := anonymous(executable)
	if err != nil {
		t.Fatal(err)
	}
	defer p.Close()
	sum := sha256.Sum256(executable)
	if got, err := p.Sum(); err != nil || got != hex.EncodeToString(sum[:]) {
		t.Errorf("%s, %v", got, err)
	}
	if _, err := p.image.WriteAt([]byte{0}, 0); err == nil {
		t.Error("it can be written to")
	}
	for i := 0; i < 2; i++ {
		cmd := p.Command(context.Background(), "list")
		cmd.Stdin = bytes.NewReader([]byte{0, 0, 0, 0, 1, 'o'})
		if out, err := cmd.Output(); err != nil || string(out) != "frame 0: batch 0\n" {
			t.Errorf("%q, %v", out, err)
		}
	}
}
