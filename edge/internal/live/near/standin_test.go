package near

import (
	"bufio"
	"bytes"
	"fmt"
	"io"
	"os"
	"os/exec"
	"path/filepath"
	"strings"
	"testing"

	"google.golang.org/protobuf/encoding/protowire"

	"finavoluth/edge/internal/capture"
	"finavoluth/edge/internal/live/wire"
)

// standIn is set where this test's executable is to be the program: it answers as `resend` does, but for what is in a request,
// which it takes as it is. A request that begins with r is refused, one with e ends the program, and one with l has a long batch.
const standIn = "FINAVOLUTH_STAND_IN"

// long is how many bytes a long batch has at least.
const long = 1000

func TestMain(m *testing.M) {
	if os.Getenv(standIn) != "" {
		os.Exit(resend(os.Args[3], os.Stdin, os.Stdout, os.Stderr))
	}
	os.Exit(m.Run())
}

// kept is what `resend` has: the open requests in the order in which they were sent, with the ids of their batches.
type kept struct {
	window, written, sent, done, givenUp int
	open                                 []waiting
}

type waiting struct {
	request []byte
	id      int64
}

func resend(window string, in io.Reader, out, err io.Writer) int {
	k, status := &kept{}, 0
	fmt.Sscan(window, &k.window)
	frames := capture.NewReader(bufio.NewReader(in))
	for n := 0; ; n++ {
		frame, wrong := frames.Next()
		if wrong == io.EOF {
			break
		}
		if wrong != nil {
			fmt.Fprintln(err, wrong)
			status = 5
			break
		}
		if frame.IsReset() {
			k.reset(out)
			continue
		}
		request, of, problem := readEvent(frame)
		switch {
		case problem != "":
			fmt.Fprintf(err, "frame %d: event refused: %s\n", n, problem)
			status = 1
		case of != nil:
			word := k.answer(*of)
			fmt.Fprintf(err, "frame %d: answer %d %s\n", n, of.ID, word)
			if word == "unknown" {
				status = 1
			}
		case bytes.HasPrefix(request, []byte("e")):
			return 6
		case bytes.HasPrefix(request, []byte("r")):
			fmt.Fprintf(err, "frame %d: request refused: BadMessage\n", n)
			status = 1
		case len(k.open) >= k.window:
			fmt.Fprintf(err, "frame %d: request refused: Full\n", n)
			status = 1
		default:
			k.sent++
			k.open = append(k.open, waiting{request, 0})
			k.write(out, &k.open[len(k.open)-1])
		}
	}
	fmt.Fprintf(err, "sent %d done %d given up %d open %d\n", k.sent, k.done, k.givenUp, len(k.open))
	return status
}

func readEvent(frame capture.Frame) (request []byte, of *wire.Status, problem string) {
	if frame.Flag == capture.FlagCompressed {
		return nil, nil, "Compressed"
	}
	count := 0
	for message := frame.Payload; len(message) > 0; count++ {
		number, kind, n := protowire.ConsumeTag(message)
		if n < 0 || kind != protowire.BytesType || number > eventStatus {
			return nil, nil, "BadMessage"
		}
		part, m := protowire.ConsumeBytes(message[n:])
		if m < 0 {
			return nil, nil, "BadMessage"
		}
		message, request = message[n+m:], part
		if number == eventStatus {
			s, err := wire.ReadStatus(part)
			if err != nil {
				return nil, nil, "BadMessage"
			}
			of = &s
		}
	}
	switch count {
	case 0:
		return nil, nil, "BadMessage"
	case 1:
		return request, of, ""
	}
	return nil, nil, "Repeated"
}

func (k *kept) reset(out io.Writer) {
	k.written = 0
	w := capture.NewWriter(out)
	w.Write(capture.Reset())
	w.Flush()
	for i := range k.open {
		k.write(out, &k.open[i])
	}
}

// write puts out a batch with the next id, and in the place of its payloads the request.
func (k *kept) write(out io.Writer, one *waiting) {
	one.id = int64(k.written)
	k.written++
	batch := wire.Status{ID: one.id}.Append(nil)
	part := one.request
	if bytes.HasPrefix(part, []byte("l")) {
		part = append(append([]byte{}, part...), make([]byte, long)...)
	}
	batch = protowire.AppendBytes(protowire.AppendTag(batch, 2, protowire.BytesType), part)
	w := capture.NewWriter(out)
	w.Write(capture.Message(batch))
	w.Flush()
}

func (k *kept) answer(s wire.Status) string {
	for i, one := range k.open {
		if one.id != s.ID {
			continue
		}
		switch s.Code {
		case 0:
			k.done++
		case 3, 8:
			k.givenUp++
		default:
			return "kept"
		}
		k.open = append(k.open[:i], k.open[i+1:]...)
		if s.Code == 0 {
			return "done"
		}
		return "given up"
	}
	return "unknown"
}

// TestStandIn has the stand-in say what the examples say of `resend`, on captures whose requests are all taken.
func TestStandIn(t *testing.T) {
	self, err := os.Executable()
	if err != nil {
		t.Fatal(err)
	}
	chains := filepath.Join("..", "..", "..", "..", "examples", "chains")
	for _, name := range []string{
		"resend_after_a_reset", "resend_after_resets_in_turn", "resend_answered_twice", "resend_by_a_late_status",
		"resend_by_each_code", "resend_gives_up", "resend_in_order", "resend_then_damage", "resend_to_a_full_window",
		"resend_to_a_window_of_64", "resend_to_a_window_that_keeps", "resend_what_was_kept",
	} {
		steps, err := os.ReadFile(filepath.Join(chains, name+".steps"))
		if err != nil {
			t.Fatal(err)
		}
		expected, err := os.ReadFile(filepath.Join(chains, name+".stderr"))
		if err != nil {
			t.Fatal(err)
		}
		words := strings.Fields(strings.Split(string(steps), "\n")[1])
		cmd := exec.Command(self, words...)
		cmd.Env = append(os.Environ(), standIn+"=yes")
		if cmd.Stdin, err = os.Open(filepath.Join(chains, name+".capture")); err != nil {
			t.Fatal(err)
		}
		var said strings.Builder
		cmd.Stderr = &said
		cmd.Run()
		fmt.Fprintf(&said, "%s: status %d\n", strings.Join(words, " "), cmd.ProcessState.ExitCode())
		if got := said.String(); !strings.HasPrefix(string(expected), got) {
			t.Errorf("%s: the stand-in says\n%sand not\n%s", name, got, expected)
		}
	}
}
