package live_test

import (
	"bytes"
	"context"
	"os"
	"os/exec"
	"path/filepath"
	"sort"
	"strings"
	"testing"

	"finavoluth/edge/internal/live/wire"
	"finavoluth/edge/internal/signal"

	"google.golang.org/grpc"
	"google.golang.org/grpc/codes"
	"google.golang.org/grpc/status"
)

// longest leaves the captures out that a job takes seconds for.
const longest = 1 << 20

// examples are the requests of all captures of a signal.
func examples(t *testing.T, s signal.Signal) (requests [][]byte) {
	t.Helper()
	files, _ := filepath.Glob("../../../examples/transits/" + s.String() + "/*.capture")
	sort.Strings(files)
	for _, file := range files {
		data, err := os.ReadFile(file)
		if err != nil {
			t.Fatal(err)
		}
		if len(data) <= longest {
			requests = append(requests, frames(t, data)...)
		}
	}
	if len(requests) < 10 {
		t.Fatalf("only %d requests of %s", len(requests), s)
	}
	return requests
}

// A client sends requests one after the other, and says how each was answered.
type client func(t *testing.T, address string, s signal.Signal, requests [][]byte) []codes.Code

func byGo(options ...grpc.CallOption) client {
	return func(t *testing.T, address string, s signal.Signal, requests [][]byte) (answers []codes.Code) {
		conn := connect(t, address)
		for i, r := range requests {
			err := export(context.Background(), conn, s, r, options...)
			code := status.Code(err)
			if code != codes.OK && code != codes.InvalidArgument && code != codes.ResourceExhausted {
				t.Errorf("%s %d: %v", s, i, err)
			}
			answers = append(answers, code)
		}
		return answers
	}
}

func byPython(words ...string) client {
	return func(t *testing.T, address string, s signal.Signal, requests [][]byte) (answers []codes.Code) {
		if _, err := exec.LookPath("/usr/bin/python3"); err != nil {
			t.Skip("left out, as there is no python3")
		}
		file := filepath.Join(t.TempDir(), "capture")
		if err := os.WriteFile(file, captured(requests...), 0o600); err != nil {
			t.Fatal(err)
		}
		args := append([]string{"client.py", address, wire.Service{Signal: s}.Method(), file}, words...)
		out, err := exec.Command("/usr/bin/python3", args...).Output()
		if err != nil {
			t.Fatalf("client.py: %v", err)
		}
		names := map[string]codes.Code{"OK": codes.OK, "INVALID_ARGUMENT": codes.InvalidArgument, "RESOURCE_EXHAUSTED": codes.ResourceExhausted}
		for _, word := range strings.Fields(string(out)) {
			code, ok := names[word]
			if !ok {
				t.Errorf("client.py got %s", word)
			}
			answers = append(answers, code)
		}
		return answers
	}
}

// TestTransit has what comes to the backend compared with what the command line makes, byte by byte.
func TestTransit(t *testing.T) {
	t.Parallel()
	clients := []struct {
		name string
		send client
		next []string // near's words
	}{
		{"plain", byGo(), nil},
		{"gzip", byGo(grpc.UseCompressor("gzip")), []string{"--compression", "gzip"}},
		{"zstd", byGo(grpc.UseCompressor("zstd")), []string{"--compression", "zstd"}},
		{"grpcio", byPython(), nil},
		{"grpcio gzip", byPython("gzip"), nil},
	}
	for _, c := range clients {
		c := c
		t.Run(c.name, func(t *testing.T) {
			t.Parallel()
			b := newBackend(t, nil, nil)
			x := newBridge(t, b, c.next, nil)
			for _, s := range signal.All() {
				requests := examples(t, s)
				expected := throughBoth(t, s, requests)
				b.mu.Lock()
				b.order = nil
				b.mu.Unlock()
				answers := c.send(t, x.near.at("grpc"), s, requests)
				if len(answers) != len(requests) {
					t.Fatalf("%s: %d answers to %d requests", s, len(answers), len(requests))
				}
				same(t, s.String(), b.order, expected)
				refused := 0
				for _, code := range answers {
					if code != codes.OK {
						refused++
					}
				}
				if refused != len(requests)-len(expected) {
					t.Errorf("%s: %d of %d refused, on the command line %d", s, refused, len(requests), len(requests)-len(expected))
				}
				t.Logf("%s: %d requests equal, %d refused", s, len(expected), refused)
			}
			x.end(nil)
		})
	}
}

// same fails where two lists of messages differ.
func same(t *testing.T, what string, got, expected [][]byte) {
	t.Helper()
	if len(got) != len(expected) {
		t.Errorf("%s: %d messages, expected %d", what, len(got), len(expected))
	}
	for i := 0; i < len(got) && i < len(expected); i++ {
		if !bytes.Equal(got[i], expected[i]) {
			t.Errorf("%s: message %d differs", what, i)
			return
		}
	}
}

// TestRefusals has what near answers to requests that the program refuses.
func TestRefusals(t *testing.T) {
	t.Parallel()
	x := newBridge(t, newBackend(t, nil, nil), []string{"--signals", "logs", "--max-batch", "100000"}, nil)
	conn := connect(t, x.near.at("grpc"))
	cases := []struct {
		name    string
		request []byte
		signal  signal.Signal
		code    codes.Code
		text    string
	}{
		{"no protobuf", []byte{0xff, 0xff}, signal.Logs, codes.InvalidArgument, "BadMessage"},
		{"too long a batch", numbered(1, 200_000), signal.Logs, codes.ResourceExhausted, "--max-batch"},
		{"after it", numbered(2, 0), signal.Logs, codes.OK, ""},
		{"too long a request", numbered(3, maxMessage), signal.Logs, codes.ResourceExhausted, "--max-message"},
		{"another signal", numbered(4, 0), signal.Traces, codes.Unimplemented, ""},
		{"after all", numbered(5, 0), signal.Logs, codes.OK, ""},
	}
	for _, c := range cases {
		err := export(context.Background(), conn, c.signal, c.request)
		if status.Code(err) != c.code || !strings.Contains(status.Convert(err).Message(), c.text) {
			t.Errorf("%s: %v, expected %v with %q", c.name, err, c.code, c.text)
		}
	}
	x.end(nil)
}

// TestLimitsOfWeight has a request that is too heavy, and one of too many items, answered for good.
func TestLimitsOfWeight(t *testing.T) {
	t.Parallel()
	args := []string{"--signals", "logs", "--max-message", "67108864", "--window-bytes", "134217728"}
	x := newBridge(t, newBackend(t, nil, nil), args, nil)
	x.windows = 128 << 20
	conn := connect(t, x.near.at("grpc"))
	empty := field(2, nil) // a log record of no bytes weighs 32
	many := field(1, field(2, bytes.Repeat(empty, 1<<20+1)))
	err := export(context.Background(), conn, signal.Logs, many)
	if status.Code(err) != codes.ResourceExhausted || !strings.Contains(err.Error(), "TooManyItems") {
		t.Errorf("too many items: %v", err)
	}
	heavy := field(1, field(2, bytes.Repeat(field(2, field(5, field(1, bytes.Repeat([]byte("x"), 1000)))), 1<<16)))
	if len(heavy) <= 64<<20 {
		err = export(context.Background(), conn, signal.Logs, heavy)
		if status.Code(err) != codes.ResourceExhausted || !strings.Contains(err.Error(), "TooHeavy") {
			t.Errorf("too heavy: %v", err)
		}
	}
	x.end(nil)
}
