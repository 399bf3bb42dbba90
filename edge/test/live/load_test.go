package live_test

import (
	"bytes"
	"context"
	"fmt"
	"os"
	"os/exec"
	"strings"
	"sync"
	"testing"
	"time"

	"finavoluth/edge/internal/capture"
	"finavoluth/edge/internal/signal"

	"google.golang.org/grpc"
	"google.golang.org/grpc/codes"
	"google.golang.org/grpc/status"
	"google.golang.org/protobuf/encoding/protowire"
)

func field(number protowire.Number, value []byte) []byte {
	return protowire.AppendBytes(protowire.AppendTag(nil, number, protowire.BytesType), value)
}

// numbered is a request of one log record that says its number, and is as long as it is padded.
func numbered(i, padding int) []byte {
	body := fmt.Sprintf("request %d ", i) + strings.Repeat("x", padding)
	record := protowire.AppendFixed64(protowire.AppendTag(nil, 1, protowire.Fixed64Type), 1750000000000000000+uint64(i))
	record = append(record, field(5, field(1, []byte(body)))...)
	service := append(field(1, []byte("service.name")), field(2, field(1, []byte("load")))...)
	group := append(field(1, field(1, service)), field(2, field(2, record))...)
	return field(1, group)
}

// program is the executable of the proved program alone, for the command line.
func program(t *testing.T) string {
	path := os.Getenv("PROGRAM")
	if path == "" {
		t.Fatal("PROGRAM doesn't name the proved program")
	}
	return path
}

// ask runs the program over a capture, as on the command line.
func ask(t *testing.T, input []byte, words ...string) []byte {
	t.Helper()
	cmd := exec.Command(program(t), words...)
	cmd.Stdin = bytes.NewReader(input)
	out, err := cmd.Output()
	if exit, ok := err.(*exec.ExitError); err != nil && (!ok || exit.ExitCode() != 1) {
		t.Fatalf("%v: %v", words, err)
	}
	return out
}

// frames takes a capture apart.
func frames(t *testing.T, of []byte) (messages [][]byte) {
	t.Helper()
	for r := capture.NewReader(bytes.NewReader(of)); ; {
		f, err := r.Next()
		if err != nil {
			if _, damaged := err.(*capture.Damage); damaged {
				t.Fatal(err)
			}
			return messages
		}
		if !f.IsReset() {
			messages = append(messages, f.Payload)
		}
	}
}

// captured is a capture of messages.
func captured(messages ...[]byte) []byte {
	var b bytes.Buffer
	w := capture.NewWriter(&b)
	for _, m := range messages {
		w.Write(capture.Message(m))
	}
	w.Flush()
	return b.Bytes()
}

// throughBoth is what the program's two ends make of requests, on the command line.
func throughBoth(t *testing.T, s signal.Signal, requests [][]byte) [][]byte {
	t.Helper()
	return frames(t, ask(t, ask(t, captured(requests...), "encode", s.String()), "decode", s.String()))
}

// A load is many numbered requests, sent by some workers until each is acknowledged or given up.
type load struct {
	t       *testing.T
	conn    *grpc.ClientConn
	workers int
	padding int
	// more says whether a request of this number is to be sent.
	more func(i int) bool
	// again waits until a request that failed is to be sent again, or says that it is given up. The number is that of
	// the streams that were open by then, where near is known.
	near  *process
	again func(i int, err error) bool

	mu       sync.Mutex
	next     int
	acked    map[int]bool
	failures map[string]int
	grew     chan struct{}
}

// times is a load of so many requests.
func times(n int) func(int) bool { return func(i int) bool { return i < n } }

const (
	streamOpen  = `msg="stream open"`
	streamEnded = `msg="stream ended"`
)

func (l *load) begin() (done chan struct{}) {
	if l.acked == nil {
		l.acked, l.failures = map[int]bool{}, map[string]int{}
	}
	l.grew = make(chan struct{})
	done = make(chan struct{})
	var workers sync.WaitGroup
	for k := 0; k < l.workers; k++ {
		workers.Add(1)
		go func() {
			defer workers.Done()
			l.work()
		}()
	}
	go func() { workers.Wait(); close(done) }()
	return done
}

func (l *load) work() {
	for {
		l.mu.Lock()
		i := l.next
		if !l.more(i) {
			l.mu.Unlock()
			return
		}
		l.next++
		l.mu.Unlock()
		for {
			opened := 0
			if l.near != nil {
				opened = l.near.count(streamOpen)
			}
			err := export(context.Background(), l.conn, signal.Logs, numbered(i, l.padding))
			l.mu.Lock()
			if err == nil {
				l.acked[i] = true
			} else {
				l.failures[status.Code(err).String()]++
			}
			close(l.grew)
			l.grew = make(chan struct{})
			l.mu.Unlock()
			if err == nil || !l.retry(i, err, opened) {
				break
			}
		}
	}
}

// retry sends again what an exporter of OTLP would, once near has opened another stream.
func (l *load) retry(i int, err error, opened int) bool {
	if l.again != nil {
		return l.again(i, err)
	}
	if l.near == nil || status.Code(err) != codes.Unavailable {
		return false
	}
	l.near.said(streamOpen, opened+1)
	return true
}

// reached waits until so many requests are acknowledged, and says how many are by then.
func (l *load) reached(n int) int {
	l.t.Helper()
	over := time.After(limit)
	for {
		l.mu.Lock()
		now, grew := len(l.acked), l.grew
		l.mu.Unlock()
		if now >= n {
			return now
		}
		select {
		case <-grew:
		case <-over:
			l.t.Fatalf("%d of %d acknowledged within %v", now, n, limit)
		}
	}
}

func (l *load) count() int {
	l.mu.Lock()
	defer l.mu.Unlock()
	return len(l.acked)
}

// finish waits for the end of the load.
func (l *load) finish(done chan struct{}) {
	l.t.Helper()
	over := time.After(limit)
	for {
		l.mu.Lock()
		grew := l.grew
		l.mu.Unlock()
		select {
		case <-done:
			return
		case <-grew:
			over = time.After(limit)
		case <-over:
			l.t.Fatalf("the load stands still at %d acknowledged", l.count())
		}
	}
}

// check compares what was acknowledged with what the backend has: nothing is missing there, and what is there is what the
// command line makes of a request.
func (l *load) check(kept map[string]int) {
	l.t.Helper()
	requests := make([][]byte, l.next)
	for i := range requests {
		requests[i] = numbered(i, l.padding)
	}
	expected := throughBoth(l.t, signal.Logs, requests)
	if len(expected) != len(requests) {
		l.t.Fatalf("the command line makes %d of %d requests", len(expected), len(requests))
	}
	known, missing, twice := map[string]bool{}, 0, 0
	for i, e := range expected {
		known[string(e)] = true
		if l.acked[i] && kept[string(e)] == 0 {
			missing++
		}
	}
	for k, n := range kept {
		if !known[k] {
			l.t.Errorf("the backend has a request that nobody sent: %.80q", k)
		}
		twice += n - 1
	}
	l.t.Logf("%d requests, %d acknowledged, %d missing of these, %d twice; failures %v", l.next, len(l.acked), missing, twice, l.failures)
	if missing > 0 {
		l.t.Errorf("%d acknowledged requests are missing at the backend", missing)
	}
}
