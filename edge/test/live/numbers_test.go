package live_test

import (
	"bytes"
	"context"
	"fmt"
	"os"
	"sort"
	"strconv"
	"strings"
	"sync"
	"sync/atomic"
	"testing"
	"time"

	"finavoluth/edge/internal/signal"

	"google.golang.org/grpc"
)

// leastRate is how many requests of 12 KB near and far have to pass in a second in one stream, on four idle processors.
const leastRate = 2000

// TestNumbers measures the live edge. bench/live runs it; it is no part of the tests.
func TestNumbers(t *testing.T) {
	if os.Getenv("NUMBERS") == "" {
		t.Skip("it measures, and bench/live runs it")
	}
	sizes := realistic(t)
	fmt.Printf("| request | streams | clients | requests/s | MB/s | CPU ms a request: near | encode | far | decode | client and backend | peak MiB near | far |\n")
	fmt.Println("|---|---|---|---|---|---|---|---|---|---|---|---|")
	for _, size := range sizes {
		for _, streams := range []int{1, 8, 64} {
			rate := throughput(t, size, streams)
			if streams == 1 && size.name == "12 KB" && rate < leastRate {
				t.Errorf("%.0f requests/s of 12 KB in one stream, below %d", rate, leastRate)
			}
		}
	}
	fmt.Println()
	fmt.Println("| request | way | p50 ms | p99 ms | added p50 | added p99 |")
	fmt.Println("|---|---|---|---|---|---|")
	for _, size := range sizes {
		latencies(t, size)
	}
}

// A size is a request of about so many bytes, and how many are sent.
type size struct {
	name     string
	requests [][]byte
	count    int
}

// realistic are the realistic requests of logs, and longer ones, each of which is many of these.
func realistic(t *testing.T) []size {
	data, err := os.ReadFile("../../../examples/transits/logs/realistic.capture")
	if err != nil {
		t.Fatal(err)
	}
	short := frames(t, data)
	long := bytes.Join(short, nil)
	count := 4000
	if n, err := strconv.Atoi(os.Getenv("NUMBERS")); err == nil && n > 1 {
		count = n
	}
	return []size{
		{"12 KB", short, count},
		{"1 MB", [][]byte{bytes.Repeat(long, 1_000_000/len(long)+1)}, count/20 + 1},
	}
}

// cpu is what a process has used, in milliseconds.
func cpu(pid int) float64 {
	data, _ := os.ReadFile(fmt.Sprintf("/proc/%d/stat", pid))
	words := strings.Fields(string(data[bytes.LastIndexByte(data, ')')+1:]))
	user, _ := strconv.Atoi(words[11])
	system, _ := strconv.Atoi(words[12])
	return float64(user+system) * 10 // a clock tick is 10 ms
}

func cpuOf(pids []int) (sum float64) {
	for _, pid := range pids {
		sum += cpu(pid)
	}
	return sum
}

func throughput(t *testing.T, of size, streams int) float64 {
	b := newBackend(t, nil, nil)
	b.forget = true
	far := start(t, "far", "--listen", "127.0.0.1:0", "--to", b.address)
	near := start(t, "near", "--listen", "127.0.0.1:0", "--to", far.at("grpc"), "--signals", "logs", "--streams", strconv.Itoa(streams))
	near.said(streamOpen, streams)
	clients := 16 * streams
	if clients > 256 {
		clients = 256
	}
	conns := make([]*grpc.ClientConn, (clients+31)/32)
	for i := range conns {
		conns[i] = connect(t, near.at("grpc"))
	}
	drive(t, of, conns, clients, clients*4) // until each stream has its schemas and dictionaries
	parts := func() []float64 {
		return []float64{cpu(near.cmd.Process.Pid), cpuOf(near.children()), cpu(far.cmd.Process.Pid), cpuOf(far.children()), cpu(os.Getpid())}
	}
	before, began := parts(), time.Now()
	sent := drive(t, of, conns, clients, of.count)
	took, after := time.Since(began).Seconds(), parts()
	rate := float64(of.count) / took
	fmt.Printf("| %s | %d | %d | %.0f | %.1f |", of.name, streams, clients, rate, float64(sent)/1e6/took)
	for i := range after {
		fmt.Printf(" %.2f |", (after[i]-before[i])/float64(of.count))
	}
	fmt.Printf(" %d | %d |\n", near.peak()>>20, far.peak()>>20)
	near.term()
	far.term()
	return rate
}

// drive sends so many requests by so many clients at once, and gives the bytes that they had.
func drive(t *testing.T, of size, conns []*grpc.ClientConn, clients, count int) (sent int64) {
	var next int64 = -1
	var wait sync.WaitGroup
	for k := 0; k < clients; k++ {
		wait.Add(1)
		go func(conn *grpc.ClientConn) {
			defer wait.Done()
			for i := atomic.AddInt64(&next, 1); i < int64(count); i = atomic.AddInt64(&next, 1) {
				request := of.requests[i%int64(len(of.requests))]
				if err := export(context.Background(), conn, signal.Logs, request); err != nil {
					t.Error(err)
					return
				}
				atomic.AddInt64(&sent, int64(len(request)))
			}
		}(conns[k%len(conns)])
	}
	wait.Wait()
	return sent
}

// latencies has one client send one request after the other: to the backend itself, by way of a recorder, and by near and
// far.
func latencies(t *testing.T, of size) {
	b := newBackend(t, nil, nil)
	b.forget = true
	recorder, _ := newRecorder(t, "--forward", b.address, "--max-bytes", "100000000000")
	far := start(t, "far", "--listen", "127.0.0.1:0", "--to", b.address)
	near := start(t, "near", "--listen", "127.0.0.1:0", "--to", far.at("grpc"), "--signals", "logs")
	near.said(streamOpen, 1)
	var direct []time.Duration
	for _, way := range []struct{ name, address string }{{"direct", b.address}, {"record", recorder.at("grpc")}, {"near, far", near.at("grpc")}} {
		conn := connect(t, way.address)
		took := make([]time.Duration, 0, of.count)
		for i := 0; i < of.count; i++ {
			began := time.Now()
			if err := export(context.Background(), conn, signal.Logs, of.requests[i%len(of.requests)]); err != nil {
				t.Fatal(err)
			}
			took = append(took, time.Since(began))
		}
		sort.Slice(took, func(i, j int) bool { return took[i] < took[j] })
		if direct == nil {
			direct = took
		}
		at := func(l []time.Duration, percent int) float64 { return l[len(l)*percent/100].Seconds() * 1000 }
		fmt.Printf("| %s | %s | %.2f | %.2f | %.2f | %.2f |\n", of.name, way.name, at(took, 50), at(took, 99),
			at(took, 50)-at(direct, 50), at(took, 99)-at(direct, 99))
	}
	recorder.term()
	near.term()
	far.term()
}
