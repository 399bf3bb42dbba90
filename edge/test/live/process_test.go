// Package live_test runs the live edge as real processes on the loopback: the built command, the proved program as its
// children, clients and backends over sockets. edge/test/live.sh runs it; without the built command it is left out.
package live_test

import (
	"bufio"
	"fmt"
	"io"
	"os"
	"os/exec"
	"path/filepath"
	"regexp"
	"runtime"
	"strconv"
	"strings"
	"sync"
	"syscall"
	"testing"
	"time"

	"golang.org/x/sys/unix"
)

// limit is how long a wait for an event may take.
const limit = 60 * time.Second

// built is the command that is tried.
func built(t *testing.T) string {
	path := os.Getenv("OTAP")
	if path == "" {
		t.Skip("OTAP doesn't name the built command: edge/test/live.sh does")
	}
	return path
}

// words are the command's words before those of a test: the program, where it isn't embedded.
func words() []string {
	if program := os.Getenv("OTAP_CLI"); program != "" {
		return []string{"--otap-cli", program}
	}
	return nil
}

// A process is one that a test started.
type process struct {
	t    *testing.T
	name string
	cmd  *exec.Cmd
	done chan struct{} // closed at its end
	err  error

	mu    sync.Mutex
	lines []string
	grew  chan struct{} // closed and made anew with each line
}

// start starts the command; the test ends it, if it hasn't ended by then.
func start(t *testing.T, args ...string) *process {
	t.Helper()
	return startProcess(t, args[0], exec.Command(built(t), append(words(), args...)...))
}

func startProcess(t *testing.T, name string, cmd *exec.Cmd) *process {
	t.Helper()
	p := &process{t: t, name: name, cmd: cmd, done: make(chan struct{}), grew: make(chan struct{})}
	stderr, err := cmd.StderrPipe()
	if err != nil {
		t.Fatal(err)
	}
	if err := begin(cmd); err != nil {
		t.Fatal(err)
	}
	go p.follow(stderr)
	t.Cleanup(func() {
		select {
		case <-p.done:
		default:
			cmd.Process.Kill()
			<-p.done
		}
		if t.Failed() && os.Getenv("NUMBERS") == "" {
			t.Logf("the log of %s:\n%s", name, strings.Join(p.log(), "\n"))
		}
	})
	return p
}

// beginning has what one thread starts, which lives as long as the tests: a process that a thread started is killed with it,
// so none is left where the tests themselves end early.
var beginning = make(chan func())

func init() {
	go func() {
		runtime.LockOSThread()
		for f := range beginning {
			f()
		}
	}()
}

func begin(cmd *exec.Cmd) error {
	cmd.SysProcAttr = &syscall.SysProcAttr{Pdeathsig: syscall.SIGKILL}
	result := make(chan error)
	beginning <- func() { result <- cmd.Start() }
	return <-result
}

func (p *process) follow(from io.Reader) {
	scanner := bufio.NewScanner(from)
	scanner.Buffer(nil, 1<<20)
	for scanner.Scan() {
		p.mu.Lock()
		p.lines = append(p.lines, scanner.Text())
		close(p.grew)
		p.grew = make(chan struct{})
		p.mu.Unlock()
	}
	p.err = p.cmd.Wait()
	close(p.done)
}

func (p *process) log() []string {
	p.mu.Lock()
	defer p.mu.Unlock()
	return append([]string(nil), p.lines...)
}

// said waits until so many lines match, and returns the part of the last of them that the pattern's group names.
func (p *process) said(pattern string, times int) string {
	p.t.Helper()
	match := regexp.MustCompile(pattern)
	over := time.After(limit)
	for {
		p.mu.Lock()
		lines, grew := p.lines, p.grew
		p.mu.Unlock()
		found := 0
		for _, line := range lines {
			if part := match.FindStringSubmatch(line); part != nil {
				if found++; found == times {
					return part[len(part)-1]
				}
			}
		}
		select {
		case <-grew:
		case <-p.done:
			p.mu.Lock()
			more := len(p.lines) > len(lines)
			p.mu.Unlock()
			if !more {
				p.t.Fatalf("%s ended (%v) and didn't say %q %d times, but %d times:\n%s", p.name, p.err, pattern, times, found, strings.Join(lines, "\n"))
			}
		case <-over:
			p.t.Fatalf("%s didn't say %q %d times within %v, but %d times", p.name, pattern, times, limit, found)
		}
	}
}

// until waits until what it is to do is so, which is asked anew after each line.
func (p *process) until(what string, so func() bool) {
	p.t.Helper()
	over := time.After(limit)
	for {
		p.mu.Lock()
		grew := p.grew
		p.mu.Unlock()
		if so() {
			return
		}
		select {
		case <-grew:
		case <-p.done:
			p.t.Fatalf("%s ended (%v) and didn't %s", p.name, p.err, what)
		case <-over:
			p.t.Fatalf("%s didn't %s within %v", p.name, what, limit)
		}
	}
}

// count says how many lines match so far.
func (p *process) count(pattern string) int {
	match := regexp.MustCompile(pattern)
	found := 0
	for _, line := range p.log() {
		if match.MatchString(line) {
			found++
		}
	}
	return found
}

// at is where a service of the process listens.
func (p *process) at(service string) string {
	p.t.Helper()
	return p.said(`msg=listening service=`+service+` addr=(\S+)`, 1)
}

// kill ends it at once.
func (p *process) kill() {
	p.cmd.Process.Kill()
	p.ended()
}

// term asks it to end, and waits for that.
func (p *process) term() {
	p.t.Helper()
	p.cmd.Process.Signal(syscall.SIGTERM)
	p.ended()
	if p.err != nil {
		p.t.Errorf("%s ended with %v", p.name, p.err)
	}
	if p.count("some calls were ended before they were answered") > 0 {
		p.t.Errorf("%s didn't end in order", p.name)
	}
}

func (p *process) ended() {
	p.t.Helper()
	select {
	case <-p.done:
	case <-time.After(limit):
		p.t.Fatalf("%s didn't end within %v", p.name, limit)
	}
}

// children are the processes that it started and that live.
func (p *process) children() []int {
	var found []int
	tasks, _ := filepath.Glob(fmt.Sprintf("/proc/%d/task/*/children", p.cmd.Process.Pid))
	for _, task := range tasks {
		bytes, _ := os.ReadFile(task)
		for _, word := range strings.Fields(string(bytes)) {
			if pid, err := strconv.Atoi(word); err == nil {
				found = append(found, pid)
			}
		}
	}
	return found
}

// watch opens a handle on each child, by which its end can be waited for.
func (p *process) watch() (handles []int) {
	for _, pid := range p.children() {
		if fd, err := unix.PidfdOpen(pid, 0); err == nil {
			handles = append(handles, fd)
		}
	}
	return handles
}

// gone waits for the end of each.
func gone(t *testing.T, handles []int) {
	t.Helper()
	for _, fd := range handles {
		for {
			n, err := unix.Poll([]unix.PollFd{{Fd: int32(fd), Events: unix.POLLIN}}, int(limit/time.Millisecond))
			if err == unix.EINTR {
				continue
			}
			if n == 0 || err != nil {
				t.Errorf("a child is left (%v)", err)
			}
			break
		}
		unix.Close(fd)
	}
}

// peak is the most memory that the process and each of its children had, in bytes, as far as they still live.
func (p *process) peak() int64 {
	sum := int64(0)
	for _, pid := range append(p.children(), p.cmd.Process.Pid) {
		bytes, _ := os.ReadFile(fmt.Sprintf("/proc/%d/status", pid))
		for _, line := range strings.Split(string(bytes), "\n") {
			if part := strings.Fields(line); len(part) == 3 && part[0] == "VmHWM:" {
				kib, _ := strconv.ParseInt(part[1], 10, 64)
				sum += kib << 10
			}
		}
	}
	return sum
}

// within fails where the process and its children had more memory than the window allows.
func (p *process) within(windowBytes int64) {
	p.t.Helper()
	most := 64<<20 + 6*windowBytes
	peak := p.peak()
	p.t.Logf("%s and its children had at most %d MiB, of %d", p.name, peak>>20, most>>20)
	if peak > most {
		p.t.Errorf("%s and its children had %d MiB, above %d", p.name, peak>>20, most>>20)
	}
}
