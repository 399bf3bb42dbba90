package run

import (
	"sync"

	"finavoluth/edge/internal/capture"
	"finavoluth/edge/internal/fields"
	"finavoluth/edge/internal/forms"
	"finavoluth/edge/internal/jobs"
	"finavoluth/edge/internal/refusal"
	"finavoluth/edge/internal/signal"
)

// What is kept of the first messages, to try other signals on them.
const (
	keptMessages = 16
	keptBytes    = 1 << 26
)

// notes are what was seen in a run. All goroutines of a run write to them.
type notes struct {
	mu       sync.Mutex
	frames   int // that were handed to the program, resets among them
	messages int
	files    []fileStart
	opened   *forms.Opened
	done     int64 // bytes of the inputs before the one that is open

	kept      []capture.Frame
	keptBytes int

	refused  int
	causes   map[string]int // by stage and cause
	refusals []int          // the frames that were refused, of several files

	carried fields.Count
	broken  bool // whether a request couldn't be looked at to its end
	keys    forms.UnknownKeys

	anew   []anew
	damage *damagedInput
}

// A fileStart says which frame is the first of a file.
type fileStart struct {
	name  string
	frame int
}

// anew is a batch that begins a stream without a reset.
type anew struct {
	frame      int // of the batch, or of the reset that was put in
	before, id int64
}

type damagedInput struct {
	name    string
	damage  *capture.Damage
	leftOut []string
}

// opens says which input is being read.
func (n *notes) opens(opened *forms.Opened) {
	n.mu.Lock()
	defer n.mu.Unlock()
	if n.opened != nil {
		n.done += n.opened.Taken()
	}
	n.opened = opened
}

// taken is how many bytes of all inputs were read.
func (n *notes) taken() int64 {
	n.mu.Lock()
	defer n.mu.Unlock()
	if n.opened == nil {
		return 0
	}
	return n.done + n.opened.Taken()
}

func (n *notes) begins(name string) {
	n.mu.Lock()
	defer n.mu.Unlock()
	n.files = append(n.files, fileStart{name: name, frame: n.frames})
}

// unknown is where readers count the keys of JSON that OTLP doesn't have. Only the feeder writes there.
func (n *notes) unknown() forms.UnknownKeys {
	n.mu.Lock()
	defer n.mu.Unlock()
	if n.keys == nil {
		n.keys = forms.UnknownKeys{}
	}
	return n.keys
}

// sent counts a frame that the program gets.
func (n *notes) sent(frame capture.Frame) {
	n.mu.Lock()
	defer n.mu.Unlock()
	n.frames++
	if !frame.IsReset() {
		n.messages++
	}
}

func (n *notes) count() int {
	n.mu.Lock()
	defer n.mu.Unlock()
	return n.frames
}

// look looks at a message: what of a request isn't carried; and keeps the first ones.
func (n *notes) look(takes jobs.Kind, s signal.Signal, frame capture.Frame) {
	if frame.Flag != capture.FlagMessage {
		return
	}
	n.mu.Lock()
	defer n.mu.Unlock()
	if len(n.kept) < keptMessages && n.keptBytes+len(frame.Payload) <= keptBytes {
		n.kept = append(n.kept, capture.Message(append([]byte(nil), frame.Payload...)))
		n.keptBytes += len(frame.Payload)
	}
	if takes == jobs.Requests && fields.Uncarried(s, frame.Payload, &n.carried) != nil {
		n.broken = true
	}
}

// said takes in what the program says.
func (n *notes) said(line string) {
	it, ok := refusal.Parse(line)
	if !ok {
		return
	}
	n.mu.Lock()
	defer n.mu.Unlock()
	if n.causes == nil {
		n.causes = map[string]int{}
	}
	n.refused++
	n.causes[it.Cause]++
	if len(n.refusals) < 1000 {
		n.refusals = append(n.refusals, it.Frame)
	}
}

func (n *notes) begun(frame int, before, id int64) {
	n.mu.Lock()
	defer n.mu.Unlock()
	n.anew = append(n.anew, anew{frame: frame, before: before, id: id})
}

func (n *notes) damaged(name string, damage *capture.Damage, after []*forms.Input) {
	n.mu.Lock()
	defer n.mu.Unlock()
	n.damage = &damagedInput{name: name, damage: damage}
	for _, input := range after {
		n.damage.leftOut = append(n.damage.leftOut, input.Name)
	}
}
