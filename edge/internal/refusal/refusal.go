// Package refusal reads the lines that the proved program says on standard error (docs/PROFILE.md, Printed text). It trusts
// that they come from the program: any other line is none.
package refusal

import (
	"regexp"
	"strconv"
	"strings"
)

// Requests is the stage of a refused request: these have none of the stages of batches.
const Requests = -1

// A Refusal is what the program says of one frame.
type Refusal struct {
	Frame   int    // its number, from 0 over the whole capture
	Stage   int    // of the check that refused a batch; Requests where a request was refused
	Batch   string // the batch id, or "-" where the message can't be read; empty for a request
	Cause   string // as Ipc.Schema.Unsupported
	Payload string // the payload type that it concerns, or "-"; empty for a request
}

// IsRequest says whether what was refused is a request.
func (r Refusal) IsRequest() bool { return r.Stage == Requests }

// Kind is the first word of the cause: Ipc of Ipc.Cut.
func (r Refusal) Kind() string { return strings.SplitN(r.Cause, ".", 2)[0] }

var (
	batch   = regexp.MustCompile(`^frame (\d+): batch (-?\d+|-) refused: stage (\d+) ([A-Za-z0-9.]+) payload (\d+|-)$`)
	request = regexp.MustCompile(`^frame (\d+): request refused: ([A-Za-z0-9.]+)$`)
	damage  = regexp.MustCompile(`^damage at (\d+): ([A-Za-z]+)$`)
)

// Parse reads a line without its end.
func Parse(line string) (Refusal, bool) {
	if !strings.HasPrefix(line, "frame ") {
		return Refusal{}, false
	}
	if it := request.FindStringSubmatch(line); it != nil {
		frame, err := strconv.Atoi(it[1])
		return Refusal{Frame: frame, Stage: Requests, Cause: it[2]}, err == nil
	}
	if it := batch.FindStringSubmatch(line); it != nil {
		frame, err := strconv.Atoi(it[1])
		stage, wrong := strconv.Atoi(it[3])
		return Refusal{Frame: frame, Stage: stage, Batch: it[2], Cause: it[4], Payload: it[5]}, err == nil && wrong == nil
	}
	return Refusal{}, false
}

// ParseDamage reads the line that says where a capture is damaged, and why.
func ParseDamage(line string) (offset int64, reason string, ok bool) {
	it := damage.FindStringSubmatch(line)
	if it == nil {
		return 0, "", false
	}
	offset, err := strconv.ParseInt(it[1], 10, 64)
	return offset, it[2], err == nil
}
