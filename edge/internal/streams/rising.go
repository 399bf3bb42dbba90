// Package streams sees where a stream of batches begins anew without a reset: by the batch ids that the program's `list`
// prints. It trusts these lines.
package streams

import (
	"strconv"
	"strings"
)

// Rising watches the ids of the batches of a capture. The zero value stands before the first frame.
type Rising struct {
	last int64
	has  bool
}

// Next takes what list prints for the next frame, or nothing where it refuses it. It says whether the frame is a batch whose
// id doesn't rise above that of the batch before it since a reset, and both ids.
func (r *Rising) Next(line string) (anew bool, before, id int64) {
	words := strings.Fields(line)
	if len(words) == 3 && words[2] == "reset" {
		r.has = false
	}
	if len(words) < 4 || words[2] != "batch" {
		return false, 0, 0
	}
	id, err := strconv.ParseInt(words[3], 10, 64)
	if err != nil {
		return false, 0, 0
	}
	before, anew = r.last, r.has && id <= r.last
	r.last, r.has = id, true
	return anew, before, id
}
