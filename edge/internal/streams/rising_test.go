package streams

import "testing"

func TestNext(t *testing.T) {
	var ids Rising
	for i, step := range []struct {
		line string
		anew bool
	}{
		{"frame 0: batch 5 30:10", false},
		{"frame 1: batch 6", false},
		{"", false},
		{"frame 3: batch 6 30:0", true},
		{"frame 4: batch 7", false},
		{"frame 5: batch 0", true},
		{"frame 6: reset", false},
		{"frame 7: batch 0", false},
		{"frame 8: batch -1", true},
	} {
		before := ids.last
		anew, last, _ := ids.Next(step.line)
		if anew != step.anew || anew && last != before {
			t.Errorf("line %d, %q: %v after %d", i, step.line, anew, last)
		}
	}
}
