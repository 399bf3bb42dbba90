package diff

import (
	"fmt"
	"strings"

	"finavoluth/edge/internal/signal"
)

// Text is the report in lines: each difference with its paths and values, and at the end what there is; one line where
// both have the same telemetry.
func (r *Report) Text(s signal.Signal) string {
	if r.Same() {
		return fmt.Sprintf("the same telemetry: %s\n", counted(r.ItemsA, nouns[s]))
	}
	var b strings.Builder
	for i, it := range r.Differences {
		if i == 0 || it.Item != r.Differences[i-1].Item {
			fmt.Fprintf(&b, "%s %d\n", nouns[s], it.Item)
		}
		fmt.Fprintf(&b, "  A %v\n  B %v\n", it.A, it.B)
	}
	more := ""
	if n := len(r.Differences); n < r.Found {
		more = fmt.Sprintf(", the first %d printed", n)
	}
	fmt.Fprintf(&b, "%s%s; A has %s, B has %s\n", counted(r.Found, "difference"), more,
		counted(r.ItemsA, nouns[s]), counted(r.ItemsB, nouns[s]))
	return b.String()
}

// String is the path and the value, or none.
func (s Side) String() string {
	if s.Path == "" {
		return s.Text
	}
	return s.Path + " = " + s.Text
}

// nouns say what the items of a signal are.
var nouns = map[signal.Signal]string{signal.Traces: "span", signal.Logs: "log record", signal.Metrics: "metric"}

func counted(n int, noun string) string {
	if n == 1 {
		return "1 " + noun
	}
	return fmt.Sprintf("%d %ss", n, noun)
}
