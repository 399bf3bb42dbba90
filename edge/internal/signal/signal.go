// Package signal names the three signals of OpenTelemetry that the gateway carries. It trusts nothing and holds no state.
package signal

import "fmt"

// A Signal is one of the kinds of telemetry. The zero value is Traces.
type Signal int

// The signals.
const (
	Traces Signal = iota
	Logs
	Metrics
)

var names = [...]string{Traces: "traces", Logs: "logs", Metrics: "metrics"}

// All lists the signals in the order in which they are named to a user.
func All() []Signal { return []Signal{Traces, Logs, Metrics} }

// Names lists the words for the signals.
func Names() []string { return append([]string(nil), names[:]...) }

// Others lists the signals but one.
func (s Signal) Others() []Signal {
	var others []Signal
	for _, other := range All() {
		if other != s {
			others = append(others, other)
		}
	}
	return others
}

// String is the word for the signal on a command line.
func (s Signal) String() string {
	if s < 0 || int(s) >= len(names) {
		return fmt.Sprintf("signal %d", int(s))
	}
	return names[s]
}

// Parse reads the word for a signal.
func Parse(word string) (Signal, error) {
	for s, name := range names {
		if word == name {
			return Signal(s), nil
		}
	}
	return 0, fmt.Errorf("no signal is called %q: it is traces, logs or metrics", word)
}
