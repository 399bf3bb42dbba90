// Package metrics counts, and writes the counts in Prometheus' text form (version 0.0.4).
package metrics

import (
	"fmt"
	"io"
	"net/http"
	"sort"
	"strings"
	"sync"
)

// A Kind is counter or gauge.
type Kind string

// Counters only grow; gauges are what they are.
const (
	Counter Kind = "counter"
	Gauge   Kind = "gauge"
)

// A Metric is known by its name, and has the labels that it is declared with, in their order: two at most.
type Metric struct {
	Name   string
	Kind   Kind
	Help   string
	Labels []string
}

// labels are the values of a metric's labels.
type labels [2]string

// A Registry has metrics and their values; its methods may be called by several goroutines.
type Registry struct {
	metrics []Metric

	mu     sync.Mutex
	values map[string]map[labels]float64
	read   map[string]func() float64
}

// New makes a registry of the metrics of a table.
func New(metrics []Metric) *Registry {
	r := &Registry{metrics: metrics, values: map[string]map[labels]float64{}, read: map[string]func() float64{}}
	for _, m := range metrics {
		r.values[m.Name] = map[labels]float64{}
	}
	return r
}

// Add adds to a metric, with the values of its labels in their order. It is called several times a message, so labels are
// printed only where they are asked for.
func (r *Registry) Add(name string, amount float64, values ...string) {
	var l labels
	copy(l[:], values)
	r.mu.Lock()
	if of := r.values[name]; of != nil {
		of[l] += amount
	}
	r.mu.Unlock()
}

// Read has the value of a metric without labels read whenever it is asked for.
func (r *Registry) Read(name string, read func() float64) {
	r.mu.Lock()
	defer r.mu.Unlock()
	r.read[name] = read
}

// WriteTo writes all metrics, each with its values in the order of their labels.
func (r *Registry) WriteTo(out io.Writer) (int64, error) {
	var b strings.Builder
	r.mu.Lock()
	for _, m := range r.metrics {
		fmt.Fprintf(&b, "# HELP %s %s\n# TYPE %s %s\n", m.Name, m.Help, m.Name, m.Kind)
		if read := r.read[m.Name]; read != nil {
			fmt.Fprintf(&b, "%s %v\n", m.Name, read())
			continue
		}
		lines := make([]string, 0, len(r.values[m.Name]))
		for l, value := range r.values[m.Name] {
			lines = append(lines, fmt.Sprintf("%s%s %v\n", m.Name, printed(m.Labels, l), value))
		}
		sort.Strings(lines)
		for _, line := range lines {
			b.WriteString(line)
		}
	}
	r.mu.Unlock()
	n, err := io.WriteString(out, b.String())
	return int64(n), err
}

// ServeHTTP answers /metrics.
func (r *Registry) ServeHTTP(w http.ResponseWriter, request *http.Request) {
	if request.URL.Path != "/metrics" {
		http.NotFound(w, request)
		return
	}
	w.Header().Set("Content-Type", "text/plain; version=0.0.4; charset=utf-8")
	r.WriteTo(w)
}

var escapes = strings.NewReplacer(`\`, `\\`, "\n", `\n`, `"`, `\"`)

func printed(names []string, values labels) string {
	if len(names) == 0 {
		return ""
	}
	pairs := make([]string, len(names))
	for i, name := range names {
		pairs[i] = name + `="` + escapes.Replace(values[i]) + `"`
	}
	return "{" + strings.Join(pairs, ",") + "}"
}
