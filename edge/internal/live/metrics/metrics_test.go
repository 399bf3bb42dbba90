package metrics

import (
	"strings"
	"sync"
	"testing"
)

func TestText(t *testing.T) {
	r := New([]Metric{
		{Name: "calls_total", Kind: Counter, Help: "Calls.", Labels: []string{"signal", "code"}},
		{Name: "bytes_total", Kind: Counter, Help: "Bytes.", Labels: []string{"signal"}},
		{Name: "open", Kind: Gauge, Help: "Open ones."},
		{Name: "held", Kind: Gauge, Help: "Held ones."},
	})
	r.Read("held", func() float64 { return 7 })
	var all sync.WaitGroup
	for k := 0; k < 8; k++ {
		all.Add(1)
		go func() {
			defer all.Done()
			r.Add("calls_total", 1, "logs", "OK")
		}()
	}
	all.Wait()
	r.Add("calls_total", 1, "logs", "Canceled")
	r.Add("bytes_total", 2.5, "a \"b\\c\"\n")
	r.Add("open", 2)
	r.Add("open", -1)
	r.Add("unknown", 1)
	const want = `# HELP calls_total Calls.
# TYPE calls_total counter
calls_total{signal="logs",code="Canceled"} 1
calls_total{signal="logs",code="OK"} 8
# HELP bytes_total Bytes.
# TYPE bytes_total counter
bytes_total{signal="a \"b\\c\"\n"} 2.5
# HELP open Open ones.
# TYPE open gauge
open 1
# HELP held Held ones.
# TYPE held gauge
held 7
`
	var text strings.Builder
	if n, err := r.WriteTo(&text); err != nil || text.String() != want || int(n) != len(want) {
		t.Errorf("%v\n%s", err, text.String())
	}
}
