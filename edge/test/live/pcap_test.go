package live_test

import (
	"os"
	"os/exec"
	"path/filepath"
	"strings"
	"testing"
)

// TestPcap reads trace.pcap, which trace.sh made, and compares what comes out with what was sent.
func TestPcap(t *testing.T) {
	t.Parallel()
	if _, err := exec.LookPath("tshark"); err != nil {
		t.Skip("left out, as there is no tshark")
	}
	port, err := os.ReadFile("trace.port")
	if err != nil {
		t.Fatal(err)
	}
	dir := filepath.Join(t.TempDir(), "captures")
	run := func(dir string, trace []byte) (string, error) {
		cmd := exec.Command(built(t), "pcap", "--port", strings.TrimSpace(string(port)), "--dir", dir, "-")
		cmd.Stdin = strings.NewReader(string(trace))
		out, err := cmd.CombinedOutput()
		return string(out), err
	}
	trace, err := os.ReadFile("trace.pcap")
	if err != nil {
		t.Fatal(err)
	}
	if out, err := run(dir, trace); err != nil {
		t.Fatalf("pcap: %v, %s", err, out)
	}
	for front, file := range map[string]string{"traces-otlp": "transits/traces/row_each_table.capture",
		"logs-otlp": "transits/logs/realistic.capture", "metrics-otlp": "transits/metrics/row_each_table.capture", "logs-otap": "logs.capture"} {
		data, err := os.ReadFile("../../../examples/" + file)
		if err != nil {
			t.Fatal(err)
		}
		sent := frames(t, data)
		if front == "logs-otap" {
			sent = sent[:2] // one segment
		}
		got, files := kept(t, dir, front)
		same(t, front, got, sent)
		if files != 1 {
			t.Errorf("%s: %d captures", front, files)
		}
	}
	// A trace that was cut, and one with nothing in it.
	if out, err := run(t.TempDir(), trace[:len(trace)*3/4]); err == nil {
		t.Errorf("a trace that was cut: %s", out)
	}
	if out, err := run(t.TempDir(), trace[:24]); err == nil || !strings.Contains(out, "no plain HTTP/2") {
		t.Errorf("a trace of nothing: %v, %s", err, out)
	}
}
