package text

import (
	"bytes"
	"errors"
	"io"
	"os"
	"path/filepath"
	"strings"
	"testing"

	"finavoluth/edge/internal/capture"
	"finavoluth/edge/internal/otlp"
	"finavoluth/edge/internal/signal"
)

// requests are those of a capture under examples/.
func requests(t testing.TB, path string) [][]byte {
	t.Helper()
	file, err := os.Open(path)
	if err != nil {
		t.Fatal(err)
	}
	defer file.Close()
	var all [][]byte
	for frames := capture.NewReader(file); ; {
		frame, err := frames.Next()
		if errors.Is(err, io.EOF) {
			return all
		}
		if err != nil {
			t.Fatalf("%s: %v", path, err)
		}
		if frame.Flag == 0 {
			all = append(all, append([]byte(nil), frame.Payload...))
		}
	}
}

// Requests that Google's library wrote, and those of many small cases, come back as they are from JSON, on a line or
// indented.
func TestExamplesComeBack(t *testing.T) {
	for _, s := range signal.All() {
		paths, err := filepath.Glob("../../../examples/cases/tidy-" + s.String() + "/*.capture")
		if err != nil || len(paths) == 0 {
			t.Fatalf("no examples of %v: %v", s, err)
		}
		read := 0
		for _, path := range paths {
			for i, request := range requests(t, path) {
				message, err := otlp.Read(s, request)
				if err != nil || strings.Contains(path, "refuses") {
					continue
				}
				want := otlp.Write(message)
				if strings.Contains(path, "realistic") && !bytes.Equal(want, request) {
					t.Errorf("%s, frame %d: written otherwise than by Google's library", path, i)
				}
				read++
				for _, indent := range []bool{false, true} {
					comesBack(t, s, path, request, indent)
				}
			}
		}
		if read < 50 {
			t.Errorf("%v: only %d requests could be read", s, read)
		}
	}
}

// comesBack writes and reads the request; unknown fields and fractions of NaN have no form in JSON.
func comesBack(t *testing.T, s signal.Signal, path string, request []byte, indent bool) {
	json, err := Write(s, request, indent)
	if err != nil {
		t.Errorf("%s: %v", path, err)
		return
	}
	if !indent && bytes.ContainsRune(json, '\n') {
		t.Errorf("%s: more than a line", path)
	}
	back, unknown, err := Read(s, json)
	if err != nil || len(unknown) > 0 {
		t.Errorf("%s: read back: %v, unknown %v, of %s", path, err, unknown, json)
		return
	}
	if want := inJSON(t, s, request); !bytes.Equal(back, want) {
		t.Errorf("%s: %x comes back as %x through %s", path, want, back, json)
	}
}

// inJSON is what of the request has a form in JSON.
func inJSON(t *testing.T, s signal.Signal, request []byte) []byte {
	message, err := otlp.Read(s, request)
	if err != nil {
		t.Fatal(err)
	}
	keepForJSON(message)
	return otlp.Write(message)
}
