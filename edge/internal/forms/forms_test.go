package forms

import (
	"bytes"
	"context"
	"errors"
	"io"
	"os"
	"path/filepath"
	"strings"
	"testing"

	"github.com/klauspost/compress/gzip"
	"github.com/klauspost/compress/zstd"

	"finavoluth/edge/internal/signal"
	"finavoluth/edge/internal/source"
)

// A log record with the body "hi", in protobuf and in JSON, written by hand after OTLP's .proto files.
var (
	record     = []byte{0x0a, 0x0a, 0x12, 0x08, 0x12, 0x06, 0x2a, 0x04, 0x0a, 0x02, 'h', 'i'}
	recordJSON = `{"resourceLogs":[{"scopeLogs":[{"logRecords":[{"body":{"stringValue":"hi"}}]}]}]}`
)

func framed(requests ...[]byte) []byte {
	var data []byte
	for _, r := range requests {
		data = append(append(data, 0, 0, 0, 0, byte(len(r))), r...)
	}
	return data
}

func sized(requests ...[]byte) []byte {
	var data []byte
	for _, r := range requests {
		data = append(append(data, 0, 0, byte(len(r)>>8), byte(len(r))), r...)
	}
	return data
}

func large(n int) []byte { return append([]byte{0x0a}, bytes.Repeat([]byte{1}, n-1)...) }

func TestDetect(t *testing.T) {
	lines := []byte(recordJSON + "\n" + recordJSON + "\n")
	for _, it := range []struct {
		name string
		data []byte
		form Form
		err  string
	}{
		{"nothing", nil, Capture, ""},
		{"a capture", framed(record, nil, record), Capture, ""},
		{"a capture that begins with a reset", append([]byte{2, 0, 0, 0, 0}, framed(record)...), Capture, ""},
		{"a capture with a compressed frame", append([]byte{1, 0, 0, 0, 1, 7}, framed(record)...), Capture, ""},
		{"protobuf", sized(record, record), Proto, ""},
		{"one request in protobuf", sized(record), Proto, ""},
		{"an empty request in protobuf and another", sized(nil, record), Proto, ""},
		{"protobuf that still grows", append(sized(record), sized(record)[:9]...), Proto, ""},
		{"protobuf that grows, in the length", append(sized(record), 0, 0), Proto, ""},
		{"JSON", lines, JSON, ""},
		{"JSON over several lines", []byte(strings.ReplaceAll(recordJSON, ",", ",\n  ") + "\n\n" + recordJSON), JSON, ""},
		{"JSON that still grows", lines[:len(lines)-9], JSON, ""},
		{"JSON after blanks", append([]byte(" \n"), lines...), JSON, ""},
		{"two framings", make([]byte, 20), Unknown,
			"x can be read as a capture (--from capture) and as requests in protobuf, each after its length (--from proto); say which"},
		{"a text", []byte("hello\n"), Unknown,
			"x is neither a capture (--from capture: BadFrame at byte 0) nor requests in protobuf, each after its length " +
				"(--from proto: a length of 1751477356 at byte 0) nor requests in JSON (--from json: no JSON at byte 0)"},
		{"a list in JSON", []byte("[1]\n"), Unknown,
			"x is neither a capture (--from capture: Truncated at byte 0) nor requests in protobuf, each after its length " +
				"(--from proto: a length of 1529961738 at byte 0) nor requests in JSON (--from json: no object at byte 0)"},
		{"a capture that is cut", framed(record, record)[:20], Unknown,
			"x is neither a capture (--from capture: Truncated at byte 17) nor requests in protobuf, each after its length " +
				"(--from proto: a request that doesn't begin with its field 1 at byte 4) nor requests in JSON (--from json: no JSON at byte 0)"},
	} {
		look, err := Detect("x", it.data, true, -1)
		if err == nil && it.err != "" || err != nil && err.Error() != it.err || err == nil && look.Form != it.form {
			t.Errorf("%s: %v, %v", it.name, look.Form, err)
		}
	}
}

// Of an input that goes on, only a front is looked at.
func TestDetectOfAFront(t *testing.T) {
	for _, it := range []struct {
		name string
		data []byte
		left int64
		form Form
	}{
		{"protobuf", sized(record, large(1000))[:500], -1, Proto},
		{"protobuf whose size is known", sized(record, large(1000))[:500], 520, Proto},
		{"a capture", append(framed(record), 0, 0, 0, 9, 9, 1, 2), -1, Capture},
		{"JSON", []byte(recordJSON + "\n" + recordJSON[:20]), -1, JSON},
	} {
		look, err := Detect("x", it.data, false, it.left)
		if err != nil || look.Form != it.form {
			t.Errorf("%s: %v, %v", it.name, look.Form, err)
		}
	}
}

func write(t *testing.T, data []byte) string {
	t.Helper()
	name := filepath.Join(t.TempDir(), "file")
	if err := os.WriteFile(name, data, 0o600); err != nil {
		t.Fatal(err)
	}
	return name
}

func gzipped(data []byte) []byte {
	var packed bytes.Buffer
	w := gzip.NewWriter(&packed)
	w.Write(data)
	w.Close()
	return packed.Bytes()
}

func zstded(data []byte) []byte {
	w, _ := zstd.NewWriter(nil)
	return w.EncodeAll(data, nil)
}

// read takes all requests of a file.
func read(t *testing.T, name string, from Form) (requests [][]byte, input *Input, end error) {
	t.Helper()
	input, err := Inspect(context.Background(), name, Options{From: from})
	if err != nil {
		t.Fatal(err)
	}
	opened, err := input.Open(context.Background())
	if err != nil {
		t.Fatal(err)
	}
	defer opened.Close()
	messages := input.Messages(signal.Logs, opened, UnknownKeys{})
	for {
		frame, err := messages.Next()
		if err != nil {
			return requests, input, err
		}
		requests = append(requests, append([]byte(nil), frame.Payload...))
	}
}

func TestAllFormsGiveTheSameRequests(t *testing.T) {
	lines := []byte(recordJSON + "\n" + recordJSON + "\n")
	for _, it := range []struct {
		name string
		data []byte
		says string
	}{
		{"capture", framed(record, record), " is read as a capture (--from capture)"},
		{"proto", sized(record, record), " is read as requests in protobuf, each after its length (--from proto)"},
		{"json", lines, " is read as requests in JSON (--from json)"},
		{"capture in gzip", gzipped(framed(record, record)), " is read as a capture in gzip (--from capture)"},
		{"proto in zstd", zstded(sized(record, record)), " is read as requests in protobuf, each after its length in zstd (--from proto)"},
		{"json in gzip, in two members", append(gzipped(lines[:len(lines)/2]), gzipped(lines[len(lines)/2:])...),
			" is read as requests in JSON in gzip (--from json)"},
		{"each request in zstd", sized(zstded(record), zstded(record)), " is read as requests in protobuf, each after its length (--from proto)"},
		{"each request in gzip", sized(gzipped(record), gzipped(record)), " is read as requests in protobuf, each after its length (--from proto)"},
		{"each request as JSON in zstd", sized(zstded([]byte(recordJSON)), zstded([]byte(recordJSON))),
			" is read as requests in protobuf, each after its length (--from proto)"},
	} {
		name := write(t, it.data)
		requests, input, err := read(t, name, Unknown)
		if err != io.EOF || len(requests) != 2 || !bytes.Equal(requests[0], record) || !bytes.Equal(requests[1], record) {
			t.Errorf("%s: % x, %v", it.name, requests, err)
		}
		if says := input.Describe(); says != name+it.says {
			t.Errorf("%s: %s", it.name, says)
		}
	}
}

func TestWhatIsntWhole(t *testing.T) {
	lines := []byte(recordJSON + "\n" + recordJSON + "\n")
	for _, it := range []struct {
		name string
		data []byte
		from Form
		want int
		err  string
	}{
		{"half a request", sized(record, record)[:20], Unknown, 1, "ends in a request that isn't whole (4 bytes): it is left out"},
		{"half a length", append(sized(record), 0, 0, 0), Unknown, 1, "ends in a request that isn't whole (3 bytes): it is left out"},
		{"half a value", lines[:len(recordJSON)+11], Unknown, 1, "ends in a request that isn't whole (11 bytes): it is left out"},
		{"a request too long", append(sized(record), 0x20, 0, 0, 1, 0x0a), Proto, 1, ", request at byte 16: a request of 536870913 bytes: above 536870912"},
		{"broken JSON", append(lines, '}'), JSON, 2, ", request 2: invalid character '}' looking for beginning of value"},
		{"another signal", []byte(`{"resourceSpans":[]}`), JSON, 0, `, request 0: the key "resourceSpans" is that of traces, not of logs`},
		{"a cut capture", framed(record, record)[:20], Capture, 1, "damage at 17: Truncated"},
	} {
		name := write(t, it.data)
		requests, _, err := read(t, name, it.from)
		if err == nil || len(requests) != it.want || !strings.HasSuffix(err.Error(), it.err) {
			t.Errorf("%s: %d requests, then %v", it.name, len(requests), err)
		}
	}
}

func TestBatchesAreACapture(t *testing.T) {
	for _, it := range []struct {
		name string
		data []byte
		err  string
	}{
		{"a capture", framed(record), ""},
		{"nothing", nil, ""},
		{"JSON", []byte(recordJSON), "is no capture, as batches are, but looks like requests in JSON: `otap encode` makes batches of these"},
		{"a text", []byte("hello"), "is no capture, as batches are (BadFrame at byte 0); `--from capture` has it read all the same"},
		{"a cut capture", framed(record, record)[:20],
			"is a capture that is damaged at byte 17 (Truncated); `--from capture` has it read up to there"},
	} {
		_, err := Inspect(context.Background(), write(t, it.data), Options{Captures: true})
		if err == nil != (it.err == "") || err != nil && !strings.HasSuffix(err.Error(), it.err) {
			t.Errorf("%s: %v", it.name, err)
		}
	}
}

// A writer that is slow isn't waited for once the form is known.
func TestAPipeIsntReadToItsEnd(t *testing.T) {
	for form, data := range map[Form][]byte{Capture: framed(record), Proto: sized(record), JSON: []byte(recordJSON + "\n")} {
		out, in, err := os.Pipe()
		if err != nil {
			t.Fatal(err)
		}
		if _, err := in.Write(data); err != nil {
			t.Fatal(err)
		}
		input, err := Inspect(context.Background(), source.Stdin, Options{Options: source.Options{Stdin: out}})
		if err != nil || input.Form != form || input.Name != "standard input" {
			t.Errorf("%v: %+v, %v", form, input, err)
		}
		in.Close()
		out.Close()
	}
}

func TestFailedReads(t *testing.T) {
	folder := t.TempDir()
	for name, want := range map[string]string{
		folder:                        "reading " + folder + ": is a directory",
		filepath.Join(folder, "none"): "reading " + filepath.Join(folder, "none") + ": no such file or directory",
	} {
		if _, err := Inspect(context.Background(), name, Options{}); err == nil || err.Error() != want {
			t.Errorf("%v, not %s", err, want)
		}
	}
	name := write(t, gzipped(bytes.Repeat(sized(record), 100))[:40])
	_, err := Inspect(context.Background(), name, Options{})
	if want := "reading " + name + ": gzip: unexpected EOF"; err == nil || err.Error() != want {
		t.Errorf("%v, not %s", err, want)
	}
	var failure *source.Failure
	if !errors.As(err, &failure) {
		t.Errorf("%T", err)
	}
}

func TestWords(t *testing.T) {
	for _, form := range All() {
		if back, err := Parse(form.String()); err != nil || back != form {
			t.Errorf("%v: %v, %v", form, back, err)
		}
	}
	for _, word := range []string{"", "unknown", "JSON"} {
		if form, err := Parse(word); err == nil {
			t.Errorf("%q: %v", word, form)
		}
	}
}
