package text

import (
	"bytes"
	"encoding/hex"
	"encoding/json"
	"os"
	"os/exec"
	"path/filepath"
	"reflect"
	"strings"
	"testing"

	"google.golang.org/protobuf/reflect/protoreflect"

	"finavoluth/edge/internal/otlp"
	"finavoluth/edge/internal/samples"
	"finavoluth/edge/internal/signal"
)

const protos = "../../proto"

// pythonCode compiles the .proto files for Python, and is the folder of what protoc made.
func pythonCode(t *testing.T) string {
	t.Helper()
	room := t.TempDir()
	words := []string{"-I", protos, "--python_out", room}
	err := filepath.Walk(protos, func(path string, info os.FileInfo, err error) error {
		if strings.HasSuffix(path, ".proto") {
			words = append(words, path)
		}
		return err
	})
	if err != nil {
		t.Fatal(err)
	}
	if out, err := exec.Command("protoc", words...).CombinedOutput(); err != nil {
		t.Fatalf("protoc: %v: %s", err, out)
	}
	return room
}

// python is one that has Google's protobuf. Where there is none, the test is left out, and says so.
func python(t *testing.T) string {
	t.Helper()
	for _, name := range []string{"python3", "/usr/bin/python3"} {
		if exec.Command(name, "-c", "import google.protobuf").Run() == nil {
			return name
		}
	}
	t.Skip("no python3 has google.protobuf (Debian's python3-protobuf)")
	return ""
}

func run(t *testing.T, input []byte, words ...string) []string {
	t.Helper()
	cmd := exec.Command(python(t), append([]string{"-B", "testdata/requests.py"}, words...)...)
	cmd.Stdin = bytes.NewReader(input)
	var said bytes.Buffer
	cmd.Stderr = &said
	out, err := cmd.Output()
	if err != nil {
		t.Fatalf("requests.py: %v: %s", err, said.Bytes())
	}
	return strings.Split(strings.TrimSuffix(string(out), "\n"), "\n")
}

// eachSignal runs a test for each signal, side by side.
func eachSignal(t *testing.T, code string, test func(t *testing.T, code string, s signal.Signal)) {
	for _, s := range signal.All() {
		s := s
		t.Run(s.String(), func(t *testing.T) {
			t.Parallel()
			test(t, code, s)
		})
	}
}

// What Google's library writes is read as it means, as protobuf and as JSON, and what is written of it is the same JSON.
func TestGooglesRequests(t *testing.T) {
	eachSignal(t, pythonCode(t), func(t *testing.T, code string, s signal.Signal) {
		set := map[protoreflect.FullName]bool{}
		for i, line := range run(t, nil, "make", code, "17", "80", s.String()) {
			hexed, text, _ := strings.Cut(line, " ")
			request, err := hex.DecodeString(hexed)
			if err != nil {
				t.Fatal(err)
			}
			message, err := otlp.Read(s, request)
			if err != nil {
				t.Fatalf("%v %d: %v", s, i, err)
			}
			noteFields(message, set)
			if written := otlp.Write(message); !bytes.Equal(written, request) {
				t.Errorf("%v %d: protobuf %x is written as %x", s, i, request, written)
			}
			back, unknown, err := Read(s, []byte(text))
			if err != nil || len(unknown) > 0 || !bytes.Equal(back, request) {
				t.Errorf("%v %d: JSON %s is read as %x, not %x; unknown %v, %v", s, i, text, back, request, unknown, err)
			}
			line, err := Write(s, request, false)
			if err != nil || !reflect.DeepEqual(parsed(t, line), parsed(t, []byte(text))) {
				t.Errorf("%v %d: JSON is written as %s, not %s; %v", s, i, line, text, err)
			}
		}
		everyField(t, otlp.Request(s), set)
	})
}

// What is written as JSON is read by Google's library as the same request.
func TestGoogleReads(t *testing.T) {
	eachSignal(t, pythonCode(t), func(t *testing.T, code string, s signal.Signal) {
		var lines bytes.Buffer
		var want []string
		for seed := int64(0); seed < 60; seed++ {
			request := otlp.Write(samples.Request(s, seed))
			line, err := Write(s, request, false)
			if err != nil {
				t.Fatal(err)
			}
			lines.Write(append(line, '\n'))
			want = append(want, hex.EncodeToString(request))
		}
		for i, got := range run(t, lines.Bytes(), "read", code, s.String()) {
			if got != want[i] {
				t.Errorf("%v %d: Google's library reads %s, not %s", s, i, got, want[i])
			}
		}
	})
}

// parsed is JSON as values that can be compared: numbers by the double that they are.
func parsed(t *testing.T, text []byte) interface{} {
	t.Helper()
	var value interface{}
	if err := json.Unmarshal(text, &value); err != nil {
		t.Fatalf("%v: %s", err, text)
	}
	return value
}

// noteFields notes the fields that are set in the message and in those inside it.
func noteFields(message protoreflect.Message, set map[protoreflect.FullName]bool) {
	message.Range(func(field protoreflect.FieldDescriptor, value protoreflect.Value) bool {
		set[field.FullName()] = true
		switch {
		case field.Message() == nil:
		case field.IsList():
			for i := 0; i < value.List().Len(); i++ {
				noteFields(value.List().Get(i).Message(), set)
			}
		default:
			noteFields(value.Message(), set)
		}
		return true
	})
}

// everyField is that each field of each message of a request was set.
func everyField(t *testing.T, message protoreflect.MessageDescriptor, set map[protoreflect.FullName]bool) {
	seen := map[protoreflect.FullName]bool{}
	var walk func(message protoreflect.MessageDescriptor)
	walk = func(message protoreflect.MessageDescriptor) {
		if seen[message.FullName()] {
			return
		}
		seen[message.FullName()] = true
		for i := 0; i < message.Fields().Len(); i++ {
			field := message.Fields().Get(i)
			if !set[field.FullName()] {
				t.Errorf("no request has %s", field.FullName())
			}
			if field.Message() != nil {
				walk(field.Message())
			}
		}
	}
	walk(message)
}
