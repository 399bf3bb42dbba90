package otlp

import (
	"bytes"
	"fmt"
	"math/rand"
	"strings"
	"testing"

	"google.golang.org/protobuf/encoding/protowire"
	"google.golang.org/protobuf/proto"
	"google.golang.org/protobuf/reflect/protoreflect"
	"google.golang.org/protobuf/types/dynamicpb"

	"finavoluth/edge/internal/signal"
)

func TestLevels(t *testing.T) {
	for s, want := range map[signal.Signal]string{
		signal.Traces:  "resourceSpans scopeSpans spans Span",
		signal.Logs:    "resourceLogs scopeLogs logRecords LogRecord",
		signal.Metrics: "resourceMetrics scopeMetrics metrics Metric",
	} {
		levels := LevelsOf(s)
		got := fmt.Sprint(levels.Groups.JSONName(), " ", levels.Scopes.JSONName(), " ", levels.Items.JSONName(), " ", levels.Items.Message().Name())
		if got != want {
			t.Errorf("%v: %s", s, got)
		}
	}
}

func TestMessagesByName(t *testing.T) {
	for _, name := range []string{"", "opentelemetry.proto.trace.v1.Spam", "opentelemetry.proto.trace.v1.Span.SpanKind"} {
		if message := Message(name); message != nil {
			t.Errorf("%q is %v", name, message.FullName())
		}
	}
	if messages := Messages(); len(messages) != len(layouts) || messages[0].FullName() > messages[1].FullName() {
		t.Errorf("%d messages, not %d", len(messages), len(layouts))
	}
}

// A known field with another wire type is refused, in each field of each message of a request.
func TestOtherWireTypes(t *testing.T) {
	for _, s := range signal.All() {
		seen := map[protoreflect.FullName]bool{}
		var try func(message protoreflect.MessageDescriptor, within func([]byte) []byte)
		try = func(message protoreflect.MessageDescriptor, within func([]byte) []byte) {
			if seen[message.FullName()] {
				return
			}
			seen[message.FullName()] = true
			for _, field := range layouts[message.FullName()].ascending {
				field := field
				wrong := protowire.AppendFixed32(protowire.AppendTag(nil, field.Number(), protowire.Fixed32Type), 0)
				if field.Kind() == protoreflect.Fixed32Kind {
					wrong = protowire.AppendVarint(protowire.AppendTag(nil, field.Number(), protowire.VarintType), 0)
				}
				_, wire, _ := protowire.ConsumeTag(wrong)
				want := fmt.Sprintf(": %s of %s has wire type %d", field.Name(), message.Name(), wire)
				if _, err := Read(s, within(wrong)); err == nil || !strings.HasSuffix(err.Error(), want) {
					t.Errorf("%v, not %s", err, want)
				}
				if field.Message() != nil {
					try(field.Message(), func(b []byte) []byte {
						return within(protowire.AppendBytes(protowire.AppendTag(nil, field.Number(), protowire.BytesType), b))
					})
				}
			}
		}
		try(Request(s), func(b []byte) []byte { return b })
		if _, err := Read(s, []byte{0x98, 0x3e, 7}); err != nil {
			t.Errorf("an unknown field: %v", err)
		}
	}
}

// A request of another signal is named where just one other signal reads it.
func TestAnotherSignal(t *testing.T) {
	span := []byte{0x0a, 0x0b, 0x12, 0x09, 0x12, 0x07, 0x2a, 0x01, 'a', 0x7a, 0x02, 0x18, 0x01}
	for _, test := range []struct {
		signal  signal.Signal
		request []byte
		want    string
	}{
		{signal.Metrics, span, "no OTLP request of metrics, but one of traces: cannot parse invalid wire-format data"},
		{signal.Logs, []byte{0x08, 1}, "no OTLP request of logs: resource_logs of ExportLogsServiceRequest has wire type 0"},
		{signal.Traces, []byte{0x0a, 0x06, 0x12, 0x04, 0x12, 0x02, 0x10, 0x09}, "no OTLP request of traces, but one of logs: span_id of Span has wire type 0"},
	} {
		if _, err := Read(test.signal, test.request); err == nil || err.Error() != test.want {
			t.Errorf("%x: %v, not %s", test.request, err, test.want)
		}
	}
}

// What Write writes of random messages of each kind is read by the library as the same, has its fields by ascending
// number, and is as long as what the library writes.
func TestWriteIsRead(t *testing.T) {
	r := rand.New(rand.NewSource(5))
	for _, descriptor := range Messages() {
		for i := 0; i < 20; i++ {
			message := dynamicpb.NewMessage(descriptor)
			fill(r, message, 0)
			written := Write(message)
			back := dynamicpb.NewMessage(descriptor)
			if err := proto.Unmarshal(written, back); err != nil || !proto.Equal(message, back) {
				t.Errorf("%s: %x is read as %v, %v", descriptor.FullName(), written, back, err)
			}
			if library, err := proto.Marshal(message); err != nil || len(library) != len(written) {
				t.Errorf("%s: %d bytes, not %d; %v", descriptor.FullName(), len(written), len(library), err)
			}
			if !bytes.Equal(Write(back), written) {
				t.Errorf("%s: written otherwise the second time", descriptor.FullName())
			}
			last := protowire.Number(0)
			for rest := written; len(rest) > 0; {
				number, _, size := protowire.ConsumeField(rest)
				if number < last {
					t.Errorf("%s: field %d after %d", descriptor.FullName(), number, last)
				}
				last, rest = number, rest[size:]
			}
		}
	}
}

// fill sets some fields of the message, and unknown ones now and then.
func fill(r *rand.Rand, message protoreflect.Message, depth int) {
	for _, field := range layouts[message.Descriptor().FullName()].ascending {
		switch {
		case r.Intn(3) == 0 || depth > 4 && field.Message() != nil:
		case field.IsList() && field.Message() != nil:
			fill(r, message.Mutable(field).List().AppendMutable().Message(), depth+1)
		case field.IsList():
			for n := r.Intn(4); n > 0; n-- {
				message.Mutable(field).List().Append(value(r, field))
			}
		case field.Message() != nil:
			fill(r, message.Mutable(field).Message(), depth+1)
		default:
			message.Set(field, value(r, field))
		}
	}
	if r.Intn(5) == 0 {
		message.SetUnknown([]byte{0x98, 0x3e, byte(r.Intn(128))})
	}
}

func value(r *rand.Rand, field protoreflect.FieldDescriptor) protoreflect.Value {
	n := r.Uint64() >> r.Intn(64)
	switch field.Kind() {
	case protoreflect.BoolKind:
		return protoreflect.ValueOfBool(n&1 == 1)
	case protoreflect.EnumKind:
		return protoreflect.ValueOfEnum(protoreflect.EnumNumber(int32(n)))
	case protoreflect.Sint32Kind:
		return protoreflect.ValueOfInt32(int32(n))
	case protoreflect.Uint32Kind, protoreflect.Fixed32Kind:
		return protoreflect.ValueOfUint32(uint32(n))
	case protoreflect.Int64Kind, protoreflect.Sfixed64Kind:
		return protoreflect.ValueOfInt64(int64(n))
	case protoreflect.Uint64Kind, protoreflect.Fixed64Kind:
		return protoreflect.ValueOfUint64(n)
	case protoreflect.DoubleKind:
		return protoreflect.ValueOfFloat64(r.NormFloat64())
	case protoreflect.StringKind:
		return protoreflect.ValueOfString(strings.Repeat("é", r.Intn(4)))
	}
	return protoreflect.ValueOfBytes([]byte("some bytes")[:r.Intn(10)])
}
