package fields

import (
	"bytes"
	"fmt"
	"math/rand"
	"os"
	"reflect"
	"sort"
	"strings"
	"testing"

	"google.golang.org/protobuf/encoding/protowire"
	"google.golang.org/protobuf/reflect/protoreflect"

	"finavoluth/edge/internal/capture"
	"finavoluth/edge/internal/otlp"
	"finavoluth/edge/internal/samples"
	"finavoluth/edge/internal/signal"
)

// message is the bytes of a message with these fields: number, bytes, and so on.
func message(parts ...interface{}) []byte {
	var b []byte
	for i := 0; i < len(parts); i += 2 {
		b = protowire.AppendTag(b, protowire.Number(parts[i].(int)), protowire.BytesType)
		switch part := parts[i+1].(type) {
		case string:
			b = protowire.AppendString(b, part)
		case []byte:
			b = protowire.AppendBytes(b, part)
		}
	}
	return b
}

func TestWhatIsFound(t *testing.T) {
	tests := []struct {
		name    string
		signal  signal.Signal
		request []byte
		want    []Field
	}{
		{"nothing", signal.Traces, nil, []Field{}},
		{"what is carried", signal.Traces, message(1, message(3, "u", 2, message(2, message(5, "n")))), []Field{}},
		{"a field of the request", signal.Logs, message(2, "x", 2, "y"), []Field{{"2", true, 2}}},
		{"entity references", signal.Logs, message(1, message(1, message(3, message(2, "service"), 3, ""))),
			[]Field{{"resourceLogs.resource.entityRefs", false, 2}}},
		{"metadata", signal.Metrics, message(1, message(2, message(2, message(1, "m", 12, message(1, "k"))))),
			[]Field{{"resourceMetrics.scopeMetrics.metrics.metadata", false, 1}}},
		{"deep in a value", signal.Traces, message(1, message(1, message(1, message(1, "k", 2, message(6, message(1, message(2, message(9, "")))))))),
			[]Field{{"resourceSpans.resource.attributes.value.kvlistValue.values.value.9", true, 1}}},
		{"of every wire type", signal.Traces, []byte{0x10, 1, 0x19, 1, 2, 3, 4, 5, 6, 7, 8, 0x25, 1, 2, 3, 4, 0x2b, 0x2c, 0xf8, 0xff, 0xff, 0xff, 0x0f, 1},
			[]Field{{"2", true, 1}, {"3", true, 1}, {"4", true, 1}, {"5", true, 1}, {"536870911", true, 1}}},
		{"a known field with another wire type", signal.Traces, []byte{0x08, 1}, []Field{}},
	}
	for _, test := range tests {
		var count Count
		if err := Uncarried(test.signal, test.request, &count); err != nil || !reflect.DeepEqual(count.Fields(), test.want) {
			t.Errorf("%s: %v, %v", test.name, count.Fields(), err)
		}
	}
}

// What can't be read as protobuf is an error, and what was found before is in the count.
func TestDamagedRequests(t *testing.T) {
	deep := []byte{}
	for i := 0; i < 300; i++ {
		deep = message(5, message(1, deep))
	}
	tests := []struct {
		request []byte
		want    string
	}{
		{[]byte{0x12, 0, 0x0a}, "field 1 of ExportTraceServiceRequest: unexpected EOF"},
		{[]byte{0x12, 0, 0x0a, 2, 0x12, 9}, "field 2 of ResourceSpans: unexpected EOF"},
		{[]byte{0x12, 0, 0x07}, "a field of ExportTraceServiceRequest: invalid field number"},
		{append([]byte{0x12, 0}, message(1, message(1, message(1, message(2, deep))))...), "messages are nested too deep"},
	}
	for _, test := range tests {
		var count Count
		err := Uncarried(signal.Traces, test.request, &count)
		if err == nil || err.Error() != test.want || len(count.Fields()) != 1 {
			t.Errorf("%.20x: %v, %v", test.request, err, count.Fields())
		}
	}
}

func TestExponentialHistograms(t *testing.T) {
	metric := func(parts ...interface{}) []byte { return message(1, message(2, message(2, message(parts...)))) }
	var count Count
	for _, request := range [][]byte{
		metric(1, "late", 10, ""), metric(10, "", 1, "early"), metric(10, ""), metric(1, "late", 10, ""), metric(1, "sum", 7, ""),
		metric(1, "first", 1, "last", 10, "what is in it isn't looked at"),
	} {
		if err := Uncarried(signal.Metrics, request, &count); err != nil {
			t.Error(err)
		}
	}
	names, times := count.Exponential()
	if want := []string{"late", "early", "", "last"}; times != 5 || !reflect.DeepEqual(names, want) || len(count.Fields()) > 0 {
		t.Errorf("%q, %d, %v", names, times, count.Fields())
	}
	for i := 0; i < 2*MostNames; i++ {
		if err := Uncarried(signal.Metrics, metric(1, fmt.Sprint("m", i), 10, ""), &count); err != nil {
			t.Error(err)
		}
	}
	if names, times := count.Exponential(); len(names) != MostNames || times != 5+2*MostNames {
		t.Errorf("%d names, %d times", len(names), times)
	}
}

// The walk over bytes finds what the protobuf library finds in random requests, into which unknown fields were put.
func TestTheLibraryFindsTheSame(t *testing.T) {
	for _, s := range signal.All() {
		var count Count
		want := map[string]int{}
		metrics := 0
		for seed := int64(0); seed < 200; seed++ {
			request := samples.Request(s, seed)
			strew(rand.New(rand.NewSource(seed)), request)
			find(request, nil, want, &metrics)
			if err := Uncarried(s, otlp.Write(request), &count); err != nil {
				t.Errorf("%v %d: %v", s, seed, err)
			}
		}
		got := map[string]int{}
		for _, field := range count.Fields() {
			got[field.Path] = field.Times
		}
		if _, times := count.Exponential(); !reflect.DeepEqual(got, want) || times != metrics || len(got) < 10 {
			t.Errorf("%v: %v, not %v; %d exponential histograms, not %d", s, got, want, times, metrics)
		}
		if !sort.SliceIsSorted(count.Fields(), func(a, b int) bool { return count.Fields()[a].Path < count.Fields()[b].Path }) {
			t.Error("not sorted")
		}
	}
}

// each calls f for the messages in the message.
func each(message protoreflect.Message, f func(field protoreflect.FieldDescriptor, inside protoreflect.Message)) {
	fields := message.Descriptor().Fields()
	for i := 0; i < fields.Len(); i++ {
		field := fields.Get(i)
		if field.Message() == nil || !message.Has(field) {
			continue
		}
		if !field.IsList() {
			f(field, message.Get(field).Message())
			continue
		}
		for i := 0; i < message.Get(field).List().Len(); i++ {
			f(field, message.Get(field).List().Get(i).Message())
		}
	}
}

// strew puts unknown fields into the message and those inside it.
func strew(r *rand.Rand, message protoreflect.Message) {
	if r.Intn(20) == 0 {
		b := protowire.AppendTag(nil, protowire.Number(100+r.Intn(2)), protowire.VarintType)
		message.SetUnknown(protowire.AppendVarint(b, r.Uint64()))
	}
	each(message, func(_ protoreflect.FieldDescriptor, inside protoreflect.Message) { strew(r, inside) })
}

// find counts by path what isn't carried, and the exponential histograms.
func find(message protoreflect.Message, path []string, into map[string]int, metrics *int) {
	for b := message.GetUnknown(); len(b) > 0; {
		number, _, n := protowire.ConsumeField(b)
		into[strings.Join(append(path, fmt.Sprint(number)), ".")]++
		b = b[n:]
	}
	each(message, func(field protoreflect.FieldDescriptor, inside protoreflect.Message) {
		at := append(append([]string(nil), path...), field.JSONName())
		switch field.Name() {
		case "entity_refs", "metadata":
			into[strings.Join(at, ".")]++
		case "exponential_histogram":
			*metrics++
		default:
			find(inside, at, into, metrics)
		}
	})
}

// The requests are realistic, by Google's library.
func BenchmarkUncarried(b *testing.B) {
	for _, s := range signal.All() {
		b.Run(s.String(), func(b *testing.B) {
			file, err := os.ReadFile("../../../examples/cases/tidy-" + s.String() + "/realistic.capture")
			if err != nil {
				b.Fatal(err)
			}
			b.SetBytes(int64(len(file)))
			b.ReportAllocs()
			for i := 0; i < b.N; i++ {
				var count Count
				for frames := capture.NewReader(bytes.NewReader(file)); ; {
					frame, err := frames.Next()
					if err != nil {
						break
					}
					if err := Uncarried(s, frame.Payload, &count); err != nil {
						b.Fatal(err)
					}
				}
			}
		})
	}
}
