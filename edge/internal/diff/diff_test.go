package diff

import (
	"errors"
	"fmt"
	"io"
	"math"
	"strings"
	"testing"

	"google.golang.org/protobuf/encoding/prototext"
	"google.golang.org/protobuf/reflect/protoreflect"

	"finavoluth/edge/internal/otlp"
	"finavoluth/edge/internal/signal"
)

// A list has its requests in memory.
type list struct{ requests [][]byte }

func (l *list) Next() ([]byte, error) {
	if len(l.requests) == 0 {
		return nil, io.EOF
	}
	first := l.requests[0]
	l.requests = l.requests[1:]
	return first, nil
}

func written(messages ...protoreflect.Message) *list {
	l := &list{}
	for _, message := range messages {
		l.requests = append(l.requests, otlp.Write(message))
	}
	return l
}

func compared(t *testing.T, s signal.Signal, a, b Requests, options Options) *Report {
	t.Helper()
	report, err := Compare(s, a, b, options)
	if err != nil {
		t.Fatal(err)
	}
	if (report.Found == 0) != (len(report.Differences) == 0) {
		t.Fatalf("%d found, %d reported", report.Found, len(report.Differences))
	}
	return report
}

var all = Options{Most: 1 << 20}

func ofText(t *testing.T, s signal.Signal, text string) protoreflect.Message {
	t.Helper()
	message := otlp.New(s)
	if err := prototext.Unmarshal([]byte(text), message); err != nil {
		t.Fatalf("%v, of %s", err, text)
	}
	return message
}

// printed are the differences, one a line.
func printed(report *Report) string {
	var b strings.Builder
	for _, d := range report.Differences {
		fmt.Fprintf(&b, "%d: %s %s | %s %s\n", d.Item, d.A.Path, d.A.Text, d.B.Path, d.B.Text)
	}
	return b.String()
}

func span(text string) string {
	return "resource_spans { scope_spans { spans { " + text + " } } }"
}

// What differs, by path and text; and what is the same, which is printed as nothing.
func TestDifferences(t *testing.T) {
	const at = ".[0].resourceSpans[0].scopeSpans[0].spans[0]"
	tests := []struct{ name, a, b, want string }{
		{"equal", span(`name: "a"`), span(`name: "a"`), ""},
		{"a name", span(`name: "a"`), span(``), "0: " + at + `.name "a" | ` + at + `.name ""` + "\n"},
		{"an id", span(`span_id: "\x01\xff"`), span(`span_id: "\x01\xfe"`), "0: " + at + `.spanId "01ff" | ` + at + ".spanId \"01fe\"\n"},
		{"an enum", span(`kind: SPAN_KIND_SERVER`), span(`kind: SPAN_KIND_CLIENT`), "0: " + at + ".kind 2 | " + at + ".kind 3\n"},
		{"an empty status is none", span(`status {}`), span(``), ""},
		{"an empty value is none", span(`attributes { key: "k" value {} }`), span(`attributes { key: "k" }`), ""},
		{"a status", span(`status { code: STATUS_CODE_OK }`), span(``), "0: " + at + ".status.code 1 | " + at + ".status.code 0\n"},
		{"attributes in another order", span(`attributes { key: "a" } attributes { key: "b" } attributes { key: "a" }`),
			span(`attributes { key: "a" } attributes { key: "a" } attributes { key: "b" }`), ""},
		{"an attribute less often", span(`attributes { key: "a" } attributes { key: "a" } attributes { key: "b" }`),
			span(`attributes { key: "b" } attributes { key: "a" }`), "0: " + at + `.attributes[1] {"key":"a"} |  none` + "\n"},
		{"an attribute with another value", span(`attributes { key: "a" value { int_value: 1 } } attributes { key: "c" }`),
			span(`attributes { key: "b" } attributes { key: "a" value { string_value: "1" } }`),
			"0: " + at + `.attributes[0] {"key":"a","value":{"intValue":"1"}} | ` + at + `.attributes[1] {"key":"a","value":{"stringValue":"1"}}` + "\n" +
				"0: " + at + `.attributes[1] {"key":"c"} |  none` + "\n" + `0:  none | ` + at + `.attributes[0] {"key":"b"}` + "\n"},
		{"pairs of a value in another order",
			span(`attributes { key: "m" value { kvlist_value { values { key: "a" } values { key: "b" } } } }`),
			span(`attributes { key: "m" value { kvlist_value { values { key: "b" } values { key: "a" } } } }`),
			"0: " + at + `.attributes[0] {"key":"m","value":{"kvlistValue":{"values":[{"key":"a"},{"key":"b"}]}}} | ` +
				at + `.attributes[0] {"key":"m","value":{"kvlistValue":{"values":[{"key":"b"},{"key":"a"}]}}}` + "\n"},
		{"events in another order", span(`events { name: "a" } events { name: "b" }`), span(`events { name: "b" } events { name: "a" }`),
			"0: " + at + `.events[0].name "a" | ` + at + `.events[0].name "b"` + "\n0: " + at + `.events[1].name "b" | ` + at + `.events[1].name "a"` + "\n"},
		{"a link more", span(``), span(`links { flags: 3 }`), "0:  none | " + at + `.links[0] {"flags":3}` + "\n"},
		{"groups without items", `resource_spans { resource { attributes { key: "x" } } scope_spans {} } ` + span(`name: "a"`) + ` resource_spans {}`,
			`resource_spans { scope_spans { scope { name: "s" } } scope_spans { spans { name: "a" } } }`, ""},
		{"groups cut otherwise", span(`name: "a"`) + span(`name: "b"`), `resource_spans { scope_spans { spans { name: "a" } spans { name: "b" } } }`, ""},
		{"the schema url of a resource", `resource_spans { schema_url: "u" scope_spans { spans { } spans { } } }`, span(``) + span(``),
			"0: .[0].resourceSpans[0].schemaUrl \"u\" | .[0].resourceSpans[0].schemaUrl \"\"\n" +
				"1: .[0].resourceSpans[0].schemaUrl \"u\" | .[0].resourceSpans[1].schemaUrl \"\"\n"},
		{"a difference of a group is said once", `resource_spans { resource { dropped_attributes_count: 1 } scope_spans { spans { } spans { } } }`,
			`resource_spans { scope_spans { spans { } spans { } } }`,
			"0: .[0].resourceSpans[0].resource.droppedAttributesCount 1 | .[0].resourceSpans[0].resource.droppedAttributesCount 0\n"},
		{"a scope", `resource_spans { scope_spans { scope { version: "1" } spans { } } }`, span(``),
			"0: .[0].resourceSpans[0].scopeSpans[0].scope.version \"1\" | .[0].resourceSpans[0].scopeSpans[0].scope.version \"\"\n"},
		{"an item more", span(`name: "a"`), span(`name: "a"`) + span(`name: "b"`) + span(``),
			`1:  none | .[0].resourceSpans[1].scopeSpans[0].spans[0] {"name":"b"}` + "\n"},
		{"nothing and something", ``, span(`flags: 1`), `0:  none | ` + at + ` {"flags":1}` + "\n"},
		{"a long text", span(`name: "` + strings.Repeat("é", 300) + `"`), span(``),
			"0: " + at + `.name "` + strings.Repeat("é", 99) + "… | " + at + `.name ""` + "\n"},
	}
	for _, test := range tests {
		a, b := ofText(t, signal.Traces, test.a), ofText(t, signal.Traces, test.b)
		report := compared(t, signal.Traces, written(a), written(b), all)
		if got := printed(report); got != test.want || report.Same() != (test.want == "") {
			t.Errorf("%s:\n%snot\n%s", test.name, got, test.want)
		}
	}
}

// Oneofs, optional fields, lists of numbers and the bits of doubles, which only metrics have.
func TestDifferencesOfMetrics(t *testing.T) {
	const at = ".[0].resourceMetrics[0].scopeMetrics[0].metrics[0]"
	tests := []struct{ name, a, b, want string }{
		{"two kinds of data", `gauge {}`, `sum { is_monotonic: true }`, at + `.gauge {} | ` + at + `.sum {"isMonotonic":true}`},
		{"an empty gauge is some data", `gauge {}`, ``, at + `.gauge {} |  none`},
		{"zero is a value", `gauge { data_points { as_int: 0 } }`, `gauge { data_points { } }`, at + `.gauge.dataPoints[0].asInt "0" |  none`},
		{"an int and a double", `gauge { data_points { as_int: 1 } }`, `gauge { data_points { as_double: 1 } }`,
			at + `.gauge.dataPoints[0].asInt "1" | ` + at + `.gauge.dataPoints[0].asDouble 1`},
		{"zeros of two signs", `gauge { data_points { as_double: 0 } }`, `gauge { data_points { as_double: -0.0 } }`,
			at + `.gauge.dataPoints[0].asDouble 0 | ` + at + `.gauge.dataPoints[0].asDouble -0.0`},
		{"an optional zero", `histogram { data_points { min: 0 } }`, `histogram { data_points { } }`, at + `.histogram.dataPoints[0].min 0 |  none`},
		{"bounds", `histogram { data_points { explicit_bounds: 1 explicit_bounds: 2 } }`, `histogram { data_points { explicit_bounds: 1 } }`,
			at + `.histogram.dataPoints[0].explicitBounds[1] 2 |  none`},
		{"metadata", `metadata { key: "a" } metadata { key: "b" }`, `metadata { key: "b" } metadata { key: "a" }`, ``},
		{"other metadata", `metadata { key: "a" }`, ``, at + `.metadata[0] {"key":"a"} |  none`},
	}
	for _, test := range tests {
		metric := func(text string) *list {
			return written(ofText(t, signal.Metrics, `resource_metrics { scope_metrics { metrics { `+text+` } } }`))
		}
		want := test.want
		if want != "" {
			want = "0: " + want + "\n"
		}
		if got := printed(compared(t, signal.Metrics, metric(test.a), metric(test.b), all)); got != want {
			t.Errorf("%s:\n%snot\n%s", test.name, got, want)
		}
	}
}

// Two NaN are told apart by their bits, which JSON doesn't have.
func TestNaNs(t *testing.T) {
	point := func(bits uint64, attribute bool) *list {
		message := ofText(t, signal.Metrics, `resource_metrics { scope_metrics { metrics { gauge { data_points { as_double: 1 attributes { key: "k" value { double_value: 1 } } } } } } }`)
		nan := protoreflect.ValueOfFloat64(math.Float64frombits(bits))
		walk(message, func(m protoreflect.Message, field protoreflect.FieldDescriptor) {
			if field.Kind() == protoreflect.DoubleKind && (field.Name() == "double_value") == attribute {
				m.Set(field, nan)
			}
		})
		return written(message)
	}
	const at = "0: .[0].resourceMetrics[0].scopeMetrics[0].metrics[0].gauge.dataPoints[0]"
	for attribute, want := range map[bool]string{
		false: at + `.asDouble "NaN" (bits 7ff8000000000000) | ` + at[3:] + ".asDouble \"NaN\" (bits 7ff8000000000001)\n",
		true: at + `.attributes[0] {"key":"k","value":{"doubleValue":"NaN"}} (protobuf 0a016b120921000000000000f87f) | ` +
			at[3:] + `.attributes[0] {"key":"k","value":{"doubleValue":"NaN"}} (protobuf 0a016b120921010000000000f87f)` + "\n",
	} {
		report := compared(t, signal.Metrics, point(0x7ff8000000000000, attribute), point(0x7ff8000000000001, attribute), all)
		if got := printed(report); got != want {
			t.Errorf("%s not\n%s", got, want)
		}
		if !compared(t, signal.Metrics, point(0x7ff8000000000001, attribute), point(0x7ff8000000000001, attribute), all).Same() {
			t.Error("a NaN isn't itself")
		}
	}
}

// Errors name the list and the request, and whose reading failed.
func TestRequestsThatCantBeRead(t *testing.T) {
	good := otlp.Write(ofText(t, signal.Traces, span(``)))
	for _, test := range []struct {
		a, b *list
		want string
	}{
		{&list{[][]byte{good, {0x0a}}}, &list{[][]byte{good, good}}, "A, request 1: no OTLP request of traces: cannot parse invalid wire-format data"},
		{&list{[][]byte{good}}, &list{[][]byte{{0x0a, 2, 0x1a, 0xff}}}, "B, request 0: no OTLP request of traces: cannot parse invalid wire-format data"},
		{&list{[][]byte{good}}, &list{[][]byte{good, good, {7}}}, "B, request 2: no OTLP request of traces: cannot parse invalid wire-format data"},
	} {
		if report, err := Compare(signal.Traces, test.a, test.b, all); err == nil || err.Error() != test.want {
			t.Errorf("%v, %v, not %s", report, err, test.want)
		}
	}
}

// A list whose reading fails is named.
func TestAFailedRead(t *testing.T) {
	good := written(ofText(t, signal.Traces, span(``)))
	_, err := Compare(signal.Traces, good, failing{}, all)
	if !errors.Is(err, errFailing) || err.Error() != "B: reading x: it fails" {
		t.Errorf("%v", err)
	}
}

var errFailing = errors.New("reading x: it fails")

type failing struct{}

func (failing) Next() ([]byte, error) { return nil, errFailing }

// What is printed, whole.
func TestText(t *testing.T) {
	a := ofText(t, signal.Traces, span(`name: "a" flags: 1`)+span(`name: "b"`))
	b := ofText(t, signal.Traces, span(`name: "c"`))
	for _, test := range []struct {
		a, b protoreflect.Message
		most int
		want string
	}{
		{a, a, 9, "the same telemetry: 2 spans\n"},
		{b, b, 9, "the same telemetry: 1 span\n"},
		{a, b, 9, `span 0
  A .[0].resourceSpans[0].scopeSpans[0].spans[0].flags = 1
  B .[0].resourceSpans[0].scopeSpans[0].spans[0].flags = 0
  A .[0].resourceSpans[0].scopeSpans[0].spans[0].name = "a"
  B .[0].resourceSpans[0].scopeSpans[0].spans[0].name = "c"
span 1
  A .[0].resourceSpans[1].scopeSpans[0].spans[0] = {"name":"b"}
  B none
3 differences; A has 2 spans, B has 1 span
`},
		{b, a, 1, `span 0
  A .[0].resourceSpans[0].scopeSpans[0].spans[0].flags = 0
  B .[0].resourceSpans[0].scopeSpans[0].spans[0].flags = 1
3 differences, the first 1 printed; A has 1 span, B has 2 spans
`},
	} {
		if got := compared(t, signal.Traces, written(test.a), written(test.b), Options{Most: test.most}).Text(signal.Traces); got != test.want {
			t.Errorf("%s\nnot\n%s", got, test.want)
		}
	}
}

// Only so many differences are reported, and all are counted; items are counted to the ends.
func TestCounts(t *testing.T) {
	a := written(ofText(t, signal.Traces, strings.Repeat(span(`name: "a"`), 40)))
	b := written(ofText(t, signal.Traces, strings.Repeat(span(`name: "b"`), 30)))
	report := compared(t, signal.Traces, a, b, Options{Most: 3})
	if report.ItemsA != 40 || report.ItemsB != 30 || report.Found != 31 || len(report.Differences) != 3 || report.Differences[2].Item != 2 {
		t.Errorf("%+v", report)
	}
}
