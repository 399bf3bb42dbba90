package fields

import (
	"os"
	"regexp"
	"strings"
	"testing"

	"google.golang.org/protobuf/encoding/protowire"
	"google.golang.org/protobuf/reflect/protoreflect"

	"finavoluth/edge/internal/otlp"
)

// messagesOf are the messages that a row of the page's table is about.
var messagesOf = map[string][]string{
	"traces request":       {"collector.trace.v1.ExportTraceServiceRequest", "trace.v1.TracesData"},
	"logs request":         {"collector.logs.v1.ExportLogsServiceRequest", "logs.v1.LogsData"},
	"metrics request":      {"collector.metrics.v1.ExportMetricsServiceRequest", "metrics.v1.MetricsData"},
	"resource group":       {"trace.v1.ResourceSpans", "logs.v1.ResourceLogs", "metrics.v1.ResourceMetrics"},
	"scope group":          {"trace.v1.ScopeSpans", "logs.v1.ScopeLogs", "metrics.v1.ScopeMetrics"},
	"Resource":             {"resource.v1.Resource"},
	"InstrumentationScope": {"common.v1.InstrumentationScope"},
	"KeyValue":             {"common.v1.KeyValue"},
	"AnyValue (one oneof)": {"common.v1.AnyValue"},
	"ArrayValue":           {"common.v1.ArrayValue"},
	"KeyValueList":         {"common.v1.KeyValueList"},
	"Span":                 {"trace.v1.Span"},
	"Event":                {"trace.v1.Span.Event"},
	"Link":                 {"trace.v1.Span.Link"},
	"Status":               {"trace.v1.Status"},
	"LogRecord":            {"logs.v1.LogRecord"},
	"Metric":               {"metrics.v1.Metric"},
	"Gauge":                {"metrics.v1.Gauge"},
	"Sum":                  {"metrics.v1.Sum"},
	"Histogram":            {"metrics.v1.Histogram"},
	"Summary":              {"metrics.v1.Summary"},
	"NumberDataPoint":      {"metrics.v1.NumberDataPoint"},
	"HistogramDataPoint":   {"metrics.v1.HistogramDataPoint"},
	"SummaryDataPoint":     {"metrics.v1.SummaryDataPoint"},
	"ValueAtQuantile":      {"metrics.v1.SummaryDataPoint.ValueAtQuantile"},
	"Exemplar":             {"metrics.v1.Exemplar"},
}

// outside are the messages that no request has, or that only what isn't carried has.
var outside = regexp.MustCompile(`Response$|PartialSuccess$|EntityRef$|ExponentialHistogram`)

// listed is a field as the page has it: name, type, star, number.
type listed struct {
	name, kind string
	repeated   bool
}

// rows are the rows of the page's table of requests.
func rows(t *testing.T) map[string]map[protowire.Number]listed {
	t.Helper()
	page, err := os.ReadFile("../../../docs/PROFILE.md")
	if err != nil {
		t.Fatal(err)
	}
	_, part, found := strings.Cut(string(page), "\n### Requests (OTLP 1.x)\n")
	part, _, ended := strings.Cut(part, "\n### ")
	if !found || !ended {
		t.Fatal("PROFILE.md has no part on requests")
	}
	all := map[string]map[protowire.Number]listed{}
	for _, line := range strings.Split(part, "\n") {
		cells := strings.Split(line, " | ")
		if len(cells) != 2 || strings.HasPrefix(line, "| Message") {
			continue
		}
		all[strings.TrimPrefix(cells[0], "| ")] = fieldsOf(t, strings.TrimSuffix(cells[1], " |"))
	}
	return all
}

func fieldsOf(t *testing.T, cell string) map[protowire.Number]listed {
	t.Helper()
	form := regexp.MustCompile(`^(?:one oneof: )?([a-z_ ]+?|int64)(\*?)(?: (bytes|enum|uint32|fixed32|fixed64|sfixed64|double|bool))?=(\d+)(?: \((\w+)\))?$`)
	all := map[protowire.Number]listed{}
	for _, text := range strings.Split(cell, ", ") {
		parts := form.FindStringSubmatch(text)
		if parts == nil {
			t.Errorf("a field of the page can't be read: %q", text)
			continue
		}
		number := protowire.Number(0)
		for _, digit := range parts[4] {
			number = number*10 + protowire.Number(digit-'0')
		}
		all[number] = listed{name: parts[1], kind: parts[3], repeated: parts[2] == "*"}
	}
	return all
}

// kindsByName are the kinds of the fields whose type the page says by their names.
var kindsByName = map[string]string{
	"string": "string", "bool": "bool", "int64": "int64", "double": "double", "bytes": "bytes", "as_double": "double",
}

// The numbers, kinds and stars of all fields in the .proto files that are carried are just those that the page lists.
func TestWhatIsCarriedIsWhatTheProfileLists(t *testing.T) {
	seen := map[string]bool{}
	for row, fields := range rows(t) {
		if len(messagesOf[row]) == 0 {
			t.Errorf("the page has a message %q that no .proto file has", row)
		}
		for _, name := range messagesOf[row] {
			seen["opentelemetry.proto."+name] = true
			compare(t, otlp.Message("opentelemetry.proto."+name), fields)
		}
	}
	for _, message := range otlp.Messages() {
		if name := string(message.FullName()); !seen[name] && !outside.MatchString(name) {
			t.Errorf("the page doesn't list %s", name)
		}
	}
}

func compare(t *testing.T, message protoreflect.MessageDescriptor, fields map[protowire.Number]listed) {
	left := len(fields)
	for i := 0; i < message.Fields().Len(); i++ {
		field := message.Fields().Get(i)
		want, found := fields[field.Number()]
		if carried := others[field.FullName()] != uncarried; carried != found {
			t.Errorf("%s = %d: carried %v, listed %v", field.FullName(), field.Number(), carried, found)
			continue
		}
		if !found {
			continue
		}
		left--
		kind := field.Kind().String()
		if want.kind == "" {
			want.kind = kindsByName[want.name]
		}
		if want.repeated != field.IsList() {
			t.Errorf("%s: repeated %v, listed %v", field.FullName(), field.IsList(), want.repeated)
		}
		if want.kind == "" && kind != "string" && kind != "message" || want.kind != "" && kind != want.kind {
			t.Errorf("%s: %s, listed as %+v", field.FullName(), kind, want)
		}
	}
	if left != 0 {
		t.Errorf("%s lacks %d fields that are listed", message.FullName(), left)
	}
}

// What is listed as passed over or refused is in the .proto files with its public number.
func TestWhatIsNotCarriedHasItsNumber(t *testing.T) {
	numbers := map[protoreflect.FullName]protowire.Number{
		"opentelemetry.proto.metrics.v1.Metric.metadata":              12,
		"opentelemetry.proto.resource.v1.Resource.entity_refs":        3,
		"opentelemetry.proto.metrics.v1.Metric.exponential_histogram": 10,
	}
	for name := range others {
		message := otlp.Message(string(name.Parent()))
		if message == nil || message.Fields().ByName(name.Name()) == nil || message.Fields().ByName(name.Name()).Number() != numbers[name] {
			t.Errorf("%s isn't field %d", name, numbers[name])
		}
	}
	if len(others) != len(numbers) {
		t.Errorf("%d fields aren't carried", len(others))
	}
}
