package text

import (
	"bytes"
	"errors"
	"os"
	"reflect"
	"strings"
	"testing"

	"google.golang.org/protobuf/encoding/prototext"

	"finavoluth/edge/internal/otlp"
	"finavoluth/edge/internal/signal"
)

// ofText is the request that protobuf's text format describes, by the protobuf library.
func ofText(t *testing.T, s signal.Signal, text string) []byte {
	t.Helper()
	message := otlp.New(s)
	if err := prototext.Unmarshal([]byte(text), message); err != nil {
		t.Fatalf("%v, of %s", err, text)
	}
	keepForJSON(message)
	return otlp.Write(message)
}

func contents(t *testing.T, path string) string {
	t.Helper()
	text, err := os.ReadFile(path)
	if err != nil {
		t.Fatal(err)
	}
	return string(text)
}

// Files written by hand after OTLP's specification are read as the same requests in protobuf's text format.
func TestFilesByHand(t *testing.T) {
	for _, s := range signal.All() {
		json := contents(t, "testdata/"+s.String()+".json")
		want := ofText(t, s, contents(t, "testdata/"+s.String()+".textproto"))
		got, unknown, err := Read(s, []byte(json))
		if err != nil || len(unknown) > 0 || !bytes.Equal(got, want) {
			t.Errorf("%v is read as %x, not %x; unknown %v, %v", s, got, want, unknown, err)
		}
	}
}

// What is read beside the forms of OTLP's specification, each as a log record, but for the last ones.
func TestOtherForms(t *testing.T) {
	tests := []struct{ json, want string }{
		{`{"timeUnixNano": 1544712660300000001}`, `time_unix_nano: 1544712660300000001`},
		{`{"time_unix_nano": "7", "observed_time_unix_nano": 18446744073709551615}`, `time_unix_nano: 7 observed_time_unix_nano: 18446744073709551615`},
		{`{"timeUnixNano": 1.5e3}`, `time_unix_nano: 1500`},
		{`{"timeUnixNano": "1.8E19"}`, `time_unix_nano: 18000000000000000000`},
		{`{"timeUnixNano": 250e-1}`, `time_unix_nano: 25`},
		{`{"timeUnixNano": 0.0e400}`, ``},
		{`{"severityNumber": "SEVERITY_NUMBER_WARN"}`, `severity_number: SEVERITY_NUMBER_WARN`},
		{`{"severityNumber": "13"}`, `severity_number: 13`},
		{`{"severityNumber": -2147483648}`, `severity_number: -2147483648`},
		{`{"flags": "256"}`, `flags: 256`},
		{`{"body": {"intValue": -9007199254740993}}`, `body { int_value: -9007199254740993 }`},
		{`{"body": {"int_value": -1.0}}`, `body { int_value: -1 }`},
		{`{"body": {"doubleValue": "1.5"}}`, `body { double_value: 1.5 }`},
		{`{"body": {"doubleValue": "Infinity"}}`, `body { double_value: inf }`},
		{`{"body": {"doubleValue": -0.0}}`, `body { double_value: -0.0 }`},
		{`{"body": {"doubleValue": 1e-999}}`, `body { double_value: 0 }`},
		{`{"body": {"bytesValue": "_-8"}}`, `body { bytes_value: "\xff\xef" }`},
		{`{"body": {"bytesValue": "/+8="}}`, `body { bytes_value: "\xff\xef" }`},
		{`{"body": {"bytesValue": ""}}`, `body { bytes_value: "" }`},
		{`{"body": {"arrayValue": {}}}`, `body { array_value {} }`},
		{`{"body": {"arrayValue": {"values": null}}}`, `body { array_value {} }`},
		{`{"body": {"stringValue": "\ud83d\ude00 \\ud83d \u00e9"}}`, `body { string_value: "\360\237\230\200 \\ud83d \303\251" }`},
		{`{"body": null, "attributes": null, "severityText": null, "flags": null}`, ``},
		{`{"body": {"stringValue": null, "boolValue": false}}`, `body { bool_value: false }`},
		{`{"traceId": "ABCDEF", "spanId": ""}`, `trace_id: "\xab\xcd\xef"`},
		{" {\t\"flags\"\r\n: 1 } ", `flags: 1`},
	}
	for _, test := range tests {
		want := ofText(t, signal.Logs, "resource_logs { scope_logs { log_records { "+test.want+" } } }")
		got, unknown, err := Read(signal.Logs, []byte(`{"resourceLogs":[{"scopeLogs":[{"logRecords":[`+test.json+`]}]}]}`))
		if err != nil || len(unknown) > 0 || !bytes.Equal(got, want) {
			t.Errorf("%s is read as %x, not %x; unknown %v, %v", test.json, got, want, unknown, err)
		}
	}
	for _, empty := range []string{`{}`, " { } \n", `{"resourceLogs":[]}`, `{"resource_logs":null}`} {
		if got, _, err := Read(signal.Logs, []byte(empty)); err != nil || len(got) > 0 {
			t.Errorf("%s is read as %x, %v", empty, got, err)
		}
	}
}

// Keys that OTLP doesn't have are listed by path, once each, and their values are passed over.
func TestUnknownKeys(t *testing.T) {
	json := `{"note":1,"resourceSpans":[{"extra":{"a":[{"b":null}]},"scopeSpans":[
		{"spans":[{"name":"x","Name":"y","attributes":[{"key":"k","value":{"uintValue":"3"}}]},{"Name":[[]],"flags":1}]}]}],"note ":"é"}`
	got, unknown, err := Read(signal.Traces, []byte(json))
	want := ofText(t, signal.Traces, `resource_spans { scope_spans { spans { name: "x" attributes { key: "k" value {} } } spans { flags: 1 } } }`)
	paths := []string{"note", "resourceSpans.extra", "resourceSpans.scopeSpans.spans.Name",
		"resourceSpans.scopeSpans.spans.attributes.value.uintValue", "note "}
	if err != nil || !bytes.Equal(got, want) || !reflect.DeepEqual(unknown, paths) {
		t.Errorf("%x, %q, %v", got, unknown, err)
	}
}

// Each text is refused, and the error says what is wrong and where.
func TestWhatIsRefused(t *testing.T) {
	record := func(json string) string { return `{"resourceLogs":[{"scopeLogs":[{"logRecords":[{},` + json + `]}]}]}` }
	const at = "resourceLogs[0].scopeLogs[0].logRecords[1]"
	tests := []struct{ json, want string }{
		{``, "no JSON: unexpected end of JSON input"},
		{`{"resourceLogs":[}`, "no JSON in its first 18 bytes: invalid character '}' looking for beginning of value"},
		{`{} {}`, "no JSON in its first 4 bytes: invalid character '{' after top-level value"},
		{"{\"a\":\"\xff\"}", "the JSON isn't UTF-8"},
		{`[]`, "a request is a JSON object, not a list"},
		{`"a"`, `a request is a JSON object, not "a"`},
		{`{"resourceSpans":[]}`, `the key "resourceSpans" is that of traces, not of logs`},
		{`{"resourceLogs":[],"resource_metrics":[]}`, `the key "resourceMetrics" is that of metrics, not of logs`},
		{`{"resourceLogs":{}}`, "resourceLogs: a list is expected, not an object"},
		{`{"resourceLogs":[null]}`, "resourceLogs[0]: an object is expected, not null"},
		{`{"resourceLogs":[],"resource_logs":[]}`, "resource_logs: the key occurs twice"},
		{record(`1`), at + ": an object is expected, not 1"},
		{record(`{"flags":1,"flags":1}`), at + ".flags: the key occurs twice"},
		{record(`{"flags":-1}`), at + ".flags: -1 is no whole number of 32 bits without a sign"},
		{record(`{"flags":4294967296}`), at + ".flags: 4294967296 is no whole number of 32 bits without a sign"},
		{record(`{"flags":1.5}`), at + ".flags: 1.5 is no whole number of 32 bits without a sign"},
		{record(`{"flags":1e999999999}`), at + ".flags: 1e999999999 is no whole number of 32 bits without a sign"},
		{record(`{"flags":true}`), at + ".flags: a whole number is expected, not true"},
		{record(`{"flags":" 1"}`), at + `.flags: a whole number is expected, not " 1"`},
		{record(`{"timeUnixNano":"18446744073709551616"}`), at + ".timeUnixNano: 18446744073709551616 is no whole number of 64 bits without a sign"},
		{record(`{"timeUnixNano":{"low":1,"high":2}}`), at + ".timeUnixNano: a whole number is expected, not an object"},
		{record(`{"severityNumber":"WARN"}`), at + `.severityNumber: a number or a name of SeverityNumber is expected, not "WARN"`},
		{record(`{"severityNumber":2147483648}`), at + ".severityNumber: 2147483648 is no whole number of 32 bits"},
		{record(`{"severityText":7}`), at + ".severityText: a text is expected, not 7"},
		{record(`{"traceId":"W47/95gDgQPSabYzgT/GDA=="}`), at + `.traceId: an id is hexadecimal, and "W47/95gDgQPSabYzgT/GDA==" isn't`},
		{record(`{"spanId":"abc"}`), at + `.spanId: an id is hexadecimal, and "abc" isn't`},
		{record(`{"body":[]}`), at + ".body: an object is expected, not a list"},
		{record(`{"body":{"boolValue":"true"}}`), at + `.body.boolValue: true or false is expected, not "true"`},
		{record(`{"body":{"doubleValue":1e999}}`), at + ".body.doubleValue: 1e999 is no double: it is too large"},
		{record(`{"body":{"doubleValue":"nan"}}`), at + `.body.doubleValue: a number is expected, not "nan"`},
		{record(`{"body":{"bytesValue":"a"}}`), at + `.body.bytesValue: bytes are in base64, and "a" isn't`},
		{record(`{"body":{"bytesValue":3}}`), at + `.body.bytesValue: a text is expected, not 3`},
		{record(`{"body":{"stringValue":"a","intValue":"1"}}`), at + ".body.intValue: another member of value is set already"},
		{record(`{"body":{"arrayValue":{"values":[{},{"intValue":"x"}]}}}`), at + `.body.arrayValue.values[1].intValue: a whole number is expected, not "x"`},
		{record(`{"body":{"stringValue":"\ud83d"}}`), `at byte 73 is half of a surrogate pair (\ud83d), which is no character`},
		{record(`{"body":{"stringValue":"\ude00"}}`), `at byte 73 is half of a surrogate pair (\ude00), which is no character`},
		{record(`{"body":{"stringValue":"\ud83d\u0041"}}`), `at byte 73 is half of a surrogate pair (\ud83d), which is no character`},
		{strings.Repeat("[", 20000) + strings.Repeat("]", 20000), "no JSON in its first 10001 bytes: invalid character '[' exceeded max depth"},
	}
	for _, test := range tests {
		got, _, err := Read(signal.Logs, []byte(test.json))
		if err == nil || err.Error() != test.want || got != nil {
			t.Errorf("%.90s: %v, not %s", test.json, err, test.want)
		}
	}
	var wrong *WrongSignal
	if _, _, err := Read(signal.Logs, []byte(`{"resourceMetrics":[]}`)); !errors.As(err, &wrong) || wrong.Has != signal.Metrics {
		t.Errorf("another signal isn't named: %v", err)
	}
}

// A list of bounds, of doubles or of whole numbers has no null.
func TestNullInAList(t *testing.T) {
	json := `{"resourceMetrics":[{"scopeMetrics":[{"metrics":[{"histogram":{"dataPoints":[{"bucketCounts":["1",null]}]}}]}]}]}`
	const want = "resourceMetrics[0].scopeMetrics[0].metrics[0].histogram.dataPoints[0].bucketCounts[1]: a whole number is expected, not null"
	if _, _, err := Read(signal.Metrics, []byte(json)); err == nil || err.Error() != want {
		t.Errorf("%v", err)
	}
}

// What is written, byte for byte.
func TestWhatIsWritten(t *testing.T) {
	request := ofText(t, signal.Logs, `resource_logs { scope_logs { log_records {
		time_unix_nano: 18446744073709551615 severity_number: SEVERITY_NUMBER_WARN trace_id: "\x0a\xff" span_id: "\x01" flags: 7
		body { array_value { values { double_value: 0.1 } values { double_value: -0.0 } values { double_value: inf }
			values { double_value: 1e21 } values { int_value: -1 } values { bytes_value: "\xff\xef" } values {} values { string_value: "\"\n\x7fé\\" } } }
	} } }`)
	const want = `{"resourceLogs":[{"scopeLogs":[{"logRecords":[{"timeUnixNano":"18446744073709551615","severityNumber":13,` +
		`"body":{"arrayValue":{"values":[{"doubleValue":0.1},{"doubleValue":-0.0},{"doubleValue":"Infinity"},{"doubleValue":1e+21},` +
		`{"intValue":"-1"},{"bytesValue":"/+8="},{},{"stringValue":"\"\n\u007fé\\"}]}},"flags":7,"traceId":"0aff","spanId":"01"}]}]}]}`
	got, err := Write(signal.Logs, request, false)
	if err != nil || string(got) != want {
		t.Errorf("%s\n%v", got, err)
	}
	if _, err := Write(signal.Logs, []byte{0x0a}, false); err == nil {
		t.Error("half a request is written")
	}
}
