package profile

import (
	"os"
	"path/filepath"
	"regexp"
	"strings"
	"testing"

	"finavoluth/edge/internal/refusal"
)

func page(t *testing.T) *Page {
	t.Helper()
	page, err := Read()
	if err != nil {
		t.Fatal(err)
	}
	return page
}

func TestMeanings(t *testing.T) {
	page := page(t)
	for line, want := range map[string]string{
		"frame 0: request refused: BadMessage":                               "wire format",
		"frame 0: request refused: Unsupported":                              "an exponential histogram",
		"frame 0: request refused: TooHeavy":                                 "2^26",
		"frame 0: batch - refused: stage 1 Compressed payload -":             "the flag of the frame",
		"frame 0: batch 1 refused: stage 0 Broken payload -":                 "since the latest reset",
		"frame 0: batch 1 refused: stage 2 PayloadType payload 41":           "isn't one of the signal's",
		"frame 0: batch 1 refused: stage 3 Order payload 30":                 "the first message of an opening isn't a schema",
		"frame 0: batch 1 refused: stage 3 Ipc.Compressed payload 30":        "compression slot",
		"frame 0: batch 1 refused: stage 3 Ipc.Flat.OutOfRange payload 30":   "doesn't lie in the metadata",
		"frame 0: batch 1 refused: stage 3 Ipc.Schema.Unsupported payload 1": "the byte order isn't 0",
		"frame 0: batch 1 refused: stage 3 Buffers.BadNulls payload 1":       "the bitmap is empty",
		"frame 0: batch 1 refused: stage 5 BadCbor.Trailing payload 1":       "bytes follow the item",
		"frame 0: batch 1 refused: stage 5 Ids.PastType payload 1":           "past the greatest number",
		"frame 0: batch 1 refused: stage 6 TreeTooHeavy payload -":           "2^26",
	} {
		it, ok := refusal.Parse(line)
		if !ok {
			t.Errorf("%s: no refusal", line)
			continue
		}
		meanings, ok := page.Meaning(it)
		if got := strings.Join(meanings, "; "); !ok || !strings.Contains(got, want) {
			t.Errorf("%s: means %q, %v", line, got, ok)
		}
	}
	if got, ok := page.Meaning(refusal.Refusal{Stage: 3, Cause: "Ipc.Nothing"}); ok {
		t.Errorf("an unknown cause means %q", got)
	}
}

// Each refusal in the answers of examples/ has a meaning.
func TestMeaningsOfExamples(t *testing.T) {
	page := page(t)
	answers, _ := filepath.Glob("../../../examples/cases/*.stderr")
	deeper, _ := filepath.Glob("../../../examples/cases/*/*.stderr")
	seen := 0
	for _, name := range append(answers, deeper...) {
		text, err := os.ReadFile(name)
		if err != nil {
			t.Fatal(err)
		}
		for _, line := range strings.Split(string(text), "\n") {
			it, ok := refusal.Parse(line)
			if !ok {
				continue
			}
			seen++
			if meanings, ok := page.Meaning(it); !ok {
				t.Errorf("%s: %s: no meaning but %q", name, line, meanings)
			}
		}
	}
	if seen < 100 {
		t.Errorf("only %d refusals in the examples", seen)
	}
}

func TestColumns(t *testing.T) {
	page := page(t)
	for _, want := range []struct {
		payload int
		column  Column
	}{
		{30, Column{Name: "resource.schema_url", Holds: "utf8", Dictionary: true}},
		{30, Column{Name: "severity_number", Holds: "i32", Dictionary: true}},
		{40, Column{Name: "id", Holds: "u16", Coding: "delta"}},
		{40, Column{Name: "trace_id", Holds: "fixed 16"}},
		{10, Column{Name: "metric_type", Holds: "u8"}},
		{13, Column{Name: "bucket_counts", Holds: "list of u64"}},
		{13, Column{Name: "parent_id", Holds: "u16", Coding: "delta"}},
		{20, Column{Name: "parent_id", Holds: "u32", Coding: "delta"}},
		{1, Column{Name: "parent_id", Holds: "u16", Coding: "run"}},
		{45, Column{Name: "parent_id", Holds: "u32", Coding: "run"}},
		{31, Column{Name: "ser", Holds: "binary", Dictionary: true}},
	} {
		if got, ok := page.Column(want.payload, want.column.Name); !ok || got != want.column {
			t.Errorf("payload %d: %+v, %v; not %+v", want.payload, got, ok, want.column)
		}
	}
	if columns := page.Columns(14); columns != nil {
		t.Errorf("payload 14 has columns: %v", columns)
	}
	if table, ok := page.Table(31); !ok || table.Rows != "log attributes" || table.Parent != "`id` of 30" {
		t.Errorf("payload 31: %+v, %v", table, ok)
	}
}

// Each column has a type of those that the page names.
func TestTypes(t *testing.T) {
	page := page(t)
	types := regexp.MustCompile(`^(bool|u8|u16|u32|u64|i32|i64|f64|utf8|binary|fixed (8|16)|timestamp|duration|list of (u64|f64))$`)
	for payload := range page.tables {
		for _, column := range page.Columns(payload) {
			if !types.MatchString(column.Holds) {
				t.Errorf("payload %d: %+v", payload, column)
			}
		}
	}
}

func TestParseRefusesAnotherPage(t *testing.T) {
	if _, err := parse("# Profile\n\nNothing.\n"); err == nil {
		t.Error("a page without tables is read")
	}
}
