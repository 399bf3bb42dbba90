package replies

import (
	"reflect"
	"testing"
)

func TestListed(t *testing.T) {
	id, payloads, err := Listed("batch -7 30:2824 1:1224")
	if err != nil || id != "-7" || !reflect.DeepEqual(payloads, []Payload{{30, 2824}, {1, 1224}}) {
		t.Errorf("read as %s %v %v", id, payloads, err)
	}
	if _, payloads, err := Listed("batch 0"); err != nil || len(payloads) > 0 {
		t.Errorf("no payloads are read as %v, %v", payloads, err)
	}
	for _, line := range []string{"", "reset", "batch 0 30", "batch 0 x:1", "batch 0 30:x"} {
		if _, _, err := Listed(line); err == nil {
			t.Errorf("%q is read", line)
		}
	}
}

func TestReplayed(t *testing.T) {
	got, err := Replayed("batch 3 accepted items 1 rows 34 weight 98")
	if err != nil || got != (Accepted{"3", 1, 34, 98}) {
		t.Errorf("read as %v, %v", got, err)
	}
	if _, err := Replayed("batch 3 refused: stage 1 Compressed payload -"); err == nil {
		t.Error("a refusal is read as an acceptance")
	}
}

func TestSchemas(t *testing.T) {
	got, err := Schemas([]string{
		`payload 30 schema "a \x22 goes on"`,
		"field id u16",
		"field resource struct",
		"field resource.schema_url utf8 dict u8",
		"field trace_id fixed 16",
		"field a b dict utf8",
		"field quantiles list",
		"field quantiles.item f64",
		"field list list",
		"field list.item u64",
		"field n binary dict u16",
		`payload 1 schema "0" goes on`,
	})
	want := []Schema{
		{Type: 30, ID: `a \x22 goes on`, Opens: true, Fields: []Field{
			{"id", "u16", ""}, {"resource.schema_url", "utf8", "u8"}, {"trace_id", "fixed 16", ""}, {"a b dict", "utf8", ""},
			{"quantiles", "list of f64", ""}, {"list", "list of u64", ""}, {"n", "binary", "u16"}}},
		{Type: 1, ID: "0"},
	}
	if err != nil || !reflect.DeepEqual(got, want) {
		t.Errorf("read as %+v, %v", got, err)
	}
	for _, lines := range [][]string{{"field id u16"}, {`payload x schema "0"`}, {`payload 1 schema "0"`, "field id"}, {`payload 1 schema "0"`, "row 0: id=1"}} {
		if _, err := Schemas(lines); err == nil {
			t.Errorf("%q is read", lines)
		}
	}
}
