package refusal

import "testing"

func TestParse(t *testing.T) {
	for line, want := range map[string]Refusal{
		"frame 0: batch - refused: stage 1 Compressed payload -": {Frame: 0, Stage: 1, Batch: "-", Cause: "Compressed", Payload: "-"},
		"frame 12: batch 7 refused: stage 3 Ipc.Schema.Flat.BadVtable payload 30": {Frame: 12, Stage: 3, Batch: "7",
			Cause: "Ipc.Schema.Flat.BadVtable", Payload: "30"},
		"frame 1: batch -4 refused: stage 0 Broken payload -": {Frame: 1, Stage: 0, Batch: "-4", Cause: "Broken", Payload: "-"},
		"frame 3: request refused: Repeated":                  {Frame: 3, Stage: Requests, Cause: "Repeated"},
	} {
		if got, ok := Parse(line); !ok || got != want {
			t.Errorf("%s: read as %+v, %v", line, got, ok)
		}
	}
	for _, line := range []string{"", "frame 0: reset", "otap: words not understood", "damage at 12: Truncated",
		"frame 3: request refused: ", "frame x: request refused: Repeated"} {
		if got, ok := Parse(line); ok {
			t.Errorf("%s: read as %+v", line, got)
		}
	}
}

func TestParseDamage(t *testing.T) {
	offset, reason, ok := ParseDamage("damage at 12: Truncated")
	if offset != 12 || reason != "Truncated" || !ok {
		t.Errorf("read as %d %s %v", offset, reason, ok)
	}
	if _, _, ok := ParseDamage("damage at : Truncated"); ok {
		t.Error("a line without an offset is read")
	}
}
