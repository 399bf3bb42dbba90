package words

import "testing"

func TestNearest(t *testing.T) {
	jobs := []string{"list", "schema", "show", "encode", "decode", "status", "replay", "tidy"}
	for given, want := range map[string]string{
		"encdoe": "encode", "decod": "decode", "lst": "list", "Status": "status", "tidyy": "tidy", "relpay": "replay",
		"": "", "x": "", "explode": "", "frames": "", "shwo": "show", "encode": "encode",
	} {
		if got := Nearest(given, jobs); got != want {
			t.Errorf("%q: %q, not %q", given, got, want)
		}
	}
}
