package signal

import "testing"

func TestWordsAreReadBack(t *testing.T) {
	for _, s := range All() {
		if back, err := Parse(s.String()); err != nil || back != s {
			t.Errorf("%v is read as %v, %v", s, back, err)
		}
	}
	for _, word := range []string{"", "log", "Logs", "logs "} {
		if s, err := Parse(word); err == nil {
			t.Errorf("%q is read as %v", word, s)
		}
	}
}

func TestOthers(t *testing.T) {
	for _, s := range All() {
		others := s.Others()
		if len(others) != 2 || others[0] == s || others[1] == s || others[0] == others[1] {
			t.Errorf("the others of %v: %v", s, others)
		}
	}
}
