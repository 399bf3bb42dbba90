package report

import (
	"bytes"
	"fmt"
	"strings"
	"testing"

	"finavoluth/edge/internal/refusal"
	"finavoluth/edge/internal/replies"
)

// made is the page of frames that a function makes.
func made(t *testing.T, count int64, one func(i int64) frame) (*facts, string) {
	t.Helper()
	f := newFacts(count)
	for i := int64(0); i < count; i++ {
		if err := f.take(one(i)); err != nil {
			t.Fatal(err)
		}
	}
	v := view{Name: "x", Figures: []figure{f.columnsFigure(nil), f.bytesFigure(nil), f.sofarFigure(), f.itemsFigure()},
		Totals: f.totals(), Refused: f.refusedTable(nil), Notes: f.notes(Source{})}
	var text bytes.Buffer
	if err := (&Page{v}).Write(&text); err != nil {
		t.Fatal(err)
	}
	return f, text.String()
}

// busy is a frame of a capture in which much changes: forms, sizes, refusals and resets.
func busy(i int64) frame {
	if i%5000 == 4999 {
		return frame{number: i, reset: true}
	}
	f := frame{number: i, listed: true, accepted: true, items: 1 + i*i%9973, batch: size{1000 + i%777, 500}, request: size{2000, 600},
		payloads: []replies.Payload{{Type: 30, Length: 600}, {Type: 31, Length: 300}}}
	for kind := 30; kind < 32; kind++ {
		s := replies.Schema{Type: kind, ID: "0", Opens: i%3 == 0}
		for c := 0; s.Opens && c < 60; c++ {
			field := replies.Field{Name: fmt.Sprintf("column.%d", c), Type: "utf8", Dictionary: [...]string{"u8", "u16", ""}[(i+int64(c))%3]}
			if i%int64(c+2) > 0 {
				s.Fields = append(s.Fields, field)
			}
		}
		f.schemas = append(f.schemas, s)
	}
	if i%997 == 5 {
		f.accepted, f.refusal = false, refusal.Refusal{Frame: int(i), Stage: 3, Cause: fmt.Sprintf("Cause%d", i%40), Payload: "30"}
	}
	return f
}

func TestAPageOfManyFramesIsBelowFiveMegabytes(t *testing.T) {
	const count = 20_000
	f, text := made(t, count, busy)
	if len(text) >= 5_000_000 {
		t.Errorf("the page has %d bytes", len(text))
	}
	if len(f.bins) > maxBins {
		t.Errorf("%d bins", len(f.bins))
	}
	var batches, refused int64
	for _, b := range f.bins {
		batches += b.batches
		refused += b.refused
	}
	if batches != count-count/5000 || refused != f.refused || f.refused == 0 {
		t.Errorf("%d batches and %d refused in the bins, %d refused in all", batches, refused, f.refused)
	}
}

func TestTextsAreEscaped(t *testing.T) {
	const evil = `</svg><script>alert("1")</script>'`
	one := frame{listed: true, accepted: true, items: 1, batch: size{9, 9}, request: size{9, 9},
		payloads: []replies.Payload{{Type: 30, Length: 5}},
		schemas:  []replies.Schema{{Type: 30, ID: evil, Opens: true, Fields: []replies.Field{{Name: evil, Type: "utf8"}}}}}
	_, text := made(t, 1, func(int64) frame { return one })
	if strings.Contains(text, "<script") || strings.Count(text, "</svg>") != 4 {
		t.Error("a name is markup")
	}
	if !strings.Contains(text, "&lt;/svg&gt;&lt;script&gt;") {
		t.Error("a name isn't on the page")
	}
}

func TestNoFrames(t *testing.T) {
	_, text := made(t, 0, nil)
	if strings.Contains(text, "<svg") {
		t.Error("a chart of nothing")
	}
}

func TestRoundNumbers(t *testing.T) {
	for _, it := range []struct{ n, want int }{{1, 2}, {2, 5}, {5, 10}, {9, 10}, {10, 20}, {49, 50}, {50, 100}} {
		if got := nextRound(it.n); got != it.want {
			t.Errorf("after %d: %d", it.n, got)
		}
	}
	for _, it := range []struct{ v, want float64 }{{1, 1}, {1.9, 1}, {2, 2}, {7, 5}, {10, 10}, {0.3, 0.2}, {-1, -1}, {-3, -5}, {-11, -20}, {-600, -1000}} {
		if got := roundDown(it.v); got < it.want-1e-9 || got > it.want+1e-9 {
			t.Errorf("of %v: %v", it.v, got)
		}
	}
	for n, want := range map[int64]string{0: "0", 999: "999", 1000: "1,000", 1234567: "1,234,567", -1000: "-1,000"} {
		if got := whole(n); got != want {
			t.Errorf("%d is written %s", n, got)
		}
	}
}
