package report

import (
	"fmt"
	"math"
	"sort"
	"strconv"
	"strings"
)

// names are what the tables of a batch hold, by their payload types.
type names map[int]string

// colours is how many classes of colours there are for payload types.
const colours = 12

// bytesFigure is the bytes of each batch by payload type, and the same batch as OTLP.
func (f *facts) bytesFigure(tables names) figure {
	g := figure{
		ID:     "bytes",
		Title:  "What each batch weighs, by payload type",
		Height: 330,
		Lead: "Bytes of the records of each payload type, one upon the other, and of what else the message holds. " +
			"A line across a bar is the same telemetry as OTLP, and a number above it says how many sub-streams open there.",
		Empty: "The capture has no batch.",
	}
	if f.width > 1 {
		g.Lead += fmt.Sprintf(" A bar stands for %s frames, and shows the mean of their batches.", whole(f.width))
	}
	if f.batches == 0 {
		return g
	}
	types := f.sortedTypes()
	most := 0.0
	for _, b := range f.bins {
		most = math.Max(most, math.Max(mean(b.total(), b.batches), mean(b.otlp, b.accepted)))
	}
	s := newScale(&g, most, unitOf(most), 30, 300, octets)
	a := newAcross(left, wide-right, len(f.bins))
	f.frameAxis(&g, a, 318)
	f.segmentLines(&g, a, 14, 300)
	areas := make([]area, len(types)+1)
	for i := range types {
		areas[i].Class = fmt.Sprintf("bar t%d", i%colours)
	}
	areas[len(types)].Class = "bar rest"
	refused := area{Class: "refused"}
	otlp := area{Class: "otlp"}
	for i, b := range f.bins {
		if b.batches == 0 {
			continue
		}
		sum := 0.0
		stack := func(into *area, bytes int64) {
			if bytes > 0 {
				from := sum
				sum += mean(bytes, b.batches)
				into.Rects = append(into.Rects, rect{X: a.x(i), Y: s.y(sum), W: a.width, H: s.y(from) - s.y(sum)})
			}
		}
		for k, t := range types {
			stack(&areas[k], b.records[t])
		}
		stack(&areas[len(types)], b.rest)
		if b.opening > 0 {
			g.Labels = append(g.Labels, label{X: a.middle(i), Y: s.y(sum) - 4, Class: "c open", Text: openText(a, b.opening)})
		}
		if b.accepted > 0 {
			otlp.Rects = append(otlp.Rects, rect{X: a.x(i), Y: s.y(mean(b.otlp, b.accepted)) - 1, W: a.width, H: 2})
		}
		if b.refused > 0 {
			refused.Rects = append(refused.Rects, rect{X: a.x(i), Y: 18, W: a.width, H: 282})
		}
		g.Hovers = append(g.Hovers, rect{X: a.x(i), Y: 14, W: a.slot, H: 286, Title: f.barTitle(b, types, tables)})
	}
	g.Areas = append(append([]area{refused}, areas...), otlp)
	for i, t := range types {
		g.Legend = append(g.Legend, key{fmt.Sprintf("t%d", i%colours), "box", fmt.Sprintf("%d %s", t, tables[t])})
	}
	g.Legend = append(g.Legend, key{"rest", "box", "the rest of the message"}, key{"otlp", "line", "the same as OTLP"},
		key{"open", "open", "sub-streams that open"}, key{"reset", "line", "reset"}, key{"refused", "box", "a batch is refused"})
	g.Table = f.bytesTable(types, tables)
	return g
}

// openText is the number of openings, or a mark where a bar has no room for it.
func openText(a across, opening int64) string {
	text := "▲" + strconv.FormatInt(opening, 10)
	if a.slot < coord(7*len([]rune(text))) {
		return "▲"
	}
	return text
}

func (b bin) total() int64 {
	sum := b.rest
	for _, bytes := range b.records {
		sum += bytes
	}
	return sum
}

func (f *facts) barTitle(b bin, types []int, tables names) string {
	lines := []string{fmt.Sprintf("%s: %s bytes", b.name(), whole(b.total()))}
	if b.batches > 1 {
		lines[0] += fmt.Sprintf(" in %s batches", whole(b.batches))
	}
	for _, t := range types {
		if b.records[t] > 0 {
			lines = append(lines, fmt.Sprintf("%d %s: %s", t, tables[t], whole(b.records[t])))
		}
	}
	lines = append(lines, fmt.Sprintf("the rest of the message: %s", whole(b.rest)))
	for _, more := range []struct {
		count int64
		text  string
	}{{b.otlp, "as OTLP: %s bytes"}, {b.opening, "sub-streams that open: %s"}, {b.resets, "resets: %s"}, {b.refused, "refused: %s"}} {
		if more.count > 0 {
			lines = append(lines, fmt.Sprintf(more.text, whole(more.count)))
		}
	}
	return strings.Join(lines, "\n")
}

func (f *facts) bytesTable(types []int, tables names) table {
	t := table{Head: []string{"Frames", "Batches", "Refused", "Resets", "Openings"}}
	for _, kind := range types {
		t.Head = append(t.Head, fmt.Sprintf("%d %s", kind, tables[kind]))
	}
	t.Head = append(t.Head, "Rest", "OTAP, accepted", "The same as OTLP")
	for _, b := range f.bins {
		row := []string{b.span(), whole(b.batches), whole(b.refused), whole(b.resets), whole(b.opening)}
		for _, kind := range types {
			row = append(row, whole(b.records[kind]))
		}
		t.Rows = append(t.Rows, append(row, whole(b.rest), whole(b.otap), whole(b.otlp)))
	}
	return t
}

// sofarFigure is OTAP to OTLP over the batches that a segment has had.
func (f *facts) sofarFigure() figure {
	g := figure{
		ID:     "sofar",
		Title:  "How long a stream must live before it pays",
		Height: 300,
		Lead:   f.pays(),
		Empty:  "No batch was accepted, so there is nothing to compare.",
		Table: table{Head: []string{"Batches of the segment", "Segments", "OTAP so far", "OTLP so far", "OTAP / OTLP",
			"OTAP by zstd", "OTLP by zstd", "Both by zstd", "This batch alone", "Alone, both by zstd"}},
	}
	if len(f.steps) == 0 {
		return g
	}
	most := 1.0
	for _, s := range f.steps {
		most = math.Max(most, math.Max(mean(s.otap.plain, s.otlp.plain), mean(s.otap.packed, s.otlp.packed)))
	}
	y := newScale(&g, most*1.05, 1, 14, 250, short)
	last := f.steps[len(f.steps)-1].batch
	x := newLogScale(1, math.Max(float64(last), 2), left+10, wide-right-10)
	x.most = math.Max(float64(last), 2)
	for _, v := range x.ticks() {
		g.Labels = append(g.Labels, label{X: x.at(v), Y: 268, Class: "c", Text: whole(int64(v))})
		g.Lines = append(g.Lines, line{x.at(v), 250, x.at(v), 254, "axis"})
	}
	g.Labels = append(g.Labels, label{X: wide - right, Y: 288, Class: "r", Text: "batches since the segment began"})
	g.Lines = append(g.Lines, line{left, y.y(1), wide - right, y.y(1), "even"})
	g.Labels = append(g.Labels, label{X: wide - right, Y: y.y(1) - 4, Class: "r halo", Text: "as many bytes as OTLP"})
	for _, series := range []struct {
		class string
		of    func(s step) (int64, int64)
		text  string
	}{
		{"plainly", func(s step) (int64, int64) { return s.otap.plain, s.otlp.plain }, "plain"},
		{"packed", func(s step) (int64, int64) { return s.otap.packed, s.otlp.packed }, "both by zstd"},
	} {
		var points []string
		marks := dots{Class: series.class}
		for _, s := range f.steps {
			a, b := series.of(s)
			px, py := x.at(float64(s.batch)), y.y(mean(a, b))
			points = append(points, px.String()+","+py.String())
			marks.Dots = append(marks.Dots, dot{px, py, 2.5, fmt.Sprintf("after %s batches, %s: %s", whole(s.batch), series.text, ratio(a, b))})
		}
		g.Curves = append(g.Curves, curve{series.class, strings.Join(points, " ")})
		g.Dots = append(g.Dots, marks)
	}
	g.Legend = []key{{"plainly", "dot", "as they are"}, {"packed", "dot", "both compressed by zstd, each message by itself"}}
	for _, s := range f.steps {
		g.Table.Rows = append(g.Table.Rows, []string{whole(s.batch), whole(s.segments), whole(s.otap.plain), whole(s.otlp.plain), ratio(s.otap.plain, s.otlp.plain),
			whole(s.otap.packed), whole(s.otlp.packed), ratio(s.otap.packed, s.otlp.packed), ratio(s.one.plain, s.other.plain), ratio(s.one.packed, s.other.packed)})
	}
	return g
}

// pays says from which batch on a segment is smaller than OTLP.
func (f *facts) pays() string {
	from := func(of func(s step) (int64, int64)) string {
		at := int64(0)
		for i := len(f.steps) - 1; i >= 0; i-- {
			if a, b := of(f.steps[i]); a >= b {
				break
			}
			at = f.steps[i].batch
		}
		switch at {
		case 0:
			return "isn't smaller even at the end of the longest segment"
		case 1:
			return "is smaller from the first batch on"
		}
		return fmt.Sprintf("is smaller from batch %s of a segment on", whole(at))
	}
	if len(f.steps) == 0 {
		return ""
	}
	return fmt.Sprintf("All bytes since a segment began, OTAP to OTLP. As they are, OTAP %s; with both compressed, it %s. Where several segments come so far, they are added up.",
		from(func(s step) (int64, int64) { return s.otap.plain, s.otlp.plain }),
		from(func(s step) (int64, int64) { return s.otap.packed, s.otlp.packed }))
}

// itemsFigure is the bytes of an item over the items of a batch.
func (f *facts) itemsFigure() figure {
	g := figure{
		ID:     "items",
		Title:  "How large batches should be",
		Height: 310,
		Lead:   "Bytes an item over items a batch, each dot a batch; both axes grow by factors. The line is OTLP's mean for the whole capture.",
		Empty:  "No accepted batch has an item.",
		Table:  table{Head: []string{"Items a batch", "Batches", "With an opening", "Items", "Bytes", "Bytes an item"}},
	}
	points := f.spread.all()
	if len(points) == 0 {
		return g
	}
	if f.spread.points == nil {
		g.Lead += fmt.Sprintf(" Of %s batches those that lie close together are one dot, the larger the more they are.", whole(f.spread.batches))
	}
	otlp := mean(f.otlp.plain, f.items)
	least, most, low, high := math.Inf(1), 0.0, otlp, otlp
	for _, p := range points {
		items, bytes := mean(p.items, p.batches), mean(p.bytes, p.items)
		least, most = math.Min(least, items), math.Max(most, items)
		low, high = math.Min(low, bytes), math.Max(high, bytes)
	}
	x := newLogScale(least, most, left+14, wide-right-14)
	y := newLogScale(math.Max(low, 0.01), math.Max(high, 0.01), 255, 16)
	for _, v := range x.ticks() {
		g.Labels = append(g.Labels, label{X: x.at(v), Y: 276, Class: "c", Text: whole(int64(v))})
		g.Lines = append(g.Lines, line{x.at(v), 258, x.at(v), 262, "axis"})
	}
	for _, v := range y.ticks() {
		g.Labels = append(g.Labels, label{X: left - 8, Y: y.at(v) + 4, Class: "r", Text: shortOrWhole(v)})
		g.Lines = append(g.Lines, line{left, y.at(v), wide - right, y.at(v), "grid"})
	}
	g.Labels = append(g.Labels, label{X: left + 4, Y: 10, Class: "s", Text: "bytes an item"})
	g.Labels = append(g.Labels, label{X: wide - right, Y: 298, Class: "r", Text: "items a batch"})
	if otlp > 0 {
		g.Lines = append(g.Lines, line{left, y.at(otlp), wide - right, y.at(otlp), "mean"})
		g.Labels = append(g.Labels, label{X: wide - right, Y: y.at(otlp) - 4, Class: "r halo", Text: "OTLP: " + short(otlp)})
	}
	opens, goes := dots{Class: "opens"}, dots{Class: "goes"}
	for _, p := range points {
		into := &goes
		if p.opening > 0 {
			into = &opens
		}
		into.Dots = append(into.Dots, dot{x.at(mean(p.items, p.batches)), y.at(mean(p.bytes, p.items)), 3 + coord(math.Min(6, math.Log10(float64(p.batches))*1.5)), p.title()})
	}
	g.Dots = []dots{goes, opens}
	g.Legend = []key{{"opens", "dot", "a sub-stream opens"}, {"goes", "dot", "all sub-streams go on"}, {"mean", "line", "the same as OTLP, mean"}}
	powers := make([]int, 0, len(f.spread.groups))
	for power := range f.spread.groups {
		powers = append(powers, power)
	}
	sort.Ints(powers)
	for _, power := range powers {
		one := f.spread.groups[power]
		from := int64(1) << power
		name := whole(from)
		if power > 0 {
			name = whole(from) + "–" + whole(2*from-1)
		}
		g.Table.Rows = append(g.Table.Rows, []string{name, whole(one.batches), whole(one.opening), whole(one.items), whole(one.bytes), short(mean(one.bytes, one.items))})
	}
	return g
}

func (p point) title() string {
	if p.batches == 1 {
		return fmt.Sprintf("frame %d: %s items, %s bytes, %s an item", p.frame, whole(p.items), whole(p.bytes), short(mean(p.bytes, p.items)))
	}
	return fmt.Sprintf("%s batches, the first frame %d: %s items and %s bytes in the mean, %s an item", whole(p.batches), p.frame,
		short(mean(p.items, p.batches)), short(mean(p.bytes, p.batches)), short(mean(p.bytes, p.items)))
}

// refusedTable is what was refused, by stage, cause and payload.
func (f *facts) refusedTable(tables names) table {
	t := table{Head: []string{"Stage", "Cause", "Payload", "Frames", "Which"}}
	keys := make([]refusalKey, 0, len(f.refusals))
	for key := range f.refusals {
		keys = append(keys, key)
	}
	sort.Slice(keys, func(i, j int) bool {
		a, b := f.refusals[keys[i]], f.refusals[keys[j]]
		return a.frames[0] < b.frames[0]
	})
	for _, key := range keys {
		one := f.refusals[key]
		payload := key.payload
		if kind, err := strconv.Atoi(key.payload); err == nil && tables[kind] != "" {
			payload += " " + tables[kind]
		}
		var which []string
		for _, number := range one.frames {
			which = append(which, strconv.FormatInt(number, 10))
		}
		if one.count > int64(len(one.frames)) {
			which = append(which, "…")
		}
		t.Rows = append(t.Rows, []string{strconv.Itoa(key.stage), key.cause, payload, whole(one.count), strings.Join(which, ", ")})
	}
	return t
}
