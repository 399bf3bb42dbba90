package report

import (
	"fmt"
	"math"
	"sort"
	"strconv"
	"strings"
)

// The shapes of a chart, as the template writes them. Each text is plain: the template escapes it.
type (
	// figure is a chart with its title, a sentence on how to read it, and the table of its numbers.
	figure struct {
		ID, Title, Lead string
		Height          coord
		Lines           []line
		Areas           []area // rects of one class
		Curves          []curve
		Dots            []dots
		Labels          []label
		Hovers          []rect // transparent, over a whole bar, with a title
		Legend          []key
		Table           table
		Empty           string // what stands in the place of a chart that has nothing to show
	}
	line struct {
		X1, Y1, X2, Y2 coord
		Class          string
	}
	area struct {
		Class string
		Rects []rect
	}
	rect struct {
		X, Y, W, H coord
		Title      string
	}
	curve struct{ Class, Points string }
	dots  struct {
		Class string
		Dots  []dot
	}
	dot struct {
		X, Y, R coord
		Title   string
	}
	label struct {
		X, Y        coord
		Class, Text string
		Title       string
	}
	key   struct{ Class, Mark, Text string }
	table struct {
		Head []string
		Rows [][]string
	}
)

// coord is a number of pixels, written with one decimal at most.
type coord float64

func (c coord) String() string {
	return strconv.FormatFloat(math.Round(float64(c)*10)/10, 'f', -1, 64)
}

const (
	wide  = 1000 // of each chart
	left  = 70   // where the bars begin
	right = 14
)

// across is where the bins stand.
type across struct {
	from, slot, width coord
}

func newAcross(from, to coord, bins int) across {
	if bins == 0 {
		bins = 1
	}
	slot := (to - from) / coord(bins)
	if slot > 56 {
		slot = 56
	}
	gap := slot * 0.15
	if gap > 2 {
		gap = 2
	}
	return across{from, slot, slot - gap}
}

func (a across) x(bin int) coord      { return a.from + a.slot*coord(bin) }
func (a across) middle(bin int) coord { return a.x(bin) + a.width/2 }

// frameAxis writes the numbers of some frames below the bars.
func (f *facts) frameAxis(g *figure, a across, y coord) {
	every := 1
	for coord(every)*a.slot < 60 {
		every = nextRound(every)
	}
	for i := 0; i < len(f.bins); i += every {
		g.Labels = append(g.Labels, label{X: a.middle(i), Y: y, Class: "c", Text: strconv.FormatInt(f.bins[i].first, 10)})
	}
	g.Labels = append(g.Labels, label{X: a.from - 8, Y: y, Class: "r", Text: "frame"})
}

// nextRound is the next of 1, 2, 5, 10, 20, 50 ...
func nextRound(n int) int {
	for ten := 1; ; ten *= 10 {
		for _, m := range []int{1, 2, 5} {
			if m*ten > n {
				return m * ten
			}
		}
	}
}

// scale is a vertical axis that begins at 0.
type scale struct {
	top       float64
	high, low coord // y of top and of 0
}

func (s scale) y(v float64) coord { return s.low - coord(v/s.top)*(s.low-s.high) }

// newScale writes an axis with up to six lines, at round numbers of the unit.
func newScale(g *figure, most, unit float64, high, low coord, text func(float64) string) scale {
	if most <= 0 {
		most = 1
	}
	step := math.Pow(10, math.Floor(math.Log10(most/unit))) * unit
	for _, part := range []float64{0.1, 0.2, 0.5, 1} {
		if most/(step*part) <= 6 {
			step *= part
			break
		}
	}
	s := scale{top: math.Max(most*1.02, step), high: high, low: low}
	for i := 0; float64(i)*step <= s.top; i++ {
		v := float64(i) * step
		g.Lines = append(g.Lines, line{left, s.y(v), wide - right, s.y(v), "grid"})
		g.Labels = append(g.Labels, label{X: left - 8, Y: s.y(v) + 4, Class: "r", Text: text(v)})
	}
	return s
}

// logScale is an axis of factors; where it runs from low to high values is said in pixels.
type logScale struct {
	least, most float64
	from, to    coord
}

func (s logScale) at(v float64) coord {
	if s.most <= s.least {
		return s.from
	}
	return s.from + coord(math.Log(v/s.least)/math.Log(s.most/s.least))*(s.to-s.from)
}

// newLogScale has its ends at round numbers around the values.
func newLogScale(least, most float64, from, to coord) logScale {
	s := logScale{roundDown(least), -roundDown(-most), from, to}
	if s.most <= s.least {
		s.most = s.least * 2
	}
	return s
}

// roundDown gives the greatest of 1, 2, 5, 10 ... that isn't above v, and of -1, -2, -5 ... for a negative v.
func roundDown(v float64) float64 {
	size := math.Abs(v)
	ten := math.Pow(10, math.Floor(math.Log10(size)))
	steps := []float64{1, 2, 5, 10}
	if v < 0 {
		for _, m := range steps {
			if m*ten >= size*(1-1e-9) {
				return -m * ten
			}
		}
	}
	best := ten
	for _, m := range steps {
		if m*ten <= size*(1+1e-9) {
			best = m * ten
		}
	}
	return best
}

// ticks are the round numbers on the axis, some seven at most.
func (s logScale) ticks() []float64 {
	var all []float64
	for ten := math.Pow(10, math.Floor(math.Log10(s.least))); ten <= s.most*1.001; ten *= 10 {
		for _, m := range []float64{1, 2, 5} {
			if v := m * ten; v >= s.least*0.999 && v <= s.most*1.001 {
				all = append(all, v)
			}
		}
	}
	if len(all) < 4 {
		return s.tenths()
	}
	if len(all) <= 10 {
		return all
	}
	var tens []float64
	for _, v := range all {
		if l := math.Log10(v); math.Abs(l-math.Round(l)) < 1e-6 {
			tens = append(tens, v)
		}
	}
	return tens
}

// tenths are up to six round numbers at even distances, for an axis that has few others.
func (s logScale) tenths() []float64 {
	step := math.Pow(10, math.Floor(math.Log10(s.most)))
	for _, part := range []float64{0.1, 0.2, 0.5, 1} {
		if (s.most-s.least)/(step*part) <= 6 {
			step *= part
			break
		}
	}
	var all []float64
	for v := math.Ceil(s.least/step) * step; v <= s.most*1.001; v += step {
		if v == math.Trunc(v) || s.least < 1 {
			all = append(all, v)
		}
	}
	return all
}

// unitOf is the greatest of 1, 1024 and so on that isn't above the bytes.
func unitOf(bytes float64) float64 {
	unit := 1.0
	for bytes >= 1024*unit && unit < 1<<30 {
		unit *= 1024
	}
	return unit
}

// whole writes 1234567 as 1,234,567.
func whole(n int64) string {
	text := strconv.FormatInt(n, 10)
	sign := ""
	if n < 0 {
		sign, text = "-", text[1:]
	}
	var parts []string
	for len(text) > 3 {
		parts = append([]string{text[len(text)-3:]}, parts...)
		text = text[:len(text)-3]
	}
	return sign + strings.Join(append([]string{text}, parts...), ",")
}

// octets writes a number of bytes in three digits, as 12.3 KiB.
func octets(n float64) string {
	for _, unit := range []string{"B", "KiB", "MiB"} {
		if n < 1000 {
			return short(n) + " " + unit
		}
		n /= 1024
	}
	return short(n) + " GiB"
}

// short writes a number in three digits.
func short(v float64) string {
	switch {
	case v == math.Trunc(v) || v >= 100:
		return strconv.FormatFloat(v, 'f', 0, 64)
	case v >= 10:
		return strconv.FormatFloat(v, 'f', 1, 64)
	}
	return strconv.FormatFloat(v, 'f', 2, 64)
}

// shortOrWhole writes a round number, with commas from 1,000 on.
func shortOrWhole(v float64) string {
	if v >= 1000 {
		return whole(int64(v))
	}
	return short(v)
}

// ratio writes a divided by b with three decimals, or - where b is 0.
func ratio(a, b int64) string {
	if b == 0 {
		return "-"
	}
	return strconv.FormatFloat(float64(a)/float64(b), 'f', 3, 64)
}

// frames names the frames of a bin.
func (b bin) name() string {
	if b.first == b.last {
		return fmt.Sprintf("frame %d", b.first)
	}
	return fmt.Sprintf("frames %d to %d", b.first, b.last)
}

// span is the same for the first cell of a table's row.
func (b bin) span() string {
	if b.first == b.last {
		return strconv.FormatInt(b.first, 10)
	}
	return fmt.Sprintf("%d–%d", b.first, b.last)
}

func (f *facts) sortedTypes() []int {
	types := make([]int, 0, len(f.types))
	for t := range f.types {
		types = append(types, t)
	}
	sort.Ints(types)
	return types
}

// mean divides, and is 0 where there is nothing to divide by.
func mean(sum, count int64) float64 {
	if count == 0 {
		return 0
	}
	return float64(sum) / float64(count)
}
