package report

import (
	"fmt"
	"sort"
	"strconv"
	"strings"
)

// How many columns the first chart shows at most, and how many marks: beyond these no further column is drawn.
const (
	maxStrips = 160
	maxMarks  = 12000
)

// cell is the form of a column in one bin: its type, whether the table has rows there, and what class that is drawn in.
type cell struct{ class, text string }

var (
	noTable = cell{"", ""} // no accepted batch of the bin has a payload of the table: nothing is drawn
	absent  = cell{"absent", "absent"}
)

func formOf(text string) cell {
	switch {
	case strings.HasSuffix(text, " dict u8"):
		return cell{"dict8", text}
	case strings.HasSuffix(text, " dict u16"):
		return cell{"dict16", text}
	}
	return cell{"plain", text}
}

// cells are the forms of a column over the bins, by the last accepted batch of each that has its table.
func (f *facts) cells(c column) []cell {
	cells := make([]cell, len(f.bins))
	for i, b := range f.bins {
		s := b.schemas[c.table]
		if s == nil {
			continue
		}
		if text, has := s.types[c.name]; has {
			cells[i] = formOf(text)
		} else {
			cells[i] = absent
		}
	}
	return cells
}

// shown are the columns in the order of the chart: those that change most often first, then by table, and in the order
// in which they were first seen.
func (f *facts) shown() []column {
	columns := make([]column, 0, len(f.columns))
	for c := range f.columns {
		columns = append(columns, c)
	}
	sort.Slice(columns, func(i, j int) bool {
		a, b := columns[i], columns[j]
		if x, y := f.columns[a].changes, f.columns[b].changes; x != y {
			return x > y
		}
		if a.table != b.table {
			return a.table < b.table
		}
		return f.columns[a].seen < f.columns[b].seen
	})
	return columns
}

// columnsFigure is the strip of each column over the batches.
func (f *facts) columnsFigure(tables names) figure {
	g := figure{
		ID:    "columns",
		Title: "Which column makes a sub-stream open again",
		Lead: "A strip for each column, over the batches. Where a column changes its form inside a segment (a mark), its payload opens a new sub-stream, " +
			"and sends its schema and dictionaries again. Columns that change most are at the top.",
		Empty: "No batch was accepted, so no column is known.",
		Table: table{Head: []string{"Table", "Column", "Changes", "Forms, by the frame in which each is first seen"}},
	}
	all := f.shown()
	columns := all[:f.fits(all)]
	if len(columns) < len(all) {
		g.Lead += fmt.Sprintf(" Of %d columns the first %d are shown.", len(all), len(columns))
	}
	if len(columns) == 0 {
		return g
	}
	const row, top = 15, 22
	a := newAcross(330, wide-60, len(f.bins))
	g.Height = coord(top + row*len(columns) + 26)
	areas := map[string]*area{}
	order := []string{"dict8", "dict16", "plain", "absent"}
	for _, class := range order {
		areas[class] = &area{Class: "run " + class}
	}
	changes := area{Class: "change"}
	for i, c := range columns {
		y := coord(top + row*i)
		f.strip(&g, a, y, c, tables, areas, &changes)
	}
	for _, class := range order {
		g.Areas = append(g.Areas, *areas[class])
	}
	g.Areas = append(g.Areas, changes)
	g.Labels = append(g.Labels, label{X: wide - 4, Y: top - 8, Class: "r", Text: "changes"})
	f.segmentLines(&g, a, top-4, g.Height-24)
	f.frameAxis(&g, a, g.Height-8)
	g.Legend = []key{
		{"dict8", "box", "dictionary, indexes of 8 bits"}, {"dict16", "box", "dictionary, indexes of 16 bits"},
		{"plain", "box", "plain: its values as they are"}, {"absent", "box", "absent: no row had a value"},
		{"change", "bar", "changes its form"}, {"reset", "line", "reset"},
	}
	return g
}

// fits is how many of the columns are drawn.
func (f *facts) fits(columns []column) int {
	marks := 0
	for n, c := range columns {
		var before cell
		for _, now := range f.cells(c) {
			if now != before && now != noTable {
				marks++
			}
			before = now
		}
		marks += len(f.columns[c].at)
		if n == maxStrips || n > 0 && marks > maxMarks {
			return n
		}
	}
	return len(columns)
}

// strip draws one column, runs of bins with one form as one rect, and writes its row of the table.
func (f *facts) strip(g *figure, a across, y coord, c column, tables names, areas map[string]*area, changes *area) {
	s := f.columns[c]
	class := ""
	if s.changes > 0 {
		class = "b"
		g.Labels = append(g.Labels, label{X: wide - 4, Y: y + 11, Class: "r b", Text: whole(s.changes)})
	}
	full := fmt.Sprintf("%d %s: %s", c.table, tables[c.table], c.name)
	g.Labels = append(g.Labels,
		label{X: 4, Y: y + 11, Class: "s", Text: cut(fmt.Sprintf("%d %s", c.table, tables[c.table]), 26), Title: full},
		label{X: 162, Y: y + 11, Class: class, Text: cut(c.name, 26), Title: full})
	cells := f.cells(c)
	var forms []string
	for i := 0; i < len(cells); {
		end := i + 1
		for end < len(cells) && cells[end] == cells[i] {
			end++
		}
		if now := cells[i]; now != noTable {
			run := bin{first: f.bins[i].first, last: f.bins[end-1].last}
			areas[now.class].Rects = append(areas[now.class].Rects,
				rect{a.x(i), y + 1, a.x(end-1) + a.width - a.x(i), 12, fmt.Sprintf("%s, %s: %s", c.name, run.name(), now.text)})
			if len(forms) < 6 {
				forms = append(forms, fmt.Sprintf("%d: %s", run.first, now.text))
			} else if len(forms) == 6 {
				forms = append(forms, "…")
			}
		}
		i = end
	}
	bins := make([]int, 0, len(s.at))
	for i := range s.at {
		bins = append(bins, i)
	}
	sort.Ints(bins)
	for _, i := range bins {
		changes.Rects = append(changes.Rects, rect{a.x(i) - 0.5, y, 3, 14,
			fmt.Sprintf("%s, %s: changes %d", c.name, f.bins[i].name(), s.at[i])})
	}
	g.Table.Rows = append(g.Table.Rows, []string{strconv.Itoa(c.table) + " " + tables[c.table], c.name, whole(s.changes), strings.Join(forms, "; ")})
}

// segmentLines draws a line for each bin with a reset.
func (f *facts) segmentLines(g *figure, a across, high, low coord) {
	for i, b := range f.bins {
		if b.resets > 0 {
			x := a.middle(i)
			g.Lines = append(g.Lines, line{x, high, x, low, "reset"})
		}
	}
}

// cut shortens a text to so many characters.
func cut(text string, most int) string {
	letters := []rune(text)
	if len(letters) <= most {
		return text
	}
	return string(letters[:most-1]) + "…"
}
