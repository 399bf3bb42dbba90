// Package profile reads docs/PROFILE.md, which is embedded when the command is built: what each cause of a refusal means,
// and the columns of each table of a batch. It trusts the page, and its tests find on it all that the package is asked for.
package profile

import (
	_ "embed" // the page, as edge/build puts it there
	"strings"
)

//go:embed out/PROFILE.md
var text string

// A Page is the profile, taken apart. Read is called once, by main or a test; a Page doesn't change.
type Page struct {
	sections map[string][]table // the tables below each heading, in their order
	columns  map[int][]Column   // of each payload type
	tables   map[int]Table      // by payload type
}

// table is one of the page's tables: the words of its head, and its rows.
type table struct {
	head []string
	rows [][]string
}

// Read takes the embedded page apart.
func Read() (*Page, error) { return parse(text) }

func parse(text string) (*Page, error) {
	page := &Page{sections: map[string][]table{}}
	heading := ""
	var open *table
	for _, line := range strings.Split(text, "\n") {
		if strings.HasPrefix(line, "#") {
			heading = strings.TrimSpace(strings.TrimLeft(line, "#"))
		}
		if !strings.HasPrefix(line, "|") {
			open = nil
			continue
		}
		cells := cellsOf(line)
		switch {
		case open == nil:
			page.sections[heading] = append(page.sections[heading], table{head: cells})
			open = &page.sections[heading][len(page.sections[heading])-1]
		case strings.Trim(strings.Join(cells, ""), "-: ") != "":
			open.rows = append(open.rows, cells)
		}
	}
	if err := page.readTables(); err != nil {
		return nil, err
	}
	return page, page.readColumns(text)
}

func cellsOf(line string) []string {
	cells := strings.Split(strings.Trim(strings.TrimSpace(line), "|"), "|")
	for i := range cells {
		cells[i] = strings.TrimSpace(cells[i])
	}
	return cells
}

// row is the row of a section's tables that begins with these cells, in the tables whose head begins with `first`.
func (p *Page) row(section, first string, begins ...string) ([]string, bool) {
	for _, it := range p.sections[section] {
		if it.head[0] != first {
			continue
		}
		for _, row := range it.rows {
			if startsWith(row, begins) {
				return row, true
			}
		}
	}
	return nil, false
}

func startsWith(row, cells []string) bool {
	if len(row) < len(cells) {
		return false
	}
	for i := range cells {
		if row[i] != cells[i] && !strings.HasPrefix(row[i], cells[i]+" and the ") {
			return false
		}
	}
	return true
}
