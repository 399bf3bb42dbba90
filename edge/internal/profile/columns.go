package profile

import (
	"fmt"
	"regexp"
	"strconv"
	"strings"
)

// A Table is one of the tables of a batch.
type Table struct {
	Type   int    // the payload type
	Signal string // "all", or the signal; a main table says so, as in "logs, main"
	Rows   string // what its rows are, as "log records"
	Parent string // what the rows' parents are, as "`id` of 30"; empty for a main table
}

// A Column is one of the columns that the profile knows.
type Column struct {
	Name       string // with dots where it is in structs
	Holds      string // as `schema` prints it, without a dictionary: "utf8", "fixed 16", "list of f64"
	Dictionary bool   // whether the exporter writes a dictionary
	Coding     string // of a column of ids: "delta" or "run"; else empty
}

// Table is the table of a payload type.
func (p *Page) Table(payload int) (Table, bool) {
	table, ok := p.tables[payload]
	return table, ok
}

// Rows is what the rows of each payload type's table are.
func (p *Page) Rows() map[int]string {
	rows := make(map[int]string, len(p.tables))
	for payload, table := range p.tables {
		rows[payload] = table.Rows
	}
	return rows
}

// Columns lists the columns of a payload type's table, in their order. It has none for a type that the profile doesn't have.
func (p *Page) Columns(payload int) []Column { return p.columns[payload] }

// Column finds a column of a payload type's table by its name.
func (p *Page) Column(payload int, name string) (Column, bool) {
	for _, column := range p.columns[payload] {
		if column.Name == name {
			return column, true
		}
	}
	return Column{}, false
}

func (p *Page) readTables() error {
	p.tables = map[int]Table{}
	for _, it := range p.sections["Tables of a batch"] {
		for _, row := range it.rows {
			number, err := strconv.Atoi(row[0])
			if err != nil || len(row) < 4 {
				return fmt.Errorf("the profile's tables of a batch: a row without a number: %q", row)
			}
			table := Table{Type: number, Signal: row[1], Rows: row[2]}
			if len(row) > 4 {
				table.Parent = row[4]
			}
			p.tables[number] = table
		}
	}
	if len(p.tables) == 0 {
		return fmt.Errorf("the profile has no tables of a batch")
	}
	return nil
}

var (
	begin  = regexp.MustCompile("^Each .*\\((\\d+(?:, \\d+)*)\\) begins with$")
	number = regexp.MustCompile(`\d+`)
	pair   = regexp.MustCompile(`\([^)]*\)`)
)

// readColumns reads the lists of columns. The line before a list names its tables: by the numbers that it begins with, or
// in brackets; "begins with" and "then" mean that a table has both lists.
func (p *Page) readColumns(text string) error {
	p.columns = map[int][]Column{}
	begins := map[int][]Column{}
	var before string
	var list []Column
	inside := false
	for _, line := range strings.Split(section(text, "### Columns"), "\n") {
		switch {
		case line == "```" && inside:
			inside = false
			p.take(before, list, begins)
			list = nil
		case line == "```":
			inside = true
		case inside:
			columns, err := columnsOf(line)
			if err != nil {
				return err
			}
			list = append(list, columns...)
		case line != "":
			before = line
		}
	}
	for payload := range p.tables {
		if len(p.columns[payload]) == 0 {
			return fmt.Errorf("the profile has no columns for the payload type %d", payload)
		}
	}
	return nil
}

// take puts a list to the tables that the line before it names.
func (p *Page) take(before string, list []Column, begins map[int][]Column) {
	if it := begin.FindStringSubmatch(before); it != nil {
		for _, payload := range numbers(it[1]) {
			begins[payload] = list
		}
		return
	}
	named := before
	if brackets := pair.FindString(before); brackets != "" && !strings.ContainsAny(before[:1], "0123456789") {
		named = brackets
	}
	for _, payload := range numbers(ofTypes(named)) {
		columns := append(append([]Column(nil), begins[payload]...), list...)
		p.columns[payload] = forParent(columns, p.tables[payload], named, payload)
	}
}

// ofTypes leaves out of a line the types of parents, as in "with parents of u16".
func ofTypes(line string) string {
	return regexp.MustCompile(`u(16|32)`).ReplaceAllString(line, "")
}

func numbers(line string) []int {
	var found []int
	for _, word := range number.FindAllString(line, -1) {
		n, _ := strconv.Atoi(word)
		found = append(found, n)
	}
	return found
}

// forParent chooses the type of parent_id where a list says two: by the half of the line in brackets that names the table.
func forParent(columns []Column, _ Table, named string, payload int) []Column {
	halves := strings.Split(named, ";")
	if len(halves) != 2 {
		return columns
	}
	chosen := "u16"
	for _, n := range numbers(ofTypes(halves[1])) {
		if n == payload {
			chosen = "u32"
		}
	}
	for i := range columns {
		if columns[i].Name == "parent_id" {
			columns[i].Holds = chosen
		}
	}
	return columns
}

// columnsOf reads one line of a list: the name, what the cells hold, and `d` or a coding.
func columnsOf(line string) ([]Column, error) {
	words := strings.Fields(strings.SplitN(line, ",", 2)[0])
	if len(words) < 2 {
		return nil, fmt.Errorf("the profile's columns: %q has no type", line)
	}
	column := Column{Name: words[0]}
	rest := words[1:]
	switch last := rest[len(rest)-1]; last {
	case "d":
		column.Dictionary = true
		rest = rest[:len(rest)-1]
	case "delta", "run":
		column.Coding = last
		rest = rest[:len(rest)-1]
	}
	column.Holds = strings.Join(rest, " ")
	return []Column{column}, nil
}

// section is what stands below a heading, up to the next one.
func section(text, heading string) string {
	at := strings.Index(text, heading+"\n")
	if at < 0 {
		return ""
	}
	below := text[at+len(heading)+1:]
	if end := strings.Index(below, "\n#"); end >= 0 {
		below = below[:end]
	}
	return below
}
