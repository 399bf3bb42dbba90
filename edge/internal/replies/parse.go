package replies

import (
	"fmt"
	"regexp"
	"strconv"
	"strings"
)

// Payload is what list prints of a payload: its type and the length of its record.
type Payload struct {
	Type   int
	Length int64
}

// Listed reads what list says of a batch: "batch 7 30:2824 1:1224".
func Listed(line string) (id string, payloads []Payload, err error) {
	words := strings.Split(line, " ")
	if len(words) < 2 || words[0] != "batch" {
		return "", nil, fmt.Errorf("list says %q", line)
	}
	for _, word := range words[2:] {
		kind, length, _ := strings.Cut(word, ":")
		var p Payload
		if p.Type, err = strconv.Atoi(kind); err != nil {
			return "", nil, fmt.Errorf("list says %q", line)
		}
		if p.Length, err = strconv.ParseInt(length, 10, 64); err != nil {
			return "", nil, fmt.Errorf("list says %q", line)
		}
		payloads = append(payloads, p)
	}
	return words[1], payloads, nil
}

// Accepted is what replay says of a batch that a receiver takes.
type Accepted struct {
	ID                  string
	Items, Rows, Weight int64
}

// Replayed reads "batch 0 accepted items 1 rows 34 weight 98".
func Replayed(line string) (a Accepted, err error) {
	if n, err := fmt.Sscanf(line, "batch %s accepted items %d rows %d weight %d", &a.ID, &a.Items, &a.Rows, &a.Weight); n != 4 {
		return a, fmt.Errorf("replay says %q: %v", line, err)
	}
	return a, nil
}

// Schema is what schema says of one payload. Where the record goes on with an earlier schema, Fields is empty.
type Schema struct {
	Type   int
	ID     string
	Opens  bool
	Fields []Field
}

// Field is a column: a field that isn't a struct, with the names of those it is in, joined by dots. The elements of a
// list are in its type, as "list of u64".
type Field struct {
	Name       string // as printed, with its escapes
	Type       string
	Dictionary string // u8 or u16, the type of its indexes; "" for none
}

// Whole is the type as it is printed.
func (f Field) Whole() string {
	if f.Dictionary == "" {
		return f.Type
	}
	return f.Type + " dict " + f.Dictionary
}

const types = `bool|[ui](?:8|16|32|64)|f64|utf8|binary|fixed \d+|timestamp|duration|struct|list`

var (
	payloadLine = regexp.MustCompile(`^payload (-?\d+) schema "(.*)"( goes on)?$`)
	// A name may hold blanks. One that ends in a type and "dict" can't be told from a dictionary, and is read as one.
	dictionaryLine = regexp.MustCompile(`^field (.*) (` + types + `) dict (u8|u16)$`)
	plainLine      = regexp.MustCompile(`^field (.*) (` + types + `)()$`)
)

// Schemas reads what schema says of a batch, without its first line.
func Schemas(lines []string) (schemas []Schema, err error) {
	list := false
	for _, line := range lines {
		if m := payloadLine.FindStringSubmatch(line); m != nil {
			kind, err := strconv.Atoi(m[1])
			if err != nil {
				return nil, fmt.Errorf("schema says %q", line)
			}
			schemas = append(schemas, Schema{Type: kind, ID: m[2], Opens: m[3] == ""})
			list = false
			continue
		}
		m := dictionaryLine.FindStringSubmatch(line)
		if m == nil {
			m = plainLine.FindStringSubmatch(line)
		}
		if m == nil || len(schemas) == 0 {
			return nil, fmt.Errorf("schema says %q", line)
		}
		now := &schemas[len(schemas)-1]
		switch {
		case list:
			now.Fields[len(now.Fields)-1].Type += " of " + m[2]
		case m[2] != "struct":
			now.Fields = append(now.Fields, Field{Name: m[1], Type: m[2], Dictionary: m[3]})
		}
		list = !list && m[2] == "list"
	}
	return schemas, nil
}
