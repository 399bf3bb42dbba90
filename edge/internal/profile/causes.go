package profile

import (
	"strconv"
	"strings"

	"finavoluth/edge/internal/refusal"
)

// where the page says what the parts of a cause after its first word mean: the words before, and the section, with the
// first word of the head of its table.
var parts = []struct{ after, section, head string }{
	{"Ipc.Schema.Flat.", "Records: Arrow IPC over FlatBuffers", "Fault"},
	{"Ipc.Schema.", "Schemas", "Refusal"},
	{"Ipc.Flat.", "Records: Arrow IPC over FlatBuffers", "Fault"},
	{"Ipc.", "Messages", "Fault"},
	{"Buffers.", "Arrays of a record batch", "Fault"},
	{"BadCbor.", "Nested values (CBOR)", "Refusal"},
}

// Meaning says what a refusal means, in the page's words: a text for the cause, and one more for each word after a dot that
// the page has a row for. It is false where the page doesn't have the cause.
func (p *Page) Meaning(r refusal.Refusal) ([]string, bool) {
	if whole, ok := p.first(r, r.Cause); ok {
		return []string{whole}, true
	}
	words := strings.Split(r.Cause, ".")
	first, ok := p.first(r, words[0])
	if !ok {
		return nil, false
	}
	meanings := []string{first}
	for i := 1; i < len(words); i++ {
		section, head, ok := partOf(strings.Join(words[:i], ".") + ".")
		if !ok {
			return meanings, false
		}
		row, ok := p.row(section, head, words[i])
		if !ok {
			return meanings, false
		}
		meanings = append(meanings, row[len(row)-1])
	}
	return meanings, true
}

func partOf(before string) (section, head string, ok bool) {
	for _, it := range parts {
		if before == it.after {
			return it.section, it.head, true
		}
	}
	return "", "", false
}

func (p *Page) first(r refusal.Refusal, word string) (string, bool) {
	if r.IsRequest() || r.Stage == 1 {
		row, ok := p.row("Messages of protobuf", "Defect", word)
		if !ok {
			return "", false
		}
		return row[len(row)-1], true
	}
	row, ok := p.row("Printed text", "Stage", strconv.Itoa(r.Stage), word)
	if !ok {
		return "", false
	}
	return row[len(row)-1], true
}
