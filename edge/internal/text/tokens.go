package text

import (
	"encoding/json"
	"fmt"
	"strconv"
	"strings"
)

// A token is a brace, a bracket or a value that holds no other. Its kind is '{', '}', '[', ']', '"' for a text, '0' for a
// number, 't', 'f' or 'n'.
type token struct {
	kind byte
	text string // what a text says, or a number as it is written
}

// tokens cuts JSON into tokens. It has been found valid before, so commas and colons are where they have to be. The
// decoder of encoding/json does the same, in several times the time.
type tokens struct {
	json []byte
	at   int
}

// skip passes over what is between tokens.
func (t *tokens) skip() {
	for t.at < len(t.json) {
		switch t.json[t.at] {
		case ' ', '\t', '\r', '\n', ',', ':':
			t.at++
		default:
			return
		}
	}
}

// more is whether the object or the list that is being read goes on.
func (t *tokens) more() bool {
	t.skip()
	return t.json[t.at] != '}' && t.json[t.at] != ']'
}

// next is the next token. There is one.
func (t *tokens) next() token {
	t.skip()
	from := t.at
	kind := t.json[from]
	switch kind {
	case '{', '}', '[', ']':
		t.at++
		return token{kind: kind}
	case '"':
		return token{kind: kind, text: t.string()}
	case 't', 'n':
		t.at += len("true")
		return token{kind: kind}
	case 'f':
		t.at += len("false")
		return token{kind: kind}
	}
	for t.at < len(t.json) && strings.IndexByte("+-.0123456789eE", t.json[t.at]) >= 0 {
		t.at++
	}
	return token{kind: '0', text: string(t.json[from:t.at])}
}

// string is what the text says that begins here.
func (t *tokens) string() string {
	from, plain := t.at, true
	for t.at++; t.json[t.at] != '"'; t.at++ {
		if t.json[t.at] == '\\' {
			plain = false
			t.at++
		}
	}
	t.at++
	if plain {
		return string(t.json[from+1 : t.at-1])
	}
	var said string
	if err := json.Unmarshal(t.json[from:t.at], &said); err != nil {
		panic(fmt.Sprintf("valid JSON isn't valid: %v", err))
	}
	return said
}

// pass passes over a value.
func (t *tokens) pass() {
	for depth := 0; ; {
		switch t.next().kind {
		case '{', '[':
			depth++
		case '}', ']':
			depth--
		}
		if depth == 0 {
			return
		}
	}
}

// String says what the token is, for errors.
func (t token) String() string {
	switch t.kind {
	case '{', '}':
		return "an object"
	case '[', ']':
		return "a list"
	case 't':
		return "true"
	case 'f':
		return "false"
	case 'n':
		return "null"
	case '0':
		return t.text
	}
	if len(t.text) > 40 {
		return strconv.Quote(strings.ToValidUTF8(t.text[:40], "") + "…")
	}
	return strconv.Quote(t.text)
}
