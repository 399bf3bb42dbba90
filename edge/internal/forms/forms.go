// Package forms says what a file of requests is, and reads the requests out of it: a capture, a Collector's file in
// protobuf (each request after its length), or one in JSON (a request a line). It trusts a form only as far as its framing
// holds; what a request holds is no matter here, but that JSON is turned into protobuf by package text.
package forms

import (
	"fmt"
	"strings"
)

// A Form is how requests stand in a file.
type Form int

// The forms. Unknown is to be found out.
const (
	Unknown Form = iota
	Capture
	Proto
	JSON
)

var names = [...]string{Unknown: "unknown", Capture: "capture", Proto: "proto", JSON: "json"}

// All lists the forms that a file may have.
func All() []Form { return []Form{Capture, Proto, JSON} }

// Names lists the words for them.
func Names() []string { return append([]string(nil), names[1:]...) }

// String is the word for the form.
func (f Form) String() string { return names[f] }

// Parse reads the word for a form.
func Parse(word string) (Form, error) {
	for i, name := range names {
		if i > 0 && name == word {
			return Form(i), nil
		}
	}
	return Unknown, fmt.Errorf("no form is called %q: it is %s", word, strings.Join(Names(), ", "))
}

// Describe says the form in words.
func (f Form) Describe() string {
	switch f {
	case Capture:
		return "a capture"
	case Proto:
		return "requests in protobuf, each after its length"
	case JSON:
		return "requests in JSON"
	}
	return "of no known form"
}
