package diff

import (
	"bytes"
	"encoding/hex"
	"fmt"
	"math"
	"sort"
	"unicode/utf8"

	"google.golang.org/protobuf/reflect/protoreflect"

	"finavoluth/edge/internal/otlp"
	"finavoluth/edge/internal/text"
)

// A comparison goes over pairs of items and keeps what it finds.
type comparison struct {
	most         int
	report       *Report
	group, scope [2]*part // those of the pair before
}

// The lists, as indexes.
const (
	inA = iota
	inB
)

// A trail leads to two messages that are compared: from two parts, or from the messages that hold them, by a field.
type trail struct {
	parts   [2]*part
	up      *trail
	field   protoreflect.FieldDescriptor
	element int // -1 where the field isn't repeated
}

// path is the path to the message in one of the lists.
func (t *trail) path(which int) string {
	if t.up == nil {
		return t.parts[which].place.String()
	}
	return t.up.path(which) + step(t.field, t.element)
}

func step(field protoreflect.FieldDescriptor, element int) string {
	if element < 0 {
		return "." + field.JSONName()
	}
	return fmt.Sprintf(".%s[%d]", field.JSONName(), element)
}

// side is a value that one of the lists has: a field of the message, or an element of it.
func (t *trail) side(which int, field protoreflect.FieldDescriptor, element int, value protoreflect.Value) Side {
	return Side{t.path(which) + step(field, element), shorten(string(text.AppendValue(nil, field, value)))}
}

var none = Side{Text: "none"}

// differ keeps a difference.
func (c *comparison) differ(a, b Side) {
	c.report.Found++
	if len(c.report.Differences) < c.most {
		c.report.Differences = append(c.report.Differences, Difference{Item: c.report.ItemsA, A: a, B: b})
	}
}

// items compares two items, and their groups where they aren't those of the items before.
func (c *comparison) items(x, y *item) {
	if group := [2]*part{x.group, y.group}; group != c.group {
		c.group = group
		c.parts(group)
	}
	if scope := [2]*part{x.scope, y.scope}; scope != c.scope {
		c.scope = scope
		c.parts(scope)
	}
	c.parts([2]*part{&x.part, &y.part})
}

func (c *comparison) parts(parts [2]*part) {
	c.messages(&trail{parts: parts}, parts[inA].message, parts[inB].message)
}

// messages compares two messages of one type, field by field.
func (c *comparison) messages(at *trail, a, b protoreflect.Message) {
	fields := a.Descriptor().Fields()
	for i := 0; i < fields.Len(); i++ {
		field := fields.Get(i)
		if !a.Has(field) && !b.Has(field) {
			continue
		}
		switch oneof := field.ContainingOneof(); {
		case oneof != nil && a.WhichOneof(oneof) != b.WhichOneof(oneof):
			if isFirst(oneof, field, a, b) {
				c.differ(member(at, inA, a, oneof), member(at, inB, b, oneof))
			}
		case field.IsList() && isAttributes(field):
			c.attributes(at, field, a.Get(field).List(), b.Get(field).List())
		case field.IsList():
			c.lists(at, field, a.Get(field).List(), b.Get(field).List())
		default:
			c.values(at, field, -1, a.Get(field), b.Get(field))
		}
	}
	if !bytes.Equal(a.GetUnknown(), b.GetUnknown()) {
		c.differ(unknown(at, inA, a), unknown(at, inB, b))
	}
}

// isFirst is whether the field is the first member of the oneof that is set in one of the messages, so that a oneof of
// which they have two members is one difference.
func isFirst(oneof protoreflect.OneofDescriptor, field protoreflect.FieldDescriptor, a, b protoreflect.Message) bool {
	for i := 0; i < oneof.Fields().Len(); i++ {
		if member := oneof.Fields().Get(i); a.Has(member) || b.Has(member) {
			return member == field
		}
	}
	return false
}

// isAttributes is whether the field is a list of attributes, or of metadata, whose order says nothing. The pairs of a
// value are in order.
func isAttributes(field protoreflect.FieldDescriptor) bool {
	return field.Message() != nil && field.Message().Name() == "KeyValue" && field.ContainingMessage().Name() != "KeyValueList"
}

// member is the member of the oneof that is set in the message.
func member(at *trail, which int, message protoreflect.Message, oneof protoreflect.OneofDescriptor) Side {
	field := message.WhichOneof(oneof)
	if field == nil {
		return none
	}
	return at.side(which, field, -1, message.Get(field))
}

// lists compares two lists in order.
func (c *comparison) lists(at *trail, field protoreflect.FieldDescriptor, a, b protoreflect.List) {
	for i := 0; i < a.Len() || i < b.Len(); i++ {
		switch {
		case i >= a.Len():
			c.differ(none, at.side(inB, field, i, b.Get(i)))
		case i >= b.Len():
			c.differ(at.side(inA, field, i, a.Get(i)), none)
		default:
			c.values(at, field, i, a.Get(i), b.Get(i))
		}
	}
}

// values compares two values of a field, or two elements of it.
func (c *comparison) values(at *trail, field protoreflect.FieldDescriptor, element int, a, b protoreflect.Value) {
	if field.Kind() == protoreflect.MessageKind {
		c.messages(&trail{up: at, field: field, element: element}, a.Message(), b.Message())
		return
	}
	if equal(field, a, b) {
		return
	}
	x, y := at.side(inA, field, element, a), at.side(inB, field, element, b)
	if x.Text == y.Text && field.Kind() == protoreflect.DoubleKind {
		x.Text += fmt.Sprintf(" (bits %016x)", math.Float64bits(a.Float()))
		y.Text += fmt.Sprintf(" (bits %016x)", math.Float64bits(b.Float()))
	}
	c.differ(x, y)
}

func equal(field protoreflect.FieldDescriptor, a, b protoreflect.Value) bool {
	switch field.Kind() {
	case protoreflect.DoubleKind:
		return math.Float64bits(a.Float()) == math.Float64bits(b.Float())
	case protoreflect.BytesKind:
		return bytes.Equal(a.Bytes(), b.Bytes())
	}
	return a.Interface() == b.Interface()
}

// attributes compares two lists of pairs as multisets. Of the pairs that only one list has, two with one key are one
// difference.
func (c *comparison) attributes(at *trail, field protoreflect.FieldDescriptor, a, b protoreflect.List) {
	onlyA, onlyB := only(a, b)
	key := field.Message().Fields().ByNumber(1)
	byKey := map[string][]int{}
	for _, j := range onlyB {
		name := b.Get(j).Message().Get(key).String()
		byKey[name] = append(byKey[name], j)
	}
	for _, i := range onlyA {
		x, y := at.side(inA, field, i, a.Get(i)), none
		name := a.Get(i).Message().Get(key).String()
		if places := byKey[name]; len(places) > 0 {
			y = at.side(inB, field, places[0], b.Get(places[0]))
			if x.Text == y.Text {
				x.Text += spelled(a.Get(i))
				y.Text += spelled(b.Get(places[0]))
			}
			byKey[name] = places[1:]
		}
		c.differ(x, y)
	}
	for _, j := range onlyB {
		name := b.Get(j).Message().Get(key).String()
		if places := byKey[name]; len(places) > 0 && places[0] == j {
			byKey[name] = places[1:]
			c.differ(none, at.side(inB, field, j, b.Get(j)))
		}
	}
}

// only are the places of the pairs that occur more often in the one list than in the other.
func only(a, b protoreflect.List) (onlyA, onlyB []int) {
	left := make(map[string][]int, a.Len())
	for i := 0; i < a.Len(); i++ {
		pair := string(otlp.Write(a.Get(i).Message()))
		left[pair] = append(left[pair], i)
	}
	for j := 0; j < b.Len(); j++ {
		pair := string(otlp.Write(b.Get(j).Message()))
		if places := left[pair]; len(places) > 0 {
			left[pair] = places[1:]
		} else {
			onlyB = append(onlyB, j)
		}
	}
	for _, places := range left {
		onlyA = append(onlyA, places...)
	}
	sort.Ints(onlyA)
	return onlyA, onlyB
}

// spelled is the message in protobuf, for two that are equal as JSON.
func spelled(value protoreflect.Value) string {
	return " (protobuf " + shorten(hex.EncodeToString(otlp.Write(value.Message()))) + ")"
}

func unknown(at *trail, which int, message protoreflect.Message) Side {
	if len(message.GetUnknown()) == 0 {
		return none
	}
	return Side{at.path(which), "unknown fields, in protobuf " + shorten(hex.EncodeToString(message.GetUnknown()))}
}

func jsonOf(message protoreflect.Message) string {
	return string(text.AppendMessage(nil, message))
}

// mostText is how many bytes of a value are reported.
const mostText = 200

// shorten cuts a long text.
func shorten(text string) string {
	if len(text) <= mostText {
		return text
	}
	end := mostText
	for !utf8.RuneStart(text[end]) {
		end--
	}
	return text[:end] + "…"
}
