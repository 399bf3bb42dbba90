package text

import (
	"errors"
	"fmt"
	"strconv"

	"google.golang.org/protobuf/encoding/protowire"
	"google.golang.org/protobuf/reflect/protoreflect"

	"finavoluth/edge/internal/otlp"
	"finavoluth/edge/internal/signal"
)

// WrongSignal is the error of a request whose key says another signal.
type WrongSignal struct {
	Want, Has signal.Signal
}

func (e *WrongSignal) Error() string {
	return fmt.Sprintf("the key %q is that of %v, not of %v", otlp.LevelsOf(e.Has).Groups.JSONName(), e.Has, e.Want)
}

// Read reads the JSON of one request of the signal. The request is in protobuf, its fields by ascending number. unknown
// are the keys that OTLP doesn't have, each by its path (as resourceSpans.scopeSpans.spans.note) and once, in the order
// in which they come; their values are passed over. A key or a member of a oneof that occurs twice in one object is an
// error, as is all that a message can't hold; the error says where. A null is read as an absent value.
func Read(s signal.Signal, text []byte) (request []byte, unknown []string, err error) {
	if err := check(text); err != nil {
		return nil, nil, err
	}
	r := &reader{signal: s, tokens: tokens{json: text}, listed: map[string]bool{}}
	if first := r.tokens.next(); first.kind != '{' {
		return nil, nil, fmt.Errorf("a request is a JSON object, not %v", first)
	}
	if err := r.message(otlp.Request(s)); err != nil {
		var wrong *WrongSignal
		if errors.As(err, &wrong) {
			return nil, nil, wrong
		}
		return nil, nil, err
	}
	return r.out, r.unknown, nil
}

// A reader reads the messages of one request, and writes them to out in protobuf as it goes. path leads to what is being
// read: names of fields and, for the elements of lists, their numbers.
type reader struct {
	signal  signal.Signal
	tokens  tokens
	path    []step
	unknown []string
	listed  map[string]bool
	out     []byte
	room    []byte // of fields that are put into order
}

type step struct {
	name    string
	element int // -1 where the step isn't an element
}

// message reads the keys and values of an object, whose opening brace has been read, and its closing brace.
func (r *reader) message(message protoreflect.MessageDescriptor) error {
	var seen, oneofs uint64 // a bit for each field and each oneof that the object has had; no message has 64 of them
	var written parts
	for r.tokens.more() {
		key := r.tokens.next().text
		r.path = append(r.path, step{name: key, element: -1})
		from := len(r.out)
		var err error
		if field := fieldOf(message, key); field == nil {
			err = r.passOver(len(r.path) == 1)
		} else if seen>>field.Index()&1 == 1 {
			err = r.errorf("the key occurs twice")
		} else {
			seen |= 1 << field.Index()
			err = r.field(field, &oneofs)
			written.add(field.Number(), from, len(r.out))
		}
		if err != nil {
			return err
		}
		r.path = r.path[:len(r.path)-1]
	}
	r.tokens.next()
	r.room = written.sort(r.out, r.room)
	return nil
}

// fieldOf is the field with this name in lowerCamelCase or as in the .proto file, or nil.
func fieldOf(message protoreflect.MessageDescriptor, key string) protoreflect.FieldDescriptor {
	if field := message.Fields().ByJSONName(key); field != nil {
		return field
	}
	return message.Fields().ByName(protoreflect.Name(key))
}

// passOver reads the value of an unknown key and lists the key. At the top it may be the key of another signal.
func (r *reader) passOver(top bool) error {
	key := r.path[len(r.path)-1].name
	for _, other := range []signal.Signal{signal.Traces, signal.Logs, signal.Metrics} {
		if top && fieldOf(otlp.Request(other), key) != nil {
			return &WrongSignal{Want: r.signal, Has: other}
		}
	}
	if path := r.dotted(); !r.listed[path] {
		r.listed[path] = true
		r.unknown = append(r.unknown, path)
	}
	r.tokens.pass()
	return nil
}

// field reads the value of a key, of a message that has had these oneofs.
func (r *reader) field(field protoreflect.FieldDescriptor, oneofs *uint64) error {
	token := r.tokens.next()
	if token.kind == 'n' {
		return nil
	}
	if oneof := field.ContainingOneof(); oneof != nil {
		if *oneofs>>oneof.Index()&1 == 1 {
			return r.errorf("another member of %s is set already", oneof.Name())
		}
		*oneofs |= 1 << oneof.Index()
	}
	switch {
	case field.IsList():
		return r.list(field, token)
	case field.Kind() == protoreflect.MessageKind:
		return r.object(field, token)
	}
	value, err := scalar(field, token)
	if err == nil && (field.HasPresence() || !otlp.IsDefault(field, value)) {
		r.out = otlp.AppendField(r.out, field, value)
	}
	return r.wrap(err)
}

func (r *reader) list(field protoreflect.FieldDescriptor, token token) error {
	if token.kind != '[' {
		return r.errorf("a list is expected, not %v", token)
	}
	begin := 0 // of the elements, where they are packed
	for element := 0; r.tokens.more(); element++ {
		r.path = append(r.path, step{element: element})
		if element == 0 && field.IsPacked() {
			r.out = protowire.AppendTag(r.out, field.Number(), protowire.BytesType)
			begin = len(r.out)
		}
		if err := r.element(field, r.tokens.next()); err != nil {
			return err
		}
		r.path = r.path[:len(r.path)-1]
	}
	if begin > 0 {
		r.lengthAt(begin)
	}
	r.tokens.next()
	return nil
}

func (r *reader) element(field protoreflect.FieldDescriptor, token token) error {
	if field.Kind() == protoreflect.MessageKind {
		return r.object(field, token)
	}
	value, err := scalar(field, token)
	switch {
	case err != nil:
		return r.wrap(err)
	case field.IsPacked():
		r.out = otlp.AppendValue(r.out, field, value)
	default:
		r.out = otlp.AppendField(r.out, field, value)
	}
	return nil
}

func (r *reader) object(field protoreflect.FieldDescriptor, token token) error {
	if token.kind != '{' {
		return r.errorf("an object is expected, not %v", token)
	}
	r.out = protowire.AppendTag(r.out, field.Number(), protowire.BytesType)
	begin := len(r.out)
	if err := r.message(field.Message()); err != nil {
		return err
	}
	r.lengthAt(begin)
	return nil
}

// lengthAt puts the length of what was written from a place on before it.
func (r *reader) lengthAt(begin int) {
	length := uint64(len(r.out) - begin)
	size := protowire.SizeVarint(length)
	var zeros [10]byte
	r.out = append(r.out, zeros[:size]...)
	copy(r.out[begin+size:], r.out[begin:])
	protowire.AppendVarint(r.out[:begin], length)
}

// dotted is the path without the numbers of elements.
func (r *reader) dotted() string {
	var b []byte
	for _, s := range r.path {
		if s.element >= 0 {
			continue
		}
		if len(b) > 0 {
			b = append(b, '.')
		}
		b = append(b, s.name...)
	}
	return string(b)
}

// wrap adds the path to an error, and leaves nil as it is.
func (r *reader) wrap(err error) error {
	if err == nil {
		return nil
	}
	var b []byte
	for _, s := range r.path {
		if s.element >= 0 {
			b = append(strconv.AppendInt(append(b, '['), int64(s.element), 10), ']')
			continue
		}
		if len(b) > 0 {
			b = append(b, '.')
		}
		b = append(b, s.name...)
	}
	return fmt.Errorf("%s: %w", b, err)
}

func (r *reader) errorf(format string, values ...interface{}) error {
	return r.wrap(fmt.Errorf(format, values...))
}
