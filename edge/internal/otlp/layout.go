package otlp

import (
	"fmt"
	"sort"

	"google.golang.org/protobuf/encoding/protowire"
	"google.golang.org/protobuf/reflect/protoreflect"
	"google.golang.org/protobuf/reflect/protoregistry"
)

// A layout is what is looked up of a message for each of its fields.
type layout struct {
	message   protoreflect.MessageDescriptor
	ascending []protoreflect.FieldDescriptor // by number
	slots     []slot                         // by number
}

// A slot is what is looked up of a field. The zero slot stands for a number that the message doesn't have.
type slot struct {
	field  protoreflect.FieldDescriptor
	wire   protowire.Type
	packed bool    // whether it may also be read packed
	inside *layout // of a message
}

func layoutsOf(files *protoregistry.Files) map[protoreflect.FullName]*layout {
	made := map[protoreflect.FullName]*layout{}
	files.RangeFiles(func(file protoreflect.FileDescriptor) bool {
		addLayouts(file.Messages(), made)
		return true
	})
	return made
}

func addLayouts(messages protoreflect.MessageDescriptors, made map[protoreflect.FullName]*layout) {
	for i := 0; i < messages.Len(); i++ {
		layoutOf(messages.Get(i), made)
		addLayouts(messages.Get(i).Messages(), made)
	}
}

// layoutOf is the layout of the message. Those made before are in made, since values hold values.
func layoutOf(message protoreflect.MessageDescriptor, made map[protoreflect.FullName]*layout) *layout {
	if l := made[message.FullName()]; l != nil {
		return l
	}
	l := &layout{message: message}
	made[message.FullName()] = l
	for i := 0; i < message.Fields().Len(); i++ {
		l.ascending = append(l.ascending, message.Fields().Get(i))
	}
	sort.Slice(l.ascending, func(a, b int) bool { return l.ascending[a].Number() < l.ascending[b].Number() })
	for _, field := range l.ascending {
		for len(l.slots) < int(field.Number()) {
			l.slots = append(l.slots, slot{})
		}
		s := slot{field: field, wire: wireType(field.Kind())}
		s.packed = field.IsList() && s.wire != protowire.BytesType
		if field.Message() != nil {
			s.inside = layoutOf(field.Message(), made)
		}
		l.slots = append(l.slots, s)
	}
	return l
}

// wireType is the wire type of the kinds that OTLP has.
func wireType(kind protoreflect.Kind) protowire.Type {
	switch kind {
	case protoreflect.Fixed64Kind, protoreflect.Sfixed64Kind, protoreflect.DoubleKind:
		return protowire.Fixed64Type
	case protoreflect.Fixed32Kind:
		return protowire.Fixed32Type
	case protoreflect.StringKind, protoreflect.BytesKind, protoreflect.MessageKind:
		return protowire.BytesType
	}
	return protowire.VarintType
}

// checkTypes refuses a message in which a known field has another wire type. The library has read the bytes before.
func checkTypes(l *layout, message []byte) error {
	for rest := message; len(rest) > 0; {
		number, wire, head := protowire.ConsumeTag(rest)
		size := protowire.ConsumeFieldValue(number, wire, rest[head:])
		if int(number) < len(l.slots) && l.slots[number].field != nil {
			s := l.slots[number]
			if wire != s.wire && !(s.packed && wire == protowire.BytesType) {
				return fmt.Errorf("%s of %s has wire type %d", s.field.Name(), l.message.Name(), wire)
			}
			if s.inside != nil {
				inner, _ := protowire.ConsumeBytes(rest[head:])
				if err := checkTypes(s.inside, inner); err != nil {
					return err
				}
			}
		}
		rest = rest[head+size:]
	}
	return nil
}
