package otlp

import (
	"fmt"
	"math"

	"google.golang.org/protobuf/encoding/protowire"
	"google.golang.org/protobuf/reflect/protoreflect"
)

// Write is the message in protobuf, its fields by ascending number, as the libraries of other languages write it, and
// then its unknown fields. The library's own writer puts members of oneofs last, so what it writes of a point differs
// from what others write.
func Write(message protoreflect.Message) []byte {
	return appendMessage(nil, message)
}

func appendMessage(b []byte, message protoreflect.Message) []byte {
	for _, field := range layouts[message.Descriptor().FullName()].ascending {
		if !message.Has(field) {
			continue
		}
		value := message.Get(field)
		switch {
		case field.IsList() && field.IsPacked():
			b = appendPacked(b, field, value.List())
		case field.IsList():
			for i := 0; i < value.List().Len(); i++ {
				b = AppendField(b, field, value.List().Get(i))
			}
		default:
			b = AppendField(b, field, value)
		}
	}
	return append(b, message.GetUnknown()...)
}

func appendPacked(b []byte, field protoreflect.FieldDescriptor, list protoreflect.List) []byte {
	var packed []byte
	for i := 0; i < list.Len(); i++ {
		packed = AppendValue(packed, field, list.Get(i))
	}
	b = protowire.AppendTag(b, field.Number(), protowire.BytesType)
	return protowire.AppendBytes(b, packed)
}

// AppendField appends a field with one value.
func AppendField(b []byte, field protoreflect.FieldDescriptor, value protoreflect.Value) []byte {
	return AppendValue(protowire.AppendTag(b, field.Number(), wireType(field.Kind())), field, value)
}

// IsDefault is whether the value, which is no message, is the one that a field without presence has where it is absent.
func IsDefault(field protoreflect.FieldDescriptor, value protoreflect.Value) bool {
	switch field.Kind() {
	case protoreflect.DoubleKind:
		return math.Float64bits(value.Float()) == 0
	case protoreflect.BytesKind:
		return len(value.Bytes()) == 0
	}
	return value.Interface() == field.Default().Interface()
}

// AppendValue appends a value without a tag, as an element of a packed list is written.
func AppendValue(b []byte, field protoreflect.FieldDescriptor, value protoreflect.Value) []byte {
	switch field.Kind() {
	case protoreflect.BoolKind:
		return protowire.AppendVarint(b, protowire.EncodeBool(value.Bool()))
	case protoreflect.EnumKind:
		return protowire.AppendVarint(b, uint64(value.Enum()))
	case protoreflect.Int64Kind:
		return protowire.AppendVarint(b, uint64(value.Int()))
	case protoreflect.Sint32Kind:
		return protowire.AppendVarint(b, protowire.EncodeZigZag(value.Int()))
	case protoreflect.Uint32Kind, protoreflect.Uint64Kind:
		return protowire.AppendVarint(b, value.Uint())
	case protoreflect.Fixed32Kind:
		return protowire.AppendFixed32(b, uint32(value.Uint()))
	case protoreflect.Fixed64Kind:
		return protowire.AppendFixed64(b, value.Uint())
	case protoreflect.Sfixed64Kind:
		return protowire.AppendFixed64(b, uint64(value.Int()))
	case protoreflect.DoubleKind:
		return protowire.AppendFixed64(b, math.Float64bits(value.Float()))
	case protoreflect.StringKind:
		return protowire.AppendString(b, value.String())
	case protoreflect.BytesKind:
		return protowire.AppendBytes(b, value.Bytes())
	case protoreflect.MessageKind:
		return protowire.AppendBytes(b, appendMessage(nil, value.Message()))
	}
	panic(fmt.Sprintf("OTLP has no field of kind %v", field.Kind()))
}
