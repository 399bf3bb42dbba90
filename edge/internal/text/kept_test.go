package text

import (
	"math"

	"google.golang.org/protobuf/reflect/protoreflect"
)

// keepForJSON takes away what has no form in JSON: unknown fields, and the fraction of each NaN.
func keepForJSON(message protoreflect.Message) {
	message.SetUnknown(nil)
	message.Range(func(field protoreflect.FieldDescriptor, value protoreflect.Value) bool {
		switch {
		case field.IsList():
			for i := 0; i < value.List().Len(); i++ {
				value.List().Set(i, keptValue(field, value.List().Get(i)))
			}
		default:
			message.Set(field, keptValue(field, value))
		}
		return true
	})
}

func keptValue(field protoreflect.FieldDescriptor, value protoreflect.Value) protoreflect.Value {
	switch {
	case field.Message() != nil:
		keepForJSON(value.Message())
	case field.Kind() == protoreflect.DoubleKind && math.IsNaN(value.Float()):
		return protoreflect.ValueOfFloat64(math.Float64frombits(quietNaN))
	}
	return value
}
