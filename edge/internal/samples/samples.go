// Package samples makes requests for tests: random ones, each from a seed, with every field of every message, and values
// at their ends.
package samples

import (
	"math"
	"math/rand"

	"google.golang.org/protobuf/reflect/protoreflect"

	"finavoluth/edge/internal/otlp"
	"finavoluth/edge/internal/signal"
)

// Request is a random request of the signal. The same seed gives the same one.
func Request(s signal.Signal, seed int64) protoreflect.Message {
	message := otlp.New(s)
	Fill(rand.New(rand.NewSource(seed)), message, 0)
	return message
}

// Fill sets some of the fields of a message that is at this depth in others.
func Fill(r *rand.Rand, message protoreflect.Message, depth int) {
	fields := message.Descriptor().Fields()
	for i := 0; i < fields.Len(); i++ {
		field := fields.Get(i)
		if r.Intn(4) == 0 || depth > 9 && field.Message() != nil {
			continue
		}
		if oneof := field.ContainingOneof(); oneof != nil && !oneof.IsSynthetic() && r.Intn(oneof.Fields().Len()) > 0 {
			continue
		}
		set(r, message, field, depth)
	}
}

func set(r *rand.Rand, message protoreflect.Message, field protoreflect.FieldDescriptor, depth int) {
	switch {
	case field.IsList():
		list := message.Mutable(field).List()
		for n := count(r, depth); n > 0; n-- {
			if field.Message() != nil {
				Fill(r, list.AppendMutable().Message(), depth+1)
			} else {
				list.Append(Scalar(r, field))
			}
		}
	case field.Message() != nil:
		Fill(r, message.Mutable(field).Message(), depth+1)
	default:
		message.Set(field, Scalar(r, field))
	}
}

// count is how many elements a list has: some where there are few messages around it, and one or two in deep ones.
func count(r *rand.Rand, depth int) int {
	if depth > 4 {
		return r.Intn(3)
	}
	return 1 + r.Intn(3)
}

var (
	texts   = []string{"", "a", "http.method", "é", "日本", "\x00", "\"\\\n\t\r\x7f</", "\U0001F600", "\u2028"}
	doubles = []float64{0, math.Copysign(0, -1), 1, -1.5, 1e-7, 1e21, 123456789.125, math.MaxFloat64,
		math.SmallestNonzeroFloat64, math.Inf(1), math.Inf(-1), math.Float64frombits(0x7ff8000000000000)}
	wholes = []uint64{0, 1, 2, 127, 128, 1<<31 - 1, 1 << 31, 1<<32 - 1, 1 << 53, 1<<63 - 1, 1 << 63, 1<<64 - 1}
)

// Scalar is a random value of a field that is no message, often one at its end.
func Scalar(r *rand.Rand, field protoreflect.FieldDescriptor) protoreflect.Value {
	n := wholes[r.Intn(len(wholes))]
	if r.Intn(2) == 0 {
		n = r.Uint64()
	}
	switch field.Kind() {
	case protoreflect.BoolKind:
		return protoreflect.ValueOfBool(n&1 == 1)
	case protoreflect.EnumKind:
		return protoreflect.ValueOfEnum(protoreflect.EnumNumber(int32(n)))
	case protoreflect.Sint32Kind:
		return protoreflect.ValueOfInt32(int32(n))
	case protoreflect.Uint32Kind, protoreflect.Fixed32Kind:
		return protoreflect.ValueOfUint32(uint32(n))
	case protoreflect.Int64Kind, protoreflect.Sfixed64Kind:
		return protoreflect.ValueOfInt64(int64(n))
	case protoreflect.Uint64Kind, protoreflect.Fixed64Kind:
		return protoreflect.ValueOfUint64(n)
	case protoreflect.DoubleKind:
		return protoreflect.ValueOfFloat64(doubles[r.Intn(len(doubles))])
	case protoreflect.StringKind:
		return protoreflect.ValueOfString(texts[r.Intn(len(texts))])
	}
	return protoreflect.ValueOfBytes(content(r, field))
}

// content is bytes: an id has its own length, or none.
func content(r *rand.Rand, field protoreflect.FieldDescriptor) []byte {
	size := r.Intn(12)
	switch field.Name() {
	case "trace_id":
		size = 16 * r.Intn(2)
	case "span_id", "parent_span_id":
		size = 8 * r.Intn(2)
	}
	bytes := make([]byte, size)
	r.Read(bytes)
	return bytes
}
