package text

import (
	"bytes"
	"encoding/base64"
	"encoding/hex"
	"encoding/json"
	"fmt"
	"math"
	"strconv"

	"google.golang.org/protobuf/reflect/protoreflect"

	"finavoluth/edge/internal/otlp"
	"finavoluth/edge/internal/signal"
)

// Write is the request of the signal as OTLP's JSON, without a line end: on one line, or indented by two blanks.
func Write(s signal.Signal, request []byte, indent bool) ([]byte, error) {
	message, err := otlp.Read(s, request)
	if err != nil {
		return nil, err
	}
	line := AppendMessage(nil, message)
	if !indent {
		return line, nil
	}
	var out bytes.Buffer
	if err := json.Indent(&out, line, "", "  "); err != nil {
		return nil, fmt.Errorf("indenting JSON: %w", err)
	}
	return out.Bytes(), nil
}

// AppendMessage appends the message as OTLP's JSON on one line, its fields in the order of the .proto file.
func AppendMessage(b []byte, message protoreflect.Message) []byte {
	b = append(b, '{')
	first := true
	fields := message.Descriptor().Fields()
	for i := 0; i < fields.Len(); i++ {
		field := fields.Get(i)
		if !message.Has(field) {
			continue
		}
		if !first {
			b = append(b, ',')
		}
		first = false
		b = append(b, '"')
		b = append(b, field.JSONName()...)
		b = append(b, '"', ':')
		b = AppendField(b, field, message.Get(field))
	}
	return append(b, '}')
}

// AppendField appends the value of the field, a list where the field is repeated.
func AppendField(b []byte, field protoreflect.FieldDescriptor, value protoreflect.Value) []byte {
	if !field.IsList() {
		return AppendValue(b, field, value)
	}
	b = append(b, '[')
	for i := 0; i < value.List().Len(); i++ {
		if i > 0 {
			b = append(b, ',')
		}
		b = AppendValue(b, field, value.List().Get(i))
	}
	return append(b, ']')
}

// AppendValue appends one value of the field.
func AppendValue(b []byte, field protoreflect.FieldDescriptor, value protoreflect.Value) []byte {
	switch field.Kind() {
	case protoreflect.MessageKind:
		return AppendMessage(b, value.Message())
	case protoreflect.BoolKind:
		return strconv.AppendBool(b, value.Bool())
	case protoreflect.EnumKind:
		return strconv.AppendInt(b, int64(value.Enum()), 10)
	case protoreflect.Sint32Kind:
		return strconv.AppendInt(b, value.Int(), 10)
	case protoreflect.Uint32Kind, protoreflect.Fixed32Kind:
		return strconv.AppendUint(b, value.Uint(), 10)
	case protoreflect.Int64Kind, protoreflect.Sfixed64Kind:
		return append(strconv.AppendInt(append(b, '"'), value.Int(), 10), '"')
	case protoreflect.Uint64Kind, protoreflect.Fixed64Kind:
		return append(strconv.AppendUint(append(b, '"'), value.Uint(), 10), '"')
	case protoreflect.DoubleKind:
		return appendDouble(b, value.Float())
	case protoreflect.StringKind:
		return appendString(b, value.String())
	case protoreflect.BytesKind:
		return appendBytes(b, field, value.Bytes())
	}
	panic(fmt.Sprintf("OTLP has no field of kind %v", field.Kind()))
}

// appendDouble appends the shortest decimal number that reads as the same double.
func appendDouble(b []byte, x float64) []byte {
	switch {
	case math.IsNaN(x):
		return append(b, `"NaN"`...)
	case math.IsInf(x, 1):
		return append(b, `"Infinity"`...)
	case math.IsInf(x, -1):
		return append(b, `"-Infinity"`...)
	case x == 0 && math.Signbit(x):
		return append(b, "-0.0"...) // some readers take -0 for a whole number, which has no sign
	}
	format := byte('f')
	if size := math.Abs(x); size != 0 && (size < 1e-6 || size >= 1e21) {
		format = 'e'
	}
	return strconv.AppendFloat(b, x, format, -1, 64)
}

// appendString appends the text in double quotes. Its bytes are UTF-8, as the protobuf library has read them.
func appendString(b []byte, text string) []byte {
	const digits = "0123456789abcdef"
	b = append(b, '"')
	from := 0
	for i := 0; i < len(text); i++ {
		c := text[i]
		if c >= 0x20 && c != '"' && c != '\\' && c != 0x7f {
			continue
		}
		b = append(b, text[from:i]...)
		from = i + 1
		switch c {
		case '"', '\\':
			b = append(b, '\\', c)
		case '\n':
			b = append(b, '\\', 'n')
		case '\r':
			b = append(b, '\\', 'r')
		case '\t':
			b = append(b, '\\', 't')
		default:
			b = append(b, '\\', 'u', '0', '0', digits[c>>4], digits[c&15])
		}
	}
	return append(append(b, text[from:]...), '"')
}

func appendBytes(b []byte, field protoreflect.FieldDescriptor, content []byte) []byte {
	b = append(b, '"')
	if isID(field) {
		b = append(b, hex.EncodeToString(content)...)
	} else {
		b = append(b, base64.StdEncoding.EncodeToString(content)...)
	}
	return append(b, '"')
}
