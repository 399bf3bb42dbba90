package text

import (
	"encoding/base64"
	"encoding/hex"
	"encoding/json"
	"fmt"
	"math"
	"strconv"
	"strings"

	"google.golang.org/protobuf/reflect/protoreflect"
)

// scalar is the value of a field, or of one element of a repeated one, that is no message.
func scalar(field protoreflect.FieldDescriptor, token token) (protoreflect.Value, error) {
	none := protoreflect.Value{}
	switch field.Kind() {
	case protoreflect.BoolKind:
		if token.kind == 't' || token.kind == 'f' {
			return protoreflect.ValueOfBool(token.kind == 't'), nil
		}
		return none, fmt.Errorf("true or false is expected, not %v", token)
	case protoreflect.StringKind:
		if token.kind == '"' {
			return protoreflect.ValueOfString(token.text), nil
		}
		return none, fmt.Errorf("a text is expected, not %v", token)
	case protoreflect.BytesKind:
		return bytesOf(field, token)
	case protoreflect.DoubleKind:
		return double(token)
	case protoreflect.EnumKind:
		return enum(field.Enum(), token)
	}
	return whole(field.Kind(), token)
}

// bytesOf reads an id in hexadecimal, and other bytes in base64.
func bytesOf(field protoreflect.FieldDescriptor, token token) (protoreflect.Value, error) {
	if token.kind != '"' {
		return protoreflect.Value{}, fmt.Errorf("a text is expected, not %v", token)
	}
	if isID(field) {
		id, err := hex.DecodeString(token.text)
		if err != nil {
			return protoreflect.Value{}, fmt.Errorf("an id is hexadecimal, and %v isn't", token)
		}
		return protoreflect.ValueOfBytes(id), nil
	}
	encoding := base64.RawStdEncoding
	if strings.ContainsAny(token.text, "-_") {
		encoding = base64.RawURLEncoding
	}
	content, err := encoding.DecodeString(strings.TrimRight(token.text, "="))
	if err != nil {
		return protoreflect.Value{}, fmt.Errorf("bytes are in base64, and %v isn't", token)
	}
	return protoreflect.ValueOfBytes(content), nil
}

// numeral is the text of a number, or of a string that holds one.
func numeral(token token) (string, bool) {
	switch token.kind {
	case '0':
		return token.text, true
	case '"':
		return token.text, strings.Trim(token.text, "+-.0123456789eE") == "" && json.Valid([]byte(token.text))
	}
	return "", false
}

// quietNaN is the NaN that other languages mean by its name; Go's own has another fraction.
const quietNaN = 0x7ff8000000000000

func double(token token) (protoreflect.Value, error) {
	switch token.text {
	case "NaN":
		return protoreflect.ValueOfFloat64(math.Float64frombits(quietNaN)), nil
	case "Infinity":
		return protoreflect.ValueOfFloat64(math.Inf(1)), nil
	case "-Infinity":
		return protoreflect.ValueOfFloat64(math.Inf(-1)), nil
	}
	text, ok := numeral(token)
	if !ok {
		return protoreflect.Value{}, fmt.Errorf("a number is expected, not %v", token)
	}
	x, err := strconv.ParseFloat(text, 64)
	if err != nil {
		return protoreflect.Value{}, fmt.Errorf("%s is no double: it is too large", text)
	}
	return protoreflect.ValueOfFloat64(x), nil
}

// enum reads a number, known or not, or the name of one that is known.
func enum(names protoreflect.EnumDescriptor, token token) (protoreflect.Value, error) {
	if value := names.Values().ByName(protoreflect.Name(token.text)); value != nil {
		return protoreflect.ValueOfEnum(value.Number()), nil
	}
	text, ok := numeral(token)
	if !ok {
		return protoreflect.Value{}, fmt.Errorf("a number or a name of %s is expected, not %v", names.Name(), token)
	}
	number, err := strconv.ParseInt(plain(text), 10, 32)
	if err != nil {
		return protoreflect.Value{}, fmt.Errorf("%s is no whole number of 32 bits", text)
	}
	return protoreflect.ValueOfEnum(protoreflect.EnumNumber(number)), nil
}

// whole reads a whole number of the kind.
func whole(kind protoreflect.Kind, token token) (protoreflect.Value, error) {
	text, ok := numeral(token)
	if !ok {
		return protoreflect.Value{}, fmt.Errorf("a whole number is expected, not %v", token)
	}
	var err error
	switch kind {
	case protoreflect.Sint32Kind:
		var n int64
		if n, err = strconv.ParseInt(plain(text), 10, 32); err == nil {
			return protoreflect.ValueOfInt32(int32(n)), nil
		}
	case protoreflect.Int64Kind, protoreflect.Sfixed64Kind:
		var n int64
		if n, err = strconv.ParseInt(plain(text), 10, 64); err == nil {
			return protoreflect.ValueOfInt64(n), nil
		}
	case protoreflect.Uint32Kind, protoreflect.Fixed32Kind:
		var n uint64
		if n, err = strconv.ParseUint(plain(text), 10, 32); err == nil {
			return protoreflect.ValueOfUint32(uint32(n)), nil
		}
	case protoreflect.Uint64Kind, protoreflect.Fixed64Kind:
		var n uint64
		if n, err = strconv.ParseUint(plain(text), 10, 64); err == nil {
			return protoreflect.ValueOfUint64(n), nil
		}
	}
	return protoreflect.Value{}, fmt.Errorf("%s is no whole number of %s", text, widths[kind])
}

// widths say what a kind of whole number holds.
var widths = map[protoreflect.Kind]string{
	protoreflect.Sint32Kind:   "32 bits with a sign",
	protoreflect.Uint32Kind:   "32 bits without a sign",
	protoreflect.Fixed32Kind:  "32 bits without a sign",
	protoreflect.Int64Kind:    "64 bits with a sign",
	protoreflect.Sfixed64Kind: "64 bits with a sign",
	protoreflect.Uint64Kind:   "64 bits without a sign",
	protoreflect.Fixed64Kind:  "64 bits without a sign",
}

// plain is the number's text without point and exponent, as 1.5e3 is 1500; a text that isn't whole stays as it is.
func plain(text string) string {
	cut := strings.IndexAny(text, ".eE")
	if cut < 0 {
		return text
	}
	sign, rest := "", text
	if strings.HasPrefix(rest, "-") {
		sign, rest = "-", rest[1:]
	}
	mantissa, exponent := rest, 0
	if e := strings.IndexAny(rest, "eE"); e >= 0 {
		var err error
		if exponent, err = strconv.Atoi(rest[e+1:]); err != nil || exponent > 400 || exponent < -400 {
			return text
		}
		mantissa = rest[:e]
	}
	before, after, _ := strings.Cut(mantissa, ".")
	digits, places := before+after, len(before)+exponent
	if places < 0 {
		digits, places = strings.Repeat("0", -places)+digits, 0
	}
	if places > len(digits) {
		digits += strings.Repeat("0", places-len(digits))
	}
	if strings.Trim(digits[places:], "0") != "" {
		return text
	}
	whole := strings.TrimLeft(digits[:places], "0")
	if whole == "" {
		return "0"
	}
	return sign + whole
}
