// Package text writes and reads requests as OTLP's JSON (OTLP 1.x, "JSON Protobuf Encoding"). This is protobuf's JSON
// mapping with two rules of its own, so the library's package for JSON can't be used: trace ids and span ids are
// hexadecimal, and enums are numbers.
//
// What is written has names in lowerCamelCase, numbers of 64 bits as strings, other bytes in base64, and NaN and the
// infinities as the strings that protobuf's mapping has; a NaN's fraction, and unknown fields, have no form in JSON and
// aren't written. What is read may also have the names of the .proto files, enums by name, whole numbers as numbers or
// as strings, and base64 of either alphabet, padded or not.
//
// It trusts the protobuf library to read and the descriptors to name the fields, and encoding/json to cut JSON into
// tokens.
package text

import (
	"google.golang.org/protobuf/reflect/protoreflect"
)

// isID is whether the bytes of the field are a trace id or a span id, which OTLP's JSON has in hexadecimal.
func isID(field protoreflect.FieldDescriptor) bool {
	switch field.Name() {
	case "trace_id", "span_id", "parent_span_id":
		return field.Kind() == protoreflect.BytesKind
	}
	return false
}
