// Package otlp has OTLP's messages by their descriptors: those of edge/proto, as protoc compiled them when this was
// built. There is no generated code. It trusts the protobuf library to read messages; a test compares each field number
// with the formats of docs/PROFILE.md, and the messages with those that Google's library for Python makes.
package otlp

import (
	_ "embed"
	"errors"
	"fmt"
	"sort"
	"strings"

	"google.golang.org/protobuf/proto"
	"google.golang.org/protobuf/reflect/protodesc"
	"google.golang.org/protobuf/reflect/protoreflect"
	"google.golang.org/protobuf/reflect/protoregistry"
	"google.golang.org/protobuf/types/descriptorpb"
	"google.golang.org/protobuf/types/dynamicpb"

	"finavoluth/edge/internal/signal"
)

//go:embed out/descriptors
var descriptors []byte

// files are the descriptors of all messages. They never change.
var files = mustLoad(descriptors)

// layouts are those of all messages. They never change.
var layouts = layoutsOf(files)

// mustLoad reads the descriptor set that is embedded. Where it can't be read, the program was built wrong.
func mustLoad(set []byte) *protoregistry.Files {
	var all descriptorpb.FileDescriptorSet
	if err := proto.Unmarshal(set, &all); err != nil {
		panic(fmt.Sprintf("the embedded descriptors of OTLP: %v", err))
	}
	files, err := protodesc.NewFiles(&all)
	if err != nil {
		panic(fmt.Sprintf("the embedded descriptors of OTLP: %v", err))
	}
	return files
}

// Message is the descriptor with this name, as "opentelemetry.proto.trace.v1.Span", and nil where there is none.
func Message(name string) protoreflect.MessageDescriptor {
	found, err := files.FindDescriptorByName(protoreflect.FullName(name))
	if err != nil {
		return nil
	}
	message, _ := found.(protoreflect.MessageDescriptor)
	return message
}

// Messages are the descriptors of all messages, those inside others too, sorted by name.
func Messages() []protoreflect.MessageDescriptor {
	var names []string
	for name := range layouts {
		names = append(names, string(name))
	}
	sort.Strings(names)
	messages := make([]protoreflect.MessageDescriptor, len(names))
	for i, name := range names {
		messages[i] = Message(name)
	}
	return messages
}

// requests are the names of the export requests.
var requests = map[signal.Signal]string{
	signal.Traces:  "opentelemetry.proto.collector.trace.v1.ExportTraceServiceRequest",
	signal.Logs:    "opentelemetry.proto.collector.logs.v1.ExportLogsServiceRequest",
	signal.Metrics: "opentelemetry.proto.collector.metrics.v1.ExportMetricsServiceRequest",
}

// Request is the descriptor of the export request of the signal.
func Request(s signal.Signal) protoreflect.MessageDescriptor {
	return Message(requests[s])
}

// Levels are the fields that lead from a request to its items.
type Levels struct {
	Groups protoreflect.FieldDescriptor // of the request: resourceSpans, resourceLogs or resourceMetrics
	Scopes protoreflect.FieldDescriptor // of a resource group: scopeSpans, scopeLogs or scopeMetrics
	Items  protoreflect.FieldDescriptor // of a scope group: spans, logRecords or metrics
}

// LevelsOf are the levels of the signal.
func LevelsOf(s signal.Signal) Levels {
	groups := Request(s).Fields().ByNumber(1)
	scopes := groups.Message().Fields().ByNumber(2)
	return Levels{Groups: groups, Scopes: scopes, Items: scopes.Message().Fields().ByNumber(2)}
}

// New is an empty request of the signal.
func New(s signal.Signal) *dynamicpb.Message {
	return dynamicpb.NewMessage(Request(s))
}

// Read reads a request of the signal by the rules of protobuf: of a scalar that occurs twice the last one is taken, a
// message that occurs twice is merged, and unknown fields are kept. But a known field with another wire type, which the
// library keeps as an unknown one, is an error: so a request of another signal is seldom read. The error names the other
// signal where there is just one that reads the request.
func Read(s signal.Signal, request []byte) (*dynamicpb.Message, error) {
	message, err := read(s, request)
	if err == nil {
		return message, nil
	}
	var fitting []signal.Signal
	for _, other := range s.Others() {
		if message, err := read(other, request); err == nil && !hasUnknown(message) {
			fitting = append(fitting, other)
		}
	}
	if len(fitting) == 1 {
		return nil, fmt.Errorf("no OTLP request of %v, but one of %v: %w", s, fitting[0], err)
	}
	return nil, fmt.Errorf("no OTLP request of %v: %w", s, err)
}

func read(s signal.Signal, request []byte) (*dynamicpb.Message, error) {
	message := New(s)
	options := proto.UnmarshalOptions{AllowPartial: true} // no message of OTLP has required fields, so none is looked for
	if err := options.Unmarshal(request, message); err != nil {
		return nil, errors.New(Reason(err))
	}
	return message, checkTypes(layouts[message.Descriptor().FullName()], request)
}

// inside calls f for the messages that are right inside the message, as long as it returns true.
func inside(message protoreflect.Message, f func(protoreflect.Message) bool) {
	message.Range(func(field protoreflect.FieldDescriptor, value protoreflect.Value) bool {
		switch {
		case field.Message() == nil:
			return true
		case !field.IsList():
			return f(value.Message())
		}
		for i := 0; i < value.List().Len(); i++ {
			if !f(value.List().Get(i).Message()) {
				return false
			}
		}
		return true
	})
}

// hasUnknown is whether the message or one inside it has unknown fields.
func hasUnknown(message protoreflect.Message) bool {
	found := len(message.GetUnknown()) > 0
	inside(message, func(inner protoreflect.Message) bool {
		found = found || hasUnknown(inner)
		return !found
	})
	return found
}

// Reason is the text of an error of the protobuf library, without the mark that it begins with: the blank in it differs
// from build to build.
func Reason(err error) string {
	return strings.TrimLeft(strings.TrimPrefix(err.Error(), "proto:"), " \u00a0")
}
