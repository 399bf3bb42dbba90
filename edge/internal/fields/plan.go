package fields

import (
	"google.golang.org/protobuf/encoding/protowire"
	"google.golang.org/protobuf/reflect/protoreflect"

	"finavoluth/edge/internal/otlp"
	"finavoluth/edge/internal/signal"
)

// A kind is what becomes of a field.
type kind int

const (
	carried   kind = iota
	uncarried      // passed over
	refused        // the request is refused for it
)

// others are the fields of OTLP that aren't carried.
var others = map[protoreflect.FullName]kind{
	"opentelemetry.proto.metrics.v1.Metric.metadata":              uncarried,
	"opentelemetry.proto.resource.v1.Resource.entity_refs":        uncarried,
	"opentelemetry.proto.metrics.v1.Metric.exponential_histogram": refused,
}

// A plan says what to do with each field of a message.
type plan struct {
	message string
	steps   []*step // by number; nil where the message has no such field
}

type step struct {
	name   string
	kind   kind
	inside *plan // of a carried message
}

// step is what to do with the field, and nil where the number is unknown.
func (p *plan) step(number protowire.Number) *step {
	if int(number) >= len(p.steps) {
		return nil
	}
	return p.steps[number]
}

// planOf is the plan of the signal's requests.
func planOf(s signal.Signal) *plan {
	return planned(otlp.Request(s), map[protoreflect.FullName]*plan{})
}

// planned is the plan of the message. Those made before are in done, since values hold values.
func planned(message protoreflect.MessageDescriptor, done map[protoreflect.FullName]*plan) *plan {
	if plan := done[message.FullName()]; plan != nil {
		return plan
	}
	made := &plan{message: string(message.Name())}
	done[message.FullName()] = made
	for i := 0; i < message.Fields().Len(); i++ {
		field := message.Fields().Get(i)
		s := &step{name: field.JSONName(), kind: others[field.FullName()]}
		if s.kind == carried && field.Kind() == protoreflect.MessageKind {
			s.inside = planned(field.Message(), done)
		}
		for len(made.steps) <= int(field.Number()) {
			made.steps = append(made.steps, nil)
		}
		made.steps[field.Number()] = s
	}
	return made
}

// IsCarried is whether encode and tidy carry the field. An exponential histogram is refused, not left out.
func IsCarried(field protoreflect.FieldDescriptor) bool {
	return others[field.FullName()] != uncarried
}
