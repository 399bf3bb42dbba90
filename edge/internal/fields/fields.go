// Package fields finds what of a request isn't carried by encode and tidy: the metadata of metrics, the entity
// references of resources, and fields whose numbers OTLP's messages don't have. It also names the metrics whose data is
// an exponential histogram, for which a request is refused. It walks over the bytes by protowire and builds no message.
//
// It trusts the descriptors for what the numbers mean. That what it takes for carried is just what docs/PROFILE.md lists
// is a test.
package fields

import (
	"errors"
	"fmt"
	"sort"
	"strings"

	"google.golang.org/protobuf/encoding/protowire"

	"finavoluth/edge/internal/otlp"
	"finavoluth/edge/internal/signal"
)

// A Field is one that isn't carried.
type Field struct {
	Path    string // as resourceMetrics.scopeMetrics.metrics.metadata; an unknown one ends with its number
	Unknown bool   // OTLP's messages don't have it
	Times   int
}

// MostNames is how many metrics with exponential histograms a Count names.
const MostNames = 100

// A Count is what was found in any number of requests. The zero Count is ready for use. It is used by one goroutine.
type Count struct {
	plans       map[signal.Signal]*plan
	found       map[string]*Field
	names       []string
	named       map[string]bool
	exponential int
	at          []*step // the fields that lead to the message that is looked at
}

// Fields are those that aren't carried, sorted by path.
func (c *Count) Fields() []Field {
	fields := make([]Field, 0, len(c.found))
	for _, field := range c.found {
		fields = append(fields, *field)
	}
	sort.Slice(fields, func(a, b int) bool { return fields[a].Path < fields[b].Path })
	return fields
}

// Exponential is how many metrics have an exponential histogram, and the first MostNames of their names, each once, in
// the order in which they came.
func (c *Count) Exponential() (names []string, metrics int) {
	return c.names, c.exponential
}

// mostLevels is how many messages may be inside each other. A request with values nested 32 deep, which is the most that
// is carried, has fewer; what is deeper isn't looked into.
const mostLevels = 200

// Uncarried adds to the count what isn't carried of the request. An error says that the bytes are no protobuf; what was
// found before is in the count. Bytes that are no request of the signal, as of a field with another wire type, are no
// error here: the program refuses them.
func Uncarried(s signal.Signal, request []byte, into *Count) error {
	if into.plans == nil {
		into.plans = map[signal.Signal]*plan{}
		into.found = map[string]*Field{}
		into.named = map[string]bool{}
	}
	if into.plans[s] == nil {
		into.plans[s] = planOf(s)
	}
	into.at = into.at[:0]
	return into.message(into.plans[s], request)
}

var errTooDeep = errors.New("messages are nested too deep")

// message looks at the fields of a message, and into those that are messages.
func (c *Count) message(plan *plan, whole []byte) error {
	if len(c.at) > mostLevels {
		return errTooDeep
	}
	for rest := whole; len(rest) > 0; {
		number, wire, head := protowire.ConsumeTag(rest)
		if head < 0 {
			return fmt.Errorf("a field of %s: %s", plan.message, otlp.Reason(protowire.ParseError(head)))
		}
		size := protowire.ConsumeFieldValue(number, wire, rest[head:])
		if size < 0 {
			return fmt.Errorf("field %d of %s: %s", number, plan.message, otlp.Reason(protowire.ParseError(size)))
		}
		value := rest[head : head+size]
		rest = rest[head+size:]
		step := plan.step(number)
		switch {
		case step == nil:
			c.add(fmt.Sprint(number), true)
		case step.kind == uncarried:
			c.add(step.name, false)
		case step.kind == refused:
			c.refuse(whole)
		case step.inside != nil && wire == protowire.BytesType:
			content, _ := protowire.ConsumeBytes(value)
			c.at = append(c.at, step)
			if err := c.message(step.inside, content); err != nil {
				return err
			}
			c.at = c.at[:len(c.at)-1]
		}
	}
	return nil
}

func (c *Count) add(name string, unknown bool) {
	var names []string
	for _, step := range c.at {
		names = append(names, step.name)
	}
	path := strings.Join(append(names, name), ".")
	if c.found[path] == nil {
		c.found[path] = &Field{Path: path, Unknown: unknown}
	}
	c.found[path].Times++
}

// refuse counts a metric with an exponential histogram, and takes its name, the last text with the number 1.
func (c *Count) refuse(metric []byte) {
	c.exponential++
	name := ""
	for rest := metric; len(rest) > 0; {
		number, wire, head := protowire.ConsumeTag(rest)
		if head < 0 {
			break
		}
		size := protowire.ConsumeFieldValue(number, wire, rest[head:])
		if size < 0 {
			break
		}
		if number == 1 && wire == protowire.BytesType {
			content, _ := protowire.ConsumeBytes(rest[head:])
			name = string(content)
		}
		rest = rest[head+size:]
	}
	if !c.named[name] && len(c.names) < MostNames {
		c.named[name] = true
		c.names = append(c.names, name)
	}
}
