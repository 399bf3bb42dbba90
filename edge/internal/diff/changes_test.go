package diff

import (
	"encoding/json"
	"fmt"
	"math"
	"math/rand"
	"sort"
	"strings"
	"testing"

	"google.golang.org/protobuf/proto"
	"google.golang.org/protobuf/reflect/protoreflect"

	"finavoluth/edge/internal/otlp"
	"finavoluth/edge/internal/samples"
	"finavoluth/edge/internal/signal"
	"finavoluth/edge/internal/text"
)

// walk calls f for each field that is set, in the message and those inside it.
func walk(message protoreflect.Message, f func(protoreflect.Message, protoreflect.FieldDescriptor)) {
	fields := message.Descriptor().Fields()
	for i := 0; i < fields.Len(); i++ {
		field := fields.Get(i)
		if !message.Has(field) {
			continue
		}
		f(message, field)
		if field.Message() == nil || !message.Has(field) {
			continue
		}
		if !field.IsList() {
			walk(message.Get(field).Message(), f)
			continue
		}
		for i := 0; i < message.Get(field).List().Len(); i++ {
			walk(message.Get(field).List().Get(i).Message(), f)
		}
	}
}

func clone(message protoreflect.Message) protoreflect.Message {
	return proto.Clone(message.Interface()).ProtoReflect()
}

// A change is one that can be made to a message: of which field, how, and what makes it.
type change struct {
	field string
	how   string
	make  func()
}

// changes are those of each field of each message in the message, in a fixed order.
func changes(message protoreflect.Message) []change {
	var all []change
	fields := message.Descriptor().Fields()
	for i := 0; i < fields.Len(); i++ {
		field := fields.Get(i)
		switch {
		case field.IsList():
			all = append(all, ofList(message, field)...)
		case message.Has(field):
			all = append(all, ofValue(message, field)...)
		case field.ContainingOneof() == nil || field.ContainingOneof().IsSynthetic():
			all = append(all, change{string(field.FullName()), "set", func() {
				message.Set(field, other(message.NewField(field), field))
			}})
		}
	}
	return all
}

func ofValue(message protoreflect.Message, field protoreflect.FieldDescriptor) []change {
	name := string(field.FullName())
	all := []change{{name, "dropped", func() { message.Clear(field) }}}
	if field.Message() != nil {
		return append(all, changes(message.Get(field).Message())...)
	}
	return append(all, change{name, "changed", func() { message.Set(field, other(message.Get(field), field)) }})
}

func ofList(message protoreflect.Message, field protoreflect.FieldDescriptor) []change {
	name := string(field.FullName())
	list := message.Mutable(field).List()
	var all []change
	for i := 0; i < list.Len(); i++ {
		i := i
		last := list.Len() - 1
		all = append(all, change{name, "an element dropped", func() {
			for j := i; j < last; j++ {
				list.Set(j, list.Get(j+1))
			}
			list.Truncate(last)
		}}, change{name, "an element twice", func() { list.Append(list.Get(i)) }})
		if i > 0 {
			all = append(all, change{name, "another order", func() {
				a, b := list.Get(i-1), list.Get(i)
				list.Set(i-1, b)
				list.Set(i, a)
			}})
		}
		if field.Message() != nil {
			all = append(all, changes(list.Get(i).Message())...)
		} else {
			all = append(all, change{name, "an element changed", func() { list.Set(i, other(list.Get(i), field)) }})
		}
	}
	return append(all, change{name, "an element more", func() { list.Append(list.NewElement()) }})
}

// other is another value.
func other(value protoreflect.Value, field protoreflect.FieldDescriptor) protoreflect.Value {
	switch v := value.Interface().(type) {
	case bool:
		return protoreflect.ValueOfBool(!v)
	case protoreflect.EnumNumber:
		return protoreflect.ValueOfEnum(v ^ 1)
	case int32:
		return protoreflect.ValueOfInt32(v ^ 1)
	case uint32:
		return protoreflect.ValueOfUint32(v ^ 1)
	case int64:
		return protoreflect.ValueOfInt64(v ^ 1)
	case uint64:
		return protoreflect.ValueOfUint64(v ^ 1)
	case float64:
		if math.IsNaN(v) {
			return protoreflect.ValueOfFloat64(1)
		}
		return protoreflect.ValueOfFloat64(math.Float64frombits(math.Float64bits(v) ^ 1))
	case string:
		return protoreflect.ValueOfString(v + "x")
	case []byte:
		return protoreflect.ValueOfBytes(append(append([]byte(nil), v...), 1))
	}
	fields := value.Message().Descriptor().Fields()
	for i := 0; i < fields.Len(); i++ {
		if inner := fields.Get(i); inner.Message() == nil && !inner.IsList() {
			value.Message().Set(inner, other(value.Message().NewField(inner), inner))
			return value
		}
	}
	panic("a message without scalars")
}

// told is what a request tells, an item a line, by another way than the comparison's: over JSON, with the attributes
// sorted, and without empty messages that aren't elements or members of oneofs.
func told(t *testing.T, s signal.Signal, request protoreflect.Message) string {
	levels := otlp.LevelsOf(s)
	var value map[string]interface{}
	if err := json.Unmarshal(text.AppendMessage(nil, request), &value); err != nil {
		t.Fatal(err)
	}
	var lines []string
	for _, group := range elements(value, levels.Groups.JSONName()) {
		scopes := elements(group, levels.Scopes.JSONName())
		delete(group, levels.Scopes.JSONName())
		for _, scope := range scopes {
			items := elements(scope, levels.Items.JSONName())
			delete(scope, levels.Items.JSONName())
			for _, item := range items {
				line, err := json.Marshal([]interface{}{sorted(group), sorted(scope), sorted(item)})
				if err != nil {
					t.Fatal(err)
				}
				lines = append(lines, string(line))
			}
		}
	}
	return strings.Join(lines, "\n")
}

func elements(value map[string]interface{}, key string) []map[string]interface{} {
	var all []map[string]interface{}
	list, _ := value[key].([]interface{})
	for _, element := range list {
		all = append(all, element.(map[string]interface{}))
	}
	return all
}

// sorted has each list of attributes sorted, and no empty message where an absent one means the same.
func sorted(value interface{}) interface{} {
	switch v := value.(type) {
	case []interface{}:
		for i := range v {
			v[i] = sorted(v[i])
		}
	case map[string]interface{}:
		for key, inside := range v {
			v[key] = sorted(inside)
			switch key {
			case "attributes", "filteredAttributes", "metadata":
				list := inside.([]interface{})
				sort.Slice(list, func(a, b int) bool { return fmt.Sprint(list[a]) < fmt.Sprint(list[b]) })
			case "resource", "scope", "status", "body", "value", "positive", "negative":
				if object, ok := v[key].(map[string]interface{}); ok && len(object) == 0 {
					delete(v, key)
				}
			}
		}
	}
	return value
}

// Each field of each message is changed, dropped, set, and its elements are dropped, put twice, and put in another order;
// whether that tells the same is what another way says.
func TestEachChange(t *testing.T) {
	for _, s := range signal.All() {
		differ, same := map[string]int{}, map[string]int{}
		for seed := int64(0); seed < 200; seed++ {
			request := samples.Request(s, seed)
			if len(otlp.Write(request)) > 1200 {
				continue // each change is made in a copy of the request
			}
			before := told(t, s, request)
			for n, c := range changes(clone(request)) {
				key := c.field + ", " + c.how
				if tried := differ[key] + same[key]; tried > 1 && differ[key] > 0 || tried > 8 {
					continue
				}
				changed := clone(request)
				changes(changed)[n].make()
				after := told(t, s, changed)
				report := compared(t, s, written(request), written(changed), all)
				if report.Same() != (before == after) {
					t.Errorf("%v %d: %s: the same: %v\n%s", s, seed, key, report.Same(), printed(report))
				}
				if report.Same() {
					same[key]++
				} else {
					differ[key]++
				}
			}
		}
		everyChange(t, otlp.Request(s), differ)
	}
}

// everyChange is that a change of each field of each message, of each sort, was found.
func everyChange(t *testing.T, request protoreflect.MessageDescriptor, found map[string]int) {
	for _, message := range inside(request, nil) {
		for i := 0; i < message.Fields().Len(); i++ {
			field := message.Fields().Get(i)
			sorts := []string{"dropped"}
			switch {
			case field.IsList() && isAttributes(field):
				sorts = []string{"an element dropped", "an element twice", "an element more"}
			case field.IsList():
				sorts = []string{"an element dropped", "an element twice", "another order"}
			case field.Message() == nil:
				sorts = append(sorts, "changed")
			}
			for _, sort := range sorts {
				if key := string(field.FullName()) + ", " + sort; found[key] == 0 {
					t.Errorf("not tried or not found: %s", key)
				}
			}
		}
	}
}

// inside are the message and those that may be inside it.
func inside(message protoreflect.MessageDescriptor, before []protoreflect.MessageDescriptor) []protoreflect.MessageDescriptor {
	for _, other := range before {
		if other == message {
			return before
		}
	}
	all := append(before, message)
	for i := 0; i < message.Fields().Len(); i++ {
		if field := message.Fields().Get(i); field.Message() != nil {
			all = inside(field.Message(), all)
		}
	}
	return all
}

// An unknown field in a group that has items, in an item, and in any message inside them, is a difference; it is none
// where only what is carried is compared.
func TestUnknownFields(t *testing.T) {
	carried := Options{Most: 1 << 20, Carried: true}
	for _, s := range signal.All() {
		levels := otlp.LevelsOf(s)
		tried := map[protoreflect.FullName]int{}
		for seed := int64(0); seed < 40; seed++ {
			request := samples.Request(s, seed)
			var before *list
			visit(request, levels, func(message protoreflect.Message) {
				if name := message.Descriptor().FullName(); tried[name] < 3 {
					tried[name]++
					before = written(request)
					message.SetUnknown([]byte{0x98, 0x3e, 7})
					after := written(request)
					message.SetUnknown(nil)
					report := compared(t, s, &list{before.requests}, &list{after.requests}, all)
					if report.Same() || !strings.Contains(printed(report), "unknown fields, in protobuf 983e07") && !strings.Contains(printed(report), "983e07") {
						t.Errorf("%v %d: in %s: %s", s, seed, name, printed(report))
					}
					if !compared(t, s, before, after, carried).Same() {
						t.Errorf("%v %d: in %s: not the same", s, seed, name)
					}
				}
			})
		}
		for _, message := range inside(otlp.Request(s), nil)[1:] {
			if tried[message.FullName()] == 0 {
				t.Errorf("not tried: %s", message.FullName())
			}
		}
	}
}

// visit calls f for the groups that have items, for the items, and for the messages inside them.
func visit(request protoreflect.Message, levels otlp.Levels, f func(protoreflect.Message)) {
	messages := func(message protoreflect.Message, field protoreflect.FieldDescriptor) []protoreflect.Message {
		var all []protoreflect.Message
		for i := 0; i < message.Get(field).List().Len(); i++ {
			all = append(all, message.Get(field).List().Get(i).Message())
		}
		return all
	}
	for _, group := range messages(request, levels.Groups) {
		full := false
		for _, scope := range messages(group, levels.Scopes) {
			if scope.Get(levels.Items).List().Len() > 0 {
				full = true
				within(scope, nil, f)
			}
		}
		if full {
			within(group, levels.Scopes, f)
		}
	}
}

// within calls f for the message and those inside it, but for those of one field.
func within(message protoreflect.Message, but protoreflect.FieldDescriptor, f func(protoreflect.Message)) {
	f(message)
	fields := message.Descriptor().Fields()
	for i := 0; i < fields.Len(); i++ {
		field := fields.Get(i)
		switch {
		case field == but || field.Message() == nil || !message.Has(field):
		case field.IsList():
			for j := 0; j < message.Get(field).List().Len(); j++ {
				within(message.Get(field).List().Get(j).Message(), nil, f)
			}
		default:
			within(message.Get(field).Message(), nil, f)
		}
	}
}

// Requests that are cut otherwise, with their attributes in another order, and with groups without items between, tell
// the same.
func TestTheSameOtherwise(t *testing.T) {
	for _, s := range signal.All() {
		for seed := int64(0); seed < 30; seed++ {
			r := rand.New(rand.NewSource(seed))
			var a, b []protoreflect.Message
			for i := 0; i < 3; i++ {
				request := samples.Request(s, seed*3+int64(i))
				a = append(a, request)
				b = append(b, cut(r, s, shuffled(r, clone(request)))...)
			}
			if report := compared(t, s, written(a...), written(b...), all); !report.Same() {
				t.Errorf("%v %d: %s", s, seed, printed(report))
			}
			if report := compared(t, s, written(b...), written(a...), all); !report.Same() || report.ItemsA != report.ItemsB {
				t.Errorf("%v %d, the other way: %s", s, seed, printed(report))
			}
		}
	}
}

// shuffled puts each list of attributes in another order.
func shuffled(r *rand.Rand, message protoreflect.Message) protoreflect.Message {
	walk(message, func(m protoreflect.Message, field protoreflect.FieldDescriptor) {
		if field.IsList() && field.Message() != nil && field.Message().Name() == "KeyValue" && m.Descriptor().Name() != "KeyValueList" {
			list := m.Mutable(field).List()
			r.Shuffle(list.Len(), func(i, j int) {
				a, b := list.Get(i), list.Get(j)
				list.Set(i, b)
				list.Set(j, a)
			})
		}
	})
	return message
}

// cut makes requests that have a part of the items each, some of them without any.
func cut(r *rand.Rand, s signal.Signal, request protoreflect.Message) []protoreflect.Message {
	levels := otlp.LevelsOf(s)
	var cuts []protoreflect.Message
	groups := request.Get(levels.Groups).List()
	for i := 0; i < groups.Len(); i++ {
		scopes := groups.Get(i).Message().Get(levels.Scopes).List()
		for j := 0; j < scopes.Len(); j++ {
			items := scopes.Get(j).Message().Get(levels.Items).List()
			for from := 0; from < items.Len(); {
				to := from + r.Intn(items.Len()-from+1)
				cuts = append(cuts, some(request, levels, i, j, from, to))
				from = to
			}
		}
	}
	return cuts
}

// some is a request with some of the items of one scope group, and a group without items before it.
func some(request protoreflect.Message, levels otlp.Levels, group, scope, from, to int) protoreflect.Message {
	made := clone(request)
	groups := made.Mutable(levels.Groups).List()
	one := groups.Get(group).Message()
	scopes := one.Mutable(levels.Scopes).List()
	items := scopes.Get(scope).Message().Mutable(levels.Items).List()
	for i := from; i < to; i++ {
		items.Set(i-from, items.Get(i))
	}
	items.Truncate(to - from)
	scopes.Set(0, scopes.Get(scope))
	scopes.Truncate(1)
	groups.Set(0, groups.Get(group))
	groups.Truncate(1)
	groups.AppendMutable()
	return made
}
