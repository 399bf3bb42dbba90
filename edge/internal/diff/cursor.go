package diff

import (
	"errors"
	"fmt"
	"io"

	"google.golang.org/protobuf/reflect/protoreflect"

	"finavoluth/edge/internal/fields"
	"finavoluth/edge/internal/otlp"
	"finavoluth/edge/internal/signal"
)

// A place is where a message is in a list of requests: each number is counted from 0 in what is around it.
type place struct {
	levels                      *otlp.Levels
	request, group, scope, item int // scope and item are -1 in the place of a group, item in that of a scope group
}

// String is the place as a path of jq, in the list of all requests.
func (p place) String() string {
	path := fmt.Sprintf(".[%d].%s[%d]", p.request, p.levels.Groups.JSONName(), p.group)
	if p.scope >= 0 {
		path += fmt.Sprintf(".%s[%d]", p.levels.Scopes.JSONName(), p.scope)
	}
	if p.item >= 0 {
		path += fmt.Sprintf(".%s[%d]", p.levels.Items.JSONName(), p.item)
	}
	return path
}

// A part is a message of a request, and where it is.
type part struct {
	place   place
	message protoreflect.Message
}

// An item is a span, a log record or a metric, with its resource group and its scope group, which are without their
// lists here.
type item struct {
	part
	group, scope *part
}

// A cursor goes over the items of a list of requests.
type cursor struct {
	name     string // of the list, for errors
	signal   signal.Signal
	requests Requests
	carried  bool // whether what isn't carried is taken away
	levels   otlp.Levels

	at                    place
	groups, scopes, items protoreflect.List // of the request, the group and the scope group at hand
	group, scope          *part
}

func newCursor(name string, s signal.Signal, requests Requests, carried bool) *cursor {
	c := &cursor{name: name, signal: s, requests: requests, carried: carried, levels: otlp.LevelsOf(s)}
	c.at = place{levels: &c.levels, request: -1}
	return c
}

// next is the next item, and nil after the last one.
func (c *cursor) next() (*item, error) {
	for {
		switch {
		case c.items != nil && c.at.item+1 < c.items.Len():
			c.at.item++
			message := c.items.Get(c.at.item).Message()
			return &item{part: part{c.at, message}, group: c.group, scope: c.scope}, nil
		case c.scopes != nil && c.at.scope+1 < c.scopes.Len():
			c.at.scope++
			c.at.item = -1
			c.scope, c.items = c.take(c.scopes.Get(c.at.scope), c.levels.Items)
		case c.groups != nil && c.at.group+1 < c.groups.Len():
			c.at.group++
			c.at.scope, c.at.item = -1, -1
			c.group, c.scopes = c.take(c.groups.Get(c.at.group), c.levels.Scopes)
			c.items = nil
		default:
			if err := c.read(); errors.Is(err, io.EOF) {
				return nil, nil
			} else if err != nil {
				return nil, err
			}
		}
	}
}

// take takes the list out of a group.
func (c *cursor) take(value protoreflect.Value, field protoreflect.FieldDescriptor) (*part, protoreflect.List) {
	message := value.Message()
	list := message.Get(field).List()
	message.Clear(field)
	return &part{c.at, message}, list
}

// read reads the next request.
func (c *cursor) read() error {
	request, err := c.requests.Next()
	if err == io.EOF {
		return err
	}
	if err != nil {
		return fmt.Errorf("%s: %w", c.name, err)
	}
	message, err := otlp.Read(c.signal, request)
	if err != nil {
		return &Unreadable{List: c.name, Request: c.at.request + 1, Err: err}
	}
	settle(message, c.carried)
	c.at = place{levels: &c.levels, request: c.at.request + 1, group: -1, scope: -1, item: -1}
	c.groups, c.scopes, c.items = message.Get(c.levels.Groups).List(), nil, nil
	return nil
}

// Unreadable is the error of a request that isn't one of the signal.
type Unreadable struct {
	List    string // A or B
	Request int    // counted from 0
	Err     error
}

func (u *Unreadable) Error() string {
	return fmt.Sprintf("%s, request %d: %v", u.List, u.Request, u.Err)
}

func (u *Unreadable) Unwrap() error { return u.Err }

// settle takes away what says nothing, the empty messages that are no element of a list and no member of a oneof, and,
// where only what is carried is wanted, all else. So what is left is equal where it means the same, but for the order of
// attributes.
func settle(message protoreflect.Message, carried bool) {
	if carried {
		message.SetUnknown(nil)
	}
	message.Range(func(field protoreflect.FieldDescriptor, value protoreflect.Value) bool {
		switch {
		case carried && !fields.IsCarried(field):
			message.Clear(field)
		case field.Kind() != protoreflect.MessageKind:
		case field.IsList():
			for i := 0; i < value.List().Len(); i++ {
				settle(value.List().Get(i).Message(), carried)
			}
		default:
			settle(value.Message(), carried)
			if field.ContainingOneof() == nil && isEmpty(value.Message()) {
				message.Clear(field)
			}
		}
		return true
	})
}

func isEmpty(message protoreflect.Message) bool {
	empty := len(message.GetUnknown()) == 0
	message.Range(func(protoreflect.FieldDescriptor, protoreflect.Value) bool {
		empty = false
		return false
	})
	return empty
}
