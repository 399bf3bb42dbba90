package text

import "google.golang.org/protobuf/reflect/protoreflect"

// parts are the fields of a message that have been written one after the other: of each its number, and where it is.
type parts struct {
	list []part
	room [16]part // of the list, for most messages
	fall bool     // whether a number is below the one before
}

type part struct {
	number   protoreflect.FieldNumber
	from, to int
}

func (p *parts) add(number protoreflect.FieldNumber, from, to int) {
	if from == to {
		return
	}
	if p.list == nil {
		p.list = p.room[:0]
	}
	if n := len(p.list); n > 0 && p.list[n-1].number > number {
		p.fall = true
	}
	p.list = append(p.list, part{number, from, to})
}

// sort puts the fields into ascending order, in the bytes that hold them. It uses the room, and returns it.
func (p *parts) sort(out, room []byte) []byte {
	if !p.fall {
		return room
	}
	begin := p.list[0].from
	room = append(room[:0], out[begin:]...)
	for i := range p.list {
		for j := i; j > 0 && p.list[j-1].number > p.list[j].number; j-- {
			p.list[j-1], p.list[j] = p.list[j], p.list[j-1]
		}
	}
	at := begin
	for _, part := range p.list {
		at += copy(out[at:], room[part.from-begin:part.to-begin])
	}
	return room
}
