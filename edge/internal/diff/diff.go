// Package diff compares the telemetry of two lists of requests, item by item: the spans, log records or metrics in order
// over all of each list, however they are cut into requests and groups, each with its resource, its scope and their
// schema urls. Groups without items are passed over. Attributes are compared as multisets, everything else in order, and
// doubles by their bits. An absent message is the empty one, but in a oneof. That is what docs/PROMISES.md means by the
// same telemetry. Here what OTLP has beyond it is compared too: the metadata of metrics, entity references, exponential
// histograms, and unknown fields by their bytes.
//
// At any time one request of each list is in memory. It trusts the protobuf library to read them.
package diff

import (
	"finavoluth/edge/internal/signal"
)

// Requests are read one after the other; after the last one Next returns io.EOF.
type Requests interface {
	Next() ([]byte, error)
}

// Options say what to compare and to report.
type Options struct {
	Most    int  // how many differences are reported at most
	Carried bool // whether what encode and tidy don't carry is left out
}

// A Side is what one of the lists has at a difference.
type Side struct {
	Path string // as .[0].resourceSpans[0].scopeSpans[0].spans[2].name, where [0] is the first request; empty where there is nothing
	Text string // the value as OTLP's JSON, or "none"
}

// A Difference is one between two items with the same number, or between their groups.
type Difference struct {
	Item int // counted from 0
	A, B Side
}

// A Report is what a comparison has found.
type Report struct {
	ItemsA, ItemsB int // how many items there are
	Found          int // how many differences; one of a group counts once for the items that share it
	Differences    []Difference
}

// Same is whether both lists have the same telemetry.
func (r *Report) Same() bool {
	return r.Found == 0
}

// Compare compares the requests of the signal. An error says which list couldn't be read, and where.
func Compare(s signal.Signal, a, b Requests, options Options) (*Report, error) {
	left, right := newCursor("A", s, a, options.Carried), newCursor("B", s, b, options.Carried)
	c := &comparison{most: options.Most, report: &Report{}}
	for {
		x, err := left.next()
		if err != nil {
			return nil, err
		}
		y, err := right.next()
		if err != nil {
			return nil, err
		}
		if x == nil || y == nil {
			err := c.rest(left, right, x, y)
			return c.report, err
		}
		c.items(x, y)
		c.report.ItemsA++
		c.report.ItemsB++
	}
}

// rest reports the first of the items that only one list has, and counts them.
func (c *comparison) rest(left, right *cursor, x, y *item) error {
	if x != nil {
		c.differ(Side{x.place.String(), shorten(jsonOf(x.message))}, none)
	}
	if y != nil {
		c.differ(none, Side{y.place.String(), shorten(jsonOf(y.message))})
	}
	var err error
	for ; x != nil && err == nil; x, err = left.next() {
		c.report.ItemsA++
	}
	for ; y != nil && err == nil; y, err = right.next() {
		c.report.ItemsB++
	}
	return err
}
