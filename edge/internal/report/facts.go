package report

import (
	"math"
	"math/bits"
	"sort"

	"finavoluth/edge/internal/refusal"
	"finavoluth/edge/internal/replies"
)

// maxBins is how many bars a chart over the batches has at most; with more frames each bar stands for several.
const maxBins = 400

// facts are the numbers of the page, added up frame by frame. Their size doesn't grow with the capture.
type facts struct {
	frames   int64
	width    int64 // how many frames a bin has
	bins     []bin
	types    map[int]bool
	streams  map[int]*stream
	columns  map[column]*strip
	steps    []step
	segment  progress
	spread   spread
	refusals map[refusalKey]*refusals
	damage   string

	batches, accepted, refused, resets, items, openings int64
	otap, otlp                                          size // of accepted batches
	refusedBytes                                        int64
}

// bin is some frames that follow each other.
type bin struct {
	first, last              int64
	batches, accepted        int64
	refused, resets, opening int64 // opening: payloads of accepted batches that open a sub-stream
	records                  map[int]int64
	rest                     int64           // of the messages what isn't a record
	otap, otlp               int64           // of the accepted ones
	schemas                  map[int]*schema // by payload type, of the last accepted batch that has the type
}

// column is a column of a table.
type column struct {
	table int
	name  string
}

// strip is one column over the batches.
type strip struct {
	seen    int // how many columns were seen before it
	changes int64
	at      map[int]int64 // changes by bin
}

// schema is what a payload opened with.
type schema struct {
	types map[string]string
	names []string
}

// stream is the sub-stream that is open for a payload type.
type stream struct{ now *schema }

// progress is what a segment has had so far.
type progress struct {
	batches    int64
	otap, otlp size
}

// step adds up the segments that have at least so many batches.
type step struct {
	batch      int64
	segments   int64
	otap, otlp size // so far
	one, other size // of this batch alone
}

// refusalKey is what the refused frames of one line of the table share.
type refusalKey struct {
	stage   int
	cause   string
	payload string
}

type refusals struct {
	count  int64
	frames []int64 // the first ones
}

const maxFrames = 12 // of one line of the refusals

func newFacts(frames int64) *facts {
	f := &facts{frames: frames, width: (frames + maxBins - 1) / maxBins}
	if f.width == 0 {
		f.width = 1
	}
	f.bins = make([]bin, (frames+f.width-1)/f.width)
	for i := range f.bins {
		first := int64(i) * f.width
		last := first + f.width - 1
		if last >= frames {
			last = frames - 1
		}
		f.bins[i] = bin{first: first, last: last, records: map[int]int64{}, schemas: map[int]*schema{}}
	}
	f.types = map[int]bool{}
	f.streams = map[int]*stream{}
	f.columns = map[column]*strip{}
	f.refusals = map[refusalKey]*refusals{}
	return f
}

// take adds one frame.
func (f *facts) take(one frame) error {
	at := int(one.number / f.width)
	b := &f.bins[at]
	if one.reset {
		f.resets++
		b.resets++
		f.streams = map[int]*stream{}
		f.segment = progress{}
		return nil
	}
	f.batches++
	b.batches++
	f.bytes(b, one)
	if !one.accepted {
		f.refused++
		b.refused++
		f.refusedBytes += one.batch.plain
		f.refuse(one.number, one.refusal)
		return nil
	}
	f.accepted++
	b.accepted++
	f.items += one.items
	f.otap.add(one.batch)
	f.otlp.add(one.request)
	b.otap += one.batch.plain
	b.otlp += one.request.plain
	opened := f.open(at, one.schemas)
	b.opening += opened
	f.openings += opened
	f.advance(one)
	f.spread.take(one.items, one.batch.plain, opened > 0, one.number)
	return nil
}

// bytes adds the records of a batch by their types, and what else its message has.
func (f *facts) bytes(b *bin, one frame) {
	rest := one.batch.plain
	for _, p := range one.payloads {
		f.types[p.Type] = true
		b.records[p.Type] += p.Length
		rest -= p.Length
	}
	b.rest += rest
}

// refuse adds a refused frame to its line.
func (f *facts) refuse(number int64, r refusal.Refusal) {
	key := refusalKey{r.Stage, r.Cause, r.Payload}
	line := f.refusals[key]
	if line == nil {
		line = &refusals{}
		f.refusals[key] = line
	}
	line.count++
	if len(line.frames) < maxFrames {
		line.frames = append(line.frames, number)
	}
}

// open takes the schemas of an accepted batch, and counts what opens.
func (f *facts) open(at int, schemas []replies.Schema) (opened int64) {
	for _, s := range schemas {
		f.types[s.Type] = true
		now := f.streams[s.Type]
		if now == nil {
			now = &stream{}
			f.streams[s.Type] = now
		}
		if s.Opens {
			opened++
			next := newSchema(s.Fields)
			for _, name := range next.names {
				f.columnOf(s.Type, name)
			}
			if now.now != nil {
				f.change(at, s.Type, now.now, next)
			}
			now.now = next
		}
		if now.now != nil {
			f.bins[at].schemas[s.Type] = now.now
		}
	}
	return opened
}

// change notes each column in which a schema differs from the one before it in its segment.
func (f *facts) change(at, table int, before, after *schema) {
	note := func(name string) {
		s := f.columnOf(table, name)
		s.changes++
		s.at[at]++
	}
	for _, name := range before.names {
		if before.types[name] != after.types[name] {
			note(name)
		}
	}
	for _, name := range after.names {
		if _, was := before.types[name]; !was {
			note(name)
		}
	}
}

func (f *facts) columnOf(table int, name string) *strip {
	key := column{table, name}
	s := f.columns[key]
	if s == nil {
		s = &strip{seen: len(f.columns), at: map[int]int64{}}
		f.columns[key] = s
	}
	return s
}

func newSchema(fields []replies.Field) *schema {
	s := &schema{types: make(map[string]string, len(fields))}
	for _, field := range fields {
		s.types[field.Name] = field.Whole()
		s.names = append(s.names, field.Name)
	}
	return s
}

// advance notes how far the segment is, where that is a step of the chart: each of the first hundred batches, and from
// there on steps that grow by a twentieth.
func (f *facts) advance(one frame) {
	f.segment.batches++
	f.segment.otap.add(one.batch)
	f.segment.otlp.add(one.request)
	n := f.segment.batches
	at := sort.Search(len(f.steps), func(i int) bool { return f.steps[i].batch >= n })
	if at == len(f.steps) {
		if at > 0 && n < nextStep(f.steps[at-1].batch) {
			return
		}
		f.steps = append(f.steps, step{batch: n})
	} else if f.steps[at].batch != n {
		return
	}
	s := &f.steps[at]
	s.segments++
	s.otap.add(f.segment.otap)
	s.otlp.add(f.segment.otlp)
	s.one.add(one.batch)
	s.other.add(one.request)
}

func nextStep(batch int64) int64 {
	if batch < 100 {
		return batch + 1
	}
	return int64(math.Ceil(float64(batch) * 1.05))
}

func (s *size) add(other size) {
	s.plain += other.plain
	s.packed += other.packed
}

// maxPoints is how many batches the chart of items shows one by one; more are gathered on a grid.
const maxPoints = 1000

// spread is bytes and items of each batch, or of those that fall on one place of the grid.
type spread struct {
	batches int64
	points  []point
	grid    map[place]*point
	groups  map[int]*group // by the power of two that the items reach
}

type point struct {
	items, bytes, batches, opening int64
	frame                          int64 // the first
}

type place struct {
	items, bytes int
	opens        bool
}

// group is the batches whose items are from 2^n on and below 2^(n+1).
type group struct{ batches, items, bytes, opening int64 }

func (s *spread) take(items, bytes int64, opens bool, frame int64) {
	if items == 0 {
		return
	}
	if s.groups == nil {
		s.groups, s.grid = map[int]*group{}, map[place]*point{}
	}
	s.batches++
	one := point{items: items, bytes: bytes, batches: 1, frame: frame}
	if opens {
		one.opening = 1
	}
	power := bits.Len64(uint64(items)) - 1
	g := s.groups[power]
	if g == nil {
		g = &group{}
		s.groups[power] = g
	}
	g.batches++
	g.items += items
	g.bytes += bytes
	g.opening += one.opening
	if s.batches <= maxPoints {
		s.points = append(s.points, one)
		return
	}
	for _, p := range s.points {
		s.onGrid(p)
	}
	s.points = nil
	s.onGrid(one)
}

// onGrid has twenty places for each factor of ten, both ways.
func (s *spread) onGrid(p point) {
	key := place{
		int(math.Round(20 * math.Log10(float64(p.items)))),
		int(math.Round(20 * math.Log10(float64(p.bytes)/float64(p.items)))),
		p.opening > 0,
	}
	at := s.grid[key]
	if at == nil {
		at = &point{frame: p.frame}
		s.grid[key] = at
	}
	at.items += p.items
	at.bytes += p.bytes
	at.batches += p.batches
	at.opening += p.opening
}

// all are the points to draw: with less items first.
func (s *spread) all() []point {
	points := append([]point(nil), s.points...)
	for _, p := range s.grid {
		points = append(points, *p)
	}
	sort.Slice(points, func(i, j int) bool {
		a, b := points[i], points[j]
		if a.items*b.batches != b.items*a.batches {
			return a.items*b.batches < b.items*a.batches
		}
		return a.frame < b.frame
	})
	return points
}
