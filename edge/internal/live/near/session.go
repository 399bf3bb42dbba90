package near

import (
	"errors"
	"sort"

	"finavoluth/edge/internal/live/wire"

	"google.golang.org/grpc/codes"
)

// A session is a child and the requests that it has. Where it runs `encode`, it ends with its stream; where it runs
// `resend`, it goes on with the next one, and the requests that are open are sent again there.
type session struct {
	child Encoder
	// again is the child where it keeps its requests, and else nil.
	again Resender
	// asked is the request that the child has; nil where it has none.
	asked *request
	// open has the requests whose batches are sent on this stream, by batch id.
	open map[int64]*request
	// kept has the requests that wait for the next stream. The child has them open, by their batch ids.
	kept []*request
	// untold has the statuses that the child is still to be told, and telling says that it has one.
	untold  []wire.Status
	telling bool
	// numbers is how many requests became batches.
	numbers uint64
	// lost says that the child is of no more use.
	lost bool
}

func newSession(child Encoder) *session {
	again, _ := child.(Resender)
	return &session{child: child, again: again, open: map[int64]*request{}}
}

// job is the program's word for what the child does.
func (s *session) job() string {
	if s.again != nil {
		return "resend"
	}
	return "encode"
}

// held is how many requests the child has, as far as it knows.
func (s *session) held() int {
	held := len(s.open) + len(s.kept) + len(s.untold)
	if s.telling {
		held++
	}
	return held
}

// busy says whether the child is to answer something, or to be told something first.
func (s *session) busy() bool { return s.asked != nil || s.telling || len(s.untold) > 0 }

// end has the child forget a request that is settled.
func (s *session) end(id int64, accepted bool) {
	if s.again == nil {
		return
	}
	status := wire.Status{ID: id}
	if !accepted {
		status.Code = codes.InvalidArgument // what `resend` gives a request up for; its sender has the code that it was
	}
	s.untold = append(s.untold, status)
}

// part keeps the requests of a stream that ended for the next one.
func (s *session) part() {
	for _, r := range s.open {
		s.kept = append(s.kept, r)
	}
	s.open = map[int64]*request{}
}

// giveUp settles all requests.
func (s *session) giveUp(text string) {
	s.part()
	if s.asked != nil {
		s.kept = append(s.kept, s.asked)
	}
	for _, r := range s.kept {
		r.settle(codes.Unavailable, text)
	}
	s.asked, s.kept, s.untold = nil, nil, nil
}

// worthwhile has the codes for which a request is sent again: those that OTLP's exporters send again for.
var worthwhile = map[codes.Code]bool{
	codes.Canceled: true, codes.DeadlineExceeded: true, codes.Aborted: true, codes.OutOfRange: true, codes.Unavailable: true,
	codes.DataLoss: true,
}

// errKept ends a stream on which all was said, since only on a new one are requests sent again.
var errKept = errors.New("requests are to be sent again")

// verdict is what becomes of a request by the status of its batch.
func (l *life) verdict(r *request, s wire.Status) {
	if l.again != nil && s.Code != codes.OK && worthwhile[s.Code] && r.ctx.Err() == nil {
		l.kept, l.leaving = append(l.kept, r), true
		return
	}
	l.answered = true
	l.end(s.ID, s.Code == codes.OK)
	r.settle(s.Code, s.Message)
}

// tell gives the child the next status, where there is one and the child is free.
func (l *life) tell() error {
	if l.asked != nil || l.telling || len(l.untold) == 0 {
		return nil
	}
	next := l.untold[0]
	l.untold, l.telling = l.untold[1:], true
	if err := l.again.Tell(next); err != nil {
		return l.lostChild(nil, err)
	}
	return nil
}

// settled hears what the child says next, until it is free and was told all.
func (l *life) settled() error {
	for l.busy() {
		if err := l.tell(); err != nil {
			return err
		}
		if err := l.said(<-l.child.Said(), l.keep); err != nil {
			return err
		}
	}
	return nil
}

// keep has a batch wait for the next stream.
func (l *life) keep(r *request, _ []byte) error {
	l.kept = append(l.kept, r)
	return nil
}

// resume begins the stream with a child that has open requests: nobody waits any longer for some, and the batches of the
// others are sent, in the order in which they were sent first.
func (l *life) resume() error {
	if err := l.settled(); err != nil {
		return err
	}
	waiting := l.kept[:0]
	for _, r := range l.kept {
		if r.ctx.Err() == nil {
			waiting = append(waiting, r)
			continue
		}
		l.end(r.batch, false)
		r.settle(codes.Unavailable, "given up before it was sent again")
	}
	l.kept = waiting
	if err := l.settled(); err != nil {
		return err
	}
	sort.Slice(waiting, func(i, k int) bool { return waiting[i].number < waiting[k].number })
	l.kept = nil
	var sending error
	err := l.again.Begin(len(waiting), func(batch []byte) error {
		r := waiting[0]
		if err := l.identify(r, batch); err != nil {
			return err
		}
		waiting = waiting[1:]
		if sending != nil || l.leaving {
			return l.keep(r, batch)
		}
		if l.opens(r, batch) {
			l.config.Metrics.Add("otap_resent_total", 1, l.pool.signal.String())
			sending = l.send(batch)
		}
		return nil
	})
	l.kept = append(l.kept, waiting...)
	if err != nil {
		return l.lostChild(nil, err)
	}
	return sending
}
