package near

import (
	"context"
	"errors"
	"fmt"
	"io"
	"math/rand"
	"sync/atomic"
	"time"

	"finavoluth/edge/internal/child"
	"finavoluth/edge/internal/live/wire"

	"google.golang.org/grpc"
	"google.golang.org/grpc/codes"
	"google.golang.org/grpc/status"
)

// An owner has one stream after the other: its child, its call, and the requests whose batches are open. Only its own
// goroutine touches them.
type owner struct {
	config Config
	pool   *pool
	number int
	conn   *grpc.ClientConn
	// session is the one that goes on, between streams; nil where there is none, or the child doesn't keep its requests.
	session *session
}

const (
	firstPause = 100 * time.Millisecond
	lastPause  = 5 * time.Second
	// farewell is how long a stream may take to end in order when the near end stops.
	farewell = 2 * time.Second
)

// run opens a stream whenever there is none, until the context ends.
func (o *owner) run(ctx context.Context) {
	defer o.quit()
	pause := firstPause
	for ctx.Err() == nil {
		answered, err := o.live(ctx)
		if err == nil {
			continue
		}
		if ctx.Err() != nil {
			return
		}
		if answered {
			pause = firstPause
		}
		o.config.Log.Warn("stream ended", "signal", o.pool.signal, "stream", o.number, "reason", reason(err))
		o.rest(ctx, pause, err)
		if pause *= 2; pause > lastPause {
			pause = lastPause
		}
	}
}

// quit ends the session that there is when the near end stops.
func (o *owner) quit() {
	if o.session != nil {
		o.session.giveUp("the near end stops")
		o.session.child.Close()
	}
}

// rest waits before the next try. Where no other stream of the signal is open, it answers those who ask meanwhile; but where
// requests are sent again, they wait too, until none was open for as long as a request may take.
func (o *owner) rest(ctx context.Context, pause time.Duration, why error) {
	timer := time.NewTimer(pause/2 + time.Duration(rand.Int63n(int64(pause))))
	defer timer.Stop()
	for {
		queue := o.pool.queue
		if atomic.LoadInt64(&o.pool.open) > 0 || o.config.Resend && o.pool.lately(o.config.Timeout) {
			queue = nil
		}
		select {
		case <-ctx.Done():
			return
		case <-timer.C:
			return
		case r := <-queue:
			r.settle(codes.Unavailable, "no stream to the far end: "+reason(why))
		}
	}
}

// A life is that of one stream.
type life struct {
	*owner
	*session
	call grpc.ClientStream
	// answered says that a status came; where requests are sent again, one that ended a request.
	answered bool
	// leaving says that no more batches are sent, as the stream is to be replaced.
	leaving bool
	heard   chan heard
	// silent fires once no status came for too long.
	silent *time.Timer
}

// heard is what came from the far end: a status, or how the stream ended.
type heard struct {
	status wire.Status
	err    error
}

// live opens a stream and serves it to its end. No error is where it was replaced in order, or the near end stops.
func (o *owner) live(stop context.Context) (answered bool, err error) {
	ctx, cancel := context.WithCancel(context.Background())
	defer cancel()
	go func() {
		select {
		case <-stop.Done():
			time.AfterFunc(farewell, cancel)
		case <-ctx.Done():
		}
	}()
	s := o.pool.signal.String()
	now, err := o.begin(ctx)
	if err != nil {
		return false, err
	}
	defer o.done(now)
	call, err := o.conn.NewStream(ctx, &grpc.StreamDesc{ClientStreams: true, ServerStreams: true},
		wire.Service{Signal: o.pool.signal, Arrow: true}.Method())
	if err != nil {
		return false, err
	}
	l := &life{owner: o, session: now, call: call, heard: make(chan heard, o.config.Window+1), silent: time.NewTimer(o.config.Timeout)}
	defer l.silent.Stop()
	go l.listen(ctx)
	o.config.Metrics.Add("otap_streams_started_total", 1, s)
	o.config.Log.Info("stream open", "signal", s, "stream", o.number)
	o.pool.opened(o.config, 1)
	err = l.serve(stop)
	o.pool.opened(o.config, -1)
	o.config.Metrics.Add("otap_streams_ended_total", 1, s, status.Code(err).String())
	switch {
	case l.again != nil && !l.lost:
		l.part()
	case err != nil:
		l.giveUp("the stream to the far end ended: " + reason(err))
	}
	return l.answered, err
}

// begin is the session of the next stream: the one that goes on, or one with a child of its own. A child that goes on has no
// end with its first stream.
func (o *owner) begin(ctx context.Context) (*session, error) {
	if o.session != nil {
		return o.session, nil
	}
	if o.config.Resend {
		ctx = context.Background()
	}
	child, err := o.config.Start(ctx, o.pool.signal)
	if err != nil {
		return nil, err
	}
	now := newSession(child)
	o.config.Metrics.Add("otap_children_started_total", 1, now.job())
	return now, nil
}

// done closes the child, unless it goes on.
func (o *owner) done(now *session) {
	o.session = nil
	if now.again != nil && !now.lost {
		o.session = now
		return
	}
	now.child.Close()
}

// listen hands on what the far end sends.
func (l *life) listen(ctx context.Context) {
	for {
		var bytes []byte
		err := l.call.RecvMsg(&bytes)
		h := heard{err: err}
		if err == nil {
			h.status, h.err = wire.ReadStatus(bytes)
		}
		select {
		case l.heard <- h:
		case <-ctx.Done():
			return
		}
		if h.err != nil {
			return
		}
	}
}

func (l *life) serve(stop context.Context) error {
	var lived <-chan time.Time
	if l.config.Lifetime > 0 {
		timer := time.NewTimer(l.config.Lifetime)
		defer timer.Stop()
		lived = timer.C
	}
	if l.again != nil {
		if err := l.resume(); err != nil {
			return err
		}
	}
	for {
		if l.leaving && l.asked == nil {
			l.call.CloseSend() // the far end answers the batches that are open, and then ends the call
			if len(l.open) == 0 {
				l.why(nil)
				if len(l.kept) > 0 {
					return errKept
				}
				return nil
			}
		}
		err := l.tell()
		if err != nil {
			return err
		}
		select {
		case r := <-l.queue():
			err = l.ask(r)
		case said := <-l.child.Said():
			err = l.said(said, l.pass)
		case h := <-l.heard:
			err = l.answer(h)
		case <-lived:
			lived, l.leaving = nil, true
		case <-l.silent.C:
			if len(l.open) > 0 {
				err = fmt.Errorf("no status for %d batches within %v", len(l.open), l.config.Timeout)
			}
			l.silent.Reset(l.config.Timeout)
		case <-stop.Done():
			if l.asked != nil || len(l.open) > 0 || len(l.kept) > 0 {
				return errors.New("the near end stops")
			}
			l.leaving = true
		}
		if err != nil {
			return err
		}
	}
}

// queue is where the next request comes from, while the child has none and the window has room for one.
func (l *life) queue() <-chan *request {
	if l.busy() || l.leaving || l.held() >= l.config.Window {
		return nil
	}
	return l.pool.queue
}

func restart(timer *time.Timer, after time.Duration) {
	if !timer.Stop() {
		select {
		case <-timer.C:
		default:
		}
	}
	timer.Reset(after)
}

// ask has the child encode a request. An error ends the stream.
func (l *life) ask(r *request) error {
	if r.ctx.Err() != nil {
		r.settle(codes.Canceled, "given up before it was encoded")
		return nil
	}
	err := l.child.Ask(r.message.Bytes)
	r.message.Bytes = nil
	if err != nil {
		return l.lostChild(r, err)
	}
	l.asked = r
	return nil
}

// lostChild gives up a child that ended, or answered what it mustn't. The request that it had, if any, is settled.
func (l *life) lostChild(r *request, err error) error {
	l.lost = true
	l.config.Metrics.Add("otap_children_lost_total", 1, l.job())
	if r != nil {
		r.settle(codes.Unavailable, "the encoding child ended: "+err.Error())
	}
	return fmt.Errorf("the encoding child ended: %w", err)
}

// said hears the child, of a status or of the request that it had, whose batch is passed on. An error ends the stream.
func (l *life) said(said child.Said, pass func(*request, []byte) error) error {
	if l.telling {
		l.telling = false
		if err := l.again.Told(said); err != nil {
			return l.lostChild(nil, err)
		}
		return nil
	}
	r, s := l.asked, l.pool.signal.String()
	l.asked = nil
	batch, cause, err := l.child.Answer(said)
	if err != nil {
		return l.lostChild(r, err)
	}
	if r == nil {
		return errors.New("the encoding child answered what it wasn't asked")
	}
	if cause != "" {
		l.config.Metrics.Add("otap_refused_total", 1, s, cause)
		r.settle(refusal(cause), "refused: "+cause)
		return nil
	}
	if err := l.identify(r, batch); err != nil {
		return l.lostChild(r, err)
	}
	r.number = l.numbers
	l.numbers++
	return pass(r, batch)
}

// identify reads the id of a request's batch.
func (l *life) identify(r *request, batch []byte) error {
	id, err := wire.BatchID(batch)
	if err != nil || l.open[id] != nil {
		return fmt.Errorf("it wrote a batch without an id of its own: id %d, open already: %v, %v", id, l.open[id] != nil, err)
	}
	r.batch = id
	return nil
}

// pass sends a batch. The child gets what comes next first, so that it works meanwhile.
func (l *life) pass(r *request, batch []byte) error {
	if !l.opens(r, batch) {
		return nil
	}
	if err := l.tell(); err != nil {
		return err
	}
	select {
	case next := <-l.queue():
		if err := l.ask(next); err != nil {
			return err
		}
	default:
	}
	return l.send(batch)
}

// opens says whether the far end takes the batch, which is open from then on.
func (l *life) opens(r *request, batch []byte) bool {
	if len(batch) > l.config.MaxBatch {
		// The batch won't be sent, and those after it build on it, so they go on a new stream.
		l.config.Metrics.Add("otap_refused_total", 1, l.pool.signal.String(), "MaxBatch")
		r.settle(codes.ResourceExhausted, fmt.Sprintf("its batch has %d bytes, above the %d of --max-batch", len(batch), l.config.MaxBatch))
		l.end(r.batch, false)
		l.leaving = true
		return false
	}
	if len(l.open) == 0 {
		restart(l.silent, l.config.Timeout)
	}
	l.open[r.batch] = r
	return true
}

func (l *life) send(batch []byte) error {
	s := l.pool.signal.String()
	l.config.Metrics.Add("otap_batches_total", 1, s)
	l.config.Metrics.Add("otap_batch_bytes_total", float64(len(batch)), s)
	if err := l.call.SendMsg(&batch); err != nil {
		return l.why(err)
	}
	return nil
}

// answer settles the request that a status is for.
func (l *life) answer(h heard) error {
	if h.err != nil {
		return h.err
	}
	s := h.status
	restart(l.silent, l.config.Timeout)
	l.config.Metrics.Add("otap_statuses_total", 1, l.pool.signal.String(), s.Code.String())
	r := l.open[s.ID]
	if r == nil {
		l.config.Log.Warn("status for no open batch", "signal", l.pool.signal, "stream", l.number, "batch", s.ID, "code", s.Code)
		return nil
	}
	delete(l.open, s.ID)
	if s.Code > codes.Unauthenticated {
		s.Code = codes.Unknown
	}
	l.verdict(r, s)
	return nil
}

// why waits for the end of the stream and its reason, which only the receiving side knows; statuses that came before it
// are heard first.
func (l *life) why(sending error) error {
	late := time.NewTimer(l.config.Timeout)
	defer late.Stop()
	for {
		select {
		case h := <-l.heard:
			if err := l.answer(h); err != nil {
				return err
			}
		case <-late.C:
			return sending
		}
	}
}

func reason(err error) string {
	if err == io.EOF {
		return "the far end had no more to say"
	}
	var s interface{ GRPCStatus() *status.Status }
	if errors.As(err, &s) {
		return fmt.Sprintf("%v: %s", s.GRPCStatus().Code(), s.GRPCStatus().Message())
	}
	return err.Error()
}
