package report

import (
	"context"
	"errors"
	"fmt"
	"io"
	"os"

	"github.com/klauspost/compress/zstd"

	"finavoluth/edge/internal/capture"
	"finavoluth/edge/internal/child"
	"finavoluth/edge/internal/refusal"
	"finavoluth/edge/internal/replies"
	"finavoluth/edge/internal/signal"
)

// gather runs list, schema, replay and decode over the batches of the file and adds up what they say.
func gather(ctx context.Context, program *child.Program, s signal.Signal, file string, frames int64, tick func(done, all int64)) (*facts, error) {
	ctx, cancel := context.WithCancel(ctx)
	defer cancel()
	jobs, err := startJobs(ctx, program, s, file)
	if err != nil {
		return nil, err
	}
	f := newFacts(frames)
	for i := int64(0); i < frames; i++ {
		frame, err := jobs.next(i)
		if err != nil {
			cancel()
			jobs.end()
			return nil, fmt.Errorf("frame %d: %w", i, err)
		}
		if err := f.take(frame); err != nil {
			cancel()
			jobs.end()
			return nil, fmt.Errorf("frame %d: %w", i, err)
		}
		if i%256 == 0 {
			tick(i, frames)
		}
	}
	tick(frames, frames)
	f.damage, err = jobs.end()
	return f, err
}

// frame is one frame of the capture with what the jobs say of it.
type frame struct {
	number   int64
	reset    bool
	listed   bool
	payloads []replies.Payload
	schemas  []replies.Schema
	accepted bool
	items    int64
	refusal  refusal.Refusal
	batch    size // the message
	request  size // the same as OTLP, where it was accepted
}

// size is the length of a message, and of the same message by zstd.
type size struct{ plain, packed int64 }

// jobs are the four jobs side by side, and the capture itself.
type jobs struct {
	list, schema, replay *replies.Texts
	decode               *replies.Messages
	batches, requests    *sizes
}

func startJobs(ctx context.Context, program *child.Program, s signal.Signal, file string) (*jobs, error) {
	var j jobs
	var err error
	for _, text := range []struct {
		job   **replies.Texts
		words []string
	}{
		{&j.list, []string{"list"}},
		{&j.schema, []string{"schema", s.String()}},
		{&j.replay, []string{"replay", s.String()}},
	} {
		if *text.job, err = replies.Print(ctx, program, file, -1, text.words...); err != nil {
			return nil, err
		}
	}
	if j.decode, err = replies.Write(ctx, program, file, nil, "decode", s.String()); err != nil {
		return nil, err
	}
	input, err := os.Open(file)
	if err != nil {
		return nil, err
	}
	reader := capture.NewReader(input)
	j.batches = measure(ctx, func() (capture.Frame, error) { return reader.Next() }, func() { input.Close() })
	j.requests = measure(ctx, j.decode.Next, func() {})
	return &j, nil
}

// next puts together what the jobs say of the next frame.
func (j *jobs) next(number int64) (frame, error) {
	f := frame{number: number}
	sized, err := j.batches.next()
	if err != nil {
		return f, fmt.Errorf("reading the capture: %w", err)
	}
	f.batch, f.reset = sized.size, sized.flag == capture.FlagReset
	said, err := j.replay.Next(number)
	if err != nil {
		return f, fmt.Errorf("replay: %w", err)
	}
	if f.accepted = said.Refused == "" && !said.Reset(); f.accepted {
		accepted, err := replies.Replayed(said.Lines[0])
		if err != nil {
			return f, err
		}
		f.items = accepted.Items
	} else if said.Refused != "" {
		var ok bool
		if f.refusal, ok = refusal.Parse(said.Refused); !ok {
			return f, fmt.Errorf("replay says %q", said.Refused)
		}
	}
	if said.Reset() != f.reset {
		return f, errors.New("replay and the capture disagree on what is a reset")
	}
	if said.Refused == "" {
		back, err := j.requests.next()
		if err != nil {
			return f, fmt.Errorf("decode wrote too few frames: %w", err)
		}
		f.request = back.size
	}
	return f, j.printed(&f)
}

// printed adds what list and schema print.
func (j *jobs) printed(f *frame) error {
	listed, err := j.list.Next(f.number)
	if err != nil {
		return fmt.Errorf("list: %w", err)
	}
	if f.listed = listed.Refused == "" && !f.reset; f.listed {
		if _, f.payloads, err = replies.Listed(listed.Lines[0]); err != nil {
			return err
		}
	}
	schema, err := j.schema.Next(f.number)
	if err != nil {
		return fmt.Errorf("schema: %w", err)
	}
	if schema.Refused == "" && !f.reset {
		f.schemas, err = replies.Schemas(schema.Lines[1:])
	}
	return err
}

// end waits for the jobs, and gives the line of a damage.
func (j *jobs) end() (damage string, err error) {
	j.batches.end()
	j.requests.end()
	for _, job := range []interface {
		End() (replies.Ending, error)
	}{j.list, j.schema, j.replay, j.decode} {
		ending, failed := job.End()
		if failed != nil && err == nil {
			err = failed
		}
		damage = ending.Damage
	}
	return damage, err
}

// sizes measures frames on a goroutine of its own, which compresses each message by itself, as gRPC does.
type sizes struct {
	measured chan sized
	failed   error
	done     func()
}

type sized struct {
	flag byte
	size size
}

func measure(ctx context.Context, next func() (capture.Frame, error), done func()) *sizes {
	s := &sizes{measured: make(chan sized, 256), done: done}
	go func() {
		defer close(s.measured)
		packer, err := zstd.NewWriter(nil, zstd.WithEncoderConcurrency(1))
		if err != nil {
			s.failed = err
			return
		}
		defer packer.Close()
		var room []byte
		for {
			frame, err := next()
			if err != nil {
				s.failed = err
				return
			}
			room = packer.EncodeAll(frame.Payload, room[:0])
			measured := sized{frame.Flag, size{int64(len(frame.Payload)), int64(len(room))}}
			select {
			case s.measured <- measured:
			case <-ctx.Done():
				s.failed = ctx.Err()
				return
			}
		}
	}()
	return s
}

func (s *sizes) next() (sized, error) {
	if measured, ok := <-s.measured; ok {
		return measured, nil
	}
	if s.failed == nil {
		return sized{}, io.ErrUnexpectedEOF
	}
	return sized{}, s.failed
}

// end takes what is left, so that the goroutine ends.
func (s *sizes) end() {
	for range s.measured {
	}
	s.done()
}
