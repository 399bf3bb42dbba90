package run

import (
	"bytes"
	"context"
	"fmt"
	"sort"
	"strings"

	"finavoluth/edge/internal/capture"
	"finavoluth/edge/internal/fields"
	"finavoluth/edge/internal/jobs"
	"finavoluth/edge/internal/signal"
)

// hint says what refusals mostly come from: a wrong signal, or batches where requests are wanted, or the other way round;
// and a damage. It tries the program on the first messages.
func (r *running) hint(ctx context.Context) {
	if r.notes.damage != nil {
		r.env.Say("%s", damageText(r.notes.damage))
	}
	if !r.plan.Job.Signal || len(r.notes.kept) == 0 {
		return
	}
	switch {
	case r.allRefused():
		r.hintRefused(ctx)
	case r.plan.Job.Takes == jobs.Requests:
		r.hintUnknown(ctx)
	}
}

// allRefused says whether all messages were refused for causes that a wrong signal has. Of batches, a refused one breaks
// those after it.
func (r *running) allRefused() bool {
	if r.notes.messages == 0 || r.notes.refused != r.notes.messages {
		return false
	}
	alone := false
	for cause := range r.notes.causes {
		switch cause {
		case "BadMessage", "BadUtf8", "BadLength", "PayloadType":
			alone = true
		case "Broken":
		default:
			return false
		}
	}
	return alone
}

func (r *running) hintRefused(ctx context.Context) {
	first := "the first message is"
	if len(r.notes.kept) > 1 {
		first = fmt.Sprintf("the first %d messages are", len(r.notes.kept))
	}
	if others := r.reading(ctx, r.plan.Job.Takes, r.plan.Signal.Others()); len(others) > 0 {
		r.env.Say("%s read as %s: %s", first, joined(others), r.commands(r.plan.Job.Name, others))
		return
	}
	r.hintOtherKind(ctx, first)
}

// hintOtherKind says where batches stand in the place of requests, or the other way round.
func (r *running) hintOtherKind(ctx context.Context, first string) {
	kind, job, not, but := jobs.Batches, "decode", "requests", "batches"
	if r.plan.Job.Takes == jobs.Batches {
		kind, job, not, but = jobs.Requests, "encode", "batches", "requests"
	}
	if others := r.reading(ctx, kind, signal.All()); len(others) > 0 {
		r.env.Say("%s no %s, but %s of %s: %s", first, not, but, joined(others), r.commands(job, others))
	}
}

func joined(signals []signal.Signal) string {
	var names []string
	for _, s := range signals {
		names = append(names, s.String())
	}
	return strings.Join(names, " or ")
}

func (r *running) commands(job string, signals []signal.Signal) string {
	var all []string
	for _, s := range signals {
		all = append(all, fmt.Sprintf("`otap %s %v`", job, s))
	}
	return strings.Join(all, " or ")
}

// hintUnknown says where requests have fields that the signal doesn't have, and another signal reads them without any.
func (r *running) hintUnknown(ctx context.Context) {
	if !hasUnknown(r.plan.Signal, r.notes.kept) {
		return
	}
	others := r.reading(ctx, jobs.Requests, r.plan.Signal.Others())
	if len(others) > 0 && !hasUnknown(others[0], r.notes.kept) {
		r.env.Say("some have fields that %v don't have, and read as %s without any: is it the wrong signal?", r.plan.Signal, others[0])
		return
	}
	r.hintOtherKind(ctx, "the messages are")
}

func hasUnknown(s signal.Signal, frames []capture.Frame) bool {
	var count fields.Count
	for _, frame := range frames {
		if fields.Uncarried(s, frame.Payload, &count) != nil {
			return true
		}
	}
	for _, field := range count.Fields() {
		if field.Unknown {
			return true
		}
	}
	return false
}

// reading is which of the signals read all messages that were kept; those without unknown fields alone, where there are
// such. A batch is tried by its payload types and schemas alone, which need no batch before it.
func (r *running) reading(ctx context.Context, kind jobs.Kind, signals []signal.Signal) []signal.Signal {
	job := "tidy"
	if kind == jobs.Batches {
		job = "schema"
	}
	var read, clean []signal.Signal
	for _, s := range signals {
		if !r.reads(ctx, job, s) {
			continue
		}
		read = append(read, s)
		if kind == jobs.Requests && !hasUnknown(s, r.notes.kept) {
			clean = append(clean, s)
		}
	}
	if len(clean) > 0 {
		return clean
	}
	return read
}

func (r *running) reads(ctx context.Context, job string, s signal.Signal) bool {
	var frames bytes.Buffer
	writer := capture.NewWriter(&frames)
	for _, frame := range r.notes.kept {
		if writer.Write(frame) != nil {
			return false
		}
	}
	if writer.Flush() != nil {
		return false
	}
	cmd := r.program.Command(ctx, job, s.String())
	cmd.Stdin = &frames
	return cmd.Run() == nil
}

func sortedKeys(counts map[string]int) []string {
	var keys []string
	for key := range counts {
		keys = append(keys, key)
	}
	sort.Strings(keys)
	return keys
}
