// Package explain says of each refused frame of a capture what its refusal means and where to look.
//
// The lines are the proved program's own, the meanings are those of docs/PROFILE.md, and what is in a batch is what the
// program prints of it (list, schema, show): rows and ids as they are stored. Nothing is decoded here.
package explain

import (
	"bufio"
	"context"
	"encoding/hex"
	"errors"
	"fmt"
	"io"
	"os"
	"strconv"
	"strings"

	"finavoluth/edge/internal/capture"
	"finavoluth/edge/internal/child"
	"finavoluth/edge/internal/profile"
	"finavoluth/edge/internal/refusal"
	"finavoluth/edge/internal/replies"
	"finavoluth/edge/internal/signal"
)

// Options say what is explained.
type Options struct {
	Program *child.Program
	Signal  signal.Signal
	Page    *profile.Page
	File    string // a capture
	Rows    int    // how many rows of a payload are shown at most
}

// Result is what was found.
type Result struct {
	Frames, Refused int64
	Damage          string // the line of the damage, "" where there is none
}

// Requests explains the requests that encode refuses.
func Requests(ctx context.Context, o Options, w io.Writer) (Result, error) {
	var result Result
	out := newWriter(w, o)
	// Only one goroutine calls this, and it has ended once the job has.
	refused := func(reply replies.Reply) {
		result.Refused++
		why, ok := refusal.Parse(reply.Refused)
		if !ok {
			out.fail(fmt.Errorf("encode says %q", reply.Refused))
			return
		}
		out.line("", reply.Refused)
		out.meaning(why)
	}
	job, err := replies.Write(ctx, o.Program, o.File, refused, "encode", o.Signal.String())
	if err != nil {
		return result, err
	}
	for err == nil {
		_, err = job.Next()
		result.Frames++
	}
	ending, err := job.End()
	result.Frames += result.Refused - 1
	result.Damage = ending.Damage
	if err != nil {
		return result, err
	}
	return result, out.end()
}

// Batches explains the batches that a receiver refuses. The capture is gone through twice where one is refused: first it
// is only asked whether that is so.
func Batches(ctx context.Context, o Options, w io.Writer) (Result, error) {
	result, err := count(ctx, o)
	if err != nil || result.Refused == 0 {
		return result, err
	}
	ctx, cancel := context.WithCancel(ctx)
	defer cancel()
	r := reader{open: map[int]replies.Schema{}, out: newWriter(w, o), options: o, broke: -1}
	if err := r.start(ctx); err != nil {
		return result, err
	}
	defer r.capture.Close()
	for i := int64(0); i < result.Frames && err == nil; i++ {
		err = r.frame(i)
	}
	if err == nil {
		err = r.out.end()
	}
	if err != nil {
		cancel()
	}
	for _, job := range r.jobs() {
		if _, failed := job.End(); failed != nil && err == nil {
			err = failed
		}
	}
	return result, err
}

// count asks replay how many frames there are, and how many of them it refuses.
func count(ctx context.Context, o Options) (Result, error) {
	var result Result
	job, err := replies.Print(ctx, o.Program, o.File, 0, "replay", o.Signal.String())
	if err != nil {
		return result, err
	}
	for {
		reply, err := job.Next(result.Frames)
		if errors.Is(err, io.EOF) {
			break
		}
		if err != nil {
			return result, err
		}
		result.Frames++
		if reply.Refused != "" {
			result.Refused++
		}
	}
	ending, err := job.End()
	result.Damage = ending.Damage
	return result, err
}

// reader goes through the capture with what four jobs say of each frame.
type reader struct {
	options                    Options
	replay, list, schema, show *replies.Texts
	capture                    *os.File
	frames                     *capture.Reader
	out                        *writer
	open                       map[int]replies.Schema // since the latest reset, by payload type
	broke                      int64                  // the frame that broke the segment, -1 where none did
}

func (r *reader) jobs() []*replies.Texts {
	return []*replies.Texts{r.replay, r.list, r.schema, r.show}
}

func (r *reader) start(ctx context.Context) error {
	s := r.options.Signal.String()
	for _, job := range []struct {
		into  **replies.Texts
		limit int
		words []string
	}{
		{&r.replay, -1, []string{"replay", s}},
		{&r.list, -1, []string{"list"}},
		{&r.schema, -1, []string{"schema", s}},
		{&r.show, r.options.Rows, []string{"show", s}},
	} {
		var err error
		if *job.into, err = replies.Print(ctx, r.options.Program, r.options.File, job.limit, job.words...); err != nil {
			return err
		}
	}
	file, err := os.Open(r.options.File)
	if err != nil {
		return err
	}
	r.capture, r.frames = file, capture.NewReader(file)
	return nil
}

// said is what the jobs say of one frame.
type said struct {
	message                    []byte
	replay, list, schema, show replies.Reply
}

func (r *reader) frame(number int64) error {
	var s said
	message, err := r.frames.Next()
	if err != nil {
		return fmt.Errorf("reading the capture: %w", err)
	}
	s.message = message.Payload
	for _, job := range []struct {
		job  *replies.Texts
		into *replies.Reply
	}{{r.replay, &s.replay}, {r.list, &s.list}, {r.schema, &s.schema}, {r.show, &s.show}} {
		if *job.into, err = job.job.Next(number); err != nil {
			return fmt.Errorf("frame %d: %w", number, err)
		}
	}
	if message.IsReset() {
		r.open, r.broke = map[int]replies.Schema{}, -1
		return nil
	}
	var schemas []replies.Schema
	if s.schema.Refused == "" {
		if schemas, err = replies.Schemas(s.schema.Lines[1:]); err != nil {
			return err
		}
	}
	for _, schema := range schemas {
		if schema.Opens {
			r.open[schema.Type] = schema
		}
	}
	if s.replay.Refused == "" {
		return nil
	}
	return r.refused(number, s)
}

func (r *reader) refused(number int64, s said) error {
	why, ok := refusal.Parse(s.replay.Refused)
	if !ok {
		return fmt.Errorf("replay says %q", s.replay.Refused)
	}
	r.out.line("", s.replay.Refused)
	r.out.meaning(why)
	if r.broke >= 0 {
		r.out.line("where", fmt.Sprintf("frame %d broke the segment", r.broke))
		return r.out.failed
	}
	r.broke = number
	switch {
	case why.Stage <= 1:
		r.out.line("where", begins(s.message))
	case why.Stage == 2:
		r.payloads(s)
	case why.Stage == 3:
		r.columns(why)
	default:
		r.rows(why, s)
	}
	return r.out.failed
}

// begins shows the first bytes of a message that can't be read.
func begins(message []byte) string {
	const most = 16
	if len(message) == 0 {
		return "the message is empty"
	}
	text := fmt.Sprintf("the message has %d bytes", len(message))
	if len(message) > most {
		return text + ", which begin " + hex.EncodeToString(message[:most])
	}
	return text + ": " + hex.EncodeToString(message)
}

// payloads lists the payloads of a batch, with the signal of each.
func (r *reader) payloads(s said) {
	if s.list.Refused != "" {
		return
	}
	_, payloads, err := replies.Listed(s.list.Lines[0])
	if err != nil {
		r.out.fail(err)
		return
	}
	for _, p := range payloads {
		table, known := r.options.Page.Table(p.Type)
		what := "a type that the profile doesn't have"
		if known {
			what = fmt.Sprintf("%s, of %s", table.Rows, of(table.Signal))
		}
		r.out.line("where", fmt.Sprintf("payload %d has %d bytes: %s", p.Type, p.Length, what))
	}
}

func of(signal string) string {
	if signal == "all" {
		return "all signals"
	}
	return strings.TrimSuffix(signal, ", main")
}

// columns compares the columns of the payload that is named with the profile's.
func (r *reader) columns(why refusal.Refusal) {
	kind, err := strconv.Atoi(why.Payload)
	if err != nil {
		return
	}
	schema, open := r.open[kind]
	if !open {
		r.out.line("where", fmt.Sprintf("payload %d: no record of it began with a schema that can be read", kind))
		return
	}
	wrong := 0
	var others []string
	for _, field := range schema.Fields {
		column, known := r.options.Page.Column(kind, field.Name)
		switch {
		case !known:
			others = append(others, fmt.Sprintf("%s (%s)", field.Name, field.Whole()))
		case !stores(column, field):
			wrong++
			r.out.line("where", fmt.Sprintf("payload %d, schema %q: column %s is %s, and the profile has %s",
				kind, schema.ID, field.Name, field.Whole(), holds(column)))
		}
	}
	if wrong == 0 {
		text := fmt.Sprintf("payload %d, schema %q: each column that the profile knows has the profile's type", kind, schema.ID)
		if why.Cause == "Column" {
			text += ", so it is the coding that a column of ids names"
		}
		r.out.line("where", text)
	}
	if len(others) > 0 {
		r.out.line("note", fmt.Sprintf("payload %d has columns that the profile doesn't know: %s", kind, strings.Join(others, ", ")))
	}
}

// stores says whether a field has the type of a column: ids may have 16 or 32 bits, and each column a dictionary.
func stores(column profile.Column, field replies.Field) bool {
	if column.Coding != "" {
		return field.Type == "u16" || field.Type == "u32"
	}
	return field.Type == column.Holds
}

func holds(column profile.Column) string {
	if column.Coding != "" {
		return "u16 or u32"
	}
	return column.Holds
}

// rows shows the first rows of the payload that is named, as show prints them.
func (r *reader) rows(why refusal.Refusal, s said) {
	if s.show.Refused != "" {
		return
	}
	inside, shown, all := false, 0, 0
	for _, line := range s.show.Lines[1:] {
		if strings.HasPrefix(line, "payload ") {
			inside = strings.HasPrefix(line, "payload "+why.Payload+" ")
			if inside {
				r.out.line("where", line)
				all, _ = strconv.Atoi(line[strings.LastIndexByte(line, ' ')+1:])
			}
			continue
		}
		if inside {
			r.out.line("", "    "+line)
			shown++
		}
	}
	if shown < all {
		r.out.line("", fmt.Sprintf("    and %d rows more: `otap show %s` prints them", all-shown, r.options.Signal))
	}
	if shown > 0 {
		r.out.line("note", "cells and ids are as they are stored: most ids are differences")
	}
}

// writer writes lines, and the meaning of each cause once.
type writer struct {
	target *bufio.Writer
	page   *profile.Page
	meant  map[string]bool
	failed error
}

func newWriter(w io.Writer, o Options) *writer {
	return &writer{target: bufio.NewWriter(w), page: o.Page, meant: map[string]bool{}}
}

func (w *writer) fail(err error) {
	if w.failed == nil {
		w.failed = err
	}
}

// line writes a line, moved in and begun with a word where one is given.
func (w *writer) line(word, text string) {
	if word != "" {
		text = "  " + word + ": " + text
	}
	if _, err := w.target.WriteString(text + "\n"); err != nil {
		w.fail(err)
	}
}

func (w *writer) meaning(r refusal.Refusal) {
	key := fmt.Sprintf("%d %s", r.Stage, r.Cause)
	if w.meant[key] {
		return
	}
	w.meant[key] = true
	meanings, known := w.page.Meaning(r)
	for _, text := range meanings {
		w.line("means", text)
	}
	if !known {
		w.line("means", "the profile doesn't say more")
	}
}

func (w *writer) end() error {
	if err := w.target.Flush(); err != nil {
		w.fail(err)
	}
	return w.failed
}
