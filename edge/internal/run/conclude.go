package run

import (
	"context"
	"errors"
	"fmt"
	"strings"
	"syscall"

	"finavoluth/edge/internal/capture"
	"finavoluth/edge/internal/command"
	"finavoluth/edge/internal/forms"
	"finavoluth/edge/internal/jobs"
)

// conclude says what the program couldn't, and decides how the run ends.
func (r *running) conclude(ctx context.Context, result outcomes) error {
	if errors.Is(result.written, syscall.EPIPE) {
		return &command.Exit{Status: command.WriteFailed}
	}
	r.notes.mu.Lock()
	defer r.notes.mu.Unlock()
	lost := r.sayLost(result.left)
	r.sayFiles()
	r.sayStreams()
	if result.written != nil {
		return result.written
	}
	if result.fed != nil {
		return Failed(result.fed)
	}
	if err := r.programFailed(result); err != nil {
		return err
	}
	r.hint(context.Background())
	status := result.status
	if status == command.OK && lost && r.plan.Strict {
		r.env.Say("--strict: something isn't carried")
		status = command.Refused
	}
	if err := r.keep(status); err != nil {
		return err
	}
	if status != command.OK {
		return &command.Exit{Status: status}
	}
	return nil
}

// keep lets the output take its name: where all was handled, and where a part was refused, but not all of it, and what was
// lost isn't minded.
func (r *running) keep(status int) error {
	some := status == command.Refused && !r.plan.Strict && r.notes.refused < r.notes.messages
	if status == command.OK || some {
		return r.target.Keep()
	}
	if err := r.target.Flush(); err != nil {
		return err
	}
	if r.target.beside != "" {
		r.env.Say("%s isn't written", r.target.name)
	}
	return nil
}

// programFailed is the Exit for an end of the program that isn't one of a whole run.
func (r *running) programFailed(result outcomes) error {
	switch {
	case result.ended != nil:
		return command.Fail(command.Broken, "the program (%s) ended with %w", r.program, result.ended)
	case result.status == command.Misused:
		return command.Misuse("the program doesn't know %q", strings.Join(r.plan.Words, " "))
	case result.status == command.ReadFailed, result.status == command.WriteFailed:
		return command.Fail(result.status, "the program (%s) ended with status %d: it couldn't read or write", r.program, result.status)
	case result.status == command.NoMemory:
		return command.Fail(command.NoMemory, "the program ran out of memory")
	}
	return nil
}

// sayLost lists what isn't carried, and says whether there is something. The keys of JSON are the reader's as long as it
// reads.
func (r *running) sayLost(reading bool) bool {
	lost := !reading && len(r.notes.keys) > 0
	for _, field := range r.notes.carried.Fields() {
		lost = true
		what := ""
		if field.Unknown {
			what = ", a field that OTLP doesn't have"
		}
		r.env.Say("not carried: %d × %s%s", field.Times, field.Path, what)
	}
	if !reading {
		SayKeys(r.env, r.notes.keys)
	}
	names, metrics := r.notes.carried.Exponential()
	if metrics > 0 && r.notes.causes["Unsupported"] > 0 {
		r.env.Say("refused as Unsupported for an exponential histogram: %s", listed(names, metrics))
	}
	return lost
}

// SayKeys lists the keys of JSON that OTLP doesn't have.
func SayKeys(env *command.Env, keys forms.UnknownKeys) {
	for _, path := range sortedKeys(keys) {
		env.Say("passed over: %d × %s, a key that OTLP doesn't have", keys[path], path)
	}
}

// listed joins names, at most ten.
func listed(names []string, all int) string {
	const most = 10
	quoted := make([]string, 0, most)
	for _, name := range names {
		if len(quoted) == most {
			break
		}
		quoted = append(quoted, fmt.Sprintf("the metric %q", name))
	}
	text := strings.Join(quoted, ", ")
	if all > len(quoted) {
		text += fmt.Sprintf(" (%d in all)", all)
	}
	return text
}

// sayFiles says which frames are which file's, of files that have refused frames, where there are several.
func (r *running) sayFiles() {
	files := r.notes.files
	if len(files) < 2 {
		return
	}
	for i, file := range files {
		end := r.notes.frames
		if i+1 < len(files) {
			end = files[i+1].frame
			if r.plan.Job.Takes == jobs.Batches {
				end-- // the reset between
			}
		}
		for _, frame := range r.notes.refusals {
			if frame >= file.frame && frame < end {
				r.env.Say("the frames %d to %d are those of %s", file.frame, end-1, file.name)
				break
			}
		}
	}
}

// sayStreams says where a stream begins anew without a reset, or where resets were put in.
func (r *running) sayStreams() {
	const most = 10
	if r.plan.Streams {
		var at []string
		for _, it := range r.notes.anew {
			if len(at) < most {
				at = append(at, fmt.Sprint(it.frame))
			}
		}
		if n := len(r.notes.anew); n > most {
			at = append(at, "...")
		}
		if len(at) > 0 {
			r.env.Say("resets put in: %d, as the frames %s", len(r.notes.anew), strings.Join(at, ", "))
		}
		return
	}
	for i, it := range r.notes.anew {
		if i == most {
			r.env.Say("and so at %d more", len(r.notes.anew)-most)
			break
		}
		r.env.Say("frame %d is batch %d after batch %d: a stream begins there without a reset", it.frame, it.id, it.before)
	}
	if len(r.notes.anew) > 0 {
		r.env.Say("`--streams` puts the resets in")
	}
}

// damageText says what the program's line `damage at` means for a file.
func damageText(it *damagedInput) string {
	text := fmt.Sprintf("%s is damaged at byte %d: no frame begins there; what follows isn't read", it.name, it.damage.Offset)
	if it.damage.Reason == capture.Truncated {
		text = fmt.Sprintf("%s ends inside the frame that begins at byte %d", it.name, it.damage.Offset)
	}
	if len(it.leftOut) > 0 {
		text += "; left out: " + strings.Join(it.leftOut, ", ")
	}
	return text
}
