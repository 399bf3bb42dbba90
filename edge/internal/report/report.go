// Package report draws a page of what is in a capture of batches: one HTML file with inline SVG, which loads nothing.
//
// All numbers come from what the proved program says of the capture (list, schema, replay and decode), and from the
// lengths of messages; nothing of a batch is read here. It trusts the names of the tables that it is given. Every text
// of the capture goes through html/template, which escapes it by where it stands, and the page has no script.
package report

import (
	"context"
	"crypto/sha256"
	_ "embed"
	"encoding/base64"
	"fmt"
	"html/template"
	"io"

	"finavoluth/edge/internal/child"
	"finavoluth/edge/internal/signal"
)

// Source is what a page is made of.
type Source struct {
	Program *child.Program
	Signal  signal.Signal
	Name    string         // of the file, as the user gave it
	Batches string         // a file with the capture of batches
	Frames  int64          // how many frames it has, a damaged rest left out
	Encoded *Encoding      // where requests were encoded first
	Damage  string         // where the requests are damaged that were encoded; "" where they aren't
	Tables  map[int]string // what each payload type holds
	Version string         // of this program and of the proved one, for the foot of the page

	Progress func(done, all int64) // called now and then; may be nil
}

// Encoding is what encode said when it made the batches.
type Encoding struct {
	Requests int64
	Refused  []Refused // the first ones
	Count    int64     // of all that were refused
}

// Refused is a request that encode refused.
type Refused struct {
	Frame int64
	Cause string
}

// Page is a page that can be written.
type Page struct{ view view }

// view is what the template writes.
type view struct {
	Name, Signal  string
	Style         template.CSS
	Policy        string
	Totals        []total
	Notes         []string
	Figures       []figure
	Refused       table
	Requests      *Encoding
	RequestsLeft  int64
	Version       string
	RefusedFrames int64
}

type total struct{ Name, Value, Note string }

//go:embed page.html
var pageText string

//go:embed page.css
var styleText string

var page = template.Must(template.New("page").Parse(pageText))

// Make runs the program over the capture and adds up what it says.
func Make(ctx context.Context, s Source) (*Page, error) {
	tick := s.Progress
	if tick == nil {
		tick = func(int64, int64) {}
	}
	f, err := gather(ctx, s.Program, s.Signal, s.Batches, s.Frames, tick)
	if err != nil {
		return nil, err
	}
	sum := sha256.Sum256([]byte(styleText))
	v := view{
		Name:   s.Name,
		Signal: s.Signal.String(),
		Style:  template.CSS(styleText),
		// Nothing is loaded, no script runs, and no style but this page's own counts.
		Policy:        "default-src 'none'; style-src 'sha256-" + base64.StdEncoding.EncodeToString(sum[:]) + "'; base-uri 'none'; form-action 'none'",
		Totals:        f.totals(),
		Notes:         f.notes(s),
		Figures:       []figure{f.columnsFigure(s.Tables), f.bytesFigure(s.Tables), f.sofarFigure(), f.itemsFigure()},
		Refused:       f.refusedTable(s.Tables),
		RefusedFrames: f.refused,
		Version:       s.Version,
	}
	if s.Encoded != nil && s.Encoded.Count > 0 {
		v.Requests = s.Encoded
		v.RequestsLeft = s.Encoded.Count - int64(len(s.Encoded.Refused))
	}
	return &Page{v}, nil
}

// Write writes the page.
func (p *Page) Write(w io.Writer) error { return page.Execute(w, p.view) }

// totals are the numbers at the top.
func (f *facts) totals() []total {
	perItem := "-"
	if f.items > 0 {
		perItem = short(mean(f.otap.plain, f.items))
	}
	return []total{
		{"batches", whole(f.batches), fmt.Sprintf("%s accepted, %s refused", whole(f.accepted), whole(f.refused))},
		{"resets", whole(f.resets), ""},
		{"items", whole(f.items), "of accepted batches"},
		{"bytes", whole(f.otap.plain), "of accepted batches"},
		{"bytes an item", perItem, ""},
		{"sub-streams opened", whole(f.openings), ""},
		{"OTAP / OTLP", ratio(f.otap.plain, f.otlp.plain), whole(f.otlp.plain) + " bytes as OTLP"},
		{"both by zstd", ratio(f.otap.packed, f.otlp.packed), fmt.Sprintf("%s / %s bytes", whole(f.otap.packed), whole(f.otlp.packed))},
	}
}

// notes say what the numbers rest on.
func (f *facts) notes(s Source) []string {
	var notes []string
	if s.Encoded != nil {
		notes = append(notes, fmt.Sprintf("This is a file of %s requests. They were encoded first, and what is drawn is the batches that came out: what an exporter would send. Frames are those of the batches.", whole(s.Encoded.Requests)))
	}
	if damage := f.damage + s.Damage; damage != "" {
		notes = append(notes, fmt.Sprintf("The capture is damaged (%s): what follows is left out.", damage))
	}
	if f.width > 1 {
		notes = append(notes, fmt.Sprintf("The capture has %s frames, so a place on the first two charts stands for %s of them.", whole(f.frames), whole(f.width)))
	}
	if f.refused > 0 {
		notes = append(notes, fmt.Sprintf("%s batches were refused (%s bytes). They count in the second chart alone.", whole(f.refused), whole(f.refusedBytes)))
	}
	return notes
}
