// Package logline writes a log as lines of key=value pairs, as logfmt has them. It never writes what a peer sent but
// quoted, so a line is always one line.
package logline

import (
	"fmt"
	"io"
	"strconv"
	"strings"
	"sync"
	"time"
)

// A Log writes lines to one writer; its methods may be called by several goroutines.
type Log struct {
	mu  sync.Mutex
	out io.Writer
}

// New makes a log that writes to out.
func New(out io.Writer) *Log { return &Log{out: out} }

// Info writes a line about what was done.
func (l *Log) Info(message string, pairs ...interface{}) { l.line("info", message, pairs) }

// Warn writes a line about what went wrong, and will be tried again.
func (l *Log) Warn(message string, pairs ...interface{}) { l.line("warn", message, pairs) }

func (l *Log) line(level, message string, pairs []interface{}) {
	var b strings.Builder
	fmt.Fprintf(&b, "time=%s level=%s msg=%s", time.Now().UTC().Format("2006-01-02T15:04:05.000Z"), level, value(message))
	for i := 0; i+1 < len(pairs); i += 2 {
		fmt.Fprintf(&b, " %v=%s", pairs[i], value(fmt.Sprint(pairs[i+1])))
	}
	b.WriteByte('\n')
	l.mu.Lock()
	defer l.mu.Unlock()
	io.WriteString(l.out, b.String())
}

// value is the text as it is where it needs no quotes.
func value(text string) string {
	plain := text != ""
	for _, c := range text {
		if c <= ' ' || c == '"' || c == '=' || c == '\\' || c >= 0x7f {
			plain = false
		}
	}
	if plain {
		return text
	}
	return strconv.QuoteToASCII(text)
}
