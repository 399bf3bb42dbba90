package source

import (
	"context"
	"errors"
	"io"
	"sync/atomic"
	"time"
)

// pause is how long a file that may grow is left alone after a look at its end.
const pause = 100 * time.Millisecond

// errShortened says that a file became shorter than what was read of it.
var errShortened = errors.New("it was cut short while it was followed")

// growing reads a file on as it grows. It ends where the context does.
type growing struct {
	ctx    context.Context
	source *Source
}

func (g *growing) Read(room []byte) (int, error) {
	for {
		n, err := g.source.file.Read(room)
		atomic.AddInt64(&g.source.taken, int64(n))
		if n > 0 || err != nil && err != io.EOF || len(room) == 0 {
			return n, g.source.failed(err)
		}
		what, err := g.source.file.Stat()
		if err != nil {
			return 0, g.source.failed(err)
		}
		if what.Mode().IsRegular() && what.Size() < g.source.Taken() {
			return 0, g.source.failed(errShortened)
		}
		if what.Mode().IsRegular() && what.Size() > g.source.Taken() && g.ctx.Err() == nil {
			continue
		}
		if !g.wait() {
			return 0, io.EOF
		}
	}
}

// wait pauses; it is false where the context ended.
func (g *growing) wait() bool {
	timer := time.NewTimer(pause)
	defer timer.Stop()
	select {
	case <-timer.C:
		return true
	case <-g.ctx.Done():
		return false
	}
}
