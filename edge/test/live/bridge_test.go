package live_test

import (
	"testing"
)

// windowBytes is the window of the bridges that are tried: small, so that the bound on memory says something.
const windowBytes = 32 << 20

const maxMessage = 16 << 20

// A bridge is near, a relay, far and a backend.
type bridge struct {
	t         *testing.T
	near, far *process
	relay     *relay
	backend   *backend
	farArgs   []string
	windows   int64
}

var smallWindow = []string{"--window-bytes", "33554432", "--max-message", "16777216"}

// newBridge starts all four; the arguments are those beyond the addresses.
func newBridge(t *testing.T, b *backend, nearArgs, farArgs []string) *bridge {
	t.Helper()
	x := &bridge{t: t, relay: newRelay(t), backend: b, farArgs: farArgs, windows: windowBytes}
	x.startFar()
	near := append([]string{"near", "--listen", "127.0.0.1:0", "--to", x.relay.address(), "--timeout", "55s"}, smallWindow...)
	x.near = start(t, append(near, nearArgs...)...)
	x.near.at("grpc")
	return x
}

func (x *bridge) startFar() {
	x.t.Helper()
	args := append([]string{"far", "--listen", "127.0.0.1:0", "--to", x.backend.address, "--timeout", "50s"}, smallWindow...)
	x.far = start(x.t, append(args, x.farArgs...)...)
	x.relay.to(x.far.at("grpc"))
}

// load is one of logs to near.
func (x *bridge) load(workers, padding int, more func(int) bool) *load {
	return &load{t: x.t, conn: connect(x.t, x.near.at("grpc")), workers: workers, padding: padding, more: more, near: x.near}
}

// end ends near and far, and looks at their memory, their children and what the backend has of the load.
func (x *bridge) end(l *load) {
	x.t.Helper()
	x.near.within(x.windows)
	x.far.within(x.windows)
	children := append(x.near.watch(), x.far.watch()...)
	x.near.term()
	x.far.term()
	gone(x.t, children)
	if l != nil {
		l.check(x.backend.snapshot())
	}
}
