package live_test

import (
	"bytes"
	"io"
	"os"
	"path/filepath"
	"sort"
	"testing"

	"finavoluth/edge/internal/capture"
	"finavoluth/edge/internal/live/wire"
	"finavoluth/edge/internal/signal"

	"google.golang.org/grpc/codes"
	"google.golang.org/grpc/status"
)

// segments are the runs of plain messages of a capture, from its beginning or a reset on.
func segments(t *testing.T, data []byte) (found [][][]byte) {
	t.Helper()
	found = [][][]byte{nil}
	plain := true
	for r := capture.NewReader(bytes.NewReader(data)); ; {
		f, err := r.Next()
		switch {
		case err != nil:
			return found
		case f.IsReset():
			found, plain = append(found, nil), true
		case f.Flag != capture.FlagMessage:
			plain = false
		case plain:
			found[len(found)-1] = append(found[len(found)-1], f.Payload)
		}
	}
}

// TestStatuses sends the batches of the examples to a far end, each segment on a stream of its own, and compares the
// statuses that come back with those that the program's own job `status` writes, byte by byte.
func TestStatuses(t *testing.T) {
	t.Parallel()
	b := newBackend(t, nil, nil)
	far := start(t, append([]string{"far", "--listen", "127.0.0.1:0", "--to", b.address}, smallWindow...)...)
	conn := connect(t, far.at("grpc"))
	accepted, refused := 0, 0
	for _, s := range signal.All() {
		files, _ := filepath.Glob("../../../examples/cases/status-" + s.String() + "/*.capture")
		sort.Strings(files)
		for _, file := range files {
			data, err := os.ReadFile(file)
			if err != nil {
				t.Fatal(err)
			}
			if len(data) > longest {
				continue
			}
			for _, segment := range segments(t, data) {
				expected := frames(t, ask(t, captured(segment...), "status", s.String()))
				if len(expected) != len(segment) {
					t.Fatalf("%s: the program writes %d statuses for %d messages", file, len(expected), len(segment))
				}
				stream := arrow(t, conn, s)
				for i, batch := range segment {
					stream.SendMsg(&batch)
					var answer []byte
					if err := stream.RecvMsg(&answer); err != nil {
						t.Fatalf("%s, message %d: %v", file, i, err)
					}
					if !bytes.Equal(answer, expected[i]) {
						t.Errorf("%s, message %d: the status is %q, and the program's %q", file, i, answer, expected[i])
					}
					if got, _ := wire.ReadStatus(answer); got.Code != codes.OK {
						refused++
						if err := stream.RecvMsg(&answer); status.Code(err) != codes.Aborted {
							t.Errorf("%s: after a refusal the stream ends with %v", file, err)
						}
						break
					}
					accepted++
				}
				stream.CloseSend()
				var rest []byte
				if err := stream.RecvMsg(&rest); err == nil || err != io.EOF && status.Code(err) != codes.Aborted {
					t.Errorf("%s: the stream ends with %q, %v", file, rest, err)
				}
			}
		}
	}
	t.Logf("%d accepted, %d refused", accepted, refused)
	if accepted < 10 || refused < 10 {
		t.Errorf("only %d accepted and %d refused", accepted, refused)
	}
	far.term()
}
