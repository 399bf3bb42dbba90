package text

import (
	"bytes"
	"math/rand"
	"testing"

	"finavoluth/edge/internal/fields"
	"finavoluth/edge/internal/otlp"
	"finavoluth/edge/internal/samples"
	"finavoluth/edge/internal/signal"
)

// damage changes, drops or repeats some bytes.
func damage(r *rand.Rand, b []byte, odd []byte) []byte {
	b = append([]byte(nil), b...)
	for n := 1 + r.Intn(3); n > 0 && len(b) > 0; n-- {
		at := r.Intn(len(b))
		switch r.Intn(4) {
		case 0:
			b[at] = odd[r.Intn(len(odd))]
		case 1:
			b = append(b[:at], b[at+1:]...)
		case 2:
			b = append(b[:at], append([]byte{odd[r.Intn(len(odd))]}, b[at:]...)...)
		case 3:
			to := at + r.Intn(len(b)-at)
			b = append(b[:to:to], b[at:]...)
		}
	}
	return b
}

// Damaged JSON is refused or read; what is read comes back from what is written of it.
func TestDamagedJSON(t *testing.T) {
	r := rand.New(rand.NewSource(11))
	read := 0
	for _, s := range signal.All() {
		for seed := int64(0); seed < 40; seed++ {
			line, err := Write(s, otlp.Write(samples.Request(s, seed)), seed%2 == 0)
			if err != nil {
				t.Fatal(err)
			}
			for i := 0; i < 15; i++ {
				damaged := damage(r, line, []byte("{}[]\",:0123456789.eE+-\\ntrufalse Nai\x00\xff"))
				request, _, err := Read(s, damaged)
				if err != nil {
					continue
				}
				read++
				again, err := Write(s, request, false)
				if err != nil {
					t.Errorf("%s is read as %x, which can't be written: %v", damaged, request, err)
					continue
				}
				if back, unknown, err := Read(s, again); err != nil || len(unknown) > 0 || !bytes.Equal(back, request) {
					t.Errorf("%s is read as %x, and comes back as %x, %v, %v", damaged, request, back, unknown, err)
				}
			}
		}
	}
	if read < 100 {
		t.Errorf("only %d could be read", read)
	}
}

// Damaged protobuf is refused or read; what is read is walked over without an error, and comes back from JSON, but for
// what has no form there.
func TestDamagedProtobuf(t *testing.T) {
	r := rand.New(rand.NewSource(12))
	read := 0
	for _, s := range signal.All() {
		for seed := int64(0); seed < 40; seed++ {
			request := otlp.Write(samples.Request(s, seed))
			for i := 0; i < 15; i++ {
				damaged := damage(r, request, []byte{0, 1, 2, 8, 0x0a, 0x12, 0x1a, 0x7f, 0x80, 0xff, 0x0b, 0x0c})
				message, err := otlp.Read(s, damaged)
				var count fields.Count
				walked := fields.Uncarried(s, damaged, &count)
				if err != nil {
					continue
				}
				read++
				if walked != nil {
					t.Errorf("%x is read, and not walked over: %v", damaged, walked)
				}
				line := AppendMessage(nil, message)
				keepForJSON(message)
				if back, unknown, err := Read(s, line); err != nil || len(unknown) > 0 || !bytes.Equal(back, otlp.Write(message)) {
					t.Errorf("%x comes back as %x through %s, %v, %v", otlp.Write(message), back, line, unknown, err)
				}
			}
		}
	}
	if read < 100 {
		t.Errorf("only %d could be read", read)
	}
}
