package forms

import (
	"bytes"
	"io"
	"math/rand"
	"testing"

	"finavoluth/edge/internal/signal"
)

// Bytes of any kind have a look in each form, and are read up to an end or an error.
func TestAnyBytes(t *testing.T) {
	r := rand.New(rand.NewSource(1))
	alphabet := []byte{0, 0, 0, 0, 1, 2, 3, 5, 0x0a, 0x12, 0x1f, 0x8b, 0x28, 0xb5, 0x2f, 0xfd, 0xff, '{', '}', '"', ':', ' ', '\n', 'a', '[', 0xc2, 0xa0}
	seeds := [][]byte{framed(record, record), sized(record, record), []byte(recordJSON + "\n" + recordJSON), sized(zstded(record)), nil}
	for i := 0; i < 2000; i++ {
		data := append([]byte(nil), seeds[i%len(seeds)]...)
		for n := r.Intn(8); n > 0; n-- {
			at := r.Intn(len(data) + 1)
			data = append(data[:at], append([]byte{alphabet[r.Intn(len(alphabet))]}, data[at:]...)...)
		}
		data = data[:len(data)-r.Intn(len(data)+1)/4]
		for _, end := range []bool{false, true} {
			for _, look := range LookAll(data, end, int64(r.Intn(40)-1)) {
				if look.Offset < 0 || look.Offset > int64(len(data)) || !look.Holds() && look.Reason == "" {
					t.Fatalf("% x: %+v", data, look)
				}
			}
		}
		for _, form := range All() {
			messages := Read(form, signal.Logs, "x", bytes.NewReader(data), UnknownKeys{})
			for n := 0; ; n++ {
				_, err := messages.Next()
				if err != nil {
					if err == io.ErrUnexpectedEOF {
						t.Fatalf("% x: as %v: an end without a name", data, form)
					}
					break
				}
				if n > len(data) {
					t.Fatalf("% x: as %v: more messages than bytes", data, form)
				}
			}
		}
	}
}
