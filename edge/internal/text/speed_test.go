package text

import (
	"testing"

	"finavoluth/edge/internal/otlp"
	"finavoluth/edge/internal/signal"
)

func BenchmarkRead(b *testing.B) {
	benchmark(b, func(b *testing.B, s signal.Signal, request, json []byte) {
		b.SetBytes(int64(len(json)))
		if _, _, err := Read(s, json); err != nil {
			b.Fatal(err)
		}
	})
}

func BenchmarkWrite(b *testing.B) {
	benchmark(b, func(b *testing.B, s signal.Signal, request, json []byte) {
		b.SetBytes(int64(len(request)))
		if _, err := Write(s, request, false); err != nil {
			b.Fatal(err)
		}
	})
}

func BenchmarkReadProtobuf(b *testing.B) {
	benchmark(b, func(b *testing.B, s signal.Signal, request, json []byte) {
		b.SetBytes(int64(len(request)))
		if _, err := otlp.Read(s, request); err != nil {
			b.Fatal(err)
		}
	})
}

// benchmark runs f over the first realistic request of each signal.
func benchmark(b *testing.B, f func(b *testing.B, s signal.Signal, request, json []byte)) {
	for _, s := range signal.All() {
		request := requests(b, "../../../examples/cases/tidy-"+s.String()+"/realistic.capture")[0]
		json, err := Write(s, request, false)
		if err != nil {
			b.Fatal(err)
		}
		b.Run(s.String(), func(b *testing.B) {
			b.ReportAllocs()
			for i := 0; i < b.N; i++ {
				f(b, s, request, json)
			}
		})
	}
}
