package wire

import (
	"bytes"
	"fmt"
	"io"
	"sync"

	"github.com/klauspost/compress/gzip"
	"github.com/klauspost/compress/zstd"
	"google.golang.org/grpc/encoding"
)

// largestWindow bounds what a zstd message makes its reader hold beside what it gives.
const largestWindow = 8 << 20

// The encodings that are taken, by the names that stand in grpc-encoding. OTel-Arrow's exporter numbers its own by the
// level of its compressor. grpc-go answers Unimplemented to any other.
func init() {
	names := []string{"zstd"}
	for level := 1; level <= 10; level++ {
		names = append(names, fmt.Sprintf("zstdarrow%d", level))
	}
	for _, name := range names {
		encoding.RegisterCompressor(zstdEncoding(name))
	}
	encoding.RegisterCompressor(gzipEncoding{})
}

// Unpack is what compressed bytes give, where these are at most limit bytes; more are an error ErrTooLong, before more
// is held.
func Unpack(name string, packed []byte, limit int) ([]byte, error) {
	found := encoding.GetCompressor(name)
	if found == nil {
		return nil, fmt.Errorf("no encoding is known as %q", name)
	}
	from, err := found.Decompress(bytes.NewReader(packed))
	if err != nil {
		return nil, fmt.Errorf("unpack %s: %w", name, err)
	}
	if closer, ok := from.(io.Closer); ok {
		defer closer.Close()
	}
	var made bytes.Buffer
	if _, err := io.CopyN(&made, from, int64(limit)+1); err == nil {
		return nil, ErrTooLong
	} else if err != io.EOF {
		return nil, fmt.Errorf("unpack %s: %w", name, err)
	}
	return made.Bytes(), nil
}

// ErrTooLong says that a message unpacks to more than it may.
var ErrTooLong = fmt.Errorf("unpacks to more than a message may have")

type zstdEncoding string

func (z zstdEncoding) Name() string { return string(z) }

var encoders = sync.Pool{New: func() interface{} {
	made, _ := zstd.NewWriter(nil, zstd.WithEncoderConcurrency(1), zstd.WithEncoderLevel(zstd.SpeedFastest),
		zstd.WithWindowSize(1<<20), zstd.WithLowerEncoderMem(true))
	return made
}}

var decoders = sync.Pool{New: func() interface{} {
	made, _ := zstd.NewReader(nil, zstd.WithDecoderConcurrency(1), zstd.WithDecoderLowmem(true),
		zstd.WithDecoderMaxWindow(largestWindow))
	return made
}}

type encoder struct{ *zstd.Encoder }

func (z zstdEncoding) Compress(w io.Writer) (io.WriteCloser, error) {
	e := encoders.Get().(*zstd.Encoder)
	e.Reset(w)
	return encoder{e}, nil
}

func (e encoder) Close() error {
	err := e.Encoder.Close()
	e.Reset(nil)
	encoders.Put(e.Encoder)
	return err
}

type decoder struct{ *zstd.Decoder }

func (z zstdEncoding) Decompress(r io.Reader) (io.Reader, error) {
	d := decoders.Get().(*zstd.Decoder)
	if err := d.Reset(r); err != nil {
		return nil, err
	}
	return &decoder{d}, nil
}

// Read gives the decoder back at its end.
func (d *decoder) Read(p []byte) (int, error) {
	if d.Decoder == nil {
		return 0, io.EOF
	}
	n, err := d.Decoder.Read(p)
	if err != nil {
		d.Close()
	}
	return n, err
}

// Close gives the decoder back; grpc-go doesn't call it, so where it leaves off before the end, the decoder is lost to
// the garbage collector.
func (d *decoder) Close() error {
	if d.Decoder != nil && d.Decoder.Reset(nil) == nil {
		decoders.Put(d.Decoder)
	}
	d.Decoder = nil
	return nil
}

type gzipEncoding struct{}

func (gzipEncoding) Name() string { return "gzip" }

var gzipWriters = sync.Pool{New: func() interface{} {
	made, _ := gzip.NewWriterLevel(nil, gzip.BestSpeed)
	return made
}}

type gzipWriter struct{ *gzip.Writer }

func (gzipEncoding) Compress(w io.Writer) (io.WriteCloser, error) {
	z := gzipWriters.Get().(*gzip.Writer)
	z.Reset(w)
	return gzipWriter{z}, nil
}

func (z gzipWriter) Close() error {
	err := z.Writer.Close()
	gzipWriters.Put(z.Writer)
	return err
}

func (gzipEncoding) Decompress(r io.Reader) (io.Reader, error) { return gzip.NewReader(r) }
