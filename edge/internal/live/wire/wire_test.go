package wire

import (
	"bytes"
	"testing"

	"google.golang.org/grpc/codes"
	"google.golang.org/grpc/encoding"
)

// The bytes are those of the fields batch_id=1, status_code=2 and status_message=3 (docs/PROFILE.md, Batch messages).
var statuses = []struct {
	status Status
	bytes  []byte
}{
	{Status{}, nil},
	{Status{ID: 7}, []byte{8, 7}},
	{Status{ID: 300, Code: codes.Aborted, Message: "stage 0"}, append([]byte{8, 0xac, 2, 16, 10, 26, 7}, "stage 0"...)},
	{Status{ID: Unreadable, Code: codes.InvalidArgument}, []byte{8, 255, 255, 255, 255, 255, 255, 255, 255, 255, 1, 16, 3}},
}

func TestStatuses(t *testing.T) {
	for _, c := range statuses {
		if got := c.status.Append(nil); !bytes.Equal(got, c.bytes) {
			t.Errorf("%+v is written as %v", c.status, got)
		}
		if got, err := ReadStatus(c.bytes); err != nil || got != c.status {
			t.Errorf("%v is read as %+v, %v", c.bytes, got, err)
		}
	}
	for _, wrong := range [][]byte{{8}, {10, 1, 1}, {26, 5, 1}, {16, 0xff}, {24, 1}} {
		if got, err := ReadStatus(wrong); err == nil {
			t.Errorf("%v is read as %+v", wrong, got)
		}
	}
	// In another order, with a field that nobody knows.
	if got, err := ReadStatus([]byte{80, 1, 26, 1, 'x', 16, 3, 8, 5}); err != nil || got != (Status{5, 3, "x"}) {
		t.Errorf("read as %+v, %v", got, err)
	}
}

func TestBatchID(t *testing.T) {
	for _, c := range []struct {
		bytes []byte
		id    int64
	}{{nil, 0}, {[]byte{8, 5, 18, 0}, 5}, {[]byte{18, 2, 8, 9}, 0}, {[]byte{18, 2, 8, 9, 8, 6}, 6}} {
		if id, err := BatchID(c.bytes); err != nil || id != c.id {
			t.Errorf("%v has the id %d, %v", c.bytes, id, err)
		}
	}
	for _, wrong := range [][]byte{{8}, {8, 0x80}, {18, 9}, {10, 0}} {
		if id, err := BatchID(wrong); err == nil {
			t.Errorf("%v has the id %d", wrong, id)
		}
	}
}

func TestCodesOfTheEnum(t *testing.T) {
	for code := codes.OK; code <= codes.Unauthenticated; code++ {
		got := ToEnum(code)
		switch code {
		case codes.Unknown, codes.NotFound, codes.AlreadyExists, codes.FailedPrecondition, codes.OutOfRange, codes.Unimplemented, codes.DataLoss:
			if got != codes.Internal {
				t.Errorf("%v becomes %v", code, got)
			}
		default:
			if got != code {
				t.Errorf("%v becomes %v", code, got)
			}
		}
	}
}

func TestUnpack(t *testing.T) {
	plain := bytes.Repeat([]byte("telemetry "), 1000)
	for _, name := range []string{"gzip", "zstd", "zstdarrow1", "zstdarrow10"} {
		var packed bytes.Buffer
		w, err := encoding.GetCompressor(name).Compress(&packed)
		if err != nil {
			t.Fatal(err)
		}
		w.Write(plain)
		w.Close()
		if got, err := Unpack(name, packed.Bytes(), len(plain)); err != nil || !bytes.Equal(got, plain) {
			t.Errorf("%s: %d bytes, %v", name, len(got), err)
		}
		if _, err := Unpack(name, packed.Bytes(), len(plain)-1); err != ErrTooLong {
			t.Errorf("%s, one byte above the limit: %v", name, err)
		}
		if _, err := Unpack(name, packed.Bytes()[:packed.Len()/2], len(plain)); err == nil {
			t.Errorf("%s: half of it is unpacked", name)
		}
	}
	if _, err := Unpack("zstdarrow11", nil, 10); err == nil {
		t.Error("an encoding that nobody knows")
	}
}

func TestCut(t *testing.T) {
	two := []byte{0, 0, 0, 0, 2, 'a', 'b', 0, 0, 0, 0, 0, 0}
	first, rest, err := Cut(two, "", 2)
	if err != nil || string(first) != "ab" {
		t.Errorf("%q, %v", first, err)
	}
	second, rest, err := Cut(rest, "", 2)
	if err != nil || second == nil || len(second) != 0 || len(rest) != 1 {
		t.Errorf("%q, %q, %v", second, rest, err)
	}
	if none, rest, err := Cut(rest, "", 2); none != nil || len(rest) != 1 || err != nil {
		t.Errorf("%q, %q, %v", none, rest, err)
	}
	for _, wrong := range [][]byte{{2, 0, 0, 0, 0}, {0, 0, 0, 0, 3, 'a', 'b', 'c'}, {1, 0, 0, 0, 1, 'a'}} {
		if m, _, err := Cut(wrong, "", 2); err == nil {
			t.Errorf("%v gives %q", wrong, m)
		}
	}
}
