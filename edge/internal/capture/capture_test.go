package capture

import (
	"bytes"
	"errors"
	"io"
	"testing"
	"testing/iotest"
)

func frames(t *testing.T, data []byte, slowly bool) (read []Frame, rest []byte, end error) {
	t.Helper()
	var source io.Reader = bytes.NewReader(data)
	if slowly {
		source = iotest.OneByteReader(source)
	}
	reader := NewReader(source)
	for {
		frame, err := reader.Next()
		if err != nil {
			rest, wrong := io.ReadAll(reader.Rest())
			if wrong != nil {
				t.Fatal(wrong)
			}
			return read, rest, err
		}
		read = append(read, frame)
	}
}

func TestFramesAreReadBack(t *testing.T) {
	want := []Frame{Message(nil), Message([]byte("one")), Reset(), {Flag: FlagCompressed, Payload: []byte{1, 2}},
		Message(bytes.Repeat([]byte{7}, 1<<21))}
	var data bytes.Buffer
	writer := NewWriter(&data)
	for _, frame := range want {
		if err := writer.Write(frame); err != nil {
			t.Fatal(err)
		}
	}
	if err := writer.Flush(); err != nil {
		t.Fatal(err)
	}
	for _, slowly := range []bool{false, true} {
		read, rest, err := frames(t, data.Bytes(), slowly)
		if err != io.EOF || len(read) != len(want) || len(rest) != 0 {
			t.Fatalf("%d frames, then %v and %d bytes", len(read), err, len(rest))
		}
		for i := range want {
			if read[i].Flag != want[i].Flag || !bytes.Equal(read[i].Payload, want[i].Payload) {
				t.Errorf("frame %d differs", i)
			}
		}
	}
}

// The bytes and what is wrong with them are those of docs/PROFILE.md, Captures.
func TestDamage(t *testing.T) {
	whole := []byte{0, 0, 0, 0, 1, 9}
	for _, it := range []struct {
		name   string
		after  []byte
		reason Reason
	}{
		{"one byte", []byte{0}, Truncated},
		{"four bytes", []byte{0, 0, 0, 0}, Truncated},
		{"four bytes with a wrong flag", []byte{9, 0, 0, 0}, Truncated},
		{"a wrong flag", []byte{3, 0, 0, 0, 0}, BadFrame},
		{"a reset with a length", []byte{2, 0, 0, 0, 1, 5}, BadFrame},
		{"too long", []byte{0, 0x20, 0, 0, 1, 5}, TooLong},
		{"a compressed one too long", []byte{1, 0x20, 0, 0, 1}, TooLong},
		{"a message cut", []byte{0, 0, 0, 0, 3, 5, 6}, Truncated},
		{"a message of the greatest length, cut", []byte{0, 0x20, 0, 0, 0, 6}, Truncated},
	} {
		for _, slowly := range []bool{false, true} {
			read, rest, err := frames(t, append(append([]byte(nil), whole...), it.after...), slowly)
			var damage *Damage
			if !errors.As(err, &damage) || damage.Offset != 6 || damage.Reason != it.reason || len(read) != 1 {
				t.Errorf("%s: %d frames, then %v", it.name, len(read), err)
			}
			if !bytes.Equal(rest, it.after) {
				t.Errorf("%s: the rest is % x", it.name, rest)
			}
		}
	}
}

func TestFailedReadIsHandedOn(t *testing.T) {
	failure := errors.New("the disk is gone")
	for _, data := range [][]byte{{}, {0, 0}, {0, 0, 0, 0, 3, 5}} {
		reader := NewReader(io.MultiReader(bytes.NewReader(data), iotest.ErrReader(failure)))
		for i := 0; i < 2; i++ {
			if _, err := reader.Next(); !errors.Is(err, failure) {
				t.Errorf("after % x: %v", data, err)
			}
		}
	}
}

func TestWriterRefusesWhatIsNoFrame(t *testing.T) {
	for _, frame := range []Frame{{Flag: 3}, {Flag: FlagReset, Payload: []byte{1}}, {Payload: make([]byte, Limit+1)}} {
		var data bytes.Buffer
		writer := NewWriter(&data)
		if err := writer.Write(frame); err == nil {
			t.Errorf("flag %d, %d bytes: written", frame.Flag, len(frame.Payload))
		}
		if writer.Flush(); data.Len() != 0 {
			t.Errorf("%d bytes were written", data.Len())
		}
	}
}

func TestNextInUsesTheRoom(t *testing.T) {
	data := []byte{0, 0, 0, 0, 2, 5, 6}
	room := make([]byte, 0, 10)
	frame, err := NewReader(bytes.NewReader(data)).NextIn(room)
	if err != nil || &frame.Payload[0] != &room[:1][0] {
		t.Errorf("%v: the frame isn't in the room", err)
	}
}
