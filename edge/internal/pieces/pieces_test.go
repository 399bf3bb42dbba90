package pieces

import (
	"bytes"
	"context"
	"errors"
	"os"
	"path/filepath"
	"strings"
	"testing"

	"finavoluth/edge/internal/capture"
)

func frames(t *testing.T, all ...capture.Frame) []byte {
	t.Helper()
	var made bytes.Buffer
	w := capture.NewWriter(&made)
	for _, frame := range all {
		if err := w.Write(frame); err != nil {
			t.Fatal(err)
		}
	}
	if err := w.Flush(); err != nil {
		t.Fatal(err)
	}
	return made.Bytes()
}

func message(size int) capture.Frame { return capture.Message(bytes.Repeat([]byte{7}, size)) }

func TestPiecesAreTheCapture(t *testing.T) {
	whole := frames(t, message(10), message(20), capture.Reset(), capture.Reset(), message(5), capture.Reset(), message(1))
	for name, it := range map[string]struct {
		source []byte
		at     string
		size   int64
		frames []int64
	}{
		"resets":       {whole, AtResets, 1, []int64{0, 2, 3, 5}},
		"large pieces": {whole, AtResets, 42, []int64{0, 3}},
		"one piece":    {whole, AtResets, 1 << 30, []int64{0}},
		"frames":       {whole, AtFrames, 1, []int64{0, 1, 2, 3, 4, 5, 6}},
		"damaged":      {append(append([]byte(nil), whole...), 9, 9, 9), AtResets, 1, []int64{0, 2, 3, 5}},
		"cut":          {whole[:len(whole)-1], AtResets, 1, []int64{0, 2, 3, 5}},
		"empty":        {nil, AtResets, 1, []int64{0}},
	} {
		folder := filepath.Join(t.TempDir(), "pieces")
		list, err := Split(context.Background(), bytes.NewReader(it.source), folder, it.at, it.size)
		if err != nil {
			t.Fatalf("%s: %v", name, err)
		}
		back, err := Read(folder)
		if err != nil || back.At != it.at || len(back.Pieces) != len(list.Pieces) {
			t.Fatalf("%s: the index reads as %v, %v", name, back, err)
		}
		var joined []byte
		var first []int64
		for _, piece := range back.Pieces {
			content, err := os.ReadFile(filepath.Join(folder, piece.Name))
			if err != nil {
				t.Fatal(err)
			}
			if int64(len(joined)) != piece.Offset {
				t.Errorf("%s: %s begins at %d, and not at %d", name, piece.Name, len(joined), piece.Offset)
			}
			joined = append(joined, content...)
			first = append(first, piece.Frame)
		}
		if !bytes.Equal(joined, it.source) {
			t.Errorf("%s: the pieces aren't the capture", name)
		}
		if len(first) != len(it.frames) {
			t.Fatalf("%s: pieces begin at the frames %v, and not %v", name, first, it.frames)
		}
		for i := range first {
			if first[i] != it.frames[i] {
				t.Fatalf("%s: pieces begin at the frames %v, and not %v", name, first, it.frames)
			}
		}
	}
}

func TestAFolderThatIsThereStays(t *testing.T) {
	folder := t.TempDir()
	if _, err := Split(context.Background(), strings.NewReader(""), folder, AtResets, 1); !errors.Is(err, ErrThere) {
		t.Errorf("over a folder that is there: %v", err)
	}
}

func TestNothingIsLeftOfASplitThatFails(t *testing.T) {
	top := t.TempDir()
	failed := errors.New("a read failed")
	_, err := Split(context.Background(), failing{failed}, filepath.Join(top, "pieces"), AtResets, 1)
	if !errors.Is(err, failed) {
		t.Errorf("the error is %v", err)
	}
	left, err := os.ReadDir(top)
	if err != nil || len(left) > 0 {
		t.Errorf("left: %v, %v", left, err)
	}
}

type failing struct{ err error }

func (f failing) Read([]byte) (int, error) { return 0, f.err }

func TestLinesAreShifted(t *testing.T) {
	piece := Piece{Frame: 40, Offset: 1000}
	long := "row 0: body.str=\"" + strings.Repeat("frame 1: ", 20000) + "\""
	for _, it := range [][2]string{
		{"frame 0: batch 7 30:1\n", "frame 40: batch 7 30:1\n"},
		{"frame 12: batch - refused: stage 1 Compressed payload -\n", "frame 52: batch - refused: stage 1 Compressed payload -\n"},
		{"damage at 5: Truncated\n", "damage at 1005: Truncated\n"},
		{"payload 30 schema \"0\"\nrow 0: id=0\n", "payload 30 schema \"0\"\nrow 0: id=0\n"},
		{"frame 9: reset", "frame 49: reset"},
		{"frames 9: x\nframe x: y\n", "frames 9: x\nframe x: y\n"},
		{long + "\nframe 1: reset\n", long + "\nframe 41: reset\n"},
		{"", ""},
	} {
		var made bytes.Buffer
		if err := piece.shift(strings.NewReader(it[0]), &made); err != nil || made.String() != it[1] {
			t.Errorf("%.60q is shifted to %.60q, %v", it[0], made.String(), err)
		}
	}
}

func TestJobsThatFitPieces(t *testing.T) {
	for _, it := range []struct {
		words string
		at    string
		fits  bool
	}{
		{"list", AtFrames, true}, {"schema logs", AtFrames, true}, {"tidy traces", AtFrames, true},
		{"show logs", AtFrames, false}, {"decode logs", AtFrames, false}, {"encode logs", AtFrames, false},
		{"status logs", AtFrames, false}, {"replay logs", AtFrames, false},
		{"show logs", AtResets, true}, {"decode logs", AtResets, true}, {"encode logs", AtResets, true},
		{"selfrun logs 1", AtResets, false}, {"nothing", AtResets, false}, {"", AtResets, false},
	} {
		if _, err := Check(strings.Fields(it.words), it.at); (err == nil) != it.fits {
			t.Errorf("%q at %s: %v", it.words, it.at, err)
		}
	}
}
