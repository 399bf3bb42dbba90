package run

import (
	"os"
	"path/filepath"
	"testing"

	"finavoluth/edge/internal/command"
)

func TestTarget(t *testing.T) {
	folder := t.TempDir()
	name := filepath.Join(folder, "out")
	link := filepath.Join(folder, "link")
	if err := os.WriteFile(name, []byte("old"), 0o640); err != nil {
		t.Fatal(err)
	}
	if err := os.Symlink("out", link); err != nil {
		t.Fatal(err)
	}
	for _, step := range []struct {
		output string
		keep   bool
		want   string
	}{
		{name, false, "old"},
		{name, true, "new 1"},
		{link, true, "new 2"},
		{link, false, "new 2"},
	} {
		target, err := OpenTarget(step.output, os.Stdout, nil)
		if err != nil {
			t.Fatal(err)
		}
		if _, err := target.Write([]byte("new " + step.want[len(step.want)-1:])); err != nil {
			t.Fatal(err)
		}
		if step.keep {
			if err := target.Keep(); err != nil {
				t.Fatal(err)
			}
		}
		target.Discard()
		text, err := os.ReadFile(name)
		if err != nil || string(text) != step.want {
			t.Errorf("%s: %q, %v", step.output, text, err)
		}
	}
	if what, err := os.Lstat(link); err != nil || what.Mode()&os.ModeSymlink == 0 {
		t.Error("the link is gone")
	}
	if what, err := os.Stat(name); err != nil || what.Mode().Perm() != 0o640 {
		t.Error("the mode changed")
	}
	if left, _ := os.ReadDir(folder); len(left) != 2 {
		t.Errorf("%d files are left", len(left))
	}
}

func TestADeviceIsWrittenToAsItIs(t *testing.T) {
	target, err := OpenTarget(os.DevNull, os.Stdout, nil)
	if err != nil {
		t.Fatal(err)
	}
	if _, err := target.Write([]byte("x")); err != nil {
		t.Error(err)
	}
	if err := target.Keep(); err != nil {
		t.Error(err)
	}
	if what, err := os.Stat(os.DevNull); err != nil || what.Mode().IsRegular() {
		t.Error("the device was replaced")
	}
}

func TestStatuses(t *testing.T) {
	folder := t.TempDir()
	for output, want := range map[string]int{
		filepath.Join(folder, "no", "where"): command.WriteFailed,
		folder:                               command.Misused,
	} {
		_, err := OpenTarget(output, os.Stdout, nil)
		if status, _ := command.StatusOf(err); status != want {
			t.Errorf("%s: %d, %v", output, status, err)
		}
	}
}
