// Package child runs the proved program as a process: over whole streams, or asked frame by frame. What the program
// answers is trusted; the process itself isn't: it may end at any time, and each error says so.
package child

import (
	"context"
	"crypto/sha256"
	_ "embed" // the program, as edge/build puts it there
	"encoding/hex"
	"errors"
	"fmt"
	"io"
	"os"
	"os/exec"
	"path/filepath"
	"syscall"

	"golang.org/x/sys/unix"
)

// Name is what the program is called where it is a file.
const Name = "otap_cli"

// The program, statically linked, or nothing where it wasn't given to edge/build.
//
//go:embed out/program
var embedded []byte

// ErrNone says that no program was found.
var ErrNone = errors.New("the program " + Name + " isn't in this file, beside it or on the path; name it by --otap-cli FILE")

// A Program is an executable that can be run.
type Program struct {
	path  string   // what is run
	name  string   // for people
	image *os.File // the anonymous file of the embedded program; nil for a file
}

// Find returns the program to run: the file that is named, or else the embedded one, or else the one beside this
// executable, or else the one on the path.
func Find(explicit string) (*Program, error) {
	if explicit != "" {
		return named(explicit)
	}
	if len(embedded) > 0 {
		return anonymous(embedded)
	}
	if self, err := os.Executable(); err == nil {
		if beside, err := named(filepath.Join(filepath.Dir(self), Name)); err == nil {
			return beside, nil
		}
	}
	if path, err := exec.LookPath(Name); err == nil {
		return named(path)
	}
	return nil, ErrNone
}

func named(path string) (*Program, error) {
	full, err := filepath.Abs(path)
	if err != nil {
		return nil, fmt.Errorf("the program %s: %w", path, err)
	}
	what, err := os.Stat(full)
	if err != nil {
		return nil, fmt.Errorf("the program %s: %w", path, reason(err))
	}
	if what.IsDir() || what.Mode()&0o111 == 0 {
		return nil, fmt.Errorf("the program %s is no executable file", path)
	}
	return &Program{path: full, name: full}, nil
}

// anonymous puts an executable into a file that has no name in any folder, and seals it.
func anonymous(executable []byte) (*Program, error) {
	fd, err := unix.MemfdCreate(Name, unix.MFD_CLOEXEC|unix.MFD_ALLOW_SEALING)
	if err != nil {
		return nil, fmt.Errorf("an anonymous file for the program: %w", err)
	}
	image := os.NewFile(uintptr(fd), "the embedded program")
	if _, err := image.Write(executable); err != nil {
		image.Close()
		return nil, fmt.Errorf("an anonymous file for the program: %w", err)
	}
	seals := unix.F_SEAL_SEAL | unix.F_SEAL_SHRINK | unix.F_SEAL_GROW | unix.F_SEAL_WRITE
	if _, err := unix.FcntlInt(uintptr(fd), unix.F_ADD_SEALS, seals); err != nil {
		image.Close()
		return nil, fmt.Errorf("sealing the program: %w", err)
	}
	return &Program{path: fmt.Sprintf("/proc/self/fd/%d", fd), name: "embedded", image: image}, nil
}

// String is where the program is: a path, or `embedded`.
func (p *Program) String() string { return p.name }

// Close gives up the program. Processes that run go on.
func (p *Program) Close() error {
	if p.image == nil {
		return nil
	}
	return p.image.Close()
}

// Sum is the SHA-256 of the program, in hexadecimal.
func (p *Program) Sum() (string, error) {
	var source io.Reader
	if p.image != nil {
		source = io.NewSectionReader(p.image, 0, 1<<40)
	} else {
		file, err := os.Open(p.path)
		if err != nil {
			return "", fmt.Errorf("the program %s: %w", p.name, reason(err))
		}
		defer file.Close()
		source = file
	}
	sum := sha256.New()
	if _, err := io.Copy(sum, source); err != nil {
		return "", fmt.Errorf("the program %s: %w", p.name, reason(err))
	}
	return hex.EncodeToString(sum.Sum(nil)), nil
}

// Command is a run of the program with these words. The end of the context kills it. It is a process group of its own, so
// that what interrupts otap at a terminal doesn't end the program before otap has handled it.
func (p *Program) Command(ctx context.Context, words ...string) *exec.Cmd {
	cmd := exec.CommandContext(ctx, p.path, words...)
	cmd.Args[0] = Name
	cmd.SysProcAttr = &syscall.SysProcAttr{Setpgid: true}
	return cmd
}

// reason is the system's reason alone, where the path is said already.
func reason(err error) error {
	var at *os.PathError
	if errors.As(err, &at) {
		return at.Err
	}
	return err
}
