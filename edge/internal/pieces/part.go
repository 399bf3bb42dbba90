package pieces

import (
	"archive/tar"
	"bytes"
	"context"
	"errors"
	"fmt"
	"io"
	"os"
	"strconv"
	"strings"

	"finavoluth/edge/internal/child"
	"finavoluth/edge/internal/jobs"
)

// The members of a result, in their order. A result is a tar file, so that it is one file to send back from another
// machine, and any tar can open it.
const (
	outMember    = "out"
	errMember    = "err"
	statusMember = "status"
)

// block is the unit of tar.
const block = 512

// Misfit says that a job can't be run on pieces.
type Misfit struct{ text string }

func (m *Misfit) Error() string { return m.text }

// Check says whether a job with these words may be run on pieces that were cut so.
func Check(words []string, at string) (jobs.Job, error) {
	if len(words) == 0 {
		return jobs.Job{}, &Misfit{"no job is named"}
	}
	job, known := jobs.Find(words[0])
	if !known || job.Takes == jobs.Nothing {
		return job, &Misfit{fmt.Sprintf("no job that reads a capture is called %q", words[0])}
	}
	if at == AtFrames && job.Name != "list" && job.Name != "schema" && job.Name != "tidy" {
		return job, &Misfit{fmt.Sprintf("%s builds on the frames before, back to the reset: split with --at resets", job.Name)}
	}
	return job, nil
}

// ResultOf is the name of the result of a piece by a job: 000002.decode-logs.tar for 000002.capture.
func ResultOf(piece string, words []string) string {
	return strings.TrimSuffix(piece, Suffix) + "." + strings.Join(words, "-") + ".tar"
}

// Run runs a job on a piece and leaves its result beside it. The result appears as a whole or not at all, and only where
// the job came to the end of the piece (with the status 0, 1 or 5). Where there is one already, nothing is run.
func Run(ctx context.Context, program *child.Program, piece string, words []string) (status int, err error) {
	result := ResultOf(piece, words)
	if done, err := statusOf(result); err == nil {
		return done, nil
	}
	input, err := os.Open(piece)
	if err != nil {
		return 0, err
	}
	defer input.Close()
	target, err := os.OpenFile(fmt.Sprintf("%s.part%d", result, os.Getpid()), os.O_RDWR|os.O_CREATE|os.O_TRUNC, 0o666)
	if err != nil {
		return 0, err
	}
	defer os.Remove(target.Name())
	defer target.Close()
	if status, err = runInto(ctx, program, input, target, words); err != nil {
		return status, err
	}
	if err := target.Close(); err != nil {
		return status, fmt.Errorf("writing %s: %w", result, err)
	}
	return status, os.Rename(target.Name(), result)
}

// runInto writes the members of a result: what the job puts out goes to the file as it comes, and its length into the
// head before it once it is known.
func runInto(ctx context.Context, program *child.Program, input, target *os.File, words []string) (int, error) {
	if err := target.Truncate(block); err != nil {
		return 0, err
	}
	if _, err := target.Seek(block, io.SeekStart); err != nil {
		return 0, err
	}
	var said bytes.Buffer
	command := program.Command(ctx, words...)
	command.Stdin, command.Stdout, command.Stderr = input, target, &said
	failed := command.Run()
	if ctx.Err() != nil {
		return 0, ctx.Err()
	}
	if command.ProcessState == nil {
		return 0, failed
	}
	status := command.ProcessState.ExitCode()
	if status != 0 && status != 1 && status != 5 {
		return status, fmt.Errorf("%s on %s: %v", strings.Join(words, " "), input.Name(), failed)
	}
	end, err := target.Seek(0, io.SeekEnd)
	if err != nil {
		return status, err
	}
	head, err := header(outMember, end-block)
	if err != nil {
		return status, err
	}
	if _, err := target.WriteAt(head, 0); err != nil {
		return status, err
	}
	if _, err := target.Write(make([]byte, padding(end))); err != nil {
		return status, err
	}
	return status, finishTar(target, said.Bytes(), status)
}

// finishTar writes the two members that are small.
func finishTar(target io.Writer, said []byte, status int) error {
	archive := tar.NewWriter(target)
	for _, member := range []struct {
		name    string
		content []byte
	}{{errMember, said}, {statusMember, []byte(strconv.Itoa(status) + "\n")}} {
		if err := archive.WriteHeader(&tar.Header{Name: member.name, Mode: 0o644, Size: int64(len(member.content)), Format: tar.FormatGNU}); err != nil {
			return err
		}
		if _, err := archive.Write(member.content); err != nil {
			return err
		}
	}
	return archive.Close()
}

// header is the head of a member, of one block.
func header(name string, size int64) ([]byte, error) {
	var head bytes.Buffer
	err := tar.NewWriter(&head).WriteHeader(&tar.Header{Name: name, Mode: 0o644, Size: size, Format: tar.FormatGNU})
	if err == nil && head.Len() != block {
		err = errors.New("the head of a member isn't one block")
	}
	return head.Bytes(), err
}

func padding(length int64) int64 { return (block - length%block) % block }

// statusOf reads the status of a result.
func statusOf(name string) (int, error) {
	file, err := os.Open(name)
	if err != nil {
		return 0, err
	}
	defer file.Close()
	archive := tar.NewReader(file)
	for {
		head, err := archive.Next()
		if err != nil {
			return 0, fmt.Errorf("%s is no result: %w", name, err)
		}
		if head.Name == statusMember {
			var status int
			_, err := fmt.Fscan(archive, &status)
			return status, err
		}
	}
}
