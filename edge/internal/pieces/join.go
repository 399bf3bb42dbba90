package pieces

import (
	"archive/tar"
	"bufio"
	"bytes"
	"errors"
	"fmt"
	"io"
	"os"
	"path/filepath"
	"strconv"

	"finavoluth/edge/internal/jobs"
)

// Missing says which pieces have no result yet.
type Missing struct {
	Folder string
	Names  []string // of the results
}

func (m *Missing) Error() string {
	text := fmt.Sprintf("%s: %d results are missing, first %s", m.Folder, len(m.Names), m.Names[0])
	if len(m.Names) == 1 {
		text = fmt.Sprintf("%s: the result %s is missing", m.Folder, m.Names[0])
	}
	return text
}

// Join writes what one run over the whole capture writes to standard output and standard error, from the results of the
// pieces, and returns its status. Nothing is written where a result is missing.
func Join(folder string, words []string, out, err io.Writer) (int, error) {
	list, failed := Read(folder)
	if failed != nil {
		return 0, failed
	}
	job, failed := Check(words, list.At)
	if failed != nil {
		return 0, failed
	}
	if failed := list.complete(folder, words); failed != nil {
		return 0, failed
	}
	whole := 0
	for _, piece := range list.Pieces {
		status, failed := piece.join(filepath.Join(folder, ResultOf(piece.Name, words)), job, out, err)
		if failed != nil {
			return 0, failed
		}
		if status > whole {
			whole = status
		}
		if status == 5 {
			break
		}
	}
	return whole, nil
}

// complete looks for the results up to a damage.
func (l List) complete(folder string, words []string) error {
	missing := Missing{Folder: folder}
	for _, piece := range l.Pieces {
		name := ResultOf(piece.Name, words)
		status, err := statusOf(filepath.Join(folder, name))
		switch {
		case errors.Is(err, os.ErrNotExist):
			missing.Names = append(missing.Names, name)
		case err != nil:
			return err
		}
		if status == 5 {
			break
		}
	}
	if len(missing.Names) > 0 {
		return &missing
	}
	return nil
}

// join writes one result.
func (p Piece) join(name string, job jobs.Job, out, err io.Writer) (status int, failed error) {
	file, failed := os.Open(name)
	if failed != nil {
		return 0, failed
	}
	defer file.Close()
	archive := tar.NewReader(file)
	for {
		head, failed := archive.Next()
		if errors.Is(failed, io.EOF) {
			return status, nil
		}
		if failed != nil {
			return 0, fmt.Errorf("%s: %w", name, failed)
		}
		switch head.Name {
		case outMember:
			if job.Gives == jobs.Lines {
				failed = p.shift(archive, out)
			} else {
				_, failed = io.Copy(out, archive)
			}
		case errMember:
			failed = p.shift(archive, err)
		case statusMember:
			_, failed = fmt.Fscan(archive, &status)
		}
		if failed != nil {
			return 0, failed
		}
	}
}

var (
	frameWord  = []byte("frame ")
	damageWord = []byte("damage at ")
)

// shift copies lines, with the numbers that they have in the whole capture.
func (p Piece) shift(from io.Reader, to io.Writer) error {
	lines := bufio.NewReaderSize(from, 1<<16)
	target := bufio.NewWriterSize(to, 1<<16)
	begin := true // of a line: what is longer than the buffer comes in several parts
	for {
		part, err := lines.ReadSlice('\n')
		if begin {
			part = p.shifted(part)
		}
		if _, failed := target.Write(part); failed != nil {
			return failed
		}
		switch {
		case err == nil:
			begin = true
		case errors.Is(err, bufio.ErrBufferFull):
			begin = false
		case errors.Is(err, io.EOF):
			return target.Flush()
		default:
			return err
		}
	}
}

// shifted is a line that begins with "frame N: " or "damage at N: ", with the number in the whole capture.
func (p Piece) shifted(line []byte) []byte {
	for _, it := range []struct {
		word []byte
		by   int64
	}{{frameWord, p.Frame}, {damageWord, p.Offset}} {
		if !bytes.HasPrefix(line, it.word) {
			continue
		}
		number, rest, found := bytes.Cut(line[len(it.word):], []byte(":"))
		n, err := strconv.ParseInt(string(number), 10, 64)
		if !found || err != nil {
			continue
		}
		made := append([]byte(nil), it.word...)
		made = strconv.AppendInt(made, n+it.by, 10)
		return append(append(made, ':'), rest...)
	}
	return line
}
