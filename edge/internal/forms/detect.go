package forms

import (
	"bytes"
	"encoding/json"
	"errors"
	"fmt"
	"io"
	"strings"

	"finavoluth/edge/internal/capture"
	"finavoluth/edge/internal/source"
)

// Window is how many bytes of an input are looked at.
const Window = 1 << 20

// An Ending is how the framing of a form came to the end of what is there.
type Ending int

// The endings.
const (
	Ends   Ending = iota // after a whole frame, request or value
	Beyond               // inside one that goes on after the bytes that were looked at
	Cut                  // inside one, at the end of the input
	Broken               // at bytes that aren't of the form
)

// A Look is what the framing of one form comes to.
type Look struct {
	Form   Form
	Whole  int // frames, requests or values that are whole
	Ending Ending
	Offset int64  // where the one begins that isn't whole
	Reason string // why it isn't
}

// Holds says whether the framing holds over all that is there.
func (l Look) Holds() bool { return l.Ending == Ends || l.Ending == Beyond }

// Ambiguous is the error of an input whose form isn't known: where no framing holds, or where several do.
type Ambiguous struct {
	Name  string
	Looks []Look
}

func (a *Ambiguous) Error() string {
	var holding, failing []string
	for _, look := range a.Looks {
		if look.Holds() {
			holding = append(holding, fmt.Sprintf("as %s (--from %s)", look.Form.Describe(), look.Form))
			continue
		}
		failing = append(failing, fmt.Sprintf("%s (--from %s: %s at byte %d)", look.Form.Describe(), look.Form, look.Reason, look.Offset))
	}
	if len(holding) > 0 {
		return fmt.Sprintf("%s can be read %s; say which", a.Name, strings.Join(holding, " and "))
	}
	return fmt.Sprintf("%s is neither %s", a.Name, strings.Join(failing, " nor "))
}

// Detect says which form the bytes of an input have: the one whose framing holds. `end` says whether they are all of it,
// and `left` how many bytes follow, or -1 where that isn't known. Where no framing holds, but one of requests breaks off
// in the last of several, as in a file that still grows, it is that one.
func Detect(name string, begin []byte, end bool, left int64) (Look, error) {
	if end && len(begin) == 0 {
		return Look{Form: Capture}, nil
	}
	looks := LookAll(begin, end, left)
	var holding, cut []Look
	some := anyWhole(looks)
	for _, look := range looks {
		if look.Holds() && (look.Whole > 0 || !some) {
			holding = append(holding, look)
		} else if look.Ending == Cut && look.Whole > 0 {
			cut = append(cut, look)
		}
	}
	switch {
	case len(holding) == 1:
		return holding[0], nil
	case len(holding) == 0 && len(cut) == 1 && cut[0].Form != Capture:
		return cut[0], nil
	}
	return Look{}, &Ambiguous{Name: name, Looks: looks}
}

// anyWhole says whether a framing that holds has something whole. Then one that has nothing whole yet doesn't count.
func anyWhole(looks []Look) bool {
	for _, look := range looks {
		if look.Holds() && look.Whole > 0 {
			return true
		}
	}
	return false
}

// LookAll looks at the bytes as each of the forms.
func LookAll(begin []byte, end bool, left int64) []Look {
	return []Look{lookCapture(begin, end, left), lookProto(begin, end, left), lookJSON(begin, end)}
}

// open is the ending where more bytes are needed than are there.
func open(end bool, need, left int64) Ending {
	if end || left >= 0 && need > left {
		return Cut
	}
	return Beyond
}

func lookCapture(b []byte, end bool, left int64) Look {
	look := Look{Form: Capture}
	at := 0
	for at < len(b) {
		look.Offset = int64(at)
		head := b[at:]
		if len(head) < capture.HeadSize {
			look.Ending, look.Reason = open(end, int64(capture.HeadSize-len(head)), left), "Truncated"
			return look
		}
		length, err := capture.Length(head)
		if err != nil {
			look.Ending, look.Reason = Broken, err.Error()
			return look
		}
		if need := at + capture.HeadSize + length - len(b); need > 0 {
			look.Ending, look.Reason = open(end, int64(need), left), "Truncated"
			return look
		}
		at += capture.HeadSize + length
		look.Whole++
	}
	return look
}

func lookProto(b []byte, end bool, left int64) Look {
	look := Look{Form: Proto}
	at := 0
	for at < len(b) {
		look.Offset = int64(at)
		if len(b)-at < lengthSize {
			look.Ending, look.Reason = open(end, int64(lengthSize-(len(b)-at)), left), "half a length"
			return look
		}
		length := lengthOf(b[at:])
		if length > capture.Limit {
			look.Ending, look.Reason = Broken, fmt.Sprintf("a length of %d", length)
			return look
		}
		if begin := b[at+lengthSize:]; length > 0 && len(begin) > 0 && !beginsRequest(begin) {
			look.Ending, look.Reason = Broken, "a request that doesn't begin with its field 1"
			return look
		}
		if need := at + lengthSize + length - len(b); need > 0 {
			look.Ending, look.Reason = open(end, int64(need), left), "half a request"
			return look
		}
		at += lengthSize + length
		look.Whole++
	}
	return look
}

// beginsRequest says whether bytes may begin a request: by the tag of field 1, the only one that requests have, by a brace
// in JSON, or packed.
func beginsRequest(b []byte) bool {
	packed := source.Magic(b) != source.Plain || len(b) < 4 && (b[0] == 0x1f || b[0] == 0x28)
	return b[0] == 0x0a || packed || b[0] == '{'
}

func lookJSON(b []byte, end bool) Look {
	look := Look{Form: JSON}
	values := json.NewDecoder(bytes.NewReader(b))
	for {
		look.Offset = values.InputOffset()
		var value json.RawMessage
		err := values.Decode(&value)
		switch {
		case err == io.EOF:
			return look
		case errors.Is(err, io.ErrUnexpectedEOF):
			look.Ending, look.Reason = open(end, 1, -1), "half a value"
			if rest := bytes.TrimSpace(b[look.Offset:]); len(rest) == 0 || rest[0] != '{' {
				look.Ending, look.Reason = Broken, "no object"
			}
			return look
		case err != nil:
			look.Ending, look.Reason = Broken, "no JSON"
			var syntax *json.SyntaxError
			if errors.As(err, &syntax) && look.Whole > 0 {
				look.Reason = err.Error()
			}
			return look
		case value[0] != '{':
			look.Ending, look.Reason = Broken, "no object"
			return look
		}
		look.Whole++
	}
}
