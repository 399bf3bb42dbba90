package text

import (
	"encoding/json"
	"errors"
	"fmt"
	"strconv"
	"unicode/utf8"
)

// check refuses what isn't JSON, and texts that encoding/json would change without a word.
func check(text []byte) error {
	if !utf8.Valid(text) {
		return errors.New("the JSON isn't UTF-8")
	}
	if !json.Valid(text) {
		return notJSON(text)
	}
	if at := loneSurrogate(text); at >= 0 {
		return fmt.Errorf("at byte %d is half of a surrogate pair (%s), which is no character", at, text[at:at+6])
	}
	return nil
}

// notJSON is the error of encoding/json on a text that is no JSON, and how many bytes show it.
func notJSON(text []byte) error {
	var all json.RawMessage
	err := json.Unmarshal(text, &all)
	var syntax *json.SyntaxError
	if errors.As(err, &syntax) && syntax.Offset > 0 {
		return fmt.Errorf("no JSON in its first %d bytes: %w", syntax.Offset, err)
	}
	return fmt.Errorf("no JSON: %w", err)
}

// loneSurrogate is the offset of the first \u escape of a surrogate that has no other half, and -1 where there is none.
func loneSurrogate(text []byte) int {
	for i := 0; i < len(text); i++ {
		if text[i] != '\\' {
			continue
		}
		if text[i+1] != 'u' {
			i++
			continue
		}
		switch unit := escaped(text, i); {
		case unit >= 0xdc00 && unit <= 0xdfff:
			return i
		case unit >= 0xd800 && unit <= 0xdbff:
			if low := escaped(text, i+6); low < 0xdc00 || low > 0xdfff {
				return i
			}
			i += 6
		}
		i += 5
	}
	return -1
}

// escaped is the number of the \u escape at the offset, and 0 where there is none.
func escaped(text []byte, at int) uint64 {
	if at+6 > len(text) || text[at] != '\\' || text[at+1] != 'u' {
		return 0
	}
	unit, _ := strconv.ParseUint(string(text[at+2:at+6]), 16, 16)
	return unit
}
