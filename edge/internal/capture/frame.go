// Package capture reads and writes captures: frames that are gRPC's length-prefixed messages, and the mark of a reset
// (docs/PROFILE.md, Captures). It knows nothing of what a message holds, and trusts no length before the bytes are there.
package capture

import (
	"errors"
	"fmt"
)

// The flags of a frame.
const (
	FlagMessage    = 0
	FlagCompressed = 1
	FlagReset      = 2
)

// Limit is the greatest length of a message.
const Limit = 1 << 29

// HeadSize is the number of bytes before a message: its flag, and its length in four bytes, the highest first.
const HeadSize = 5

// A Frame is one message, or the mark that a new stream begins.
type Frame struct {
	Flag    byte   // FlagMessage, FlagCompressed or FlagReset
	Payload []byte // the message; empty for a reset
}

// Message is the frame of a message that isn't compressed.
func Message(payload []byte) Frame { return Frame{Flag: FlagMessage, Payload: payload} }

// Reset is the frame that says that a new stream begins.
func Reset() Frame { return Frame{Flag: FlagReset} }

// IsReset says whether the frame is a reset.
func (f Frame) IsReset() bool { return f.Flag == FlagReset }

// A Reason says why the bytes at an offset are no frame, by the word that the proved program prints for it.
type Reason string

// The reasons, but for Endless, which no file met so far is long enough for.
const (
	Truncated Reason = "Truncated" // fewer bytes are left than a head has, or than the head's length says
	BadFrame  Reason = "BadFrame"  // no such flag, or a reset with a length
	TooLong   Reason = "TooLong"   // a length above Limit
)

// Damage is the end of a capture that doesn't end after a whole frame.
type Damage struct {
	Offset int64 // of the first byte of what is no frame, counted from 0
	Reason Reason
}

func (d *Damage) Error() string { return fmt.Sprintf("damage at %d: %s", d.Offset, d.Reason) }

// Length is the length that a whole head says. The error is the Reason why the head can't begin a frame.
func Length(head []byte) (int, error) {
	length, reason := check(head)
	if reason != "" {
		return 0, errors.New(string(reason))
	}
	return length, nil
}

// check says why a whole head can't begin a frame, or nothing.
func check(head []byte) (length int, reason Reason) {
	long := uint32(head[1])<<24 | uint32(head[2])<<16 | uint32(head[3])<<8 | uint32(head[4])
	switch {
	case head[0] > FlagReset || head[0] == FlagReset && long != 0:
		return 0, BadFrame
	case long > Limit:
		return 0, TooLong
	}
	return int(long), ""
}
