package wire

import (
	"errors"
	"fmt"

	"google.golang.org/grpc/codes"
	"google.golang.org/protobuf/encoding/protowire"
)

// A Status is a BatchStatus, which a receiver sends for each batch.
type Status struct {
	ID      int64
	Code    codes.Code
	Message string
}

// Unreadable is the id of the status for a message whose id can't be read.
const Unreadable = -1

// The fields of a BatchStatus; the id has the same number in BatchArrowRecords.
const (
	fieldID      protowire.Number = 1
	fieldCode    protowire.Number = 2
	fieldMessage protowire.Number = 3
)

// BatchID reads the id of a batch message: its field 1, and nothing else. Where the id comes first, as canonical bytes
// have it, the payloads aren't walked.
func BatchID(batch []byte) (int64, error) {
	if len(batch) > 0 && batch[0] == 1<<3 {
		id, n := protowire.ConsumeVarint(batch[1:])
		if n < 0 {
			return 0, fmt.Errorf("read a batch id: %w", protowire.ParseError(n))
		}
		return int64(id), nil
	}
	var id int64
	err := fields(batch, func(number protowire.Number, kind protowire.Type, value []byte) error {
		if number != fieldID {
			return nil
		}
		return varint(kind, value, func(v uint64) { id = int64(v) })
	})
	if err != nil {
		return 0, fmt.Errorf("read a batch id: %w", err)
	}
	return id, nil
}

// ReadStatus reads a BatchStatus.
func ReadStatus(message []byte) (Status, error) {
	var s Status
	err := fields(message, func(number protowire.Number, kind protowire.Type, value []byte) error {
		switch number {
		case fieldID:
			return varint(kind, value, func(v uint64) { s.ID = int64(v) })
		case fieldCode:
			return varint(kind, value, func(v uint64) { s.Code = codes.Code(uint32(v)) })
		case fieldMessage:
			text, n := protowire.ConsumeBytes(value)
			if kind != protowire.BytesType || n < 0 {
				return errors.New("its message is no text")
			}
			s.Message = string(text)
		}
		return nil
	})
	if err != nil {
		return Status{}, fmt.Errorf("read a batch status: %w", err)
	}
	return s, nil
}

// Append appends the canonical bytes of a status.
func (s Status) Append(to []byte) []byte {
	if s.ID != 0 {
		to = protowire.AppendTag(to, fieldID, protowire.VarintType)
		to = protowire.AppendVarint(to, uint64(s.ID))
	}
	if s.Code != codes.OK {
		to = protowire.AppendTag(to, fieldCode, protowire.VarintType)
		to = protowire.AppendVarint(to, uint64(s.Code))
	}
	if s.Message != "" {
		to = protowire.AppendTag(to, fieldMessage, protowire.BytesType)
		to = protowire.AppendString(to, s.Message)
	}
	return to
}

// inEnum has the codes that a BatchStatus may carry: OTel-Arrow's StatusCode, whose numbers are gRPC's.
var inEnum = map[codes.Code]bool{
	codes.OK: true, codes.Canceled: true, codes.InvalidArgument: true, codes.DeadlineExceeded: true,
	codes.PermissionDenied: true, codes.ResourceExhausted: true, codes.Aborted: true, codes.Internal: true,
	codes.Unavailable: true, codes.Unauthenticated: true,
}

// ToEnum is the code as a BatchStatus carries it: Internal for one that its enum lacks.
func ToEnum(code codes.Code) codes.Code {
	if inEnum[code] {
		return code
	}
	return codes.Internal
}

func fields(message []byte, each func(protowire.Number, protowire.Type, []byte) error) error {
	for len(message) > 0 {
		number, kind, n := protowire.ConsumeTag(message)
		if n < 0 {
			return protowire.ParseError(n)
		}
		message = message[n:]
		n = protowire.ConsumeFieldValue(number, kind, message)
		if n < 0 {
			return protowire.ParseError(n)
		}
		if err := each(number, kind, message[:n]); err != nil {
			return err
		}
		message = message[n:]
	}
	return nil
}

func varint(kind protowire.Type, value []byte, set func(uint64)) error {
	v, n := protowire.ConsumeVarint(value)
	if kind != protowire.VarintType || n < 0 {
		return errors.New("a number is no varint")
	}
	set(v)
	return nil
}
