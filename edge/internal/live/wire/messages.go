package wire

import (
	"context"
	"encoding/binary"
	"errors"
	"fmt"
	"io"
	"time"

	"finavoluth/edge/internal/live/window"

	"google.golang.org/grpc"
	"google.golang.org/grpc/codes"
	"google.golang.org/grpc/status"
)

// Messages takes the messages of a call off the wire, each only once there is room for it. grpc-go's own RecvMsg makes
// room for a message of whatever length it claims before anybody is asked; so the length is read first, through the
// stream's Read, which fills what it is given.
type Messages struct {
	call     grpc.ServerStream
	from     io.Reader
	encoding string
	limits   Limits
}

// Limits are those of each message.
type Limits struct {
	// Bytes is how long a message may be, also where it is unpacked.
	Bytes int
	// Patience is how long its bytes may take to come, once its length is there.
	Patience time.Duration
	Window   *window.Window
}

// A Message has its bytes, unpacked, and the ticket for them, which its taker releases.
type Message struct {
	Bytes  []byte
	Ticket *window.Ticket
}

// headSize is that of gRPC's length-prefixed messages: whether it is compressed, and its length.
const headSize = 5

type stream interface {
	io.Reader
	RecvCompress() string
}

// NewMessages reads the messages of a call, whose handler must call RecvMsg no more.
func NewMessages(call grpc.ServerStream, limits Limits) (*Messages, error) {
	from, ok := grpc.ServerTransportStreamFromContext(call.Context()).(stream)
	if !ok {
		return nil, status.Error(codes.Internal, "this grpc-go hands out no stream that can be read")
	}
	return &Messages{call: call, from: from, encoding: from.RecvCompress(), limits: limits}, nil
}

// Next waits for the next message. Errors are io.EOF at the end, and else have a status.
func (m *Messages) Next() (Message, error) {
	var head [headSize]byte
	if _, err := m.from.Read(head[:]); err == io.EOF {
		return Message{}, io.EOF
	} else if err != nil {
		return Message{}, m.broken(err)
	}
	length := int64(binary.BigEndian.Uint32(head[1:]))
	packed := head[0] == 1
	switch {
	case head[0] > 1:
		return Message{}, status.Errorf(codes.Internal, "a message with the flag %d", head[0])
	case packed && (m.encoding == "" || m.encoding == "identity"):
		return Message{}, status.Error(codes.Internal, "a compressed message in a call without grpc-encoding")
	case length > int64(m.limits.Bytes):
		return Message{}, status.Errorf(codes.ResourceExhausted, "a message of %d bytes, above the %d of --max-message", length, m.limits.Bytes)
	}
	ctx, cancel := context.WithTimeout(m.call.Context(), m.limits.Patience)
	defer cancel()
	ticket, err := m.limits.Window.Acquire(ctx, length)
	if err != nil {
		return Message{}, m.late(ctx, "no room in the window")
	}
	return m.take(ctx, ticket, int(length), packed)
}

// take reads the bytes, which the ticket has room for. A peer that stops sending loses its call; then the read, which
// ends with the call, releases the ticket.
func (m *Messages) take(ctx context.Context, ticket *window.Ticket, length int, packed bool) (Message, error) {
	bytes := make([]byte, length)
	read := make(chan error, 1)
	go func() {
		var err error
		if length > 0 {
			_, err = m.from.Read(bytes)
		}
		read <- err
	}()
	select {
	case err := <-read:
		if err != nil {
			ticket.Release()
			return Message{}, m.broken(err)
		}
	case <-ctx.Done():
		go func() { <-read; ticket.Release() }()
		return Message{}, m.late(ctx, "a message that didn't come to its end")
	}
	if !packed {
		return Message{bytes, ticket}, nil
	}
	unpacked, err := ticket.Unpack(ctx, int64(m.limits.Bytes), func() ([]byte, error) {
		return Unpack(m.encoding, bytes, m.limits.Bytes)
	})
	if err != nil {
		ticket.Release()
		switch {
		case errors.Is(err, ErrTooLong):
			return Message{}, status.Errorf(codes.ResourceExhausted, "a message that %v, the %d of --max-message", err, m.limits.Bytes)
		case ctx.Err() != nil:
			return Message{}, m.late(ctx, "no room in the window")
		}
		return Message{}, status.Error(codes.Internal, err.Error())
	}
	return Message{unpacked, ticket}, nil
}

func (m *Messages) late(ctx context.Context, why string) error {
	if err := m.call.Context().Err(); err != nil {
		return status.FromContextError(err).Err()
	}
	return status.Errorf(codes.Unavailable, "%s within %v", why, m.limits.Patience)
}

func (m *Messages) broken(err error) error {
	if errors.Is(err, io.ErrUnexpectedEOF) || err == io.EOF {
		return status.Error(codes.Internal, "the call ended within a message")
	}
	if _, ok := status.FromError(err); ok {
		return err
	}
	return status.FromContextError(err).Err()
}

// Cut takes the first message off the bytes of a call, unpacked, and gives those after it. There is none where the bytes
// don't have it whole.
func Cut(bytes []byte, encoding string, limit int) (message, rest []byte, err error) {
	if len(bytes) < headSize {
		return nil, bytes, nil
	}
	length := int64(binary.BigEndian.Uint32(bytes[1:]))
	switch {
	case bytes[0] > 1:
		return nil, nil, fmt.Errorf("a message with the flag %d: bytes are missing, or it isn't gRPC", bytes[0])
	case length > int64(limit):
		return nil, nil, fmt.Errorf("a message of %d bytes, above the %d of --max-message", length, limit)
	case int64(len(bytes)-headSize) < length:
		return nil, bytes, nil
	}
	message, rest = bytes[headSize:headSize+length], bytes[headSize+length:]
	if bytes[0] == 1 {
		if message, err = Unpack(encoding, message, limit); err != nil {
			return nil, nil, err
		}
	}
	if message == nil {
		message = []byte{}
	}
	return message, rest, nil
}
