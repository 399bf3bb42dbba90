package wire

import (
	"fmt"

	"google.golang.org/grpc/encoding"
	_ "google.golang.org/grpc/encoding/proto" // the codec for the messages that aren't bytes
)

// Codec passes a *[]byte as it is, and any other message to the library's codec. So telemetry goes through unread,
// while the health service has its messages.
type Codec struct{}

// Marshal is called for each message that is sent.
func (Codec) Marshal(v interface{}) ([]byte, error) {
	if bytes, ok := v.(*[]byte); ok {
		return *bytes, nil
	}
	library := encoding.GetCodec("proto")
	if library == nil {
		return nil, fmt.Errorf("marshal %T: no codec for protobuf", v)
	}
	return library.Marshal(v)
}

// Unmarshal is called for each message that came, with bytes that nobody else holds.
func (Codec) Unmarshal(data []byte, v interface{}) error {
	if bytes, ok := v.(*[]byte); ok {
		*bytes = data
		return nil
	}
	library := encoding.GetCodec("proto")
	if library == nil {
		return fmt.Errorf("unmarshal %T: no codec for protobuf", v)
	}
	return library.Unmarshal(data, v)
}

// Name is the content subtype: protobuf, as on any Collector's wire.
func (Codec) Name() string { return "proto" }

// String is Name, for grpc's older interface.
func (Codec) String() string { return "proto" }
