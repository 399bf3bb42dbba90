package record

import (
	"context"
	"errors"
	"io"
	"mime"
	"net/http"
	"time"

	"finavoluth/edge/internal/live/window"
	"finavoluth/edge/internal/live/wire"

	"google.golang.org/grpc/codes"
	"google.golang.org/grpc/metadata"
	"google.golang.org/grpc/status"
	"google.golang.org/protobuf/encoding/protowire"
)

const (
	headersWithin = 10 * time.Second
	idleWithin    = 2 * time.Minute
	longestHeader = 16 << 10
)

// HTTP serves OTLP over HTTP on a listener, which has its TLS already.
func (r *Recorder) HTTP() *http.Server {
	return &http.Server{Handler: http.HandlerFunc(r.post), ReadHeaderTimeout: headersWithin, IdleTimeout: idleWithin,
		ReadTimeout: r.Messages.Patience, MaxHeaderBytes: longestHeader}
}

// refusal is an answer that only HTTP has.
type refusal struct {
	status int
	text   string
}

func (r *refusal) Error() string { return r.text }

func (r *Recorder) post(w http.ResponseWriter, request *http.Request) {
	response, err := r.posted(request)
	if err == nil {
		answer(w, http.StatusOK, response)
		return
	}
	var own *refusal
	if errors.As(err, &own) {
		answer(w, own.status, asStatus(codes.InvalidArgument, own.text))
		return
	}
	s := status.Convert(err)
	answer(w, httpStatus(s), asStatus(s.Code(), s.Message()))
}

func (r *Recorder) posted(request *http.Request) ([]byte, error) {
	signal, ok := wire.ByPath(request.URL.Path)
	if !ok {
		return nil, &refusal{http.StatusNotFound, "the paths are /v1/traces, /v1/logs and /v1/metrics"}
	}
	if request.Method != http.MethodPost {
		return nil, &refusal{http.StatusMethodNotAllowed, "a request is sent by POST"}
	}
	if kind, _, err := mime.ParseMediaType(request.Header.Get("Content-Type")); err != nil || kind != "application/x-protobuf" {
		return nil, &refusal{http.StatusUnsupportedMediaType, "only application/x-protobuf is taken"}
	}
	message, err := r.body(request)
	if err != nil {
		return nil, err
	}
	defer message.Ticket.Release()
	return r.export(request.Context(), signal, message.Bytes, metadata.MD(request.Header))
}

// body reads the body, with room for it: as much as its length says, or as much as a message may have.
func (r *Recorder) body(request *http.Request) (wire.Message, error) {
	most := int64(r.Messages.Bytes)
	length := request.ContentLength
	packed := request.Header.Get("Content-Encoding")
	switch {
	case length > most:
		return wire.Message{}, &refusal{http.StatusRequestEntityTooLarge, "the body is longer than --max-message"}
	case packed != "" && packed != "identity" && packed != "gzip":
		return wire.Message{}, &refusal{http.StatusUnsupportedMediaType, "the body is plain or in gzip"}
	case length < 0:
		length = most
	}
	ctx, cancel := context.WithTimeout(request.Context(), r.Messages.Patience)
	defer cancel()
	ticket, err := r.Messages.Window.Acquire(ctx, length)
	if err != nil {
		return wire.Message{}, status.Error(codes.Unavailable, "no room in the window")
	}
	bytes, err := r.read(ctx, ticket, request.Body, packed == "gzip")
	if err != nil {
		ticket.Release()
		return wire.Message{}, err
	}
	return wire.Message{Bytes: bytes, Ticket: ticket}, nil
}

func (r *Recorder) read(ctx context.Context, ticket *window.Ticket, body io.Reader, packed bool) ([]byte, error) {
	most := r.Messages.Bytes
	bytes, err := io.ReadAll(io.LimitReader(body, int64(most)+1))
	if err != nil {
		return nil, &refusal{http.StatusBadRequest, "the body can't be read"}
	}
	if len(bytes) > most {
		return nil, &refusal{http.StatusRequestEntityTooLarge, "the body is longer than --max-message"}
	}
	if !packed {
		ticket.Resize(int64(len(bytes)))
		return bytes, nil
	}
	unpacked, err := ticket.Unpack(ctx, int64(most), func() ([]byte, error) { return wire.Unpack("gzip", bytes, most) })
	switch {
	case errors.Is(err, wire.ErrTooLong):
		return nil, &refusal{http.StatusRequestEntityTooLarge, "the body unpacks to more than --max-message"}
	case ctx.Err() != nil:
		return nil, status.Error(codes.Unavailable, "no room in the window")
	case err != nil:
		return nil, &refusal{http.StatusBadRequest, "the body is no gzip"}
	}
	return unpacked, nil
}

func answer(w http.ResponseWriter, code int, body []byte) {
	w.Header().Set("Content-Type", "application/x-protobuf")
	w.WriteHeader(code)
	w.Write(body)
}

// asStatus is a google.rpc.Status, the body that OTLP gives an error: code=1, message=2.
func asStatus(code codes.Code, text string) []byte {
	b := protowire.AppendTag(nil, 1, protowire.VarintType)
	b = protowire.AppendVarint(b, uint64(code))
	b = protowire.AppendTag(b, 2, protowire.BytesType)
	return protowire.AppendString(b, text)
}

var httpStatuses = map[codes.Code]int{
	codes.InvalidArgument:   http.StatusBadRequest,
	codes.Unauthenticated:   http.StatusUnauthorized,
	codes.PermissionDenied:  http.StatusForbidden,
	codes.Unimplemented:     http.StatusNotImplemented,
	codes.ResourceExhausted: http.StatusTooManyRequests,
	codes.Unavailable:       http.StatusServiceUnavailable,
	codes.Aborted:           http.StatusServiceUnavailable,
	codes.Canceled:          http.StatusServiceUnavailable,
	codes.DeadlineExceeded:  http.StatusGatewayTimeout,
}

// httpStatus is the status of HTTP for one of gRPC, such that exporters send again what they would send again over gRPC.
// A folder that is full is none of these, as it stays full.
func httpStatus(s *status.Status) int {
	if s.Code() == codes.ResourceExhausted && s.Message() == ErrFull.Error() {
		return http.StatusInsufficientStorage
	}
	if code, ok := httpStatuses[s.Code()]; ok {
		return code
	}
	return http.StatusInternalServerError
}
