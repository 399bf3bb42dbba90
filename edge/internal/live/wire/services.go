// Package wire is what the edge knows of the protocols: the names of their services, how gRPC frames and compresses a
// message, the id of a batch, and the three fields of a BatchStatus. Messages pass as bytes. It trusts grpc-go for
// HTTP/2 and the libraries for gzip, zstd and protobuf's fields; it reads no telemetry.
package wire

import (
	"strings"

	"finavoluth/edge/internal/signal"
)

// A Service is one of those that Collectors serve, for one signal.
type Service struct {
	Signal signal.Signal
	// Arrow is true of OTel-Arrow's bidirectional stream, false of OTLP's Export.
	Arrow bool
}

var names = []struct {
	signal signal.Signal
	// packet and title are the parts of the names that differ: trace and Trace of OTLP, Traces of OTel-Arrow.
	packet, title, plural string
}{
	{signal.Traces, "trace", "Trace", "Traces"},
	{signal.Logs, "logs", "Logs", "Logs"},
	{signal.Metrics, "metrics", "Metrics", "Metrics"},
}

var (
	methods  = map[string]Service{}
	services = map[Service]string{}
	paths    = map[string]signal.Signal{}
)

func init() {
	for _, n := range names {
		otlp := "/opentelemetry.proto.collector." + n.packet + ".v1." + n.title + "Service/Export"
		arrow := "/opentelemetry.proto.experimental.arrow.v1.Arrow" + n.plural + "Service/Arrow" + n.plural
		methods[otlp], services[Service{n.signal, false}] = Service{n.signal, false}, otlp
		methods[arrow], services[Service{n.signal, true}] = Service{n.signal, true}, arrow
		paths["/v1/"+n.signal.String()] = n.signal
	}
}

// ByMethod finds the service of a full method name.
func ByMethod(method string) (Service, bool) {
	s, ok := methods[method]
	return s, ok
}

// Method is the full name, as /package.Service/Method.
func (s Service) Method() string { return services[s] }

// Name is the name of the service alone, as package.Service.
func (s Service) Name() string {
	method := strings.TrimPrefix(services[s], "/")
	return method[:strings.IndexByte(method, '/')]
}

// ByPath finds the signal of a path of OTLP over HTTP.
func ByPath(path string) (signal.Signal, bool) {
	s, ok := paths[path]
	return s, ok
}
