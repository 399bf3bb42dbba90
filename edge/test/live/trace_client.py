"""What trace.pcap has: on one connection the requests of three captures, some in gzip, and an OTel-Arrow stream between
them. trace_client.py ADDRESS"""
import sys

import grpc

EXAMPLES = "../../../examples/"
EXPORT = "/opentelemetry.proto.collector.%s.v1.%sService/Export"


def messages(name):
    with open(EXAMPLES + name, "rb") as f:
        data = f.read()
    while data:
        length = int.from_bytes(data[1:5], "big")
        if data[0] == 0:
            yield data[5:5 + length]
        data = data[5 + length:]


def main():
    with grpc.insecure_channel(sys.argv[1]) as channel:
        def send(method, name, compression):
            call = channel.unary_unary(method)
            for message in messages(name):
                call(message, compression=compression)

        send(EXPORT % ("trace", "Trace"), "transits/traces/row_each_table.capture", grpc.Compression.NoCompression)
        stream = channel.stream_stream("/opentelemetry.proto.experimental.arrow.v1.ArrowLogsService/ArrowLogs")
        for _ in stream(iter(list(messages("logs.capture"))[:2])):
            pass
        send(EXPORT % ("logs", "Logs"), "transits/logs/realistic.capture", grpc.Compression.Gzip)
        send(EXPORT % ("metrics", "Metrics"), "transits/metrics/row_each_table.capture", grpc.Compression.NoCompression)


main()
