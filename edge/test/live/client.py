"""A client by grpcio, whose HTTP/2 isn't Go's: sends each message of a capture to a method, and prints the code of each
answer. client.py ADDRESS METHOD CAPTURE [gzip]"""
import sys

import grpc

address, method, capture = sys.argv[1:4]
compression = grpc.Compression.Gzip if "gzip" in sys.argv[4:] else grpc.Compression.NoCompression
with open(capture, "rb") as f:
    data = f.read()
with grpc.insecure_channel(address, [("grpc.max_send_message_length", -1)]) as channel:
    call = channel.unary_unary(method)
    while data:
        length = int.from_bytes(data[1:5], "big")
        try:
            call(data[5:5 + length], timeout=60, compression=compression)
            print("OK")
        except grpc.RpcError as error:
            print(error.code().name)
        data = data[5 + length:]
