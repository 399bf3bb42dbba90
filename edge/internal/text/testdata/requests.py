"""Requests by Google's protobuf for Python, for the tests of the package text.

    requests.py make CODE SEED COUNT SIGNAL     prints COUNT lines: a request in hexadecimal, a blank, and OTLP's JSON of it
    requests.py read CODE SIGNAL                reads lines of OTLP's JSON, and prints each request in hexadecimal

CODE is the folder of the Python code that protoc made of OTLP's .proto files. OTLP's JSON is Google's JSON with enums as
numbers, and with the ids, which Google has in base64, in hexadecimal.
"""
import base64
import importlib
import json
import random
import sys

SERVICES = {"traces": "trace", "logs": "logs", "metrics": "metrics"}
IDS = {"traceId", "spanId", "parentSpanId"}


def request(signal):
    name = SERVICES[signal]
    module = importlib.import_module(f"opentelemetry.proto.collector.{name}.v1.{name}_service_pb2")
    return getattr(module, f"Export{name.capitalize()}ServiceRequest")


def ids(value, change):
    """The JSON with each id changed."""
    if isinstance(value, list):
        return [ids(element, change) for element in value]
    if not isinstance(value, dict):
        return value
    return {key: change(v) if key in IDS else ids(v, change) for key, v in value.items()}


TEXTS = ["", "a", "service.name", "é", "日本", "\0", '"\\\n\t\r\x7f</', "\U0001F600", "\u2028"]
DOUBLES = [0.0, -0.0, 1.0, -1.5, 1e-7, 1e21, 1e20, 123456789.125, 1.7976931348623157e308, 5e-324, float("inf"),
           float("-inf"), float("nan"), 0.1]


def whole(r, low, high):
    n = r.choice([low, high, 0, 1, 2, 127, 128, 2**31 - 1, 2**31, 2**53, 2**53 + 1, r.randint(low, high)])
    return min(max(n, low), high)


def scalar(r, field):
    kinds = {
        field.TYPE_BOOL: lambda: r.random() < 0.5,
        field.TYPE_ENUM: lambda: r.choice([0, 1, 2, 5, 24, -1, 2**31 - 1, -(2**31)]),
        field.TYPE_SINT32: lambda: whole(r, -(2**31), 2**31 - 1),
        field.TYPE_UINT32: lambda: whole(r, 0, 2**32 - 1),
        field.TYPE_FIXED32: lambda: whole(r, 0, 2**32 - 1),
        field.TYPE_INT64: lambda: whole(r, -(2**63), 2**63 - 1),
        field.TYPE_SFIXED64: lambda: whole(r, -(2**63), 2**63 - 1),
        field.TYPE_UINT64: lambda: whole(r, 0, 2**64 - 1),
        field.TYPE_FIXED64: lambda: whole(r, 0, 2**64 - 1),
        field.TYPE_DOUBLE: lambda: r.choice(DOUBLES + [r.uniform(-1e9, 1e9)]),
        field.TYPE_STRING: lambda: r.choice(TEXTS),
        field.TYPE_BYTES: lambda: r.randbytes(r.choice([0, 1, 2, 3, 8, 16])),
    }
    return kinds[field.type]()


def fill(r, message, depth):
    for field in message.DESCRIPTOR.fields:
        inside = field.message_type is not None
        if r.random() < 0.25 or (depth > 9 and inside):
            continue
        if field.containing_oneof and r.random() * len(field.containing_oneof.fields) > 1:
            continue
        if field.label == field.LABEL_REPEATED:
            for _ in range(r.randint(1, 3) if depth < 4 else r.randint(0, 2)):
                if inside:
                    fill(r, getattr(message, field.name).add(), depth + 1)
                else:
                    getattr(message, field.name).append(scalar(r, field))
        elif inside:
            getattr(message, field.name).SetInParent()
            fill(r, getattr(message, field.name), depth + 1)
        else:
            setattr(message, field.name, scalar(r, field))


def main():
    sys.path.insert(0, sys.argv[2])
    from google.protobuf import json_format

    if sys.argv[1] == "make":
        r = random.Random(int(sys.argv[3]))
        for _ in range(int(sys.argv[4])):
            message = request(sys.argv[5])()
            fill(r, message, 0)
            value = json_format.MessageToDict(message, use_integers_for_enums=True)
            text = json.dumps(ids(value, lambda v: base64.b64decode(v).hex()), ensure_ascii=r.random() < 0.5)
            print(message.SerializeToString(deterministic=True).hex(), text)
    else:
        for line in sys.stdin:
            message = request(sys.argv[3])()
            value = ids(json.loads(line), lambda v: base64.b64encode(bytes.fromhex(v)).decode())
            json_format.ParseDict(value, message)
            print(message.SerializeToString(deterministic=True).hex())


main()
