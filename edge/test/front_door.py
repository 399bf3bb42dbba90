#!/usr/bin/python3
"""Tests of the built command otap over files, as a user has them.

    edge/test/front_door.py OTAP PROGRAM

OTAP is the built command, PROGRAM the proved program. Requests are written by Google's protobuf library, of the .proto
files of this repository; one file is written by hand after OTLP's specification. What a user gets where something is
wrong is compared whole. Each wait is for an event, with a limit of 60 seconds.
"""

import base64
import gzip
import hashlib
import json
import os
import pty
import signal
import subprocess
import sys
import tempfile
import unittest
from pathlib import Path

HERE = Path(__file__).resolve().parent
REPOSITORY = HERE.parent.parent
LIMIT = 60
RESET = b"\2\0\0\0\0"
SIGNALS = ("traces", "logs", "metrics")

OTAP = PROGRAM = ""
FULL_DISK = "/dev/full"


def protobuf_classes(room):
    """The request classes of the three signals, and the module of metrics, as protoc makes them."""
    protos = REPOSITORY / "edge/proto"
    files = [str(it) for it in sorted(protos.rglob("*.proto"))]
    subprocess.run(["protoc", "-I", protos, f"--python_out={room}", *files], check=True)
    sys.path.insert(0, room)
    from opentelemetry.proto.collector.logs.v1 import logs_service_pb2
    from opentelemetry.proto.collector.metrics.v1 import metrics_service_pb2
    from opentelemetry.proto.collector.trace.v1 import trace_service_pb2

    return {
        "traces": trace_service_pb2.ExportTraceServiceRequest,
        "logs": logs_service_pb2.ExportLogsServiceRequest,
        "metrics": metrics_service_pb2.ExportMetricsServiceRequest,
    }


def put(attributes, **values):
    for key, value in values.items():
        it = attributes.add(key=key)
        kind = {str: "string_value", bool: "bool_value", int: "int_value", float: "double_value", bytes: "bytes_value"}
        setattr(it.value, kind[type(value)], value)


def traces(n):
    request = CLASSES["traces"]()
    group = request.resource_spans.add()
    put(group.resource.attributes, **{"service.name": f"shop-{n}"})
    scope = group.scope_spans.add()
    scope.scope.name = "tracer"
    for i in range(3):
        span = scope.spans.add(trace_id=bytes([n, i] * 8), span_id=bytes([i, n] * 4), name=f"GET /{i}", kind=2)
        span.start_time_unix_nano, span.end_time_unix_nano = 1750000000000000000 + i, 1750000000000001000 + n
        put(span.attributes, route="/x", retries=i, ratio=0.5, cached=True, token=b"\x00\xff")
        put(span.events.add(name="retry", time_unix_nano=1750000000000000001).attributes, n=n)
        span.links.add(trace_id=bytes(range(16)), span_id=bytes(range(8)))
        span.status.code, span.status.message = 2, "späť"
    return request


def logs(n):
    request = CLASSES["logs"]()
    group = request.resource_logs.add()
    put(group.resource.attributes, **{"host.name": f"node-{n}"})
    scope = group.scope_logs.add()
    for i in range(4):
        record = scope.log_records.add(time_unix_nano=1750000000000000000 + i, severity_number=9, severity_text="INFO")
        record.body.string_value = f"order {i} of {n}"
        put(record.attributes, order=i, user=f"u{n}")
        record.trace_id, record.span_id = bytes([n + 1] * 16), bytes([i + 1] * 8)
    nested = scope.log_records.add(observed_time_unix_nano=7)
    put(nested.body.kvlist_value.values, inner="x", number=-1)
    return request


def metrics(n):
    request = CLASSES["metrics"]()
    scope = request.resource_metrics.add().scope_metrics.add()
    gauge = scope.metrics.add(name="load", unit="1")
    put(gauge.gauge.data_points.add(as_double=0.1 * n, time_unix_nano=5).attributes, host=f"h{n}")
    total = scope.metrics.add(name="requests", description="how many")
    total.sum.aggregation_temporality, total.sum.is_monotonic = 2, True
    total.sum.data_points.add(as_int=-n, time_unix_nano=6)
    histogram = scope.metrics.add(name="latency").histogram
    histogram.aggregation_temporality = 1
    point = histogram.data_points.add(count=3, bucket_counts=[1, 2], explicit_bounds=[0.5], time_unix_nano=7)
    point.sum = 1.5
    quantile = scope.metrics.add(name="size").summary.data_points.add(count=1, sum=2.0).quantile_values.add()
    quantile.quantile, quantile.value = 0.9, 8.0
    return request


MAKE = {"traces": traces, "logs": logs, "metrics": metrics}


def capture(*messages):
    return b"".join(RESET if m is None else b"\0" + len(m).to_bytes(4, "big") + m for m in messages)


def frames(data):
    """The messages of a whole capture; None for a reset."""
    found, at = [], 0
    while at < len(data):
        size = int.from_bytes(data[at + 1 : at + 5], "big")
        found.append(None if data[at] == 2 else data[at + 5 : at + 5 + size])
        at += 5 + size
    return found


def sized(*requests):
    return b"".join(len(r).to_bytes(4, "big") + r for r in requests)


def unsized(data):
    found, at = [], 0
    while at < len(data):
        size = int.from_bytes(data[at : at + 4], "big")
        found.append(data[at + 4 : at + 4 + size])
        at += 4 + size
    return found


IDS = {"traceId", "spanId", "parentSpanId"}


def change_ids(value, change):
    """OTLP's JSON has ids in hexadecimal, where protobuf's has base64."""
    if isinstance(value, dict):
        return {k: change(v) if k in IDS else change_ids(v, change) for k, v in value.items()}
    return [change_ids(v, change) for v in value] if isinstance(value, list) else value


def to_json(message):
    from google.protobuf import json_format

    whole = json_format.MessageToDict(message, use_integers_for_enums=True)
    return json.dumps(change_ids(whole, lambda text: base64.b64decode(text).hex()))


def from_json(line, kind):
    from google.protobuf import json_format

    whole = change_ids(json.loads(line), lambda text: base64.b64encode(bytes.fromhex(text)).decode())
    return json_format.ParseDict(whole, CLASSES[kind]())


def zstd(data):
    return subprocess.run(["zstd", "-q", "-c"], input=data, stdout=subprocess.PIPE, check=True).stdout


# A log record and a span, written by hand after the examples of OTLP's specification.
BY_HAND = {
    "logs": """{"resourceLogs":[{"resource":{"attributes":[{"key":"service.name","value":{"stringValue":"my.service"}}]},
 "scopeLogs":[{"scope":{"name":"my.library","version":"1.0.0"},"logRecords":[{"timeUnixNano":"1544712660300000000",
 "observedTimeUnixNano":"1544712660300000000","severityNumber":10,"severityText":"Information",
 "traceId":"5B8EFFF798038103D269B633813FC60C","spanId":"EEE19B7EC3C1B174","body":{"stringValue":"Example log record"},
 "attributes":[{"key":"map.attribute","value":{"kvlistValue":{"values":[{"key":"some.map.key","value":{"stringValue":
 "some value"}}]}}}]}]}]}]}
""",
    "traces": """{"resourceSpans":[{"resource":{"attributes":[{"key":"service.name","value":{"stringValue":"my.service"}}]},
 "scopeSpans":[{"scope":{"name":"my.library","version":"1.0.0"},"spans":[{"traceId":"5B8EFFF798038103D269B633813FC60C",
 "spanId":"EEE19B7EC3C1B174","parentSpanId":"EEE19B7EC3C1B173","name":"I'm a server span","startTimeUnixNano":
 "1544712660000000000","endTimeUnixNano":"1544712661000000000","kind":2,"attributes":[{"key":"my.span.attr",
 "value":{"stringValue":"some value"}}]}]}]}]}
""",
}


class Result:
    def __init__(self, done):
        self.status, self.out, self.err = done.returncode, done.stdout, done.stderr.decode()


class Room(unittest.TestCase):
    """A test in a folder of its own."""

    def setUp(self):
        room = tempfile.TemporaryDirectory(prefix="front_door_")
        self.addCleanup(room.cleanup)
        self.room = Path(room.name)

    def write(self, name, data):
        (self.room / name).write_bytes(data if isinstance(data, bytes) else data.encode())
        return name

    def read(self, name):
        return (self.room / name).read_bytes()

    def otap(self, *words, data=b"", **how):
        how = {"stdout": subprocess.PIPE, "stderr": subprocess.PIPE, **how}
        return Result(subprocess.run([OTAP, *words], input=data, cwd=self.room, timeout=LIMIT, **how))

    def start(self, *words, **how):
        how = {"stdin": subprocess.PIPE, "stdout": subprocess.PIPE, "stderr": subprocess.PIPE, **how}
        child = subprocess.Popen([OTAP, *words], cwd=self.room, **how)
        self.addCleanup(lambda: child.poll() is None and child.kill())
        for pipe in (child.stdin, child.stdout, child.stderr):
            self.addCleanup(lambda pipe=pipe: pipe and not pipe.closed and quietly(pipe.close))
        return child

    def program(self, *words, data=b""):
        return Result(subprocess.run([PROGRAM, *words], input=data, capture_output=True, timeout=LIMIT))

    def check(self, result, status, out, err):
        self.assertEqual((result.status, result.out, result.err), (status, out, err))

    def says(self, words, status, err, data=b""):
        """The whole of what a user gets, where nothing is put out."""
        self.check(self.otap(*words, data=data), status, b"", err)


def quietly(call):
    try:
        call()
    except OSError:
        pass


def read_frame(pipe):
    head = pipe.read(5)
    return head + pipe.read(int.from_bytes(head[1:], "big"))


class Forms(Room):
    def files(self, kind):
        """The same three requests in each form, packed in each way."""
        requests = [MAKE[kind](n) for n in range(3)]
        raw = [r.SerializeToString(deterministic=True) for r in requests]
        lines = "".join(to_json(r) + "\n" for r in requests).encode()
        plain = {"capture": capture(*raw), "bin": sized(*raw), "json": lines}
        packed = {f"{name}.{how.__name__}": how(data) for name, data in plain.items() for how in (gzip.compress, zstd)}
        alone = {"bin.each": sized(*map(zstd, raw)), "json.each": sized(*(zstd(it) for it in lines.splitlines()))}
        return raw, {**plain, **packed, **alone}

    def test_encode_takes_each_form(self):
        for kind in SIGNALS:
            raw, files = self.files(kind)
            want = self.program("encode", kind, data=capture(*raw)).out
            self.assertEqual(len(frames(want)), 3)
            for name, data in files.items():
                if name.startswith("json") and kind == "metrics":
                    continue  # a histogram's point has an absent minimum, which Google's JSON keeps too: compared below
                got = self.otap("encode", kind, self.write(name, data))
                self.assertEqual((got.status, got.out), (0, want), f"{kind} {name}: {got.err}")
            got = self.otap("encode", kind, data=files["bin"])
            self.assertEqual((got.status, got.out), (0, want), got.err)

    def test_what_comes_back_is_the_same(self):
        for kind in SIGNALS:
            raw, files = self.files(kind)
            for name in ("bin", "json", "capture"):
                self.write(name, files[name])
            self.assertEqual(self.otap("encode", kind, "json", "-o", "batches").status, 0)
            same = self.otap("diff", kind, "bin", "batches")
            items = {"traces": "9 spans", "logs": "15 log records", "metrics": "12 metrics"}[kind]
            self.assertEqual((same.status, same.out.decode()), (0, f"the same telemetry: {items}\n"), same.err)
            decoded = self.otap("decode", kind, "batches").out
            self.assertEqual(self.otap("decode", kind, "batches", "--to", "proto").out, sized(*frames(decoded)))
            lines = self.otap("decode", kind, "batches", "--to", "json").out.splitlines()
            back = [from_json(line, kind) for line in lines]
            self.assertEqual(back, [CLASSES[kind].FromString(it) for it in frames(decoded)])
            self.assertEqual(self.otap("text", kind, "batches").out.splitlines(), lines)

    def test_files_by_hand(self):
        for kind, text in BY_HAND.items():
            self.write("hand.json", text)
            self.assertEqual(self.otap("encode", kind, "hand.json", "-o", "batches").status, 0)
            lines = self.otap("text", kind, "batches").out.splitlines()
            self.assertEqual(len(lines), 1)
            want = change_ids(json.loads(text), str.lower)
            self.assertEqual(json.loads(lines[0]), want)
            self.assertEqual(self.otap("diff", kind, "hand.json", "batches").status, 0)

    def test_several_files(self):
        one, two = logs(1).SerializeToString(), logs(2).SerializeToString()
        self.write("one.bin", sized(one))
        self.write("two.json", to_json(logs(2)))
        got = self.otap("encode", "logs", "one.bin", "two.json")
        self.assertEqual(got.out, self.program("encode", "logs", data=capture(one, two)).out)
        batches = [self.program("encode", "logs", data=capture(it)).out for it in (one, two)]
        self.write("a", batches[0])
        self.write("b", batches[1])
        got = self.otap("decode", "logs", "a", "b")
        want = self.program("decode", "logs", data=batches[0] + RESET + batches[1])
        self.check(got, 0, want.out, "")
        self.write("bad", capture(b"\xff"))
        self.says(
            ("decode", "logs", "-o", "out", "a", "bad", "b"),
            1,
            "frame 2: batch - refused: stage 1 BadMessage payload -\n"
            "otap: the frames 2 to 2 are those of bad\n",
        )
        self.assertEqual(len(frames(self.read("out"))), 4)

    def test_bytes_are_passed_on(self):
        raw, files = self.files("traces")
        self.write("x", files["capture"])
        want = self.program("encode", "traces", data=files["capture"]).out
        self.check(self.otap("encode", "traces", "--no-check", "--from", "capture", "x"), 0, want, "")
        self.check(self.otap("decode", "traces", "--no-check", data=want), 0, self.program("decode", "traces", data=want).out, "")


class WrongUses(Room):
    def test_words(self):
        self.write("x.json", "{}")
        signals = "traces, logs or metrics"
        for words, status, err in (
            (("encdoe",), 2, 'no command is called "encdoe": did you mean encode?'),
            (("explode",), 2, 'no command is called "explode": `otap --help` lists them'),
            (("help", "shwo"), 2, 'no command is called "shwo": did you mean show?'),
            (("encode",), 2, f"encode wants a signal: {signals}"),
            (("encode", "lgos", "x.json"), 2, 'no signal is called "lgos": did you mean logs?'),
            (("encode", "x.json"), 2, f"encode wants a signal before the file x.json: {signals}"),
            (("decode", "everything"), 2, f'no signal is called "everything": it is {signals}'),
            (("encode", "logs", "--form", "json"), 2, "encode has no flag --form: did you mean --from?"),
            (("encode", "logs", "--colour"), 2, "encode has no flag --colour: `otap encode --help` lists them"),
            (("encode", "logs", "--from"), 2, "encode: flag needs an argument: --from"),
            (("encode", "logs", "--from", "xml"), 2, '--from: no form is called "xml": it is capture, proto, json'),
            (("decode", "logs", "--to", "xml"), 2, '--to: no form is called "xml": it is capture, proto, json'),
            (("decode", "logs", "--from", "json"), 2, "decode reads batches, which are always a capture: not --from json"),
            (("selfrun", "logs"), 2, "selfrun wants one number of requests after the signal, 1 to 1000"),
            (("selfrun", "logs", "1001"), 2, "selfrun wants one number of requests after the signal, 1 to 1000"),
            (("diff", "logs", "x.json"), 2, "diff wants two files after the signal, A and B"),
            (("list", "logs", "x.json"), 2, "list takes no signal, but files alone"),
            (("decode", "logs", "--indent", "x.json"), 2, "--indent goes with --to json"),
            (("encode", "logs", "--follow"), 2, "--follow wants one FILE"),
            (("list", "nothing"), 3, "reading nothing: no such file or directory"),
            (("list", "."), 3, "reading .: is a directory"),
            (("list", "--otap-cli", "nothing"), 7, "the program nothing: no such file or directory"),
            (("list", "--otap-cli", "x.json"), 7, "the program x.json is no executable file"),
        ):
            self.says(words, status, f"otap: {err}\n")

    def test_files_of_another_form(self):
        self.write("text", "hello, world\n")
        self.write("zeros", bytes(20))
        self.write("x.json", to_json(logs(1)))
        self.write("cut.bin", sized(logs(1).SerializeToString())[:-1])
        self.says(
            ("encode", "logs", "text"),
            2,
            "otap: text is neither a capture (--from capture: BadFrame at byte 0) nor requests in protobuf, each after its length "
            "(--from proto: a length of 1751477356 at byte 0) nor requests in JSON (--from json: no JSON at byte 0)\n",
        )
        self.says(
            ("encode", "logs", "zeros"),
            2,
            "otap: zeros can be read as a capture (--from capture) and as requests in protobuf, each after its length (--from proto); say which\n",
        )
        self.says(
            ("decode", "logs", "x.json"),
            2,
            "otap: x.json is no capture, as batches are, but looks like requests in JSON: `otap encode` makes batches of these\n",
        )
        self.says(
            ("encode", "traces", "x.json"),
            2,
            "otap: x.json is read as requests in JSON (--from json)\n"
            'otap: x.json, request 0: the key "resourceLogs" is that of logs, not of traces\n',
        )
        self.write("broken.json", to_json(logs(1)) + "\n{]\n")
        got = self.otap("encode", "logs", "--from", "json", "broken.json")
        self.assertEqual(
            (got.status, len(frames(got.out)), got.err),
            (5, 1, "otap: broken.json, request 1: invalid character ']' looking for beginning of object key string\n"),
        )
        self.write("short.gz", gzip.compress(sized(*[logs(n).SerializeToString() for n in range(9)]))[:-20])
        self.says(("encode", "logs", "short.gz"), 3, "otap: reading short.gz: gzip: unexpected EOF\n")

    def test_outputs(self):
        self.write("x.bin", sized(logs(1).SerializeToString()))
        is_read = "otap: x.bin is read as requests in protobuf, each after its length (--from proto)\n"
        before = self.read("x.bin")
        self.says(("encode", "logs", "x.bin", "-o", "x.bin"), 2, is_read + "otap: -o x.bin is the input x.bin: nothing was written\n")
        os.link(self.room / "x.bin", self.room / "same")
        self.says(("encode", "logs", "x.bin", "-o", "same"), 2, is_read + "otap: -o same is the input x.bin: nothing was written\n")
        with open(self.room / "x.bin", "ab") as out:
            got = self.otap("encode", "logs", "x.bin", stdout=out)
        self.assertEqual((got.status, got.err), (2, is_read + "otap: standard output is the input x.bin: nothing was written\n"))
        self.assertEqual(self.read("x.bin"), before)
        self.says(("encode", "logs", "x.bin", "-o", "no/where"), 4, is_read + "otap: writing no/where: no such file or directory\n")
        self.says(("encode", "logs", "x.bin", "-o", "."), 2, is_read + "otap: -o . is a folder\n")

    def test_a_failed_run_leaves_the_old_file(self):
        self.write("old", "old")
        self.write("bad", capture(b"\xff"))
        got = self.otap("encode", "logs", "--from", "capture", "bad", "-o", "old")
        self.assertEqual((got.status, got.err), (1, "frame 0: request refused: BadMessage\notap: old isn't written\n"))
        self.write("damaged", capture(logs(1).SerializeToString()) + b"\0\0")
        self.assertEqual(self.otap("encode", "logs", "--from", "capture", "damaged", "-o", "old").status, 5)
        self.assertEqual(self.read("old"), b"old")
        self.assertEqual(sorted(os.listdir(self.room)), ["bad", "damaged", "old"])
        self.write("good", capture(logs(1).SerializeToString()))
        os.chmod(self.room / "old", 0o640)
        self.assertEqual(self.otap("encode", "logs", "good", "-o", "old").status, 0)
        self.assertEqual(self.read("old"), self.program("encode", "logs", data=self.read("good")).out)
        self.assertEqual((self.room / "old").stat().st_mode & 0o777, 0o640)
        self.assertEqual(sorted(os.listdir(self.room)), ["bad", "damaged", "good", "old"])

    def test_a_full_disk(self):
        self.write("x", self.program("encode", "logs", data=capture(logs(1).SerializeToString())).out)
        self.write("r", capture(logs(1).SerializeToString()))
        for words in (("list", "x"), ("decode", "logs", "x"), ("decode", "logs", "x", "--no-check"), ("decode", "logs", "x", "--to", "json"),
                      ("--version",), ("--help",)):
            with open(FULL_DISK, "wb") as full:
                got = self.otap(*words, stdout=full)
            self.assertEqual((got.status, got.err), (4, "otap: writing standard output: no space left on device\n"), words)
        for words in (("list", "x"), ("list", "x", "--no-check")):
            self.says((*words, "-o", FULL_DISK), 4, f"otap: writing {FULL_DISK}: no space left on device\n")
        for words in (("text", "logs", "x"), ("diff", "logs", "x", "r")):
            with open(FULL_DISK, "wb") as full:
                got = self.otap(*words, stdout=full)
            self.assertEqual(got.status, 4, words)
            self.assertTrue(got.err.endswith("otap: writing standard output: no space left on device\n"), got.err)

    def test_a_closed_pipe_is_silent(self):
        batches = self.program("encode", "logs", data=capture(*(logs(n).SerializeToString() for n in range(9)))).out
        for words in (("show", "logs"), ("decode", "logs", "--to", "json"), ("text", "logs", "--from", "capture")):
            child = self.start(*words)
            child.stdout.close()
            child.stdin.write(batches)
            child.stdin.close()
            self.assertEqual((child.wait(LIMIT), child.stderr.read()), (4, b""), words)
        self.write("x", batches * 200)
        child = self.start("show", "logs", "x", "--streams", "--no-check")
        child.stdout.close()
        self.assertEqual((child.wait(LIMIT), child.stderr.read()), (4, b""))
        self.write("x", batches * 2000)  # more lines than a pipe holds, so the program meets its end
        child = self.start("list", "x", "--no-check")
        child.stdout.close()
        self.assertEqual((child.wait(LIMIT), child.stderr.read()), (4, b""))

    def test_a_terminal(self):
        self.write("x", capture(logs(1).SerializeToString()))
        master, slave = pty.openpty()
        self.addCleanup(os.close, master)
        got = self.otap("encode", "logs", "x", stdout=slave)
        os.close(slave)
        self.assertEqual(got.err, "otap: what encode writes is no text, and isn't written to a terminal: give -o FILE, or |, or >\n")
        self.assertEqual(got.status, 2)


class Lost(Room):
    """Nothing goes without a word."""

    def test_what_isnt_carried(self):
        request = metrics(1)
        metric = request.resource_metrics[0].scope_metrics[0].metrics[0]
        put(metric.metadata, a="1", b="2")
        request.resource_metrics[0].resource.entity_refs.add(type="service", id_keys=["x"])
        data = request.SerializeToString() + b"\xca\x3e\x01x"  # field 1001, a text
        self.write("m.bin", sized(data))
        lines = (
            "otap: not carried: 1 × 1001, a field that OTLP doesn't have\n"
            "otap: not carried: 1 × resourceMetrics.resource.entityRefs\n"
            "otap: not carried: 2 × resourceMetrics.scopeMetrics.metrics.metadata\n"
        )
        is_read = "otap: m.bin is read as requests in protobuf, each after its length (--from proto)\n"
        want = self.program("encode", "metrics", data=capture(data)).out
        self.check(self.otap("encode", "metrics", "m.bin"), 0, want, is_read + lines)
        self.check(
            self.otap("encode", "metrics", "m.bin", "--strict"), 1, want, is_read + lines + "otap: --strict: something isn't carried\n"
        )
        self.check(self.otap("encode", "metrics", "m.bin", "--no-check"), 0, want, is_read)
        tidied = self.otap("tidy", "metrics", "m.bin")
        self.assertEqual((tidied.status, tidied.err), (0, is_read + lines))
        self.write("b", want)
        self.assertEqual(self.otap("diff", "metrics", "m.bin", "b").status, 1)
        self.assertEqual(self.otap("diff", "metrics", "--carried", "m.bin", "b").status, 0)

    def test_keys_of_json(self):
        text = to_json(logs(1)).replace('"severityText"', '"colour": {"x": [1]}, "severityText"')
        self.write("x.json", text)
        got = self.otap("encode", "logs", "x.json")
        self.assertEqual(
            (got.status, got.err),
            (
                0,
                "otap: x.json is read as requests in JSON (--from json)\n"
                "otap: passed over: 1 × resourceLogs.scopeLogs.logRecords.colour, a key that OTLP doesn't have\n",
            ),
        )
        self.assertEqual(self.otap("encode", "logs", "x.json", "--strict").status, 1)

    def test_exponential_histograms(self):
        request = metrics(1)
        metric = request.resource_metrics[0].scope_metrics[0].metrics.add(name="http.duration")
        metric.exponential_histogram.data_points.add(count=1)
        self.write("m.bin", sized(request.SerializeToString(), metrics(2).SerializeToString()))
        got = self.otap("encode", "metrics", "m.bin")
        self.assertEqual(
            (got.status, len(frames(got.out)), got.err),
            (
                1,
                1,
                "otap: m.bin is read as requests in protobuf, each after its length (--from proto)\n"
                "frame 0: request refused: Unsupported\n"
                'otap: refused as Unsupported for an exponential histogram: the metric "http.duration"\n',
            ),
        )


class Hints(Room):
    def batches(self, *requests, kind="logs"):
        return self.program("encode", kind, data=capture(*(r.SerializeToString() for r in requests))).out

    def test_a_wrong_signal(self):
        self.write("l.bin", sized(*(logs(n).SerializeToString() for n in range(20))))
        refused = "".join(f"frame {n}: request refused: BadMessage\n" for n in range(20))
        self.says(
            ("encode", "traces", "l.bin"),
            1,
            "otap: l.bin is read as requests in protobuf, each after its length (--from proto)\n"
            + refused
            + "otap: the first 16 messages are read as logs: `otap encode logs`\n",
        )
        self.write("b", self.batches(logs(1), logs(2)))
        self.says(
            ("decode", "traces", "b"),
            1,
            "frame 0: batch 0 refused: stage 2 PayloadType payload 30\n"
            "frame 1: batch 1 refused: stage 0 Broken payload -\n"
            "otap: the first 2 messages are read as logs: `otap decode logs`\n",
        )

    def test_a_signal_that_reads_by_chance(self):
        # A log record's severity text reads as a metric's unit, and its attributes as a field that metrics don't have.
        request = CLASSES["logs"]()
        record = request.resource_logs.add().scope_logs.add().log_records.add(severity_text="INFO")
        put(record.attributes, a="b")
        self.write("l.bin", sized(request.SerializeToString()))
        got = self.otap("encode", "metrics", "l.bin")
        self.assertEqual(
            (got.status, len(frames(got.out)), got.err),
            (
                0,
                1,
                "otap: l.bin is read as requests in protobuf, each after its length (--from proto)\n"
                "otap: not carried: 1 × resourceMetrics.scopeMetrics.metrics.6, a field that OTLP doesn't have\n"
                "otap: some have fields that metrics don't have, and read as logs without any: is it the wrong signal?\n",
            ),
        )

    def test_batches_for_requests_and_the_other_way_round(self):
        self.write("b", self.batches(logs(1)))
        self.write("r", capture(traces(1).SerializeToString()))
        got = self.otap("encode", "logs", "b")
        self.assertIn("otap: the messages are no requests, but batches of logs: `otap decode logs`\n", got.err)
        self.says(
            ("decode", "traces", "r"),
            1,
            "frame 0: batch - refused: stage 1 BadMessage payload -\n"
            "otap: the first message is no batches, but requests of traces: `otap encode traces`\n",
        )

    def test_joined_streams(self):
        one, two = self.batches(logs(1), logs(2)), self.batches(logs(3))
        self.write("joined", one + two)
        got = self.otap("decode", "logs", "joined")
        self.assertEqual(
            (got.status, got.err),
            (
                1,
                "frame 2: batch 0 refused: stage 3 Order payload 30\n"
                "otap: frame 2 is batch 0 after batch 1: a stream begins there without a reset\n"
                "otap: `--streams` puts the resets in\n",
            ),
        )
        want = self.program("decode", "logs", data=one + RESET + two).out
        self.check(self.otap("decode", "logs", "--streams", "joined"), 0, want, "otap: resets put in: 1, as the frames 2\n")
        self.check(self.otap("decode", "logs", "--streams", data=one + RESET + two), 0, want, "")

    def test_damage(self):
        whole = self.batches(logs(1))
        self.write("cut", whole + whole[:100])
        self.says(
            ("list", "cut"),
            2,
            f"otap: cut is a capture that is damaged at byte {len(whole)} (Truncated); `--from capture` has it read up to there\n",
        )
        got = self.otap("list", "cut", "--from", "capture")
        want = self.program("list", data=whole + whole[:100])
        self.check(
            got,
            5,
            want.out,
            f"damage at {len(whole)}: Truncated\notap: cut ends inside the frame that begins at byte {len(whole)}\n",
        )
        self.write("bad", whole + b"\7\7\7\7\7\7")
        self.write("after", whole)
        got = self.otap("list", "bad", "after", "--from", "capture")
        self.check(
            got,
            5,
            want.out,
            f"damage at {len(whole)}: BadFrame\n"
            f"otap: bad is damaged at byte {len(whole)}: no frame begins there; what follows isn't read; left out: after\n",
        )


class Running(Room):
    def test_frames_come_as_they_are_sent(self):
        child = self.start("encode", "logs", "--from", "capture")
        for n in range(3):
            child.stdin.write(capture(logs(n).SerializeToString()))
            child.stdin.flush()
            self.assertEqual(len(frames(read_frame(child.stdout))), 1)
        child.stdin.close()
        self.assertEqual((child.wait(LIMIT), child.stdout.read(), child.stderr.read()), (0, b"", b""))

    def test_a_file_that_grows(self):
        requests = [sized(logs(n).SerializeToString()) for n in range(3)]
        name = self.write("grows.bin", requests[0])
        child = self.start("encode", "logs", "--follow", "--from", "proto", name)
        got = read_frame(child.stdout)
        with open(self.room / name, "ab") as file:
            for part in (requests[1][:7], requests[1][7:]):
                file.write(part)
                file.flush()
            got += read_frame(child.stdout)
            file.write(requests[2][:9])
            file.flush()
        child.send_signal(signal.SIGINT)
        self.assertEqual(child.wait(LIMIT), 0)
        got += child.stdout.read()
        self.assertEqual(got, self.program("encode", "logs", data=capture(*(r[4:] for r in requests[:2]))).out)
        said = child.stderr.read().decode()
        self.assertIn(said, ("", "otap: grows.bin ends in a request that isn't whole (9 bytes): it is left out\n"))

    def test_half_a_request_is_left_out(self):
        whole = sized(logs(1).SerializeToString())
        self.write("x.bin", whole + whole[:50])
        got = self.otap("encode", "logs", "x.bin")
        self.check(
            got,
            0,
            self.program("encode", "logs", data=capture(whole[4:])).out,
            "otap: x.bin is read as requests in protobuf, each after its length (--from proto)\n"
            "otap: x.bin ends in a request that isn't whole (50 bytes): it is left out\n",
        )

    def test_progress_on_a_terminal(self):
        # The program's stand-in takes its input only once it is told to.
        os.mkfifo(self.room / "go")
        self.write("program", "#!/bin/sh\nread word <go\nexec cat >/dev/null\n")
        os.chmod(self.room / "program", 0o755)
        self.write("x", capture(bytes(1 << 21), bytes(1 << 21)))
        master, slave = pty.openpty()
        self.addCleanup(os.close, master)
        words = ("encode", "logs", "x", "--from", "capture", "--no-check", "--otap-cli", "./program")
        child = self.start(*words, stdin=subprocess.DEVNULL, stderr=slave)
        os.close(slave)
        shown = b""
        while b" of 4.0 MiB" not in shown:
            shown += os.read(master, 1000)
        self.write("go", "on\n")
        self.assertEqual(child.wait(LIMIT), 0)
        while not shown.endswith(b"\r\x1b[K"):
            shown += os.read(master, 1000)
        self.assertRegex(shown.decode(), r"^ *\d+ % of 4.0 MiB\r")

    def test_interrupted(self):
        for kind, status in ((signal.SIGINT, 130), (signal.SIGTERM, 130)):
            self.write("old", "old")
            child = self.start("encode", "logs", "-o", "old")
            child.stdin.write(capture(logs(1).SerializeToString()))
            child.stdin.flush()
            self.assertEqual(child.stderr.readline(), b"otap: standard input is read as a capture (--from capture)\n")
            child.send_signal(kind)
            self.assertEqual((child.wait(LIMIT), child.stderr.read()), (status, b"otap: interrupted\n"))
            self.assertEqual((self.read("old"), os.listdir(self.room)), (b"old", ["old"]))


class About(Room):
    def test_version(self):
        got = self.otap("--version")
        self.assertEqual(got.status, 0)
        first, second = got.out.decode().splitlines()
        self.assertTrue(first.startswith("otap "))
        with open(PROGRAM, "rb") as file:
            whole = hashlib.sha256(file.read()).hexdigest()
        inside = REPOSITORY / "edge/internal/child/out/program"
        if "embedded" in second:
            whole_inside = hashlib.sha256(inside.read_bytes()).hexdigest()
            self.assertEqual(second, f"program: embedded, sha256 {whole_inside}")
        else:
            self.assertTrue(second.endswith(f"sha256 {whole}"), second)
        got = self.otap("--version", "--otap-cli", PROGRAM)
        self.assertEqual(got.out.decode().splitlines()[1], f"program: {PROGRAM}, sha256 {whole}")

    def test_help_has_each_job(self):
        text = self.otap("--help").out.decode()
        self.check(self.otap(), 0, text.encode(), "")
        self.check(self.otap("help"), 0, text.encode(), "")
        for job in "encode decode tidy list schema show status replay selfrun text diff explain".split():
            self.assertIn(f"  {job} ", text)
            page = self.otap("help", job)
            self.assertEqual((page.status, page.err), (0, ""))
            self.assertIn("Examples:\n  otap ", page.out.decode())
            self.assertEqual(self.otap(job, "--help").out, page.out)

    def test_completion_and_man_pages(self):
        for shell in ("bash", "zsh", "fish"):
            self.assertIn(b"otap", self.otap("completion", shell).out)
        got = self.otap("__complete", "encode", "")
        self.assertEqual(got.out.decode().split()[:3], ["traces", "logs", "metrics"])
        got = self.otap("__complete", "decode", "logs", "--to", "")
        self.assertEqual(got.out.decode().split()[:3], ["capture", "proto", "json"])
        self.check(self.otap("man", "pages"), 0, b"", "")
        self.assertIn(b".SH EXAMPLES", self.read("pages/otap-encode.1"))


def main():
    global OTAP, PROGRAM, CLASSES
    OTAP, PROGRAM = (str(Path(it).resolve()) for it in sys.argv[1:3])
    with tempfile.TemporaryDirectory(prefix="front_door_") as room:
        CLASSES = protobuf_classes(room)
        unittest.main(argv=[sys.argv[0], *sys.argv[3:]])


if __name__ == "__main__":
    main()
