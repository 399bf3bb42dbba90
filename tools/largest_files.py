#!/usr/bin/env python3
"""Runs `file` on a sub-stream of as many payloads as a file takes, and of one more, and `unfile` on files of as many bytes as
it reads, and of one more.

    tools/largest_files.py [PROGRAM]

A file has at most 65,536 batches, and `unfile` reads at most 2^28 bytes (docs/PROFILE.md). The captures and files are made
here; the largest has 256 MiB. It prints each case, and the status is 1 where one of them gave another answer."""

import os
import subprocess
import sys
import tempfile

from arrow_batch import Column, batch, field, integer, record, rows_message
from arrow_file import bare_footer, block, closed, schema
from at_the_limits import PROGRAM, frame, varint

MOST_BATCHES = 65_536
MOST_BYTES = 1 << 28
EVENTS = 42


def parents(number):
    """The table of events with one row: its parent."""
    return [Column(b"parent_id", integer(16), [b"", number.to_bytes(2, "little")])]


def payloads(count):
    """A capture of that many payloads of one sub-stream of events. All batches have the id 0, and all but the first are alike."""
    further = frame(field(2, field(1, b"0") + b"\x10" + varint(EVENTS) + field(3, rows_message(1, parents(7)))))
    return frame(batch((EVENTS, record(1, parents(9))))) + further * (count - 1)


def shown(count):
    """What `show` prints of the batches that `unfile` makes of their file."""
    return b"".join(b'frame %d: batch %d\npayload 42 schema "0" rows 1\nrow 0: parent_id=%d\n' % (n, n, 7 if n else 9) for n in range(count))


class Run:
    """A program's run on a file: what it prints, in a file of its own, what it says, and its status."""

    def __init__(self, program, words, source):
        self.out = tempfile.TemporaryFile()
        source.seek(0)
        done = subprocess.run([program, *words], stdin=source, stdout=self.out, stderr=subprocess.PIPE, check=False)
        self.err, self.status = done.stderr, done.returncode

    def printed(self):
        self.out.seek(0)
        return self.out.read()


def source_of(data):
    source = tempfile.TemporaryFile()
    source.write(data)
    return source


def tell(name, fine):
    print(f"{name}: {'as it should be' if fine else 'WRONG'}", flush=True)
    return fine


def many_batches(program):
    most = payloads(MOST_BATCHES)
    made = Run(program, ["file", "traces", "42", "0"], source_of(most))
    back = Run(program, ["unfile", "traces", "42"], made.out)
    rows = Run(program, ["show", "traces"], back.out)
    fine = (made.err, made.status, back.err, back.status, rows.err, rows.status) == (b"", 0) * 3
    yield "65,536 payloads", fine and rows.printed() == shown(MOST_BATCHES)
    over = Run(program, ["file", "traces", "42", "0"], source_of(payloads(MOST_BATCHES + 1)))
    yield "65,537 payloads", (over.printed(), over.err, over.status) == (b"", b"file: too many batches\n", 1)
    capture = payloads(MOST_BATCHES + 1)
    damaged = Run(program, ["file", "traces", "42", "0"], source_of(capture + b"\x03"))
    said = b"file: too many batches\ndamage at %d: Truncated\n" % len(capture)
    yield "65,537 payloads, and then a damage", (damaged.printed(), damaged.err, damaged.status) == (b"", said, 5)


def file_of(size):
    """A file of that many bytes: a batch, zero bytes, and the footer."""
    first, rows = schema(parents(0)), rows_message(1, parents(5))
    place = 8 + len(first)
    short = closed(first + rows, bare_footer([], [block(place, rows)]))
    return closed(first + rows + bytes(size - len(short)), bare_footer([], [block(place, rows)]))


def large_files(program):
    words = ["unfile", "traces", "42"]
    made = Run(program, words, source_of(file_of(MOST_BYTES)))
    rows = Run(program, ["show", "traces"], made.out)
    fine = (made.err, made.status) == (b"", 0)
    yield "2^28 bytes", fine and rows.printed() == b'frame 0: batch 0\npayload 42 schema "0" rows 1\nrow 0: parent_id=5\n'
    for name, data in (("2^28 + 1 bytes", file_of(MOST_BYTES + 1)), ("2^28 + 1 zero bytes", bytes(MOST_BYTES + 1))):
        over = Run(program, words, source_of(data))
        yield name, (over.printed(), over.err, over.status) == (b"", b"file refused: TooLong\n", 1)
    zeros = Run(program, words, source_of(bytes(MOST_BYTES)))
    yield "2^28 zero bytes", (zeros.printed(), zeros.err, zeros.status) == (b"", b"file refused: BadMagic\n", 1)


def main(program):
    cases = (case for kind in (many_batches, large_files) for case in kind(os.path.abspath(program)))
    return not all([tell(*case) for case in cases])


sys.exit(main(sys.argv[1] if len(sys.argv) > 1 else PROGRAM))
