#!/usr/bin/env python3
"""Runs `tidy` on requests that are as large as the profile takes, and on requests one larger.

    tools/at_the_limits.py [PROGRAM]

Each request has either as many items or as much weight as docs/PROFILE.md says, or one more. The first come back as
they are, the others are refused. These captures have up to 64 MiB, so the gate leaves them out. It prints each case,
and the status is 1 where one of them gave another answer.
"""

import os
import subprocess
import sys

TOP = os.path.dirname(os.path.dirname(os.path.abspath(__file__)))
PROGRAM = os.path.join(TOP, "crates", "otap_cli", "out", "otap_cli")
MOST_ITEMS = 1_048_576
MOST_WEIGHT = 1 << 26
# A resource group, a scope group and an item.
ITEM = 3 * 32
POINT = ITEM + 32


def varint(number):
    """The number in protobuf's varint form."""
    out = bytearray()
    while number >= 128:
        out.append(number & 127 | 128)
        number >>= 7
    out.append(number)
    return bytes(out)


def field(number, part):
    """A field that has bytes."""
    return varint(number << 3 | 2) + varint(len(part)) + part


def within(numbers, part):
    """The part in a field in a field, and so on, the outermost first."""
    for number in reversed(numbers):
        part = field(number, part)
    return part


def frame(request):
    """The request as a capture of one frame."""
    return b"\x00" + len(request).to_bytes(4, "big") + request


def items(count):
    """A request with that many empty items in one scope group, for each signal alike."""
    return within((1, 2), field(2, b"") * count)


def body(weight):
    """Logs of that weight: one record with a text."""
    return within((1, 2, 2, 5, 1), b"a" * (weight - ITEM))


def buckets(weight):
    """Metrics of that weight: one histogram point with bucket counts."""
    return within((1, 2, 2, 9, 1, 6), bytes(weight - POINT))


def quantiles(weight):
    """Metrics of that weight: one summary point with empty quantiles."""
    return within((1, 2, 2, 11, 1), field(6, b"") * ((weight - POINT) // 16))


def cases():
    """The signal, a name, the request, and the name of its refusal, if it is refused."""
    for signal in ("logs", "traces", "metrics"):
        yield signal, "the most items", items(MOST_ITEMS), None
        yield signal, "one item more", items(MOST_ITEMS + 1), "TooManyItems"
    for signal, name, made, step in (
        ("logs", "a text", body, 1),
        ("metrics", "bucket counts", buckets, 8),
        ("metrics", "quantiles", quantiles, 16),
    ):
        yield signal, f"the most weight, by {name}", made(MOST_WEIGHT), None
        yield signal, f"more weight, by {name}", made(MOST_WEIGHT + step), "TooHeavy"


def main(program):
    failed = False
    for signal, name, request, refusal in cases():
        capture = frame(request)
        ran = subprocess.run([program, "tidy", signal], input=capture, capture_output=True, check=False)
        if refusal is None:
            expected = (0, capture, b"")
        else:
            expected = (1, b"", f"frame 0: request refused: {refusal}\n".encode())
        right = (ran.returncode, ran.stdout, ran.stderr) == expected
        failed |= not right
        print(f"tidy {signal}, {name}: {refusal or 'as it is'}" + ("" if right else f" EXPECTED, status {ran.returncode}"))
    return 1 if failed else 0


if __name__ == "__main__":
    sys.exit(main(sys.argv[1] if len(sys.argv) > 1 else PROGRAM))
