#!/usr/bin/env python3
"""Runs `encode logs` and `resend logs 1` on requests that are as large as the profile takes, and on requests one larger, and
then `decode logs`, `replay logs` and `schema logs` on the batches.

    tools/largest_requests.py [PROGRAM [REFERENCE...]]

Each request has as many items or as much weight as docs/PROFILE.md allows, or one more; or one attribute has as many
different values, or values of as many bytes, as a form of its column holds, or one more. Those above a limit are
refused; all others come back as they are, with the line and the field that stand in this script. REFERENCE, if given, is
the command of a reference implementation, which is to read the same from the batches that PROGRAM made. These captures
have up to 64 MiB, so the gate leaves them out. It prints each case, and the status is 1 where one of them gave another
answer.
"""

import subprocess
import sys
from typing import NamedTuple

from at_the_limits import PROGRAM, field, frame, items, within

MIB = 1 << 20
MOST_WEIGHT = 1 << 26
MOST_ITEMS = 1_048_576
# A resource group, a scope group and a record.
RECORD = 3 * 32
# An attribute with the key k.
PAIR = 32 + 1


class Case(NamedTuple):
    """A name, a request, and what is expected of it: its items, its row weight and its tree weight, and a field that its
    batch has, or the name of its refusal."""

    name: str
    request: bytes
    items: int = 1
    rows: int = 0
    tree: int = 0
    field: str = "id u16"
    refusal: str | None = None


def body(size):
    """A record with a text of that many bytes."""
    return within((1, 2, 2, 5, 1), b"x" * size)


def under_a_url(size, records):
    """Empty records in one group, whose resource has a schema url."""
    return field(1, field(2, field(2, b"") * records) + field(3, b"u" * size))


def pairs(texts):
    """A record that has an attribute for each text, in the order in which the exporter writes them."""
    return within((1, 2, 2), b"".join(field(6, field(1, b"k") + field(2, field(1, text))) for text in sorted(texts)))


def weight_of(texts):
    return sum(PAIR + len(text) for text in texts)


def item_cases():
    for count, ids in ((65_536, "id u16"), (65_537, "id u32"), (MOST_ITEMS, "id u32")):
        yield Case(f"{count} records", items(count), count, 32 * count, 32 * count + 64, ids)
    yield Case(f"{MOST_ITEMS + 1} records", items(MOST_ITEMS + 1), refusal="TooManyItems")


def weight_cases():
    size = MOST_WEIGHT - RECORD
    yield Case("the most weight, by a text", body(size), 1, 32 + size, MOST_WEIGHT, "body.str utf8")
    yield Case("more weight, by a text", body(size + 1), refusal="TooHeavy")
    yield Case("a url on 63 rows", under_a_url(MIB, 63), 63, 66_062_304, MIB + 64 + 63 * 32, "resource.schema_url utf8 dict u8")
    yield Case("a url on 64 rows", under_a_url(MIB, 64), refusal="TooHeavy")
    yield Case("a url of half the weight on 65536 rows", under_a_url(1 << 25, 65_536), refusal="TooHeavy")


def value_cases():
    for count, form in ((256, "str utf8 dict u8"), (257, "str utf8 dict u16"), (65_536, "str utf8 dict u16"), (65_537, "str utf8")):
        texts = [b"%d" % number for number in range(count)]
        yield Case(f"{count} values", pairs(texts), 1, 32 + weight_of(texts), RECORD + weight_of(texts), form)
    for size, form in ((MIB, "str utf8 dict u8"), (MIB + 1, "str utf8")):
        texts = [b"x" * size]
        yield Case(f"a value of {size} bytes", pairs(texts), 1, 32 + weight_of(texts), RECORD + weight_of(texts), form)


def answer(command, job, capture, *more):
    run = subprocess.run([*command, job, "logs", *more], input=capture, capture_output=True, check=False)
    return run.stdout, run.stderr, run.returncode


def is_read(case, command, batch):
    """Whether a far end reads from the batch what is expected."""
    line = f"frame 0: batch 0 accepted items {case.items} rows {case.rows} weight {case.tree}\n"
    schema, said, status = answer(command, "schema", batch)
    return (
        answer(command, "decode", batch) == (frame(case.request), b"", 0)
        and answer(command, "replay", batch) == (line.encode(), b"", 0)
        and f"\nfield {case.field}\n".encode() in schema
        and (said, status) == (b"", 0)
    )


def right(case, program, reference):
    """Whether both jobs send the request, or refuse it. `resend` says at its end what became of it."""
    made = answer([program], "encode", frame(case.request))
    sent = answer([program], "resend", frame(field(1, case.request)), "1")
    if case.refusal:
        line = f"frame 0: request refused: {case.refusal}\n".encode()
        return made == (b"", line, 1) and sent == (b"", line + b"sent 0 done 0 given up 0 open 0\n", 1)
    ends = [[program], reference] if reference else [[program]]
    fine = made[1:] == (b"", 0) and sent[1:] == (b"sent 1 done 0 given up 0 open 1\n", 0)
    return fine and all(is_read(case, end, batch) for end in ends for batch in {made[0], sent[0]})


def main(program, reference):
    failed = False
    for cases in (item_cases, weight_cases, value_cases):
        for case in cases():
            fine = right(case, program, reference)
            failed |= not fine
            print(f"{case.name}: {case.refusal or case.field}" + ("" if fine else " EXPECTED"), flush=True)
    return 1 if failed else 0


if __name__ == "__main__":
    sys.exit(main(sys.argv[1] if len(sys.argv) > 1 else PROGRAM, sys.argv[2:]))
