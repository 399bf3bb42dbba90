#!/usr/bin/env python3
"""Runs `decode`, `replay` and `filter` on batches of logs that are as large as the profile takes, and on batches one larger.

    tools/largest_batches.py [PROGRAM [REFERENCE...]]

Each batch has as many rows, as many values or bytes in a dictionary, or as much weight as docs/PROFILE.md says, or one
more. The first give the requests and the lines that stand here, the others are refused; of what `filter` writes only its lines
and its status are looked at. REFERENCE, if given, is the command of a reference implementation, which is run with the same
words on the same captures and must give the same.
These captures have up to 256 MiB, so the gate leaves them out. It prints each case, and the status is 1 where one of them
gave another answer.
"""

import subprocess
import sys
from typing import NamedTuple

import batches_of_cells as cells
from arrow_batch import BINARY, STRUCT, UTF8, Column, batch, dictionary, integer, record
from at_the_limits import PROGRAM, field, frame, within

MIB = 1 << 20
MOST_WEIGHT = 1 << 26
MOST_HELD = 1 << 28
MOST_ITEMS = 1_048_576
MOST_VALUES = 65_536
# A resource group, a scope group and a record.
RECORD = 3 * 32
# What a value of a dictionary takes beside its bytes.
VALUE = 8
FILTER = ["filter", "logs", "item", "a", "x"]


class Case(NamedTuple):
    """A name, a batch, and what is expected of it: the request with its items, its row weight and its tree weight, or the
    line of its refusal from the stage on."""

    name: str
    batch: bytes
    request: bytes | None = None
    items: int = 1
    rows: int = 0
    tree: int = 0
    refusal: str | None = None


def numbers(bits, values):
    """The buffers of a column of whole numbers without nulls."""
    return [b"", b"".join(value.to_bytes(bits // 8, "little") for value in values)]


def text(value):
    """The buffers of a column of texts or octets with one row."""
    return [b"", bytes(4) + len(value).to_bytes(4, "little"), value]


def struct(name, *children):
    return Column(name, STRUCT, [b""], children=children)


def records(fields):
    """A request of one group with these records."""
    return within((1, 2), b"".join(field(2, one) for one in fields))


def without_cells(rows):
    """Records whose id is null."""
    return batch((30, record(rows, [Column(b"id", integer(16), [bytes((rows + 7) // 8), bytes(2 * rows)], rows)])))


def body(kind, column):
    return batch((30, record(1, [struct(b"body", Column(b"type", integer(8), numbers(8, [kind])), column)])))


def text_body(size):
    return body(1, Column(b"str", UTF8, text(b"x" * size)))


def array_body(members):
    """An array of empty values, as CBOR with a head of five bytes."""
    return body(6, Column(b"ser", BINARY, text(b"\x9a" + members.to_bytes(4, "big") + b"\xf6" * members)))


def one_text_on(rows):
    """Records whose one severity text, of a MiB, stands in a dictionary."""
    column = Column(b"severity_text", UTF8, [b"", bytes(rows)], dictionary=0)
    return batch((30, record(rows, [column], [dictionary(0, [b"x" * MIB])])))


def many_values(more=()):
    """A record with the text 7 out of as many values as a dictionary may have, and then more."""
    column = Column(b"severity_text", UTF8, numbers(16, [7]), dictionary=0, width=16)
    values = [dictionary(0, [b"%d" % number for number in range(MOST_VALUES)])]
    values += [dictionary(0, list(more), delta=True)] if more else []
    return batch((30, record(1, [column], values)))


def held(size):
    """A record whose column of an unknown name has a dictionary with one value of that many bytes."""
    column = Column(b"zzz", BINARY, [b"", bytes(1)], dictionary=0)
    return batch((30, record(1, [column], [dictionary(0, [bytes(size)])])))


def groups(rows):
    """Records whose resource has a large attribute in each even row, and none in each odd row."""
    ids = Column(b"id", integer(16), [b"\x55" * (rows // 8), bytes(2 * rows)], rows // 2)
    pair = [Column(b"parent_id", integer(16), numbers(16, [0])), Column(b"key", UTF8, text(b"k"))]
    pair += [Column(b"type", integer(8), numbers(8, [1])), Column(b"str", UTF8, text(b"x" * MIB))]
    return batch((30, record(rows, [struct(b"resource", ids)])), (1, record(1, pair)))


def row_cases():
    for rows in (65_536, 65_537, MOST_ITEMS):
        yield Case(f"{rows} rows", without_cells(rows), records([b""] * rows), rows, 32 * rows, 32 * rows + 64)
    yield Case(f"{MOST_ITEMS + 1} rows", without_cells(MOST_ITEMS + 1), refusal="stage 4 TooManyItems payload -")
    severity = records([field(3, b"x" * MIB)] * 63)
    yield Case("a text on 63 rows", one_text_on(63), severity, 63, 66_062_304, 66_062_368)
    yield Case("a text on 64 rows", one_text_on(64), refusal="stage 4 RowsTooHeavy payload -")


def dictionary_cases():
    yield Case("the most values", many_values(), records([field(3, b"7")]), 1, 33, RECORD + 1)
    yield Case("one value more", many_values([b"x"]), refusal="stage 3 DictionarySize payload 30")
    yield Case("the most bytes held", held(MOST_HELD - VALUE), records([b""]), 1, 32, RECORD)
    yield Case("one byte more held", held(MOST_HELD - VALUE + 1), refusal="stage 4 HeldTooMuch payload -")


def weight_cases():
    size = MOST_WEIGHT - RECORD
    said = within((1, 2, 2, 5, 1), b"x" * size)
    yield Case("the most weight, by a text", text_body(size), said, 1, 32 + size, MOST_WEIGHT)
    yield Case("more weight, by a text", text_body(size + 1), refusal="stage 6 TreeTooHeavy payload -")
    yield Case("the most weight of rows", text_body(MOST_WEIGHT - 32), refusal="stage 6 TreeTooHeavy payload -")
    yield Case("more weight of rows", text_body(MOST_WEIGHT - 31), refusal="stage 4 RowsTooHeavy payload -")
    members = size // 32
    said = within((1, 2, 2, 5, 5), field(1, b"") * members)
    yield Case("the most weight, by members", array_body(members), said, 1, 37 + members, MOST_WEIGHT)
    yield Case("more weight, by members", array_body(members + 1), refusal="stage 6 TreeTooHeavy payload -")
    yield Case("one resource in 100 groups of 200", groups(200), refusal="stage 6 TreeTooHeavy payload -")


def expected(case, job):
    """What a job writes, what it says, and its status."""
    if case.refusal:
        return b"", f"frame 0: batch 0 refused: {case.refusal}\n".encode(), 1
    line = f"frame 0: batch 0 accepted items {case.items} rows {case.rows} weight {case.tree}\n"
    return frame(case.request) if job == "decode" else line.encode(), b"", 0


def held_twice(first, second):
    """A batch that holds so many bytes, whose ids fall among the rows that have a = "x"; and one that holds more."""

    def one(kind, size, columns, rows, **rest):
        value = cells.indexed(b"zzz", [0] * rows, 0, kind=BINARY)
        return cells.Part(kind, rows, [*columns, value], (dictionary(0, [bytes(size)]),), **rest)

    ids = [cells.numbers(b"id", [0, 1, 2], coding=cells.PLAIN), struct(b"resource", cells.numbers(b"id", [0, 1, 0], coding=cells.PLAIN))]
    own = cells.pairs(31, *((row, b"a", b"x") for row in range(3)))
    further = one(2, second, [cells.numbers(b"parent_id", [])], 0)
    return cells.batch(0, one(30, first, ids, 3), own) + cells.batch(1, further)


def answer(command, words, capture):
    run = subprocess.run([*command, *words], input=capture, capture_output=True, check=False)
    return run.stdout, run.stderr, run.returncode


def right(case, commands):
    """Whether each command gives what is expected for the batch of a case; prints the case."""
    capture, fine = frame(case.batch), True
    for command in commands:
        given = [job for job in ("decode", "replay") if answer(command, [job, "logs"], capture) != expected(case, job)]
        given += ["filter"] if answer(command, FILTER, capture)[1:] != expected(case, "filter")[1:] else []
        for job in given:
            print(f"ANOTHER ANSWER by {' '.join(command)} {job} logs:", end=" ")
        fine = fine and not given
    print(f"{case.name}: {case.refusal or 'accepted'}", flush=True)
    return fine


def right_after_ids_that_fall(more, commands):
    """Whether what a batch holds counts though it isn't filtered; prints it."""
    capture = held_twice(MOST_HELD - 2 * VALUE - 100, 100 + more)
    said = "frame 0: batch 0 not filtered: ids fall\n"
    said += "frame 1: batch 1 refused: stage 4 HeldTooMuch payload -\n" if more else ""
    fine = all(answer(command, FILTER, capture)[1:] == (said.encode(), 1) for command in commands)
    print(f"{'' if fine else 'ANOTHER ANSWER: '}{'one byte more' if more else 'the most bytes'} held after ids that fall", flush=True)
    return fine


def main(program, reference):
    commands = [[program], reference] if reference else [[program]]
    found = [right(case, commands) for cases in (row_cases, dictionary_cases, weight_cases) for case in cases()]
    found += [right_after_ids_that_fall(more, commands) for more in (0, 1)]
    return 0 if all(found) else 1


if __name__ == "__main__":
    sys.exit(main(sys.argv[1] if len(sys.argv) > 1 else PROGRAM, sys.argv[2:]))
