#!/usr/bin/env python3
"""Reads Arrow files as strict readers do, and says what such a reader wouldn't like (Arrow columnar format, "IPC File
Format"). It shares nothing with what writes them.

    tools/read_arrow_file.py FILE...

What is wanted: the magic at both ends; the Schema message at place 8, then the dictionaries and the record batches without
gaps, the end mark of a stream, and the footer; all metadata laid out as the verifiers of FlatBuffers want it, and padded to
multiples of 8; version V5 in each message and in the footer; the footer's schema that of the Schema message, and both of its
vectors there, whose blocks have the places and lengths of the messages; bodies, buffers and all that blocks say at multiples
of 8; and in each record batch the nodes and buffers of the schema. It prints the first problem of each file, and how many
batches and rows a file without one has."""

import sys

END_OF_STREAM = b"\xff\xff\xff\xff\0\0\0\0"
V5 = 4
# A slot is a number of some width, with or without a sign, or one of these.
TEXT, STRUCTS, TABLE, TABLES = "text", "structs", "table", "tables"
KEY_VALUE = {0: (TEXT,), 1: (TEXT,)}
INT = {0: 4, 1: 1}
TYPES = {2: INT, 3: {0: 2}, 4: {}, 5: {}, 6: {}, 10: {0: 2, 1: (TEXT,)}, 12: {}, 13: {}, 15: {0: 4}, 18: {0: 2}}
DICTIONARY = {0: 8, 1: (TABLE, INT), 2: 1, 3: 2}
FIELD = {0: (TEXT,), 1: 1, 2: 1, 3: (TABLE, TYPES, 2), 4: (TABLE, DICTIONARY), 6: (TABLES, KEY_VALUE)}
FIELD[5] = (TABLES, FIELD)
SCHEMA = {0: 2, 1: (TABLES, FIELD), 2: (TABLES, KEY_VALUE)}
BATCH = {0: 8, 1: (STRUCTS, 16), 2: (STRUCTS, 16)}
MESSAGE = {0: 2, 1: 1, 2: (TABLE, {1: SCHEMA, 2: {0: 8, 1: (TABLE, BATCH), 2: 1}, 3: BATCH}, 1), 3: 8, 4: (TABLES, KEY_VALUE)}
FOOTER = {0: 2, 1: (TABLE, SCHEMA), 2: (STRUCTS, 24), 3: (STRUCTS, 24), 4: (TABLES, KEY_VALUE)}
# How many buffers an array of a type has, its bitmap among them.
BUFFERS = {4: 3, 5: 3, 12: 2, 13: 1}


class Wrong(Exception):
    """What a reader wouldn't like."""


def want(holds, what):
    if not holds:
        raise Wrong(what)


class Flat:
    """Metadata of FlatBuffers, read with all checks of a verifier."""

    def __init__(self, data):
        self.data = data

    def number(self, place, width, signed=False):
        want(place >= 0 and place + width <= len(self.data), f"metadata: a number at {place} is out of range")
        want(place % width == 0, f"metadata: a number of {width} bytes at {place}")
        return int.from_bytes(self.data[place : place + width], "little", signed=signed)

    def follow(self, place):
        return place + self.number(place, 4)

    def table(self, place, slots):
        """The parts of a table by their slots, those that are there; other slots aren't allowed."""
        vtable = place - self.number(place, 4, signed=True)
        size, whole = self.number(vtable, 2), self.number(vtable + 2, 2)
        want(size >= 4 and size % 2 == 0 and vtable + size <= len(self.data), f"metadata: a vtable at {vtable}")
        want(place + whole <= len(self.data), f"metadata: a table at {place}")
        found = {}
        for slot in range((size - 4) // 2):
            distance = self.number(vtable + 4 + 2 * slot, 2)
            if distance:
                want(slot in slots, f"metadata: the slot {slot} of a table isn't known")
                kind = slots[slot]
                width = kind if isinstance(kind, int) else 4
                want(distance >= 4 and distance + width <= whole, f"metadata: a slot past its table at {place}")
                found[slot] = self.part(place + distance, kind, found)
        return found

    def part(self, place, kind, before):
        if isinstance(kind, int):
            return self.number(place, kind, signed=True)
        place = self.follow(place)
        if kind[0] == TABLE:
            slots = kind[1]
            if len(kind) == 3:
                want(before.get(kind[2]) in slots, f"metadata: a union of the unknown kind {before.get(kind[2])}")
                slots = slots[before[kind[2]]]
            return self.table(place, slots)
        count = self.number(place, 4)
        width = {TEXT: 1, TABLES: 4}.get(kind[0]) or kind[1]
        want(place + 4 + count * width <= len(self.data), f"metadata: a vector at {place} is out of range")
        if kind[0] == TEXT:
            want(self.data[place + 4 + count : place + 5 + count] == b"\0", f"metadata: a text at {place} has no zero behind it")
            return bytes(self.data[place + 4 : place + 4 + count])
        if kind[0] == TABLES:
            return [self.table(self.follow(place + 4 + 4 * n), kind[1]) for n in range(count)]
        want(count == 0 or (place + 4) % 8 == 0, f"metadata: the first element of a vector at {place + 4}")
        return [[self.number(place + 4 + n * width + k, 8, signed=True) for k in range(0, width, 8)] for n in range(count)]


def root(data, slots):
    flat = Flat(data)
    return flat.table(flat.follow(0), slots)


def message(data, place):
    """The message at a place: its parts, the length of its metadata with what is before them, and of its body."""
    want(data[place : place + 4] == b"\xff" * 4, f"no message at {place}")
    size = int.from_bytes(data[place + 4 : place + 8], "little")
    want(size > 0 and size % 8 == 0, f"metadata of {size} bytes at {place}")
    want(place + 8 + size <= len(data), f"metadata past the file at {place}")
    parts = root(data[place + 8 : place + 8 + size], MESSAGE)
    body = parts.get(3, 0)
    want(parts.get(0) == V5, f"version {parts.get(0)} at {place}")
    want(body >= 0 and body % 8 == 0 and place + 8 + size + body <= len(data), f"a body of {body} bytes at {place}")
    return parts, 8 + size, body


def arrays(fields):
    """The fields of a schema in the order of their arrays."""
    for field in fields:
        yield field
        yield from arrays(field.get(5, []))


def check_batch(batch, body, fields):
    nodes, buffers = batch.get(1, []), batch.get(2, [])
    each = [2 if 4 in field else BUFFERS.get(field[2], 2) for field in fields]
    want(len(nodes) == len(fields), f"{len(nodes)} nodes for {len(fields)} fields")
    want(len(buffers) == sum(each), f"{len(buffers)} buffers, not {sum(each)}")
    end = 0
    for place, length in buffers:
        want(place % 8 == 0 and length >= 0 and end <= place and place + length <= body, f"a buffer of {length} bytes at {place}")
        end = place + length
    for length, nulls in nodes:
        want(0 <= nulls <= length, f"a node of {length} rows with {nulls} nulls")


def blocks(found, what):
    """The blocks of a vector of the footer: places, and the lengths of metadata and bodies."""
    want(found is not None, f"the footer has no {what}")
    for place, metadata, body in found:
        want(place % 8 == metadata % 8 == body % 8 == 0, f"{what}: a block {place}, {metadata}, {body}")
    return found


def read(data):
    """The number of batches and rows of a file; `Wrong` where a reader wouldn't like it."""
    want(data[:8] == b"ARROW1\0\0" and data[-6:] == b"ARROW1", "no magic")
    size = int.from_bytes(data[-10:-6], "little", signed=True)
    want(0 < size <= len(data) - 18, f"a footer of {size} bytes")
    begins = len(data) - 10 - size
    want(begins % 8 == 0, f"the footer begins at {begins}")
    want(data[begins - 8 : begins] == END_OF_STREAM, "no end mark before the footer")
    footer = root(data[begins:-10], FOOTER)
    want(footer.get(0) == V5, f"version {footer.get(0)} in the footer")
    first, metadata, body = message(data, 8)
    want(first.get(1) == 1, "no schema at 8")
    want(footer.get(1) == first[2], "the footer has another schema")
    fields, place, rows = list(arrays(first[2].get(1, []))), 8 + metadata + body, 0
    for kind, what in ((2, "dictionaries"), (3, "record batches")):
        for block in blocks(footer.get(kind), what):
            parts, metadata, body = message(data, place)
            want(parts.get(1) == kind and block == [place, metadata, body], f"{what}: a block {block}, but {[place, metadata, body]}")
            if kind == 3:
                check_batch(parts[2], body, fields)
                rows += parts[2].get(0, 0)
            place += metadata + body
    want(place == begins - 8, f"{begins - 8 - place} bytes between the last message and the end mark")
    return len(footer[3]), rows


def problems(data):
    """What is wrong with a file: nothing, or the first that is found."""
    try:
        read(data)
    except Wrong as wrong:
        return [str(wrong)]
    return []


def main(paths):
    wrong = 0
    for path in paths:
        with open(path, "rb") as file:
            data = file.read()
        found = problems(data)
        wrong += len(found)
        print(f"{path}: {found[0]}" if found else "%s: %d batches, %d rows" % (path, *read(data)))
    return 1 if wrong else 0


if __name__ == "__main__":
    sys.exit(main(sys.argv[1:]))
