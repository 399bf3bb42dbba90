"""Makes batch messages that no exporter makes, from the buffers of their columns.

A record is a schema, its dictionaries and a record batch (Arrow columnar format, "Serialization and Interprocess
Communication"), in metadata that are FlatBuffers tables.
"""

from typing import NamedTuple

from at_the_limits import field, varint


class Number(NamedTuple):
    width: int
    value: int


class Table(NamedTuple):
    """A table by its slots: each a number, a text (bytes), a table, a list of tables, `Structs`, or None where absent."""

    slots: tuple = ()


class Structs(NamedTuple):
    """A vector of structs, each some numbers of eight bytes: two in a node and in a buffer, three in a block of a file."""

    structs: list


class Column(NamedTuple):
    """A field with its array: the number and the table of its type, how many nulls it has, its buffers, and its children.
    With a dictionary the buffers are those of the indexes, of `width` bits. A column of ids may name its coding."""

    name: bytes
    type: tuple
    buffers: list
    nulls: int = 0
    children: tuple = ()
    dictionary: int | None = None
    width: int = 8
    coding: bytes | None = None


def integer(bits):
    """The type of whole numbers of that many bits, without a sign."""
    return 2, Table((Number(4, bits), Number(1, 0)))


BINARY, UTF8, STRUCT = (4, Table()), (5, Table()), (13, Table())


def pad(out, place, step):
    """Zero bytes until the end has that place within the step."""
    out += bytes((place - len(out)) % step)


def put(out, part):
    """Adds a part and then what it refers to; returns its place."""
    if isinstance(part, Table):
        return put_table(out, part.slots)
    pad(out, 4, 8)
    place = len(out)
    out += len(part.structs if isinstance(part, Structs) else part).to_bytes(4, "little")
    if isinstance(part, bytes):
        out += part + b"\0"
    elif isinstance(part, Structs):
        out += b"".join(number.to_bytes(8, "little") for struct in part.structs for number in struct)
    else:
        out += bytes(4 * len(part))
        for index, table in enumerate(part):
            refer(out, place + 4 + 4 * index, put(out, table))
    return place


def put_table(out, slots):
    """Adds a table: its vtable, then a cell of eight bytes for each slot, then what the cells refer to."""
    pad(out, 0, 8)
    vtable = len(out)
    places = [4 + 8 * index if slot is not None else 0 for index, slot in enumerate(slots)]
    for number in (4 + 2 * len(slots), 4 + 8 * len(slots), *places):
        out += number.to_bytes(2, "little")
    pad(out, 4, 8)
    place = len(out)
    out += (place - vtable).to_bytes(4, "little") + bytes(8 * len(slots))
    for index, slot in enumerate(slots):
        cell = place + 4 + 8 * index
        if isinstance(slot, Number):
            out[cell : cell + slot.width] = slot.value.to_bytes(slot.width, "little")
        elif slot is not None:
            refer(out, cell, put(out, slot))
    return place


def refer(out, cell, place):
    out[cell : cell + 4] = (place - cell).to_bytes(4, "little")


def laid_out(table):
    """A table with all that it refers to, and before it the place where it begins."""
    out = bytearray(4)
    refer(out, 0, put(out, table))
    pad(out, 0, 8)
    return out


def message(kind, header, buffers=(), version=4):
    """A message with its header and the buffers of its body."""
    body = b"".join(buffer + bytes(-len(buffer) % 8) for buffer in buffers)
    metadata = laid_out(Table((Number(2, version), Number(1, kind), header, Number(8, len(body)))))
    return b"\xff" * 4 + len(metadata).to_bytes(4, "little") + bytes(metadata) + body


def schema_field(column):
    number, table = column.type
    index = None if column.dictionary is None else Table((Number(8, column.dictionary), integer(column.width)[1]))
    slots = (column.name, Number(1, 1), Number(1, number), table, index, [schema_field(c) for c in column.children])
    return Table(slots if column.coding is None else (*slots, [Table((b"encoding", column.coding))]))


def depth_first(columns):
    for column in columns:
        yield column
        yield from depth_first(column.children)


def rows_of(rows, arrays):
    """The header of a record batch, and its buffers: of each array its nulls and its buffers."""
    buffers = [buffer for _, own in arrays for buffer in own]
    places, place = [], 0
    for buffer in buffers:
        places.append((place, len(buffer)))
        place += len(buffer) + -len(buffer) % 8
    return Table((Number(8, rows), Structs([(rows, nulls) for nulls, _ in arrays]), Structs(places))), buffers


def dictionary(number, values, delta=False):
    """A dictionary batch of texts or octets."""
    ends, place = [0], 0
    for value in values:
        place += len(value)
        ends.append(place)
    offsets = b"".join(end.to_bytes(4, "little") for end in ends)
    header, buffers = rows_of(len(values), [(0, [b"", offsets, b"".join(values)])])
    return message(2, Table((Number(8, number), header, Number(1, delta))), buffers)


def schema_table(columns):
    return Table((None, [schema_field(column) for column in columns]))


def rows_message(rows, columns):
    header, buffers = rows_of(rows, [(column.nulls, column.buffers) for column in depth_first(columns)])
    return message(3, header, buffers)


def record(rows, columns, dictionaries=()):
    """A record that opens a sub-stream: its schema, the dictionary batches given, and its rows."""
    return message(1, schema_table(columns)) + b"".join(dictionaries) + rows_message(rows, columns)


def batch(*payloads):
    """A batch message with the number 0: of each payload its type and its record, which opens the schema of its place."""
    parts = (field(1, b"%d" % place) + b"\x10" + varint(kind) + field(3, made) for place, (kind, made) in enumerate(payloads))
    return b"".join(field(2, part) for part in parts)
