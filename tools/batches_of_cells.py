"""Makes captures of batches that no exporter makes, from the cells of their tables."""

from typing import NamedTuple

from arrow_batch import STRUCT, UTF8, Column, integer, record, rows_message
from at_the_limits import field, frame, varint

PLAIN = b"plain"


class Part(NamedTuple):
    """A payload: the type of its table, how many rows it has, their columns, and dictionary batches. It opens a sub-stream or
    goes on in one; the schema id is the type, where no other one is given."""

    kind: int
    rows: int
    columns: list
    dictionaries: tuple = ()
    opens: bool = True
    schema: bytes | None = None


def bitmap(cells):
    """A bit for each cell, set where it isn't null; nothing where none is."""
    if None not in cells:
        return b""
    bits = sum(1 << place for place, cell in enumerate(cells) if cell is not None)
    return bits.to_bytes((len(cells) + 7) // 8, "little")


def numbers(name, cells, bits=16, coding=None, kind=None):
    """A column of whole numbers, without a sign unless another type is given."""
    data = b"".join(((cell or 0) % 2**bits).to_bytes(bits // 8, "little") for cell in cells)
    return Column(name, kind or integer(bits), [bitmap(cells), data], cells.count(None), coding=coding)


def texts(name, cells, kind=UTF8):
    """A column of texts, or of octets."""
    ends = [0]
    for cell in cells:
        ends.append(ends[-1] + len(cell or b""))
    offsets = b"".join(end.to_bytes(4, "little") for end in ends)
    return Column(name, kind, [bitmap(cells), offsets, b"".join(cell or b"" for cell in cells)], cells.count(None))


def indexed(name, indexes, dictionary, bits=8, kind=UTF8, coding=None):
    """A column with a dictionary, by the indexes of its cells."""
    return numbers(name, indexes, bits, coding, kind)._replace(dictionary=dictionary, width=bits)


def struct(name, *children):
    return Column(name, STRUCT, [b""], children=children)


def attributes(kind, parents, keys, types, values, *more, bits=16, **rest):
    """A table of attributes, whose parents are stored as they are. The values are texts; of other types they are columns."""
    columns = [numbers(b"parent_id", parents, bits, PLAIN), texts(b"key", keys), numbers(b"type", types, 8), texts(b"str", values)]
    return Part(kind, len(parents), [*columns, *more], **rest)


def pairs(kind, *rows, **rest):
    """A table of attributes that are texts: of each its parent, its key and its text."""
    parents, keys, values = ([row[place] for row in rows] for place in range(3))
    return attributes(kind, parents, keys, [1] * len(rows), values, **rest)


def payload(part):
    made = b"".join(part.dictionaries) + rows_message(part.rows, part.columns)
    if part.opens:
        made = record(part.rows, part.columns, part.dictionaries)
    schema = b"%d" % part.kind if part.schema is None else part.schema
    return field(2, field(1, schema) + b"\x10" + varint(part.kind) + field(3, made))


def batch(number, *parts):
    """A frame with a batch of that id."""
    head = b"\x08" + varint(number % 2**64) if number else b""
    return frame(head + b"".join(payload(part) for part in parts))
