"""Makes Arrow files (Arrow columnar format, "IPC File Format"), as their writers lay them out and as none does.

A file is `ARROW1` and two zero bytes, messages, a footer, the footer's size in four bytes, and `ARROW1`. The footer is a
FlatBuffers table: version, schema, and two vectors of blocks, which say where the dictionaries and the record batches are.
"""

from arrow_batch import Number, Structs, Table, laid_out, message, schema_table

MAGIC = b"ARROW1"
END_OF_STREAM = b"\xff\xff\xff\xff\0\0\0\0"
# The size of the footer and the magic at the end.
TAIL = 10


def schema(columns, version=4):
    return message(1, schema_table(columns), version=version)


def block(place, one):
    """The block of a message at a place: its place, the length of its metadata with what is before them, that of its body."""
    metadata = 8 + int.from_bytes(one[4:8], "little")
    return place % 2**64, metadata, len(one) - metadata


def blocks(first, messages):
    """The blocks of messages that follow each other from a place on, and where they end."""
    found = []
    for one in messages:
        found.append(block(first, one))
        first += len(one)
    return found, first


def footer(columns, dictionaries, batches):
    """A footer as writers lay it out: with its version, the schema, both vectors, and nothing else."""
    return laid_out(Table((Number(2, 4), schema_table(columns), Structs(dictionaries), Structs(batches))))


# The places in a bare footer.
ROOT, OWN_SIZE, DICTIONARIES_SLOT, BATCHES_SLOT, TABLE, TO_DICTIONARIES, TO_BATCHES, DICTIONARIES = 0, 4, 12, 14, 16, 20, 24, 28


def bare_footer(dictionaries, batches):
    """A footer with the two vectors alone, so small that each of its parts has a place of its own above. The batches are at its
    end, and after the dictionaries are four bytes of padding."""
    parts = [number.to_bytes(2, "little") for number in (12, 12, 0, 0, 4, 8)]
    later = DICTIONARIES + 4 + 24 * len(dictionaries) + 4
    for number in (TABLE - OWN_SIZE, DICTIONARIES - TO_DICTIONARIES, later - TO_BATCHES, len(dictionaries)):
        parts.append(number.to_bytes(4, "little"))
    vector = b"".join(number.to_bytes(8, "little") for one in dictionaries for number in one)
    vector += bytes(4) + len(batches).to_bytes(4, "little")
    vector += b"".join(number.to_bytes(8, "little") for one in batches for number in one)
    return bytearray(TABLE.to_bytes(4, "little") + b"".join(parts) + vector)


def put_number(out, place, width, number):
    """The bytes with a number in the place of the one that is there."""
    changed = bytearray(out)
    changed[place : place + width] = (number % 2 ** (8 * width)).to_bytes(width, "little")
    return changed


def closed(content, foot):
    """The file with that content after the magic, and that footer."""
    return MAGIC + b"\0\0" + content + bytes(foot) + len(foot).to_bytes(4, "little") + MAGIC


def written(columns, dictionaries, batches):
    """The file that a writer makes of these messages: the schema, the dictionaries, the batches, an end mark, the footer."""
    first = schema(columns)
    of_dictionaries, place = blocks(8 + len(first), dictionaries)
    of_batches, _ = blocks(place, batches)
    content = first + b"".join(dictionaries) + b"".join(batches) + END_OF_STREAM
    return closed(content, footer(columns, of_dictionaries, of_batches))
