#!/usr/bin/env python3
"""Writes the Arrow files of examples/cases/unfile-*: each defect alone, and beside it the nearest file that has none; and
what other writers may do.

    tools/arrow_file_cases.py [FOLDER]

The folder is examples/cases, or else FOLDER. The answers that lie beside the files are no work of this script: an
independent program made them. The examples are kept as they are, so this is run by hand, where a file is added."""

import os
import sys

from arrow_batch import UTF8, Column, Number, Table, dictionary, integer, message, rows_message, rows_of
from arrow_file import (
    BATCHES_SLOT,
    DICTIONARIES,
    DICTIONARIES_SLOT,
    END_OF_STREAM,
    MAGIC,
    OWN_SIZE,
    ROOT,
    TABLE,
    TAIL,
    TO_BATCHES,
    TO_DICTIONARIES,
    bare_footer,
    block,
    blocks,
    closed,
    footer,
    put_number,
    schema,
    written,
)

TOP = os.path.dirname(os.path.dirname(os.path.abspath(__file__)))


def ids(numbers):
    """A column of ids of 16 bits."""
    return Column(b"id", integer(16), [b"", b"".join(number.to_bytes(2, "little") for number in numbers)])


def batch(*numbers):
    """A record batch of ids."""
    return rows_message(len(numbers), [ids(numbers)])


SCHEMA = schema([ids([])])
FIRST, SECOND = batch(0), batch(5, 1)
# Where the first message after the schema is.
AFTER = 8 + len(SCHEMA)

SEVERITY = Column(b"severity_text", UTF8, [], dictionary=3)
WITH_TEXTS = [ids([]), SEVERITY]


def texts(*indexes):
    """A record batch of ids and texts, by the indexes of these."""
    return rows_message(len(indexes), [ids([0] + [1] * (len(indexes) - 1)), SEVERITY._replace(buffers=[b"", bytes(indexes)])])


INFO = dictionary(3, [b"INFO", b"WARN"])
ERROR = dictionary(3, [b"ERROR"], delta=True)


def laid(messages, dictionaries, batches, first=SCHEMA):
    """A file of the schema and these messages, and a bare footer with the blocks of the two kinds."""
    return closed(first + b"".join(messages), bare_footer(dictionaries, batches))


PLAIN = laid([FIRST, SECOND], [], blocks(AFTER, [FIRST, SECOND])[0])


def with_footer(change):
    """The plain file, but for its footer."""
    return closed(SCHEMA + FIRST + SECOND, change(bare_footer([], blocks(AFTER, [FIRST, SECOND])[0])))


def number_in_footer(place, width, number):
    return with_footer(lambda foot: put_number(foot, place, width, number))


def with_number(place, width, number):
    """The plain file, but for one number; a place below 0 counts from the end."""
    return bytes(put_number(PLAIN, place % len(PLAIN), width, number))


def at(*places):
    """A file whose batches are said to be at these places."""
    return laid([FIRST, SECOND], [], [(place % 2**64, 0, 0) for place in places])


def magics():
    short = MAGIC + b"\0\0" + MAGIC
    yield "refuses_no_bytes", b""
    yield "refuses_a_capture", bytes.fromhex("00 00 00 00 02 08 07")
    yield "refuses_17_bytes", short[:8] + bytes(3) + MAGIC
    yield "refuses_18_bytes", short[:8] + bytes(4) + MAGIC
    yield "refuses_18_bytes_and_a_size_below_0", short[:8] + bytes([255] * 4) + MAGIC
    yield "refuses_the_first_byte", b"a" + PLAIN[1:]
    yield "refuses_the_byte_after_the_magic", PLAIN[:6] + b"\1" + PLAIN[7:]
    yield "refuses_the_second_byte_after_the_magic", PLAIN[:7] + b"\1" + PLAIN[8:]
    yield "refuses_the_last_byte", PLAIN[:-1] + b"2"
    yield "refuses_a_byte_behind_the_file", PLAIN + b"\n"
    yield "refuses_a_stream", PLAIN[8 : AFTER + len(FIRST)] + END_OF_STREAM
    yield "refuses_half_of_a_file", PLAIN[: len(PLAIN) // 2]
    yield "reads_two_batches", PLAIN


def around():
    """A file whose footer begins at the size of the schema's metadata. That is so the place of the footer's table: the last four
    bytes of the metadata, and what follows them."""
    first = put_number(SCHEMA + bytes(8), 4, 4, len(SCHEMA))
    # Behind the schema: the table's slot of the batches, its vtable, and the vector that the slot leads to, with its count.
    first = put_number(first, len(first) - 4, 4, -8)
    vtable = b"".join(number.to_bytes(2, "little") for number in (12, 8, 0, 0, 0, 4))
    batch_at = 8 + len(first) + 4 + len(vtable) + 4 + 24
    vector = (1).to_bytes(4, "little") + b"".join(number.to_bytes(8, "little") for number in block(batch_at, FIRST))
    content = bytes(first) + (4 + len(vtable)).to_bytes(4, "little") + vtable + vector + FIRST
    return MAGIC + b"\0\0" + content + (len(content) - 4).to_bytes(4, "little") + MAGIC


def footers():
    size = len(bare_footer([], [(0, 0, 0)] * 2))
    yield "refuses_a_size_below_0", with_number(-TAIL, 4, -1)
    yield "refuses_the_least_size", with_number(-TAIL, 4, -(2**31))
    yield "refuses_a_size_past_the_magic", with_number(-TAIL, 4, len(PLAIN) - 17)
    yield "refuses_the_greatest_size", with_number(-TAIL, 4, 2**31 - 1)
    yield "refuses_a_size_up_to_the_magic", with_number(-TAIL, 4, len(PLAIN) - 18)
    yield "reads_a_footer_around_all", around()
    yield "refuses_a_footer_of_no_bytes", with_footer(lambda foot: b"")
    yield "refuses_a_footer_of_3_bytes", with_footer(lambda foot: bytes(3))
    yield "refuses_a_root_past_the_footer", number_in_footer(ROOT, 4, size - 3)
    yield "refuses_the_greatest_root", number_in_footer(ROOT, 4, 2**32 - 1)
    last = b"\x08\0\0\0" + b"\x04\0\x04\0" + (4).to_bytes(4, "little")
    yield "reads_a_table_at_the_footers_end", with_footer(lambda foot: last)
    yield "refuses_a_vtable_before_the_footer", number_in_footer(TABLE, 4, TABLE + 2)
    yield "refuses_a_vtable_behind_the_footer", number_in_footer(TABLE, 4, TABLE - size)
    yield "refuses_a_vtable_of_2_bytes", number_in_footer(OWN_SIZE, 2, 2)
    yield "refuses_a_vtable_of_11_bytes", number_in_footer(OWN_SIZE, 2, 11)
    yield "refuses_a_vtable_past_the_footer", number_in_footer(OWN_SIZE, 2, size - OWN_SIZE + 2)
    yield "reads_a_vtable_up_to_the_footers_end", number_in_footer(OWN_SIZE, 2, size - OWN_SIZE)
    yield "reads_no_slots", number_in_footer(OWN_SIZE, 2, 4)
    yield "reads_no_slot_of_batches", number_in_footer(OWN_SIZE, 2, 10)
    yield "reads_a_slot_of_batches_that_is_0", number_in_footer(BATCHES_SLOT, 2, 0)
    yield "reads_no_batches", laid([FIRST], [], [])
    yield "refuses_a_slot_past_the_footer", number_in_footer(BATCHES_SLOT, 2, size - TABLE - 3)
    yield "refuses_a_slot_of_dictionaries_past_the_footer", number_in_footer(DICTIONARIES_SLOT, 2, size - TABLE - 3)
    yield "refuses_batches_behind_the_footer", number_in_footer(TO_BATCHES, 4, size - TO_BATCHES - 3)
    yield "refuses_dictionaries_behind_the_footer", number_in_footer(TO_DICTIONARIES, 4, size - TO_DICTIONARIES - 3)
    count = size - 48 - 4
    yield "refuses_a_batch_past_the_footer", number_in_footer(count, 4, 3)
    yield "refuses_the_greatest_count", number_in_footer(count, 4, 2**32 - 1)
    # 24 times this count is 48 modulo 2^32.
    yield "refuses_a_count_that_wraps", number_in_footer(count, 4, 2**29 + 2)
    yield "refuses_a_dictionary_past_the_footer", number_in_footer(DICTIONARIES, 4, 3)
    yield "refuses_a_block_that_is_cut", with_footer(lambda foot: foot[:-1])


def schemas():
    yield "refuses_a_footer_before_a_schema", with_footer(lambda foot: foot[:-1])[:8] + b"\0" + with_footer(lambda foot: foot[:-1])[9:]
    yield "refuses_a_schema_without_its_mark", with_number(8, 1, 0xFE)
    yield "refuses_a_schema_at_16", laid([SCHEMA, FIRST], [], [block(16 + len(SCHEMA), FIRST)], bytes(8))
    yield "refuses_rows_for_a_schema", laid([SCHEMA], [], [], FIRST)
    yield "refuses_a_dictionary_for_a_schema", laid([SCHEMA], [], [], INFO)
    yield "refuses_a_schema_past_the_file", with_number(12, 4, len(PLAIN) - 15)
    for version, name in ((2, "refuses_a_schema_of_version_3"), (3, "reads_version_4"), (5, "refuses_a_schema_of_version_6")):
        first = schema([ids([])], version=version)
        yield name, laid([FIRST], [], [block(8 + len(first), FIRST)], first)
    for name, column in (
        ("refuses_indexes_of_32_bits", Column(b"x", UTF8, [], dictionary=0, width=32)),
        ("refuses_microseconds", Column(b"x", (10, Table((Number(2, 2),))), [])),
        ("refuses_large_texts", Column(b"x", (20, Table()), [])),
        ("refuses_view_texts", Column(b"x", (24, Table()), [])),
        ("refuses_dates", Column(b"x", (8, Table()), [])),
        ("refuses_nulls", Column(b"x", (1, Table()), [])),
    ):
        first = schema([column])
        yield name, laid([], [], [], first)
    wrong = put_number(laid([FIRST], [], [(2**63, 0, 0)]), 8, 1, 0)
    yield "refuses_a_schema_before_its_blocks", bytes(wrong)
    yield "reads_a_column_that_nobody_knows", written([Column(b"x", UTF8, [])], [], [rows_message(1, [Column(b"x", UTF8, [b"", b"\0\0\0\0\1\0\0\0", b"a"])])])


def number_at(out, place, width):
    return int.from_bytes(out[place : place + width], "little")


def with_body(one, more):
    """A message that says its body has more bytes than it has; these are what follows it."""
    table = 8 + number_at(one, 8, 4)
    place = table + number_at(one, table - number_at(one, table, 4) + 4 + 2 * 3, 2)
    return bytes(put_number(one, place, 8, number_at(one, place, 8) + more))


def compressed(numbers):
    header, buffers = rows_of(len(numbers), [(0, ids(numbers).buffers)])
    return message(3, Table((*header.slots, Table())), buffers)


def batches():
    end = len(at(AFTER))
    second = AFTER + len(FIRST)
    yield "refuses_a_block_below_0", at(-1)
    yield "refuses_the_least_block", at(-(2**63))
    yield "refuses_a_block_at_0", at(0)
    yield "refuses_a_block_at_the_schema", at(8)
    yield "refuses_a_block_a_byte_early", at(AFTER - 1)
    yield "refuses_a_block_a_byte_late", at(AFTER + 1)
    yield "refuses_a_block_at_the_footer", at(second + len(SECOND))
    yield "refuses_a_block_at_the_end", at(end)
    yield "refuses_a_block_past_the_end", at(end + 1)
    yield "refuses_a_block_2_32_late", at(AFTER + 2**32)
    yield "refuses_blocks_that_fall", at(second, AFTER)
    yield "refuses_a_block_twice", at(AFTER, AFTER)
    yield "refuses_the_second_block", at(AFTER, second + 8)
    yield "reads_blocks_with_a_gap", laid([FIRST, b"xyz", SECOND], [], [block(AFTER, FIRST), block(second + 3, SECOND)])
    yield "reads_the_second_batch_alone", at(second)
    other = [(AFTER, 2**32 - 1, 2**64 - 1), (second, 0, 0)]
    yield "reads_other_lengths_in_blocks", laid([FIRST, SECOND], [], other)
    # The first batch has the second one in its body: at the body's end the second begins one byte too early, or not.
    for name, more in (("refuses_batches_that_overlap", 1), ("reads_a_body_up_to_the_next_batch", 0)):
        wide = with_body(FIRST, 8 + more)
        yield name, laid([wide, bytes(8), SECOND], [], [block(AFTER, wide), block(AFTER + len(wide) + 8, SECOND)])
    # A schema with a body, which has the first batch.
    for name, more in (("refuses_a_batch_in_the_schemas_body", 1), ("reads_a_schema_with_a_body", 0)):
        first = with_body(SCHEMA, 8 + more)
        yield name, laid([bytes(8), FIRST], [], [block(8 + len(first) + 8, FIRST)], first)
    whole = laid([FIRST], [], [block(AFTER, FIRST)])
    for name, more in (("refuses_a_body_past_the_file", 1), ("reads_a_body_up_to_the_files_end", 0)):
        wide = with_body(FIRST, len(whole) - AFTER - len(FIRST) + more)
        yield name, laid([wide], [], [block(AFTER, wide)])
    yield "refuses_compressed_rows", laid([compressed([0])], [], [block(AFTER, compressed([0]))])
    header, buffers = rows_of(1, [(0, ids([0]).buffers)])
    old = message(3, header, buffers, version=2)
    yield "refuses_rows_of_version_3", laid([old], [], [block(AFTER, old)])
    yield "reads_no_rows", laid([batch()], [], [block(AFTER, batch())])
    many = [batch(number) for number in range(130)]
    yield "reads_130_batches", laid(many, [], blocks(AFTER, many)[0])


def dictionaries():
    first = schema(WITH_TEXTS)
    after = 8 + len(first)

    def of(messages, given, rows):
        return laid(messages, given, rows, first)

    def in_turn(given, rows):
        of_given, place = blocks(after, given)
        return of([*given, *rows], of_given, blocks(place, rows)[0])

    yield "reads_a_dictionary_and_its_delta", in_turn([INFO, ERROR], [texts(1, 0), texts(2, 2, 1)])
    yield "reads_two_whole_dictionaries_of_one_id", in_turn([INFO, dictionary(3, [b"A", b"B"])], [texts(1, 0)])
    yield "reads_a_delta_alone", in_turn([ERROR], [texts(0)])
    yield "reads_dictionaries_and_no_batches", in_turn([INFO], [])
    yield "reads_dictionaries_behind_the_batches", of([texts(1), INFO], [block(after + len(texts(1)), INFO)], [block(after, texts(1))])
    yield "refuses_rows_for_a_dictionary", of([INFO, texts(1)], [block(after + len(INFO), texts(1))], [])
    yield "refuses_a_dictionary_for_rows", of([INFO, texts(1)], [], [block(after, INFO)])
    yield "refuses_dictionaries_that_fall", of([INFO, ERROR, texts(1)], blocks(after, [INFO, ERROR])[0][::-1], [])
    yield "refuses_a_dictionary_twice", of([INFO, texts(1)], [block(after, INFO)] * 2, [])
    yield "refuses_a_dictionary_at_the_schema", of([INFO, texts(1)], [block(8, first)], [])
    yield "refuses_a_dictionary_below_0", of([INFO, texts(1)], [(2**64 - 1, 0, 0)], [])
    wide = with_body(INFO, len(texts(1)))
    yield "reads_rows_inside_a_dictionary", of([wide, texts(1)], [block(after, wide)], [block(after + len(wide), texts(1))])
    yield "reads_an_index_past_its_dictionary", in_turn([INFO], [texts(2)])


def of_writers():
    yield "reads_a_written_file", written([ids([])], [], [FIRST, SECOND])
    yield "reads_a_written_file_of_texts", written(WITH_TEXTS, [INFO, ERROR], [texts(1, 0), texts(2)])
    yield "reads_a_written_file_of_no_batches", written([ids([])], [], [])


def histograms():
    """Two points with lists: none and two buckets, and a bound each."""

    def lists(name, bits_or_double, ends, values):
        offsets = b"".join(end.to_bytes(4, "little") for end in ends)
        return Column(name, (12, Table()), [b"", offsets], children=(Column(b"item", bits_or_double, [b"", values]),))

    double = 3, Table((Number(2, 2),))
    columns = [
        Column(b"id", integer(32), [b"", (0).to_bytes(4, "little") + (1).to_bytes(4, "little")]),
        lists(b"bucket_counts", integer(64), (0, 0, 2), (7).to_bytes(8, "little") + (9).to_bytes(8, "little")),
        lists(b"explicit_bounds", double, (0, 1, 2), bytes.fromhex("00 00 00 00 00 00 f0 3f 00 00 00 00 00 00 00 40")),
    ]
    yield "reads_points_with_lists", written(columns, [], [rows_message(2, columns)])


CASES = {
    "unfile-logs-30": (magics, footers, schemas, batches, dictionaries, of_writers),
    "unfile-metrics-13": (histograms,),
}


def main(folder):
    for name, kinds in CASES.items():
        os.makedirs(os.path.join(folder, name), exist_ok=True)
        for kind in kinds:
            for case, whole in kind():
                with open(os.path.join(folder, name, case + ".arrow"), "wb") as file:
                    file.write(whole)


main(sys.argv[1] if len(sys.argv) > 1 else os.path.join(TOP, "examples", "cases"))
