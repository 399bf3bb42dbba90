#!/usr/bin/env python3
"""Writes the captures of examples/filters: batches that no exporter makes, for the job `filter`.

    tools/filter_cases.py [FOLDER]

The folder is examples/filters, or else FOLDER. The steps and the answers that lie beside the captures are no work of this
script: an independent program made the answers. The examples are kept as they are, so this is run by hand, where a capture
is added."""

import os
import sys

from arrow_batch import BINARY, Number, Table, dictionary, integer, message, rows_of
from at_the_limits import field, frame, within
from batches_of_cells import PLAIN, Part, attributes, batch, indexed, numbers, pairs, struct, texts
from small_runs import PACKED, RESET

TOP = os.path.dirname(os.path.dirname(os.path.abspath(__file__)))
SIGNED = 2, Table((Number(4, 64), Number(1, 1)))
TIME = 10, Table((Number(2, 3),))
SPANS, RECORDS, METRICS = 40, 30, 10
RESOURCE_PAIRS, SCOPE_PAIRS, RECORD_PAIRS, SPAN_PAIRS = 1, 2, 31, 41


def resources(ids, *more, coding=PLAIN, bits=16):
    return struct(b"resource", numbers(b"id", ids, bits, coding), *more)


def scopes(ids, *more, coding=PLAIN, bits=16):
    return struct(b"scope", numbers(b"id", ids, bits, coding), *more)


def named(*values):
    """A column of log records by which the rows of a case are told apart."""
    return texts(b"event_name", list(values))


def records(ids, *columns, bits=16, kind=RECORDS, **rest):
    """A main table, whose ids are stored as they are."""
    return Part(kind, len(ids), [numbers(b"id", ids, bits, PLAIN), *columns], **rest)


def with_x(*parents, **rest):
    """The pair a = "x" of these records."""
    return pairs(RECORD_PAIRS, *((parent, b"a", b"x") for parent in parents), **rest)


def request(*items):
    """Logs of one group; the records have these pairs of texts."""
    return within((1, 2), b"".join(field(2, b"".join(pair(*one) for one in item)) for item in items))


def pair(key, value):
    return field(6, field(1, key) + field(2, field(1, value)))


def rows_of_a_resource():
    rows = Part(RECORDS, 3, [numbers(b"id", [0, 1, 1]), resources([0, None, 0], coding=None)])
    return batch(0, rows, pairs(RESOURCE_PAIRS, (0, b"k", b"t")))


def ids_fall():
    rows = Part(RECORDS, 3, [numbers(b"id", [0, 1, 1]), resources([0, 1, 0])])
    return batch(7, rows, with_x(0, 1, 2))


def null_ids():
    rows = records([None, 3, None], resources([0, 0, 0]), named(b"first", b"second", b"third"))
    return batch(0, rows, pairs(RESOURCE_PAIRS, (0, b"k", b"t")), pairs(RECORD_PAIRS, (3, b"n", b"of the second")))


def null_between_one_resource():
    rows = Part(RECORDS, 3, [numbers(b"id", [0, 1, 1]), resources([4, None, 0], coding=None), named(b"first", b"second", b"third")])
    return batch(0, rows, pairs(RESOURCE_PAIRS, (4, b"k", b"t")), with_x(0, 1, 2))


# Ids as they are stored, and the rows that are kept.
ORDERS = (
    ([5, 2, 5], (0, 2)),
    ([5, 2], (0, 1)),
    ([5, 2, 5], (0, 1, 2)),
    ([None, 5, None, 2, None], (0, 1, 2, 3, 4)),
    ([5, None, 2, None, 5], (0, 1, 2, 3, 4)),
    ([2, 2, 5, 5, 9], (0, 1, 2, 3, 4)),
    ([9, 5, 9, 2, 5, 5], (1, 3)),
    ([9, 5, 9, 2, 5, 5], (0, 2, 4, 5)),
    ([9, 5, 9, 2, 5, 5], (1, 3, 4)),
)


def plain_resource_ids():
    made = b""
    for number, (ids, kept) in enumerate(ORDERS):
        of = sorted({one for one in ids if one is not None})
        own = [(one, b"k", b"t") for one in of] + [(one, b"j", b"of %d" % one) for one in of]
        rows = records(list(range(len(ids))), resources(ids), opens=number == 0)
        made += batch(number, rows, pairs(RESOURCE_PAIRS, *own, opens=number == 0), with_x(*kept, opens=number == 0))
    return made


def plain_scope_ids():
    made = b""
    for number, (ids, kept) in enumerate(ORDERS):
        of = sorted({one for one in ids if one is not None})
        rows = records(list(range(len(ids))), scopes(ids), opens=number == 0)
        own = pairs(SCOPE_PAIRS, *((one, b"k", b"t") for one in of), opens=number == 0)
        made += batch(number, rows, own, with_x(*kept, opens=number == 0))
    return made


def plain_ids_of_metrics():
    """In the first batch two metrics of three are kept, in the second all three."""

    def of(number, kept):
        kinds = numbers(b"metric_type", [1, 2, 1], 8)
        metrics = records([8, 3, 6], resources([5, 2, 5]), kinds, kind=METRICS, opens=number == 0)
        points = [numbers(b"id", [2, 9, 4], 32, PLAIN), numbers(b"parent_id", [6, 3, 8], 16, PLAIN)]
        points += [numbers(b"int_value", [66, 33, 88], 64, kind=SIGNED)]
        own = pairs(15, (4, b"p", b"of 8"), (9, b"p", b"of 3"), (2, b"p", b"of 6"), bits=32, opens=number == 0)
        parts = pairs(RESOURCE_PAIRS, *((one, b"k", b"t") for one in kept), opens=number == 0)
        return batch(number, metrics, parts, Part(11, 3, points, opens=number == 0), own)

    return of(0, [5]) + of(1, [2, 5])


def whose_pairs():
    """The pair a = "x" of a resource, of a scope, of a record, and of none; and others beside it."""
    rows = records([0, 1, 2, 3], resources([0, 1, 1, 1]), scopes([0, 0, 1, 1]), named(b"resource's", b"none's", b"scope's", b"own"))
    own = pairs(RECORD_PAIRS, (0, b"a", b"y"), (1, b"ab", b"x"), (1, b"a", b"xy"), (1, b"A", b"x"), (3, b"a", b"y"), (3, b"a", b"x"), (3, b"a", b"x"))
    return batch(0, rows, pairs(RESOURCE_PAIRS, (0, b"a", b"x"), (1, b"a", b"y")), pairs(SCOPE_PAIRS, (1, b"a", b"x")), own)


EMPTY = (
    # The name of the row, and of its attribute the key, the type, the text, the integer and the bytes.
    (b"null key and text", None, 1, None, None, None),
    (b"empty key and text", b"", 1, b"", None, None),
    (b"empty key, empty value", b"", 0, b"", None, None),
    (b"null text", b"k", 1, None, None, None),
    (b"empty text", b"k", 1, b"", None, None),
    (b"null key", None, 1, b"x", None, None),
    (b"null type", b"k", None, b"x", None, None),
    (b"integer beside a text", b"k", 2, b"x", 7, None),
    (b"text beside an integer", b"k", 1, b"x", 7, None),
    (b"bytes", b"k", 7, None, None, b"x"),
)


def empty_texts():
    """Keys, texts and types that are null or empty; then tables without a column for them."""
    names, keys, types, values, ints, octets = map(list, zip(*EMPTY))
    more = [numbers(b"int", ints, 64, kind=SIGNED), texts(b"bytes", octets, BINARY)]
    rows = records(list(range(len(EMPTY))), named(*names))
    one = records([0], named(b"in a table of its own"), opens=False)
    typed = Part(RECORD_PAIRS, 1, [numbers(b"parent_id", [0]), numbers(b"type", [1], 8)], schema=b"with a type")
    bare = Part(RECORD_PAIRS, 1, [numbers(b"parent_id", [0])], schema=b"bare")
    made = batch(0, rows, attributes(RECORD_PAIRS, list(range(len(EMPTY))), keys, types, values, *more))
    return made + batch(1, one, typed) + batch(2, one, bare)


def nothing_is_kept():
    """Batches without payloads, without a main table, without rows, and without a row that is kept."""
    made = batch(0) + batch(1, Part(RECORD_PAIRS, 0, [numbers(b"parent_id", [])]))
    made += batch(2, Part(RECORDS, 0, [named()])) + batch(3, Part(RECORDS, 2, [named(b"p", b"q")], opens=False))
    return made + RESET + batch(-1)


def wide_ids():
    most = 2**32 - 1
    rows = records([70000, most, 9], resources([70000, 70000, most], bits=32), scopes([80000, most, 0], bits=32), named(b"p", b"q", b"r"), bits=32)
    of_resources = pairs(RESOURCE_PAIRS, (most, b"k", b"t"), (70000, b"k", b"t"), bits=32)
    of_scopes = pairs(SCOPE_PAIRS, (0, b"s", b"of r"), (most, b"s", b"of q"), (80000, b"s", b"of p"), bits=32)
    return batch(0, rows, of_resources, of_scopes, pairs(RECORD_PAIRS, (9, b"a", b"x"), (most, b"a", b"x"), bits=32))


def ids_in_dictionaries(count, last):
    """The ids of so many rows: of the resource always 0, and of the rows null, but for the last one."""
    values = dictionary_of_ids(0, [0]), dictionary_of_ids(1, [last])
    own = indexed(b"id", [None] * (count - 1) + [0], 1, kind=integer(16))
    return [own, struct(b"resource", indexed(b"id", [0] * count, 0, kind=integer(16)))], values


def dictionary_of_ids(number, ids):
    header, buffers = rows_of(len(ids), [(0, numbers(b"", ids).buffers)])
    return message(2, Table((Number(8, number), header, Number(1, 0))), buffers)


def rows_65537():
    """Two rows, 65,537 of which the last has an attribute, and two."""
    made = b""
    for number, count in enumerate((2, 65_537, 2)):
        columns, values = ids_in_dictionaries(count, 5)
        rows = Part(RECORDS, count, columns, values, opens=number == 0)
        own = pairs(RECORD_PAIRS, (5, b"n", b"last"), opens=number == 0)
        made += batch(number, rows, pairs(RESOURCE_PAIRS, (0, b"k", b"t"), opens=number == 0), own)
    return made


def equal_attributes():
    """Attributes that are equal but for a cell beside their value, and whose parents fall; the ids of the records fall too."""
    beside = numbers(b"int", [5, 9, 3, None, 1], 64, kind=SIGNED)
    own = attributes(RECORD_PAIRS, [4, 9, 4, 9, 7], [b"a"] * 5, [1] * 5, [b"x"] * 5, beside)
    return batch(0, records([9, 7, 4], named(b"nine", b"seven", b"four")), own)


def defaults():
    """Cells that hold a default, beside such that are null."""
    more = [texts(b"severity_text", [b"", None]), numbers(b"flags", [0, None], 32), numbers(b"dropped_attributes_count", [0, 0], 32)]
    body = struct(b"body", numbers(b"type", [0, 1], 8), texts(b"str", [b"beside", b""]))
    own = attributes(RECORD_PAIRS, [0, 1], [b"a", b"a"], [1, 1], [b"x", b"x"], numbers(b"int", [0, None], 64, kind=SIGNED))
    return batch(0, records([0, 1], resources([0, 0], texts(b"schema_url", [b"", b""])), *more, body), own)


def scope_of_two_resources():
    """One scope in two resources, with other schema urls."""
    urls = texts(b"schema_url", [b"u", b"v", b"v", b"u"])
    rows = records([0, 1, 2, 3], resources([0, 0, 1, 1]), scopes([6, 6, 6, 6], texts(b"name", [b"s"] * 4)), urls)
    of_resources = pairs(RESOURCE_PAIRS, (0, b"k", b"t"), (1, b"k", b"u"))
    return batch(0, rows, of_resources, pairs(SCOPE_PAIRS, (6, b"s", b"c")), with_x(1, 2, 3))


def batch_ids():
    made = b""
    for place, number in enumerate((5, 5, -1, -(2**63), 2**63 - 1, 0)):
        made += batch(number, records([0], opens=place == 0), with_x(0, opens=place == 0))
    return made


def payloads_in_any_order():
    parts = [with_x(0), pairs(SCOPE_PAIRS, (0, b"s", b"c")), records([0], resources([0]), scopes([0])), pairs(RESOURCE_PAIRS, (0, b"k", b"t"))]
    return batch(0, *parts) + batch(1, *(part._replace(opens=False) for part in reversed(parts)))


def after_ids_that_fall():
    """Batches of one segment whose dictionary grows in each; in the first, the third and the last the ids fall."""
    made = b""
    for number, (ids, indexes, values) in enumerate((
        ([0, 1, 0], [0, 299, 7], [b"v%d" % value for value in range(300)]),
        ([0, 1], [300, 7], [b"new"]),
        ([0, 1, 0], [301, 301, 300], [b"newer"]),
        ([4, 4], [301, 300], [b"newest"]),
        ([4, 6, 4], [0, 0, 0], []),
    )):
        rows = list(range(len(ids)))
        grown = (dictionary(5, values, number > 0),) if values else ()
        columns = (resources(ids), indexed(b"event_name", indexes, 5, 16))
        made += batch(number, records(rows, *columns, dictionaries=grown, opens=number == 0), with_x(*rows, opens=number == 0))
    return made + RESET + batch(0, records([0], named(b"anew")), with_x(0))


def spans():
    """Three spans with their events and links, whose ids and parents fall or are null, and the attributes of all."""
    main = records([9, 4, 7], resources([5, 5, 2]), texts(b"name", [b"nine", b"four", b"seven"]), kind=SPANS)
    events = [numbers(b"id", [None, 6, None, 3, 1], 32, PLAIN), numbers(b"parent_id", [9, 7, 7, 4, 9], 16, PLAIN)]
    events += [texts(b"name", [b"of nine", b"of seven", b"of seven, null", b"of four", b"of nine too"])]
    links = [numbers(b"id", [8, None, 2], 32, PLAIN), numbers(b"parent_id", [7, 4, 4], 16, PLAIN)]
    links += [texts(b"trace_state", [b"of seven", b"of four, null", b"of four"])]
    of_events = pairs(44, (3, b"k", b"t"), (6, b"k", b"t"), (1, b"k", b"t"), bits=32)
    of_links = pairs(45, (8, b"k", b"t"), (2, b"k", b"t"), bits=32)
    own = pairs(SPAN_PAIRS, (4, b"a", b"x"), (7, b"a", b"x"), (9, b"a", b"y"))
    return batch(0, main, own, Part(42, 5, events), Part(43, 3, links), of_events, of_links)


def attributes_that_pause():
    """The kept rows have a resource with attributes in the first batch, none in the second, and again in the third; in the
    fourth these have a column more. In the fifth nothing is kept, and in the last all is as in the first."""
    more = numbers(b"int", [4], 64, kind=SIGNED)
    own = pairs(RESOURCE_PAIRS, (0, b"k", b"t"), opens=False)
    wider = attributes(RESOURCE_PAIRS, [0], [b"k"], [2], [None], more, schema=b"wider")
    made = b""
    for number, (ids, of_resources, kept) in enumerate((
        ([0, 0], own._replace(opens=True), [0, 1]),
        ([None, 0], own, [0]),
        ([0, None], own, [0]),
        ([0, None], wider, [0]),
        ([0, 0], wider._replace(opens=False), []),
        ([0, 0], own._replace(opens=True, schema=b"again"), [0, 1]),
    )):
        made += batch(number, records([0, 1], resources(ids), opens=number == 0), of_resources, with_x(*kept, opens=number == 0))
    return made


def one_group_of_two():
    """Two records of one resource, and between them one of another, which isn't kept."""
    own = pairs(RESOURCE_PAIRS, (5, b"k", b"t" * 100), (2, b"k", b"t"))
    return batch(0, records([0, 1, 2], resources([5, 2, 5])), own, with_x(0, 2))


def tree_at_the_limit():
    """Each of 4,096 rows is a scope group of its own, and one attribute of their scope weighs in each: the request weighs
    2^26, and the next one 2^26 and 1."""
    made = b""
    for number, size in enumerate((4_030, 4_031)):
        urls = (dictionary(3, [b"u" * size]), dictionary(4, [b"a", b"b"]))
        of = resources([0] * 4096, indexed(b"schema_url", [0] * 4096, 3))
        opens, columns = number == 0, [of, scopes([0] * 4096), indexed(b"schema_url", [0, 1] * 2048, 4)]
        rows = Part(RECORDS, 4096, columns, urls, schema=b"first" if opens else b"second")
        parts = pairs(RESOURCE_PAIRS, (0, b"k", b"t"), opens=opens), pairs(SCOPE_PAIRS, (0, b"s", b"v" * 16_285), opens=opens)
        made += batch(number, rows, *parts)
    return made


def any_texts():
    """Keys and texts of other letters, of blanks, and of what a shell takes for its own."""
    own = (0, "größe €".encode(), b"a b"), (1, b"*", b"$HOME"), (2, b'"', b"'\\"), (3, b"\n", b"\t"), (4, b"-x", b"--help")
    names = b"other letters", b"a star", b"quotes", b"a new line", b"a dash"
    return batch(0, records([0, 1, 2, 3, 4], named(*names)), pairs(RECORD_PAIRS, *own))


def example(*path):
    with open(os.path.join(TOP, "examples", "cases", *path), "rb") as file:
        return file.read()


def refused_frames():
    """Frames that are refused in each stage, with a reset after each."""
    good = batch(0, records([0]), with_x(0))
    names = "metadata_past_the_record", "index_past_a_replaced_dictionary", "rows_without_columns_2_62", "no_parent", "another_signals_type"
    refused = [example("decode-logs", f"row_{name}.capture") for name in names]
    refused += [PACKED, frame(b"\x08"), batch(1, records([0]), records([0], schema=b"other")), batch(1, records([0], named(b"p"))) * 2]
    return b"".join(good + RESET + one + good + RESET for one in refused) + good


def damaged():
    """A frame that is kept, a compressed one, one more, a reset, one whose ids fall, one that is kept, and a cut frame."""
    good = batch(0, records([0]), with_x(0))
    fall = batch(7, records([0, 1, 2], resources([0, 1, 0]), schema=b"falls"), with_x(0, 1, 2))
    return good + PACKED + good + RESET + fall + batch(8, records([0], schema=b"new"), with_x(0, opens=False)) + good[:-1]


def requests():
    """One request, of two records."""
    return frame(request([(b"a", b"x"), (b"b", b"y")], [(b"a", b"x")]))


CASES = (
    rows_of_a_resource, ids_fall, null_ids, null_between_one_resource, plain_resource_ids, plain_scope_ids, plain_ids_of_metrics,
    whose_pairs, empty_texts, nothing_is_kept, wide_ids, rows_65537, equal_attributes, defaults, scope_of_two_resources, batch_ids,
    payloads_in_any_order, after_ids_that_fall, spans, attributes_that_pause, one_group_of_two, tree_at_the_limit, any_texts,
    refused_frames, damaged, requests,
)


def main(folder):
    os.makedirs(folder, exist_ok=True)
    for case in CASES:
        with open(os.path.join(folder, case.__name__ + ".capture"), "wb") as file:
            file.write(case())


main(sys.argv[1] if len(sys.argv) > 1 else os.path.join(TOP, "examples", "filters"))
