"""Requests and batches of a signal for the benchmarks of the receiver and the exporter: segments of 31 frames with some
hundred items each, and a reset after each segment.

The files segment-SIGNAL-KIND.batches hold the batch that opens a segment, and one that goes on in it. They were made once,
by an independent implementation of the exporter, from the requests `realistic(SIGNAL, 320)` and `short(SIGNAL, 400)`."""

import os
import sys

import dense
import measure

RESET = bytes((2, 0, 0, 0, 0))
FRAMES = 31


def realistic(signal, items):
    """A frame with about that many items: the four realistic requests of examples/, which have 160, as one, over and over."""
    each = measure.messages(os.path.join(measure.TOP, "examples", "cases", f"tidy-{signal}", "realistic.capture"))
    return measure.frame(b"".join(each) * max(1, round(items / 160)))


def short(signal, items):
    """A frame with that many items of twelve short attributes each."""
    return dense.request(signal, items)


def batches(signal, kind):
    """A segment of the batches of a kind: the one that opens it, and then the other one over and over."""
    path = os.path.join(measure.TOP, "bench", f"segment-{signal}-{kind}.batches")
    opening, further = (measure.frame(m) for m in measure.messages(path))
    return opening + further * (FRAMES - 1) + RESET


def requests(frame):
    """A segment of a request over and over."""
    return frame * FRAMES + RESET


def captures(segment, segments):
    """Files with that many segments, and with a quarter of them."""
    return tuple(measure.capture([segment], n * len(segment)) for n in (segments, segments // 4))


def time_on_requests(job, limits, short_limits):
    """Compares a job with another program, by the words of the command line, SIGNAL and PROGRAM: on 64 MiB of realistic
    requests of some hundred items, and on as much of items with twelve short attributes. False where a limit isn't kept."""
    measure.need_program()
    signal, program, *_ = [*sys.argv[1:], None] if len(sys.argv) > 1 else ["logs", None]
    kinds = (("realistic items", realistic(signal, 320), limits), ("twelve short attributes an item", short(signal, 400), short_limits))
    return all([time_on_frame(name, [job, signal], frame, program, kept) for name, frame, kept in kinds])


def time_on_frame(name, words, frame, program, limits):
    segment = requests(frame)
    whole, quarter = captures(segment, 4 * round(16 * measure.MIB / len(segment)))
    try:
        return measure.compare(name, words, whole, quarter, whole, program, limits)
    finally:
        for file in (whole, quarter):
            os.remove(file)
