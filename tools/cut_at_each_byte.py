#!/usr/bin/env python3
"""Cuts some captures of examples/ at each of their bytes, and runs each job on the cuts.

    tools/cut_at_each_byte.py PROGRAM [STEP]

Of each cut a job writes what it writes for the frames that are whole, and nothing else; the place of the frame that is cut
is said, and the status is 5, or 0 where the cut stands between two frames. With STEP only each STEPth cut is tried of the
captures that are longer than 1,000 bytes, and those around the ends of frames.

For `decode`, `replay`, `schema` and `show` the text of the whole capture was made by an independent program; `tidy` writes
its requests as they stand. For `encode`, `filter` and `status` the program's own output for the whole capture is taken.

`file` and `resend` write at the end too: what they write is compared with what the program writes for the whole frames alone,
and the damage stands behind the line of `file`, and before that of `resend`. Of a file that is cut `unfile` says that it is
none.

It prints each job with the number of cuts tried and of wrong ones, and the status is 1 where one was wrong."""

import os
import subprocess
import sys

from small_runs import MAIN, PAIR, events, groups

EXAMPLES = os.path.join(os.path.dirname(os.path.abspath(__file__)), "..", "examples")
# What `list` writes for a batch of one payload, a reset, and the batch again.
LISTED = b"frame 0: batch 0 30:256\nframe 1: reset\nframe 2: batch 0 30:256\n"
REQUESTS = {"logs": "pairs_pause", "traces": "row_events_pause", "metrics": "row_points_pause"}


def read(path):
    with open(path, "rb") as file:
        return file.read()


def run(program, words, capture):
    done = subprocess.run([program, *words], input=capture, capture_output=True, check=False)
    return done.stdout, done.stderr, done.returncode


def ends(frames):
    """Where each frame of a capture ends, after the place where the first one begins."""
    places = [0]
    while places[-1] < len(frames):
        places.append(places[-1] + 5 + int.from_bytes(frames[places[-1] + 1 : places[-1] + 5], "big"))
    return places


def line_ends(text):
    """Where the lines of each frame end: those of a frame begin with one that names it."""
    places = [i for i in range(len(text)) if text[i : i + 6] == b"frame " and (i == 0 or text[i - 1 : i] == b"\n")]
    return places + [len(text)]


def cuts(capture, begins, step):
    """The cuts of a capture that are tried: each with the number of its whole frames, and the line of its damage, if any."""
    for cut in range(len(capture) + 1):
        near = min(abs(cut - place) for place in begins) <= 6
        if len(capture) > 1000 and cut % step and not near:
            continue
        whole = max(n for n, place in enumerate(begins) if place <= cut)
        yield cut, whole, b"" if begins[whole] == cut else b"damage at %d: Truncated\n" % begins[whole]


def told(words, tried, wrong):
    print(f"{' '.join(words)}: {tried} cuts, {len(wrong)} wrong {wrong[:5] if wrong else ''}".rstrip())
    return len(wrong)


def wrong_cuts(program, words, capture, written, parts, step):
    """The cuts of a capture for which a job writes or says something else than is to be."""
    begins, wrong, tried = ends(capture), [], 0
    assert len(parts) == len(begins), (words, len(parts), len(begins))
    for cut, whole, damage in cuts(capture, begins, step):
        tried += 1
        if run(program, words, capture[:cut]) != (written[: parts[whole]], damage, 5 if damage else 0):
            wrong.append(cut)
    return told(words, tried, wrong)


def wrong_cuts_with_an_end(program, words, capture, last, step):
    """The same of a job that writes something at the end; so many lines of it stand behind the damage."""
    begins, wrong, tried = ends(capture), [], 0
    frames = [run(program, words, capture[:place]) for place in begins]
    for cut, whole, damage in cuts(capture, begins, step):
        out, err, status = frames[whole]
        lines = err.splitlines(keepends=True)
        lines.insert(len(lines) - last, damage)
        tried += 1
        if run(program, words, capture[:cut]) != (out, b"".join(lines), 5 if damage else status):
            wrong.append(cut)
    return told(words, tried, wrong)


def wrong_cuts_of_a_file(program, words, made, step):
    """The cuts of a file of which `unfile` says something else than that they are none."""
    tried = [cut for cut in range(len(made)) if cut % step == 0 or cut < 20 or len(made) - cut < 20]
    wrong = [cut for cut in tried if run(program, words, made[:cut]) != (b"", b"file refused: BadMagic\n", 1)]
    return told(words, len(tried), wrong)


def of_signal(program, signal, step):
    """The jobs of a signal, on some requests and on their batches."""
    place = os.path.join(EXAMPLES, "transits", signal, REQUESTS[signal] + ".capture")
    requests = read(place)
    batches = run(program, ["encode", signal], requests)[0]
    statuses = run(program, ["status", signal], batches)[0]
    wrong = wrong_cuts(program, ["encode", signal], requests, batches, ends(batches), step)
    wrong += wrong_cuts(program, ["tidy", signal], requests, requests, ends(requests), step)
    wrong += wrong_cuts(program, ["status", signal], batches, statuses, ends(statuses), step)
    wrong += wrong_cuts(program, ["decode", signal], batches, read(place + ".decode"), ends(read(place + ".decode")), step)
    for job in ("replay", "schema", "show"):
        if os.path.exists(f"{place}.{job}"):
            text = read(f"{place}.{job}")
            wrong += wrong_cuts(program, [job, signal], batches, text, line_ends(text), step)
    of_groups, filtering = groups(program, signal), ["filter", signal, *PAIR]
    kept = run(program, filtering, of_groups)[0]
    wrong += wrong_cuts(program, filtering, of_groups, kept, ends(kept), step)
    file = ["file", signal, MAIN[signal], "0"]
    wrong += wrong_cuts_with_an_end(program, file, batches, 0, step)
    wrong += wrong_cuts_of_a_file(program, ["unfile", signal, MAIN[signal]], run(program, file, batches)[0], step)
    wrong += wrong_cuts_with_an_end(program, ["resend", signal, "8"], events(requests), 1, step)
    return wrong


def main():
    program, step = sys.argv[1], int(sys.argv[2]) if len(sys.argv) > 2 else 1
    place = os.path.join(EXAMPLES, "cases", "decode-logs", "row_twice_with_a_reset.capture")
    written = read(place + ".stdout")
    wrong = wrong_cuts(program, ["decode", "logs"], read(place), written, ends(written), step)
    wrong += wrong_cuts(program, ["list"], read(place), LISTED, line_ends(LISTED), step)
    wrong += sum(of_signal(program, signal, step) for signal in REQUESTS)
    sys.exit(1 if wrong else 0)


main()
