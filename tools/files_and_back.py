#!/usr/bin/env python3
"""Makes an Arrow file of each sub-stream in the captures of batches in examples/, and looks at it.

    tools/files_and_back.py PROGRAM

Two things are looked at: that the file is as strict readers of Arrow want it, and that `unfile` and then `show` print of it
the rows that `show` prints of the capture. The openings are counted here, by what `schema` prints. It prints how many files
there were, and the status is 1 where one was wrong."""

import glob
import os
import re
import subprocess
import sys

from read_arrow_file import problems

EXAMPLES = os.path.join(os.path.dirname(os.path.abspath(__file__)), "..", "examples")
SIGNALS = ("logs", "traces", "metrics")


def run(program, words, data):
    done = subprocess.run([program, *words], input=data, capture_output=True, check=False)
    return done.stdout, done.stderr, done.returncode


def tables(shown):
    """Of what `show` prints: for each payload its type, its schema id, and the lines of its rows. A reset is None."""
    found = []
    for line in shown.splitlines():
        if line.startswith(b"payload "):
            kind, schema = re.fullmatch(rb'payload (-?\d+) schema (".*") rows \d+', line).groups()
            found.append((int(kind), schema, []))
        elif line.startswith(b"row "):
            found[-1][2].append(line)
        elif line.endswith(b": reset"):
            found.append(None)
    return found


def substreams(shown):
    """The sub-streams of each type, in the order in which they open: the rows of each of their payloads."""
    opened, found = {}, {}
    for payload in tables(shown):
        if payload is None:
            opened.clear()
            continue
        kind, schema, rows = payload
        if opened.get(kind) != schema:
            opened[kind] = schema
            found.setdefault(kind, []).append([])
        found[kind][-1].append(rows)
    return found


def wrong_file(program, signal, capture, kind, number, expected):
    """What is wrong with the file of a sub-stream."""
    made, _, status = run(program, ["file", signal, str(kind), str(number)], capture)
    if status not in (0, 1, 5) or not made:
        return f"status {status}, {len(made)} bytes"
    found = problems(made)
    if found:
        return found[0]
    batches, said, _ = run(program, ["unfile", signal, str(kind)], made)
    back = substreams(run(program, ["show", signal], batches)[0])
    if said or back != {kind: [expected]}:
        return f"other rows come back {said}"
    return None


def captures(program, signal):
    """The captures of batches of a signal: those of the jobs that read, and what `encode` makes of requests."""
    for job in ("show", "decode", "replay"):
        for path in sorted(glob.glob(os.path.join(EXAMPLES, "cases", f"{job}-{signal}", "*"))):
            if not path.endswith((".stdout", ".stderr")):
                with open(path, "rb") as file:
                    yield path, file.read()
    for path in sorted(glob.glob(os.path.join(EXAMPLES, "transits", signal, "*.capture"))):
        if os.path.getsize(path) < 65536:
            with open(path, "rb") as file:
                yield path, run(program, ["encode", signal], file.read())[0]


def main():
    program, tried, wrong = os.path.abspath(sys.argv[1]), 0, 0
    for signal in SIGNALS:
        for path, capture in captures(program, signal):
            for kind, streams in substreams(run(program, ["show", signal], capture)[0]).items():
                for number, expected in enumerate(streams):
                    tried += 1
                    what = wrong_file(program, signal, capture, kind, number, expected)
                    if what:
                        wrong += 1
                        print(f"{os.path.relpath(path)}: file {signal} {kind} {number}: {what}")
    print(f"{tried} files, {wrong} wrong")
    sys.exit(1 if wrong else 0)


main()
