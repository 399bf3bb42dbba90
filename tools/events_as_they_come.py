#!/usr/bin/env python3
"""Drives `resend` over pipes, as a program does that owns a stream: an event is written once the reply to the one before it
is there.

    tools/events_as_they_come.py PROGRAM

So each reply must be out before more is asked for: for an event one frame or one line, for a reset the reset and as many
batches as requests are open, with the ids from 0 on. Requests, statuses and resets come in an order that fills the window,
ends requests, keeps them, and breaks streams. It prints how many events there were, and the status is 1 where a reply was
another one, or didn't come within a minute."""

import os
import random
import select
import subprocess
import sys
import time

from at_the_limits import field, frame, varint, within

WINDOW = 4
EVENTS = 400
PATIENCE = 60
RESET = b"\x02\0\0\0\0"


class Wrong(Exception):
    """A reply that mustn't be."""


class Program:
    """The program, with what it has put out that nobody has read yet."""

    def __init__(self, path, words):
        self.child = subprocess.Popen([path, *words], stdin=subprocess.PIPE, stdout=subprocess.PIPE, stderr=subprocess.PIPE)
        self.left = {self.child.stdout: b"", self.child.stderr: b""}

    def write(self, event):
        self.child.stdin.write(event)
        self.child.stdin.flush()

    def more(self):
        """Waits until one of the outputs has more, or ends."""
        found, _, _ = select.select(list(self.left), [], [], PATIENCE)
        if not found:
            raise Wrong("no reply within a minute")
        for pipe in found:
            part = os.read(pipe.fileno(), 1 << 16)
            if not part:
                raise Wrong("the program ended")
            self.left[pipe] += part

    def take(self):
        """The next frame or line, whichever comes."""
        while True:
            out, err = self.left[self.child.stdout], self.left[self.child.stderr]
            size = 5 + int.from_bytes(out[1:5], "big")
            if len(out) >= 5 and len(out) >= size:
                self.left[self.child.stdout] = out[size:]
                return out[:size]
            if b"\n" in err:
                line, self.left[self.child.stderr] = err.split(b"\n", 1)
                return line.decode()
            self.more()

    def quiet(self):
        """Whether nothing is there that nobody asked for."""
        return not any(self.left.values()) and not select.select(list(self.left), [], [], 0)[0]

    def end(self):
        """The last line, and the status."""
        self.child.stdin.close()
        said = self.left[self.child.stderr] + self.child.stderr.read()
        if self.left[self.child.stdout] + self.child.stdout.read():
            raise Wrong("more on standard output at the end")
        return said.decode(), self.child.wait()


def request(number):
    """A request of a log record whose body is the number."""
    return within((1, 2, 2, 5), field(1, b"%d" % number))


def batch_id(message):
    """The id of a batch in a frame: its first field, or 0 where it has none."""
    return message[6] if message[5:6] == b"\x08" else 0


class Exporter:
    """What the program should have: the open requests in their order, with the ids of their batches, and the counts."""

    def __init__(self, program):
        self.program, self.open, self.written = program, [], 0
        self.sent = self.done = self.given_up = self.frame = 0

    def ask(self, event):
        self.program.write(event)
        self.frame += 1
        return self.frame - 1

    def want(self, wanted):
        got = self.program.take()
        if got != wanted:
            raise Wrong(f"{got!r}, not {wanted!r}")

    def want_batch(self):
        got = self.program.take()
        if isinstance(got, str) or got[0] != 0 or batch_id(got) != self.written:
            raise Wrong(f"{got[:40]!r}, not the batch {self.written}")
        self.written += 1
        return self.written - 1

    def send(self):
        frame_number = self.ask(frame(field(1, request(self.sent))))
        if len(self.open) == WINDOW:
            self.want(f"frame {frame_number}: request refused: Full")
            return
        self.open.append(self.want_batch())
        self.sent += 1

    def answer(self, place, code):
        number = self.open[place]
        frame_number = self.ask(frame(field(2, b"\x08" + varint(number) + b"\x10" + varint(code))))
        word = {0: "done", 3: "given up", 8: "given up"}.get(code, "kept")
        self.want(f"frame {frame_number}: answer {number} {word}")
        if word != "kept":
            del self.open[place]
            self.done += word == "done"
            self.given_up += word == "given up"

    def reset(self):
        self.ask(RESET)
        self.want(RESET)
        self.written = 0
        self.open = [self.want_batch() for _ in self.open]

    def end(self):
        said, status = self.program.end()
        wanted = f"sent {self.sent} done {self.done} given up {self.given_up} open {len(self.open)}\n"
        if said != wanted or status not in (0, 1):
            raise Wrong(f"{said!r} and status {status} at the end, not {wanted!r}")


def drive(exporter):
    chance = random.Random(1)
    for _ in range(EVENTS):
        kind = chance.randrange(8)
        if kind < 4 or not exporter.open and kind < 7:
            exporter.send()
        elif kind < 7:
            exporter.answer(chance.randrange(len(exporter.open)), chance.choice((0, 0, 0, 3, 8, 10, 14)))
        else:
            exporter.reset()
        if not exporter.program.quiet():
            raise Wrong("more than a reply")
    exporter.end()


def main():
    started = time.monotonic()
    exporter = Exporter(Program(os.path.abspath(sys.argv[1]), ["resend", "logs", str(WINDOW)]))
    try:
        drive(exporter)
    except Wrong as wrong:
        print(f"event {exporter.frame - 1}: {wrong}")
        exporter.program.child.kill()
        return 1
    print(f"{exporter.frame} events, {exporter.sent} requests, in {time.monotonic() - started:.1f} s")
    return 0


sys.exit(main())
