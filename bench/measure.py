"""What the benchmarks share: where the built program is, runs with their times and peak memory, and captures."""

import os
import statistics
import subprocess
import sys
import tempfile
import time
from typing import NamedTuple

TOP = os.path.dirname(os.path.dirname(os.path.abspath(__file__)))
PROGRAM = os.path.join(TOP, "crates", "otap_cli", "out", "otap_cli")
MIB = 1 << 20


def need_program():
    if not os.path.exists(PROGRAM):
        sys.exit("build the program first: (cd crates/otap_cli && rt run -- list < /dev/null)")


def capture(parts, size):
    """A file of `parts` (bytes), over and over, up to about `size` bytes; the caller removes it."""
    block = b"".join(parts)
    file = tempfile.NamedTemporaryFile(prefix="finavoluth-", suffix=".capture", delete=False)
    with file:
        for _ in range(max(1, size // len(block))):
            file.write(block)
    return file.name


class Run(NamedTuple):
    """How a program ended, the seconds on the wall and of the processors, and the peak memory in bytes. Of several runs also
    by how much they scatter: the middle of their processor times in parts of the least."""

    status: int
    wall: float
    processor: float
    memory: int
    scatter: float = 1.0


def run(command, source, target=os.devnull):
    """One run of a program that reads `source` and writes `target`."""
    with open(source, "rb") as stdin, open(target, "wb") as stdout:
        start = time.monotonic()
        child = subprocess.Popen(command, stdin=stdin, stdout=stdout, stderr=subprocess.DEVNULL)
        _, status, usage = os.wait4(child.pid, 0)
        wall = time.monotonic() - start
        child.returncode = os.waitstatus_to_exitcode(status)
    return Run(child.returncode, wall, usage.ru_utime + usage.ru_stime, usage.ru_maxrss * 1024)


def joined(runs):
    """Of some runs the greatest status and memory, the least times, and by how much they scatter."""
    least, middle = min(r.processor for r in runs), statistics.median(r.processor for r in runs)
    scatter = middle / least if least else 1.0
    return Run(max(r.status for r in runs), min(r.wall for r in runs), least, max(r.memory for r in runs), scatter)


def best(command, source, target=os.devnull, rounds=3):
    """What `joined` makes of some runs of a program."""
    return joined([run(command, source, target) for _ in range(rounds)])


def in_a_row(command, source, times=1):
    """So many runs of a program, one after the other, as one run that took their mean time. A quarter of an input that is run
    four times lasts as long as the whole input, so both meet what else the machine does alike."""
    runs = [run(command, source) for _ in range(times)]
    wall, processor = sum(r.wall for r in runs), sum(r.processor for r in runs)
    return Run(max(r.status for r in runs), wall / times, processor / times, max(r.memory for r in runs))


# So many runs of each program, in turn.
ROUNDS = 10


def side_by_side(calls, rounds=ROUNDS):
    """Some runs of each of several programs in turn, so that what else the machine does concerns all alike: for each call,
    a command and its source and perhaps how often it runs in a row, what `joined` makes of its runs. All must end with
    status 0. The more runs, the less the least time tells of what else a virtual machine's host does."""
    turns = [[in_a_row(*call) for call in calls] for _ in range(rounds)]
    found = [joined(runs) for runs in zip(*turns)]
    for (command, *_), one in zip(calls, found):
        if one.status != 0:
            sys.exit(f"{' '.join(command)}: status {one.status}")
    return found


def made(command, source):
    """A file with what a program writes, which is to end with status 0; the caller removes it."""
    target = tempfile.NamedTemporaryFile(prefix="finavoluth-", suffix=".capture", delete=False).name
    status = run(command, source, target).status
    if status != 0:
        sys.exit(f"{' '.join(command)}: status {status}")
    return target


def frame(message):
    return b"\0" + len(message).to_bytes(4, "big") + message


def varint(value):
    out = b""
    while value >= 128:
        out += bytes([value % 128 + 128])
        value //= 128
    return out + bytes([value])


def field(number, part):
    return varint(8 * number + 2) + varint(len(part)) + part


def messages(path):
    """The messages of the frames of a capture."""
    with open(path, "rb") as file:
        data = file.read()
    place, found = 0, []
    while place < len(data):
        size = int.from_bytes(data[place + 1 : place + 5], "big")
        found.append(data[place + 5 : place + 5 + size])
        place += 5 + size
    return found


def padded(message, number, size):
    """The frame of that many bytes of a message, with a further field of that number, which is passed over."""
    around = len(field(number, bytes(size - len(message) - 15))) - (size - len(message) - 15)
    whole = frame(message + field(number, bytes(size - 5 - len(message) - around)))
    assert len(whole) == size, len(whole)
    return whole


def largest_frame(path):
    """The bytes of the largest frame of a capture."""
    largest, place, end = 0, 0, os.path.getsize(path)
    with open(path, "rb") as file:
        while place < end:
            file.seek(place)
            size = 5 + int.from_bytes(file.read(5)[1:], "big")
            largest, place = max(largest, size), place + size
    return largest


def report(name, words, source, text=None, expected=0, largest=None, most=None, rounds=3):
    """Prints a job's time and memory beside those of md5sum over `text` (or else over the capture). False where it held
    more memory than 64 MiB and 16 times the largest frame, or took longer than `most` times what md5sum took."""
    job = best([PROGRAM, *words], source, rounds=rounds)
    if job.status != expected:
        sys.exit(f"{name}: status {job.status}, expected {expected}")
    seconds, memory, base = job.wall, job.memory, best(["md5sum"], text or source, rounds=rounds).wall
    limit = 64 * MIB + 16 * (largest or largest_frame(source))
    size = os.path.getsize(source)
    print(f"{name}: {size / MIB:.0f} MiB in {seconds:.3f} s, {memory / MIB:.1f} MiB at the peak (at most {limit / MIB:.1f})")
    wanted = f" (at most {most})" if most else ""
    print(f"md5sum: {os.path.getsize(text or source) / MIB:.0f} MiB in {base:.3f} s; the job takes {seconds / base:.2f} of it{wanted}")
    return memory <= limit and (not most or seconds <= most * base)


class Limits(NamedTuple):
    """What a job may take: the processor time in parts of that of another program, and that of four times the input in
    parts of that of one."""

    program: float
    growth: float = 4.2


def compare(name, words, whole, quarter, requests, program, limits):
    """Prints the processor time and memory of a job beside those of md5sum over the requests that it reads or writes, and
    of another program that reads and writes them, if one is given. False where the job took more than the limits, or held
    more memory than 64 MiB and its largest frame."""
    job = [PROGRAM, *words]
    calls = [(job, whole), (job, quarter, 4), (["md5sum"], requests)]
    calls += [([program, words[-1]], requests)] if program else []
    full, part, base, *peer = side_by_side(calls)
    most = 64 * MIB + largest_frame(whole)
    growth = full.processor / part.processor
    print(f"{name}, {os.path.getsize(requests) / MIB:.0f} MiB of OTLP: {' '.join(words)} {full.processor:.3f} s, {full.processor / base.processor:.2f} times md5sum")
    print(f"  four times the input takes {growth:.2f} times the time (at most {limits.growth})")
    print(f"  {full.memory / MIB:.1f} MiB at the peak (at most {most / MIB:.1f})")
    for other in peer:
        print(f"  {full.processor / other.processor:.2f} of {os.path.basename(program)} (at most {limits.program})")
    beside = [("md5sum", base), *((os.path.basename(program), other) for other in peer)]
    scatters = ", ".join(f"{run.scatter:.2f} for {of}" for of, run in beside)
    print(f"  times scatter: the middle of {ROUNDS} is {scatters} times the least, {full.scatter:.2f} for the job")
    return growth <= limits.growth and full.memory <= most and all(full.processor <= limits.program * p.processor for p in peer)
