"""Small captures for each job and each signal, and runs of the program that meet a failing object or want of memory."""

import os
import resource
import signal
import subprocess
import tempfile
from typing import NamedTuple

from at_the_limits import field, frame

EXAMPLES = os.path.join(os.path.dirname(os.path.abspath(__file__)), "..", "examples")
REQUESTS = {"logs": "pairs_pause", "traces": "row_events_pause", "metrics": "row_points_pause"}
MAIN = {"logs": "30", "traces": "40", "metrics": "10"}
READERS = ("schema", "show", "decode", "status", "replay")
# Requests of which `filter` keeps some of each signal, by a pair of a resource.
GROUPS, PAIR = "row_groups_without_items", ["resource", "r", "one"]
PACKED = b"\x01\x00\x00\x00\x02xx"
RESET = b"\x02\x00\x00\x00\x00"


class Run(NamedTuple):
    out: bytes
    err: bytes
    status: int


class Job(NamedTuple):
    """Words, and the capture that they are run on."""

    words: list
    capture: bytes


def run(program, job):
    """What a job writes, says and returns where nothing fails."""
    done = subprocess.run([program, *job.words], input=job.capture, capture_output=True, check=False)
    return Run(done.stdout, done.stderr, done.returncode)


def source_of(job):
    """A file of the job's capture, to be read from its start."""
    source = tempfile.TemporaryFile()
    source.write(job.capture)
    source.seek(0)
    return source


def run_within(program, job, limits, out=subprocess.PIPE, err=subprocess.PIPE, environment=None):
    """The same under limits of the operating system, which are kept to by errors alone and by no signal."""

    def limit():
        for what, most in limits.items():
            resource.setrlimit(what, (most, most))
        signal.signal(signal.SIGXFSZ, signal.SIG_IGN)

    with source_of(job) as source:
        done = subprocess.run(
            [program, *job.words],
            stdin=source,
            stdout=out,
            stderr=err,
            check=False,
            env=environment,
            preexec_fn=limit,
            restore_signals=False,
        )
    return Run(done.stdout, done.stderr, done.returncode)


def refused_once(frames):
    """The frames, one that is refused, the frames again, and after a reset once more."""
    return frames + PACKED + frames + RESET + frames


def events(capture):
    """The requests of a capture as events for `resend`: two that are open, a status that ends the first, and all others."""
    sent = [frame(field(1, capture[begin + 5 : end])) for begin, end in zip(ends(capture), ends(capture)[1:])]
    return b"".join(sent[:2]) + frame(field(2, b"")) + b"".join(sent[2:])


def example(*path):
    with open(os.path.join(EXAMPLES, *path), "rb") as file:
        return file.read()


def groups(program, name):
    """The batches of a signal of which `filter` keeps some."""
    return run(program, Job(["encode", name], example("transits", name, GROUPS + ".capture"))).out


def jobs(program):
    """Each job of each signal over a capture, of which a frame is refused; for `filter` also over one with batches that aren't
    filtered, and for `unfile` over the file that `file` makes."""
    found = [Job(["filter", "logs", "item", "a", "x"], example("filters", "plain_resource_ids.capture"))]
    for name, requests in REQUESTS.items():
        sent = example("transits", name, requests + ".capture")
        requests = refused_once(sent)
        batches = refused_once(run(program, Job(["encode", name], requests)).out)
        found += [Job(["tidy", name], requests), Job(["encode", name], requests), Job(["list"], batches)]
        found += [Job([job, name], batches) for job in READERS]
        found += [Job(["filter", name, *PAIR], refused_once(groups(program, name)))]
        found += [Job(["resend", name, "2"], refused_once(events(sent)))]
        made = Job(["file", name, MAIN[name], "0"], batches)
        found += [made, Job(["unfile", name, MAIN[name]], run(program, made).out)]
    return found


def ends_of(job):
    """Where the frames of a job's capture end; a file has none."""
    return [0] if job.words[0] == "unfile" else ends(job.capture)


def before_the_end(job, done):
    """Of what a job writes and says on frames, the part that it doesn't put off until it knows that they end."""
    lines = done.err.splitlines(keepends=True)
    if job.words[0] == "file":
        return done._replace(out=b"", err=b"".join(line for line in lines if not line.startswith(b"file: ")))
    if job.words[0] == "unfile":
        return done._replace(out=b"", err=b"")
    if job.words[0] == "resend":
        return done._replace(err=b"".join(lines[:-1]))
    return done


def jobs_without_capture():
    """The load of each signal, and words of no job."""
    return [Job(["no", "job"], b"")] + [Job(["selfrun", name, "1"], b"") for name in REQUESTS]


def ends(capture):
    """Where each frame of a capture ends, after the place where the first one begins."""
    places = [0]
    while places[-1] < len(capture):
        places.append(places[-1] + 5 + int.from_bytes(capture[places[-1] + 1 : places[-1] + 5], "big"))
    return places


def tell(words, what, tried, wrong):
    """Prints how many of a job's runs were wrong, and returns it."""
    print(f"{' '.join(words)}: {what}: {tried} tried, {len(wrong)} wrong {wrong[:5] if wrong else ''}".rstrip(), flush=True)
    return len(wrong)
