#!/usr/bin/env python3
"""Runs each job while reading or writing fails, at each place of what it reads and of what it writes.

    tools/fail_each_call.py PROGRAM [--every N]

So each read, and each write to standard output or standard error, fails in turn. The objects are real ones: a socket
whose other end is gone, a directory, a file that has as many bytes as it may, a full device, and a pipe that nobody
reads. Where reading fails, the status is 3, and all that belongs to the frames before is there, and nothing else: nothing of
what `file` and `resend` put off until the capture ends, and nothing at all of `unfile`. Where writing fails, the status is 4,
and what was written to each is a front of what is written else. With N only each Nth place is tried, and those around the
ends of frames. A load is tried at some 20 places of what it writes.

It prints each job with the number of places tried and of wrong ones, and the status is 1 where one was wrong."""

import argparse
import os
import resource
import socket
import subprocess
import sys
import tempfile

from small_runs import Job, Run, before_the_end, ends_of, jobs, jobs_without_capture, run, run_within, tell


def places(count, every, near=()):
    """Each Nth place before a count, and those beside some others."""
    chosen = set(range(0, count, every))
    return sorted(chosen.union(p for n in near for p in range(n - 1, n + 2) if 0 <= p < count))


def run_cut_off(program, words, given):
    """The job on a socket that gives some bytes and then fails: its other end closes over a byte that it didn't read."""
    ours, theirs = socket.socketpair()
    theirs.send(b"x")
    ours.sendall(given)
    ours.close()
    with theirs:
        done = subprocess.run([program, *words], stdin=theirs, capture_output=True, check=False)
    return Run(done.stdout, done.stderr, done.returncode)


def wrong_reads(program, job, every):
    """The numbers of bytes after which a failing read gives something other than what the whole frames give."""
    begins = ends_of(job)
    whole = {place: before_the_end(job, run(program, Job(job.words, job.capture[:place]))) for place in begins}
    tried = places(len(job.capture) + 1, every, begins)
    wrong = []
    for given in tried:
        before = whole[max(place for place in begins if place <= given)]
        if run_cut_off(program, job.words, job.capture[:given]) != before._replace(status=3):
            wrong.append(given)
    return len(tried), wrong


def run_full(program, job, most, of_out):
    """The job whose output, or else whose errors, go to a file that may have `most` bytes."""
    with tempfile.TemporaryFile() as file:
        done = run_within(program, job, {resource.RLIMIT_FSIZE: most}, **{"out" if of_out else "err": file})
        file.seek(0)
        return done._replace(**{"out" if of_out else "err": file.read()})


def wrong_writes(program, job, every, of_out):
    """The numbers of bytes after which a failing write gives something other than a front of both texts."""
    all_of_it = run(program, job)
    text, other = (all_of_it.out, all_of_it.err) if of_out else (all_of_it.err, all_of_it.out)
    tried = places(len(text), every)
    wrong = []
    for most in tried:
        done = run_full(program, job, most, of_out)
        full, beside = (done.out, done.err) if of_out else (done.err, done.out)
        if done.status != 4 or full != text[:most] or not other.startswith(beside):
            wrong.append(most)
    return len(tried), wrong


def run_on(program, words, **objects):
    return subprocess.run([program, *words], check=False, **objects)


def wrong_objects(program, job):
    """The objects that fail at once, and lead to another status or to more than a front."""
    all_of_it, wrong = run(program, job), []
    with open("/dev/full", "wb") as full:
        done = run_on(program, job.words, input=job.capture, stdout=full, stderr=subprocess.PIPE)
        if done.returncode != (4 if all_of_it.out else all_of_it.status) or not all_of_it.err.startswith(done.stderr):
            wrong.append("/dev/full for output")
        done = run_on(program, job.words, input=job.capture, stdout=subprocess.PIPE, stderr=full)
        if done.returncode != (4 if all_of_it.err else all_of_it.status) or not all_of_it.out.startswith(done.stdout):
            wrong.append("/dev/full for errors")
    unread, pipe = os.pipe()
    os.close(unread)
    done = run_on(program, job.words, input=job.capture, stdout=pipe, stderr=subprocess.PIPE)
    os.close(pipe)
    if done.returncode != (4 if all_of_it.out else all_of_it.status) or not all_of_it.err.startswith(done.stderr):
        wrong.append("a pipe that nobody reads")
    if job.capture:
        folder = os.open("/", os.O_RDONLY)
        done = run_on(program, job.words, stdin=folder, capture_output=True)
        os.close(folder)
        if Run(done.stdout, done.stderr, done.returncode) != Run(b"", b"", 3):
            wrong.append("a directory")
    return 4 if job.capture else 3, wrong


def main():
    asked = argparse.ArgumentParser(description="Runs each job while reading or writing fails.")
    asked.add_argument("program")
    asked.add_argument("--every", type=int, default=1)
    asked = asked.parse_args()
    program, every, wrong = os.path.abspath(asked.program), asked.every, 0
    for job in jobs(program):
        wrong += tell(job.words, "reads", *wrong_reads(program, job, every))
        wrong += tell(job.words, "writes to output", *wrong_writes(program, job, every, True))
        wrong += tell(job.words, "writes of errors", *wrong_writes(program, job, every, False))
        wrong += tell(job.words, "objects", *wrong_objects(program, job))
    for job in jobs_without_capture():
        step = max(1, len(run(program, job).out) // 20)
        wrong += tell(job.words, "writes to output", *wrong_writes(program, job, step, True))
        wrong += tell(job.words, "writes of errors", *wrong_writes(program, job, every, False))
        wrong += tell(job.words, "objects", *wrong_objects(program, job))
    sys.exit(1 if wrong else 0)


main()
