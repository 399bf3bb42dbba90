#!/usr/bin/env python3
"""Runs each job while memory is wanting, from the first allocation that the program makes on.

    tools/refuse_each_allocation.py PROGRAM [--every N] [--single]

The C library is told to ask the operating system for each allocation by itself. Then each job is run in address spaces of
all sizes, page by page, from the least in which the program starts up to the one in which the job is done. With --single,
which needs `strace`, each allocation is refused by itself too, while those before it and after it are granted.

The status must be 6, and what is written to standard output and standard error a front of what is written else. With N only
each Nth size and each Nth allocation is tried. A load has too many allocations for that: it is run in some 20 sizes, and the
C library is left as it is.

It prints each job with the number of sizes, and of single allocations, tried and of wrong ones, and the status is 1 where
one was wrong."""

import argparse
import os
import re
import resource
import subprocess
import sys
import tempfile

from small_runs import Run, jobs, jobs_without_capture, run, run_within, source_of, tell

PAGE = 4096
# Each allocation has pages of its own, which go back when it is freed.
TUNED = {"GLIBC_TUNABLES": "glibc.malloc.mmap_threshold=0:glibc.malloc.mmap_max=1000000"}
WITHOUT_HEAP = ["-e", "inject=brk:error=ENOMEM"]


def ends_well(done, whole):
    """Whether a run ended for want of memory, after a front of what it writes else."""
    return done.status == 6 and whole.out.startswith(done.out) and whole.err.startswith(done.err)


def run_in(program, job, pages):
    limits = {resource.RLIMIT_AS: pages * PAGE}
    return run_within(program, job, limits, environment={**os.environ, **TUNED} if job.capture else None)


def least(low, high, holds):
    """The least number for which something holds, where it holds of each greater one."""
    while low < high:
        middle = (low + high) // 2
        low, high = (low, middle) if holds(middle) else (middle + 1, high)
    return low


def wrong_sizes(program, job, whole, every):
    """The numbers of pages that are too few for the job, and in which it doesn't end well. Without a number to go by, some 20
    are tried."""
    starts = least(1, 1 << 18, lambda pages: run_in(program, job, pages).status in (6, whole.status))
    enough = least(starts, 1 << 18, lambda pages: run_in(program, job, pages) == whole)
    tried = range(starts, enough, every or max(1, (enough - starts) // 20))
    return len(tried), [pages for pages in tried if not ends_well(run_in(program, job, pages), whole)]


def trace(program, job, log, faults):
    """The job, and its calls to the operating system for memory, some of which fail."""
    words = ["strace", "-qq", "--seccomp-bpf", "-f", "-o", log, "-e", "trace=mmap,mremap,munmap,brk", *faults, program, *job.words]
    with source_of(job) as source:
        done = subprocess.run(words, stdin=source, capture_output=True, check=False, env={**os.environ, **TUNED})
    with open(log, encoding="utf-8") as file:
        calls = re.findall(r"\b(mmap|mremap|munmap)\(", file.read())
    return Run(done.stdout, done.stderr, done.returncode), calls


def refusal(before, call):
    """What makes a call fail after those before it, and the C library's further tries: it asks twice for a block, and twice for
    a new one where a block can't grow."""
    made = before.count("mmap") + 1
    if call == "mmap":
        return ["-e", f"inject=mmap:error=ENOMEM:when={made}..{made + 1}"]
    grown = f"inject=mremap:error=ENOMEM:when={before.count('mremap') + 1}"
    return ["-e", grown, "-e", f"inject=mmap:error=ENOMEM:when={made}..{made + 1}"]


def wrong_refusals(program, job, whole, every):
    """The allocations whose refusal isn't followed by a good end."""
    with tempfile.TemporaryDirectory() as room:
        log = os.path.join(room, "log")
        calls = trace(program, job, log, WITHOUT_HEAP)[1]
        # The loader ends with the call that gives its cache back. Then the C library makes a cache of its own, and the program
        # asks for room that it gives back at once. Without these two they go on.
        _, _, *places = (n for n, call in enumerate(calls) if n > calls.index("munmap") and call != "munmap")
        tried, wrong = places[::every], []
        for place in tried:
            faults = WITHOUT_HEAP + refusal(calls[:place], calls[place])
            if not ends_well(trace(program, job, log, faults)[0], whole):
                wrong.append(place)
    return len(tried), wrong


def main():
    asked = argparse.ArgumentParser(description="Runs each job while memory is wanting.")
    asked.add_argument("program")
    asked.add_argument("--every", type=int, default=1)
    asked.add_argument("--single", action="store_true")
    asked = asked.parse_args()
    program, wrong = os.path.abspath(asked.program), 0
    for job in jobs(program) + jobs_without_capture():
        whole = run(program, job)
        wrong += tell(job.words, "sizes of memory", *wrong_sizes(program, job, whole, asked.every if job.capture else 0))
        if asked.single and job.capture:
            wrong += tell(job.words, "single refusals", *wrong_refusals(program, job, whole, asked.every))
    sys.exit(1 if wrong else 0)


main()
