#!/usr/bin/env python3
"""Runs the commands that README.md shows, and compares what they print with what it shows.

    edge/test/readme.py OTAP

A block that begins with ```sh is run, in the order of the page, in one folder that holds examples/ and crates/ of the
repository, where the program has been built; OTAP is the built command, which is put on the path. The block after it, where it begins with ```text, is what the commands print
on standard output and standard error together; ```text begins means that they print that first. Where no such block follows,
what they print isn't compared. All must end with status 0 or 1, and with 0 where nothing is shown. A block without a word
after its ``` isn't run: what builds the program, and what that prints; no command of otap may stand there.
"""

import os
import subprocess
import sys
import tempfile
from pathlib import Path

REPOSITORY = Path(__file__).resolve().parent.parent.parent
LIMIT = 60


def blocks(page):
    """The blocks of a page: the number of the line, the words after the fence, and the text."""
    found, inside = [], None
    for number, line in enumerate(page.splitlines(), 1):
        if not line.startswith("```"):
            if inside:
                inside[2].append(line)
        elif inside:
            found.append((inside[0], inside[1], "\n".join(inside[2]) + "\n"))
            inside = None
        else:
            inside = (number, line[3:].strip(), [])
    if inside:
        raise SystemExit(f"README.md: the block of line {inside[0]} has no end")
    return found


def run(commands, folder, otap):
    path = f"{otap.parent}:{os.environ['PATH']}"
    done = subprocess.run(
        ["bash", "-c", commands],
        cwd=folder,
        env={**os.environ, "PATH": path},
        stdin=subprocess.DEVNULL,
        stdout=subprocess.PIPE,
        stderr=subprocess.STDOUT,
        timeout=LIMIT,
    )
    return done.returncode, done.stdout.decode()


def main():
    otap = Path(sys.argv[1]).resolve()
    page = blocks((REPOSITORY / "README.md").read_text())
    failed = ran = 0
    with tempfile.TemporaryDirectory(prefix="readme_") as folder:
        for name in ("examples", "crates"):
            (Path(folder) / name).symlink_to(REPOSITORY / name)
        for i, (line, words, text) in enumerate(page):
            if words == "" and any(it.startswith("otap ") for it in text.splitlines()):
                print(f"README.md:{line}: commands of otap that aren't run: begin their block with ```sh")
                failed += 1
            if words != "sh":
                continue
            ran += 1
            status, printed = run(text, folder, otap)
            shown = page[i + 1][1:] if i + 1 < len(page) and page[i + 1][1].startswith("text") else None
            if shown is None:
                wrong = status != 0
            elif shown[0] == "text begins":
                wrong = status not in (0, 1, 141) or not printed.startswith(shown[1])
            else:
                wrong = status not in (0, 1, 2) or printed != shown[1]
            if wrong:
                failed += 1
                print(f"README.md:{line}: status {status}\n{text}prints\n{printed}")
                if shown:
                    print(f"and README shows\n{shown[1]}")
    print(f"README.md: {ran} blocks of commands, {failed} wrong")
    return 1 if failed or ran < 10 else 0


if __name__ == "__main__":
    sys.exit(main())
