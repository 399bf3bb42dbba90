#!/usr/bin/env python3
"""Checks that the bytes of a cell can't be kept over a further record.

`RowsView::part` hands out bytes that stay for as long as the reader is lent. In a copy of the crates this adds to a test
of column_tests a part that is used after `Reader::take`, which the compiler must refuse, since it borrows the reader twice.
"""

import os
import shutil
import subprocess
import sys
import tempfile

TOP = os.path.dirname(os.path.dirname(os.path.abspath(__file__)))
TESTS = os.path.join("crates", "column_tests", "src", "columns.rt")

# A part is taken before a further record, and used after it.
CHANGES = [
    ("    let refusal = reader.take(&third);\n",
     "    let part = reader.view(&second).part(1, 0);\n    let refusal = reader.take(&third);\n"),
    ("    assert!(rt; reader.is_broken());\n",
     "    assert!(rt; part.is_some());\n"),
]


def copy(room):
    """The crates without what `rt` keeps, in an empty folder."""
    shutil.copytree(os.path.join(TOP, "crates"), os.path.join(room, "crates"), ignore=shutil.ignore_patterns("out"))
    for name in ("crates.txt", "HANDLES"):
        shutil.copy(os.path.join(TOP, name), room)


def change(room):
    path = os.path.join(room, TESTS)
    with open(path, encoding="utf-8") as file:
        text = file.read()
    for old, new in CHANGES:
        if text.count(old) != 1:
            sys.exit(f"{TESTS} has another text: {old.strip()}")
        text = text.replace(old, new)
    with open(path, "w", encoding="utf-8") as file:
        file.write(text)


def main():
    with tempfile.TemporaryDirectory(prefix="finavoluth-") as room:
        copy(room)
        change(room)
        crate = os.path.join(room, "crates", "column_tests")
        run = subprocess.run(["rt", "try", "--test"], cwd=crate, capture_output=True, text=True)
        said = run.stdout + run.stderr
    if "borrow-e0502" not in said:
        sys.exit("a part is kept over a further record:\n" + said[-2000:])
    print("a part that is kept over a further record is refused")


if __name__ == "__main__":
    main()
