#!/usr/bin/env python3
"""Packs the jobs below examples/ and their reports for the program `cases`: examples/pack.py [--check]

crates/cases/stdin gets each job behind a line `= NAME LENGTH`, and crates/cases/stdout a line
`NAME:` and the report for each. NAME is the job's path below examples/ without `.job`.
With --check nothing is written; the first difference is named, and the exit code is 1.
"""
import sys
from pathlib import Path

EXAMPLES = Path(__file__).resolve().parent
CASES = EXAMPLES.parent / "crates" / "cases"

# The program judges these by itself: two files too large to keep, and a buffer too short.
TAIL = b"""65535 bytes:
NO 3 1 0 1
65536 bytes:
NO 2 0 0 0
a buffer of 2399 bytes: 0 true
"""


def packed():
    """The parts of both files, each with its name."""
    jobs = sorted(EXAMPLES.rglob("*.job"), key=lambda job: (job.parent != EXAMPLES, job.with_suffix("")))
    stdin, stdout = [], []
    for job in jobs:
        report = job.with_suffix(".report")
        if not report.exists():
            sys.exit(f"{job}: there is no report beside it")
        name = job.relative_to(EXAMPLES).with_suffix("").as_posix()
        file = job.read_bytes()
        stdin.append((name, f"= {name} {len(file)}\n".encode() + file))
        stdout.append((name, f"{name}:\n".encode() + report.read_bytes()))
    return {"stdin": stdin, "stdout": stdout + [("the end", TAIL)]}


def difference(path, parts):
    """Where the file is not made of the parts, or None."""
    if not path.exists():
        return "there is no such file"
    there, place = path.read_bytes(), 0
    for name, part in parts:
        if there[place : place + len(part)] != part:
            return f"differs at {name}"
        place += len(part)
    return "goes on after the last part" if place < len(there) else None


def main(arguments):
    if arguments not in ([], ["--check"]):
        sys.exit(__doc__)
    for file, parts in packed().items():
        path = CASES / file
        if not arguments:
            path.write_bytes(b"".join(part for _, part in parts))
        elif found := difference(path, parts):
            sys.exit(f"crates/cases/{file}: {found}")


if __name__ == "__main__":
    main(sys.argv[1:])
