#!/usr/bin/env python3
"""Compares two judges on random jobs: compare.py SEED COUNT COMMAND COMMAND

Each command reads jobs from standard input, each behind its length in four bytes, the lowest
first, and writes their reports in the same form. Prints `N jobs, M differ`, how often each report
came, and where the first differences are.
"""
import collections
import pathlib
import shlex
import struct
import subprocess
import sys

GENERATE = pathlib.Path(__file__).parent / "rust/target/release/generate"
BATCH = 20_000


def parts(pack):
    at = 0
    while at < len(pack):
        (length,) = struct.unpack_from("<I", pack, at)
        yield pack[at + 4:at + 4 + length]
        at += 4 + length


def run(command, given=b""):
    done = subprocess.run(command, input=given, stdout=subprocess.PIPE, check=False)
    if done.returncode != 0:
        sys.exit(f"{shlex.join(map(str, command))}: exit {done.returncode}")
    return done.stdout


def kind(report):
    words = report.split()
    return "OK" if words[:1] == [b"OK"] else b" ".join(words[:2]).decode()


def main():
    if len(sys.argv) != 5:
        sys.exit(__doc__)
    seed, count = int(sys.argv[1]), int(sys.argv[2])
    judges = [shlex.split(command) for command in sys.argv[3:]]
    kinds = collections.Counter()
    total = differ = 0
    while total < count:
        batch_seed, batch = seed + total // BATCH, min(BATCH, count - total)
        jobs = run([GENERATE, "pack", str(batch_seed), str(batch)])
        first, second = (list(parts(run(judge, jobs))) for judge in judges)
        if not len(first) == len(second) == batch:
            sys.exit(f"{batch} jobs, {len(first)} and {len(second)} reports")
        for number, (left, right) in enumerate(zip(first, second)):
            kinds[kind(left)] += 1
            if left != right:
                differ += 1
                if differ <= 10:
                    print(f"generate one {batch_seed} {number}: {left[:60]} {right[:60]}")
        total += batch
    for name in sorted(kinds, key=lambda name: (name[:2], int(name[2:] or 0))):
        print(f"{name:6} {kinds[name]}")
    print(f"{total} jobs, {differ} differ")
    sys.exit(1 if differ else 0)


main()
