#!/usr/bin/env python3
"""Puts a job file together: assemble.py LANGUAGE LOCATIONS PROGRAM... TRACE > FILE

Each program, and the trace, is one argument: its lines with commas between them.
The head is worked out from them.
"""
import sys


def section(text):
    return "".join(line.strip() + "\n" for line in text.split(",") if line.strip())


def assemble(language, locations, sections):
    lengths = [len(text) for text in sections]
    head = ""
    while True:
        offset = len(head)
        lines = [f"J {language} {len(sections) - 1} {locations}\n"]
        for length in lengths:
            lines.append(f"D {offset} {length}\n")
            offset += length
        if "".join(lines) == head:
            return head + "".join(sections)
        head = "".join(lines)


if __name__ == "__main__":
    if len(sys.argv) < 5:
        sys.exit(__doc__)
    sys.stdout.write(assemble(sys.argv[1], sys.argv[2], [section(text) for text in sys.argv[3:]]))
