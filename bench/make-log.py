#!/usr/bin/env python3
"""Writes a log of so many lines to standard output, of which every tenth holds a name: make-log.py LINES [NAMES]

NAMES is a file of names, one a line, which are taken in turn; without it no line holds one.
"""

import sys

WORDS = "INFO server request_id accepted connection from 10.0.0.1:443 after 12.5 ms handler done retry_count=0".split()


def main():
    lines = int(sys.argv[1])
    names = [n for n in open(sys.argv[2]).read().split("\n") if n] if len(sys.argv) > 2 else []
    out = []
    for i in range(lines):
        line = f"2026-01-01T00:00:{i % 60:02} {' '.join(WORDS[(i + k) % len(WORDS)] for k in range(7))}"
        if names and i % 10 == 0:
            line += f" in {names[(i // 10) % len(names)]}+0x{i % 4096:x}"
        out.append(line + "\n")
    sys.stdout.write("".join(out))


main()
