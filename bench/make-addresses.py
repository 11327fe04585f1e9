#!/usr/bin/env python3
"""Writes COUNT random addresses in a file's functions to standard output, one a line: make-addresses.py FILE COUNT [FUNCTIONS]

They are spread over all functions, or taken of so many, of the nth as often as 1/n.
"""

import random
import sys

import listing


def main():
    random.seed(1)
    rows = [row for row in listing.listed(listing.PROGRAM, sys.argv[1])[0] if row[1]]
    count, few = int(sys.argv[2]), int(sys.argv[3]) if len(sys.argv) > 3 else 0
    spans = [(min(rows)[0], max(start + size for start, size, _ in rows))]
    if few:
        spans = [(start, start + size) for start, size, _ in random.sample(rows, few)]
    chosen = random.choices(spans, [1 / n for n in range(1, len(spans) + 1)], k=count)
    sys.stdout.write("".join(f"{random.randrange(*span):x}\n" for span in chosen))


main()
