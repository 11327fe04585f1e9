#!/usr/bin/env python3
"""Compares every line of the listing of PE files with the tables that llvm-readobj shows.

Listed are the rows of type function and class external in the section `.text`, by address, and in table order where
two are the same. A function has no size in a PE symbol table: the next listed address above it ends it, or the end of
the section's bytes in the file; with neither above it the size is 0. The last line is the section's size in the file.
"""
import bisect

import listing
from listing import blocks, name_of, number


def expected(file, args):
    text = listing.readobj(file)
    section = next((s for s in blocks(text, b"Section") if name_of(s[b"Name"]) == b".text"), None)
    if section is None:
        return [], 0, "symbols section is missing"
    size, index = number(section[b"RawDataSize"]), number(section[b"Number"])
    kept = []
    for row in blocks(text, b"Symbol"):
        function = number(row[b"ComplexType"]) == 2 and number(row[b"StorageClass"]) == 2
        if function and number(row[b"Section"]) == index and listing.is_text(row[b"Name"]):
            kept.append((number(row[b"Value"]), row[b"Name"]))
    kept.sort(key=lambda row: row[0])
    ends = sorted({address for address, _ in kept} | {size})
    rows = []
    for address, name in kept:
        above = bisect.bisect_right(ends, address)
        rows.append((address, ends[above] - address if above < len(ends) else 0, name))
    return rows, size, None


if __name__ == "__main__":
    arguments = listing.arguments(__doc__)
    listing.judge(arguments, listing.files(arguments.paths, b"MZ"), expected)
