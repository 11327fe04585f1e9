#!/usr/bin/env python3
"""Compares every line of the listing of 64-bit little-endian Mach-O files with the tables that llvm-readobj shows.

A function has no size in a Mach-O symbol table, so that the next address above it ends it, whatever row of the table
has that address; the end of the text section ends the last one. Listed are the rows of section 1 whose type has one of
the bits 0x0A, with a value and a name; by address, and in table order where two are the same. A row at the very end
of the text with none above is left out. The last line is the size of section `__text` of segment `__TEXT`.

Before that the addresses, sizes and sections of `binfarce list --all` are compared, of the `binfarce` beside the listing
program: those of the rows that are defined in a section with instructions and lie in it, but for labels. The next of the
section ends a row, or the section's end.
"""
import bisect
import os
import sys

import listing
from listing import blocks, name_of, number


def expected(file, args):
    text = listing.readobj(file)
    section = None
    for fields in blocks(text, b"Section"):
        if name_of(fields[b"Name"]) == b"__text" and name_of(fields[b"Segment"]) == b"__TEXT":
            section = fields
            break
    if section is None:
        return [], 0, "symbols section is missing"
    start, size = number(section[b"Address"]), number(section[b"Size"])
    if size == 0:
        return [], 0, "malformed input file"
    rows = list(blocks(text, b"Symbol"))
    addresses = sorted({number(r[b"Value"]) for r in rows} - {0})
    kept = []
    for row in rows:
        address, name = number(row[b"Value"]), name_of(row[b"Name"])
        candidate = address != 0 and name and number(row[b"Type"]) & 0x0A and number(row[b"Section"]) == 1
        if not candidate:
            continue
        above = bisect.bisect_right(addresses, address)
        if above < len(addresses):
            kept.append((address, addresses[above] - address, name))
        elif address < start + size:
            kept.append((address, start + size - address, name))
        elif address > start + size:
            return [], 0, "malformed input file"
    kept = [row for row in kept if listing.is_text(row[2])]
    return sorted(kept, key=lambda row: row[0]), size, None


def of_all_sections(file):
    """The address, the size and the section of each function of the sections with instructions."""
    text, rows = listing.readobj(file), []
    sections = [(name_of(s[b"Segment"]) + b"," + name_of(s[b"Name"]), number(s[b"Address"]), number(s[b"Size"]),
                 number(s[b"Attributes"]) & 0x800004) for s in blocks(text, b"Section")]
    for row in blocks(text, b"Symbol"):
        name, at, address = name_of(row[b"Name"]), number(row[b"Section"]), number(row[b"Value"])
        if number(row[b"Type"]) & 0xEE != 0x0E or not name or name.startswith((b"ltmp", b"L")) or not listing.is_text(name):
            continue
        _, start, size, code = sections[at - 1]
        if code and start <= address < start + size:
            rows.append((at, address))
    sizes, after = {}, {}
    for at, address in sorted(set(rows), reverse=True):
        sizes[at, address] = after.get(at, sections[at - 1][1] + sections[at - 1][2]) - address
        after[at] = address
    return [(address, sizes[at, address], sections[at - 1][0]) for at, address in sorted(rows)]


if __name__ == "__main__":
    arguments = listing.arguments(__doc__)
    files = list(listing.files(arguments.paths, b"\xcf\xfa\xed\xfe"))
    for file in files:
        lines = listing.output([os.path.join(os.path.dirname(arguments.list), "binfarce"), "list", "--all", file])
        got = [(int(address, 16), int(size), section) for address, size, section, *_ in map(bytes.split, lines.splitlines())]
        if got != of_all_sections(file):
            sys.exit(file + ": other functions of all sections")
    listing.judge(arguments, files, expected)
