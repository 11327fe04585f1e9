#!/usr/bin/env python3
"""Compares what `binfarce at` answers of random addresses with GNU readelf and addr2line -f: 10,000 in each ELF file.

The symbols are those of compare-elf.py, and their readable names those of the listing, which compare-elf.py compares. An
address is shown by the symbol that begins last of those that hold it, of several by the first in table order that isn't local,
or else by the first, with what follows its mangling, such as `.cold`, which the listing leaves out; a line without one is `??`. What addr2line says is counted:
the same symbol, another symbol at that address, a symbol where none holds the address (it names the one before a gap), or
another one (with debug information that of an inlined function).
"""
import bisect
import collections
import importlib
import os
import random
import re
import subprocess
import sys

import listing

elf = importlib.import_module("compare-elf")
PROGRAM = os.path.join(os.path.dirname(os.path.abspath(__file__)), "../target/release/binfarce")
COUNT = 10_000
LLVM = re.compile(rb"\.llvm\.[0-9A-F@]*$")
SUFFIXED = re.compile(rb"_{0,2}(?:R[^.]*|ZN.*E)(\..*)", re.S)


def finder(rows, local):
    """The place of the row that an address is shown by, or None."""
    order = sorted(range(len(rows)), key=lambda place: (rows[place][0], rows[place] not in local, -place))
    starts = [rows[place][0] for place in order]
    longest = max(size for _, size, _ in rows)

    def find(address):
        at = bisect.bisect_right(starts, address) - 1
        while at >= 0 and address - starts[at] < longest:
            start, size, _ = rows[order[at]]
            if address < start + size:
                return order[at]
            at -= 1
        return None

    return find


def shown(address, place, rows, texts):
    """The line of an address and the place of its row."""
    if place is None:
        return b"%016x ??" % address
    (start, _, name), (_, _, text) = rows[place], texts[place]
    rest = SUFFIXED.fullmatch(LLVM.sub(b"", name)) if text != name else None
    return b"%016x %s%s+0x%x" % (address, text, rest[1] if rest else b"", address - start)


def kind(rows, place, answered, address):
    """What addr2line's name of an address is beside the row that it is shown by."""
    if place is None:
        return "none" if answered == b"??" else "gap"
    if answered == rows[place][2]:
        return "same"
    return "alias" if any(row[0] <= address < row[0] + row[1] and row[2] == answered for row in rows) else "other"


def main():
    args = listing.arguments(__doc__)
    random.seed(1)
    bad = files = 0
    for file in listing.files(args.paths, b"\x7fELF"):
        rows, _, refusal = elf.expected(file, args)
        texts, _, words = listing.listed(args.list, file, args.section)
        if refusal or words or not rows:
            continue
        files += 1
        low, high = min(row[0] for row in rows), max(row[0] + row[1] for row in rows)
        addresses = [random.randrange(max(low - 8, 0), high + 8) for _ in range(COUNT)]
        asked = b"".join(b"%x\n" % address for address in addresses)
        command = [PROGRAM, "at", f"--section={args.section}", file]
        got = subprocess.run(command, input=asked, stdout=subprocess.PIPE).stdout.split(b"\n")[:-1]
        local = {(address, size, name) for address, size, _, _, name, binding in elf.symbols(file, b".symtab") if binding == b"LOCAL"}
        find = finder(rows, local)
        places = [find(address) for address in addresses]
        want = [shown(*it, rows, texts) for it in zip(addresses, places)]
        wrong = [pair for pair in zip(want, got) if pair[0] != pair[1]] + ([] if len(want) == len(got) else [("lines", len(got))])
        bad += bool(wrong)
        answered = subprocess.run(["addr2line", "-f", "-e", file], input=asked, stdout=subprocess.PIPE).stdout.split(b"\n")[:-1:2]
        kinds = collections.Counter(kind(rows, *it) for it in zip(places, answered, addresses))
        print(f"{file}: {len(want)} addresses, {len(wrong)} wrong; addr2line:", *(f"{n} {name}" for name, n in sorted(kinds.items())))
        for pair in wrong[: None if args.all else 3]:
            print("   wanted, got:", *pair)
    print(f"{files} files, {bad} of which disagree")
    return 1 if bad or not files else 0


if __name__ == "__main__":
    sys.exit(main())
