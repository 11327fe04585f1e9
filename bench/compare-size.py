#!/usr/bin/env python3
"""Compares the report of ELF files by crate with what GNU readelf says of their symbols and a peer of their names.

The symbols are those of compare-elf.py. A symbol's crate is the one that the peer gives; for a legacy name that has none
what is before the first `::` of the complete name, unless that begins with `<`; else `[unknown]`. The peer's lines
hold kind, complete name, trimmed name and crate, which is None or Some(..); without a peer only files of which no name
may be mangled are compared.
"""
import importlib
import os
import re
import subprocess
import sys

import listing

elf = importlib.import_module("compare-elf")
PROGRAM = os.path.join(os.path.dirname(os.path.abspath(__file__)), "../target/release/binfarce-size")


def crate_of(answer):
    kind, complete, _, crate = map(listing.unescape, answer)
    if crate != b"None":
        return re.fullmatch(rb"Some\((.*)\)", crate, re.S)[1]
    if kind == b"Legacy" and not complete.startswith(b"<"):
        return complete.split(b"::")[0]
    return b"[unknown]"


def report_of(rows, size, answers):
    sums = {}
    for _, own, name in rows:
        crate = crate_of(answers[name]) if name in answers else b"[unknown]"
        sums[crate] = sums.get(crate, 0) + own
    lines = [b"%10d %s" % (sums[crate], crate) for crate in sorted(sums)]
    return lines + [b"sum %d" % sum(sums.values()), b"text %d" % size]


def reported(program, file, section):
    """The lines of the report that the program prints of a file, or the words of a refusal."""
    done = subprocess.run([program, file, section], stdout=subprocess.PIPE, stderr=subprocess.PIPE)
    if done.returncode != 0 or done.stderr:
        return None, done.stderr[len(b"binfarce-size: "):].rstrip(b"\n").decode(errors="replace")
    return done.stdout.removesuffix(b"\n").split(b"\n"), None


def main():
    args = listing.arguments(__doc__)
    program = PROGRAM if args.list == listing.PROGRAM else args.list
    files = bad = crates = left_out = 0
    for file in listing.files(args.paths, b"\x7fELF"):
        rows, size, refusal = elf.expected(file, args)
        mangled = [r[2] for r in rows if listing.MANGLED.match(r[2])]
        if mangled and not args.peer:
            left_out += 1
            continue
        answers = listing.answered(args.peer, mangled) if mangled else {}
        want = None if refusal else report_of(rows, size, answers)
        got = reported(program, file, args.section)
        same = got == (want, refusal)
        files, bad, crates = files + 1, bad + (not same), crates + (len(want) - 2 if want else 0)
        print("%-5s %7d crates  %s" % ("ok" if same else "BAD", len(want) - 2 if want else 0, file))
        if not same:
            print("  expected %s\n  but got  %s" % (refusal or want[:20], got[1] or got[0][:20]))
    print("%d files, %d crates, files left out %d, files that disagree %d" % (files, crates, left_out, bad))
    sys.exit(1 if bad or not files else 0)


main()
