#!/usr/bin/env python3
"""Compares what `binfarce filter` writes of logs with `rustfilt`'s rule: compare-filter.py BINFARCE LOG..

The rule: each match of `_(ZN|R)[$._[:alnum:]]*` is demangled whole, a legacy one only if its last element is a hash. A rest that
begins with `.` is kept, but for a `.llvm.` and number at its end. Texts are those of `c++filt` without the hash (legacy names)
and of `llvm-cxxfilt` (v0 names). Lines that differ only by what the rule leaves out are counted by kind: the types of constants,
and a `.llvm.` and number behind a rest.
"""

import collections
import itertools
import re
import subprocess
import sys

MATCH = re.compile(rb"_(?:ZN|R)[$._0-9A-Za-z]*")
TYPE = re.compile(rb": (?:[iu](?:8|16|32|64|128|size)|char|bool|_)(?=[,>;\])])")


def parts(match):
    """The mangling that a match begins with, its rest, and the `.llvm.` and number behind a rest; None where it is no mangling."""
    name, llvm, number = match.partition(b".llvm.")
    name = name if re.fullmatch(rb"[A-F0-9@]*", number) else match
    if name.startswith(b"_ZN"):
        last = end = 3
        while end < len(name) and name[end : end + 1] != b"E":
            digits = re.match(rb"\d+", name[end:])
            if not digits:
                return None
            last, end = end, end + len(digits[0]) + int(digits[0])
        if end >= len(name) or not re.fullmatch(rb"17h[0-9a-f]{16}", name[last:end]):
            return None
        end += 1
    else:
        end = name.find(b".") if b"." in name else len(name)
    rest = name[end:]
    return (name[:end], rest, match[len(name) :] if rest else b"") if rest[:1] in (b"", b".") else None


def texts(names):
    """The readable text of each name."""
    lines = b"".join(name + b"\n" for name in names)
    tools = ("c++filt", "llvm-cxxfilt")
    old, new = (subprocess.run([it], input=lines, stdout=subprocess.PIPE, check=True).stdout.split(b"\n") for it in tools)
    return {name: re.sub(rb"::h[0-9a-f]{16}$", b"", a) if name.startswith(b"_ZN") else b for name, a, b in zip(names, old, new)}


def kind(want, kept, got):
    """How a line differs from the rule's and from one that keeps each number behind a rest."""
    if got in (want, kept):
        return "same" if got == want else "numbers"
    want, kept, got = (TYPE.sub(b"", line) for line in (want, kept, got))
    return "types" if got == want else "types and numbers" if got == kept else "wrong"


def main():
    bad = False
    for path in sys.argv[2:]:
        with open(path, "rb") as file:
            log = file.read()
        found = [(m[0], *p) for m in MATCH.finditer(log) if (p := parts(m[0]))]
        shown = texts(sorted({name for _, name, _, _ in found}))
        new = {match: (shown[name] + rest, shown[name] + rest + number) for match, name, rest, number in found if shown[name] != name}
        want, kept = (MATCH.sub(lambda m: new.get(m[0], (m[0], m[0]))[at], log).split(b"\n") for at in (0, 1))
        got = subprocess.run([sys.argv[1], "filter"], input=log, stdout=subprocess.PIPE, check=True).stdout.split(b"\n")
        kinds = collections.defaultdict(list)
        # A missing line is one that no line can be.
        for lines in itertools.zip_longest(log.split(b"\n"), want, kept, got, fillvalue=b"\n"):
            kinds[kind(*lines[1:])].append(lines)
        print(f"{path}: {len(found)} names; lines:", *(f"{len(lines)} {it}" for it, lines in sorted(kinds.items())))
        for line, rule, _, here in kinds["wrong"][:6]:
            print(f"  text: {line}\n  rule: {rule}\n  here: {here}")
        bad = bad or bool(kinds["wrong"])
    sys.exit(bad)


main()
