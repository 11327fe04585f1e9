#!/usr/bin/env python3
"""Compares the sections of ELF, Mach-O and PE files, and the bytes of each, with what other tools say of them.

The lines are those that `llvm-readobj --sections` shows, and of an ELF file those of `readelf -SW` too. The bytes of the
first section of each name are what `objcopy --dump-section` writes (`llvm-objcopy` for Mach-O, and for PE the program that
OBJCOPY names, x86_64-w64-mingw32-objcopy), and of a section that is loaded what `objcopy -O binary -j` writes too. Of a
section without bytes, and of one whose bytes end past the file, the program's words are compared. Names that no tool can
be asked for are counted.
"""
import os
import re
import subprocess
import sys
import tempfile

import listing
from listing import blocks, number

PROGRAM = os.path.join(os.path.dirname(os.path.abspath(__file__)), "../target/release/binfarce")


def run(*words):
    done = subprocess.run(words, stdout=subprocess.PIPE, stderr=subprocess.PIPE, env={**os.environ, "LC_ALL": "C"})
    return done.returncode, done.stdout, done.stderr


def name_of(field):
    return re.fullmatch(rb"(.*?) \([^()]*\)", field, re.S)[1]


def pe_size(virtual, raw):
    return min(virtual, raw) if virtual and raw else virtual or raw


def expected(file, kind):
    """Address, offset, size, name and whether there are bytes, of each section that LLVM's reader shows."""
    for s in blocks(listing.readobj(file), b"Section"):
        name = name_of(s[b"Name"])
        if kind == "elf":
            has = b"SHT_NOBITS" not in s[b"Type"]
            yield number(s[b"Address"]), number(s[b"Offset"]), number(s[b"Size"]), name, has
        elif kind == "macho":
            name = name_of(s[b"Segment"]) + b"," + name
            zero = b"ero" in s[b"Type"] and b"ill" in s[b"Type"]
            yield number(s[b"Address"]), number(s[b"Offset"]), number(s[b"Size"]), name, not zero
        else:
            stored = bytes(int(b, 16) for b in re.search(rb"\(([0-9A-F ]*)\)$", s[b"Name"])[1].split())
            raw, at = number(s[b"RawDataSize"]), number(s[b"PointerToRawData"])
            size = pe_size(number(s[b"VirtualSize"]), raw)
            yield number(s[b"VirtualAddress"]), at, size, stored.split(b"\0")[0], bool(raw and at)


def shown_by_readelf(file):
    text = run("readelf", "-SW", file)[1]
    rows = re.findall(rb"^ +\[ *[0-9]+\] (.{17,}?) +(\S+) +([0-9a-f]{8,16}) ([0-9a-f]{6,}) ([0-9a-f]{6,}) ", text, re.M)
    return [(int(a, 16), int(o, 16), int(s, 16), n.strip()) for n, _, a, o, s in rows]


def kind_of(file):
    with open(file, "rb") as opened:
        head = opened.read(4)
    return "elf" if head == b"\x7fELF" else "pe" if head[:2] == b"MZ" else "macho"


def dumped(file, kind, name, scratch):
    tool = {"elf": "objcopy", "macho": "llvm-objcopy", "pe": os.environ.get("OBJCOPY", "x86_64-w64-mingw32-objcopy")}[kind]
    made = os.path.join(scratch, "dumped")
    if os.path.exists(made):
        os.remove(made)
    run(tool, "--dump-section", b"%s=%s" % (name, made.encode()), file, os.path.join(scratch, "copy"))
    return open(made, "rb").read() if os.path.exists(made) else None


def loaded(file, name, scratch):
    made = os.path.join(scratch, "binary")
    if os.path.exists(made):
        os.remove(made)
    run("objcopy", "-O", "binary", "-j", name, file, made)
    return open(made, "rb").read() if os.path.exists(made) else b""


def judge_bytes(file, kind, rows, program, scratch, counts):
    seen, wrong = set(), []
    length = os.path.getsize(file)
    names = [row[3] for row in rows]
    for _, offset, size, name, has in rows:
        if name in seen or not name:
            continue
        seen.add(name)
        status, out, err = run(program, "section", file, name)
        if not has:
            counts["without bytes"] += 1
            if (status, out, err) != (1, b"", b"binfarce: %s: section has no bytes in the file\n" % os.fsencode(file)):
                wrong.append((name, status, err))
        elif offset + size > length:
            counts["past the end"] += 1
            if (status, out, err) != (1, b"", b"binfarce: %s: section reaches past the end of the file\n" % os.fsencode(file)):
                wrong.append((name, status, err))
        elif status or err:
            wrong.append((name, status, err))
        else:
            want = dumped(file, kind, name, scratch) if b"=" not in name and size else None
            if want is None:
                counts["empty, or not dumped"] += 1
                with open(file, "rb") as opened:
                    opened.seek(offset)
                    want = opened.read(size)
            else:
                counts["as dumped"] += 1
            if out != want:
                wrong.append((name, len(out), len(want)))
            binary = loaded(file, name, scratch) if kind == "elf" and size and names.count(name) == 1 else b""
            if binary:
                counts["as -O binary"] += 1
                if binary != out:
                    wrong.append((name, "-O binary", len(out), len(binary)))
    return wrong


def main():
    args = listing.arguments(__doc__)
    program = PROGRAM if args.list == listing.PROGRAM else args.list
    files = bad = sections = 0
    counts = dict.fromkeys(("as dumped", "as -O binary", "without bytes", "past the end", "empty, or not dumped"), 0)
    magics = (b"\x7fELF", b"MZ", b"\xcf\xfa\xed\xfe")
    for file in listing.files(args.paths, magics):
        kind = kind_of(file)
        rows = list(expected(file, kind))
        text = b"".join(b"%016x %10d %10d %s\n" % row[:4] for row in rows)
        status, out, err = run(program, "section", file)
        wrong = [] if (status, out, err) == (0, text, b"") else ["the lines: %d %r" % (status, err)]
        if kind == "elf":
            shown = [row for row in shown_by_readelf(file)]
            if [row[:3] for row in shown] != [row[:3] for row in rows]:
                wrong.append("the lines of readelf")
        with tempfile.TemporaryDirectory() as scratch:
            wrong += judge_bytes(file, kind, rows, program, scratch, counts)
        files, bad, sections = files + 1, bad + bool(wrong), sections + len(rows)
        if wrong:
            print("%s:" % file, *(wrong if args.all else wrong[:3]), sep="\n  ")
    print("%d files, %d sections: %s" % (files, sections, ", ".join("%d %s" % (n, what) for what, n in counts.items())))
    print("%d files disagree" % bad)
    sys.exit(bad != 0)


if __name__ == "__main__":
    main()
