#!/usr/bin/env python3
"""Compares how names are made readable with what a peer answers, and counts the differences by the peer's kind.

Names come from text files, one a line, or from ELF files (every name that their symbol tables hold). They are laid
out as the function symbols of a made ELF file, and the listing program is run on it. Left out are names that such a
file or a line can't hold: empty names, and those with a NUL, a line feed or bytes that are no UTF-8.
"""
import collections
import re
import struct
import sys
import tempfile

import listing

STEP = 50000


def names_of(path):
    with open(path, "rb") as opened:
        data = opened.read()
    if data[:4] != b"\x7fELF":
        return data.split(b"\n")
    names = []
    order = {1: "<", 2: ">"}[data[5]]
    wide = data[4] == 2
    at, = struct.unpack_from(order + ("Q" if wide else "I"), data, 40 if wide else 32)
    length, count = struct.unpack_from(order + "HH", data, 58 if wide else 46)
    header = order + ("IIQQQQIIQQ" if wide else "IIIIIIIIII")
    headers = [struct.unpack_from(header, data, at + k * length) for k in range(count)]
    for _, kind, _, _, offset, size, link, _, _, _ in headers:
        if kind in (2, 11):
            strings = data[headers[link][4]:headers[link][4] + headers[link][5]]
            for row in range(offset, offset + size, 24 if wide else 16):
                name, = struct.unpack_from(order + "I", data, row)
                names.append(strings[name:strings.index(b"\0", name)])
    return names


def can_be_held(name):
    return bool(name) and not re.search(rb"[\0\n\r]", name) and listing.is_text(name)


def made(names):
    """An ELF file of 64 bits, little endian, with a function symbol of each name, at 0, 1, 2, .. of size 1."""
    strings, rows = bytearray(b"\0"), bytearray(24)
    for address, name in enumerate(names):
        rows += struct.pack("<IBBHQQ", len(strings), 0x12, 0, 1, address, 1)
        strings += name + b"\0"
    own = b"\0.text\0.symtab\0.strtab\0.shstrtab\0"
    bodies = [b"", b"\xc3" * 16, bytes(rows), bytes(strings), own]
    kinds, places, links = [0, 1, 2, 3, 3], [0, 1, 7, 15, 23], [0, 0, 3, 0, 0]
    table = 64 + sum(map(len, bodies))
    file = bytearray(b"\x7fELF\x02\x01\x01".ljust(16, b"\0"))
    file += struct.pack("<HHIQQQIHHHHHH", 1, 62, 1, 0, 0, table, 0, 64, 0, 0, 64, len(bodies), 4)
    headers = bytearray()
    for body, kind, place, link in zip(bodies, kinds, places, links):
        headers += struct.pack("<IIQQQQIIQQ", place, kind, 0, 0, len(file), len(body), link, 0, 1, 24 if kind == 2 else 0)
        file += body
    return bytes(file + headers)


def compare(args, names, counts, faults):
    answers = listing.ask(args.peer, names)
    with tempfile.NamedTemporaryFile(suffix=".o") as scratch:
        scratch.write(made(names))
        scratch.flush()
        rows, _, refusal = listing.listed(args.list, scratch.name)
    if refusal or [r[0] for r in rows] != list(range(len(names))):
        sys.exit("the made file is not listed whole: %s" % (refusal or "%d of %d rows" % (len(rows), len(names))))
    for name, row in zip(names, rows):
        kind, wanted = answers[name]
        counts[kind, row[2] == wanted] += 1
        if row[2] != wanted:
            faults.append((kind, name, wanted, row[2]))


def main():
    args = listing.arguments(__doc__, lambda parser: parser.add_argument("--made", metavar="FILE", help="write that ELF file, and compare nothing"))
    if not (args.peer or args.made):
        sys.exit("--peer or --made is needed here")
    names = dict.fromkeys(n for path in args.paths for n in names_of(path) if can_be_held(n))
    names = list(names)
    if args.made:
        with open(args.made, "wb") as file:
            file.write(made(names))
        return
    counts, faults = collections.Counter(), []
    for start in range(0, len(names), STEP):
        compare(args, names[start:start + STEP], counts, faults)
    faults.sort(key=lambda f: len(f[1]))
    for kind, name, wanted, got in faults if args.all else faults[:10]:
        print("%s %r\n    peer    %r\n    program %r" % (kind, name, wanted, got))
    for kind in sorted({k for k, _ in counts}):
        print("%-8s %8d agree %8d differ" % (kind or "names", counts[kind, True], counts[kind, False]))
    sys.exit(1 if faults else 0)


if __name__ == "__main__":
    main()
