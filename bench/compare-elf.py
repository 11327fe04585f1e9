#!/usr/bin/env python3
"""Compares every line of the listing of ELF files with what GNU readelf says of them.

A row of the symbol table is listed where readelf shows it as FUNC in the section asked for, with a size that isn't 0
and a name that isn't empty and is UTF-8; in table order. The last line is the section's size.
Names that may be mangled are compared only where a peer is given; see README.md.
"""
import re

import listing

SECTION = re.compile(
    rb" *\[ *([0-9]+)\] (.*?) *([A-Z][A-Z0-9_]*(?:\+0x[0-9a-f]+)?|<unknown>|[0-9a-f]{8}: <unknown>) +"
    rb"((?:[0-9a-f]{8}){1,2}) ([0-9a-f]+) ([0-9a-f]+) ([0-9a-f]+) [ A-Za-z]* *[0-9]+ +[0-9]+ +[0-9]+")
CORRUPT = re.compile(rb"<corrupt(: *[0-9a-f]+)?>")  # what is shown for a name past the end of the strings
# Num: Value Size Type Bind Vis [other bits] Ndx Name; sizes above 99999 are in hex
SYMBOL = re.compile(
    rb" *[0-9]+: ([0-9a-f]+) +(0x[0-9a-f]+|[0-9]+) (.{7}) (.{6}) (\S+) +(?:\[[^\]]*\] +)?(\S+)(?: (.*))?", re.S)


def sections(file):
    """(index, name, type, size) of each section; None where the header's count of sections can't hold it."""
    header = listing.output(["readelf", "-hW", "--", file])
    count = re.search(rb"Number of section headers: +([0-9]+)( \([0-9]+\))?", header)
    if not count or count[2] or count[1] == b"0":
        return None
    found = []
    for line in listing.output(["readelf", "-SW", "--", file]).split(b"\n"):
        match = SECTION.fullmatch(line)
        if match:
            found.append((int(match[1]), match[2], match[3], int(match[6], 16)))
    if len(found) != int(count[1]):
        raise SystemExit("%s: readelf shows %d of %s sections" % (file, len(found), count[1].decode()))
    return found


def symbols(file, table):
    """(address, size, type, section, name, binding) of each row of the first symbol table with this name."""
    rows, inside = [], False
    for line in listing.output(["readelf", "-sW", "--", file]).split(b"\n"):
        if line.startswith(b"Symbol table '"):
            if inside:
                break
            inside = line.startswith(b"Symbol table '" + table + b"' ")
        elif inside:
            match = SYMBOL.fullmatch(line)
            if match:
                size = match[2].decode()
                rows.append((int(match[1], 16), int(size, 16 if size.startswith("0x") else 10), match[3].strip(),
                             match[6], (match[7] or b"").replace(b"^\xbf", b"\x7f"), match[4].strip()))
    return rows


def shown(name):
    """A name as readelf shows it: a control character as ^ and a letter."""
    return re.sub(rb"[\0-\x1f]", lambda m: b"^" + bytes([m[0][0] + 64]), name)


def expected(file, args):
    found = sections(file)
    text = next((s for s in found or [] if s[1] == args.section.encode()), None)
    if text is None:
        return [], 0, "symbols section is missing"
    table = next((s for s in found if s[2] == b"SYMTAB"), None)
    if table is None:
        return [], 0, "section .symtab is missing"
    rows = []
    for address, size, kind, section, name, _ in symbols(file, table[1]):
        kept = kind == b"FUNC" and section == b"%d" % text[0] and size != 0
        if kept and name and not CORRUPT.fullmatch(name) and listing.is_text(name):
            rows.append((address, size, name))
    return rows, text[3], None


if __name__ == "__main__":
    arguments = listing.arguments(__doc__)
    listing.judge(arguments, listing.files(arguments.paths, b"\x7fELF"), expected, shown)
