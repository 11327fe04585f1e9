#!/usr/bin/env python3
"""Compares what `binfarce list --undefined` writes of ELF files with GNU nm -u, and with readelf what it says in JSON.

Without a dynamic symbol table both take the other one. A row has the symbol and its version as nm writes them, the binding
that readelf prints, and a file of which readelf -V prints this version.
"""
import collections
import json
import os
import re
import subprocess
import sys

import listing

PROGRAM = os.path.join(os.path.dirname(os.path.abspath(__file__)), "../target/release/binfarce")


def output(*command):
    return subprocess.run(command, stdout=subprocess.PIPE, stderr=subprocess.DEVNULL).stdout


def by_nm(file, *options):
    rows = (re.match(rb" *[UwvV] (.*)", line) for line in output("nm", *options, "-p", "-u", "--with-symbol-versions", "--no-demangle", file).split(b"\n"))
    return [row[1] for row in rows if row]


def by_readelf(file, option):
    rows = (line.split(None, 7) for line in output("readelf", "-W", option, file).split(b"\n"))
    return [row[4].decode().lower() for row in rows if len(row) == 8 and row[6] == b"UND" and row[0] != b"0:"]


def sources(file):
    """The files that readelf prints for each needed version."""
    found, source = collections.defaultdict(set), None
    for line in output("readelf", "-W", "-V", file).decode(errors="replace").split("\n"):
        if entry := re.search(r"Version: \d+  File: (\S+)  Cnt", line):
            source = entry[1]
        elif source and (entry := re.search(r"Name: (\S+)  Flags: ", line)):
            found[entry[1]].add(source)
    return found


def main():
    args = listing.arguments(__doc__)
    program = PROGRAM if args.list == listing.PROGRAM else args.list
    files = rows = bad = 0
    for file in listing.files(args.paths, b"\x7fELF"):
        got = output(program, "list", "--undefined", "--raw", file).split(b"\n")[:-1]
        objects = [json.loads(it) for it in output(program, "list", "--undefined", "--raw", "--json", file).split(b"\n")[:-1]]
        objects = [it for it in objects if "error" not in it]
        is_dynamic = b"'.dynsym'" in output("readelf", "-W", "--dyn-syms", file)
        named = sources(file)
        same = collections.Counter(got) == collections.Counter(by_nm(file, *["-D"] * is_dynamic))
        same &= [it["binding"] for it in objects] == by_readelf(file, "--dyn-syms" if is_dynamic else "-s")
        same &= all(it["from"] in named[it["version"]] if it["version"] else it["from"] is None for it in objects)
        files, rows, bad = files + 1, rows + len(got), bad + (not same)
        if not same:
            print(f"{file}: differs")
    print(f"{files} files, {rows} rows; {bad} files differ")
    sys.exit(bad != 0)


if __name__ == "__main__":
    main()
