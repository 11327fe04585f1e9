#!/usr/bin/env python3
"""Lists Mach-O and PE tables of more and more rows and prints how the time grows, beside n log n.

Both formats store no sizes, so the listing arranges the rows by address and takes each size from the next greater one.
The tables have all addresses different, in order or in the opposite order or mixed, or each two, or all, the same.
`--original COMMAND` is a program that makes the same listing, and is timed beside it (`COMMAND FILE`): how many times
as long it takes, `inf` where that is over ten seconds.
"""
import argparse
import math
import struct
import subprocess
import tempfile
import time

import listing

FUNCTION = {"macho": 0x0F, "pe": 0x20}
ORDERS = {
    "in order": lambda row, rows: row,
    "opposite": lambda row, rows: rows - row,
    "mixed": lambda row, rows: row * 7919 % rows,
    "two and two": lambda row, rows: row // 2,
    "all the same": lambda row, rows: 0,
}


def macho(addresses, size):
    """One segment of one section, and a symbol table: the layout of <mach-o/loader.h>."""
    rows = b"".join(struct.pack("<IBBHQ", 1, FUNCTION["macho"], 1, 0, 0x1000 + 16 * a) for a in addresses)
    segment = struct.pack("<II16s4QIIII", 0x19, 152, b"__TEXT", 0, 0, 0, 0, 0, 0, 1, 0)
    section = struct.pack("<16s16sQQ8I", b"__text", b"__TEXT", 0x1000, 16 * size, 0, 0, 0, 0, 0, 0, 0, 0)
    table = struct.pack("<6I", 2, 24, 208, len(addresses), 208 + len(rows), 3)
    header = struct.pack("<8I", 0xFEEDFACF, 0, 0, 0, 2, 176, 0, 0)
    return header + segment + section + table + rows + b"\0a\0"


def pe(addresses, size):
    """A file header right after the signature, one section header, and symbols: the layout of the PE format."""
    rows = b"".join(struct.pack("<8sIHHBB", b"a", 16 * a, 1, FUNCTION["pe"], 2, 0) for a in addresses)
    dos = b"MZ".ljust(60, b"\0") + struct.pack("<I", 64)
    header = b"PE\0\0" + struct.pack("<HHIIIHH", 0x8664, 1, 0, 128, len(addresses), 0, 0)
    section = struct.pack("<8s6I2HI", b".text", 0, 0, 16 * size, 0, 0, 0, 0, 0, 0)
    return dos + header + section + rows


def least_time(command, runs):
    """The least time of some runs in seconds, or infinity where one takes longer than ten, or fails."""
    least = math.inf
    for _ in range(runs):
        start = time.perf_counter()
        done = subprocess.run(["timeout", "10", *command], stdout=subprocess.DEVNULL, stderr=subprocess.DEVNULL)
        least = min(least, time.perf_counter() - start)
        if done.returncode != 0:
            return math.inf
    return least


def main():
    parser = argparse.ArgumentParser(description=__doc__)
    parser.add_argument("--list", default=listing.PROGRAM, metavar="PROGRAM")
    parser.add_argument("--original", metavar="COMMAND")
    parser.add_argument("--rows", type=int, nargs="+", default=[62_500, 125_000, 250_000, 500_000, 1_000_000])
    parser.add_argument("--runs", type=int, default=3)
    args = parser.parse_args()
    print(f"{'table':20} {'rows':>9} {'ms':>9} {'ns / (n log2 n)':>16} {'original':>9}")
    for format in (macho, pe):
        for order, place in ORDERS.items():
            for rows in args.rows:
                with tempfile.NamedTemporaryFile() as file:
                    file.write(format([place(row, rows) for row in range(rows)], 2 * rows))
                    file.flush()
                    took = least_time([args.list, file.name], args.runs)
                    other = least_time([*args.original.split(), file.name], args.runs) if args.original else math.nan
                each = took * 1e9 / (rows * math.log2(rows))
                print(f"{format.__name__ + ', ' + order:20} {rows:9} {took * 1e3:9.1f} {each:16.2f} {other / took:9.2f}")


if __name__ == "__main__":
    main()
