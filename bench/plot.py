#!/usr/bin/env python3
"""Draws wall time and peak memory beside each peer and file, as an SVG on standard output: plot.py results.tsv >listing.svg

Each bar is a command's least time, or its peak, as a multiple of the program's on the same file; the program is the line at 1. The
axis begins with the power of two below the least multiple. Of each file and command the last row counts.
"""

import math
import sys

PEERS = {"original": "#b45309", "nm -S": "#64748b", "nm -SC": "#0f766e", "llvm-nm": "#2563eb", "llvm-nm -C": "#7c3aed"}
LEFT, TOP, BAR, GAP, WIDE = 180, 68, 14, 18, 300
TICKS = [1, 2, 4, 8, 16, 32]


def read(path):
    """The files in order, and of each file and command the time in ms and the peak in MiB."""
    figures = {}
    with open(path, encoding="utf-8") as opened:
        for line in opened:
            fields = line.rstrip("\n").split("\t")
            figures.setdefault(fields[3], {})[fields[4]] = float(fields[5]), float(fields[6])
    return figures


def place(ratio):
    """The position of a ratio on the axis, which doubles at each step."""
    low, high = TICKS[0], TICKS[-1]
    return WIDE * math.log2(min(max(ratio, low), high) / low) / math.log2(high / low)


def text(x, y, words, size=11, anchor="start", colour="#334155"):
    return f'<text x="{x:.1f}" y="{y:.1f}" font-size="{size}" text-anchor="{anchor}" fill="{colour}">{words}</text>'


def axis(x, bottom, title):
    yield text(x, TOP - 22, title, 12)
    for tick in TICKS:
        at = x + place(tick)
        colour, width = ("#0f172a", 1.5) if tick == 1 else ("#e2e8f0", 1)
        yield f'<line x1="{at:.1f}" y1="{TOP - 4}" x2="{at:.1f}" y2="{bottom}" stroke="{colour}" stroke-width="{width}"/>'
        yield text(at, TOP - 8, f"{tick:g}", 11, "middle", "#64748b")


def draw(figures):
    rows = [(file, [p for p in PEERS if p in by]) for file, by in figures.items() if "program" in by]
    least = min(figures[file][peer][which] / figures[file]["program"][which] for file, peers in rows for peer in peers for which in (0, 1))
    while TICKS[0] > least:
        TICKS.insert(0, TICKS[0] / 2)
    bottom = TOP + sum(BAR * len(peers) + GAP for _, peers in rows)
    width, height = LEFT + 2 * WIDE + 130, bottom + 34
    yield f'<svg xmlns="http://www.w3.org/2000/svg" width="{width}" height="{height}" viewBox="0 0 {width} {height}" font-family="sans-serif">'
    yield f'<rect width="{width}" height="{height}" fill="white"/>'
    yield text(12, 20, "Listing a file: what other programs take, as multiples of binfarce-list (the line at 1); longer is slower, or larger", 13)
    columns = (LEFT, "wall time", 0, "ms"), (LEFT + WIDE + 60, "peak memory", 1, "MiB")
    for x, title, _, _ in columns:
        yield from axis(x, bottom, title)
    y = TOP
    for file, peers in rows:
        own = figures[file]["program"]
        yield text(LEFT - 10, y + 11, file, 12, "end")
        yield text(LEFT - 10, y + 26, f"{own[0]:.3g} ms, {own[1]:.3g} MiB", 11, "end", "#64748b")
        for peer in peers:
            for x, _, which, unit in columns:
                ratio = figures[file][peer][which] / own[which]
                start, end = sorted((place(1), place(ratio)))
                yield (f'<rect x="{x + start:.1f}" y="{y}" width="{max(end - start, 1):.1f}" height="{BAR - 2}" fill="{PEERS[peer]}">'
                       f"<title>{peer}: {figures[file][peer][which]:g} {unit}</title></rect>")
                yield text(x + end + 3, y + BAR - 3, f"{ratio:.2g}", 11, "start", "#64748b")
            y += BAR
        y += GAP
    x = LEFT
    for peer, colour in PEERS.items():
        yield f'<rect x="{x}" y="{height - 24}" width="10" height="10" fill="{colour}"/>'
        yield text(x + 14, height - 15, {"original": "the Rust crate"}.get(peer, peer), 11)
        x += 30 + 7 * len({"original": "the Rust crate"}.get(peer, peer))
    yield "</svg>"


print("\n".join(draw(read(sys.argv[1]))))
