#!/usr/bin/env python3
"""Measures what it costs to make a name readable in Rattle, through C and through Cargo, beside the Rust crate `binfarce` and
`rustc-demangle`: the least time of RUNS runs, a name, and with COUNT=1 instructions by callgrind.

    bench/calls.py [--original LIBRARY] [--rattle PROGRAM] NAMES ..

NAMES are files of names, one a line. --original is the Rust crate, compiled by `rustc -C opt-level=3` (a .rlib). --rattle is
calls.txt, which the kit builds there if it isn't there yet. ARCHIVE=libbinfarce.a is the library for C, cargo's unless given.
What needs a tool that is missing is left out with a line. Each program reads all names once more for each round, so the cost of
a name is the difference of two numbers of rounds: the start of a process and the reading of the names are no part of it.
"""

import argparse
import os
import re
import shutil
import subprocess
import tempfile
import time

TOP = os.path.dirname(os.path.dirname(os.path.abspath(__file__)))
RUNS = 9


def run(*command, **more):
    return subprocess.run(command, check=True, **more)


def has(*tools):
    for tool in tools:
        if not shutil.which(tool):
            print(f"{tool} is missing: what needs it is left out")
            return False
    return True


def in_rattle(work, program):
    """bench/calls.txt as a crate of a copy of the repository, over the libraries that are proved there."""
    copy = f"{work}/copy"
    os.mkdir(copy)
    run("sh", "-c", f"tar -c -C '{TOP}' --exclude=.git --exclude=target . | tar -x -C '{copy}'")
    os.makedirs(f"{copy}/crates/bench_calls/src")
    shutil.copy(f"{TOP}/bench/calls.txt", f"{copy}/crates/bench_calls/src/main.rt")
    with open(f"{copy}/crates.txt", "a", encoding="utf-8") as file:
        file.write("bench_calls: binfarce_names\n")
    run(f"{copy}/run", "bench_calls", stdin=subprocess.DEVNULL, stdout=subprocess.DEVNULL)
    shutil.copy(f"{copy}/crates/bench_calls/out/bench_calls", program)


def through_c(work, archive):
    run("gcc", "-std=c11", "-O2", f"-I{TOP}/include", f"{TOP}/bench/calls.c", archive, "-o", f"{work}/through-c")


def through_cargo(work):
    env = dict(os.environ, CARGO_TARGET_DIR=f"{work}/target")
    run("cargo", "build", "--offline", "--quiet", "--release", "--example", "calls", cwd=f"{TOP}/rust", env=env)
    shutil.copy(f"{work}/target/release/examples/calls", f"{work}/through-cargo")


def by_rustc(source, made, *more):
    run("rustc", "--edition", "2021", "-C", "opt-level=3", *more, source, "-o", made, env=dict(os.environ, RUSTC_BOOTSTRAP="1"))


def clients(work, original, rattle):
    """The programs, each with its call, and the words after the number of rounds."""
    archive = os.path.join(TOP, os.environ.get("ARCHIVE") or "target/release/libbinfarce.a")
    if rattle and not os.path.exists(rattle) and has("rt"):
        in_rattle(work, rattle)
    in_kit = [os.path.abspath(rattle)] if rattle and os.path.exists(rattle) else None
    if in_kit:
        yield "`push_trimmed` in Rattle", in_kit, ["trimmed"]
    if has("gcc"):
        through_c(work, archive)
        yield "`binfarce_trimmed` from C", [f"{work}/through-c"], ["trimmed"]
    if has("rustc"):
        by_rustc(f"{TOP}/bench/calls-peer.rs", f"{work}/peer")
        yield "`rustc-demangle`", [f"{work}/peer"], []
    if in_kit:
        yield "`SymbolName::demangle` in Rattle", in_kit, ["all"]
    if os.path.exists(f"{work}/through-c"):
        yield "`binfarce_demangle` from C", [f"{work}/through-c"], ["all"]
    if has("cargo"):
        through_cargo(work)
        yield "`SymbolName::demangle` of `rust`", [f"{work}/through-cargo"], []
    if original:
        by_rustc(f"{TOP}/rust/examples/calls.rs", f"{work}/original", "--extern", f"binfarce={original}")
        yield "`SymbolName::demangle` of the original", [f"{work}/original"], []


def spent(command, names, rounds, more):
    with open(names, "rb") as file:
        start = time.perf_counter()
        run(*command, str(rounds), *more, stdin=file, stdout=subprocess.DEVNULL)
        return time.perf_counter() - start


def counted(command, names, rounds, more):
    with open(names, "rb") as file:
        words = ["valgrind", "--tool=callgrind", "--callgrind-out-file=/dev/null", *command, str(rounds), *more]
        printed = run(*words, stdin=file, stdout=subprocess.DEVNULL, stderr=subprocess.PIPE, text=True).stderr
    return int(re.search(r"Collected : (\d+)", printed)[1])


def main():
    parser = argparse.ArgumentParser()
    parser.add_argument("--original")
    parser.add_argument("--rattle")
    parser.add_argument("names", nargs="+")
    given = parser.parse_args()
    with tempfile.TemporaryDirectory() as work:
        programs = list(clients(work, given.original, given.rattle))
        callgrind = bool(os.environ.get("COUNT")) and has("valgrind")
        for names in given.names:
            with open(names, "rb") as file:
                count = sum(1 for _ in file)
            rounds = max(2, 200000 // count)
            least = {}
            for _ in range(RUNS):
                for title, command, more in programs:
                    for many in (1, rounds + 1):
                        took = spent(command, names, many, more)
                        least[title, many] = min(took, least.get((title, many), took))
            head = ["call", "ns"] + ["instructions"] * callgrind
            print(f"\n{os.path.basename(names)}: {count} names\n\n| {' | '.join(head)} |\n|{'---|' * len(head)}")
            for title, command, more in programs:
                took = least[title, rounds + 1] - least[title, 1]
                row = f"| {title} | {took / rounds / count * 1e9:,.0f} |"
                if callgrind:
                    row += f" {(counted(command, names, 3, more) - counted(command, names, 1, more)) // (2 * count):,} |"
                print(row)


main()
