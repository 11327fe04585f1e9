#!/usr/bin/env python3
"""Writes v0 names made at random, one a line: random-names.py COUNT [SEED]

random-names.py COUNT        names of paths with short types, and with back references to any of the types before them
random-names.py --tuples N   one name of N tuples, each twice in the next: its steps double with each
"""

import random
import sys

DIGITS = "0123456789abcdefghijklmnopqrstuvwxyzABCDEFGHIJKLMNOPQRSTUVWXYZ"
BASIC = "abcdefhijlmnopstuvxyz"


def base_62(number):
    """A number as v0 writes it: `_` is 0, and `0_` is 1."""
    if number == 0:
        return "_"
    number -= 1
    digits = DIGITS[number % 62]
    while number >= 62:
        number //= 62
        digits = DIGITS[number % 62] + digits
    return digits + "_"


def push_type(rng, text, starts, depth):
    """Writes a type after the text. `starts` are the positions after the prefix at which types begin that have ended."""
    start = len(text) - len("_R")
    kind = rng.choice("bbrtfB") if depth < 4 else "b"
    if kind == "B" and starts:
        return text + "B" + base_62(rng.choice(starts))
    if kind == "r":
        text = push_type(rng, text + "R", starts, depth + 1)
    elif kind == "t":
        text = push_list(rng, text + "T", starts, depth + 1, 4)
    elif kind == "f":
        text = push_type(rng, push_list(rng, text + rng.choice(["F", "FG_"]), starts, depth + 1, 3), starts, depth + 1)
    else:
        text += rng.choice(BASIC)
    starts.append(start)
    return text


def push_list(rng, text, starts, depth, below):
    """Writes fewer than so many types after the text, and their end."""
    for _ in range(rng.randrange(below)):
        text = push_type(rng, text, starts, depth)
    return text + "E"


def name(rng):
    text, starts = "_RINvC1a1f", []
    for _ in range(rng.randrange(2, 9)):
        text = push_type(rng, text, starts, 0)
    return text + "E"


def tuples(count):
    """The inmost tuple has a placeholder, and each tuple its first item again: the name takes 3 * 2 ** count steps."""
    text = "_RMC0" + "T" * count + "p"
    for at in range(count, 0, -1):
        text += "B" + base_62(len("MC0") + at) + "E"
    return text


def main():
    if sys.argv[1] == "--tuples":
        print(tuples(int(sys.argv[2])))
        return
    rng = random.Random(int(sys.argv[2]) if len(sys.argv) > 2 else 1)
    for _ in range(int(sys.argv[1])):
        print(name(rng))


main()
