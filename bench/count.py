#!/usr/bin/env python3
"""Counts the functions and the lines of code of each crate, and ends with status 1 if one isn't below its bounds.

Counted are the files that `mod` items reach from src/lib.rt or src/main.rt, tests among them. A function is an `fn` with a name
and a body. A line of code is a line on which something is left once comments, contracts (`requires`, `ensures` and all `ghost`
items) and the attributes of the prover are taken out.

Usage: count.py [CRATE..]
"""
import pathlib
import re
import sys

FUNCTIONS, LINES = 100, 1500
CRATES = pathlib.Path(__file__).resolve().parent.parent / "crates"
# What may hold a brace, a quote or a slash that is none: comments, texts and characters (a lifetime has no second ').
TOKENS = re.compile(r"""//[^\n]*|b?"(?:\\.|[^"\\])*"|b?'(?:\\[^']+|[^'\\])'""", re.S)
CLOSING = {"{": "}", "[": "]", "(": ")"}

def blank(text):
    """The text as long as it was, with spaces for comments, and for texts quotes and no other sign."""
    def instead(match):
        return re.sub(r"[^\n]", " ", match[0]) if match[0].startswith("//") else re.sub(r"\S", '"', match[0])
    return TOKENS.sub(instead, text)

def end_of(text, at):
    """The position after the bracket that closes the one at this position."""
    opens, closes, depth = text[at], CLOSING[text[at]], 0
    for position in range(at, len(text)):
        depth += (text[position] == opens) - (text[position] == closes)
        if depth == 0:
            return position + 1
    raise SystemExit("a bracket is not closed: " + text[at:at + 60])

def without(text, pattern, ends):
    """The text with spaces from where the pattern matches to where `ends` says."""
    while match := pattern.search(text):
        end = ends(text, match)
        text = text[:match.start()] + re.sub(r"[^\n]", " ", text[match.start():end]) + text[end:]
    return text

def end_of_item(text, match):
    """An item ends with its block, or with the semicolon where it has none."""
    at = match.end()
    while text[at] not in "{;":
        at = end_of(text, at) if text[at] in "([" else at + 1
    if text[at] == "{" and text[end_of(text, at):].lstrip().startswith(";"):
        return text.index(";", end_of(text, at)) + 1
    return at + 1 if text[at] == ";" else end_of(text, at)

def end_of_attribute(text, match):
    return end_of(text, text.index("[", match.start()))

def end_of_clause(text, match):
    return end_of(text, match.end() - 1)

def code_of(text):
    """The text with spaces for what isn't counted."""
    text = without(blank(text), re.compile(r"#!?\[\s*(?:tactic|cycle|rattlefmt)\b"), end_of_attribute)
    text = without(text, re.compile(r"\bghost\b"), end_of_item)
    return without(text, re.compile(r"\b(?:requires|ensures)\b\*?\s*\w*\s*\{"), end_of_clause)

def counted(file, folder):
    """Functions and lines of a file and of the modules that it names; their files are in the folder."""
    text = code_of(file.read_text(encoding="utf-8"))
    functions = sum(text[end_of_item(text, match) - 1] == "}" for match in re.finditer(r"\bfn\s+\w+", text))
    lines = sum(bool(line.strip()) for line in text.split("\n"))
    for name in re.findall(r"\bmod\s+(\w+)\s*;", text):
        more = counted(folder / (name + ".rt"), folder / name)
        functions, lines = functions + more[0], lines + more[1]
    return functions, lines

def main():
    names = sys.argv[1:] or sorted(folder.name for folder in CRATES.iterdir() if (folder / "src").is_dir())
    failed = []
    print("%-24s %9s %6s" % ("crate", "functions", "lines"))
    for name in names:
        source = CRATES / name / "src"
        root = next(source / file for file in ("lib.rt", "main.rt") if (source / file).is_file())
        functions, lines = counted(root, source)
        fault = "not below the bound" if functions >= FUNCTIONS or lines >= LINES else ""
        failed += [name] * bool(fault)
        print(("%-24s %9d %6d  %s" % (name, functions, lines, fault)).rstrip())
    sys.exit(1 if failed else 0)

if __name__ == "__main__":
    main()
