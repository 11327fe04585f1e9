#!/usr/bin/env python3
"""Compares rust/src/erased with the sources in crates/*/src, by no code of tools/erase. Only the forms below may be missing or changed;
comments aren't compared. Each file's first other difference is printed, and then the status is 1.
"""
import os
import pathlib
import re
import sys

# Escaped quotes and backslashes are hidden when a text is cut into words; a literal is one word, without brackets.
TOKEN = re.compile(r"""//.*|"[^"]*"|'(?:[^'\\]|\\[^']+|[\ue00c-\ue00e])'|'?\w+|::|->|=>|\S""")
HIDDEN = str.maketrans(" \n(){}[]<>;,", "\ue000\ue001\ue002\ue003\ue004\ue005\ue006\ue007\ue008\ue009\ue00a\ue00b")
SHOWN = {value: key for key, value in HIDDEN.items()}
# Imports of what Rattle has without one, and imports that the prover or a derive needs alone.
PRELUDE = {f"std::{name}" for name in ("HostRuntime", "String", "Vec", "CollectIn", "ToSigned", "TrimmedAscii", "to_usize")}
GHOSTS = {"std::marker::Model", "std::io::Input", "std::os::unix::fs::FileExt", "std::fmt::Write", "thiserror::Error"}
VALUE = r"(?:& )?\w+(?: \. \w+ \( \))?"
ITEMS = r"(?:[^()]|\((?:[^()]|\([^()]*\))*\))*"
# A name, a call or a group with what is behind it, and without an operator but one before it.
OPERAND = r"(?:[*!-] )?(?:\w+|\((?:[^()]|\([^()]*\))*\))(?: (?:\.|::) \w+| \((?:[^()]|\([^()]*\))*\)| \?)*"
# What the erased files lack: from what begins so up to the first of these that is in no bracket or closes the first one.
LACKS = [(r"\bghost (?=\w)", ";,"), (r"\b(?:requires|ensures) (?=(?:\w+ )?\{)", "}"),
         (r"# (?:! )?\[ (?:tactic|cycle|rattlefmt|unsafe)\b", "]")]
# A law is a function that does nothing.
EITHER = [(r"(?:pub (?:\( crate \) )?)?fn \w+ (?:< [^{(]*> )?\( [^{]*\) \{ (?:let _ = [^;]*; )*\}", ""),
          (r"\bpub (?:\( crate \) )?mod (\w+) ;", r"mod \1 ;"), (r", (?=[)\]}>])", ""),
          # A number becomes a `usize` by a cast or by a call.
          (rf"\busize :: from \( ({OPERAND}) \)", r"\1 as usize"), (r"\( (\w+ as usize) \)", r"\1")]
SOURCE = [
    (r"\bimpl (?:< [^{;]*> )?Model for [^{]*\{ \}", ""), (r"(?:pub )?mod laws ;|# \[ cfg \( test \) \] mod tests ;", ""),
    (r"\bcrate ::", "OWN ::"),
    (r"# \[ derive \( Drop \) \]", ""), (r"\+ Drop\b|: Drop\b", ""), (r"# \[ error \( \S+ \) \]", ""),
    *((rf"(# \[ derive \( [^)]*) , {it}\b", r"\1") for it in ("Error", "Drop")),
    (r'extern "C" fn', "fn"), (r"(?:\bpub )?\bfn main \(", "pub fn main ("),
    (r"\bfn fmt < W : fmt :: Write >", "fn fmt"), (r"\bFormatter < W >", "Formatter < '_ >"),
    (rf"vec ! \[ in ({VALUE}) ; ([^;\]]*) ; ([^;\]]*) \]", r"Vec :: filled ( \1 , \2 , \3 )"),
    (rf"\b(eprintln|println) ! \( ({VALUE}) ; ({ITEMS})\)", r"\2 . \1 ( format_args ! ( \3 ) )"),
    (rf"\bformat ! \( in ({VALUE}) ; ({ITEMS})\)", r"String :: formatted ( \1 , format_args ! ( \2 ) )"),
]
ERASED = [
    (r"# \[ non_exhaustive \] (?=pub struct (?:CodeSegment|FunctionSymbol|LoadAddress|SectionFunction)\b)", ""),
    (r"# \[ cfg_attr \( not \( debug_assertions \) , inline \( always \) \) \]", "# [ inline ( always ) ]"),
    (r"\bcollect_in\b", "collect"), (r"\bto_signed\b", "cast_signed"), (r"\btrimmed_ascii", "trim_ascii"), (r"\bto_usize \(", "usize :: from ("),
    (r"\bcrate :: erased ::", ""), (r"\bcrate :: shim ::|\bcore ::", "std ::"),
    (r'# \[ cfg \( feature = "std" \) \] (?=pub mod program ;)', ""),
]
USE = r"(pub )?\buse ([^;{]*)(?:\{([^}]*)\} )?;"
# What the derive of an error makes; its texts are rows of tests/programs.py.
SHOWS = (r"impl std :: fmt :: Display for (\w+) \{ fn fmt \( & self , f : & mut std :: fmt :: Formatter < '_ > \) "
         r"-> std :: fmt :: Result \{ match self \{ (?:\1 :: \w+ (?:\( e \) )?=> write ! \( f , \S+ \) , )*\} \} \} "
         r"impl std :: error :: Error for \1 \{ \}")

def without(text, start, ends):
    """The text without what begins so."""
    while found := re.search(start, text):
        depth = 0
        for at in range(found.start(), len(text)):
            depth += (text[at] in "([{") - (text[at] in ")]}")
            if depth == 0 and text[at] in ends:
                break
        text = text[:found.start()].rstrip() + text[at + 1:]
    return text

def plain(path, own, rules):
    """The words of a file that are compared in order, and its imports."""
    text = path.read_text().replace("\\\\", "\ue00c").replace('\\"', "\ue00d").replace("\\'", "\ue00e")
    words = [word for word in TOKEN.findall(text) if word[:2] != "//"]
    text = " ".join(word.translate(HIDDEN) if word[0] in "\"'" and word[-1] in "\"'" else word for word in words)
    for start, ends in LACKS:
        text = without(text, start, ends)
    for pattern, new in [*rules, (SHOWS, ""), *EITHER]:
        text = " ".join(re.sub(pattern, new.replace("OWN", own), text).split())
    imports = set()
    for public, parent, names in re.findall(USE, text):
        for name in names.split(","):
            path, _, short = (parent + name).replace(":: self", "").partition(" as ")
            path = re.sub("[: ]+$", "", path).replace(" ", "")
            imports.add((path, short.strip() or path.split("::")[-1], public))
    return re.sub(USE, "", text).split(), imports

def difference(source, erased, own):
    """The first difference of two files, or None."""
    (a, wanted), (b, given) = plain(source, own, SOURCE), plain(erased, own, ERASED)
    if a != b:
        at = len(os.path.commonprefix([a, b]))
        a, b = (" ".join(words[max(at - 4, 0):at + 8]).translate(SHOWN) for words in (a, b))
        return f"{source} has `{a}`, and {erased} has `{b}`"
    for item in sorted(wanted ^ given):
        if item[0] not in (GHOSTS if item in wanted else PRELUDE):
            return f"{source if item in wanted else erased} alone has {' '.join(item).translate(SHOWN)}"

TOP = pathlib.Path(__file__).resolve().parent.parent
FOLDER, differences = TOP / "rust/src/erased", []
left = set(FOLDER.rglob("*.rs")) - {FOLDER / "mod.rs"}
for source in sorted(TOP.glob("crates/*/src/**/*.rt")):
    own, inner = source.relative_to(TOP).parts[1], pathlib.Path(*source.relative_to(TOP).with_suffix("").parts[3:])
    erased = FOLDER / (f"{own}.rs" if str(inner) in ("lib", "main") else f"{own}/{inner}.rs")
    if erased in left:
        left.remove(erased)
        differences.append(difference(source, erased, own))
    elif (FOLDER / f"{own}.rs").exists() and source.stem not in ("laws", "tests"):
        differences.append(f"{source} is missing in {FOLDER}")
wrong = [*filter(None, differences), *(f"{path} is made of no source" for path in sorted(left))]
print(*wrong, f"{len(differences)} files, {len(wrong)} differences", sep="\n")
sys.exit(1 if wrong or not differences else 0)
