"""What the comparing scripts share: running the listing program, asking a peer for names, and reporting differences.

A listing is a list of (address, size, name) and the size of the section, or the words of a refusal.
Names are bytes throughout.
"""
import argparse
import os
import re
import subprocess
import sys

PROGRAM = os.path.join(os.path.dirname(os.path.abspath(__file__)), "../target/release/binfarce-list")
LINE = re.compile(rb"([0-9a-f]{16}) ( *[0-9]{1,20}) (.*)", re.S)
MANGLED = re.compile(rb"_?_?ZN|_?_?R[A-Z]|.*\.llvm\.", re.S)


def arguments(what, add=lambda parser: None):
    parser = argparse.ArgumentParser(description=what)
    parser.add_argument("--list", default=PROGRAM, metavar="PROGRAM", help="the listing program, if not the built one")
    parser.add_argument("--peer", metavar="COMMAND", help="answers names from standard input, one a line")
    parser.add_argument("--section", default=".text", help="the section that is listed (ELF)")
    parser.add_argument("--all", action="store_true", help="print every disagreement of a file, not the first three")
    add(parser)
    parser.add_argument("paths", nargs="+", metavar="FILE|FOLDER")
    return parser.parse_args()


def files(paths, magics):
    """Each file given, and in a folder each file that begins with one of the magics."""
    for path in paths:
        if not os.path.isdir(path):
            yield path
            continue
        for folder, _, names in sorted(os.walk(path)):
            for name in sorted(names):
                file = os.path.join(folder, name)
                if os.path.isfile(file):
                    with open(file, "rb") as opened:
                        if opened.read(8).startswith(magics):
                            yield file


def is_text(name):
    try:
        name.decode("utf-8")
        return True
    except UnicodeDecodeError:
        return False


def output(command):
    """What a tool prints; its locale is fixed so that its words are."""
    done = subprocess.run(command, stdout=subprocess.PIPE, stderr=subprocess.PIPE, env={**os.environ, "LC_ALL": "C"})
    return done.stdout


def listed(program, file, *section):
    """The listing that the program prints of a file; ([], 0, words) where it refuses."""
    done = subprocess.run([program, file, *section], stdout=subprocess.PIPE, stderr=subprocess.PIPE)
    if done.returncode == 1 and not done.stdout and done.stderr.startswith(b"binfarce-list: "):
        return [], 0, done.stderr[len(b"binfarce-list: "):].rstrip(b"\n").decode()
    if done.returncode != 0 or done.stderr:
        return [], 0, "status %d: %s" % (done.returncode, done.stderr[-200:].decode(errors="replace"))
    lines = done.stdout.split(b"\n")
    if len(lines) < 2 or lines[-1] or not re.fullmatch(rb"text [0-9]+", lines[-2]):
        return [], 0, "the listing has no last line `text N`"
    rows = []
    for line in lines[:-2]:
        match = LINE.fullmatch(line)
        if not match:
            return [], 0, "a line that is no row: %r" % line[:200]
        if len(match[2]) > 10 and match[2].startswith(b" "):
            return [], 0, "a size that is padded too far: %r" % line[:200]
        if len(match[2]) < 10:
            return [], 0, "a size that is padded too little: %r" % line[:200]
        rows.append((int(match[1], 16), int(match[2]), match[3]))
    return rows, int(lines[-2][5:]), None


def readobj(file):
    """What LLVM's reader (READOBJ, or llvm-readobj) prints of the sections and symbols of a Mach-O or PE file."""
    return output([os.environ.get("READOBJ", "llvm-readobj"), "--sections", "--symbols", file])


def blocks(text, head):
    """The fields of each `Head { .. }` that LLVM's reader prints, of a list `[ (0x1)` its number."""
    for block in re.findall(rb"^  %s \{\n(.*?)^  \}$" % head, text, re.S | re.M):
        yield dict(re.findall(rb"^    (\w+)(?::| \[) ?(.*)$", block, re.M))


def number(field):
    """The last number of a field: `Section (0xE)`, `12`, `0x1C`, `IMAGE_SYM_DEBUG (-2)`."""
    return int(re.findall(rb"0x[0-9A-Fa-f]+|-?[0-9]+", field)[-1], 0)


def name_of(field):
    """The text of `text (..)`."""
    return re.fullmatch(rb"(.*) \(.*?\)", field, re.S)[1]


def unescape(field):
    return re.sub(rb"\\([tnr\\])", lambda m: {b"t": b"\t", b"n": b"\n", b"r": b"\r", b"\\": b"\\"}[m[1]], field)


def answered(peer, names):
    """What the peer answers for each name: the fields of its line, with \\t \\n \\r \\\\ in them written out.

    Names that hold a line feed or a return are not asked, and have no answer.
    """
    unique = [n for n in dict.fromkeys(names) if b"\n" not in n and b"\r" not in n]
    if not unique:
        return {}
    done = subprocess.run(peer.split(), input=b"\n".join(unique) + b"\n", stdout=subprocess.PIPE)
    lines = done.stdout.split(b"\n")[:-1]
    if len(lines) != len(unique):
        sys.exit("the peer answered %d lines for %d names" % (len(lines), len(unique)))
    return {name: line.split(b"\t") for name, line in zip(unique, lines)}


def ask(peer, names):
    """What the peer answers for each name: (kind, readable name).

    An answer with tabs is kind, complete name, trimmed name and crate. Any other answer is the readable name.
    """
    answers = {}
    for name, fields in answered(peer, names).items():
        if len(fields) == 4:
            answers[name] = (fields[0].decode(), unescape(fields[2]))
        else:
            answers[name] = ("", b"\t".join(fields))
    return answers


def short(name):
    """A name to be shown, cut where it is long."""
    return "any" if name is None else repr(name) if len(name) < 160 else repr(name[:160]) + ".."


def judge(args, cases, rows_of, shown=lambda name: name):
    """Compares each file's listing with what `rows_of(file, args)` expects; ends the process with 1 where one disagrees.

    `rows_of` gives (rows, size, refusal) with the names as the file stores them, but for what `shown` does to a name.
    """
    total = {"files": 0, "refused": 0, "lines": 0, "named": 0, "unnamed": 0, "bad": 0}
    for file in cases:
        expected, size, refusal = rows_of(file, args)
        got, got_size, got_refusal = listed(args.list, file, args.section)
        answers = ask(args.peer, [r[2] for r in expected if MANGLED.match(r[2])]) if args.peer else {}
        faults = []
        if refusal != got_refusal:
            faults.append("refusal: expected %s, but got %s" % (refusal or "none", got_refusal or "none"))
        elif size != got_size:
            faults.append("last line: expected %d, but got %d" % (size, got_size))
        if len(expected) != len(got) and refusal == got_refusal:
            faults.append("lines: expected %d, but got %d" % (len(expected), len(got)))
        for row, (want, have) in enumerate(zip(expected, got)):
            name, text = want[2], have[2]
            if MANGLED.match(name):
                name = answers.get(name, (None, None))[1]
            else:
                text = shown(text)
            total["unnamed" if name is None else "named"] += 1
            if want[:2] != have[:2] or (name is not None and name != text):
                faults.append("line %d, stored name %s:\n    expected %x %d %s\n    but got  %x %d %s" % (
                    row + 1, short(want[2]), want[0], want[1], short(name), have[0], have[1], short(have[2])))
        total["files"] += 1
        total["refused"] += refusal is not None
        total["lines"] += len(expected)
        total["bad"] += bool(faults)
        print("%-5s %7d lines  %s" % ("BAD" if faults else "ok", len(expected), file + (": " + refusal if refusal else "")))
        for fault in faults if args.all else faults[:3]:
            print("  " + fault)
        if len(faults) > 3 and not args.all:
            print("  .. and %d more" % (len(faults) - 3))
    print("%(files)d files (%(refused)d refused), %(lines)d lines, names compared %(named)d, left out %(unnamed)d, "
          "files that disagree %(bad)d" % total)
    sys.exit(1 if total["bad"] or not total["files"] else 0)
