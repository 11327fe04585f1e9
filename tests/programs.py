#!/usr/bin/env python3
"""tests/programs.py FOLDER [OTHER]: runs the programs of FOLDER where no stored run can, and ends with status 1 where one ends otherwise
than it must. Standard output is a full device or a closed pipe; files are large (8 GiB in little memory), pipes, of /proc or /sys,
folders, missing or several; reads and writes are short, interrupted or fail (tests/broken.c); calls are wrong.

Then the programs of FOLDER and OTHER, proved and built by cargo, must end alike byte for byte: on hostile files and names, and with random
arguments and streams, the same in every run. A closed standard stream isn't compared: Rust's runtime opens /dev/null in its place.
"""
import concurrent.futures
import errno
import json
import os
import pathlib
import random
import re
import runpy
import struct
import subprocess
import sys
import tempfile

FILES, NAMES = 2_000, 20_000

def printed(*command, given=None):
    return subprocess.run(command, input=given, capture_output=True, check=True, text=True).stdout

def ends(status, output, line, program, *words, given="/dev/null", to=subprocess.PIPE, under=()):
    """It must end with this status, this output, in which {path} is the last word, and this line or none on standard error. Given is a file,
    or bytes in a pipe."""
    if is_static and "env" in under:
        return
    streams = {"input": given} if isinstance(given, bytes) else {"stdin": os.open(given, os.O_RDONLY)}
    run = subprocess.run([*under, folder / program, *words], stdout=to, stderr=subprocess.PIPE, **streams)
    output = output.replace("{path}", str((words or ("",))[-1])).encode() if isinstance(output, str) else output
    ended, wanted = (run.returncode, run.stdout or b"", run.stderr), (status, output, f"{line}\n".lstrip("\n").encode())
    if ended != wanted:
        sys.exit(f"programs.py: {program} {words}, given {given}: ended with\n{ended}, and must with\n{wanted}")

def fails(line, pipe_status, pipe_line, *call, given="/dev/null"):
    """How it ends on a full device, and where no one reads a pipe."""
    ends(1, "", line, *call, given=given, to=open("/dev/full", "wb"))
    reader, writer = os.pipe()
    os.close(reader)
    ends(pipe_status, "", pipe_line, *call, given=given, to=writer)

def broken(**limits):
    """Under this, reads and writes are short or fail, as tests/broken.c says."""
    return "env", f"LD_PRELOAD={scratch}/broken.so", *(f"{name}={number}" for name, number in limits.items())

def writes(output, path, *call):
    """It writes this of a file, also where no byte can be read in order, or at offsets, and by interrupted reads; and of a pipe."""
    for under in ((), broken(READ=0, ERROR=errno.EIO), broken(PREADS=0, ERROR=0), broken(MOST=1)):
        ends(0, output, "", *call, path, under=under)
    for under in ((), broken(MOST=1)):
        ends(0, output, "", *call, "/dev/stdin", given=pathlib.Path(path).read_bytes(), under=under)

def reads(output, *call):
    """It writes this of each file with the sample's bytes, which comes last."""
    writes(output, sample, *call)
    for path in (*same[1:], "/dev/stdin"):
        ends(0, output, "", *call, path, given=large)
    for path in (sparse, far):
        ends(0, output, "", *call, path, under=("sh", "-c", 'ulimit -v 65536; exec "$0" "$@"'))

def system_calls(*words, given="/dev/null"):
    """How binfarce reads, and asks for lengths: the name, the offset and the result of each call, in order."""
    log = pathlib.Path(scratch, "calls")
    log.unlink(missing_ok=True)
    streams = {"input": given} if isinstance(given, bytes) else {"stdin": os.open(given, os.O_RDONLY)}
    subprocess.run([*broken(CALLS=log), folder / "binfarce", *words], capture_output=True, **streams)
    return [(name, int(at), int(got)) for name, at, got in map(str.split, log.read_text().splitlines())]

def answers(answer, line, *words):
    """The answer to a line must be there while its writer still waits."""
    call = "timeout", "60", folder / "binfarce", *words
    with subprocess.Popen(call, stdin=subprocess.PIPE, stdout=subprocess.PIPE, bufsize=0) as run:
        run.stdin.write(line)
        assert run.stdout.readline() == answer.encode(), f"{words}: another answer to {line}"

def assembled(name, size, *rows):
    """The path of an object file of these function symbols, by name, address and size, in so many bytes of .text."""
    lines = (f'.type "{name}",@function\n.set "{name}", .text + {at}\n.size "{name}", {size}\n' for name, at, size in rows)
    printed("gcc", "-c", "-o", f"{scratch}/{name}.o", "-x", "assembler", "-", given=f".text\n.skip {size}\n{''.join(lines)}")
    return f"{scratch}/{name}.o"

def of_one_name(count, length):
    """The path of an ELF file of so many functions of 16 bytes, which share a name of so many letters."""
    names = b"\0.text\0.symtab\0.strtab\0.shstrtab\0"
    rows = bytes(24) + b"".join(struct.pack("<IBBHQQ", 1, 18, 0, 1, 16 * at, 16) for at in range(count))
    parts = rows, b"\0" + b"a" * length + b"\0", names
    starts = [64 + sum(map(len, parts[:at])) for at in range(4)]
    sections = [(0,) * 10, (1, 8, 6, 0, 64, 16 * count, 0, 0, 1, 0), *((name, kind, 0, 0, start, len(part), link, 1, 1, size) for name, kind, link, size, start, part
                in zip((7, 15, 23), (2, 3, 3), (3, 0, 0), (24, 0, 0), starts, parts))]
    header = b"\x7fELF\2\1\1" + bytes(9) + struct.pack("<HHIQQQIHHHHHH", 3, 62, 1, 0, 0, starts[3], 0, 64, 0, 0, 64, 5, 4)
    pathlib.Path(f"{scratch}/one-name").write_bytes(header + b"".join(parts) + b"".join(struct.pack("<IIQQQQIIQQ", *it) for it in sections))
    return f"{scratch}/one-name"

folders, temporary = [pathlib.Path(it).resolve() for it in sys.argv[1:]], tempfile.TemporaryDirectory()
folder = folders[0]
# A static program, as a release has it, loads no library.
is_static = "INTERP" not in printed("readelf", "-lW", folder / "binfarce")
os.chdir(pathlib.Path(__file__).resolve().parent.parent)
sample, scratch = "crates/binfarce_list/data/e-elf64-little.bin", temporary.name
printed("gcc", "-shared", "-fPIC", "-o", f"{scratch}/broken.so", "tests/broken.c")
files = [f"{scratch}/{it}" for it in (" a  file ", "large", "sparse", "cut", "begun", "byte", "escaped", "names", "far", "none")]
blanks, large, sparse, truncated, begun, byte, escaped, names, far, missing = files
data = pathlib.Path(sample).read_bytes()
text = "thread 'main' panicked at a.rs:5:9:\n   1: {0}\n             at ./a.rs:5:9\n   2: {1}\n(gdb) #3  0x0000555555598ff9 in {2} ()\n"
text += "   1ce05:\tcall   1beb0 <{0}+0x1f>\nin {1}. 1.0-RC0 _RNvC1cu2_1a\n"
mangled = text.format("_ZN3foo3bar17h05af221e174051e9E", "_RNvC1a1b", "_RNvNtCsjrHSEGnQ3l9_3std7process5abort").encode()
other_name = data.replace(b"_ZN3foo3barE", b'a"\\\n\x01\x7f\xc3\xa9;:<>')
for path, content in zip(files, (data, data + bytes(1 << 22), data, data[:395], data[:8], data[:1], other_name, mangled, data)):
    pathlib.Path(path).write_bytes(content)
os.truncate(sparse, 8 << 30)
# Its section headers lie past 4 GiB.
with open(far, "r+b") as file:
    file.seek(40), file.write(struct.pack("<Q", 5 << 30)), file.seek(5 << 30), file.write(data[267:])
# Files whose length isn't the number of their bytes: the words of a program that waits, with a zero byte after each; a few digits.
waiting = subprocess.Popen(data.split(b"\0"), executable="yes", stdout=subprocess.PIPE)
waiting.stdout.read(1)
of_proc, of_sys = f"/proc/{waiting.pid}/cmdline", "/sys/kernel/uevent_seqnum"
same = (sample, large, blanks, of_proc)

answered = pathlib.Path("crates/test_formats/stdout").read_text()
outputs = {command: pathlib.Path(f"crates/binfarce_{command}/stdout").read_text() for command in ("list", "size")}
unknown, ended, unread, exhausted = "unknown file format", "unexpected end of file", "cannot read file", "out of memory"
no_section = "no section {}; binfarce section lists those of an ELF file; in others .text is the code"
nameless = "have no crate, as those of C, C++ and assembly; --by=function shows whose they are"
lacks, not_there, is_folder = "symbols section is missing", "No such file or directory", "Is a directory"
is_text, is_empty = "a text; `binfarce filter <FILE` shows it with readable names", "an empty file"
for command, output in outputs.items():
    program = f"binfarce-{command}"
    fails(f"{program}: write failed", 1, f"{program}: write failed", program, sample)
    reads(output, program)
    for sign in ("macho", "pe"):
        wanted = re.search(f"(?s)\n{command.replace('size', 'report')} .data of {sign} magic\n(.*?text 256\n)", answered)[1]
        writes(wanted, f"rust/samples/{sign}.bin", program)
    for line, *words in ((unknown, of_sys), (unknown, "/dev/null"), (unknown, byte), (ended, begun), (unread, scratch), (unread, missing),
                         (lacks, large, ".data")):
        ends(1, "", f"{program}: {line}", program, *words)
    for given, line in ((b"", unknown), (data[:8], ended), (b"\xcf\xfa\xed\xfe" + bytes(3 << 20), lacks)):
        ends(1, "", f"{program}: {line}", program, "/dev/stdin", given=given)
    # Bytes that can't be read: all, from the ninth on, and after one, two and three reads at offsets, after which the file may be shorter.
    for limits in ({"READ": 0, "PREADS": 0}, {"READ": 8, "PREADS": 0}, {"PREADS": 1}, {"PREADS": 2}, {"PREADS": 3}):
        for error, line in ((errno.EIO, unread), (errno.ENOMEM, exhausted)) + ((0, unread),) * ("READ" not in limits):
            ends(1, "", f"{program}: {line}", program, sample, under=broken(**limits, ERROR=error))
    for words in ([], [sample, ".text", "more"]):
        ends(2, "", f"usage: {program} FILE [SECTION]", program, *words)

full, lost = "binfarce: standard output: No space left on device", f"binfarce: {missing}: {not_there}"
sections = ((64, 0, ""), (64, 32, ".text"), (96, 120, ".symtab"), (216, 18, ".strtab"), (234, 33, ".shstrtab"))
outputs["section"] = "".join(f"{0:016x} {offset:10} {size:10} {name}\n" for offset, size, name in sections)
outputs["map"] = re.search(r"(?s)map \.text of elf\n(.*?\n</svg>\n)", answered)[1]
for command, output in outputs.items():
    call = ("binfarce", command)
    fails(full, 0, "", *call, sample)
    reads(output, *call)
    ends(0, output, "", *call, "--", "-", given=sample)
    # Of a file on disk each part is read once: its last byte, what names its kind, its format, its header, that of the sections' names,
    # these, and the section headers; the strings and the symbol table. So many reads at offsets are enough.
    ends(0, output, "", *call, sample, under=broken(PREADS=7 if command == "section" else 9, ERROR=errno.EIO))
    ends(1, "", f"binfarce: {sample}: Input/output error", *call, sample, under=broken(PREADS=3, ERROR=errno.EIO))
    for path, line in ((scratch, is_folder), (missing, not_there), (of_sys, is_text), ("/dev/null", is_empty), ("/dev/zero", unknown)):
        ends(1, "", f"binfarce: {path}: {line}", *call, path)
    usage = printed(folder / "binfarce", command, "--help")
    ends(0, usage, "", "binfarce", "help", command)
    assert re.search(f"^usage: binfarce {command} ", usage, re.M), usage
    if command != "section":
        ends(0, output, "", *call, "--section", ".text", sample)
        ends(1, "", f"binfarce: {sample}: {no_section.format('.data')}", *call, sample, "--section=.data")
    if command in ("list", "size"):
        shown = f"\n{sample}:\n{output}"
        ends(0, shown * 2, "", *call, sample, sample)
        ends(1, f"{shown}\n{blanks}:\n{output}", f"{lost}\nbinfarce: {begun}: {ended}", *call, missing, sample, begun, blanks)
        ends(1, shown, f"binfarce: {scratch}: {is_folder}", *call, sample, scratch)
        # A name that isn't UTF-8 is refused by its position.
        ends(1, f"{shown}\n{blanks}:\n{output}", "binfarce: argument 3: not UTF-8", *call, sample, b"\xff" * 9_000, blanks)
        ends(1, '{"file":"argument 3","error":"not UTF-8"}\n', "binfarce: argument 3: not UTF-8", *call, "--json", b"\xff")
        for error, line in ((errno.EIO, "Input/output error"), (errno.ENOMEM, exhausted)):
            lines, under = f"binfarce: /dev/null: {is_empty}\nbinfarce: {sample}: {line}", broken(READ=4, PREADS=0, ERROR=error)
            ends(1, "", lines, *call, "/dev/null", sample, under=under)
# Where so many bytes are taken of the output, and then none, it ends with those; of these lines it has written the first.
shown, lines = f"\n{sample}:\n{outputs['list']}" * 2, f"{lost}\nbinfarce: {begun}: {ended}\n"
for left, error in ((left, error) for left in range(len(shown) * (not is_static)) for error in (0, errno.EPIPE)):
    call = *broken(WRITE=left, MOST=7, ERROR=error), folder / "binfarce", "list", missing, sample, begun, sample
    run = subprocess.run(call, stdin=subprocess.DEVNULL, capture_output=True, text=True)
    said = re.sub("binfarce: standard output: .*\n", "", run.stderr)
    told = lines if 2 * left >= len(shown) else f"{lost}\n"
    assert run.stdout == shown[:left] and said == told and run.returncode == (error == 0), f"{left} {error}: {run}"
ends(0, f"\n{{path}}:\n{outputs['list']}" * 2, "", "binfarce", "list", *["./" * 1500 + sample] * 2, under=broken(MOST=7))
nothing_taken = *broken(WRITE=0, ERROR=0), folder / "binfarce", "list", sample
assert is_static or subprocess.run(nothing_taken, capture_output=True).returncode == 1, "a write that takes nothing doesn't fail"
version = re.search(r'^version = "(.*)"$', pathlib.Path("rust/Cargo.toml").read_text(), re.M)[1]
ends(0, f"binfarce {version}\n", "", "binfarce", "--version")
ends(0, printed(folder / "binfarce", "--help"), "", "binfarce", "help")
# A terminal of 80 columns shows each line of the help whole.
for topic in ([], *([it] for it in ("list", "size", "map", "diff", "filter", "at", "section"))):
    wide = [line for line in printed(folder / "binfarce", "help", *topic).split("\n") if len(line) > 79]
    assert not wide, wide
for words in (("--help",), ("list", sample, sample), ("section", sample, ".strtab"), ("list", "--json", missing)):
    ends(1, "", full if words[-1] != missing else f"{lost}\n{full}", "binfarce", *words, to=open("/dev/full", "wb"))
# Arguments that begin with a control character or U+FFFD are as any; so are an empty one, and more than a hundred.
for path in (f"\1{missing}", f"\ufffd{missing}", ""):
    ends(1, "", "binfarce: " + path.replace("\1", "\\u0001") + f": {not_there}", "binfarce", "list", path)
ends(0, "a::b\n\n" * 200, "", "binfarce", "filter", *("_RNvC1a1b", "") * 200)
# Wrong calls, one of each place that refuses them: the texts have contracts.
for line, *words in (("no command lst; the nearest is list", "lst", sample), ("argument 1 is not UTF-8", b"\xff"),
                     ("argument 3 is not UTF-8", "list", "--section", b"\xff", sample), ("argument 2 is not UTF-8", "at", b"\xff", "1"),
                     ("argument 2 is not UTF-8", "filter", b"\xff"), ("argument 2 is not UTF-8", "list", b"--all\xff", "--frob"),
                     ("argument 3 is not UTF-8", "diff", sample, b"\xff"), ("argument 2 is not UTF-8", "map", b"\xff"), ("argument 2 is not UTF-8", "section", b"\xff"),
                     ("argument 3 is not UTF-8", "size", "--section", b"\xff", b"\xff"), ("argument 2 is not UTF-8", "list", b"\xff", "--section", b"\xff", sample),
                     ("argument 2 is not UTF-8", "help", b"\xff"), ("argument 2 is not UTF-8", "--version", b"\xff"), ("argument 3 is not UTF-8", "size", "--help", b"\xff"),
                     ("argument 4 is not UTF-8", "map", sample, sample, b"\xff"), ("argument 3 is not UTF-8", "at", "--base=401005", b"\xff"),
                     ("--base takes the address of a page, a multiple of 0x1000, and not 0x401005", "at", "--base=0x401005", sample, "401005"),
                     ("--base takes the address of a page, a multiple of 0x1000, and not 400fff", "at", "--base", "400fff", "--base=400000", sample, "401005"),
                     ("--base takes the address of a page, a multiple of 0x1000, and not 0x800", "at", "--annotate", "--base=0", "--base=0x800", sample, sample),
                     ("not an address: 40000g", "at", "--base=40000g", sample, "401005"),
                     ("not an address: 10g", "at", sample, "1000", "10g"), ("no option --srot of list; the nearest is --sort", "list", "--srot", sample),
                     ("--by takes crate, function, function-section, generic, module or section, and not crates", "size", "--by=crates", sample),
                     ("--first takes a number, and not x", "list", "-nx", sample), ("no option -é of list; binfarce list --help shows them", "list", "-é", sample),
                     ("--json lists sections, and has no form for the bytes of one", "section", "--json", sample, ".text")):
    ends(2, "", f"binfarce: {line}", "binfarce", *words)

# The bytes of a section; a file without its end.
for path in (sample, large, of_proc, "-"):
    ends(0, "\0_ZN3foo3barE\0bad\0", "", "binfarce", "section", path, ".strtab", given=sample)
lines = f"{0:016x} {64:10} {0:10} \n{0:016x} {64:10} {32:10} \n"
ends(1, lines, f"binfarce: {truncated}: {ended}", "binfarce", "section", truncated)
ends(1, "", f"binfarce: {sample}: no section .data", "binfarce", "section", sample, ".data")
total = f"{587:10} {587:10} {'+0':>11} {'+0':>11} [total]\n"
for count, output, *words in ((8, "\0_ZN3foo3barE\0bad\0", "section", sample, ".strtab"), (18, f"{16:10} {16:10} {'+0':>11} [total]\n", "diff", sample, sample),
                              (14, total, "diff", "--by=section", sample, sample), (9, f"{0x1000:016x} foo+0x0\n", "at", "--section=.text", sample, "1000"),
                              (7, f"{203:10} {0:10} [4 others]\n{384:10} {0:10} [headers and gaps]\nsum 587\n", "size", "--by=section", "-n0", sample)):
    ends(0, output, "", "binfarce", *words, under=broken(PREADS=count, ERROR=errno.EIO))

# Of a pipe without an end that no reader reads only the first bytes are read.
for writer, line in (("yes", is_text), ("cat /dev/zero", unknown)):
    for command in ("list", "size", "section"):
        ends(1, "", f"binfarce: -: {line}", "binfarce", command, "-", under=("sh", "-c", f'{writer} | timeout 60 "$0" "$@"'))
# These are the first 512, in one read: of a pipe of packets a shorter read loses the rest of one. What comes behind them isn't read.
for first, line in ((b"a" * 512, is_text), (b"a" * 511 + b"\0", unknown), (b"!<arch>\n" + bytes(504), "an archive; `ar x FILE` extracts its members")):
    reader, writer = os.pipe2(os.O_DIRECT)
    os.write(writer, first)
    os.write(writer, b"\0rest")
    os.close(writer)
    ends(1, "", f"binfarce: /dev/stdin: {line}", "binfarce", "list", "/dev/stdin", given=f"/dev/fd/{reader}")
    assert os.read(reader, 9) == b"\0rest", "more of a pipe is read than its first bytes"

# A file's length is asked once, and its beginning read once; a pipe isn't read byte by byte. Of a file without a symbol table `at` looks for the dynamic one.
if not is_static:
    for words in (["list"], ["list", "--all"], ["size"], ["map"], ["section"], ["at", "1000"], ["at", "--base=400000", "401000"]):
        for path in (sample, large, "rust/samples/macho.bin", "rust/samples/pe.bin", bare := assembled("no-functions", 4096)):
            most = 15 if words[0] == "at" and path == bare else 12
            made = system_calls(words[0], path, *words[1:])
            asked, start = [name for name, *_ in made], [it for it in made if it[0] == "pread" and it[1] < 512]
            assert asked.count("statx") == 1 and "read" not in asked and len(start) == 1 and len(made) <= most, f"{words} {path}: {made}"
        made = system_calls(words[0], "/dev/stdin", *words[1:], given=data)
        assert len(made) <= 6, f"{words} of a pipe: {made}"

# Names on standard input, and as arguments.
fails(full, 0, "", "binfarce", "filter", given=names)
ends(0, text.format("foo::bar", "a::b", "std::process::abort"), "", "binfarce", "filter", given=names)
ends(1, "", "binfarce: standard input: Is a directory", "binfarce", "filter", given=scratch)
words = ("_RNvC1a1b", "--full", "_ZN3foo3bar17h05af221e174051e9E", "--", "-x")
ends(0, "a[0]::b\nfoo::bar::h05af221e174051e9\n-x\n", "", "binfarce", "filter", *words)
ends(0, "a[0]::b\n", "", "binfarce", "filter", "--full", given=b"_RNvC1a1b\n")
answers("in a::b\n", b"in _RNvC1a1b\n", "filter")

# Addresses as arguments, and on standard input; and in a text.
at = ("binfarce", "at", "--section=.text")
base, returned = (*at, "--base", "400000", sample), (*at, "--return", "--base=400000", sample)
found = ((0x1000, "foo+0x0"), (0x1005, "foo+0x5"), (0x100f, "foo+0xf"), (0x1010, "??"), (0xfff, "??"))
output, moved = ("".join(f"{base + address:016x} {answer}\n" for address, answer in found) for base in (0, 0x400000))
back = f"{0x401010:016x} foo+0x10\n{0x401001:016x} foo+0x1\n{0x401000:016x} foo+0x0\n{0x400000:016x} ??\n"
fails(full, 0, "", *at, sample, "1000")
ends(0, output, "", *at, "-", "1000", "0x1005", "100f", "1010", "0fff", given=sample)
rows = [(base, "", ""), *(((*at, path), output, "1000\n0X1005\r\n 100f\n1010\n0fff") for path in same)]
rows += [(base, moved, "401000\n401005\n40100f\n401010\n400fff\n"), (returned, back, "401010\n401001\n401000\n400000\n")]
for call, lines, words in rows:
    ends(0, lines, "", *call, *words.split())
    ends(0, lines, "", *call, given=words.encode())
lines = f"??\n{0x401000:016x} foo+0x0\n??\n{0x400fff:016x} ??\n??\n"
ends(2, lines, "binfarce: 3 lines without an address", *base, given=b"\n401000\n10g\n0x400fff\n" + bytes(100_000))
ends(2, f"??\n{0x1005:016x} foo+0x5\n", "binfarce: 1 line without an address", *at, sample, given=b"no\n1005")
text = b"\tat 0x401005, 0x40100F\n0x1005 0x401 0x00000000000401005\n\xff 0x401010"
noted = b"\tat 0x401005 <foo+0x5>, 0x40100F <foo+0xf>\n0x1005 0x401 0x00000000000401005\n\xff 0x401010"
for under in ((), broken(MOST=1)):
    ends(0, noted, "", *base, "--annotate", given=text, under=under)
    ends(0, noted + b" <foo+0x10>", "", *returned, "--annotate", given=text, under=under)
fails(full, 0, "", *base, "--annotate", given=text)
# Of the file it reads what list reads; where it is loaded is in what names its format, and in its header.
for count, words, answer, given in ((9, (*at, sample), f"{0x1000:016x} foo+0x0\n", b"1000\n"), (11, (*base, "--annotate"), "0x401000 <foo+0x0>\n", b"0x401000\n")):
    ends(0, answer, "", *words, given=given, under=broken(PREADS=count, ERROR=errno.EIO))
# Where no address that is found is one of a function symbol, it says so.
missed, none = (f"binfarce: {sample}: 0 of {count} addresses are in a function symbol; is --base right?" for count in (2, 1))
ends(0, f"{0x1000:016x} ??\n{0x1005:016x} ??\n", missed, *base, "1000", "1005")
ends(0, b"at 0x1000\n", none, *base, "--annotate", given=b"at 0x1000\n")
ends(0, f"{0x1000:016x} ??\n{0x1005:016x} ??\n", missed, *base, given=b"1000\n1005\n")
none_found = f"{{\"file\":\"{sample}\",\"address\":\"0x{0x1000:016x}\",\"name\":null,\"offset\":null}}\n"
ends(0, none_found, none, *base, "--json", "1000")
ends(0, f"{0x2000:016x} ??\n", f"binfarce: {sample}: 0 of 1 addresses are in a function symbol; --base or --maps is needed for addresses in memory", *at, sample, "2000")
ends(0, b"at 1000\n", "binfarce: standard input: no address in the text; --bare takes those without 0x, too", *base, "--annotate", given=b"at 1000\n")
ends(0, b"at x\n", "binfarce: standard input: no address in the text", *base, "--annotate", "--bare", given=b"at x\n")
ends(0, "", "", *base, "--annotate", given=b"")
answers(f"{0x1000:016x} foo+0x0\n", b"1000\n", "at", "--section=.text", sample)
answers("at 0x401000 <foo+0x0>\n", b"at 0x401000\n", *base[1:], "--annotate")
answers("at 0x401000 <foo+0x0> 0\n", b"at 0x401000 0\n", *base[1:], "--annotate")
answers("00401000 <foo+0x0>\n", b"00401000\n", *base[1:], "--annotate", "--bare")
# Where a program's own maps load the file, by its name or another; bare words; and offsets, of this file alone.
maps, text = f"{scratch}/maps", "".join(f"{start}-{start[:-4]}9000 r-xp 00000000 fe:00 110{path}\n" for start, path in
    (("7f0000001000", "  /lib/other"), ("000000401000", f"  /x/{os.path.basename(sample)}"), ("000000400000", f"  /y z/{os.path.basename(sample)}"), ("7ffc26ab1000", " [stack]"), ("7ffd26ab1000", "")))
pathlib.Path(maps).write_text(text)
mapped, renamed = (*at, sample, "--maps", maps), (*at, sample, f"--maps={maps}", "--as=/lib/other")
ends(0, f"{0x401005:016x} foo+0x5\n", "", *mapped, "401005")
ends(0, f"{0x7f0000002005:016x} foo+0x5\n", "", *renamed, "7f0000002005")
unmapped = "the maps have no file {}; --as=NAME takes another name"
for path, sought in (("sampl", "sampl"), ("a/sampl", "a/sampl or sampl")):
    ends(1, "", f"binfarce: {sample}: {unmapped.format(sought)}", *mapped, f"--as={path}", "401005")
ends(2, "", f"binfarce: no line of {sample} is one of /proc/PID/maps", *at, sample, "--maps", sample, "401005")
ends(1, "", f"binfarce: {scratch}/none: No such file or directory", *at, sample, f"--maps={scratch}/none", "401005")
ends(0, "00401005 <foo+0x5> other+0x1005 other(x+0x1005) libother+0x1005\n".replace("other+0x1005 ", "other+0x1005 <foo+0x5> ", 1), "",
    *at, sample, "--annotate", "--bare", "--base=400000", "--as=other", given=b"00401005 other+0x1005 other(x+0x1005) libother+0x1005\n")
# A text has addresses of several files, each with its base; and its own maps.
other, both = f"{scratch}/other.so", b"0x401005 0x7f0000001005 other.so+0x1005 x/other.so(+0x1005) 0x1005 libother.so+0x1005\n"
pathlib.Path(other).write_bytes(pathlib.Path(sample).read_bytes())
several = (*at, "--annotate", sample, other)
ends(0, both.decode().replace("1005 ", "1005 <foo+0x5> ", 3).replace("1005) ", "1005 <foo+0x5>) "), "", *several, "--base=400000", "--base=7f0000000000", given=both)
ends(2, "", "binfarce: --base comes once for each file, in their order, or not at all", *several, "--base=400000", given=both)
ends(2, "", "binfarce: --as comes once for each file, in their order, or not at all", *several, "--as=a", given=both)
# A file that is refused doesn't keep the others from answering; where each is, nothing is written.
ends(1, "0x401005 0x7f0000001005 other.so+0x1005 <foo+0x5> x/other.so(+0x1005 <foo+0x5>) 0x1005 <foo+0x5> libother.so+0x1005\n", lost, *several, missing, given=both)
ends(1, "", lost, *at, "--annotate", missing, given=both)
ends(1, b"0x401005 <foo+0x5> 0x1005\n", lost, *at, "--annotate", "--base=0", "--base=400000", missing, sample, given=b"0x401005 0x1005\n")
ends(1, b"a+0x1005 b+0x1005 <foo+0x5>\n", lost, *at, "--annotate", "--as=a", "--as=b", missing, sample, given=b"a+0x1005 b+0x1005\n")
ends(0, b"0x401010 <foo+0x10> 0x7f0000001010 <foo+0x10>\n", "", *several, "--return", "--base=400000", "--base=7f0000000000", given=b"0x401010 0x7f0000001010\n")
ends(0, b"00401005 <foo+0x5>\n", "", *several, "--bare", "--base=0", "--base=400000", given=b"00401005\n")
others = "binfarce: standard input: offsets ({}) behind other names than the file's; if the file has one of them, --as=NAME says so"
ends(0, b"libother.so+0x1005 main+0x1f2e\n", others.format(2), *several, given=b"libother.so+0x1005 main+0x1f2e\n")
# Behind a name that a function of the file has, too, a word `main+0x12` is an offset into the function, as perf writes it; others are in the file.
own = (*at, "--annotate", assembled("own", 32, ("main", 0, 16), ("big", 16, 16)), "--as=x/main")
perf = b"main 12 1.5: 1 cycles:\n\t    558bcaf8e298 main+0x12 (/x/main)\nmain+0x12\tmain+0x12\n"
ends(0, perf, others.format(3), *own, given=perf)
ends(0, b"main+0x12", others.format(1), *own, given=b"main+0x12")
in_file = "[main+0x12] ./main+0x12 (/tmp/main+0x12) main(+0x12) (main + 0x12) (main+0x12) x/main+0x12 main + 0x12 "
ends(0, in_file.replace("0x12", "0x12 <big+0x2>") + "main+0x12\n", "", *own, given=f"{in_file}main+0x12\n".encode())
ends(0, b"other+0x12 <big+0x2> main+0x12\n", "", *own[:-1], "--as=other", given=b"other+0x12 main+0x12\n")
ends(0, b"main+0x1005 <foo+0x5> b/main+0x12 <big+0x2>\n", "", *own[:-1], sample, "--as=b/main", "--as=a/main", given=b"main+0x1005 b/main+0x12\n")
ends(0, b"0x3\n0x3000\n", f"binfarce: {sample}, {other}: 0 of 1 addresses are in a function symbol; --base or --maps is needed for addresses in memory", *several, given=b"0x3\n0x3000\n")
# Of files of one name that one answers an offset whose path is before it; where only the name is, or a file is given twice, none does.
twin, alike = f"{scratch}/twin.so", "binfarce: standard input: offsets ({}) behind a name that several files have; --as=PATH tells them apart"
pathlib.Path(twin).write_bytes(data.replace(b"_ZN3foo3barE", b"_ZN3baz3barE"))
twins = b"x/b/p.so(+0x1005) a/p.so+0x1005 c/p.so+0x1005 p.so+0x1005 q.so+0x1005\n"
noted = twins.replace(b"(+0x1005", b"(+0x1005 <baz+0x5>").replace(b" a/p.so+0x1005", b" a/p.so+0x1005 <foo+0x5>")
ends(0, noted, alike.format(2), *several[:-1], twin, "--as=a/p.so", "--as=b/p.so", given=twins)
ends(0, noted.replace(b"x/b", b"/b"), alike.format(2), *several[:-1], twin, "--as=a/p.so", "--as=/b/p.so", given=twins.replace(b"x/b", b"/b"))
ends(0, b"other.so+0x1005\n", alike.format(1), *several[:-2], other, other, given=b"other.so+0x1005\n")
ends(0, b"p.so+0x1 0x3000\n", f"{alike.format(1)}\nbinfarce: {sample}, {twin}: 0 of 1 addresses are in a function symbol; --base or --maps is needed for addresses in memory",
    *several[:-1], twin, "--as=a/p.so", "--as=b/p.so", given=b"p.so+0x1 0x3000\n")
# One that the maps don't place is refused, too, unless they are none; lines of a log have its own words before a mapping, as a date, and carriage returns.
log = "".join(f"11-29 05:55:01.123 12345 12346 I app: {it}\r\n" for it in text.splitlines()) + f"pc 0x401005 {os.path.basename(sample)}+0x5\n"
logged = log.replace("0x401005", "0x401005 <foo+0x5>")
ends(1, logged, f"binfarce: {twin}: {unmapped.format(f'{twin} or twin.so')}", *several[:-1], twin, "--maps=-", given=log.encode())
ends(0, logged, "", *several[:-1], "--maps=-", given=log.encode())
ends(1, "", f"binfarce: {twin}: {unmapped.format(f'{twin} or twin.so')}", *several[:-2], twin, "--maps=-", given=log.encode())
# A log is read to its end, also by reads that are short or interrupted, and one of more than 256 MiB is refused.
long = log + "y" * (1 << 20) + "\n0x401005"
for given, under in ((long, ()), (log, broken(MOST=1))):
    ends(0, given.replace("0x401005", "0x401005 <foo+0x5>"), "", *several[:-1], "--maps=-", given=given.encode(), under=under)
pathlib.Path(path := f"{scratch}/long").touch()
os.truncate(path, (1 << 28) + 1)
ends(1, "", "binfarce: standard input: the text is longer than 256 MiB; --maps=FILE takes a copy of its maps", *several[:-1], "--maps=-", given=path)
ends(1, "", "binfarce: standard input: Is a directory", *several[:-1], "--maps=-", given=scratch)
ends(0, f"{0x501005:016x} ??\n", f"binfarce: {sample}: 0 of 1 addresses are in a function symbol; are --maps and the addresses of one process?", *mapped, "501005")
refusal = json.dumps({"file": sample, "error": unmapped.format("x")}, separators=(",", ":")) + "\n"
ends(1, refusal, f"binfarce: {sample}: {unmapped.format('x')}", *mapped, "--json", "--as=x", "401005")
# An offset may have fewer digits than an address.
short = f"0x5 {os.path.basename(sample)}(+0x5)\n".encode()
ends(0, short, f"binfarce: {sample}: 0 of 1 addresses are in a function symbol; is --base right?", *at, "--annotate", "--base=0", sample, given=short)
ends(0, f"pc 0x401005 <foo+0x5>\n{text}0x401005 <foo+0x5>\n", "", *at, "--annotate", "--maps=-", sample, given=f"pc 0x401005\n{text}0x401005\n".encode())
ends(2, "", "binfarce: no line of - is one of /proc/PID/maps", *at, "--annotate", "--maps=-", sample, given=b"pc 0x401005\n")
ends(0, text, "binfarce: standard input: no address in the text; --bare takes those without 0x, too", *at, "--annotate", "--maps=-", sample, given=text.encode())
ends(0, f"{0x401005:016x} foo+0x5\n", "", *at, sample, "--maps=-", "401005", given=text.encode())
ends(2, "", "binfarce: --maps needs --annotate", *at, sample, "--maps=-", given=b"1000\n")
ends(2, "", "binfarce: --base and --maps exclude each other", *mapped, "--base=0", "1000")
ends(2, "", "binfarce: --bare needs --annotate", *at, sample, "--bare", "1000")
# A file whose segment is in the page at 0x1000 is loaded there; its program headers are read only where that is needed.
linked, data = f"{scratch}/linked", bytearray(pathlib.Path(sample).read_bytes())
data[32:40], data[54:58] = len(data).to_bytes(8, "little"), bytes((56, 0, 1, 0))
data += b"\1" + bytes(15) + 0x1010.to_bytes(8, "little") + bytes(32)
pathlib.Path(linked).write_bytes(data)
ends(0, f"{0x400005:016x} foo+0x5\n", "", *at, "--base=400000", linked, "400005")
ends(0, "linked+0x1005 <foo+0x5> 0x1005 <foo+0x5>\n(linked+0x1005 <foo+0x5>)\n\t(linked+0x1005 <foo+0x5>)\tlinked+0x1005 <foo+0x5>\n", "",
    *at, "--annotate", linked, given=b"linked+0x1005 0x1005\n(linked+0x1005)\n\t(linked+0x1005)\tlinked+0x1005\n")
# Where it has code, that is loaded 0x1000 behind its page, whatever else is mapped of it; unless it is at two places.
data[-52:-40], data[-24:] = b"\1" + bytes(3) + 0x10.to_bytes(8, "little"), b"".join(n.to_bytes(8, "little") for n in (0x100, 0x1000, 0x1000))
pathlib.Path(linked).write_bytes(data)
read, code, again = (f"{start}000-{start}fff {kind}p 00000000 fe:00 11  {path}\n" for start, kind, path in
    (("300", "r--", "/x/linked"), ("400", "r-x", "/x/linked (deleted)"), ("500", "r-x", "/y/linked")))
code_at = (*at, "--maps=/dev/stdin", linked)
ends(0, f"{0x400005:016x} foo+0x5\n", "", *code_at, "400005", given=(read + code).encode())
ends(1, "", f"binfarce: {linked}: linked is at several addresses in the maps; give --base in place of --maps, or --as=PATH for one of several paths", *code_at, "--as=linked", "400005", given=(read + code + again).encode())
ends(0, f"{0x500005:016x} foo+0x5\n", "", *code_at, "--as=y/linked", "500005", given=(read + code + again).encode())
# Linux's line on a fault is a mapping of the code, with the offset in the file of the faulting address, or in older kernels without.
for fault in ("ip 0000000000400005 sp 0 error 4 in linked[5,400000+1000] likely on CPU 1", "ip 0000000000400005 sp 0 error 4 in linked[400000+1000]", "ip:400005 sp:0 error:0 in linked[5,400000+1000]"):
    # The address is behind the word ip, not behind a host's name or a program's that begins so.
    for before in ("[ 3.7] linked[7]", "Dec  1 10:00:00 ip-172-31-5-6 kernel: iperf3[7]"):
        ends(0, f"{0x400005:016x} foo+0x5\n", "", *code_at, "400005", given=f"{before}: segfault at 0 {fault}\n".encode())
# Other mappings of a file with code don't place it, but for that of its first byte.
for kind, offset in (("r--p", "00005000"), ("r-xp", "00001000")):
    ends(1, "", f"binfarce: {linked}: the maps don't say where the code of {linked} is; give --base, or more of the maps", *code_at, "400005",
        given=f"00400000-00401000 {kind} {offset} fe:00 11 {linked}\n".encode())
first = f"00400000-00401000 r--p 00000000 fe:00 11 {linked}\n"
ends(0, f"{0x400005:016x} foo+0x5\n", "", *code_at, "400005", given=first.encode())
# Where pages may be larger, the first byte, and a fault without an offset, don't say where the code is; of a debug file, without code bytes, its mapping does.
nowhere = f"binfarce: {linked}: the maps don't say where the code of {linked} is; give --base, or more of the maps"
data[-8:] = 0x10000.to_bytes(8, "little")
pathlib.Path(linked).write_bytes(data)
for it in (first, "linked[7]: segfault at 0 ip 0000000000400005 sp 0 error 4 in linked[400000+1000]\n"):
    ends(1, "", nowhere, *code_at, "400005", given=it.encode())
data[-24:-16] = bytes(8)
pathlib.Path(linked).write_bytes(data)
for start, offset in (("400", "00001000"), ("3ff", "00010000")):
    ends(0, f"{0x400005:016x} foo+0x5\n", "", *code_at, "400005", given=f"00{start}000-00403000 r-xp {offset} fe:00 11 {linked}\n".encode())
ends(1, "", nowhere, *code_at, "400005", given=f"00400000-00403000 r-xp 00002000 fe:00 11 {linked}\n".encode())
data[-24:] = b"".join(n.to_bytes(8, "little") for n in (0x100, 0x1000, 0x1000))
pathlib.Path(linked).write_bytes(data)
fault = "linked[7]: segfault at 0 ip 0000000000400005 sp 0 error 4 in linked[5,400000+1000]\n"
ends(0, fault.replace(" sp", " <foo+0x5> sp"), "", *at, "--annotate", "--bare", "--maps=-", linked, given=fault.encode())
ends(2, "", "binfarce: no line of /dev/stdin is one of /proc/PID/maps", *code_at, "400005", given=fault.replace("ip 0000000000400005", "ip 00000000003ff005").encode())
# Offsets in the file are those of its code, here 14 bytes at 0x800 for 0x1002; of return addresses also that behind them. Other offsets aren't found.
data[-48:-32], data[-24:-16] = 0x800.to_bytes(8, "little") + 0x1002.to_bytes(8, "little"), (14).to_bytes(8, "little")
pathlib.Path(linked).write_bytes(data)
offsets, debug = (*at, "--offsets"), f"{scratch}/debug"
for words, known in (((), ((0x7ff, "??"), (0x800, "foo+0x2"), (0x80d, "foo+0xf"), (0x80e, "??"), (0x1002, "??"))), (("--return",), ((0x800, "foo+0x2"), (0x80e, "foo+0x10"), (0x80f, "??")))):
    ends(0, "".join(f"{it:016x} {answer}\n" for it, answer in known), "", *offsets, *words, linked, *(f"{it:x}" for it, answer in known))
ends(0, f"{0x800:016x} foo+0x2\n{0x1002:016x} ??\n", "", *offsets, linked, given=b"800\n1002\n")
in_text = b"0x0800 linked+0x800 (linked+0x803) linked+0x1002 0x1002\n"
ends(0, in_text.replace(b"800", b"800 <foo+0x2>").replace(b"803", b"803 <foo+0x5>"), "", *offsets, "--annotate", linked, given=in_text)
ends(0, f"{0x1002:016x} ??\n", f"binfarce: {linked}: 0 of 1 addresses are in a function symbol; are they offsets in the file?", *offsets, linked, "1002")
# So perf writes a call chain: the offset comes behind the file, if that is one of these, and its symbol behind it; also at the end of the text, and once alone in a second call.
chain = "a 12 [001] 2.5:  1f cycles:P: \n\t             800 [unknown] ({}/linked{})\n\t             803 n(int)+0x3 (/x/linked{})\n\t           2724a n+0x7a (/lib/c.so)\n\t             800 foo (inlined)\n\n"
for last in ("", ")", "\t800 linked (linked", "\t800\tlinked (linked)(", " 800 x (linked)\n", "\t800x y (linked)\n", "\t12345678901234567 y (linked)\n", "\t800 (linked)\r\n", "\t800 " + "x" * 4096 + " (linked)\n", "\t(linked)\n"):
    text, answer = ((chain + last).replace("{}", "%s") % (scratch, *marks) for marks in (("", ""), ("+0x800 <foo+0x2>", "+0x803 <foo+0x5>")))
    ends(0, answer, "", *offsets, "--annotate", linked, given=text.encode())
ends(0, answer, "", *offsets, "--annotate", linked, given=re.sub(" <.*?>", "", answer).encode())
ends(0, b"\t800 x (linked+0x800 <foo+0x2>)", "", *offsets, "--annotate", linked, given=b"\t800 x (linked)")
ends(0, b"\t \t0800\t(y/linked+0x0800 <foo+0x2>)\n)\n", "", *offsets, "--annotate", linked, given=b"\t \t0800\t(y/linked)\n)\n")
ends(0, b"\t800 x (linked)\n", "binfarce: standard input: no address in the text; --bare takes those without 0x, too", *at, "--annotate", linked, given=b"\t800 x (linked)\n")
# A file of another format, an object file and a debug file have no code with bytes.
pathlib.Path(debug).write_bytes(data[:-24] + bytes(8) + data[-16:])
no_code = "no code segment with bytes; --offsets takes ELF programs and shared objects, and not their debug files"
for path in (sample, debug, "rust/samples/macho.bin", "rust/samples/pe-image.bin"):
    ends(1, "", f"binfarce: {path}: {no_code}", *offsets, path, "800")
ends(1, json.dumps({"file": debug, "error": no_code}, separators=(",", ":")) + "\n", f"binfarce: {debug}: {no_code}", *offsets, "--json", debug, "800")
ends(1, b"linked+0x800 <foo+0x2>\n", f"binfarce: {debug}: {no_code}", *offsets, "--annotate", debug, linked, given=b"linked+0x800\n")
ends(2, "", "binfarce: --base and --offsets exclude each other", *offsets, "--base=0", linked, "800")
ends(2, "", "binfarce: --maps and --offsets exclude each other", *offsets, f"--maps={maps}", linked, "800")
# In a program whose addresses are 0x400000 more than offsets each function has the name that its address has.
moved, code = f"{scratch}/moved", "int one(int x) { return x + 1; } int main(void) { return one(1); }"
printed("gcc", "-no-pie", "-static", "-Wl,-z,noseparate-code", "-o", moved, "-x", "c", "-", given=code)
start, first, size = (int(it, 16) for it in re.search(r"LOAD +(\S+) (\S+) \S+ (\S+) \S+ R E", printed("readelf", "-lW", moved)).groups())
starts = [address for it in re.findall(r": (\w+) +[1-9]\d* FUNC", printed("readelf", "-sW", moved)) if first <= (address := int(it, 16)) < first + size]
assert first - start == 0x400000 and len(starts) > 100, "gcc links otherwise"
by_address, by_offset = ([line[17:] for line in printed(folder / "binfarce", "at", *words, moved, given="".join(f"{it - less:x}\n" for it in starts)).splitlines()]
    for words, less in (((), 0), (("--offsets",), first - start)))
assert by_address == by_offset and "one+0x0" in by_offset, "an offset has another name than its address"
data[56] = 2
pathlib.Path(linked).write_bytes(data)
ends(0, f"{0x1005:016x} foo+0x5\n", "", *at, linked, "1005")
ends(1, "", f"binfarce: {linked}: {ended}", *at, "--base=400000", linked, "400005")
for option in ((), ("--annotate",)):
    ends(1, "", "binfarce: standard input: Is a directory", *at, *option, sample, given=scratch)
    ends(1, "", lost, "binfarce", "at", *option, missing, given=b"1000\n")
ends(1, '{"file":"standard input","error":"Is a directory"}\n', "binfarce: standard input: Is a directory", *at, "--json", sample, given=scratch)

# The dynamic symbols of a library, as readelf has them; stripped, it has no others.
library, stripped = printed("gcc", "-print-file-name=libc.so.6").strip(), f"{scratch}/stripped"
printed("strip", "-o", stripped, library)
symbols = re.findall(r": (\w+) +(?!0 )(\w+) I?FUNC +\w+ +\w+ +(\d+)(?: (\w+))?", printed("readelf", "-W", "--dyn-syms", library))
names = re.findall(r"\[ *\d+\] (\S*)", printed("readelf", "-SW", library))
assert {"strlen", "memset"} <= {row[3] for row in symbols}, "readelf shows no indirect functions"
for option, starts in (((), [it[0] for it in symbols if names[int(it[2])] == ".text"] + ["text"]), (("--all",), [it[0] for it in symbols])):
    lines = printed(folder / "binfarce", "list", "--dynamic", *option, stripped).splitlines()
    assert [it.split()[0] for it in lines] == starts, "other dynamic symbols than those of readelf"
build_id = re.search("Build ID: (..)(.*)", printed("readelf", "-n", stripped))
printed("objcopy", "--remove-section=.gnu_debuglink", stripped)
line = f"{stripped}: no symbol table (.symtab): it is stripped\nbinfarce: {stripped}: --dynamic --all takes {len(symbols)} function symbols\n"
line += f"binfarce: {stripped}: its debug symbols may be in /usr/lib/debug/.build-id/{build_id[1]}/{build_id[2]}.debug"
for words in (["list"], ["size", "--all"], ["map"], ["diff", sample]):
    ends(1, "", f"binfarce: {line}", "binfarce", *words, stripped)
starts = [row[0] for row in symbols]
address, name = next((row[0], row[3]) for row in symbols if starts.count(row[0]) == 1)
ends(0, f"0x{address} <{name}+0x0>\n", "", "binfarce", "at", "--annotate", "--dynamic", stripped, given=f"0x{address}\n".encode())
# Without `.symtab`, `at` takes `.dynsym`, and says so once; without functions in either the file is refused.
instead = "no symbol table (.symtab): names are those of .dynsym"
ends(0, f"{address} {name}+0x0\n" * 2, f"binfarce: {stripped}: {instead}", "binfarce", "at", stripped, address, address)
ends(0, f"{address} {name}+0x0\n" * 2, f"binfarce: {stripped}: {instead}", "binfarce", "at", stripped, given=f"{address}\n{address}\n".encode())
ends(0, f"0x{address} <{name}+0x0> 0x140001017 <g+0x7>\n", f"binfarce: {stripped}: {instead}", "binfarce", "at", "--annotate", "rust/samples/pe-image.bin", stripped,
     given=f"0x{address} 0x140001017\n".encode())
ends(0, f"{address} {name}+0x0\n", "", "binfarce", "at", "--dynamic", stripped, address)
bare = f"{scratch}/bare"
printed("gcc", "-static", "-nostdlib", "-Wl,--build-id=none", "-s", "-o", bare, "-x", "c", "-", given="int _start() { return 0; }")
for words in ((), ("--annotate",), ("--section=.text",)):
    ends(1, "", f"binfarce: {bare}: no symbol table (.symtab): it is stripped", "binfarce", "at", *words, bare, given=b"1005\n")
# An address behind a function symbol, as that behind a call that doesn't return, is one by --return.
ends(0, f"{0x140001018:016x} ??\n", "binfarce: rust/samples/pe-image.bin: 0 of 1 addresses are in a function symbol; --return looks each up as a return address, behind a call",
     "binfarce", "at", "rust/samples/pe-image.bin", "140001018")
ends(0, f"{0x140001018:016x} g+0x8\n", "", "binfarce", "at", "--return", "rust/samples/pe-image.bin", "140001018")
# A PE file without a symbol table, too, is refused: its file header, behind the signature at 0x40, counts no symbol.
image = bytearray(pathlib.Path("rust/samples/pe-image.bin").read_bytes())
place = int.from_bytes(image[0x3c:0x40], "little") + 12
image[place:place + 8] = bytes(8)
pathlib.Path(bare := f"{scratch}/bare.exe").write_bytes(image)
line = f"binfarce: {bare}: no symbol table (.symtab): it is stripped\nbinfarce: {bare}: its debug symbols may be in a .pdb file, if it is an MSVC program"
for words in (["list"], ["list", "--all"], ["size", "--all"], ["size", "--fail-above=1"], ["map", "--folded"], ["diff", sample], ["at"], ["at", "--section=.text"], ["at", "--annotate"]):
    ends(1, "", line, "binfarce", *words, bare, given=b"1000\n")
ends(0, f"text {512}\n", "", "binfarce-list", bare)
# With a debug link, and of a program without dynamic function symbols.
program, line = f"{scratch}/program", f"{scratch}/program: no symbol table (.symtab): it is stripped"
printed("gcc", "-Wl,--build-id=0x0102030405", "-o", program, "-x", "c", "-", given="int main() { return 0; }")
printed("strip", program)
printed("objcopy", f"--add-gnu-debuglink={sample}", program)
line += f"\nbinfarce: {program}: its debug symbols may be in /usr/lib/debug/.build-id/01/02030405.debug"
ends(1, "", f"binfarce: {line}, or in a file {sample.split('/')[-1]}", "binfarce", "list", program)
# One with control characters isn't printed.
pathlib.Path(control := f"{scratch}/\x1b[31m").write_bytes(b"")
printed("objcopy", "--remove-section=.gnu_debuglink", program)
printed("objcopy", f"--add-gnu-debuglink={control}", program)
ends(1, "", f"binfarce: {line}", "binfarce", "list", program)

# Listings in an order, of the first lines, and with stored names, as nm has the symbols.
rows = re.findall(r"(?m)^(\w+) (\w+) [TtWwi] ([^@\s]+)", printed("nm", "-D", "-S", library))
for order, key in (("address", lambda row: row[0]), ("size", lambda row: (-int(row[1], 16), row[0])), ("name", lambda row: (row[2], row[0]))):
    lines = printed(folder / "binfarce", "list", "--dynamic", "--all", "--raw", f"--sort={order}", library).splitlines(True)
    listed = [(it[0], f"{int(it[1]):016x}", it[3]) for it in map(str.split, lines) if it[1] != "0"]
    assert sorted(listed) == sorted(rows) and [*map(key, listed)] == sorted(map(key, rows)), f"another order by {order} than that of nm"
    ends(0, "".join(lines[:9]), "", "binfarce", "list", "--dynamic", "--all", "--raw", f"--sort={order}", "-n", "9", library)
for name, words in (("foo", "--no-total"), ("foo", "-n 1"), ("foo", "-n1"), ("foo", "-n=1"), ("foo", "-n 0 -n 9"), ("_ZN3foo3barE", "--first=9 --raw"), ("foo::bar", "--sort name --full"), ("", "-n 0")):
    ends(0, f"{0x1000:016x} {16:10} {name}\n" if name else "", "", "binfarce", "list", *words.split(), sample)

# The symbols of all sections, in an object file with a section for each function, as nm has them.
file, functions = f"{scratch}/functions.o", "int f(int x) { return x; } int g(int x) { return x * x; } int h(int x) { return f(x) - g(x); }"
printed("gcc", "-ffunction-sections", "-c", "-o", file, "-x", "c", "-", given=functions)
rows = re.findall(r"(\w+) *\|(\w+)\| +T +\| +FUNC\|(\w+)\| +\|(\S+)", printed("nm", "-p", "-f", "sysv", file))
assert len(rows) == 3, "gcc made no 3 functions"
lines = "".join(f"{address} {int(size, 16):10} {section} {name}\n" for name, address, size, section in rows)
ends(0, lines, "", "binfarce", "list", "--all", file)
bytes_of_all = sum(int(row[2], 16) for row in rows)
ends(0, "{0:10} [unknown]\nsum {0}\n".format(bytes_of_all), f"binfarce: {file}: {bytes_of_all} of {bytes_of_all} bytes {nameless}", "binfarce", "size", "--all", file)
ends(0, f"{2:016x} g+0x2\n", "", "binfarce", "at", "--section=.text.g", file, "2")
ends(0, "0x0002 <g+0x2>\n", "", "binfarce", "at", "--annotate", "--section=.text.g", file, given=b"0x0002\n")
shared = f"binfarce: {file}: its sections share addresses; --section=NAME takes one of them"
for option in ((), ("--all",)):
    ends(1, "", shared, "binfarce", "at", *option, file, "2")
    ends(1, "", shared, "binfarce", "at", *option, file, given=b"2\n")
pe = "rust/samples/pe-image.bin"
ends(1, "0x401017 <g+0x7> x+0x1017 y+0x1017 <g+0x7>\n", shared, "binfarce", "at", "--annotate", "--base=0", "--base=400000", "--as=x", "--as=y", file, pe, given=b"0x401017 x+0x1017 y+0x1017\n")
ends(1, "0x401017 <g+0x7> x+0x1017 y+0x1017 <g+0x7>\n", shared, "binfarce", "at", "--annotate", "--base=400000", "--base=0", "--as=y", "--as=x", pe, file, given=b"0x401017 x+0x1017 y+0x1017\n")
ends(1, "0x1005 <foo+0x5>\n", f"binfarce: {line}", *at, "--annotate", sample, program, given=b"0x1005\n")
# The sections of a Mach-O object file have addresses of their own.
image = bytearray(pathlib.Path("rust/samples/macho.bin").read_bytes())
image[12] = 1
pathlib.Path(path := f"{scratch}/object.o").write_bytes(image)
ends(0, f"{0x1045:016x} c+0x5\n", "", "binfarce", "at", path, "1045")

# Hints, beside a result and beside a refusal.
hint = f"binfarce: {file}: no function symbols in the section; --all takes 3"
for command, output in (("list", "text 0\n"), ("size", "sum 0\ntext 0\n")):
    ends(0, output, hint, "binfarce", command, file)
# Of files without code and without a function symbol: an object file of data, by either symbol table.
printed("gcc", "-c", "-o", empty := f"{scratch}/empty.o", "-x", "c", "-", given="int x = 3;")
for words, output in ((["list", "--all"], ""), (["list", "--json", "--all"], ""), (["size", "--all"], "sum 0\n"), (["size", "--by=function-section"], "sum 0\n"),
                      (["map", "--folded", "--all"], ""), (["list", "-n", "0"], ""), (["list", "--json"], "")):
    ends(0, output, f"binfarce: {empty}: no function symbols", "binfarce", *words, empty)
# A file with code and without a function symbol is refused: a program by its dynamic symbols, a Mach-O and a PE file, of which `nm` and `llvm-nm` show none, and assembly without types.
printed("gcc", "-c", "-o", untyped := f"{scratch}/untyped.o", "-x", "assembler", "-", given="f: nop\n.section .text.g,\"ax\"\ng: nop\n")
lacking = [("no function symbols", untyped), ("no function symbols in .dynsym", program, "--dynamic")]
for name, hint, places in (("macho", "its .dSYM bundle", [0xc4]), ("pe-image", "a .pdb file, if it is an MSVC program", [0xae, 0xc0])):
    image = bytearray(pathlib.Path(f"rust/samples/{name}.bin").read_bytes())
    for place in places:
        image[place] = 0
    if name == "pe-image":
        image[image.index(b".text\0") + 36] = 0x20
    pathlib.Path(path := f"{scratch}/{name}").write_bytes(image)
    lacking.append((f"no function symbols\nbinfarce: {path}: its debug symbols may be in {hint}", path))
# 64-bit PowerPC of ABI version 1: a program has the descriptor of its function in `.opd`, and its debug file has no bytes there.
def described(path, kind):
    words, row = b"\0.opd\0.text\0.symtab\0.strtab\0f\0", struct.pack(">I2BH2Q", 28, 0x12, 0, 1, 0x2000, 16)
    body = struct.pack(">3Q", 0x1000, 0, 0) + bytes(24) + row + words
    table = ((1, kind, 3, 0x2000, 64, 24, 0, 0, 8, 0), (6, kind, 6, 0x1000, 64, 64, 0, 0, 4, 0), (12, 2, 0, 0, 88, 48, 4, 0, 8, 24), (20, 3, 0, 0, 136, len(words), 0, 0, 1, 0))
    header = b"\x7fELF\2\2\1".ljust(16, b"\0") + struct.pack(">2HI3QI6H", 3, 21, 1, 0, 0, 64 + len(body), 1, 64, 0, 0, 64, 5, 4)
    pathlib.Path(path).write_bytes(header + body + bytes(64) + b"".join(struct.pack(">2I4Q2I2Q", *it) for it in table))
    return path
ends(0, f"{0x1000:016x} {16:10} .text f\n", "", "binfarce", "list", "--all", described(f"{scratch}/opd", 1))
debug = described(f"{scratch}/opd.debug", 8)
lacking.append((f"no function symbols\nbinfarce: {debug}: its function descriptors (.opd) are in the program itself", debug))
for hint, path, *option in lacking:
    for words in (["list", "--all"], ["list"], ["list", "-n", "0"], ["size", "--all"], ["size", "--by=function-section"], ["size", "--fail-above=9"], ["map"], ["map", "--folded", "--all"],
                  ["at", "--section=.text"], ["at", "--annotate", "--section=.text"], ["at", "--section=.text", "--base=0"]):
        ends(1, "", f"binfarce: {path}: {hint}", "binfarce", *words, *option, path)
    ends(1, f'{{"file":"{path}","error":"{hint.splitlines()[0]}"}}\n', f"binfarce: {path}: {hint}", "binfarce", "list", "--json", "--all", *option, path)
    ends(1, "", "\n".join([f"binfarce: {path}: {hint}"] * 2), "binfarce", "diff", *option, path, path)
# A section without function symbols isn't refused in a file that has others, nor one whose function symbols are in it alone.
ends(1, "", f"binfarce: {untyped}: no function symbols", "binfarce", "list", "--section=.text.g", untyped)
line = f"binfarce: {empty}, {sample}: 0 of 1 addresses are in a function symbol; --base or --maps is needed for addresses in memory"
ends(0, "0x3000\n", line, *at, "--annotate", empty, sample, given=b"0x3000\n")
ends(0, "0x3000\n", f"binfarce: {empty}: no function symbols", *at, "--annotate", empty, given=b"0x3000\n")
ends(0, "", "", "binfarce", "list", "--all", "-n0", file)
ends(0, "", f"binfarce: {library}: no function symbols in the section; --all takes {len(symbols)}", "binfarce", "list", "--dynamic", "--section=.data", "-n0", library)
ends(0, f"{0:10} {0:10} {'+0':>11} [total]\n", f"binfarce: {empty}: no function symbols\nbinfarce: {file}: no function symbols in the section; --all takes 3", "binfarce", "diff", empty, file)
# Debug symbols are looked for where .symtab is missing, and not for .dynsym.
printed("gcc", "-static", "-nostdlib", "-Wl,--build-id=0x0102030405", "-o", f"{scratch}/static", "-x", "assembler", "-", given=".globl _start\n_start: nop\n")
ends(1, "", f"binfarce: {scratch}/static: no dynamic symbol table (.dynsym)", "binfarce", "list", "--dynamic", f"{scratch}/static")
ends(1, "", f"binfarce: {program}: no function symbols in .dynsym", "binfarce", "at", "--dynamic", program, "1")
# A message is one line, and has no control character of a name or a word.
forged = f"{scratch}/o\nbinfarce: o: no such file\x1b[2J\x7f\x9b"
shown = forged.replace("\n", "\\u000a").replace("\x1b", "\\u001b").replace("\x7f", "\\u007f").replace("\x9b", "\\u009b")
pathlib.Path(forged).write_bytes(pathlib.Path(file).read_bytes())
ends(0, "text 0\n", f"binfarce: {shown}: no function symbols in the section; --all takes 3", "binfarce", "list", forged)
ends(1, "", f"binfarce: {shown}+: {not_there}", "binfarce", "list", f"{forged}+")
ends(2, "", "binfarce: not an address: 1\\u001b", "binfarce", "at", forged, "1\x1b")
# So is a heading.
for words, text in ((["list"], f"text 0\n"), (["size", "--by=section"], printed(folder / "binfarce", "size", "--by=section", file))):
    run = subprocess.run([folder / "binfarce", *words, forged, forged], capture_output=True, text=True)
    assert run.stdout == f"\n{shown}:\n{text}" * 2 and run.returncode == 0, run
# Each hint that names an option, followed: the option answers what the call without it didn't, and a name that isn't the file's brings none.
own, kernel = assembled("main.ko", 32, ("main", 0, 16), ("big", 16, 16)), b"RIP: 0010:big+0x2/0x10 [main]\n"
followed = [(["list", file], b"", "--all takes 3", ["--all"], lines), (["at", file, "2"], b"", "--section=NAME takes one of them", ["--section=.text.g"], f"{2:016x} g+0x2\n"),
            ([*at[1:], sample, "401005"], b"", "--base or --maps is needed", ["--base=400000"], f"{0x401005:016x} foo+0x5\n"),
            ([*at[1:], sample, "401005"], b"", "--base or --maps is needed", ["--maps", maps], f"{0x401005:016x} foo+0x5\n"),
            ([*at[1:], "--annotate", sample], b"00001005\n", "--bare takes those without 0x", ["--bare"], "00001005 <foo+0x5>\n"),
            ([*at[1:], "--annotate", sample], b"x.so+0x1005\n", "--as=NAME says so", ["--as=x.so"], "x.so+0x1005 <foo+0x5>\n"),
            ([*at[1:], "--annotate", own], kernel, "--as=NAME says so", ["--as=main"], kernel.decode()),
            (["at", "rust/samples/pe-image.bin", "140001018"], b"", "--return looks each up", ["--return"], f"{0x140001018:016x} g+0x8\n"),
            ([*at[1:], f"--maps={maps}", "--as=x", sample, "401005"], b"", "--as=NAME takes another name", [f"--as={os.path.basename(sample)}"], f"{0x401005:016x} foo+0x5\n"),
            (["size", assembled("c", 8, ("c", 0, 8))], b"", "--by=function shows whose", ["--by=function"], f"{8:10} c\nsum 8\ntext 8\n"),
            (["list", stripped], b"", f"--dynamic --all takes {len(symbols)}", ["--dynamic", "--all"], printed(folder / "binfarce", "list", "--dynamic", "--all", library))]
for (command, *words), given, hint, options, answer in followed:
    run, then = (subprocess.run([folder / "binfarce", command, *words, *it], capture_output=True, input=given) for it in ([], options))
    assert hint in run.stderr.decode() and run.stdout.decode() != answer or command == "at" and given == kernel, f"{hint}: {run}"
    assert then.stdout.decode() == answer, f"{hint}: {then}"

# What no reader reads is refused by every command, by its first bytes, also from a pipe that doesn't end, and as a JSON object.
thumb, wrapped = b"\xc4\1\1" + bytes(17), b"\xde\xc0\x17\x0b"
universal, is_32, is_java = "a universal Mach-O file; `lipo -thin ARCHITECTURE FILE` extracts a part", "a Mach-O file of 32 bits; those of 64 are read", "a Java class file; `javap -v FILE` shows it"
has_many = "an ELF file of 65,280 sections or more; `readelf -SW FILE` lists them"
is_core = "a core file; the program that it is of, which `file FILE` names, has the symbols"
core = [b"\x7fELF" + bytes([size, order, 1]) + bytes(9) + (4).to_bytes(2, "big" if order == 2 else "little") for size in (1, 2) for order in (1, 2)]
behind = lambda header, table=0x40: b"MZ" + bytes(22) + bytes([table]) + bytes(35) + bytes([0x80, 0, 0, 0]) + bytes(64) + header
is_le, is_dos = "an LE or LX file, of OS/2 or Windows 9x; PE files are read", "a DOS program; PE files are read"
is_coff, is_bitcode = "a COFF object file; the PE file that it is linked into is read", "LLVM bitcode; the file that it is linked into is read"
foreign = [(universal, b"\xca\xfe\xba\xbe\0\0\0\2"), (universal, b"\xca\xfe\xba\xbe\0\0\0\x2c"), (universal, b"\xca\xfe\xba\xbf\0\0\0\1"),
           (is_java, b"\xca\xfe\xba\xbe\0\0\0\x2d"), (is_java, b"\xca\xfe\xba\xbe\0\1\0\0"), (is_32, b"\xce\xfa\xed\xfe"), (is_32, b"\xfe\xed\xfa\xce"),
           ("a big-endian Mach-O file; little-endian ones are read", b"\xfe\xed\xfa\xcf"),
           ("an archive; `ar x FILE` extracts its members", b"!<arch>\n"),
           ("a thin archive; its members, which `ar t FILE` lists, are files of their own", b"!<thin>\n"),
           (is_coff, b"\x64\x86\1\0"), (is_coff, b"\x4c\1"), (is_coff, b"\x64\xaa"), (is_coff, b"\xc0\1"), (is_coff, thumb),
           ("a PDB file; `llvm-pdbutil dump --publics FILE` shows its symbols", b"Microsoft C/C++ MSF 7.00\r\n\x1aDS"),
           ("a WebAssembly module; `wasm-objdump -x FILE` shows it", b"\0asm\1"), (is_bitcode, b"BC\xc0\xde"), (is_bitcode, wrapped),
           ("a script; its first line names the program that runs it", b"#!/bin/sh\n"),
           *((is_core, it) for it in core), (is_dos, behind(b"", 0x1c)), (is_dos, behind(b"P", 0x3f)), (is_le, behind(b"LE")), (is_le, behind(b"LX")),
           ("an NE file, of 16-bit Windows or OS/2; PE files are read", behind(b"NE\5\n")),
           ("a gzip file; `gzip -d <FILE` writes what it holds", b"\x1f\x8b\x08\0"), ("an xz file; `xz -d <FILE` writes what it holds", b"\xfd7zXZ\0\0\4"),
           ("a Zstandard file; `zstd -d <FILE` writes what it holds", b"\x28\xb5\x2f\xfd\x04"),
           (has_many, bytes(data[:60]) + bytes(4)), (has_many, b"\x7fELF\1\2\1" + bytes(25) + b"\0\0\0\x34"),
           (unknown, thumb[:16] + b"\1"), (unknown, b"a text that isn't one\n")]
calls = [it.split() for it in ("list", "list --all", "list --dynamic --json", "size", "size --by=section", "size --all --json", "map", "map --folded --all",
                               "at --all {} 1", "section", "section {} .text", "section --json", f"diff {{}} {sample}", f"diff --json {sample}")]
for line, magic in foreign:
    pathlib.Path(path := f"{scratch}/other").write_bytes(magic + bytes(600))
    for command, *words in calls:
        words = [it.format(path) for it in words] + [path] * ("{}" not in words)
        object = json.dumps({"file": path, "error": line}, separators=(",", ":")) + "\n" if "--json" in words else ""
        ends(1, object, f"binfarce: {path}: {line}", "binfarce", command, *words)
    ends(1, "", f"binfarce: -: {line}", "binfarce", "list", "-", given=magic + bytes(600))
ends(1, "", f"binfarce: {scratch}/names: {is_text}", "binfarce", "list", "--all", f"{scratch}/names")

# Sums by a key, in which each byte counts once, for the innermost function: of functions that overlap, and of a generic function.
rows = [("_RNvC1a1f", 0, 16), ("_RNvC1a1g", 8, 16), ("_RNvC3std1h", 24, 4), ("c", 28, 2), ("_RINvC1b1fhE", 30, 4), ("_RINvC1b1ftE", 34, 5)]
old, new = assembled("old", 40, *rows), assembled("new", 40, *rows[:3], ("_RNvC1a1i", 28, 8))
for lines, *words in (("24 a|9 b|4 std|2 [unknown]",), ("24 a|9 b|4 std|2 [unknown]", "--by=crate"), ("24 a|9 b|4 std|2 [unknown]", "--by=module"), ("39 text", "--by=function-section", "--section=.text"),
                      ("16 a::g|8 a::f|5 b::f::<u16>|4 b::f::<u8>|4 std::h|2 c", "--by=function"), ("24 a|9 b|4 [std]|2 [unknown]", "--std"), ("24 a|9 b|4 [std]|2 [unknown]", "--by=crate", "--std"), ("24 a|9 b|4 [std]|2 [unknown]", "--by=module", "--std"),
                      ("16      1 a::g|9      2 b::f::<..>|14      3 [3 others]", "--by=generic", "-n", "2"),
                      ("24  60.00% a|15  37.50% [3 others]", "--percent", "--first=1")):
    lines = "".join(f"{size:>10} {name}\n" for size, name in (it.split(" ", 1) for it in lines.split("|")))
    ends(0, lines + "sum 39\ntext 40\n", "", "binfarce", "size", *words, old)
ends(0, f"{39:10} .text\nsum 39\n", "", "binfarce", "size", "--by=function-section", old)
# The crates that Rust's standard library alone has, and those that a program may have of its own.
crates = ("std", "core", "alloc", "proc_macro", "test", "std_detect", "compiler_builtins", "unwind", "panic_abort", "panic_unwind",
          "rustc_std_workspace_core", "rustc_std_workspace_alloc", "rustc_std_workspace_std", "hashbrown", "libc", "memchr", "object", "gimli")
many = assembled("crates", 18, *((f"_RNvC{len(name)}{name}1f", at, 1) for at, name in enumerate(crates)))
lines = "".join(f"{size:10} {name}\n" for size, name in ((13, "[std]"), *((1, name) for name in sorted(crates[13:]))))
ends(0, lines + "sum 18\ntext 18\n", "", "binfarce", "size", "--std", many)
# A function in another one, which is in two parts then, and aliases, of which the one of the least stored name counts.
nested = assembled("nested", 40, ("_RNvC1a1o", 0, 30), ("_RNvC1b1i", 10, 8), ("_RNvC1d1z", 32, 4), ("_RNvC1c1z", 32, 4))
for lines, *words in (("22 a|8 b|4 c|0 d",), ("22 a::o|8 b::i|4 c::z|0 d::z", "--by=function")):
    lines = "".join(f"{size:>10} {name}\n" for size, name in (it.split(" ", 1) for it in lines.split("|")))
    ends(0, lines + "sum 34\ntext 40\n", "", "binfarce", "size", *words, nested)
# Two functions of 2^63 bytes at one address have 2^63; one behind the other they have 2^64, past every sum, and with one byte less 2^64 - 1.
top = 1 << 63
pair, apart, most = (assembled(name, 16, ("_RNvC1a1f", 0, top), ("_RNvC1b1f", at, size)) for name, at, size in (("pair", 0, top), ("apart", top, top), ("most", top, top - 1)))
for file, size in ((pair, 0), (most, top - 1)):
    ends(0, f"{top:10} a\n{size:10} b\nsum {top + size}\ntext 16\n", "", "binfarce", "size", file)
    ends(0, f"{top + size:10} {top + size:10} {'+0':>11} [total]\n", "", "binfarce", "diff", file, file)
ends(0, f"a;f {top}\n", "", "binfarce", "map", "--folded", pair)
for call in (("size",), ("map",), ("map", "--folded")):
    ends(1, "", f"binfarce: {apart}: sizes are too large", "binfarce", *call, apart)
ends(1, "", f"binfarce: {apart}: sizes are too large", "binfarce", "diff", pair, apart)
ends(1, "", f"binfarce: {apart}: sizes are too large\n{lost}", "binfarce", "diff", apart, missing)
# Modules: functions, closures, instances and functions within functions; methods of types and traits, in either mangling, whose names c++filt reads so.
modules = [("_RNvNtC1a1b1f", "a::b"), ("_RNvC1a1f", "a"), ("_RNCNvNtC1a1b1f0", "a::b"), ("_RINvNtC1a1b1fhE", "a::b"), ("_RNvNvNtC1a1b1f1g", "a::b::f"),  # a::b::f, a::f, a::b::f::{closure#0}, a::b::f::<u8>, a::b::f::g
           ("_RNvMNtC1a1bNtB2_1T1g", "a::b"), ("_RNvXNtC1a1cNtNtB4_1b1TNtC1d2Tr1h", "a::b"), ("_RNvXC1aNtC1d1VNtNtB2_1b2Tr1h", "a::b"),  # <a::b::T>::g, <a::b::T as d::Tr>::h, <d::V as a::b::Tr>::h
           ("_RNvXC1aRNtNtC2ba1b1TNtB2_2Tr1h", "a"), ("_RNvMC4coree4find", "core"), ("_RNvNtC1a9___private1f", "a::__private"), ("_RNvNtC1a1b1T", "a::b"),  # <&ba::b::T as a::Tr>::h, <str>::find, a::__private::f, a::b::T
           ("_RNvNtNtC1au3_4ca1b1f", "a::\u00e4::b"), ("_RNvMNtC1a3___TNtB2_1T1g", "a"), ("c", "[unknown]"), ("_Z1fv", "[unknown]"),  # a::ä::b::f, <a::__T::T>::g
           *((f"_ZN{it}17h0123456789abcdefE", name) for it, name in (
               ("1a1b1f", "a::b"), ("1a1f", "a"), ("1a1b11T$LT$u8$GT$1g", "a::b"), ("1a1b1f28_$u7b$$u7b$closure$u7d$$u7d$", "a::b"),  # a::b::f, a::f, a::b::T<u8>::g, a::b::f::{{closure}}
               ("4core3str21_$LT$impl$u20$str$GT$4find", "core::str"), ("33_$LT$a..b..T$u20$as$u20$d..Tr$GT$1h", "a::b"),  # core::str::<impl str>::find, <a::b::T as d::Tr>::h
               ("1a1b1_43_$LT$impl$u20$d..Tr$u20$for$u20$a..b..T$GT$1h", "a::b"), ("31_$LT$$RF$T$u20$as$u20$a..Tr$GT$1h", "a"),  # a::b::_::<impl d::Tr for a::b::T>::h, <&T as a::Tr>::h
               ("4core3ptr28drop_in_place$LT$a..b..T$GT$", "core::ptr")))]  # core::ptr::drop_in_place<a::b::T>
sums = {}
for at, (stored, name) in enumerate(modules):
    sums[name] = sums.get(name, 0) + at + 1
whole = sum(sums.values())
modular = assembled("modules", whole, *((stored, at * (at + 1) // 2, at + 1) for at, (stored, name) in enumerate(modules)))
for joins in (False, True):
    rows = {}
    for name, size in sums.items():
        name = "[std]" if joins and name.split("::")[0] == "core" else name
        rows[name] = rows.get(name, 0) + size
    rows = sorted(rows.items(), key=lambda it: (-it[1], it[0].encode()))
    for words, others in (((), rows), (("-n3",), [*rows[:3], (f"[{len(rows) - 3} others]", sum(size for name, size in rows[3:]))])):
        lines = "".join(f"{size:10} {name}\n" for name, size in others)
        ends(0, lines + f"sum {whole}\ntext {whole}\n", "", "binfarce", "size", "--by=module", *["--std"] * joins, *words, modular)
    lines = "".join(f"{0:10} {size:10} {size:+11} {name}\n" for name, size in rows)
    ends(0, lines + f"{0:10} {whole:10} {whole:+11} [total]\n", f"binfarce: {empty}: no function symbols", "binfarce", "diff", "--by=module", *["--std"] * joins, empty, modular)
# Where half of the bytes or more have no crate, a line says how many, by crate and by module.
half, less = assembled("half", 20, ("_RNvC1a1f", 0, 10), ("c", 10, 10)), assembled("less", 21, ("_RNvC1a1f", 0, 11), ("c", 11, 10))
for words, line in (((), f"binfarce: {half}: 10 of 20 bytes {nameless}"), (("--by=module",), f"binfarce: {half}: 10 of 20 bytes {nameless}"), (("--by=function",), "")):
    ends(0, printed(folder / "binfarce", "size", *words, half), line, "binfarce", "size", *words, half)
lines = "".join(f'{{"file":"{half}",{it}}}\n' for it in ('"name":"[unknown]","size":10,"copies":1', '"name":"a","size":10,"copies":1', '"sum":20,"text":20'))
ends(0, lines, f"binfarce: {half}: 10 of 20 bytes {nameless}", "binfarce", "size", "--json", half)
ends(0, f"{11:10} a\n{10:10} [unknown]\nsum 21\ntext 21\n", "", "binfarce", "size", less)
# The same of a library by section, from readelf's rows.
sums, end = {}, (0, 0)
for section, address, size in sorted((int(section), int(address, 16), int(size, 0)) for address, size, section, _ in symbols):
    end, start = max(end, (section, address + size)), max(end, (section, address))
    sums[names[section]] = sums.get(names[section], 0) + max(0, address + size - start[1])
lines = "".join(f"{size:10} {name}\n" for name, size in sorted(sums.items(), key=lambda it: (-it[1], it[0]))) + f"sum {sum(sums.values())}\n"
ends(0, lines, "", "binfarce", "size", "--by=function-section", "--dynamic", library)
for size, *words in ((sum(sums.values()), "--all"), (sums[".text"],)):
    ends(0, f"{size:10} {size:10} {'+0':>11} [total]\n", "", "binfarce", "diff", "--dynamic", *words, library, library)

# The bytes of a file by section, counted by hand: a header of 64 bytes, 5 section headers of 64, and the sections between.
for count, sums in ((None, "120 .symtab|33 .shstrtab|32 .text|18 .strtab"), ("2", "120 .symtab|33 .shstrtab|50 [2 others]")):
    sums = [it.split(" ", 1) for it in f"{sums}|384 [headers and gaps]".split("|")]
    lines = "".join(f"{size:>10} {0:10} {name}\n" for size, name in sums)
    ends(0, lines + "sum 587\n", "", "binfarce", "size", "--by=section", *(["-n", count] if count else []), sample)
for word, *words in (("--std", "size", "--std", old), ("--all", "size", "--all", old), ("--percent", "size", "--percent", old), ("--dynamic", "diff", "--dynamic", old, new)):
    ends(2, "", f"binfarce: {word} goes with --by=function-section, and not with --by=section", "binfarce", *words, "--by=section")
# How they change, from readelf's rows: the bytes of each section in the file and in memory, and what is left of the file.
def sections_of(path):
    rows = re.findall(r"\[ *[1-9]\d*\] (\S+) +(\w+) +\w+ +\w+ +(\w+) +\w+ (.*)", printed("readelf", "-SW", path))
    sums = {name: [0 if kind == "NOBITS" else int(size, 16), int(size, 16) if "A" in rest else 0] for name, kind, size, rest in rows}
    sums["[headers and gaps]"] = [os.path.getsize(path) - sum(it[0] for it in sums.values()), 0]
    return sums
was, now = sections_of(old), sections_of(new)
differ = sorted(((name, *was.get(name, [0, 0]), *now.get(name, [0, 0])) for name in {**was, **now} if was.get(name) != now.get(name)),
                key=lambda it: (-abs(it[3] - it[1]), -abs(it[4] - it[2]), it[0]))
assert len(differ) > 1, "no sections differ"
whole = ("[total]", *(sum(it[k] for it in sums.values()) for sums in (was, now) for k in (0, 1)))
def changed(rows, growth=""):
    return "".join(f"{b:10} {d:10} {d - b:+11} {e - c:+11} {growth and growth(b, d)}{name}\n" for name, b, c, d, e in rows)
def growth(was, now):
    per_cent = f"{'-' if now < was else '+'}{abs(now - was) * 100 // was}.{abs(now - was) * 10000 // was % 100:02}%" if was else "new"
    return f"{per_cent:>10} "
ends(0, changed([*differ, whole]), "", "binfarce", "diff", "--by=section", old, new)
ends(0, changed([*differ, whole], growth), "", "binfarce", "diff", "--by=section", "--percent", old, new)
others = (f"[{len(differ) - 1} others]", *(sum(it[k] for it in differ[1:]) for k in (1, 2, 3, 4)))
ends(0, changed([differ[0], others, whole]), "", "binfarce", "diff", "--by=section", "-n", "1", old, new)
# A limit for the growth of the file, which doesn't hold for one that shrinks.
by = whole[3] - whole[1]
assert by, "the files have one length"
for before, after, growth, rows in ((old, new, by, [*differ, whole]), (new, old, -by, [(name, d, e, b, c) for name, b, c, d, e in (*differ, whole)])):
    for limit in (abs(by), abs(by) - 1):
        line = f"binfarce: {after}: grew by {growth} bytes, and --fail-above allows {limit}" if growth > limit else ""
        ends(3 if line else 0, changed(rows), line, "binfarce", "diff", "--by=section", f"--fail-above={limit}", before, after)
for *paths, lines in ((missing, of_sys, f"{lost}\nbinfarce: {of_sys}: {is_text}"), (of_sys, missing, f"binfarce: {of_sys}: {is_text}\n{lost}"),
                      (byte, "/dev/null", f"binfarce: {byte}: {unknown}\nbinfarce: /dev/null: {is_empty}"), (old, truncated, f"binfarce: {truncated}: {ended}"),
                      (truncated, missing, f"binfarce: {truncated}: {ended}\n{lost}"), (missing, old, lost), (old, missing, lost)):
    ends(1, "", lines, "binfarce", "diff", "--by=section", *paths)
for path, line in ((missing, lost), (truncated, f"binfarce: {truncated}: {ended}")):
    ends(1, "", line, "binfarce", "size", "--by=section", path)

# The changes of these sums, and a limit for their growth.
changes = (("b", 9, 0, "-9", "-100.00%"), ("a", 24, 32, "+8", "+33.33%"), ("[unknown]", 2, 0, "-2", "-100.00%"), ("[total]", 39, 36, "-3", "-7.69%"))
for words, percent in (((), "{0:.0}"), (("--percent",), "{0:>10} ")):
    lines = "".join(f"{was:10} {now:10} {change:>11} {percent.format(growth)}{name}\n" for name, was, now, change, growth in changes)
    ends(0, lines, "", "binfarce", "diff", *words, "--fail-above=0", old, new)
for rows, *words in (("0 8 a::i|5 0 b::f::<u16>|4 0 b::f::<u8>|2 0 c|39 36 [total]", "--by=function", old, new),
                     ("24 0 a|4 13 [std]|9 0 b|2 0 [unknown]|0 1 gimli|0 1 hashbrown|0 1 libc|0 1 memchr|0 1 object|39 18 [total]", "--std", old, many)):
    lines = "".join(f"{was:>10} {now:>10} {int(now) - int(was):+11} {name}\n" for was, now, name in (it.split(" ", 2) for it in rows.split("|")))
    ends(0, lines, "", "binfarce", "diff", *words)
lines = f"{0:10} {9:10} {'+9':>11} b\n{32:10} {26:10} {'-6':>11} [2 others]\n{36:10} {39:10} {'+3':>11} [total]\n"
for limit, status, share in (("3", 0, ""), ("2", 3, ""), ("9%", 0, ""), ("8%", 3, " (8.33%)"), ("1k", 0, ""), ("1M", 0, "")):
    line = f"binfarce: {old}: grew by 3 bytes{share}, and --fail-above allows {limit}" if status else ""
    ends(status, lines, line, "binfarce", "diff", "-n", "1", "--fail-above", limit, new, old)
# Without function symbols there is no growth, which a line says; and a reader that closes the output leaves the verdict unknown.
line = f"binfarce: {old}: no function symbols in the section; --all takes 6"
# Where nothing is counted no limit is held.
nothing = f"binfarce: {old}: nothing is counted, so --fail-above can't be held"
ends(3, f"{0:10} {0:10} {'+0':>11} [total]\n", f"{line}\n{line}\n{nothing}", "binfarce", "diff", "--fail-above=0", "--section=.data", old, old)
ends(3, printed(folder / "binfarce", "size", "--section=.data", old), f"{line}\n{nothing}", "binfarce", "size", "--fail-above=10", "--section=.data", old)
for words in (("size", "--fail-above=1000", old), ("size", "--json", "--fail-above=0", old), ("diff", "--fail-above=0", old, new), ("diff", "--by=section", "--fail-above=0", old, new)):
    fails(full, 1, "binfarce: standard output: Broken pipe", "binfarce", *words)
# A limit for the sums themselves: of two files, one is above it.
line = f"binfarce: {old}: has 39 bytes, and --fail-above allows 38"
ends(0, printed(folder / "binfarce", "size", old), "", "binfarce", "size", "--fail-above=39", old)
ends(3, printed(folder / "binfarce", "size", old, new), line, "binfarce", "size", "--fail-above=38", old, new)
ends(3, printed(folder / "binfarce", "size", "--by=section", sample), f"binfarce: {sample}: has 587 bytes, and --fail-above allows 586",
     "binfarce", "size", "--by=section", "--fail-above=586", sample)
line = f"binfarce: {old}: has {whole[1]} bytes, and --fail-above allows 587"
ends(3, printed(folder / "binfarce", "size", "--by=section", old, sample), line, "binfarce", "size", "--by=section", "--fail-above=587", old, sample)
# A limit also holds for objects, for the first sums, and for a file that is followed by another; where one is refused the status is 1.
for *words, limit, hint in (*(("size", it, 38, f"{old}: has 39") for it in ("--json", "-n1", "--by=function")), *(("diff", it, 2, f"{old}: grew by 3") for it in ("--json", "-n0")),
                            *(("size", "--by=section", it, whole[1] - 1, f"{old}: has {whole[1]}") for it in ("--json", "-n1"))):
    files = (new, old) if words[0] == "diff" else (blanks, old) if words[-1] == "-n1" else (old, blanks)
    ends(3, printed(folder / "binfarce", *words, *files), f"binfarce: {hint} bytes, and --fail-above allows {limit}", "binfarce", *words, f"--fail-above={limit}", *files)
ends(1, f"\n{old}:\n" + printed(folder / "binfarce", "size", old), f"{lost}\nbinfarce: {old}: has 39 bytes, and --fail-above allows 38", "binfarce", "size", "--fail-above=38", missing, old)
# Limits by row: a row above its limit, also one that isn't shown, and a name that no row has, in the order of the lines.
budgets, growing = f"{scratch}/budgets", (old, new) if by > 0 else (new, old)
for status, said, text, *words in ((3, (f"{old}: a has 24 bytes, and --limits allows 23", f"{old}: no row is named zz, which --limits names"), "# most\na 23\n\n  b\t9 \nzz 1\n", "size", old),
                                   (3, (f"{old}: b has 9 bytes, and --limits allows 8",), "b 8", "size", "--json", "-n1", old), (0, (), "a 1k\r\nb 9\r\n", "size", "--std", "--percent", old),
                                   (3, (f"{old}: b::f::<u16> has 5 bytes, and --limits allows 4",), "b::f::<u8> 4\nb::f::<u16> 4\n", "size", "--by=function", old),
                                   (3, (f"{old}: b has 9 bytes, and --limits allows 8", f"{new}: no row is named b, which --limits names"), "b 8\n", "size", old, new),
                                   (0, (f"{old}: no row is named zz, which --limits names",), "zz 1\n", "size", old), (0, (f"{budgets}: no limit is in it, so none is held",), "# none\n", "size", old),
                                   (3, (f"{new}: a grew by 8 bytes, and --limits allows 7",), "b 0\na 7\n[total] 0\n", "diff", old, new), (0, (), "a 34%\n", "diff", "-n0", old, new),
                                   (3, (f"{new}: a grew by 8 bytes (33.33%), and --limits allows 33%",), "a\t33%\n", "diff", "--json", old, new),
                                   (3, (f"{growing[1]}: [total] grew by {abs(by)} bytes, and --limits allows {abs(by) - 1}",), f"[total] {abs(by) - 1}\n", "diff", "--by=section", *growing),
                                   (0, (f"{new}: no row is named .nowhere, which --limits names",), f"[total] {max(by, 0)}\n.nowhere 2%\n", "diff", "--by=section", old, new),
                                   (0, (f"{sample}: no row is named [total], which --limits names",), "[total] 1\n", "size", "--by=section", sample),
                                   (3, (f"{old}: has 39 bytes, and --fail-above allows 38", f"{old}: a has 24 bytes, and --limits allows 23"), "a 23", "size", "--fail-above=38", old),
                                   (3, (f"{old}: has 39 bytes, and --fail-above allows 38",), "a 24", "size", "--fail-above=38", old)):
    pathlib.Path(budgets).write_text(text)
    lines = "\n".join(f"binfarce: {it}" for it in said)
    ends(status, printed(folder / "binfarce", *(it for it in words if not it.startswith("--fail"))), lines, "binfarce", words[0], f"--limits={budgets}", *words[1:])
for status, line, text, *words in ((2, "line 2 has no limit; a line is the name of a row, a blank and a limit", b"a 1\nb\n", "size", old), (2, "line 1: 5% is for diff; size takes a number of bytes", b"a 5%", "size", old),
                                   (2, "line 1: a limit is a number of bytes, also as 600k or 2M, or of diff one of per cent as 2%, and not 5q", b"a 5q", "diff", old, new),
                                   (2, "line 3: a line before it has a, too", b"a 1\n\n a  2", "size", old), (1, "not UTF-8", b"\xff 1", "size", old)):
    pathlib.Path(budgets).write_bytes(text)
    ends(status, "", f"binfarce: {budgets}: {line}", "binfarce", words[0], "--limits", budgets, *words[1:])
ends(1, "", lost, "binfarce", "size", f"--limits={missing}", old)
ends(2, "", "binfarce: no option --limits=x of list; binfarce list --help shows them", "binfarce", "list", "--limits=x", old)
pathlib.Path(budgets).write_text("a 24\n")
fails(full, 1, "binfarce: standard output: Broken pipe", "binfarce", "size", f"--limits={budgets}", old)
# Numbers past 32 bits, and growth past 2^64 hundredths; growth at its limit in per cent, and growth from nothing, which is above each.
narrow, wide, widest = (assembled(name, 16, ("_RNvC1a1f", 0, size)) for name, size in (("narrow", 16), ("wide", (1 << 32) + 16), ("widest", top + 16)))
per_cent, hundredths = divmod(10000 * (1 << 22) // 587, 100)
for *words, limit, hint in (("size", wide, 20, f"{wide}: has {(1 << 32) + 16}"), ("size", wide, (1 << 32) + 16, ""), ("diff", narrow, wide, 20, f"{wide}: grew by {1 << 32}"),
                            ("diff", narrow, wide, 1 << 32, ""), ("diff", narrow, widest, "1%", f"{widest}: grew by {top} bytes ({top // 16 * 100}.00%)"), ("diff", narrow, half, "25%", ""),
                            ("diff", narrow, half, "24%", f"{half}: grew by 4 bytes (25.00%)"), ("size", "--by=section", sparse, 1000, f"{sparse}: has {8 << 30}"),
                            ("diff", "--by=section", sample, sparse, 1000, f"{sparse}: grew by {(8 << 30) - 587}"),
                            ("diff", "--by=section", sample, large, f"{per_cent}%", f"{large}: grew by {1 << 22} bytes ({per_cent}.{hundredths:02}%)"), ("diff", "--by=section", sample, large, f"{per_cent + 1}%", "")):
    line = f"binfarce: {hint}{' bytes' * ('bytes' not in hint)}, and --fail-above allows {limit}" if hint else ""
    ends(3 if hint else 0, printed(folder / "binfarce", *words), line, "binfarce", *words, f"--fail-above={limit}")
line = f"binfarce: {empty}: no function symbols\nbinfarce: {old}: grew by 39 bytes, and --fail-above allows 9000%"
ends(3, printed(folder / "binfarce", "diff", empty, old), line, "binfarce", "diff", "--fail-above=9000%", empty, old)
for line, *words in (("--fail-above=2% is for diff; size takes a number of bytes", "size", "--fail-above=2%", old), ("--folded and --first exclude each other", "map", "--folded", "-n2", old),
                     *((f"--fail-above takes a number of bytes, also as 600k or 2M, or of per cent as 2%, and not {it}", "diff", f"--fail-above={it}", old, new)
                       for it in ("2.5%", "k", "1kB", "1KB", "1kiB", "1Ki", "1 k", "1kk", "1.5k", "1k%", "1%k", "1G", f"{1 << 54}k", f"{1 << 44}M"))):
    ends(2, "", f"binfarce: {line}", "binfarce", *words)
# Units: 2^32 bytes are 4,194,304 KiB and 4,096 MiB; the greatest number of each unit that is below 2^64 bytes is a limit, too.
for limit, unit in ((f"{n}{name}", (n, size)) for n, size, names in ((4194304, 1024, ("k", "K", "KiB")), (4096, 1048576, ("m", "M", "MiB"))) for name in names for n in (n, n - 1, 2**64 // size - 1)):
    most = unit[0] * unit[1]
    line = f"binfarce: {wide}: grew by {1 << 32} bytes, and --fail-above allows {most}" if most < 1 << 32 else ""
    ends(3 if line else 0, printed(folder / "binfarce", "diff", narrow, wide), line, "binfarce", "diff", f"--fail-above={limit}", narrow, wide)
# Both files that are refused are reported, in their order.
for *paths, lines in ((missing, of_sys, f"{lost}\nbinfarce: {of_sys}: {is_text}"), ("/dev/null", missing, f"binfarce: /dev/null: {is_empty}\n{lost}"),
                      ("/dev/null", byte, f"binfarce: /dev/null: {is_empty}\nbinfarce: {byte}: {unknown}")):
    ends(1, "", lines, "binfarce", "diff", *paths)
for line, path in ((lost, missing), (f"binfarce: {of_sys}: {is_text}", of_sys)):
    ends(1, "", line, "binfarce", "diff", old, path)
    ends(1, "", line, "binfarce", "diff", path, old)

# Sums keep a name once, and answers are written before all are made: 4,000 functions share a name of 100 kB in a file of 196 kB.
path, name = of_one_name(4000, 100000), "a" * 100000
for lines, *words in ((f"{64000:10} {name}\nsum 64000\ntext 64000\n", "size", "--by=function", "-n", "1"), (f"{64000:10} {64000:10} {'+0':>11} [total]\n", "diff", "--by=function", path),
                      (f"{0:016x} {16:10} {name}\n", "list", "--sort=name", "-n1")):
    ends(0, lines, "", "binfarce", *words, path, under=("sh", "-c", 'ulimit -v 65536; exec "$0" "$@"'))
ends(0, "", "", "binfarce", "at", path, given=b"8\n" * 4000, to=subprocess.DEVNULL, under=("sh", "-c", 'ulimit -v 131072; exec "$0" "$@"'))

# Stacks, also of a function whose name is its crate's alone; JSON objects, as the lines have them, also of a name with characters
# that JSON escapes.
ends(0, "foo 16\n", "", "binfarce", "map", "--folded", sample)
stacks = ("a;f 8", "a;g 16", "std;h 4", "[unknown];c 2", "b;f;<u8> 4", "b;f;<u16> 5")
assert sorted(printed(folder / "binfarce", "map", "--folded", old).splitlines()) == sorted(stacks), "other stacks"
assert sorted(printed(folder / "binfarce", "map", "--folded", "--std", old).splitlines()) == sorted(it.replace("std;h", "[std]") for it in stacks), "other stacks with --std"
bars = re.findall('<text x="8" y="18">(.*?)</text>', printed(folder / "binfarce", "map", "--std", "-n3", old))
assert bars == ["a", "b", "[std]", "[1 others]"], f"other bars: {bars}"
def objects(*words):
    run = subprocess.run([folder / "binfarce", *words, "--json"], capture_output=True, input=b"0x1\n-\n")
    return [json.loads(it) for it in run.stdout.splitlines()]
assert objects("list", "--section=.data", old) == [], "function symbols of another section in JSON"
assert [(it["section"], it["name"]) for it in objects("list", "--section=.text.g", f"{scratch}/functions.o")] == [(".text.g", "g")]
assert objects("list", escaped)[0]["raw"] == 'a"\\\n\x01\x7f\xe9;:<>', "another name in JSON"
cut = ("--all", "--dynamic", "--sort=size", "-n9", library), ("--all", "--raw", "--sort=name", "-n3", old), ("--all", "--full", old)
for *options, path in [("--all", "--dynamic", library), ("--all", old), *cut] + [("--all", folder / "binfarce")] * (not is_static):
    lines = [f"{int(it['address'], 16):016x} {it['size']:10} {it['section']} {it['name']}\n" for it in objects("list", *options, path)]
    assert "".join(lines) == printed(folder / "binfarce", "list", *options, path), f"{path}: other objects than lines"
# The binding and the type of each symbol, as readelf has them; null in a file that isn't ELF.
kinds = [("local", "local", "function"), ("global", "globl", "function"), ("weak", "weak", "function"), ("chosen", "globl", "gnu_indirect_function")]
lines = (f'.{bound} "{name}"\n.type "{name}",@{kind}\n.set "{name}", .text + {at}\n.size "{name}", 1\n' for at, (name, bound, kind) in enumerate(kinds))
printed("gcc", "-c", "-o", f"{scratch}/bound.o", "-x", "assembler", "-", given=f".text\n.skip 4\n{''.join(lines)}")
rows = [it.split() for it in printed("readelf", "-sW", f"{scratch}/bound.o").splitlines() if " FUNC " in it or " IFUNC " in it]
wanted = [(it[7], it[4].lower(), {"FUNC": "function", "IFUNC": "indirect"}[it[3]]) for it in rows]
assert len(wanted) == 4 and [(it["name"], it["binding"], it["kind"]) for it in objects("list", "--all", f"{scratch}/bound.o")] == wanted
assert {(it["binding"], it["kind"], it["version"]) for it in objects("list", "rust/samples/pe-image.bin")} == {(None, None, None)}
# The versions of dynamic symbols, of which an old one is hidden, and one has none.
# Further ones have all before them as parents, so that their definitions have more than 64 kB.
many_versions = [f"W{at} {{ global: w{at}; }} {' '.join(f'W{it}' for it in range(at))};\n" for at in range(130)]
pathlib.Path(f"{scratch}/versions").write_text("V1 { global: f; local: hidden; };\nV2 { global: f; } V1;\n" + "".join(many_versions))
lines = '.symver f_old,f@V1\n.symver f_new,f@@V2\n' + "".join(f'.globl {it}\n.type {it},@function\n{it}: nop\n.size {it}, 1\n' for it in ("f_old", "f_new", "g", *(f"w{at}" for at in range(130))))
printed("gcc", "-shared", "-nostdlib", f"-Wl,--version-script={scratch}/versions", "-o", f"{scratch}/versioned.so", "-x", "assembler", "-", given=f".text\n{lines}")
rows = [it.split()[7].replace("@@", "@").partition("@")[::2] for it in printed("readelf", "-W", "--dyn-syms", f"{scratch}/versioned.so").splitlines() if " FUNC " in it]
versions = [(it["raw"], it["version"] or "") for it in objects("list", "--dynamic", f"{scratch}/versioned.so")]
assert versions == rows and {("f", "V1"), ("f", "V2"), ("g", "")} <= set(versions), f"other versions: {versions}, {rows}"
assert {it["version"] for it in objects("list", f"{scratch}/versioned.so")} == {None}
# Real names of rustc's older mangling that begin with a type: each counts for the crate that comes first in it.
inner = """
core _ZN42_$LT$$RF$T$u20$as$u20$core..fmt..Debug$GT$3fmt17h0016b895af691adeE
core _ZN54_$LT$$BP$const$u20$T$u20$as$u20$core..fmt..Pointer$GT$3fmt17h107509a21b675a57E
core _ZN54_$LT$dyn$u20$core..any..Any$u2b$core..marker..Send$GT$12downcast_ref17h16b95d10a1685b34E
itoa _ZN38_$LT$u64$u20$as$u20$itoa..Unsigned$GT$3fmt17haab8c5db99f269f5E
pyo3 _ZN57_$LT$T$u20$as$u20$pyo3..conversion..FromPyObjectBound$GT$20from_py_object_bound17h0104361d01b66366E
std _ZN78_$LT$$LP$$RF$str$C$u16$RP$$u20$as$u20$std..net..socket_addr..ToSocketAddrs$GT$15to_socket_addrs17h5f88d7384d6cf4c8E
hyper_tls _ZN84_$LT$hyper_tls..stream..MaybeHttpsStream$LT$T$GT$$u20$as$u20$hyper..rt..io..Read$GT$9poll_read17h1c98c016f95eef45E
alloc _ZN87_$LT$T$u20$as$u20$alloc..slice..$LT$impl$u20$$u5b$T$u5d$$GT$..to_vec_in..ConvertVec$GT$6to_vec17h204896eae3de70f0E
[unknown] _ZN14$LT$u8$GT$..x17h0123456789abcdefE
[unknown] _ZN4llvm5ValueC2Ev
[unknown] memcpy
""".split()
file = assembled("inner", len(inner) // 2, *((name, at, 1) for at, name in enumerate(inner[1::2])))
assert [it["crate"] for it in objects("list", file)[:len(inner) // 2]] == inner[::2], "other crates of names that begin with a type"
assert objects("size", "--by=generic", old)[1] == {"file": old, "name": "b::f::<..>", "size": 9, "copies": 2}
first, *_, last = objects("size", "--by=section", sample)
assert first == {"file": sample, "segment": None, "section": ".symtab", "type": "SYMTAB", "flags": 0, "size": 120, "memory": 0}
assert last == {"file": sample, "sum": 587}
assert objects("diff", old, new)[0] == {"file": new, "name": "b", "old": 9, "new": 0, "change": -9}
wanted = [{"file": new, "section": name, "old": b, "new": d, "change": d - b, "old_memory": c, "new_memory": e, "memory_change": e - c} for name, b, c, d, e in (*differ, whole)]
assert objects("diff", "--by=section", old, new) == wanted, "other changes of sections in JSON"
assert objects("diff", "--percent", old, new)[-1] == {"file": new, "name": "[total]", "old": 39, "new": 36, "change": -3, "percent": -7.69}
assert objects("size", "--percent", old)[0] == {"file": old, "name": "a", "size": 24, "copies": 2, "percent": 60.0}
at = ("at", "--section=.text", "--base=0x4000", old)
assert objects(*at, "0x4001") == [{"file": old, "address": f"0x{0x4001:016x}", "name": "a::f", "offset": 1}]
assert objects(*at) == [{"file": old, "address": it, "name": None, "offset": None} for it in (f"0x{1:016x}", None)]
reasons = [{"file": missing, "error": lost.split(": ")[-1]}, {"file": of_sys, "error": is_text}]
several = ((command, missing, old, of_sys, reasons[:1] + objects(command, old) + reasons[1:]) for command in ("list", "size"))
for *words, wanted in (*several, ("diff", old, missing, reasons[:1]), ("at", missing, "1", reasons[:1]), ("section", of_sys, reasons[1:])):
    assert objects(*words) == wanted, f"{words}: other refusals in JSON, or in another order"
assert objects("section", sample)[1] == {"file": sample, "segment": None, "section": ".text", "address": f"0x{0:016x}", "offset": 64, "size": 32, "type": "PROGBITS", "flags": 0}

# What follows a mangling, such as `.cold`, is shown at an address and in a text, and isn't listed.
file = assembled("cold", 1, ("_RNvC1a1b.cold", 0, 1))
for line, *words in ((f"{0:016x} {1:10} a::b\ntext 1", "list"), (f"{0:016x} a::b.cold+0x0", "at"), ("0x0000 <a::b.cold+0x0>", "at", "--annotate")):
    ends(0, f"{line}\n", "", "binfarce", *words, "--section=.text", file, given=b"0x0000\n")

# Of two symbols at one address the one that isn't local has it, though the local one comes first in the table.
lines = "".join(f'.type "{it}",@function\n.set "{it}", .text\n.size "{it}", 4\n' for it in ("f.localalias", "f"))
printed("gcc", "-c", "-o", f"{scratch}/alias.o", "-x", "assembler", "-", given=f".text\n.skip 4\n.globl f\n{lines}")
assert [it["name"] for it in objects("list", f"{scratch}/alias.o")] == ["f.localalias", "f"]
ends(0, f"{1:016x} f+0x1\n", "", "binfarce", "at", "--section=.text", f"{scratch}/alias.o", "1")

# A PE image, of PE32+ at 0x140000000 with `.text` at 0x1000: an external and a static function, at their addresses in memory.
image = "rust/samples/pe-image.bin"
ends(0, f"{0x140001000:016x}         16 .text f\n{0x140001010:016x}          8 .text g\n", "", "binfarce", "list", "--all", image)
ends(0, f"{0x140001017:016x} g+0x7\n", "", "binfarce", "at", "--all", image, "140001017")
# Long names of PE's sections are in the string table, which begins with its length: by these sections are found, summed, compared and
# listed, and not by their offsets there, which differ. One of 8 bytes is in the header.
def long_named(path, *sections):
    """A PE image of these sections, and a function in each."""
    strings, headers, rows = b"", b"", b""
    for at, (name, size) in enumerate(sections, 1):
        stored = f"/{4 + len(strings)}" if len(name) > 8 else name
        headers += struct.pack("<8s4I16x", stored.encode(), size, 0x1000 * at, size, 0x200 * at)
        rows += struct.pack("<8sI2H2B", f"f{at}".encode(), 0, at, 0x20, 2, 0)
        strings += name.encode() + b"\0" if len(name) > 8 else b""
    count = len(sections)
    file = b"MZ".ljust(60, b"\0") + struct.pack("<I4s2H3I2H", 64, b"PE", 0x8664, count, 0, 0x200 * (count + 1), count, 32, 2)
    file = (file + struct.pack("<H22xQ", 0x20B, 1 << 32) + headers).ljust(0x200, b"\0")
    body = b"".join(bytes([64 + at]) * size + bytes(0x200 - size) for at, (_, size) in enumerate(sections, 1))
    pathlib.Path(path).write_bytes(file + body + rows + struct.pack("<I", 4 + len(strings)) + strings)
    return path, len(file + body + rows) + 4 + len(strings)
was, length = long_named(f"{scratch}/was.exe", (".exactly", 8), (".debug_loclists", 16), (".debug_line_str", 24))
now, longer = long_named(f"{scratch}/now.exe", (".exactly", 8), (".debug_line_str", 28), (".debug_loclists", 16), (".gnu_debuglink", 4))
ends(0, "B" * 28, "", "binfarce", "section", now, ".debug_line_str")
ends(1, "", f"binfarce: {now}: no section /4", "binfarce", "section", now, "/4")
lines = "".join(f"{0x1000 * at:016x} {0x200 * at:10} {size:10} {name}\n" for at, (name, size) in enumerate(((".exactly", 8), (".debug_loclists", 16), (".debug_line_str", 24)), 1))
ends(0, lines, "", "binfarce", "section", was)
lines = "".join(f"{(1 << 32) + 0x1000 * at:016x} {size:10} {name} f{at}\n" for at, (name, size) in enumerate(((".exactly", 8), (".debug_loclists", 16), (".debug_line_str", 24)), 1))
ends(0, lines, "", "binfarce", "list", "--all", was)
assert {it["section"] for it in objects("list", "--all", was)} == {".exactly", ".debug_loclists", ".debug_line_str"}
rest = longer - length - 8
rows = ("[headers and gaps]", length - 48, 0, length - 48 + rest, 0), (".debug_line_str", 24, 24, 28, 28), (".gnu_debuglink", 0, 0, 4, 4), ("[total]", length, 48, longer, 56)
ends(0, changed(rows), "", "binfarce", "diff", "--by=section", was, now)
# The identities of files: of programs as readelf prints them; of files made here, by the documents of their formats, with notes of words of 4 and 8 bytes.
def identified(ending, wanted, said, *files, json=()):
    ends(ending, wanted, said, "binfarce", "section", "--id", *json, *files)
def note(name, kind, text, word=4, order="<"):
    padded = lambda part: part.ljust(-(-len(part) // word) * word, b"\0")
    return padded(padded(struct.pack(order + "3I", len(name), len(text), kind) + name) + text)
def noted(path, notes, align=4, order="<", wide=True, are_sections=True, cut=0, size=None):
    # One table: a section header without a type and one of the type SHT_NOTE (7), or a program header of the type PT_NOTE (4).
    size = len(notes) if size is None else size
    start, count, length = (64, 2, 64) if wide else (52, 2, 40)
    if not are_sections:
        count, length = 1, 56 if wide else 32
    at = start + count * length
    if are_sections:
        table = bytes(length) + struct.pack(order + ("2I4Q2I2Q" if wide else "10I"), 0, 7, 0, 0, at, size, 0, 0, align, 0)
    else:
        table = struct.pack(order + "2I6Q", 4, 0, at, 0, 0, size, 0, align) if wide else struct.pack(order + "8I", 4, at, 0, 0, size, 0, 0, align)
    places, counts = ((0, start), (0, count)) if are_sections else ((start, 0), (count, 0))
    word = "Q" if wide else "I"
    header = b"\x7fELF" + bytes([2 if wide else 1, 1 if order == "<" else 2, 1]).ljust(12, b"\0") + struct.pack(order + f"2HI3{word}I6H", 1, 62, 1, 0, *places, 0, start, length, counts[0], length, counts[1], 0)
    file = header + table + notes
    pathlib.Path(path).write_bytes(file[:len(file) - cut])
    return path
built = bytes(range(0x9, 0x1D))
gnu, other = note(b"GNU\0", 3, built), note(b"Linux\0", 3, b"12345")
ids, alone = [], f"{built.hex()}\n"
for order in "<>":
    for wide in (True, False):
        for are_sections in (True, False):
            path = noted(f"{scratch}/noted{len(ids)}", note(b"Linux\0", 3, b"12345", order=order) + note(b"GNU\0", 3, built, order=order) + note(b"GNU\0", 3, b"x", order=order), 4, order, wide, are_sections)
            ids.append(path)
            identified(0, alone, "", path)
            # Words of 8 bytes: the descriptor of the first note begins at 24, and the next note at 32.
            eight = noted(path + "-8", note(b"Linux\0", 3, b"12345", 8, order) + note(b"GNU\0", 3, built, 8, order), 8, order, wide, are_sections)
            identified(0, alone, "", eight)
identified(0, "".join(f"{built.hex()}  {path}\n" for path in ids), "", *ids)
lacks_id, malformed = "no build ID", "malformed input file"
# No note is one, one of another type, without bytes, or of another name; a note that ends past its section; a section that does past the file; of notes behind an ID nothing is said.
for at, (ending, wanted, said, notes, more) in enumerate((
        (1, "", lacks_id, b"", {}), (1, "", lacks_id, note(b"GNU\0", 1, built), {}), (1, "", lacks_id, note(b"GNU\0", 3, b""), {}), (1, "", lacks_id, note(b"GNV\0", 3, built), {}),
        (1, "", lacks_id, note(b"GNU", 3, built), {}), (1, "", lacks_id, gnu[:11], {}), (1, "", malformed, gnu[:-1], {}), (1, "", malformed, other + gnu[:-1], {}), (0, alone, "", gnu + other[:-4], {}),
        (1, "", malformed, struct.pack("<3I", 0xFFFFFFFF, 0xFFFFFFFF, 3) + gnu, {}), (1, "", malformed, struct.pack("<3I", 4, 0xFFFFFFF0, 3) + b"GNU\0" + built, {}),
        (1, "", ended, gnu, {"cut": 1}), (1, "", ended, gnu, {"size": 1 << 62}), (1, "", ended, gnu, {"cut": len(gnu) + 1}), (0, alone, "", gnu, {"align": 0}), (0, alone, "", gnu, {"align": 3 << 62}))):
    path = noted(f"{scratch}/note{at}", notes, **more)
    identified(ending, wanted, said and f"binfarce: {path}: {said}", path)
# Mach-O: LC_UUID is 0x1B; the size of its command is 24, and no command has fewer bytes than 8.
def commanded(name, *commands, more=0):
    body = b"".join(commands)
    file = struct.pack("<8I", 0xFEEDFACF, 0x1000007, 3, 2, len(commands), len(body) + more, 0, 0) + body
    pathlib.Path(name).write_bytes(file)
    return name
uuid, symtab = bytes(range(0xE0, 0xF0)), struct.pack("<6I", 2, 24, 0, 0, 0, 0)
with_uuid = struct.pack("<2I", 0x1B, 24) + uuid
apple = commanded(f"{scratch}/uuid.macho", symtab, with_uuid, struct.pack("<2I", 0x1B, 24) + built[:16])
identified(0, "E0E1E2E3-E4E5-E6E7-E8E9-EAEBECEDEEEF\n", "", apple)
for at, (said, commands, more) in enumerate((("no UUID", (symtab,), 0), (malformed, (struct.pack("<2I", 0x1B, 25) + uuid,), 0), (malformed, (struct.pack("<2I", 1, 7), with_uuid), 0), (ended, (with_uuid,), 1))):
    path = commanded(f"{scratch}/no-uuid{at}.macho", *commands, more=more)
    identified(1, "", f"binfarce: {path}: {said}", path)
# PE: data directory 6, at 112 + 48 of an optional header that begins with 0x20B and at 96 + 48 of one with 0x10B, is at 0x1010 in memory, and so at 0x410 in the file.
def debugged(path, magic=0x20B, directories=16, size=56, address=0x1010, kind=2, length=40, record=b"RSDS" + uuid + struct.pack("<I", 0x1A)):
    start = 112 if magic == 0x20B else 96
    optional = struct.pack("<H", magic).ljust(start - 4, b"\0") + struct.pack("<I", directories) + bytes(48) + struct.pack("<2I", address, size) + bytes(72)
    header = b"MZ".ljust(60, b"\0") + struct.pack("<I4s2H3I2H", 64, b"PE", 0x8664, 1, 0, 0, 0, len(optional), 34) + optional
    header += struct.pack("<8s4I", b".rdata", 0x100, 0x1000, 0x100, 0x400) + bytes(16)
    entries = b"".join(struct.pack("<12x4I", it, length, 0x2000, 0x480) for it in (13, kind))
    file = header.ljust(0x410, b"\0") + entries
    pathlib.Path(path).write_bytes((file.ljust(0x480, b"\0") + record).ljust(0x500, b"\0"))
    return path
guid = "E3E2E1E0E5E4E7E6E8E9EAEBECEDEEEF1a\n"
windows = debugged(f"{scratch}/guid.exe")
identified(0, guid, "", windows)
identified(0, guid, "", debugged(f"{scratch}/guid32.exe", magic=0x10B))
for at, (said, more) in enumerate((("no GUID of a PDB file", {"directories": 6}), ("no GUID of a PDB file", {"size": 0}), ("no GUID of a PDB file", {"magic": 0x107}), ("no GUID of a PDB file", {"kind": 4}),
                                   ("no GUID of a PDB file", {"record": b"NB10" + uuid}), (malformed, {"length": 23}), (malformed, {"address": 0xFFF}), (malformed, {"size": 0x100 - 15}), (malformed, {"size": 0xFFFFFFFF}))):
    path = debugged(f"{scratch}/no-guid{at}.exe", **more)
    identified(1, "", f"binfarce: {path}: {said}", path)
kinds = ((ids[0], "build-id", built.hex()), (apple, "uuid", "E0E1E2E3-E4E5-E6E7-E8E9-EAEBECEDEEEF"), (windows, "codeview", guid[:-1]))
identified(0, "".join(f'{{"file":"{path}","id_kind":"{kind}","id":"{it}"}}\n' for path, kind, it in kinds), "", *(path for path, *_ in kinds), json=["--json"])
identified(1, f'{{"file":"{sample}","error":"no build ID"}}\n', f"binfarce: {sample}: no build ID", sample, json=["--json"])
identified(1, f"{built.hex()}  {ids[0]}\n", f"{lost}\nbinfarce: {sample}: no build ID", missing, sample, ids[0])
program = f"{scratch}/built"
printed("gcc", "-static", "-nostdlib", "-Wl,--build-id", "-o", program, "-x", "c", "-", given="int _start() { return 0; }")
identified(0, re.search("Build ID: (.*)", printed("readelf", "-n", program))[1] + "\n", "", program)
# What files need of others: as nm prints it of the C library, of a program that is linked with a library whose versions are made here, and of an object file.
def needed(wanted, *files):
    ends(0, wanted, "", "binfarce", "list", "--undefined", *files)
def undefined(path, *options):
    lines = printed("nm", "-p", "-u", "--with-symbol-versions", "--no-demangle", *options, path).splitlines(True)
    return "".join(line.split(" ", 1)[1] for line in map(str.lstrip, lines))
pathlib.Path(f"{scratch}/versions").write_text("OURS_1 { global: f; local: *; };\nOURS_2 { global: g; number; } OURS_1;\n")
ours, user, part = f"{scratch}/libours.so", f"{scratch}/user", f"{scratch}/part.o"
printed("gcc", "-shared", "-fPIC", "-nostdlib", "-Wl,-soname,libours.so.1", f"-Wl,--version-script={scratch}/versions", "-o", ours, "-x", "c", "-", given="int number; void f(void) {} void g(void) {}")
code = "extern int number; void f(void); void g(void); void w(void) __attribute__((weak)); void _RNvC1a1b(void);\nvoid h(void) { f(); g(); if (w) w(); _RNvC1a1b(); number = 1; }"
printed("gcc", "-c", "-fPIC", "-o", part, "-x", "c", "-", given=code)
printed("gcc", "-shared", "-fPIC", "-nostdlib", "-o", user, part, ours)
needed(undefined(library, "-D"), library)
assert "@GLIBC_PRIVATE" in undefined(library, "-D") and not {"f@OURS_1", "g@OURS_2", "number@OURS_2", "w", "_RNvC1a1b"} - set(undefined(user, "-D").split())
for options in ((), ("--full",), ("--raw",)):
    wanted = undefined(user, "-D")
    needed(wanted if options == ("--raw",) else wanted.replace("_RNvC1a1b", "a[0]::b" if options else "a::b"), *options, user)
needed("".join(f"\n{path}:\n{undefined(path, *options)}" for path, *options in ((part,), (user, "-D"))).replace("_RNvC1a1b", "a::b"), part, user)
found = {it.pop("name"): it for it in objects("list", "--undefined", user, part) if it["file"] == user}
assert found["g"] == {"file": user, "raw": "g", "binding": "global", "version": "OURS_2", "from": "libours.so.1"}
assert found["w"] == {"file": user, "raw": "w", "binding": "weak", "version": None, "from": None} and found["a::b"]["raw"] == "_RNvC1a1b"
# A file that needs nothing; one without a symbol table, with the hint on it; other formats; and a file beside one that is refused.
ends(0, "", f"binfarce: {ours}: no undefined symbols", "binfarce", "list", "--undefined", ours)
printed("strip", "-o", f"{scratch}/bare", program)
stated = re.search("Build ID: (..)(.*)", printed("readelf", "-n", program))
ends(1, "", f"binfarce: {scratch}/bare: no symbol table (.symtab): it is stripped\nbinfarce: {scratch}/bare: its debug symbols may be in /usr/lib/debug/.build-id/{stated[1]}/{stated[2]}.debug", "binfarce", "list", "--undefined", f"{scratch}/bare")
for path, said in ((apple, "nm -um shows it of Mach-O files"), (windows, "objdump -p shows the imports of PE files")):
    ends(1, "", f"binfarce: {path}: what is needed is read of ELF files alone; {said}", "binfarce", "list", "--undefined", path)
ends(1, f"\n{user}:\n{undefined(user, '-D').replace('_RNvC1a1b', 'a::b')}", lost, "binfarce", "list", "--undefined", missing, user)
for option in ("--sort=name", "--first=1", "--no-total", "--section=.text", "--dynamic", "--all"):
    ends(2, "", f"binfarce: --undefined and {option.partition('=')[0]} exclude each other", "binfarce", "list", "--undefined", option, user)
# A section without a name has none in JSON: section 0 of this file, whose header isn't inactive, and which the other file lacks.
data = bytearray(pathlib.Path(sample).read_bytes())
table = int.from_bytes(data[40:48], "little")
data[table + 4] = 1
pathlib.Path(unnamed := f"{scratch}/nameless.o").write_bytes(data)
data[table + 32] = 3
pathlib.Path(other := f"{scratch}/nameless3.o").write_bytes(data)
assert objects("diff", "--by=section", unnamed, other)[0]["section"] is None
assert {it["section"] for it in objects("size", "--by=section", other)[:-1]} == {None, *(it["section"] for it in objects("size", "--by=section", sample)[:-1])}
# Of several files each has its heading, also where nothing is below it; and none in JSON.
lines = f"\n{empty}:\n\n{image}:\n{0x140001000:016x}         16 .text f\n{0x140001010:016x}          8 .text g\n"
ends(0, lines, f"binfarce: {empty}: no function symbols", "binfarce", "list", "--all", empty, image)
for options, heads in (((), (f"\n{old}:\n", f"\n{image}:\n")), (("--json",), ("", ""))):
    lines = "".join(head + printed(folder / "binfarce", "size", "--by=section", *options, path) for head, path in zip(heads, (old, image)))
    ends(0, lines, "", "binfarce", "size", "--by=section", *options, old, image)
# Of a Mach-O or PE file `.text` is the code, and no other section is taken.
ends(0, f"{0x140001000:016x} {16:10} f\n{0x140001010:016x} {8:10} g\ntext 24\n", "", "binfarce", "list", "--section=.text", image)
ends(0, f"{0x140001017:016x} g+0x7\n", "", "binfarce", "at", "--section=.text", image, "140001017")
# There a function ends with its section, and address 0 of an object file is one: 0x1000 less than in the sample, and `d` in another section behind it.
data = bytearray(pathlib.Path("rust/samples/macho.bin").read_bytes())
for place in (136, 216, 232, 248, 264):
    data[place + 1] -= 0x10
data[261], data[265] = 2, 2
pathlib.Path(path := f"{scratch}/at-0.o").write_bytes(data)
rows = ((0, 64, "a"), (0, 64, "b"), (0x40, 192, "c"))
ends(0, "".join(f"{address:016x} {size:10} {name}\n" for address, size, name in rows) + "text 256\n", "", "binfarce", "list", path)
ends(0, "       256 100.00% [unknown]\nsum 256\ntext 256\n", f"binfarce: {path}: 256 of 256 bytes {nameless}", "binfarce", "size", "--percent", path)
ends(0, f"{0x40:016x} {448:10} c\ntext 256\n", "", "binfarce-list", path)
for path, *words in ((image, "list"), (image, "map"), ("rust/samples/macho.bin", "size"), (image, "at", "0")):
    words[1:1] = ["--section=__text", path]
    ends(1, "", f"binfarce: {path}: {no_section.format('__text')}", "binfarce", *words)
print(f"programs.py: {folder}: as they must be", flush=True)

if not folders[1:]:
    sys.exit()
rng = random.Random(1)

def compare(what, rows):
    """Compares the ends of calls. A row is a call, what it is given, and how a shell changes its streams, as `>/dev/full`."""
    def ended(folder, call, given=b"", streams=""):
        call = "sh", "-c", f'exec "$0" "$@" {streams}', folder / call[0], *call[1:]
        run = subprocess.run(call, capture_output=True, timeout=120, input=given)
        return run.returncode, run.stdout, run.stderr
    with concurrent.futures.ThreadPoolExecutor(os.cpu_count()) as pool:
        different = [f"{row[0]} {row[2:]}: {folders[0]}: {str(one)[:200]}, {folders[1]}: {str(other)[:200]}"
                     for row, (one, other) in zip(rows, pool.map(lambda row: [ended(it, *row) for it in folders], rows)) if one != other]
    print(*different[:10], f"{what}: {len(rows) - len(different)} passed, {len(different)} failed", sep="\n", flush=True)
    if different:
        sys.exit(1)

def on_files(paths):
    """Calls of each program and command but `filter`: of the first file, and of all where several can be given."""
    section = rng.choice([".text", ".text", ".symtab", "__text", ".data", "", "é"])
    option = rng.choice([[], [], ["--dynamic"], ["--all"], [f"--section={section}"]])
    addresses = rng.choices(["1000", "0x1005", "100f", "1010", "fff", "0", "180", "1040", "ffffffffffffffff"], k=4)
    yield [rng.choice(["binfarce-list", "binfarce-size"]), paths[0], *rng.choice([[], [section]])],
    yield ["binfarce", "section", paths[0], *rng.choice([[], [section]])],
    yield ["binfarce", "at", *rng.choice([option, ["--base", "1000"], ["--return", "--base=0"]]), paths[0], *addresses],
    yield ["binfarce", rng.choice(["list", "size", "map"]), *option, *paths],

printed("examples/hostile_files.py", f"{scratch}/hostile", str(FILES))
paths = [f"{scratch}/hostile/{at}" for at in range(FILES)]
compare("hostile files", [row for at in range(FILES) for row in on_files(paths[at : at + 4])])
compare("the programs' own files", [row for it in folders * 3 for row in on_files([f"{it}/binfarce"])])

# Mangled names of the tests and random ones, most of them changed.
real = printed("bench/random-names.py", "2000", "7").encode().split()
real += re.findall(rb"^name (_(?:R|ZN)[^ \\\n]+)$", pathlib.Path("crates/test_names/stdin").read_bytes(), re.M)
assert len(real) > 2300
letters = [b"", *(it.encode() for it in "_RNCIMXYBTFGKSEDLQZ0123456789abcdefhijlmnopstuvxyzsu$.,{}<>éñ-\x7f")]
replaced = runpy.run_path("examples/hostile_files.py")["replaced"]
hostile = [replaced(rng.choice(real), letters, 4, rng) for _ in range(NAMES)]
hostile += [b"_RMC1a" + b"R" * levels + b"u" for levels in (200, 497, 498, 499, 500, 501, 3000)]
lines = b"".join(name + rng.choice([b"\n", b" ", b"()", b". ", b"\n", b"\xff"]) for name in hostile)
addresses = "\n".join(f"{rng.randrange(320_000):x}" for _ in range(NAMES)).encode()
file = f"{scratch}/hostile/names"
rows = [(["binfarce", command, file],) for command in ("list", "size", "map")] + [(["binfarce", "at", file], addresses)]
rows += [(["binfarce", "filter"], lines), (["binfarce", "filter", "--full"], lines)]
rows += [(["binfarce", "filter", *rng.choice([[], ["--full"]])], b"\n".join(hostile[at : at + 50])) for at in range(0, NAMES, 50)]
rows += [(["binfarce", "filter"], b"in _R" + b"a" * size + b" _RNvC1a1b") for size in (2**16, 2**20 - 2, 2**20 - 1, 2**20)]
compare(f"texts of {NAMES} hostile names", rows)

words = [sample, sample, sample, "1000", "--section", "--section=.text", ".text", "--all", "--dynamic", "--base", "--base=x",
         "--full", "_RNvC1a1b", "--help", "-h", "--version", "--frob", "--", "-", "", "list", "help", b"\xff", "/dev/stdin",
         "/dev/null", "/proc/self/stat", "/sys/kernel/mm/transparent_hugepage/enabled", scratch, missing, file]
inputs = [b"", b"1000\n0x1005\nno\n", b"in _RNvC1a1b", data, bytes(3 << 20)]
streams = ["", "", ">/dev/full", "2>&-", "2>/dev/full", "</dev/null", f"<{scratch}"]
calls = [["binfarce-list"], ["binfarce-size"], *(["binfarce", it] for it in "list size map section at filter".split()), ["binfarce"]]
rows = [([*call, *rng.choices(words, k=rng.randrange(5))], rng.choice(inputs), rng.choice(streams)) for call in calls * 100]
rows += [([*call, path], None, "<&-") for call in calls[:6] for path in (sample, missing)]
compare("random arguments and streams", rows)
