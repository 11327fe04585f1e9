#!/usr/bin/env python3
"""Writes hostile files: hostile_files.py FOLDER COUNT. They are those of rust/samples, each with bytes and numbers changed, put in or
left out, or cut, the same at every run; and one ELF file with ten hostile names for each file."""
import pathlib
import random
import struct
import sys

SAMPLES = pathlib.Path(__file__).resolve().parents[1] / "rust/samples"
PARTS = [b"_R", b"_ZN", b"Nv", b"C", b"I", b"T", b"E", b"B_", b"B2_", b"s_", b"u30____7hkackfecea1cbdathfdh9hlq6y", b"Kj7b_", b"F", b"DEL_",
         b"3foo", b"1a", b"17h05af221e174051e9", b"$LT$", b"$u3b1$", b"..", b".llvm.", b"9D1C", b"@@", b":", b"\xC3\xA9", b"\n", b"\xFF", b"9" * 20]
NUMBERS = [struct.pack(form, it) for it in (0, 1, 64, 0x7F) for form in ("B", "<H", ">H", "<I", ">I", "<Q", ">Q")]
NUMBERS += [b"", b"\x80", b"\0\0\0\x80", b"\x80\0\0\0", *(b"\xff" * width for width in (1, 2, 4, 8))]

def replaced(data, parts, most, rng):
    """Bytes of which some, at most so often, are replaced by parts or left out, or have parts put in."""
    for _ in range(rng.randrange(most + 1)):
        at, part = rng.randrange(len(data) + 1), rng.choice(parts)
        data = data[:at] + part + data[at + rng.choice([0, len(part), len(part), len(part) + 1]) :]
    return data

def changed(data, rng):
    data = bytearray(data)
    for _ in range(rng.randrange(5)):
        at = rng.randrange(len(data))
        data[at] = rng.choice([0, 1, 2, 3, 0x7F, 0x80, 0xFF, rng.randrange(256)])
    data = replaced(bytes(data), NUMBERS, 2, rng)
    return data[: rng.randrange(len(data) + 1)] if rng.randrange(4) == 0 else data

def elf_of(names):
    """An ELF file of 64 bits in little-endian order whose function symbols have these names."""
    strings, rows = b"\0", bytes(24)
    for at, name in enumerate(names):
        rows += struct.pack("<IBBHQQ", len(strings), 0x12, 0, 1, 16 * at, 16)
        strings += name + b"\0"
    file = b"\x7FELF\2\1\1" + bytes(9) + struct.pack("<HHIQQQIHHHHHH", 2, 62, 1, 0, 0, 64, 0, 64, 0, 0, 64, 5, 4) + struct.pack("<48xQ8x", 1)
    bodies = (bytes(16), rows, strings, b"\0.text\0.symtab\0.strtab\0")
    for at, (name, kind, link, entry) in enumerate([(1, 1, 0, 0), (7, 2, 3, 24), (15, 3, 0, 0), (1, 3, 0, 0)]):
        offset = 64 + 5 * 64 + sum(map(len, bodies[:at]))
        file += struct.pack("<IIQQQQIIQQ", name, kind, 0, 0, offset, len(bodies[at]), link, 0, 1, entry)
    return file + b"".join(bodies)

def main(folder, count):
    rng, bases, names = random.Random(1), [path.read_bytes() for path in sorted(SAMPLES.iterdir())], []
    folder.mkdir(parents=True, exist_ok=True)
    for at in range(count):
        (folder / str(at)).write_bytes(changed(bases[at % len(bases)], rng))
    for _ in range(10 * count):
        name = b"".join(rng.choice(PARTS) for _ in range(rng.randrange(1, 12)))
        names.append(name if rng.randrange(3) else rng.choice([b"_RNv", b"_RIC1a", b"_RMC0", b"_ZN3foo"]) + name)
    (folder / "names").write_bytes(elf_of(names))

if __name__ == "__main__":
    main(pathlib.Path(sys.argv[1]), int(sys.argv[2]))
