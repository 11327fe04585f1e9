#!/usr/bin/env python3
"""symbolize.py LIBRARY FILE ADDRESS..: what `symbolize` of examples/symbolize.c prints, by the shared library and ctypes."""
import ctypes
import sys
from ctypes import POINTER, Structure, c_char, c_char_p, c_size_t, c_uint32, c_uint64, c_void_p

BINFARCE_OK, BINFARCE_SYMTAB_IS_MISSING, BINFARCE_SYMTAB, BINFARCE_DYNSYM = 0, 7, 0, 1

class Text(Structure):
    _fields_ = [("status", c_uint32), ("detail", c_uint32), ("length", c_size_t)]

class Function(Structure):
    _fields_ = [("name", c_void_p), ("name_length", c_size_t), ("address", c_uint64), ("size", c_uint64)]

class Functions(Structure):
    _fields_ = [("status", c_uint32), ("detail", c_uint32), ("count", c_size_t), ("section_size", c_uint64)]

class Library:
    def __init__(self, path):
        self.calls = ctypes.CDLL(path)
        for name, result, *arguments in (
            ("binfarce_status_text", c_size_t, c_uint32, POINTER(c_char), c_size_t),
            ("binfarce_trimmed", Text, c_void_p, c_size_t, POINTER(c_char), c_size_t),
            ("binfarce_all_functions", Functions, c_char_p, c_size_t, c_uint32, POINTER(Function), c_size_t),
            ("binfarce_function_at", c_size_t, POINTER(Function), c_size_t, c_uint64),
        ):
            call = getattr(self.calls, name)
            call.restype, call.argtypes = result, arguments

    def text_of(self, call, *arguments):
        """A call's text, whatever its length."""
        room = 256
        while True:
            out = ctypes.create_string_buffer(room)
            given = call(*arguments, out, room)
            length = getattr(given, "length", given)
            if getattr(given, "status", BINFARCE_OK) != BINFARCE_OK:
                raise MemoryError
            if length <= room:
                return out.raw[:length]
            room = length

    def all_functions(self, file, table):
        """The function symbols of a file, in an array, and their number. The array is good as long as the file's bytes are."""
        room = len(file) // 256 + 16
        while True:
            out = (Function * room)()
            given = self.calls.binfarce_all_functions(file, len(file), table, out, room)
            if given.status == BINFARCE_SYMTAB_IS_MISSING and table == BINFARCE_SYMTAB:
                table = BINFARCE_DYNSYM
            elif given.status != BINFARCE_OK:
                sys.exit(self.text_of(self.calls.binfarce_status_text, given.status).decode())
            elif given.count <= room:
                return out, given.count
            else:
                room = given.count

def main(path, name, *addresses):
    library = Library(path)
    with open(name, "rb") as opened:
        file = opened.read()
    functions, count = library.all_functions(file, BINFARCE_SYMTAB)
    for address in (int(word, 16) for word in addresses):
        at = library.calls.binfarce_function_at(functions, count, address)
        text = b"??"
        if at < count:
            it = functions[at]
            text = library.text_of(library.calls.binfarce_trimmed, it.name, it.name_length) + b"+%#x" % (address - it.address)
        sys.stdout.buffer.write(b"%016x %s\n" % (address, text))

if __name__ == "__main__":
    main(*sys.argv[1:])
