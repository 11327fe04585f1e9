/*
 * binfarce: readable names of Rust symbols, and the function symbols of ELF, Mach-O and PE files.
 *
 * `cargo build --release` makes libbinfarce.a and libbinfarce.so from plain Rust, erased from proved sources;
 * bindings/archive.sh makes a libbinfarce.a with the Rattle kit, proved down to these functions: with enough stack, a call
 * returns for every name and every file what the written definitions say, or that an allocation failed. Both assume, without
 * a check, that the caller keeps these rules:
 *
 * - Pointers. Each pointer points to as many bytes, or structs, as the length after it says, for the whole call. They are
 *   readable, and writable where the pointer isn't const. Where the length is 0, it may be NULL; a pointer without a length may
 *   not. No length is above PTRDIFF_MAX. What a call writes to needs no initialisation.
 * - Overlap. A buffer that a call writes to overlaps no other argument.
 * - Alignment. A pointer to a struct is aligned as C aligns it; bytes need no alignment.
 * - Stack. A call nests as deep as a name does, at most 500 levels. 512 KiB were enough for the deepest names that were tried;
 *   no proof bounds it.
 *
 * Ownership. The library keeps no memory and no pointer after a call, so nothing has to be freed. It writes only to the
 * caller's buffers. A `struct binfarce_function`, a `struct binfarce_section` and a `struct binfarce_bytes` point into the
 * caller's file, which has to stay as long as they are used; a `struct binfarce_mangling` points into the caller's name.
 *
 * Texts are UTF-8, without a NUL at the end: their length is returned, and binfarce_terminate puts a NUL there. A name may contain
 * any character, even a line feed. They are bytes, so a `char *` is cast: `(const uint8_t *)s`, and in C++
 * `reinterpret_cast<const uint8_t *>(s.data())`. In C++ write `struct` before the name of a struct that is also a function's, such
 * as `struct binfarce_sections`, since the function hides it.
 *
 * Lengths. A call that gives a text or an array writes as much of it as the buffer has room for, and leaves the rest of the
 * buffer unchanged. It always returns the whole length or count: if that exceeds the buffer's, the caller grows the buffer and
 * calls again, and the file is read again. So a buffer that has room at once saves half of the work. A text may be cut within a
 * character. A call that is refused (status isn't BINFARCE_OK) leaves its buffers unchanged, and its lengths are 0; but
 * binfarce_sections gives the sections before a refusal. A call writes all fields of the one struct that a pointer points to: if
 * the call is refused, they are 0.
 *
 * Memory. The calls that say so allocate by malloc and realloc while they run (on Windows by HeapAlloc), and free all of it
 * before they return. If an allocation fails, they return BINFARCE_OUT_OF_MEMORY. A name of 80 kB can have a text of 400 MB, and a
 * call takes about twice a text's memory, even if the buffer's length is 0: bound the length of names from hostile files. With
 * the kit's archive malloc has to align blocks as the C library's does.
 *
 * Threads. There is no global state: calls may run on any threads at once, as long as they share no buffer. Only malloc may lock
 * or block. A signal handler, or a child forked from a process with threads, may make only calls that don't allocate; a
 * handler's stack has to suffice for the name.
 *
 * Example. It prints `foo::bar`:
 *
 *     const char *name = "_ZN3foo3bar17h05af221e174051e9E";
 *     uint8_t text[256];
 *     struct binfarce_text made = binfarce_trimmed((const uint8_t *)name, strlen(name), text, sizeof text);
 *     if (made.status == BINFARCE_OK && binfarce_terminate(text, sizeof text, made.length) == made.length)
 *         puts((const char *)text);
 *
 * In the sources `examples/symbols.c` lists the function symbols of a file, and `examples/symbolize.py` calls the library from
 * Python.
 *
 * Versions. Within libbinfarce.so.1 functions, and numbers of a status, may be added; signatures, structs and the numbers of
 * enums stay: any other change makes libbinfarce.so.2. The words of a status may change, and how much stack and memory a call
 * takes. A version's number n has the parts n >> 16, n >> 8 & 255 and n & 255; if binfarce_version() is
 * BINFARCE_VERSION_NUMBER or greater, the library has each function of this header.
 *
 * Missing: the header fields of Mach-O and PE files, where a file is loaded, and what the command has beside listings and
 * reports: filter, diff, map, JSON.
 *
 * Machines. cargo's libraries are for every target of Rust of 32 or 64 bits; the kit's archive is for x86-64-v2 with the
 * System V calling convention. After ./install `pkg-config --cflags --libs binfarce` prints how to link the library.
 */
#ifndef BINFARCE_H
#define BINFARCE_H

#include <stddef.h>
#include <stdint.h>

/* The version of the library that this header belongs to, and its parts in one number: a later version has a greater one. */
#define BINFARCE_VERSION "0.3.0"
#define BINFARCE_VERSION_MAJOR 0
#define BINFARCE_VERSION_MINOR 3
#define BINFARCE_VERSION_PATCH 0
#define BINFARCE_VERSION_NUMBER (BINFARCE_VERSION_MAJOR * 65536 + BINFARCE_VERSION_MINOR * 256 + BINFARCE_VERSION_PATCH)

#ifdef __cplusplus
extern "C" {
#endif

/* How a call ended. binfarce_status_text has the words. */
enum binfarce_status {
    BINFARCE_OK = 0,
    BINFARCE_NONE = 1,           /* the name has no crate, or the file has no such section */
    BINFARCE_NOT_UTF8 = 2,       /* a name that was passed isn't UTF-8 */
    BINFARCE_OUT_OF_MEMORY = 3,  /* an allocation failed */
    BINFARCE_UNKNOWN_FORMAT = 4, /* the file's first bytes name no supported format */
    BINFARCE_TOO_LARGE = 5,      /* the sum of all sizes is 2^64 or more */
    /* Why a reader refuses a file. */
    BINFARCE_SYMBOLS_SECTION_IS_MISSING = 6, /* a call for functions, a listing or a report: no section has this name */
    BINFARCE_SYMTAB_IS_MISSING = 7,          /* an ELF file has no symbol table */
    BINFARCE_STRTAB_IS_MISSING = 8,          /* its symbol table links to no section */
    BINFARCE_UNEXPECTED_SECTION_TYPE = 9,    /* that section's type isn't 3 (SHT_STRTAB): `detail` has it */
    BINFARCE_MALFORMED_INPUT = 10,           /* a number in the file is invalid */
    BINFARCE_UNEXPECTED_EOF = 11,            /* the file is truncated */
    BINFARCE_DYNSYM_IS_MISSING = 12,         /* the file has no dynamic symbol table; no Mach-O or PE file has one */
    BINFARCE_DYNSTR_IS_MISSING = 13,         /* its dynamic symbol table links to no section */
    /* Why a section's bytes aren't given. */
    BINFARCE_NO_BYTES = 14, /* the section has none in the file, such as .bss */
    BINFARCE_PAST_END = 15, /* they end past the file */
    /* What a file is that isn't read: from binfarce_foreign, and each call for a file except binfarce_list and binfarce_report. */
    BINFARCE_UNIVERSAL = 32, /* a universal Mach-O file: the caller passes the bytes of one of its parts */
    BINFARCE_JAVA_CLASS = 33,
    BINFARCE_MACHO32 = 34,
    BINFARCE_MACHO_BIG_ENDIAN = 35,
    BINFARCE_ARCHIVE = 36, /* by ar: the caller passes the bytes of a member */
    BINFARCE_THIN_ARCHIVE = 37,
    BINFARCE_COFF = 38, /* a COFF object file */
    BINFARCE_PDB = 39,
    BINFARCE_WASM = 40,
    BINFARCE_BITCODE = 41, /* by LLVM */
    BINFARCE_SCRIPT = 42,
    BINFARCE_TEXT = 43,
    BINFARCE_EMPTY = 44,
    BINFARCE_MANY_SECTIONS = 45, /* an ELF file of 65,280 sections or more */
    BINFARCE_CORE = 46,          /* an ELF core file without sections */
    BINFARCE_DOS = 47,
    BINFARCE_NE = 48, /* a program for 16-bit Windows or OS/2 */
    BINFARCE_LE = 49, /* a program for OS/2, or a driver for Windows 9x */
    BINFARCE_GZIP = 50,
    BINFARCE_XZ = 51,
    BINFARCE_ZSTD = 52
};

/* How a name is mangled. */
enum binfarce_kind {
    BINFARCE_KIND_UNKNOWN = 0, /* not mangled, in a form that isn't read, or beyond the limits: the name stays unchanged */
    BINFARCE_KIND_LEGACY = 1,  /* _ZN and the elements of a path */
    BINFARCE_KIND_V0 = 2       /* _R and a path, as RFC 2603 says */
};

/* What a call that gives a text returns. */
struct binfarce_text {
    uint32_t status; /* enum binfarce_status */
    uint32_t detail; /* for BINFARCE_UNEXPECTED_SECTION_TYPE the type that was found, else 0 */
    size_t length;   /* the whole length of the text in bytes */
};

/* What binfarce_demangle returns. */
struct binfarce_name {
    uint32_t status;        /* BINFARCE_OK, BINFARCE_NOT_UTF8, BINFARCE_OUT_OF_MEMORY */
    uint32_t kind;          /* enum binfarce_kind */
    size_t complete_length; /* the whole lengths of the texts in bytes */
    size_t trimmed_length;
    size_t crate_length; /* 0 where has_crate is 0; a crate's name may be empty too */
    uint32_t has_crate; /* 1, or 0, for example for a legacy name, whose crate binfarce_crate_of gives */
};

/* The BINFARCE_VERSION_NUMBER of the library that runs. Does not allocate. */
uint32_t binfarce_version(void);

/*
 * Ends a text in its buffer with a NUL: after its `length` bytes, as a call above or below returned it, or at the buffer's last byte
 * if the text has no room. Returns where the NUL is: `length`, unless the text was cut. A buffer of length 0 stays as it is, and 0 is
 * returned. Does not allocate.
 */
size_t binfarce_terminate(uint8_t *out, size_t out_length, size_t length);

/*
 * The words of a status, as binfarce-list and binfarce-size print them, but without the number of
 * BINFARCE_UNEXPECTED_SECTION_TYPE: its words are "unexpected section type", and the refused call returns the number in
 * `detail`. From 32 on they say what a file is, such as "an archive"; the command binfarce prints a hint after them. For a number
 * that is no status they are "unknown status". All words of this version fit into 64 bytes. Returns their length. Does not allocate.
 */
size_t binfarce_status_text(uint32_t status, uint8_t *out, size_t out_length);

/*
 * A name's readable form: both texts and the crate. The complete text contains the disambiguators of crates, or a legacy name's
 * hash; the trimmed one doesn't. Neither contains what follows a mangling, such as `.cold`. The crate is that of a v0 name's first
 * crate root. A name that isn't mangled stays unchanged in both texts, and so does a v0 name that contains a form that isn't read
 * (docs/NAMES.md of the sources), nests deeper than 500 levels or takes more than 65,536 steps. A buffer whose text isn't wanted
 * has the length 0. Allocates.
 */
struct binfarce_name binfarce_demangle(const uint8_t *name, size_t name_length,
                                       uint8_t *complete, size_t complete_length,
                                       uint8_t *trimmed, size_t trimmed_length,
                                       uint8_t *crate_name, size_t crate_length);

/* The trimmed text of a name alone. BINFARCE_NOT_UTF8, BINFARCE_OUT_OF_MEMORY. Allocates. */
struct binfarce_text binfarce_trimmed(const uint8_t *name, size_t name_length, uint8_t *out, size_t out_length);

/*
 * The crate of a name: for a v0 name as binfarce_demangle gives it, and for a legacy name the first part of its path,
 * unless that begins with `<`. BINFARCE_NONE if it has no crate; BINFARCE_NOT_UTF8, BINFARCE_OUT_OF_MEMORY. Allocates.
 */
struct binfarce_text binfarce_crate_of(const uint8_t *name, size_t name_length, uint8_t *out, size_t out_length);

/* How a name is mangled, and the part of it that is kept. */
struct binfarce_mangling {
    const uint8_t *part; /* the part after the mangling's prefix, in the caller's name, without the `.llvm.` suffix; all of a
                            name that isn't mangled. NULL if it is empty */
    size_t part_length;  /* in bytes */
    uint32_t kind;       /* enum binfarce_kind */
};

/*
 * How a name is mangled, without printing it: a v0 name whose text would exceed the limits may be BINFARCE_KIND_V0 here, and is
 * BINFARCE_KIND_UNKNOWN in binfarce_demangle. Returns BINFARCE_OK or BINFARCE_NOT_UTF8. Does not allocate.
 */
uint32_t binfarce_mangling(const uint8_t *name, size_t name_length, struct binfarce_mangling *out);

/*
 * The listing of a file's function symbols: a line for each, `{address:016x} {size:>10} {trimmed name}`, and last
 * `text {size of the section}`. The section is one of an ELF file (usually ".text"); in a Mach-O or PE file it is the
 * text, whatever the caller passes. BINFARCE_NOT_UTF8 for the section's name, BINFARCE_UNKNOWN_FORMAT, a reader's refusal, or
 * BINFARCE_OUT_OF_MEMORY. Allocates, among other things twice the text's length.
 */
struct binfarce_text binfarce_list(const uint8_t *file, size_t file_length,
                                   const uint8_t *section, size_t section_length,
                                   uint8_t *out, size_t out_length);

/*
 * The report of how much of a file each crate takes: a line for each, `{sum of sizes:>10} {crate}`, in the order of their
 * bytes; then `sum {of all sizes}` and `text {size of the section}`. Refused as binfarce_list refuses, and with
 * BINFARCE_TOO_LARGE. Allocates.
 */
struct binfarce_text binfarce_report(const uint8_t *file, size_t file_length,
                                     const uint8_t *section, size_t section_length,
                                     uint8_t *out, size_t out_length);

/* The format that a file's first 8 bytes name. */
enum binfarce_format {
    BINFARCE_FORMAT_UNKNOWN = 0,
    BINFARCE_FORMAT_ELF32_LITTLE = 1,
    BINFARCE_FORMAT_ELF32_BIG = 2,
    BINFARCE_FORMAT_ELF64_LITTLE = 3,
    BINFARCE_FORMAT_ELF64_BIG = 4,
    BINFARCE_FORMAT_MACHO = 5,
    BINFARCE_FORMAT_PE = 6
};

/* Names the format of a file: enum binfarce_format. The readers below don't check magic numbers. Does not allocate. */
uint32_t binfarce_detect_format(const uint8_t *file, size_t file_length);

/*
 * What a file is that isn't read, by its first 512 bytes: a status from BINFARCE_UNIVERSAL on, and BINFARCE_OK for any other file,
 * even an unknown one. binfarce_list and binfarce_report, like binfarce-list and binfarce-size, don't check this: some such files
 * begin like others that they read. Does not allocate.
 */
uint32_t binfarce_foreign(const uint8_t *file, size_t file_length);

/* The file header of an ELF file of either class, without its identification (System V gABI, "ELF Header"). */
struct binfarce_elf_header {
    uint16_t elf_type;
    uint16_t machine;
    uint32_t version;
    uint64_t entry;
    uint64_t phoff;
    uint64_t shoff;
    uint32_t flags;
    uint16_t ehsize;
    uint16_t phentsize;
    uint16_t phnum;
    uint16_t shentsize;
    uint16_t shnum;
    uint16_t shstrndx;
};

/*
 * Reads the file header of an ELF file. Returns BINFARCE_OK, BINFARCE_UNKNOWN_FORMAT for a file of another format, or
 * BINFARCE_UNEXPECTED_EOF for fewer than 52 or 64 bytes. Does not allocate.
 */
uint32_t binfarce_elf_header(const uint8_t *file, size_t file_length, struct binfarce_elf_header *out);

/*
 * A function symbol: in an ELF file one of type STT_FUNC with a name; in a Mach-O or PE file by docs/FORMATS.md of the sources. The
 * listing of a section of an ELF file leaves out functions of size 0, and the address of a Thumb function there has bit 0, its
 * instruction set.
 */
struct binfarce_function {
    const uint8_t *name; /* the name as it is stored, in the caller's file: its offset there is `name - file`. NULL if it is
                            empty */
    size_t name_length;  /* in bytes; the name is UTF-8, and what follows is no part of it */
    uint64_t address;    /* in memory, as the file states it; in the `.text` of a PE file the offset there */
    uint64_t size;       /* in bytes */
};

/* What a call that gives function symbols returns. */
struct binfarce_functions {
    uint32_t status;       /* enum binfarce_status */
    uint32_t detail;       /* for BINFARCE_UNEXPECTED_SECTION_TYPE the type that was found, else 0 */
    size_t count;          /* how many there are, however many of them the array has room for */
    uint64_t section_size; /* the size of their section in bytes; 0 if they are those of all sections */
};

/*
 * The function symbols of a file in the order of its listing, in the caller's array: in an ELF file those of the section
 * with this name, in the order of the symbol table; in a Mach-O or PE file those of the text, by address. BINFARCE_NOT_UTF8 for the
 * section's name, what a file is that isn't read, BINFARCE_UNKNOWN_FORMAT, a reader's refusal, or BINFARCE_OUT_OF_MEMORY.
 * Allocates, more for more symbols.
 */
struct binfarce_functions binfarce_functions(const uint8_t *file, size_t file_length,
                                             const uint8_t *section, size_t section_length,
                                             struct binfarce_function *out, size_t out_length);

/* Which symbol table of a file. */
enum binfarce_symbol_table {
    BINFARCE_SYMTAB = 0, /* the symbol table, which a stripped ELF file lacks: BINFARCE_SYMTAB_IS_MISSING */
    BINFARCE_DYNSYM = 1  /* in ELF, the dynamic symbol table: what a library exports */
};

/*
 * The function symbols of all sections of a file, in the caller's array: in an ELF file in the order of this symbol table (a number
 * above 1 counts as BINFARCE_DYNSYM), also indirect ones (STT_GNU_IFUNC); a function of size 0 ends at the next symbol or with its
 * section. Addresses are those in memory that the file states, in a PE file virtual ones; in an object file all sections of ELF
 * and PE begin at 0. Refused as binfarce_functions refuses, except for a section's name. Allocates, more for more symbols.
 */
struct binfarce_functions binfarce_all_functions(const uint8_t *file, size_t file_length, uint32_t table,
                                                 struct binfarce_function *out, size_t out_length);

/*
 * The function at an address: the index of the one in this array that holds it, and `functions_length` if none does. A function
 * holds the addresses from its own on, for its size, which counts at least 1. If several hold it, it is the one of greatest
 * address, and if several have that, the first; in an ELF file local symbols come first, so among aliases it may be a local one,
 * while the command `binfarce at` names another. Pass the array of binfarce_all_functions: that of one section lacks other sections
 * and functions of size 0, and has offsets in a PE file. The address is one that the file states: in a running program subtract
 * what the loader added. Searches all of the array, and doesn't read the file. Does not allocate.
 */
size_t binfarce_function_at(const struct binfarce_function *functions, size_t functions_length, uint64_t address);

/* A section of a file. */
struct binfarce_section {
    const uint8_t *name;    /* its name, in the caller's file. NULL if has_name is 0 or the name is empty */
    size_t name_length;     /* in bytes; the name is UTF-8, and what follows is no part of it */
    const uint8_t *segment; /* in a Mach-O file the name of its segment, there too; in other formats NULL */
    size_t segment_length;
    uint64_t address;     /* that of its first byte in memory; in a PE file counted from the image base. Sections that aren't in
                             memory have one too, mostly 0 */
    uint64_t offset;      /* where its bytes begin in the file, as the file states it */
    uint64_t size;        /* in bytes; in a PE file the smaller one of VirtualSize and SizeOfRawData, or the one that isn't 0 */
    uint64_t file_size;   /* how many bytes it has in the file: 0 where has_bytes is 0, in a PE file SizeOfRawData */
    uint64_t memory_size; /* how many it has in memory */
    uint64_t flags;       /* sh_flags, flags or Characteristics */
    uint32_t kind;        /* in ELF its type (sh_type), in a Mach-O file the low byte of its flags, in a PE file 0 */
    uint32_t has_name;    /* 1, or 0 for an ELF section whose name isn't in the file, or isn't UTF-8; a name may be empty too */
    uint32_t has_bytes;   /* 1, or 0 for a section that has none in the file, such as .bss */
};

/* What a call that gives all sections returns. */
struct binfarce_sections {
    uint32_t status; /* BINFARCE_OK, or why the section after the last of them can't be read */
    size_t count;    /* how many there are, however many of them the array has room for */
};

/*
 * All sections of a file in file order, in the caller's array; of a Mach-O or PE file those with a valid name. If one can't be
 * read, the sections before it are given, and its refusal. What a file is that isn't read, and BINFARCE_UNKNOWN_FORMAT, come
 * without sections. Does not allocate.
 */
struct binfarce_sections binfarce_sections(const uint8_t *file, size_t file_length,
                                           struct binfarce_section *out, size_t out_length);

/* Bytes in the caller's file. */
struct binfarce_bytes {
    const uint8_t *start; /* NULL if there are none */
    size_t length;
};

/*
 * The bytes of the first section with this name; in a Mach-O file the name is `SEGMENT,SECTION`, or a section's alone. Returns
 * BINFARCE_OK, or BINFARCE_NONE if no section has the name, BINFARCE_NO_BYTES, BINFARCE_PAST_END, BINFARCE_NOT_UTF8 for the
 * name, what a file is that isn't read, BINFARCE_UNKNOWN_FORMAT, or the refusal of a section before it. Does not allocate.
 */
uint32_t binfarce_section_bytes(const uint8_t *file, size_t file_length,
                                const uint8_t *name, size_t name_length, struct binfarce_bytes *out);

#ifdef __cplusplus
}
#endif

#endif
