/*
 * hostile [NAMES [FILES]]: passes hostile names and files to the library, and checks what must hold for every answer.
 *
 * Every buffer ends right before a page that can't be read or written, so an access past the end ends the program. A random
 * generator makes NAMES texts and FILES files: random bytes, and mangled names and small files with bytes changed, cut and
 * repeated. For each, a buffer of every length from 0 to one more than the text's gets the same beginning and the same whole
 * length, and its other bytes stay unchanged. Ten calls for each name keep no memory.
 */
#define _DEFAULT_SOURCE
#include "binfarce.h"

#include <malloc.h>
#include <stdio.h>
#include <stdlib.h>
#include <string.h>
#include <sys/mman.h>
#include <unistd.h>

static uint64_t seed = 88172645463325252u;

static uint64_t next(void) {
    seed ^= seed << 13;
    seed ^= seed >> 7;
    return seed ^= seed << 17;
}

static void fail(const char *what) {
    fprintf(stderr, "hostile: %s\n", what);
    exit(1);
}

/* Memory whose last byte is right before an inaccessible page. */
struct edge {
    uint8_t *end;
    size_t room;
};

static struct edge edge(size_t room) {
    size_t page = (size_t)sysconf(_SC_PAGESIZE), pages = (room + page - 1) / page * page;
    uint8_t *all = mmap(NULL, pages + page, PROT_READ | PROT_WRITE, MAP_PRIVATE | MAP_ANONYMOUS, -1, 0);
    if (all == MAP_FAILED || mprotect(all + pages, page, PROT_NONE) != 0)
        fail("no memory");
    return (struct edge){all + pages, pages};
}

enum call { TRIMMED, CRATE_OF, COMPLETE, LIST, REPORT };

static struct binfarce_text ask(enum call call, const uint8_t *input, size_t length, uint8_t *out, size_t room) {
    const uint8_t *text = (const uint8_t *)".text";
    struct binfarce_name name;
    switch (call) {
    case TRIMMED: return binfarce_trimmed(input, length, out, room);
    case CRATE_OF: return binfarce_crate_of(input, length, out, room);
    case LIST: return binfarce_list(input, length, text, 5, out, room);
    case REPORT: return binfarce_report(input, length, text, 5, out, room);
    default: {
        uint8_t none[2];
        name = binfarce_demangle(input, length, out, room, none, 0, none + 1, 0);
        return (struct binfarce_text){name.status, 0, name.complete_length};
    }
    }
}

/* The answer to an input with a buffer of this length, compared with the whole answer, which is right before `kept`. */
static void with_room(enum call call, const uint8_t *input, size_t length, struct binfarce_text whole, size_t room,
                      struct edge out, struct edge kept) {
    uint8_t *at = out.end - room;
    memset(at, 0xA5, room);
    struct binfarce_text shorter = ask(call, input, length, at, room);
    if (shorter.status != whole.status || shorter.length != whole.length)
        fail("the answer depends on the buffer's length");
    if (memcmp(at, kept.end - whole.length, room < whole.length ? room : whole.length) != 0)
        fail("a short buffer has another beginning");
    if (room > whole.length && at[whole.length] != 0xA5)
        fail("bytes after the text were written");
}

/* The answer to an input, with a buffer of each `step`th length, of the text's length and of one more. */
static void lengths(enum call call, const uint8_t *input, size_t length, struct edge out, struct edge kept, size_t step) {
    struct binfarce_text whole = ask(call, input, length, out.end, 0), shorter;
    if (whole.status != BINFARCE_OK) {
        if (whole.length != 0 || whole.status > BINFARCE_UNEXPECTED_EOF)
            fail("a refusal with a length, or with no number of its own");
        return;
    }
    if (whole.length + 1 > out.room)
        fail("a text too long for this test");
    shorter = ask(call, input, length, kept.end - whole.length, whole.length);
    if (shorter.status != BINFARCE_OK || shorter.length != whole.length)
        fail("two answers to one question");
    for (size_t room = 0; room < whole.length; room += step)
        with_room(call, input, length, whole, room, out, kept);
    with_room(call, input, length, whole, whole.length, out, kept);
    with_room(call, input, length, whole, whole.length + 1, out, kept);
}

static const char *const NAMES[] = {
    "_RNvC6_123foo3bar",
    "_RNqCs4fqI2P2rA04_11utf8_identsu30____7hkackfecea1cbdathfdh9hlq6y",
    "_RNCINkXs25_NgCsbmNqQUJIY6D_4core5sliceINyB9_4IterhENuNgNoBb_4iter8iterator8Iterator9rpositionNCNgNpB9_6memchr7memrchrs_0E0Bb_",
    "_RINbNbCskIICzLVDPPb_5alloc5alloc8box_freeDINbNiB4_5boxed5FnBoxuEp6OutputuEL_ECs1iopQbuBiw2_3std",
    "_RMC0TTTTTTpB8_EB7_EB6_EB5_EB4_EB3_E",
    "_RNvB_1a",
    "_ZN4core3ptr13drop_in_place17h0123456789abcdefE.llvm.9D1C9369",
    "_ZN1:E",
    "_ZN7$u3b1$:E",
    "_RC3foo.llvm.9D1C9369@@16",
    "",
};

/* A name: one of those above with some bytes changed, cut or repeated, or bytes of any value. */
static size_t make_name(uint8_t *out, size_t room) {
    size_t length, changes = next() % 4;
    if (next() % 8 == 0) {
        length = next() % room;
        for (size_t i = 0; i < length; i++)
            out[i] = (uint8_t)next();
        return length;
    }
    const char *from = NAMES[next() % (sizeof NAMES / sizeof *NAMES)];
    length = strlen(from);
    memcpy(out, from, length);
    for (; changes > 0 && length > 0; changes--) {
        size_t at = next() % length, run = next() % (length - at) + 1;
        switch (next() % 4) {
        case 0: out[at] = (uint8_t)("_RZNCBITFDSKLEp0123456789sux\0\xC3"[next() % 30]); break;
        case 1: out[at] ^= (uint8_t)(1u << next() % 8); break;
        case 2: length = at; break;
        default:
            if (length + run <= room) {
                memmove(out + at + run, out + at, length - at);
                length += run;
            }
        }
    }
    return length;
}

int main(int argc, char **argv) {
    unsigned long names = argc > 1 ? strtoul(argv[1], NULL, 10) : 100000, files = argc > 2 ? strtoul(argv[2], NULL, 10) : 10000;
    struct edge input = edge(1 << 16), out = edge(1 << 22), kept = edge(1 << 22);
    uint8_t made[256];
    for (unsigned long i = 0; i < names; i++) {
        size_t length = make_name(made, sizeof made);
        uint8_t *at = input.end - length;
        memcpy(at, made, length);
        for (enum call call = TRIMMED; call <= COMPLETE; call++)
            lengths(call, at, length, out, kept, i % 64 == 0 ? 1 : 97);
    }
    printf("%lu names\n", names);
    size_t before = mallinfo2().uordblks;
    for (unsigned long i = 0; i < 10 * names; i++)
        binfarce_trimmed((const uint8_t *)NAMES[i % 10], strlen(NAMES[i % 10]), out.end - 64, 64);
    if (mallinfo2().uordblks != before)
        fail("calls keep memory");
    printf("%lu calls, and nothing kept\n", 10 * names);
    for (int i = 3; i < argc; i++) {
        FILE *file = fopen(argv[i], "rb");
        static uint8_t intact[1 << 16];
        size_t whole = file ? fread(intact, 1, sizeof intact, file) : 0;
        if (!file || ferror(file))
            fail("a sample can't be read");
        fclose(file);
        for (unsigned long k = 0; k < files / (unsigned long)(argc - 3) + 1; k++) {
            size_t length = next() % 4 == 0 ? next() % (whole + 1) : whole;
            uint8_t *at = input.end - length;
            memcpy(at, intact, length);
            for (size_t changes = k == 0 ? 0 : next() % 4 + 1; changes > 0 && length > 0; changes--)
                at[next() % length] = next() % 2 ? (uint8_t)next() : (uint8_t)("\0\1\2\377\200"[next() % 5]);
            struct binfarce_function found[2];
            struct binfarce_functions given;
            struct binfarce_section sections[2];
            struct binfarce_sections all;
            struct binfarce_bytes bytes;
            struct binfarce_elf_header header;
            lengths(LIST, at, length, out, kept, k % 16 == 0 ? 1 : 211);
            lengths(REPORT, at, length, out, kept, k % 16 == 0 ? 1 : 211);
            binfarce_elf_header(at, length, &header);
            given = binfarce_functions(at, length, (const uint8_t *)".text", 5, found, 2);
            if (given.count > 0 && binfarce_function_at(found, 1, found[0].address) != 0)
                fail("a function doesn't hold its address");
            for (uint32_t table = BINFARCE_SYMTAB; table <= BINFARCE_DYNSYM; table++)
                if (binfarce_all_functions(at, length, table, found, 2).status == BINFARCE_OK && binfarce_foreign(at, length) != BINFARCE_OK)
                    fail("a file that isn't read has functions");
            all = binfarce_sections(at, length, sections, 2);
            for (size_t i = 0; i < all.count && i < 2; i++)
                binfarce_section_bytes(at, length, sections[i].name, sections[i].name_length, &bytes);
        }
    }
    if (argc > 3)
        printf("%lu files and more\n", files);
    return 0;
}
