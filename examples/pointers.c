/*
 * pointers FILE: compares each pointer that the library returns with the offset that the file states for the name. These are
 * the names of sections and function symbols of a 64-bit little-endian ELF file, read by <elf.h>, and the kept parts of some
 * names. Prints how many pointers were compared. Calls with NULL for what is empty answer as with another pointer, a text ends with
 * a NUL in each buffer, and the library has the header's version.
 */
#include "read.h"

#include <elf.h>
#include <stdbool.h>

static size_t compared;

/* Whether a pointer points to this offset; reports one that doesn't. */
static bool goes_to(const uint8_t *base, size_t offset, const uint8_t *given, const char *what) {
    compared++;
    if (given != base + offset)
        fprintf(stderr, "%s: not at offset %zu\n", what, offset);
    return given == base + offset;
}

/* The section header of this number. */
static Elf64_Shdr header(const uint8_t *file, const Elf64_Ehdr *elf, size_t number) {
    Elf64_Shdr found;
    memcpy(&found, file + elf->e_shoff + number * sizeof found, sizeof found);
    return found;
}

static bool section_names(const uint8_t *file, size_t length, const Elf64_Ehdr *elf) {
    struct binfarce_section *all = malloc((elf->e_shnum + 1u) * sizeof *all);
    Elf64_Shdr names = header(file, elf, elf->e_shstrndx);
    bool right = all && binfarce_sections(file, length, all, elf->e_shnum).count == elf->e_shnum;
    for (size_t i = 0; right && i < elf->e_shnum; i++) {
        const char *text = (const char *)file + names.sh_offset + header(file, elf, i).sh_name;
        right = *text == 0 ? all[i].name == NULL : goes_to(file, (size_t)(text - (const char *)file), all[i].name, "a section's name");
    }
    free(all);
    return right;
}

/* The function symbols of this section: those with a size and a name. */
static bool function_names(const uint8_t *file, size_t length, const Elf64_Ehdr *elf, const char *section) {
    struct binfarce_function *all;
    struct binfarce_functions given;
    Elf64_Shdr names = header(file, elf, elf->e_shstrndx), rows = {0}, strings;
    size_t number = 0, next = 0;
    bool right;
    for (size_t i = elf->e_shnum; i-- > 0;) {
        Elf64_Shdr here = header(file, elf, i);
        if (here.sh_type == SHT_SYMTAB)
            rows = here;
        if (strcmp((const char *)file + names.sh_offset + here.sh_name, section) == 0)
            number = i;
    }
    strings = header(file, elf, rows.sh_link);
    all = malloc((rows.sh_size / sizeof(Elf64_Sym) + 1) * sizeof *all);
    given = binfarce_functions(file, length, (const uint8_t *)section, strlen(section), all, rows.sh_size / sizeof(Elf64_Sym));
    right = all && given.status == BINFARCE_OK;
    for (size_t at = 0; right && at + sizeof(Elf64_Sym) <= rows.sh_size; at += sizeof(Elf64_Sym)) {
        Elf64_Sym row;
        memcpy(&row, file + rows.sh_offset + at, sizeof row);
        if (row.st_shndx == number && ELF64_ST_TYPE(row.st_info) == STT_FUNC && row.st_size != 0 && row.st_name != 0)
            right = next < given.count && goes_to(file, strings.sh_offset + row.st_name, all[next++].name, "a function's name");
    }
    free(all);
    return right && next == given.count && next > 0;
}

/* The kept part begins after the prefix of a mangling, and is all of a name that isn't mangled. */
static bool kept_parts(void) {
    static const struct {
        const char *name;
        size_t prefix;
    } names[] = {{"_ZN3foo3barE", 3}, {"_RNvC6_123foo3bar", 2}, {"main", 0}};
    for (size_t i = 0; i < sizeof names / sizeof *names; i++) {
        const uint8_t *name = (const uint8_t *)names[i].name;
        struct binfarce_mangling mangling;
        if (binfarce_mangling(name, strlen(names[i].name), &mangling) != BINFARCE_OK || !goes_to(name, names[i].prefix, mangling.part, names[i].name))
            return false;
    }
    return true;
}

static bool is_same(struct binfarce_text given, struct binfarce_text wanted) {
    return given.status == wanted.status && given.detail == wanted.detail && given.length == wanted.length;
}

/* Whether each call takes NULL for bytes of length 0 as it takes other bytes of this length. */
static bool takes_null(const uint8_t *file, size_t length) {
    const uint8_t *bytes = (const uint8_t *)"";
    uint8_t out[1] = {0};
    struct binfarce_name name = binfarce_demangle(NULL, 0, NULL, 0, NULL, 0, NULL, 0);
    struct binfarce_mangling part = {bytes, 1, 7};
    struct binfarce_bytes found = {bytes, 1};
    struct binfarce_elf_header header = {.machine = 1};
    struct binfarce_functions functions = binfarce_functions(file, length, NULL, 0, NULL, 0);
    size_t count = binfarce_functions(file, length, (const uint8_t *)".text", 5, NULL, 0).count;
    bool right = name.status == BINFARCE_OK && name.kind == BINFARCE_KIND_UNKNOWN && name.complete_length == 0 && name.trimmed_length == 0;
    right = right && is_same(binfarce_trimmed(NULL, 0, NULL, 0), binfarce_trimmed(bytes, 0, out, 0));
    right = right && is_same(binfarce_crate_of(NULL, 0, NULL, 0), binfarce_crate_of(bytes, 0, out, 0));
    right = right && is_same(binfarce_list(NULL, 0, NULL, 0, NULL, 0), binfarce_list(bytes, 0, bytes, 0, out, 0));
    right = right && is_same(binfarce_report(NULL, 0, NULL, 0, NULL, 0), binfarce_report(bytes, 0, bytes, 0, out, 0));
    right = right && is_same(binfarce_list(file, length, NULL, 0, NULL, 0), binfarce_list(file, length, bytes, 0, out, 0));
    right = right && binfarce_mangling(NULL, 0, &part) == BINFARCE_OK && part.part == NULL && part.part_length == 0 && part.kind == 0;
    right = right && binfarce_detect_format(NULL, 0) == BINFARCE_FORMAT_UNKNOWN && binfarce_status_text(BINFARCE_OK, NULL, 0) == 2;
    right = right && binfarce_foreign(NULL, 0) == BINFARCE_EMPTY && binfarce_function_at(NULL, 0, 1) == 0;
    right = right && binfarce_elf_header(NULL, 0, &header) == BINFARCE_UNKNOWN_FORMAT && header.machine == 0;
    right = right && functions.status == BINFARCE_SYMBOLS_SECTION_IS_MISSING && count > 0;
    right = right && binfarce_functions(NULL, 0, NULL, 0, NULL, 0).status == BINFARCE_EMPTY;
    right = right && binfarce_all_functions(file, length, BINFARCE_SYMTAB, NULL, 0).count >= count;
    right = right && binfarce_sections(NULL, 0, NULL, 0).status == BINFARCE_EMPTY && binfarce_sections(file, length, NULL, 0).count > 0;
    right = right && binfarce_section_bytes(file, length, NULL, 0, &found) == BINFARCE_NONE && found.start == NULL && found.length == 0;
    return right && binfarce_terminate(NULL, 0, 5) == 0;
}

/* Whether a name's text is a string in buffers of each length, and the bytes behind the NUL stay. */
static bool ends_strings(void) {
    static const char name[] = "_ZN3foo3bar17h05af221e174051e9E", text[] = "foo::bar";
    for (size_t room = 0; room < 12; room++) {
        uint8_t out[12];
        size_t kept = room == 0 ? 0 : room <= strlen(text) ? room - 1 : strlen(text), end;
        memset(out, 'x', sizeof out);
        end = binfarce_terminate(out, room, binfarce_trimmed((const uint8_t *)name, strlen(name), out, room).length);
        if (end != kept || memcmp(out, text, kept) != 0 || (room > 0 && out[kept] != 0))
            return false;
        for (size_t i = room == 0 ? 0 : kept + 1; i < sizeof out; i++)
            if (out[i] != 'x')
                return false;
    }
    return true;
}

static bool has_version(void) {
    uint32_t number = binfarce_version();
    char text[40];
    snprintf(text, sizeof text, "%u.%u.%u", (unsigned)(number >> 16), (unsigned)(number >> 8 & 255), (unsigned)(number & 255));
    return number == BINFARCE_VERSION_NUMBER && strcmp(text, BINFARCE_VERSION) == 0;
}

int main(int argc, char **argv) {
    size_t length;
    uint8_t *file;
    Elf64_Ehdr elf;
    bool right;
    if (argc != 2 || !(file = read_file(argv[1], &length)))
        return fprintf(stderr, "usage: pointers FILE\n"), 2;
    if (binfarce_detect_format(file, length) != BINFARCE_FORMAT_ELF64_LITTLE)
        return refuse(BINFARCE_UNKNOWN_FORMAT, 0);
    memcpy(&elf, file, sizeof elf);
    right = section_names(file, length, &elf) && function_names(file, length, &elf, ".text") && kept_parts();
    right = right && takes_null(file, length) && ends_strings() && has_version();
    free(file);
    if (!right)
        return fprintf(stderr, "pointers: wrong\n"), 1;
    printf("%zu pointers\n", compared);
    return 0;
}
