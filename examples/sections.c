/*
 * sections FILE: lists the sections of an ELF, Mach-O or PE file, and then finds the bytes of each by its name. A line is
 * `{number} {segment} {name} {type} {address:x} {offset:x} {size:x}`.
 */
#include "read.h"

/* Whether the first section of a name, `first`, has the bytes that are found by it. */
static int has_bytes(const uint8_t *file, size_t length, const struct binfarce_section *first) {
    struct binfarce_bytes bytes;
    uint32_t status = binfarce_section_bytes(file, length, first->name, first->name_length, &bytes);
    if (status != BINFARCE_OK)
        return bytes.start == NULL && bytes.length == 0 && status == (first->has_bytes ? BINFARCE_PAST_END : BINFARCE_NO_BYTES);
    return first->has_bytes && bytes.length == first->size && (bytes.length == 0 || bytes.start == file + first->offset);
}

int main(int argc, char **argv) {
    size_t length, room = 16;
    uint8_t *file;
    struct binfarce_section *all = NULL;
    struct binfarce_sections given;
    if (argc != 2 || !(file = read_file(argv[1], &length)))
        return fprintf(stderr, "usage: sections FILE\n"), 2;
    do {
        free(all);
        if (!(all = malloc(room * sizeof *all)))
            return refuse(BINFARCE_OUT_OF_MEMORY, 0);
        given = binfarce_sections(file, length, all, room);
    } while (given.count > room && (room = given.count));
    for (size_t i = 0; i < given.count; i++) {
        const struct binfarce_section s = all[i];
        size_t first = 0;
        printf("%zu %.*s %.*s %u %llx %llx %llx\n", i, (int)s.segment_length, s.segment ? (const char *)s.segment : "",
               (int)s.name_length, s.name ? (const char *)s.name : "", s.kind, (unsigned long long)s.address,
               (unsigned long long)s.offset, (unsigned long long)s.size);
        while (!all[first].has_name || all[first].name_length != s.name_length ||
               (s.name_length > 0 && memcmp(all[first].name, s.name, s.name_length) != 0))
            if (first++ == i)
                break;
        if (s.has_name && first <= i && !has_bytes(file, length, &all[first]))
            return fprintf(stderr, "section %zu isn't found by its name\n", i), 1;
    }
    free(all);
    free(file);
    return given.status == BINFARCE_OK ? 0 : refuse(given.status, 0);
}
