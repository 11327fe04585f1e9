/* symbols FILE [SECTION]: lists the function symbols of an ELF, Mach-O or PE file, as binfarce-list does: each name is made
   readable from the file itself. */
#include "read.h"

/* Prints the line of one function symbol, with the text in a buffer that grows. */
static uint32_t print(const struct binfarce_function *function, uint8_t **text, size_t *room) {
    struct binfarce_text trimmed = binfarce_trimmed(function->name, function->name_length, *text, *room);
    if (trimmed.length > *room) {
        free(*text);
        if (!(*text = malloc(*room = trimmed.length)))
            return BINFARCE_OUT_OF_MEMORY;
        trimmed = binfarce_trimmed(function->name, function->name_length, *text, *room);
    }
    if (trimmed.status != BINFARCE_OK)
        return trimmed.status;
    printf("%016llx %10llu ", (unsigned long long)function->address, (unsigned long long)function->size);
    fwrite(*text, 1, trimmed.length, stdout);
    putchar('\n');
    return BINFARCE_OK;
}

int main(int argc, char **argv) {
    struct binfarce_functions given;
    struct binfarce_function *found;
    size_t length, count, room = 256;
    uint8_t *file, *text = malloc(room);
    const uint8_t *section = (const uint8_t *)(argc > 2 ? argv[2] : ".text");
    if (argc < 2 || argc > 3 || !text || !(file = read_file(argv[1], &length)))
        return fprintf(stderr, "usage: symbols FILE [SECTION]\n"), 2;
    /* A guess that is enough for most files; if it isn't, the file is read again. */
    count = length / 256 + 16;
    for (found = NULL;; count = given.count) {
        free(found);
        if (!(found = malloc(count * sizeof *found)))
            return refuse(BINFARCE_OUT_OF_MEMORY, 0);
        given = binfarce_functions(file, length, section, strlen((const char *)section), found, count);
        if (given.count <= count)
            break;
    }
    for (size_t i = 0; i < given.count && given.status == BINFARCE_OK; i++)
        given.status = print(&found[i], &text, &room);
    if (given.status == BINFARCE_OK)
        printf("text %llu\n", (unsigned long long)given.section_size);
    free(found);
    free(text);
    free(file);
    return given.status == BINFARCE_OK ? 0 : refuse(given.status, given.detail);
}
