/* symbolize FILE ADDRESS..: the function at each address, in hexadecimal, as `binfarce at` prints it, by the symbol table, or if the
   file has none by the dynamic one. Among aliases it names the first in the table, even a local one. */
#include "read.h"

/* The readable name of a function: the caller frees it. NULL if memory runs out. */
static uint8_t *readable(const struct binfarce_function *function, size_t *length) {
    uint8_t *text = NULL;
    size_t room = 256;
    struct binfarce_text made;
    do {
        free(text);
        if (!(text = malloc(room)))
            return NULL;
        made = binfarce_trimmed(function->name, function->name_length, text, room);
    } while (made.length > room && (room = made.length));
    *length = made.length;
    return text;
}

int main(int argc, char **argv) {
    struct binfarce_functions given;
    struct binfarce_function *all = NULL;
    size_t length, count, name_length;
    uint32_t table = BINFARCE_SYMTAB;
    uint8_t *file, *name;
    if (argc < 3 || !(file = read_file(argv[1], &length)))
        return fprintf(stderr, "usage: symbolize FILE ADDRESS..\n"), 2;
    for (count = length / 256 + 16;;) {
        free(all);
        if (!(all = malloc(count * sizeof *all)))
            return refuse(BINFARCE_OUT_OF_MEMORY, 0);
        given = binfarce_all_functions(file, length, table, all, count);
        if (given.status == BINFARCE_SYMTAB_IS_MISSING && table == BINFARCE_SYMTAB)
            table = BINFARCE_DYNSYM;
        else if (given.count > count)
            count = given.count;
        else
            break;
    }
    for (int i = 2; i < argc && given.status == BINFARCE_OK; i++) {
        uint64_t address = strtoull(argv[i], NULL, 16);
        size_t at = binfarce_function_at(all, given.count, address);
        printf("%016llx ", (unsigned long long)address);
        if (at == given.count) {
            printf("??\n");
        } else if (!(name = readable(&all[at], &name_length))) {
            given.status = BINFARCE_OUT_OF_MEMORY;
        } else {
            printf("%.*s+0x%llx\n", (int)name_length, name, (unsigned long long)(address - all[at].address));
            free(name);
        }
    }
    free(all);
    free(file);
    return given.status == BINFARCE_OK ? 0 : refuse(given.status, given.detail);
}
