/* What the clients in C share: a whole file in memory, its function symbols, and a refusal in the words of the programs. */
#include "binfarce.h"

#include <stdio.h>
#include <stdlib.h>
#include <string.h>

/* A whole file in memory; NULL if it can't be read. */
static uint8_t *read_file(const char *path, size_t *length) {
    FILE *file = fopen(path, "rb");
    size_t room = 1 << 16, read;
    uint8_t *bytes = malloc(room);
    *length = 0;
    while (file && bytes && (read = fread(bytes + *length, 1, room - *length, file)) > 0)
        if ((*length += read) == room)
            bytes = realloc(bytes, room *= 2);
    if (!file || ferror(file))
        return NULL;
    fclose(file);
    return bytes;
}

/* The status of a client whose file is one that isn't read, as an archive. */
enum { FOREIGN = 3 };

/* Prints why a file was refused, and gives the status of the program. */
static int refuse(uint32_t status, uint32_t detail) {
    uint8_t words[64];
    size_t length = binfarce_status_text(status, words, sizeof words);
    if (status == BINFARCE_UNEXPECTED_SECTION_TYPE)
        fprintf(stderr, "expected section type 3 but found %u\n", detail);
    else
        fprintf(stderr, "%.*s\n", (int)length, words);
    return status >= BINFARCE_UNIVERSAL ? FOREIGN : 1;
}
