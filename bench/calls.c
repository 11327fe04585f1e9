/*
 * calls ROUNDS trimmed|all: makes the names of standard input readable, one a line, ROUNDS times: `trimmed` by
 * binfarce_trimmed, and `all` by binfarce_demangle. What a call through C costs.
 */
#include "binfarce.h"

#include <stdio.h>
#include <stdlib.h>
#include <string.h>

int main(int argc, char **argv) {
    int rounds = argc > 1 ? atoi(argv[1]) : 1, whole = argc > 2 && strcmp(argv[2], "all") == 0;
    size_t room = 1 << 20, length = 0, read, total = 0;
    static uint8_t complete[1 << 16], trimmed[1 << 16], crate_name[1 << 10];
    char *all = malloc(room);
    while (all && (read = fread(all + length, 1, room - length, stdin)) > 0)
        if ((length += read) == room)
            all = realloc(all, room *= 2);
    if (!all)
        return 1;
    for (int k = 0; k < rounds; k++)
        for (char *name = all, *end; (end = memchr(name, '\n', (size_t)(all + length - name))); name = end + 1) {
            const uint8_t *bytes = (const uint8_t *)name;
            size_t size = (size_t)(end - name);
            if (whole)
                total += binfarce_demangle(bytes, size, complete, sizeof complete, trimmed, sizeof trimmed, crate_name, sizeof crate_name).trimmed_length;
            else
                total += binfarce_trimmed(bytes, size, trimmed, sizeof trimmed).length;
        }
    printf("%zu\n", total);
    free(all);
    return 0;
}
