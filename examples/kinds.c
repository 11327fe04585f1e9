/* kinds: prints for each name of standard input, one a line, how it is mangled, and the part that is kept. */
#include "binfarce.h"

#include <stdio.h>
#include <string.h>

int main(void) {
    static char line[1 << 16];
    while (fgets(line, sizeof line, stdin)) {
        struct binfarce_mangling mangling;
        if (binfarce_mangling((const uint8_t *)line, strcspn(line, "\n"), &mangling) != BINFARCE_OK)
            printf("not UTF-8\n");
        else
            printf("%u %.*s\n", mangling.kind, (int)mangling.part_length, mangling.part ? (const char *)mangling.part : "");
    }
    return 0;
}
