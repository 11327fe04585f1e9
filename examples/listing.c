/* listing FILE [SECTION]: writes the library's listing of a file, as binfarce-list does. */
#include "read.h"

int main(int argc, char **argv) {
    size_t length, room = 1 << 16;
    uint8_t *file, *text = malloc(room);
    const char *section = argc > 2 ? argv[2] : ".text";
    if (argc < 2 || argc > 3 || !text || !(file = read_file(argv[1], &length)))
        return fprintf(stderr, "usage: listing FILE [SECTION]\n"), 2;
    const uint8_t *name = (const uint8_t *)section;
    struct binfarce_text listing = binfarce_list(file, length, name, strlen(section), text, room);
    if (listing.length > room) {
        free(text);
        if (!(text = malloc(room = listing.length)))
            return refuse(BINFARCE_OUT_OF_MEMORY, 0);
        listing = binfarce_list(file, length, name, strlen(section), text, room);
    }
    fwrite(text, 1, listing.length, stdout);
    free(text);
    free(file);
    return listing.status == BINFARCE_OK ? 0 : refuse(listing.status, listing.detail);
}
