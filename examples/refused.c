/*
 * refused FILE: lets each allocation of each call fail in turn, until a run in which none fails. A call in which one failed
 * returns its whole answer, or reports the failure and leaves its buffers unchanged. Linked with
 * -Wl,--wrap=malloc,--wrap=realloc.
 */
#include "read.h"

void *__real_malloc(size_t size);
void *__real_realloc(void *at, size_t size);
void *__wrap_malloc(size_t size);
void *__wrap_realloc(void *at, size_t size);

/* How many allocations succeed before one fails; none fails below 0. */
static long left = -1;

static int fails(void) { return left >= 0 && left-- == 0; }

void *__wrap_malloc(size_t size) { return fails() ? NULL : __real_malloc(size); }

void *__wrap_realloc(void *at, size_t size) { return fails() ? NULL : __real_realloc(at, size); }

static const char NAME[] = "_RNCINkXs25_NgCsbmNqQUJIY6D_4core5sliceINyB9_4IterhENuNgNoBb_4iter8iterator8Iterator9rpositionNCNgNpB9_6memchr7memrchrs_0E0Bb_";
static const uint8_t *const TEXT = (const uint8_t *)".text";

static uint8_t out[4096];
static struct binfarce_function found[16];

/* The status of one of the calls that allocate. */
static uint32_t ask(int call, const uint8_t *file, size_t length) {
    const uint8_t *name = (const uint8_t *)NAME;
    switch (call) {
    case 0: return binfarce_trimmed(name, sizeof NAME - 1, out, sizeof out).status;
    case 1: return binfarce_crate_of(name, sizeof NAME - 1, out, sizeof out).status;
    case 2: return binfarce_demangle(name, sizeof NAME - 1, out, 1024, out + 1024, 1024, out + 2048, 1024).status;
    case 3: return binfarce_list(file, length, TEXT, 5, out, sizeof out).status;
    case 4: return binfarce_report(file, length, TEXT, 5, out, sizeof out).status;
    case 5: return binfarce_functions(file, length, TEXT, 5, found, 16).status;
    default: return binfarce_all_functions(file, length, BINFARCE_SYMTAB, found, 16).status;
    }
}

int main(int argc, char **argv) {
    size_t length;
    uint8_t *file, whole[sizeof out], blank[sizeof out];
    if (argc != 2 || !(file = read_file(argv[1], &length)))
        return fprintf(stderr, "usage: refused FILE\n"), 2;
    memset(blank, 0xA5, sizeof blank);
    for (int call = 0; call < 7; call++) {
        int failed = 1, count = 0;
        memset(out, 0xA5, sizeof out);
        uint32_t answer = ask(call, file, length);
        if (answer != BINFARCE_OK)
            return refuse(answer, 0);
        memcpy(whole, out, sizeof out);
        for (; failed; count++) {
            memset(out, 0xA5, sizeof out);
            left = count;
            uint32_t status = ask(call, file, length);
            failed = left < 0;
            left = -1;
            if (memcmp(out, status == BINFARCE_OK ? whole : blank, sizeof out) != 0)
                return fprintf(stderr, "refused: call %d, allocation %d: half an answer\n", call, count), 1;
            if (status != BINFARCE_OK && (!failed || status != BINFARCE_OUT_OF_MEMORY))
                return fprintf(stderr, "refused: call %d, allocation %d: status %u\n", call, count, status), 1;
        }
        printf("call %d: right whichever of %d allocations fails\n", call, count - 1);
    }
    free(file);
    return 0;
}
