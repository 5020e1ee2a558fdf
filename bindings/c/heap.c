/* The three calls by which libknifesilver.a takes memory, over malloc. A firmware with a pool of its own builds the
 * archive without this file (bindings/build --no-heap) and writes the three itself, with these contracts. */
#include <stdbool.h>
#include <stddef.h>
#include <stdlib.h>

/* Whether there is memory, and where. Where there is none, `at` points to some byte all the same: it is not NULL. */
struct tried {
    bool ok;
    void *at;
};

struct tried rattle_alloc(size_t size, size_t align);
struct tried rattle_realloc(void *at, size_t kept, size_t size, size_t align);
void rattle_dealloc(void *at);

static char no_memory;

static struct tried tried(void *at) {
    struct tried result = {at != NULL, at != NULL ? at : &no_memory};
    return result;
}

/* At least `size` bytes, 0 or more, at a multiple of `align`, which divides 16: as malloc aligns. */
struct tried rattle_alloc(size_t size, size_t align) {
    return tried(malloc(size != 0 ? size : align));
}

/* The same for a block that either call gave. Its first `kept` bytes stay; where there is no memory, all of it does. */
struct tried rattle_realloc(void *at, size_t kept, size_t size, size_t align) {
    (void)kept;
    return tried(realloc(at, size != 0 ? size : align));
}

/* Gives a block back. */
void rattle_dealloc(void *at) {
    free(at);
}
