/* heap.h: when something is due of each end, the soonest first. Each end has one place, so a new moment of it takes the
 * place of the old one. */
#ifndef HEAP_H
#define HEAP_H

#include <stdint.h>
#include <stdlib.h>

#define NEVER UINT64_MAX

typedef struct {
    uint32_t count;
    uint64_t *at;       /* of each end: when it is due, in ms */
    uint32_t *place;    /* of each end: where it stands in `order` */
    uint32_t *order;    /* a binary heap of ends */
} heap;

static inline bool heap_new(heap *h, uint32_t count) {
    *h = (heap){count, calloc(count, sizeof *h->at), calloc(count, sizeof *h->place), calloc(count, sizeof *h->order)};
    if (h->at == NULL || h->place == NULL || h->order == NULL) return false;
    for (uint32_t n = 0; n < count; n++) h->at[n] = NEVER, h->place[n] = h->order[n] = n;
    return true;
}

static inline void heap_free(heap *h) {
    free(h->at), free(h->place), free(h->order);
    *h = (heap){0};
}

/* The end of which something is due first. */
static inline uint32_t heap_first(const heap *h) { return h->order[0]; }

static inline void heap_put(heap *h, uint32_t place, uint32_t end) {
    h->order[place] = end;
    h->place[end] = place;
}

static inline void heap_rise(heap *h, uint32_t end) {
    uint32_t place = h->place[end];
    while (place > 0) {
        uint32_t above = (place - 1) / 2;
        if (h->at[h->order[above]] <= h->at[end]) break;
        heap_put(h, place, h->order[above]);
        place = above;
    }
    heap_put(h, place, end);
}

static inline void heap_sink(heap *h, uint32_t end) {
    uint32_t place = h->place[end];
    for (;;) {
        uint32_t below = 2 * place + 1;
        if (below >= h->count) break;
        if (below + 1 < h->count && h->at[h->order[below + 1]] < h->at[h->order[below]]) below++;
        if (h->at[end] <= h->at[h->order[below]]) break;
        heap_put(h, place, h->order[below]);
        place = below;
    }
    heap_put(h, place, end);
}

/* From now on the end is due at that moment. */
static inline void heap_set(heap *h, uint32_t end, uint64_t at) {
    uint64_t before = h->at[end];
    h->at[end] = at;
    if (at < before) heap_rise(h, end);
    if (at > before) heap_sink(h, end);
}

#endif
