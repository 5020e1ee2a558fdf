/* A randomized test of ks_places.h against a model that keeps all that ever happened: places [STEPS] [SEED [knows]].
 * With `knows` an end is asked in place of looking at what goes out; which names it knows is made up.
 * It ends with status 1 and what was wrong. Time is made up; no library is called. */
#include "ks_places.h"
#include <stdio.h>
#include <stdlib.h>

#define PEERS 1200u
#define PLACES 64u
#define WATCH 3600000u
#define KEEP 247000u /* its own, and not the header's */

static uint64_t s = 88172645463325252u;
static uint64_t rnd(void) { return s ^= s << 13, s ^= s >> 7, s ^= s << 17; }

/* The model: of each peer its name, when something came or went last, whether it was sent an Observe, whether it is
 * held. */
static struct peer {
    uint8_t key[KS_KEY_ROOM];
    size_t len;
    bool named, watched, held, known;
    ks_address name;
    uint64_t at;
} peers[PEERS];
/* And of each name ever given, whose it was. */
static struct given {
    ks_address name;
    uint32_t peer;
} * all;
static size_t all_len, all_room;

static void broken(const char *rule, long step) { printf("places: %s, at step %ld\n", rule, step), exit(1); }
static bool same(ks_address a, ks_address b) { return memcmp(a.ip, b.ip, 4) == 0 && a.port == b.port; }
static bool asks;
static bool over(const struct peer *p, uint64_t now) {
    return p->named && !p->held && !(asks && p->known) && now - p->at > KEEP + (p->watched && !asks ? WATCH : 0);
}

/* Names are looked up in a set of 2^22 slots, by their 48 bits. */
static uint32_t *slots;
static size_t slot(ks_address n) {
    uint64_t x = ((uint64_t)n.ip[0] << 24 | (uint64_t)n.ip[1] << 16 | (uint64_t)n.ip[2] << 8 | n.ip[3]) << 16 | n.port;
    size_t at = (x * 0x9e3779b97f4a7c15u) >> 42;
    while (slots[at] != 0 && !same(all[slots[at] - 1].name, n)) at = (at + 1) & ((1u << 22) - 1);
    return at;
}

static bool knows(void *end, const ks_address *name) {
    return (void)end, peers[all[slots[slot(*name)] - 1].peer].known;
}

static ks_places t;
static uint64_t now, full, taken;

static void begin(void) {
    static ks_name_place places[PLACES];
    ks_places_init(&t, places, PLACES, WATCH, rnd(), rnd());
    if (asks) t.knows = knows;
    slots = calloc(1u << 22, sizeof *slots);
    for (uint32_t i = 0; i < PEERS; i++) {
        struct peer *p = &peers[i];
        p->len = 1 + rnd() % KS_KEY_ROOM;
        for (size_t j = 0; j < p->len; j++) p->key[j] = (uint8_t)(rnd() % 2);
        if (i > 0 && rnd() % 2) memcpy(p->key, peers[i - 1].key, p->len = peers[i - 1].len); /* close to another's */
        if (p->len < 4) p->len = 4;
        memcpy(p->key + p->len - 4, &i, 4);
    }
}

/* Time goes on, at times just to the edge of what is kept. */
static void go_on(void) {
    uint64_t r = rnd() % 1000;
    if (r == 3 && peers[r = rnd() % 70].named && peers[r].at + KEEP > now)
        now = peers[r].at + KEEP + (peers[r].watched ? WATCH : 0) + rnd() % 2;
    else if (r < 3) now += rnd() % 400000;
    else if (r < 500) now += rnd() % 4000;
}

/* A new name was given: no one had it before, and its place was that of one who is over, or free. */
static void note_given(uint32_t i, ks_address name, uint64_t clock, long step) {
    size_t at = slot(name);
    if (slots[at] != 0) broken(all[slots[at] - 1].peer == i ? "a name is its own again" : "a name is another's", step);
    if (all_len == all_room) all = realloc(all, (all_room = all_room * 2 + 1024) * sizeof *all);
    all[all_len++] = (struct given){name, i}, slots[at] = (uint32_t)all_len;
    if (all_len > 2000000) broken("too many names", step);
    peers[i].named = true, peers[i].watched = peers[i].held = false, peers[i].name = name;
    taken++;
    for (uint32_t j = 0; j < PEERS && taken > t.taken; j++) {
        ks_address n;
        if (j == i || !peers[j].named || ks_places_find(&t, peers[j].key, peers[j].len, &n) == KS_DONE) continue;
        if (!over(&peers[j], clock)) broken("another's place is taken too early", step);
        peers[j].named = false, taken--;
    }
    if (taken != t.taken) broken("places in use", step);
}

/* It is lawful only where no place is free, and nobody is over. */
static void note_full(struct peer *p, uint64_t clock, long step) {
    if (p->named && !over(p, clock)) broken("forgotten too early, and no place", step);
    if (p->named) taken--;
    p->named = false, full++;
    for (uint32_t j = 0; j < PEERS && !asks; j++) /* (who is not known any more is asked for again later) */
        if (over(&peers[j], clock)) broken("a place is free, and is not given", step);
    if (taken < PLACES) broken("a place is free", step);
}

static void receive(uint32_t i, uint64_t told, long step) {
    struct peer *p = &peers[i];
    ks_address name = {{0}, 0};
    int32_t got = ks_places_from(&t, told, p->key, p->len, &name);
    uint64_t clock = t.now;
    if (got == KS_NAMES_FULL) {
        note_full(p, clock, step);
        return;
    }
    if (p->named && got == KS_OK && !same(p->name, name)) broken("a peer has another name", step);
    if (p->named && got == KS_DONE) { /* it was forgotten meanwhile */
        if (!over(p, clock)) broken("forgotten too early", step);
        p->named = false;
    }
    if (got == KS_DONE) note_given(i, name, clock, step);
    else if (!p->named) broken("a name that nobody was given", step);
    p->at = clock;
}

/* To the peer's name, or to any that was ever given. */
static void answer(struct peer *p, uint64_t told, long step) {
    static const uint8_t notification[] = {0x51, 0x45, 1, 2, 9, 0x61, 5, 0xff, 'x'};
    static const uint8_t plain[] = {0x61, 0x45, 1, 2, 9, 0xff, 'x'};
    bool observe = rnd() % 4 == 0;
    uint8_t key[KS_KEY_ROOM];
    size_t len = 0;
    if (all_len == 0) return;
    ks_address to = p->named ? p->name : all[rnd() % all_len].name;
    struct peer *of = &peers[all[slots[slot(to)] - 1].peer];
    uint64_t clock = told > t.now ? told : t.now;
    bool live = of->named && same(of->name, to);
    bool got = observe ? ks_places_to(&t, told, &to, notification, sizeof notification, key, &len)
                       : ks_places_to(&t, told, &to, plain, sizeof plain, key, &len);
    if (got != live && !(live && over(of, clock))) broken("an old name is known", step);
    if (got && (len != of->len || memcmp(key, of->key, len) != 0)) broken("another's identity", step);
    if (got) of->at = clock, of->watched = of->watched || observe;
}

/* All that have names have different ones, and the table finds them. */
static void look_at_all(uint64_t clock, long step) {
    ks_address name;
    for (uint32_t j = 0; j < PEERS; j++) {
        if (!peers[j].named) continue;
        bool found = ks_places_find(&t, peers[j].key, peers[j].len, &name) == KS_DONE;
        if (found ? !same(name, peers[j].name) : !over(&peers[j], clock)) broken("not found by its identity", step);
        for (uint32_t k = 0; k < j; k++)
            if (peers[k].named && same(peers[k].name, peers[j].name)) broken("two peers have one name", step);
    }
}

static void step_once(long step) {
    go_on();
    uint64_t told = rnd() % 50 == 0 && now > 9 ? now - rnd() % 9 : now; /* a clock that jumps back */
    uint32_t i = (uint32_t)(rnd() % 3 ? rnd() % 70 : rnd() % PEERS);
    struct peer *p = &peers[i];
    uint64_t what = rnd() % 16, clock = t.now;
    if (what < 8) receive(i, told, step);
    else if (what < 12) answer(p, told, step);
    else if (what == 12 && p->named && rnd() % 4 == 0 && ks_places_hold(&t, &p->name)) p->held = true, p->at = t.now;
    else if (what == 13 && p->named && ks_places_release(&t, &p->name))
        p->held = false, p->watched = true, p->at = t.now;
    else if (what == 14 && p->named && rnd() % 4 == 0 && ks_places_retire(&t, &p->name))
        p->named = p->held = false, taken--;
    else if (what == 15) {
        if (asks) p->known = rnd() % 4 == 0;
        if (step % 64 == 0) look_at_all(clock, step);
    }
}

int main(int argc, char **argv) {
    long steps = argc > 1 ? atol(argv[1]) : 1000000;
    if (argc > 2) s ^= strtoull(argv[2], NULL, 10) * 0x9e3779b97f4a7c15u;
    asks = argc > 3;
    begin();
    for (long step = 0; step < steps; step++) step_once(step);
    printf("places%s: %ld steps, %u peers, %u places: %zu names given, %llu forgotten, %llu times no place\n",
           asks ? " with knows" : "", steps, PEERS, PLACES, all_len, (unsigned long long)t.forgotten,
           (unsigned long long)full);
    return 0;
}
