/* names: a table of names (ks_names) against a model that does what its contract says, for random calls, now and then
 * with an allocation that is refused: names [STEPS] [SEED]. Built with -DMISTAKE=n the model has a mistake, which has to
 * be noticed. Time is made up. Ends with status 0, or says what differs. */
#include "both_ends.h"

#ifndef MISTAKE
#define MISTAKE 0
#endif
#define PEERS 1200u
#define PLACES 64u
#define PORTS 65535u

/* A mistake of the model: it is there where it is that one. */
static bool is_wrong(int mistake) { return MISTAKE == mistake; }

/* Of each peer: its key, and its name as a number. Who came or was sent to last has the greatest turn. */
static struct peer {
    uint8_t key[KS_KEY_ROOM];
    size_t len;
    bool named, held;
    uint64_t number, at, turn;
} peers[PEERS];
static uint32_t owners[4000000]; /* of each number: whose name it was */
static uint64_t given, taken, at, turns, full, lost;
static ks_names names;

static ks_address name_of(uint64_t number) {
    uint64_t ip = number / PORTS;
    return (ks_address){{(uint8_t)(ip >> 24), (uint8_t)(ip >> 16), (uint8_t)(ip >> 8), (uint8_t)ip},
                        (uint16_t)(number % PORTS + 1)};
}

/* Whose name it is, or nobody. */
static struct peer *owner(uint64_t number) {
    struct peer *p = number < given ? &peers[owners[number]] : NULL;
    return p != NULL && p->named && p->number == number ? p : NULL;
}

static void pass(uint64_t to) {
    if (to > at || is_wrong(1)) at = to;
}

static void touch(struct peer *p) {
    if (p->held) return;
    p->at = at;
    p->turn = ++turns;
}

static uint64_t kept_ms(void) { return is_wrong(3) ? 246999 : is_wrong(4) ? 247001 : 247000; }

/* The peer whose name is lost where another needs its place: whose last datagram is the oldest. */
static struct peer *oldest(void) {
    struct peer *it = NULL;
    for (uint32_t i = 0; i < PEERS; i++) {
        struct peer *p = &peers[i];
        bool comes_first = it == NULL || (is_wrong(5) ? p->turn > it->turn : p->turn < it->turn);
        if (p->named && (!p->held || is_wrong(6)) && comes_first) it = p;
    }
    return it != NULL && (at - it->at > kept_ms() || is_wrong(7)) ? it : NULL;
}

static void forget(struct peer *p) {
    p->named = p->held = false;
    taken--;
}

/* What a datagram from it is answered. */
static int32_t comes(struct peer *p) {
    if (p->named) {
        if (!is_wrong(8)) touch(p);
        return KS_OK;
    }
    if (taken >= PLACES) {
        struct peer *gone = oldest();
        if (gone == NULL) return full++, KS_NAMES_FULL;
        lost++;
        forget(gone);
    }
    p->named = true;
    p->held = false;
    p->number = is_wrong(9) ? given % 256 : given;
    owners[given++] = (uint32_t)(p - peers);
    taken++;
    touch(p);
    return KS_OK;
}

static void refuse_some(void) { refuse_at = word() % 64 == 0 ? allocated + 1 + (long)(word() % 3) : -1; }

static void told(const ks_address *name, const struct peer *p) {
    ks_address is = name_of(p->number);
    IS(memcmp(name->ip, is.ip, 4), 0);
    IS(name->port, is.port);
}

static void feed(struct peer *p, uint64_t now_told) {
    ks_address name = {{9, 9, 9, 9}, 9};
    bool had = p->named;
    refuse_some();
    int32_t answer = ks_names_fed(&names, now_told, p->key, p->len, &name);
    refuse_at = -1;
    if (answer == KS_NO_MEMORY) {
        no_memory++;
        IS(had, false);
        IS(name.port, 9);
        return;
    }
    pass(now_told);
    IS(answer, comes(p));
    if (answer == KS_OK) told(&name, p);
    else IS(name.port, 9);
}

/* To a name that is told, or was. */
static uint64_t drawn(void) {
    struct peer *p = &peers[word() % PEERS];
    return p->named || word() % 4 ? p->number : word() % (given + 3);
}

static void key_is(int32_t answer, const uint8_t *key, size_t len, const struct peer *p) {
    IS(answer, p != NULL ? KS_DONE : KS_OK);
    if (p == NULL) return;
    IS(len, p->len);
    IS(memcmp(key, p->key, len), 0);
}

static void look(uint64_t number) {
    ks_address name = name_of(number);
    uint8_t key[KS_KEY_ROOM];
    uint64_t load = 0;
    size_t len = 0;
    int32_t answer = ks_names_key(&names, &name, key, sizeof key, &len);
    key_is(answer, key, len, owner(number));
    if (answer == KS_DONE) {
        IS(ks_names_of(&names, key, len, &name), KS_DONE);
        told(&name, owner(number));
    }
    struct peer *p = &peers[word() % PEERS];
    IS(ks_names_of(&names, p->key, p->len, &name), p->named ? KS_DONE : KS_OK);
    IS(ks_names_load(&names, &load), KS_OK);
    IS(load, taken);
}

static void send_to(uint64_t number, uint64_t now_told) {
    ks_address name = name_of(number);
    uint8_t key[KS_KEY_ROOM];
    size_t len = 0;
    struct peer *p = owner(number);
    int32_t answer = ks_names_sent(&names, now_told, &name, key, sizeof key, &len);
    pass(now_told);
    key_is(answer, key, len, p);
    if (p != NULL && !is_wrong(10)) touch(p);
}

static void hold(uint64_t number) {
    ks_address name = name_of(number);
    struct peer *p = owner(number);
    refuse_some();
    int32_t answer = ks_names_hold(&names, &name);
    refuse_at = -1;
    if (answer == KS_NO_MEMORY) {
        no_memory++;
        IS(p != NULL && !p->held, true);
        return;
    }
    IS(answer, p != NULL ? KS_DONE : KS_OK);
    if (p != NULL) p->held = true;
}

static void release(uint64_t number, uint64_t now_told) {
    ks_address name = name_of(number);
    struct peer *p = owner(number);
    refuse_some();
    int32_t answer = ks_names_release(&names, now_told, &name);
    refuse_at = -1;
    if (answer == KS_NO_MEMORY) {
        no_memory++;
        IS(p != NULL && p->held, true);
        return;
    }
    pass(now_told);
    bool was_held = p != NULL && p->held;
    IS(answer, was_held ? KS_DONE : KS_OK);
    if (!was_held && (p == NULL || !is_wrong(2))) return;
    p->held = false;
    if (!is_wrong(11)) touch(p);
}

static void retire(uint64_t number) {
    ks_address name = name_of(number);
    struct peer *p = owner(number);
    IS(ks_names_retire(&names, &name), p != NULL ? KS_DONE : KS_OK);
    if (p != NULL && !is_wrong(12)) forget(p);
}

/* Keys of every length, many of them close to another's. */
static void draw_keys(void) {
    for (uint32_t i = 0; i < PEERS; i++) {
        struct peer *p = &peers[i];
        p->len = 4 + word() % (KS_KEY_ROOM - 3);
        for (size_t j = 0; j < p->len; j++) p->key[j] = (uint8_t)(word() % 2);
        if (i > 0 && word() % 2) memcpy(p->key, peers[i - 1].key, p->len = peers[i - 1].len);
        memcpy(p->key + p->len - 4, &i, 4);
    }
}

/* Time goes on, at times just to the edge of what is kept. */
static void go_on(void) {
    uint64_t by = word() % 1000;
    struct peer *p = &peers[word() % 70];
    if (by == 3 && p->named && p->at + 247000 > now) now = p->at + 247000 + word() % 2;
    else if (by < 3) now += word() % 400000;
    else if (by < 500) now += word() % 4000;
}

static void step(void) {
    go_on();
    uint64_t now_told = word() % 50 == 0 && now > 300000 ? now - word() % 300000 : now; /* a clock that jumps back */
    struct peer *p = &peers[word() % 3 ? word() % 70 : word() % PEERS];
    uint64_t what = word() % 16;
    if (what < 8) feed(p, now_told);
    else if (what < 12) send_to(drawn(), now_told);
    else if (what == 12 && word() % 4 == 0) hold(drawn());
    else if (what == 13) release(drawn(), now_told);
    else if (what == 14 && word() % 4 == 0) retire(drawn());
    else if (what == 15) look(drawn());
}

/* What is refused, and leaves the table as it is. */
static void refusals(const ks_seed *seed) {
    ks_names none = {{0}};
    ks_address name = {{0, 0, 0, 0}, 1};
    uint8_t key[KS_KEY_ROOM + 1] = {0};
    uint64_t load = 7;
    size_t len = 7;
    IS(ks_names_new(&none, 0, true, seed), KS_BAD_ARGUMENT);
    IS(ks_names_new(&none, 1048577, true, seed), KS_BAD_ARGUMENT);
    IS(ks_names_fed(&none, 0, key, 1, &name), KS_NOT_LIVE);
    IS(ks_names_sent(&none, 0, &name, key, sizeof key, &len), KS_NOT_LIVE);
    IS(ks_names_key(&none, &name, key, sizeof key, &len), KS_NOT_LIVE);
    IS(ks_names_of(&none, key, 1, &name), KS_NOT_LIVE);
    IS(ks_names_hold(&none, &name), KS_NOT_LIVE);
    IS(ks_names_release(&none, 0, &name), KS_NOT_LIVE);
    IS(ks_names_retire(&none, &name), KS_NOT_LIVE);
    IS(ks_names_load(&none, &load), KS_NOT_LIVE);
    IS(ks_names_fed(&names, 0, key, 0, &name), KS_BAD_ARGUMENT);
    IS(ks_names_fed(&names, 0, key, KS_KEY_ROOM + 1, &name), KS_BAD_ARGUMENT);
    IS(ks_names_of(&names, key, 0, &name), KS_BAD_ARGUMENT);
    IS(ks_names_sent(&names, 0, &name, key, KS_KEY_ROOM - 1, &len), KS_SMALL_ROOM);
    IS(ks_names_key(&names, &name, key, KS_KEY_ROOM - 1, &len), KS_SMALL_ROOM);
    IS(load, 7);
    IS(len, 7);
    IS(ks_names_load(&names, &load), KS_OK);
    IS(load, 0);
}

/* A handle of the one kind holds nothing for calls of the other; and all names, where they are not confined, begin alike. */
static void other_kinds(const ks_seed *seed) {
    ks_config usual = {0};
    ks_names other = {{0}};
    ks_address name = {{0}, 0};
    union { ks_server server; ks_names names; } both = {.names = {{0}}};
    IS(ks_server_new(&both.server, &usual, seed), KS_OK);
    IS(ks_names_fed(&both.names, 0, "a", 1, &name), KS_NOT_LIVE);
    IS(ks_names_new(&both.names, 1, false, seed), KS_OK);
    IS(ks_server_feed(&both.server, 0, &name, "", 0, 0), KS_NOT_LIVE);
    IS(ks_names_fed(&both.names, 0, "a", 1, &name), KS_OK);
    IS(name.port, 1);
    ks_names_free(&both.names);
    ks_names_free(&both.names);
    for (refuse_at = allocated + 1; ks_names_new(&other, 64, true, seed) != KS_OK; refuse_at = allocated + 1 + no_memory)
        IS(++no_memory < 9, true);
    refuse_at = -1;
    ks_names_free(&other);
}

int main(int argc, char **argv) {
    long steps = argc > 1 ? atol(argv[1]) : 400000;
    ks_seed seed = {word(), word(), word()};
    for (int skip = argc > 2 ? atoi(argv[2]) : 0; skip > 0; skip--) word();
    IS(ks_names_new(&names, PLACES, true, &seed), KS_OK);
    refusals(&seed);
    other_kinds(&seed);
    draw_keys();
    while (steps-- > 0) step();
    printf("names: %llu given, %llu lost to others, %llu times no place, %ld times no memory\n",
           (unsigned long long)given, (unsigned long long)lost, (unsigned long long)full, no_memory);
    ks_names_free(&names);
    return 0;
}
