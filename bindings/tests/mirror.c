/* mirror: examples/c/mirror.h between a device and four clients, in made-up time. Both networks lose a fifth of all
 * datagrams each way, double a tenth of the others, and delay them to 90 s.
 *
 * The device sets its path now and then, to the number of its life and that of the change; at times it removes the
 * path, and three times a run it is gone for good: nothing reaches it and it says nothing, until another begins at its
 * address, which counts its changes from 1. Two clients get the path at the mirror, again and again; two observe it.
 * Of each body that one of them reads:
 *  - the device held it before, in rising order: a GET reads nothing older than what any client read before it was
 *    asked, and the values of one observation rise;
 *  - the device held it at most 252 s before the mirror reported it, which showed it for at most FRESH_MS, and 252 s
 *    more went by at most: a GET that is asked later than that is told 4.04.
 *
 *     mirror [SEEDS]
 *
 * Each run says in one line what it did. The first that breaks a promise is the last, and the status is 1 then. */
#include "both_ends.h"
#include "mirror.h"

#define SEEDS 4
#define GETTERS 2
#define CLIENTS 4
#define LIVES 4u
#define LIFE_MS 20000000u       /* so long a device lives, */
#define GONE_MS 1000000u        /* and so long there is none then: over 400 s, so that nothing of the old one is left */
#define CHANGES_MS 30000u       /* between two changes up to so long, and in each fourth life a hundred times that */
#define FRESH_MS 150000u
#define OLDEST_MS 252000u
#define THINKS_MS 20000u
#define SILENCE_MS 200000u      /* after so long without a value an observer observes anew */
#define SOON_MS 400u
#define LATEST_MS 90000u
#define MOST_FLYING 16384
#define MOST_CHANGES 8192
#define NEVER UINT64_MAX
#define NOT_FOUND 0x84          /* 4.04 */
#define PATH "reading"

/* What the device held: of which life and change, and until when. */
struct reading { uint32_t life, change; };

enum end { DEVICE, OF_MIRROR, OWN, READERS };   /* of a client i of the mirror: READERS + i */

struct reader {
    ks_client client;
    ks_address at;
    uint64_t id, asked;
    bool waits;                 /* for a report */
    uint64_t wake;              /* when it asks, or, as an observer who waits, observes anew */
    struct reading before;      /* the most that any client had read when it asked */
};

struct flying {
    uint64_t at;
    enum end to;
    ks_address from;
    size_t len;
    uint8_t bytes[];
};

static ks_server own;
static mirror shown;
static struct reader readers[CLIENTS];
static struct flying *air[MOST_FLYING]; /* the next that comes is the last */
static size_t air_len;
static uint64_t drawn, held_until[LIVES][MOST_CHANGES], life_ends, changes_at;
static struct reading holds, most;
static bool is_there, is_held;
static uint32_t broken, reads, values, not_there, lives_read[LIVES], sendings, hidden;

static const ks_address device_at = {{10, 0, 0, 1}, 5683};
static const ks_address mirror_at = {{10, 0, 0, 2}, 40001}, own_at = {{10, 0, 0, 2}, 5683};

static uint64_t draw(void) {
    uint64_t z = drawn += 0x9e3779b97f4a7c15u;
    z = (z ^ z >> 30) * 0xbf58476d1ce4e5b9u;
    z = (z ^ z >> 27) * 0x94d049bb133111ebu;
    return z ^ z >> 31;
}

static ks_seed draw_seed(void) {
    uint64_t a = draw(), b = draw(), c = draw();
    return (ks_seed){a, b, c};
}

static void promise(bool keeps) { broken += !keeps; }

static bool is_before(struct reading a, struct reading b) {
    return a.life < b.life || (a.life == b.life && a.change < b.change);
}

static uint64_t sooner(uint64_t a, uint64_t b) { return a < b ? a : b; }

/* ---- The network ---- */

static void fly(enum end to, const ks_address *from, size_t len) {
    sendings++;
    for (int copies = draw() % 5 == 0 ? 0 : draw() % 10 == 0 ? 2 : 1; copies > 0; copies--) {
        struct flying *it = malloc(sizeof *it + len);
        uint64_t most_ms = draw() % 8 == 0 ? LATEST_MS : SOON_MS;
        size_t i = air_len++;
        *it = (struct flying){now + draw() % most_ms, to, *from, len};
        memcpy(it->bytes, datagram, len);
        IS(air_len < MOST_FLYING, 1);
        for (; i > 0 && air[i - 1]->at <= it->at; i--) air[i] = air[i - 1];
        air[i] = it;
    }
}

static void send_all(void) {
    ks_address to;
    size_t len;
    while (is_there && ks_server_next_out(&server, &to, datagram, sizeof datagram, &len) == KS_DONE)
        fly(OF_MIRROR, &device_at, len);
    while (ks_client_next_out(&shown.client, &to, datagram, sizeof datagram, &len) == KS_DONE)
        fly(DEVICE, &mirror_at, len);
    while (ks_server_next_out(&own, &to, datagram, sizeof datagram, &len) == KS_DONE) {
        IS(to.port >= READERS && to.port < READERS + CLIENTS, 1);
        fly((enum end)to.port, &own_at, len);
    }
    for (int i = 0; i < CLIENTS; i++)
        while (ks_client_next_out(&readers[i].client, &to, datagram, sizeof datagram, &len) == KS_DONE)
            fly(OWN, &readers[i].at, len);
}

static void land(struct flying *it) {
    if (it->to == DEVICE && is_there) ks_server_feed(&server, now, &it->from, it->bytes, it->len, 0);
    if (it->to == OF_MIRROR) ks_client_feed(&shown.client, now, &it->from, it->bytes, it->len, draw());
    if (it->to == OWN) ks_server_feed(&own, now, &it->from, it->bytes, it->len, 0);
    if (it->to >= READERS) {
        struct reader *who = &readers[it->to - READERS];
        ks_client_feed(&who->client, now, &it->from, it->bytes, it->len, draw());
    }
    free(it);
}

/* ---- The device ---- */

/* What it held it holds no more. */
static void let_go(void) {
    if (is_held) held_until[holds.life][holds.change] = now;
    is_held = false;
}

static void begin_device(uint32_t life) {
    ks_config usual = {0};
    ks_seed seed = draw_seed();
    IS(ks_server_new(&server, &usual, &seed), KS_OK);
    is_there = true;
    holds = (struct reading){life, 0};
    changes_at = now;
    life_ends = now + LIFE_MS;
}

static void end_device(void) {
    let_go();
    is_there = false;
    life_ends = now + GONE_MS;
}

static void change(void) {
    uint64_t version;
    bool removes = is_held && draw() % 20 == 0;
    let_go();
    changes_at = now + 1 + draw() % (holds.life == LIVES - 1 ? 100 * CHANGES_MS : CHANGES_MS);
    if (removes) {
        IS(ks_server_remove(&server, now, P(PATH)), KS_DONE);
        return;
    }
    IS(++holds.change < MOST_CHANGES, 1);
    held_until[holds.life][holds.change] = NEVER;
    is_held = true;
    IS(ks_server_set(&server, now, P(PATH), 0, &holds, sizeof holds, &version), KS_OK);
}

/* ---- The clients of the mirror ---- */

static void rest(struct reader *it) {
    it->waits = false;
    it->wake = now + 1 + draw() % THINKS_MS;
}

static bool is_getter(const struct reader *it) { return it - readers < GETTERS; }

static void ask(struct reader *it) {
    const ks_request get = {KS_NO_FORMAT, KS_NO_FORMAT, KS_GET, false};
    it->waits = true;
    it->asked = now;
    it->wake = now + SILENCE_MS;
    it->before = most;
    if (is_getter(it)) IS(ks_client_call(&it->client, now, &get, P(PATH), "", 0, NONE, NONE, &it->id), KS_OK);
    else IS(ks_client_observe(&it->client, now, P(PATH), &it->id), KS_OK);
}

static void read_by(struct reader *it, const ks_report *r) {
    struct reading got;
    IS(r->body_len, sizeof got);
    memcpy(&got, room, sizeof got);
    promise(got.life < LIVES && got.change < MOST_CHANGES && got.change != 0 && held_until[got.life][got.change] != 0);
    if (broken != 0) return;
    uint64_t until = held_until[got.life][got.change];
    uint64_t asked = r->kind == KS_BODY ? it->asked : now - sooner(now, OLDEST_MS);
    promise(!is_before(got, it->before));
    promise(until == NEVER || asked <= until + OLDEST_MS + FRESH_MS);
    if (r->kind == KS_VALUE) it->before = got, it->wake = now + SILENCE_MS, values++;
    else reads++;
    lives_read[got.life]++;
    if (is_before(most, got)) most = got;
}

static void go_on(struct reader *it) {
    ks_report r;
    while (ks_client_next_report(&it->client, &r, room, sizeof room) == KS_DONE) {
        if (r.kind == KS_BODY || r.kind == KS_VALUE) read_by(it, &r);
        not_there += r.kind != KS_BODY && r.code == NOT_FOUND;
        if (r.kind != KS_VALUE) rest(it);
    }
    if (now < it->wake || (it->waits && is_getter(it))) return;
    /* (one that is not live waits for its first answer, which comes or fails) */
    if (!it->waits || ks_client_forget(&it->client, it->id) == KS_DONE) ask(it);
    else it->wake = now + SILENCE_MS;
}

/* ---- A run ---- */

static void turn_all(void) {
    if (is_there && now >= life_ends) end_device();
    else if (!is_there && now >= life_ends && holds.life + 1 < LIVES)
        begin_device(holds.life + 1);
    if (is_there && now >= changes_at) change();
    while (is_there && ks_server_tick(&server, now, draw()) == KS_DONE) {}
    bool did_show = shown.shows;
    do {
        while (ks_client_tick(&shown.client, now, draw()) == KS_DONE) {}
    } while (mirror_turn(&shown, now));
    hidden += did_show && !shown.shows;
    while (ks_server_tick(&own, now, draw()) == KS_DONE) {}
    for (int i = 0; i < CLIENTS; i++) {
        while (ks_client_tick(&readers[i].client, now, draw()) == KS_DONE) {}
        go_on(&readers[i]);
        while (ks_client_tick(&readers[i].client, now, draw()) == KS_DONE) {}
    }
    send_all();
}

static uint64_t next_moment(void) {
    uint64_t next = sooner(sooner(life_ends, is_there ? changes_at : NEVER), mirror_due(&shown)), at;
    if (air_len != 0) next = sooner(next, air[air_len - 1]->at);
    if (is_there && ks_server_due(&server, &at) == KS_DONE) next = sooner(next, at);
    if (ks_client_due(&shown.client, &at) == KS_DONE) next = sooner(next, at);
    if (ks_server_due(&own, &at) == KS_DONE) next = sooner(next, at);
    for (int i = 0; i < CLIENTS; i++) {
        if (ks_client_due(&readers[i].client, &at) == KS_DONE) next = sooner(next, at);
        if (!readers[i].waits || !is_getter(&readers[i])) next = sooner(next, readers[i].wake);
    }
    return next > now ? next : now + 1;
}

static void begin_all(uint64_t seed) {
    ks_config usual = {0};
    drawn = seed;
    now = 0;
    ks_seed own_seed = draw_seed(), mirror_seed = draw_seed();
    memset(&shown, 0, sizeof shown);
    memset(held_until, 0, sizeof held_until);
    memset(lives_read, 0, sizeof lives_read);
    most = (struct reading){0, 0};
    reads = values = not_there = sendings = hidden = 0;
    is_held = false;
    begin_device(0);
    IS(ks_server_new(&own, &usual, &own_seed), KS_OK);
    IS(ks_client_new(&shown.client, &device_at, &usual, &mirror_seed), KS_OK);
    shown.server = &own, shown.path = PATH, shown.fresh_ms = FRESH_MS;
    for (int i = 0; i < CLIENTS; i++) {
        ks_seed it = draw_seed();
        readers[i] = (struct reader){.at = {{10, 0, 0, 3}, (uint16_t)(READERS + i)}};
        IS(ks_client_new(&readers[i].client, &own_at, &usual, &it), KS_OK);
    }
}

static void end_all(void) {
    while (air_len > 0) free(air[--air_len]);
    ks_server_free(&server);
    ks_server_free(&own);
    ks_client_free(&shown.client);
    for (int i = 0; i < CLIENTS; i++) ks_client_free(&readers[i].client);
}

int main(int argc, char **argv) {
    uint64_t seeds = argc > 1 ? strtoull(argv[1], NULL, 10) : SEEDS;
    for (uint64_t seed = 1; seed <= seeds && broken == 0; seed++) {
        begin_all(seed);
        while (broken == 0 && (is_there || holds.life + 1 < LIVES || now < life_ends)) {
            while (air_len > 0 && air[air_len - 1]->at <= now) land(air[--air_len]);
            turn_all();
            now = next_moment();
        }
        printf("seed %d: %u bodies got and %u observed, %u times told 4.04; the path was removed %u times; %u "
               "datagrams, %.1f h; %u promises broken\n",
               (int)seed, reads, values, not_there, hidden, sendings, (double)now / 3600000, broken);
        for (uint32_t life = 0; life < LIVES; life++) IS(lives_read[life] > 20 || broken != 0, 1);
        IS((values > 1000 && not_there > 20) || broken != 0, 1);
        end_all();
    }
    return broken != 0;
}
