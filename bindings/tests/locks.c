/* locks: 50 clients of one server, each at an address and with a clock of its own, in made-up time. The network loses a
 * fifth of all datagrams each way, doubles a tenth of the others, and delays them to 90 s.
 *
 * A lock is taken by PUT with If-None-Match, and given back by DELETE with If-Match of its holder's own tag. A client
 * holds it from the report that says so until it asks for the DELETE: no two hold it. A counter is read by GET and
 * written by PUT with If-Match of the tag that came: it ends at the number of writes that succeeded or were found
 * applied. After an indefinite report (a timeout, a Reset, no response) a client first settles what its write did.
 *
 *     locks [SEEDS [bare-delete | no-if-match]]
 *
 * The second word is a mistake: the lock is given back by a bare DELETE, or the counter is written without If-Match.
 * Each run says in one line what it did. The first that breaks a promise is the last, and the status is 1 then. */
#include "both_ends.h"

#define CLIENTS 50
#define TIMES 1000u             /* so often the lock is taken, and the counter written, in one run */
#define SEEDS 4
#define SETTLED_MS 147000u      /* so long after its first sending a copy of a request may come */
#define LATEST_MS 90000u
#define SLOW_MS 60000u          /* a datagram is delayed by this at least, each fifth 5 minutes of a client */
#define SPELL_MS 300000u
#define SOON_MS 400u
#define BUSY_MS 60000u          /* between two tries a client rests up to so long; in every second run, calm, up to */
#define CALM_MS 21600000u
#define THOUGHTS 200            /* between a read and a write it thinks up to one of so many parts of that */
#define LONGEST_MS 1440000000u  /* no run takes as long: nobody can take a lock that its holder knows nothing of */
#define NEVER UINT64_MAX
#define MOST_FLYING 16384
#define NOT_FOUND 0x84          /* 4.04 */
#define UNMET 0x8c              /* 4.12 */
#define AHEAD_MS 1000000000u    /* by so much at most a clock is ahead */
/* In 247 s of the server's clock the fastest gains 4.92 s on it; in 247 s of the slowest it gains 4.94 s. */
#define PARTS 1000000u
#define SLOWEST 980400u
#define FASTEST 1019900u

enum mistake { NO_MISTAKE, BARE_DELETE, NO_IF_MATCH };
enum task { LOCK, COUNTER };

/* What a client is at. Where it rests, thinks, doubts or holds, it waits for a moment; else for a report. */
enum state { RESTS, TAKES, READS, THINKS, WRITES, LOOKS, DOUBTS, HOLDS, GIVES, CHECKS };

/* What it was told. */
enum told { MOMENT_CAME, SHOWN, NOTHING_THERE, DID, REFUSED, INDEFINITE };

/* The body of the lock names who holds it, and by which of its tries. */
struct holder { uint32_t who, which; };

/* The body of the counter tells how many writes there were, and how many of these are whose. */
struct tally { uint32_t sum, of[CLIENTS]; };

struct end {
    ks_client client;
    ks_address at;
    uint64_t offset, rate;      /* of its clock */
    uint64_t due;               /* when it has something to do, by the server's clock */
    enum state state;
    uint64_t wake, asked, sent; /* by its clock: what it waits for; its last call; when its last write was first sent */
    uint8_t unsent;             /* the method of a write that is not sent yet, or 0 */
    bool doubts;                /* whether a write of its try had an indefinite report */
    struct holder name;
    struct tally read;
    ks_tag tag;
    uint32_t own;               /* so many writes of the counter were its own */
};

struct flying {
    uint64_t at;
    struct end *who;
    bool up;
    size_t len;
    uint8_t bytes[];
};

static struct end ends[CLIENTS];
static struct flying *air[MOST_FLYING]; /* the next that comes is the last */
static size_t air_len;
static uint64_t state_of_draw, server_due, rest_ms;
static enum mistake mistake;
static enum task task;
static uint32_t holders, times, broken, calls, indefinite, found, late, waited, sendings, applied[CLIENTS];

static uint64_t draw(void) {
    uint64_t z = state_of_draw += 0x9e3779b97f4a7c15u;
    z = (z ^ z >> 30) * 0xbf58476d1ce4e5b9u;
    z = (z ^ z >> 27) * 0x94d049bb133111ebu;
    return z ^ z >> 31;
}

/* (in the order of their names, whatever the compiler) */
static ks_seed draw_seed(void) {
    uint64_t a = draw(), b = draw(), c = draw();
    return (ks_seed){a, b, c};
}

static void promise(bool holds) { broken += !holds; }

/* What its clock shows; `now` is what the server's shows. */
static uint64_t clock_of(const struct end *it) { return it->offset + now * it->rate / PARTS; }

/* When its clock will show so much. */
static uint64_t moment_of(const struct end *it, uint64_t shown) {
    return shown == NEVER ? NEVER : ((shown - it->offset) * PARTS + it->rate - 1) / it->rate;
}

static void rise(struct flying *what) {
    size_t i = air_len++;
    IS(air_len < MOST_FLYING, 1);
    for (; i > 0 && air[i - 1]->at <= what->at; i--) air[i] = air[i - 1];
    air[i] = what;
}

static uint64_t delay_of(const struct end *who) {
    if ((now / SPELL_MS + (uint64_t)(who - ends)) % 5 == 0) return SLOW_MS + draw() % (LATEST_MS - SLOW_MS);
    uint64_t most = draw() % 4 == 0 ? LATEST_MS : SOON_MS;
    return draw() % most;
}

static void fly(struct end *who, bool up, size_t len) {
    sendings++;
    for (int copies = draw() % 5 == 0 ? 0 : draw() % 10 == 0 ? 2 : 1; copies > 0; copies--) {
        struct flying *it = malloc(sizeof *it + len);
        *it = (struct flying){now + delay_of(who), who, up, len};
        memcpy(it->bytes, datagram, len);
        rise(it);
    }
}

static void wait_until(struct end *it, enum state state, uint64_t shown) { it->state = state, it->wake = shown; }

static void rest(struct end *it) { wait_until(it, RESTS, clock_of(it) + 1 + draw() % rest_ms); }

static void ask(struct end *it, enum state state, uint8_t method, const void *body, size_t len, const ks_tag *match) {
    const ks_request what = {KS_NO_FORMAT, KS_NO_FORMAT, method, state == TAKES};
    uint64_t id;
    calls++;
    wait_until(it, state, NEVER);
    it->asked = clock_of(it);
    it->unsent = method == KS_GET ? 0 : method;
    IS(ks_client_call(&it->client, it->asked, &what, P("shared"), body, len, NONE, match != NULL ? match : &it->tag,
                      match != NULL, &id), KS_OK);
}

static void get(struct end *it, enum state state) { ask(it, state, KS_GET, "", 0, NULL); }

static void give(struct end *it) { ask(it, GIVES, KS_DELETE, "", 0, mistake == BARE_DELETE ? NULL : &it->tag); }

/* No copy of the write comes any more, if it was not applied by this GET; else it waits until that is so. */
static bool is_settled(struct end *it) {
    if (it->asked >= it->sent + SETTLED_MS) return true;
    waited++;
    wait_until(it, DOUBTS, it->sent + SETTLED_MS);
    return false;
}

static bool is_tag(const struct end *it, const ks_report *r) {
    return r->tag_len == it->tag.len && memcmp(r->tag, it->tag.bytes, r->tag_len) == 0;
}

static void keep_tag(struct end *it, const ks_report *r) { memcpy(it->tag.bytes, r->tag, it->tag.len = r->tag_len); }

static void take(struct end *it) {
    it->name.which++;
    it->doubts = false;
    ask(it, TAKES, KS_PUT, &it->name, sizeof it->name, NULL);
}

/* One was told that it holds the lock. */
static void begin_to_hold(void) { times++, promise(holders++ == 0); }

/* After a try to take the lock it was shown who holds it. */
static void see_holder(struct end *it, enum told told, const ks_report *r) {
    bool its_own = told == SHOWN && r->body_len == sizeof it->name && memcmp(room, &it->name, sizeof it->name) == 0;
    if (its_own) {
        if (it->doubts) found++, begin_to_hold();
        keep_tag(it, r);
        wait_until(it, HOLDS, clock_of(it) + 1 + draw() % 20000);
    } else if (!it->doubts)
        promise(false), holders--, rest(it);
    else if (is_settled(it))
        rest(it);
}

static void go_on_with_lock(struct end *it, enum told told, const ks_report *r) {
    switch (it->state) {
    case RESTS: take(it); break;
    case TAKES:
        it->doubts = told == INDEFINITE;
        if (told == DID) begin_to_hold();
        told == REFUSED ? rest(it) : get(it, LOOKS);
        break;
    case LOOKS: told == INDEFINITE ? get(it, LOOKS) : see_holder(it, told, r); break;
    case DOUBTS: get(it, LOOKS); break;
    case HOLDS: holders--, it->doubts = false, give(it); break;
    case GIVES:
        if (told == INDEFINITE) it->doubts = true, get(it, CHECKS);
        else promise(told == DID || it->doubts), rest(it);
        break;
    case CHECKS:
        if (told == INDEFINITE) get(it, CHECKS);
        else told == SHOWN && is_tag(it, r) ? give(it) : rest(it);
        break;
    default: IS(it->state, RESTS);
    }
}

/* What it reads has each write that it knows to be its own, and nothing of what it read before is gone. */
static struct tally tally_of(const struct end *it, const ks_report *r) {
    struct tally shown;
    IS(r->body_len, sizeof shown);
    memcpy(&shown, room, sizeof shown);
    promise(shown.sum >= it->read.sum);
    return shown;
}

static void think(struct end *it, const ks_report *r) {
    it->read = tally_of(it, r);
    promise(it->read.of[it->name.who] == it->own);
    keep_tag(it, r);
    wait_until(it, THINKS, clock_of(it) + 1 + draw() % (rest_ms / THOUGHTS));
}

static void write_next(struct end *it) {
    struct tally next = it->read;
    next.sum++;
    next.of[it->name.who]++;
    ask(it, WRITES, KS_PUT, &next, sizeof next, mistake == NO_IF_MATCH ? NULL : &it->tag);
}

/* After an indefinite write it was shown the counter. */
static void see_counter(struct end *it, const ks_report *r) {
    struct tally shown = tally_of(it, r);
    if (is_tag(it, r) && !is_settled(it)) return;
    uint32_t more = shown.of[it->name.who] - it->own;
    promise(more <= 1);
    found += more == 1, times += more == 1, it->own += more == 1;
    rest(it);
}

static void go_on_with_counter(struct end *it, enum told told, const ks_report *r) {
    switch (it->state) {
    case RESTS: get(it, READS); break;
    case READS: told == INDEFINITE ? get(it, READS) : think(it, r); break;
    case THINKS: write_next(it); break;
    case WRITES:
        if (told == INDEFINITE) get(it, LOOKS);
        else times += told == DID, it->own += told == DID, rest(it);
        break;
    case LOOKS: told == INDEFINITE ? get(it, LOOKS) : see_counter(it, r); break;
    case DOUBTS: get(it, LOOKS); break;
    default: IS(it->state, RESTS);
    }
}

static enum told told_by(const ks_report *r) {
    switch (r->kind) {
    case KS_BODY: return SHOWN;
    case KS_SUCCESS: return DID;
    case KS_FAILED: IS(r->code == NOT_FOUND || r->code == UNMET, 1); return r->code == UNMET ? REFUSED : NOTHING_THERE;
    case KS_TIMEOUT: case KS_RESET: case KS_NO_RESPONSE: indefinite++; return INDEFINITE;
    default: IS(r->kind, KS_BODY); return INDEFINITE;
    }
}

static void go_on(struct end *it, enum told told, const ks_report *r) {
    if (it->state == RESTS && times >= TIMES) it->wake = NEVER;
    else task == LOCK ? go_on_with_lock(it, told, r) : go_on_with_counter(it, told, r);
}

/* All that a client has to do at this moment. */
static void turn_of(struct end *it) {
    uint64_t mine = clock_of(it), at = NEVER;
    ks_address to;
    ks_report r;
    size_t len;
    if (it->wake <= mine) go_on(it, MOMENT_CAME, NULL);
    for (;; go_on(it, told_by(&r), &r)) {
        while (ks_client_tick(&it->client, mine, draw()) == KS_DONE) {}
        while (ks_client_next_out(&it->client, &to, datagram, sizeof datagram, &len) == KS_DONE) {
            if (it->unsent != 0 && it->unsent == datagram[1]) it->sent = mine, it->unsent = 0;
            fly(it, true, len);
        }
        if (ks_client_next_report(&it->client, &r, room, sizeof room) != KS_DONE) break;
    }
    if (ks_client_due(&it->client, &at) != KS_DONE || it->wake < at) at = it->wake;
    it->due = moment_of(it, at);
}

static void count_applied(void) {
    ks_applied done;
    if (ks_server_applied(&server, &done, path_room, sizeof path_room) != KS_DONE) return;
    enum state at = ends[done.from.ip[3]].state;
    applied[done.from.ip[3]] += done.method == KS_PUT;
    late += at != TAKES && at != WRITES && at != GIVES;
}

static void turn_of_server(void) {
    ks_address to;
    size_t len;
    while (ks_server_tick(&server, now, draw()) == KS_DONE) count_applied();
    while (ks_server_next_out(&server, &to, datagram, sizeof datagram, &len) == KS_DONE)
        fly(&ends[to.ip[3]], false, len);
    if (ks_server_due(&server, &server_due) != KS_DONE) server_due = NEVER;
}

/* Goes on to the next moment at which something comes or is due: false where nothing does any more. */
static bool step(void) {
    uint64_t at = air_len > 0 ? air[air_len - 1]->at : NEVER;
    struct end *who = NULL;
    for (struct end *it = ends; it < ends + CLIENTS; it++)
        if (it->due < at) at = it->due, who = it;
    bool of_server = server_due < at;
    if (of_server) at = server_due;
    if (at == NEVER) return false;
    if (at > now) now = at;
    IS(now < LONGEST_MS, 1);
    if (of_server) turn_of_server();
    else if (who != NULL) turn_of(who);
    else {
        struct flying *it = air[--air_len];
        if (it->up) {
            IS(ks_server_feed(&server, now, &it->who->at, it->bytes, it->len, 0), KS_OK);
            count_applied();
            turn_of_server();
        } else {
            IS(ks_client_feed(&it->who->client, clock_of(it->who), &there, it->bytes, it->len, draw()), KS_OK);
            turn_of(it->who);
        }
        free(it);
    }
    return true;
}

static void begin_run(uint64_t seed) {
    ks_config config = {.size = sizeof config, .remembered = 100000}, usual = {0};
    state_of_draw = seed;
    ks_seed seed_of_end = draw_seed();
    rest_ms = seed % 2 == 1 ? BUSY_MS : CALM_MS;
    now = 0;
    holders = times = broken = calls = indefinite = found = late = waited = sendings = 0;
    memset(applied, 0, sizeof applied);
    IS(ks_server_new(&server, &config, &seed_of_end), KS_OK);
    turn_of_server();
    for (uint32_t i = 0; i < CLIENTS; i++) {
        struct end *it = &ends[i];
        *it = (struct end){.at = {{10, 0, 0, (uint8_t)i}, (uint16_t)(40000 + i)}, .name.who = i};
        it->offset = draw() % AHEAD_MS;
        it->rate = SLOWEST + draw() % (FASTEST - SLOWEST + 1);
        seed_of_end = draw_seed();
        IS(ks_client_new(&it->client, &there, &usual, &seed_of_end), KS_OK);
        rest(it);
        turn_of(it);
    }
}

/* What is so once nothing moves any more. */
static void end_run(void) {
    ks_representation shown;
    struct tally last = {0};
    uint32_t all_applied = 0;
    int32_t there_is = ks_server_get(&server, P("shared"), &shown, &last, sizeof last);
    promise(there_is == (task == LOCK ? KS_OK : KS_DONE));
    for (int i = 0; i < CLIENTS; i++) {
        all_applied += applied[i];
        promise(task == LOCK || (last.of[i] == ends[i].own && applied[i] == ends[i].own));
        ks_client_free(&ends[i].client);
    }
    promise(holders == 0 && all_applied == times && (task == LOCK || last.sum == times));
    ks_server_free(&server);
    task == COUNTER ? printf("it is %u, written ", (unsigned)last.sum) : printf("taken ");
}

static bool run(enum task what, uint64_t seed) {
    static const struct tally none;
    uint64_t version;
    task = what;
    begin_run(seed);
    if (task == COUNTER) IS(ks_server_set(&server, now, P("shared"), -1, &none, sizeof none, &version), KS_OK);
    while (step()) {}
    printf("seed %d, %s: ", (int)seed, task == LOCK ? "lock" : "counter");
    end_run();
    printf("%u times, %u of these found; %u calls, %u indefinite, %u applied behind their report, %u waits of 147 s, "
           "%u datagrams, %.1f h; %u promises broken\n", (unsigned)times, (unsigned)found, (unsigned)calls,
           (unsigned)indefinite, (unsigned)late, (unsigned)waited, (unsigned)sendings, (double)now / 3600000,
           (unsigned)broken);
    return broken == 0;
}

int main(int words, char **word_at) {
    int seeds = words > 1 ? atoi(word_at[1]) : SEEDS;
    bool kept = true;
    if (words > 2) mistake = strcmp(word_at[2], "bare-delete") == 0 ? BARE_DELETE : NO_IF_MATCH;
    for (int seed = 1; seed <= seeds && kept; seed++) {
        if (mistake != NO_IF_MATCH) kept &= run(LOCK, (uint64_t)seed);
        if (mistake != BARE_DELETE) kept &= run(COUNTER, (uint64_t)seed);
    }
    return kept ? 0 : 1;
}
