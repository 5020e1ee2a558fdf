/* refusals: the bytes of ks_refuse, row by row; then both ends with a filter before the server, over a network that
 * loses, repeats and delays up to 99 s, in made-up time. After KS_SUCCESS the request was applied once, and after
 * KS_FAILED never, also later. That holds where the filter's rules stay; where they change, and what may still be copied
 * is dropped for 147 s; and where they change at once and the server itself refuses. It is seen to break where they
 * change at once and ks_refuse answers. Ends with status 0, or says what differs. */
#include "both_ends.h"

#define FORBIDDEN 0x83          /* 4.03 */
#define B(...) (const uint8_t[]){__VA_ARGS__}, sizeof((const uint8_t[]){__VA_ARGS__})
#define NOT (const uint8_t *)"", 0

/* ---- ks_refuse ---- */

static void row(const uint8_t *given, size_t given_len, uint8_t code, int32_t answer, const uint8_t *wants,
                size_t wants_len) {
    uint8_t place[KS_REFUSAL_ROOM], *exact = malloc(given_len + 1);
    size_t len = 0;
    memcpy(exact, given, given_len);
    IS(ks_refuse(exact, given_len, code, place, sizeof place, &len), answer);
    IS(len, wants_len);
    IS(memcmp(place, wants, wants_len), 0);
    free(exact);
}

static void rows(void) {
    uint8_t place[KS_REFUSAL_ROOM];
    size_t len;
    row(B(0x40, 1, 0x12, 0x34), FORBIDDEN, KS_DONE, B(0x60, 0x83, 0x12, 0x34));
    row(B(0x43, 3, 0xff, 0xfe, 7, 8, 9, 0xb1, 'a', 0xff, 1, 2), 0x85, KS_DONE, B(0x63, 0x85, 0xff, 0xfe, 7, 8, 9));
    row(B(0x48, 1, 0, 1, 1, 2, 3, 4, 5, 6, 7, 8), 0x81, KS_DONE, B(0x68, 0x81, 0, 1, 1, 2, 3, 4, 5, 6, 7, 8));
    row(B(0x40, 31, 0, 1), 0xa3, KS_DONE, B(0x60, 0xa3, 0, 1));                 /* a method that there is none of */
    row(B(0x50, 1, 0, 1), FORBIDDEN, KS_OK, NOT);                               /* Non-confirmable */
    row(B(0x40, 0, 0, 1), FORBIDDEN, KS_OK, NOT);                               /* a ping */
    row(B(0x60, 0, 0, 1), FORBIDDEN, KS_OK, NOT);                               /* an acknowledgement */
    row(B(0x70, 0, 0, 1), FORBIDDEN, KS_OK, NOT);                               /* a Reset */
    row(B(0x40, 0x45, 0, 1), FORBIDDEN, KS_OK, NOT);                            /* a response */
    row(B(0x60, 1, 0, 1), FORBIDDEN, KS_OK, NOT);                               /* a request in an acknowledgement */
    row(B(0x40, 0x21, 0, 1), FORBIDDEN, KS_OK, NOT);                            /* a reserved class */
    row(B(0x44, 1, 0, 1, 1), FORBIDDEN, KS_OK, NOT);                            /* a token that is cut */
    row(B(0x40, 1, 0, 1, 0xb5, 'a'), FORBIDDEN, KS_OK, NOT);                    /* an option that is cut */
    row(NOT, FORBIDDEN, KS_OK, NOT);
    row(B(0x40, 1, 0, 1), 0x45, KS_BAD_ARGUMENT, NOT);                          /* 2.05 */
    row(B(0x40, 1, 0, 1), 0xc0, KS_BAD_ARGUMENT, NOT);                          /* 6.00 */
    row(NOT, 0x7f, KS_BAD_ARGUMENT, NOT);
    IS(ks_refuse(B(0x41, 1, 0, 1, 5), FORBIDDEN, place, 4, &len), KS_SMALL_ROOM);
    IS(ks_refuse(B(0x41, 1, 0, 1, 5), FORBIDDEN, place, 5, &len), KS_DONE);
}

/* ---- ks_server_refuse ---- */

/* What the server answers to a datagram that it is to refuse. */
static void refused_with(const uint8_t *given, size_t given_len, const uint8_t *wants, size_t wants_len) {
    ks_address to;
    ks_applied done;
    size_t len = 0;
    IS(ks_server_refuse(&server, now, &here, given, given_len, 0), KS_OK);
    IS(ks_server_applied(&server, &done, path_room, sizeof path_room), KS_OK);
    IS(ks_server_next_out(&server, &to, datagram, sizeof datagram, &len), wants_len != 0 ? KS_DONE : KS_OK);
    IS(len, wants_len);
    IS(memcmp(datagram, wants, wants_len), 0);
}

/* .. by a code. */
static void refused_by(const uint8_t *given, size_t given_len, uint8_t code, int32_t answer, const uint8_t *wants,
                       size_t wants_len) {
    ks_address to;
    ks_applied done;
    size_t len = 0;
    IS(ks_server_refuse_by(&server, now, &here, given, given_len, 0, code), answer);
    IS(ks_server_applied(&server, &done, path_room, sizeof path_room), KS_OK);
    IS(ks_server_next_out(&server, &to, datagram, sizeof datagram, &len), wants_len != 0 ? KS_DONE : KS_OK);
    IS(len, wants_len);
    IS(memcmp(datagram, wants, wants_len), 0);
}

static void the_server_refuses_by_a_code(void) {
    static const uint8_t put[] = {0x41, 3, 0, 1, 9, 0xb1, 't', 0xff, 'x'};
    ks_representation shown;
    begin();
    refused_by(put, sizeof put, 0x45, KS_BAD_ARGUMENT, NOT);                    /* 2.05 */
    refused_by(put, sizeof put, 0x7f, KS_BAD_ARGUMENT, NOT);                    /* 3.31 */
    refused_by(put, sizeof put, 0xc0, KS_BAD_ARGUMENT, NOT);                    /* 6.00 */
    refused_by(put, sizeof put, FORBIDDEN, KS_DONE, B(0x61, 0x83, 0, 1, 9));
    /* A copy is no new request: it has the answer of the first, by whatever code it is refused. */
    refused_by(put, sizeof put, 0xa3, KS_OK, B(0x61, 0x83, 0, 1, 9));
    refused_by(B(0x40, 1, 0, 2, 0xb1, 't'), 0x80, KS_DONE, B(0x60, 0x80, 0, 2)); /* 4.00, the first code of an error */
    refused_by(B(0x40, 4, 0, 3, 0xb1, 't'), 0xbf, KS_DONE, B(0x60, 0xbf, 0, 3)); /* 5.31, the last one */
    refused_by(B(0x40, 3, 0, 4, 0x91, 'a'), FORBIDDEN, KS_DONE, B(0x60, 0x82, 0, 4)); /* a critical option: 4.02 */
    refused_by(B(0x40, 1, 0, 5, 0xd2, 22, 'a', ':'), FORBIDDEN, KS_DONE, B(0x60, 0xa5, 0, 5)); /* Proxy-Uri: 5.05 */
    refused_by(B(0x40, 0, 0, 6), FORBIDDEN, KS_OK, B(0x70, 0, 0, 6));           /* a ping is no request */
    refused_by(NOT, FORBIDDEN, KS_OK, NOT);
    IS(ks_server_get(&server, P("t"), &shown, room, 1), KS_OK);
    end();
    IS(ks_server_refuse_by(&server, now, &here, put, sizeof put, 0, FORBIDDEN), KS_NOT_LIVE);
    IS(ks_server_refuse_by(&server, now, &here, put, sizeof put, 0, 0x45), KS_BAD_ARGUMENT);
}

/* A refusal is remembered: where the memory for that is refused, its datagram counts as lost, and nothing goes out. */
static void without_memory(void) {
    ks_address to;
    size_t len;
    long lost = 0;
    for (uint8_t id = 7; id < 250; id++) {
        allocated = 0;
        refuse_at = 1;
        int32_t answer = ks_server_refuse(&server, now, &here, B(0x40, 3, 0, id, 0xb1, 't'), 0);
        refuse_at = -1;
        IS(answer == KS_OK || answer == KS_NO_MEMORY, true);
        lost += answer == KS_NO_MEMORY;
        IS(ks_server_next_out(&server, &to, datagram, sizeof datagram, &len), answer == KS_OK ? KS_DONE : KS_OK);
    }
    IS(lost > 0, true);
}

static void the_server_refuses(void) {
    static const uint8_t put[] = {0x41, 3, 0, 1, 9, 0xb1, 't', 0xff, 'x'};
    static const uint8_t other[] = {0x41, 3, 0, 2, 8, 0xb1, 't', 0xff, 'y'};
    ks_representation shown;
    ks_address to;
    size_t len;
    begin();
    refused_with(put, sizeof put, B(0x61, 0x85, 0, 1, 9));
    /* A copy that may be served by now has the answer of the first. */
    IS(ks_server_feed(&server, now, &here, put, sizeof put, 0), KS_OK);
    IS(ks_server_next_out(&server, &to, datagram, sizeof datagram, &len), KS_DONE);
    IS(memcmp(datagram, "\x61\x85\x00\x01\x09", 5), 0);
    IS(ks_server_get(&server, P("t"), &shown, room, 1), KS_OK);
    /* What was served is answered as it was, though by now it would be refused. */
    IS(ks_server_feed(&server, now, &here, other, sizeof other, 0), KS_OK);
    IS(ks_server_next_out(&server, &to, datagram, sizeof datagram, &len), KS_DONE);
    IS(datagram[1], 0x41);
    IS(ks_server_refuse(&server, now, &here, other, sizeof other, 0), KS_OK);
    IS(ks_server_next_out(&server, &to, datagram, sizeof datagram, &len), KS_DONE);
    IS(datagram[1], 0x41);
    refused_with(B(0x40, 3, 0, 3, 0x91, 'a'), B(0x60, 0x82, 0, 3));             /* a critical option: 4.02 */
    refused_with(B(0x40, 0, 0, 4), B(0x70, 0, 0, 4));                           /* a ping is no request */
    refused_with(B(0x60, 0, 0, 5), NOT);
    refused_with(NOT, NOT);
    IS(ks_server_refuse(&server, now, &here, B(0x50, 3, 0, 6, 0xb1, 't', 0xff, 'z'), 0), KS_OK);
    IS(ks_server_next_out(&server, &to, datagram, sizeof datagram, &len), KS_DONE);
    IS(datagram[0], 0x50);
    IS(datagram[1], 0x85);
    IS(ks_server_get(&server, P("t"), &shown, room, 1), KS_DONE);
    IS(room[0], 'y');
    without_memory();
    end();
    IS(ks_server_refuse(&server, now, &here, put, sizeof put, 0), KS_NOT_LIVE);
}

/* ---- Rules that change ---- */

enum mode { STAYS, WAITS, BY_THE_SERVER, AT_ONCE };
enum verdict { SERVED, REFUSED, DROPPED };

#define RULE_MS 500000u         /* so long a rule holds */
#define COPIES_MS 147000u       /* so long a copy may come */
#define QUIET_MS 300000u
#define MOST_FLYING 512
#define CALLS 400
#define SEEDS 20

struct flying {
    uint64_t at;
    bool up;
    size_t len;
    uint8_t bytes[256];
};

static struct flying air[MOST_FLYING];
static size_t air_len;
static int applied[CALLS + 1], ended[CALLS + 1], told[16], broken;

static void fly(bool up, const uint8_t *bytes, size_t len) {
    static const uint64_t late[] = {20, 200, 2000, 30000, 99000};
    int copies = word() % 4 == 0 ? 0 : word() % 8 ? 1 : 2;
    for (; copies > 0 && air_len < MOST_FLYING; copies--) {
        struct flying *it = &air[air_len++];
        it->at = now + word() % late[word() % 8 < 5 ? word() % 2 : word() % 5];
        it->up = up;
        it->len = len;
        memcpy(it->bytes, bytes, len);
    }
}

/* Whether the request may have what it asks for: of the paths a and b one may be written at a time. */
static enum verdict verdict_on(enum mode mode, const ks_message *m, const char *path) {
    uint64_t at = mode == STAYS ? 0 : now;
    bool a = at / RULE_MS % 2 == 0, is_a = m->path_len == 2 && memcmp(path, "/a", 2) == 0;
    if (m->code < KS_POST || m->code > KS_DELETE) return SERVED;
    if (mode == WAITS && now >= RULE_MS && now % RULE_MS <= COPIES_MS) return DROPPED;
    return is_a == a ? SERVED : REFUSED;
}

/* The number with which each body begins. */
static int number_of(const ks_applied *done) {
    ks_representation shown;
    memset(room, 0, sizeof room);
    IS(ks_server_get(&server, path_room, done->path_len, &shown, room, sizeof room), KS_DONE);
    return atoi((const char *)room);
}

static void arrives(enum mode mode, const struct flying *it) {
    uint8_t answer[KS_REFUSAL_ROOM];
    size_t len;
    ks_message m;
    ks_applied done;
    if (!it->up) {
        IS(ks_client_feed(&client, now, &there, it->bytes, it->len, word()), KS_OK);
        return;
    }
    IS(ks_peek(it->bytes, it->len, &m, path_room, sizeof path_room), KS_OK);
    enum verdict verdict = verdict_on(mode, &m, path_room);
    if (verdict == DROPPED) return;
    if (verdict == REFUSED && mode != BY_THE_SERVER) {
        if (ks_refuse(it->bytes, it->len, FORBIDDEN, answer, sizeof answer, &len) == KS_DONE) fly(false, answer, len);
        return;
    }
    int32_t (*take)(ks_server *, uint64_t, const ks_address *, const void *, size_t, uint64_t) =
        verdict == REFUSED ? ks_server_refuse : ks_server_feed;
    IS(take(&server, now, &here, it->bytes, it->len, 0), KS_OK);
    if (ks_server_applied(&server, &done, path_room, sizeof path_room) == KS_DONE) {
        int number = number_of(&done);
        if (applied[number]++ != 0 || ended[number] == KS_FAILED) broken++;
    }
}

/* A PUT with its number, often so long that it goes in blocks. */
static void ask(int number) {
    static const ks_request put = {.format = 0, .accept = KS_NO_FORMAT, .method = KS_PUT};
    char body[400];
    uint64_t id;
    size_t len = (size_t)sprintf(body, "%d ", number);
    memset(body + len, 'x', sizeof body - len);
    if (word() % 2) len += word() % (sizeof body - len);
    IS(ks_client_call(&client, now, &put, word() % 2 ? "a" : "b", 1, body, len, NONE, NONE, &id), KS_OK);
}

/* What is due and out; whether the call with that number has ended. */
static bool ends(int number) {
    ks_address to;
    ks_report r;
    size_t len;
    while (ks_client_tick(&client, now, word()) == KS_DONE) {}
    while (ks_server_tick(&server, now, word()) == KS_DONE) {}
    while (ks_client_next_out(&client, &to, datagram, sizeof datagram, &len) == KS_DONE) fly(true, datagram, len);
    while (ks_server_next_out(&server, &to, datagram, sizeof datagram, &len) == KS_DONE) fly(false, datagram, len);
    if (ks_client_next_report(&client, &r, room, sizeof room) != KS_DONE) return false;
    ended[number] = r.kind;
    told[r.kind]++;
    broken += (r.kind == KS_SUCCESS && applied[number] != 1) || (r.kind == KS_FAILED && applied[number] != 0);
    return true;
}

/* Goes on to the next moment at which something comes or is due. */
static void step(enum mode mode) {
    uint64_t at = UINT64_MAX, due;
    size_t first = 0;
    if (ks_client_due(&client, &due) == KS_DONE) at = due;
    if (ks_server_due(&server, &due) == KS_DONE && due < at) at = due;
    for (size_t i = 1; i < air_len; i++)
        if (air[i].at < air[first].at) first = i;
    if (air_len > 0 && air[first].at <= at) {
        struct flying it = air[first];
        air[first] = air[--air_len];
        if (it.at > now) now = it.at;
        arrives(mode, &it);
    } else
        now = at == UINT64_MAX ? now + 1000 : at > now ? at : now + 1;
}

static void run(enum mode mode) {
    ks_config config = {.size = sizeof config, .block_size = 64, .remembered = 100000};
    begin_with(&config, &config);
    air_len = 0;
    memset(applied, 0, sizeof applied);
    memset(ended, 0, sizeof ended);
    for (int number = 1; number <= CALLS; number++) {
        ask(number);
        while (!ends(number)) step(mode);
    }
    /* No copy is applied later either. */
    for (uint64_t quiet = now + QUIET_MS; now < quiet; step(mode)) ends(CALLS);
    end();
}

static void rules(enum mode mode, const char *name) {
    broken = 0;
    memset(told, 0, sizeof told);
    for (int seed = 0; seed < SEEDS; seed++) run(mode);
    printf("rules that %s: %d calls, %d success, %d failed, %d timeouts; %d promises broken\n", name, SEEDS * CALLS,
           told[KS_SUCCESS], told[KS_FAILED], told[KS_TIMEOUT], broken);
    IS(broken != 0, mode == AT_ONCE);
    IS(told[KS_SUCCESS] > 500 && told[KS_FAILED] > 500, 1);
}

int main(void) {
    rows();
    the_server_refuses();
    the_server_refuses_by_a_code();
    rules(STAYS, "stay");
    rules(WAITS, "change after a wait");
    rules(BY_THE_SERVER, "change at once, by the server");
    rules(AT_ONCE, "change at once");
    return 0;
}
