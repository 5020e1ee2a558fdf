/* ks_places.h under a real server: many peers through few places, over a network that loses, repeats and delays, in
 * made-up time. place_ends [SECONDS] [SEED] A peer sends a Confirmable POST with a token of its own, up to four copies
 * in 45 s, each up to 100 s late. What must hold: no request is applied twice; whoever gets an acknowledgement gets the
 * one of its own token; who observes is not forgotten but by the close of its session. Status 1 with what was broken.
 */
#include "knifesilver.h"
#include "ks_places.h"
#include <stdio.h>
#include <stdlib.h>

#define PEERS 10000u
#define PLACES 1000u
#define WATCH 600000u /* each path changes in it */

static uint64_t s = 88172645463325252u, now;
static uint64_t rnd(void) { return s ^= s << 13, s ^= s >> 7, s ^= s << 17; }
static void broken(const char *what, uint64_t x) {
    printf("place_ends: %s (%llu, at %.1f s)\n", what, (unsigned long long)x, (double)now / 1000), exit(1);
}

/* What is under way to the server, as a heap by moment. */
typedef struct {
    uint64_t at;
    uint32_t peer, token, session;
    uint16_t id;
    uint8_t what;
} flying;
static flying *heap;
static size_t heap_len, heap_room;
static void fly(flying f) {
    if (heap_len == heap_room) heap = realloc(heap, (heap_room = heap_room * 2 + 1024) * sizeof *heap);
    size_t i = heap_len++;
    for (; i > 0 && heap[(i - 1) / 2].at > f.at; i = (i - 1) / 2) heap[i] = heap[(i - 1) / 2];
    heap[i] = f;
}
static flying land(void) {
    flying f = heap[0], last = heap[--heap_len];
    size_t i = 0;
    for (;;) {
        size_t c = 2 * i + 1;
        if (c >= heap_len) break;
        if (c + 1 < heap_len && heap[c + 1].at < heap[c].at) c++;
        if (heap[c].at >= last.at) break;
        heap[i] = heap[c], i = c;
    }
    if (heap_len > 0) heap[i] = last;
    return f;
}

static uint8_t *applied; /* by token: how often */
static uint32_t *token_peer, tokens;
static struct {
    uint16_t next;
    uint32_t session;
    uint64_t free_at[4];
} peers[PEERS];
static ks_server server;
static ks_places names;
static ks_name_place places[PLACES];

/* The names that were retired: what goes to one of them goes to nobody, and may. */
static ks_address *gone;
static size_t gone_len, gone_room;
static bool was_retired(const ks_address *n) {
    for (size_t i = gone_len; i > 0; i--)
        if (memcmp(gone[i - 1].ip, n->ip, 4) == 0 && gone[i - 1].port == n->port) return true;
    return false;
}

static uint32_t key_of(uint32_t peer, uint8_t key[KS_KEY_ROOM]) { /* as long as that of ks_udp6.h */
    memset(key, 0x20, 42), memcpy(key + 12, &peer, 4);
    return 42;
}

enum { POST, REGISTER, ACK };

static size_t spell(const flying *f, uint8_t *d) {
    static const uint8_t post[] = {0xb1, 'p', 0x10},
                         get[] = {0x60, 0x51, 'o'}; /* Uri-Path p, Content-Format 0; Observe 0, Uri-Path o */
    d[0] = f->what == ACK ? 0x60 : 0x44, d[1] = f->what == ACK ? 0 : f->what == POST ? 2 : 1;
    d[2] = (uint8_t)(f->id >> 8), d[3] = (uint8_t)f->id;
    if (f->what == ACK) return 4;
    memcpy(d + 4, &f->token, 4);
    if (f->what == REGISTER) return memcpy(d + 8, get, sizeof get), 8 + sizeof get;
    memcpy(d + 8, post, sizeof post), d[11] = 0xff, d[12] = 'x';
    return 13;
}

static uint64_t until, sent, unknown, acks, once, notified, no_place, retired, next_request, next_change;
static uint32_t most;

/* As a DTLS session that is closed: its name goes at once, what is under way is worth nothing, and Message IDs begin
 * anew. */
static void close_session(uint32_t peer) {
    uint8_t key[KS_KEY_ROOM];
    ks_address name;
    uint32_t key_len = key_of(peer, key);
    if (ks_places_find(&names, key, key_len, &name) == KS_DONE) {
        if (gone_len == gone_room) gone = realloc(gone, (gone_room = gone_room * 2 + 64) * sizeof *gone);
        ks_places_retire(&names, &name);
        retired++;
        gone[gone_len++] = name;
    }
    peers[peer].session++;
    peers[peer].next = 0;
    memset(peers[peer].free_at, 0, sizeof peers[peer].free_at);
}

/* A new request: the first comes at once, copies while time goes on; any of them is lost. */
static void ask(void) {
    static const uint64_t spans[] = {0, 3000, 9000, 21000, 45000};
    bool registers = rnd() % 200 == 0;
    uint32_t peer = (uint32_t)(registers ? rnd() % 40 : rnd() % 4 ? rnd() % 600 : rnd() % PEERS);
    next_request = now + 20 + rnd() % 100;
    if (rnd() % 64 == 0) close_session(peer);
    /* (a Message ID is used again after 247 s and more) */
    if (tokens >= most || peers[peer].free_at[peers[peer].next % 4] > now) return;
    flying f = {.peer = peer, .session = peers[peer].session, .token = ++tokens};
    f.id = (uint16_t)(1000 + peers[peer].next++ % 4);
    f.what = registers ? REGISTER : POST;
    peers[peer].free_at[(f.id - 1000) % 4] = now + 400000;
    token_peer[f.token] = peer;
    for (int i = 0; i < 5; i++) {
        if (rnd() % 2) continue;
        f.at = now + spans[i] + (rnd() % 3 ? rnd() % 200 : rnd() % 100000);
        fly(f);
    }
}

static void change(void) {
    char text[24];
    uint64_t version;
    int len = snprintf(text, sizeof text, "%llu", (unsigned long long)now);
    next_change = now + WATCH / 2;
    ks_server_set(&server, now, "o", 1, 0, text, (size_t)len, &version);
    ks_server_set(&server, now, "p", 1, 0, "", 0, &version);
}

static void arrive(flying f) {
    static char path[KS_PATH_ROOM];
    uint8_t d[32], key[KS_KEY_ROOM];
    ks_address name;
    ks_applied done;
    size_t len = spell(&f, d), key_len = key_of(f.peer, key);
    if (f.session != peers[f.peer].session) return;
    if (ks_refused(ks_places_from(&names, now, key, key_len, &name))) {
        no_place++;
        return;
    }
    if (ks_server_feed(&server, now, &name, d, len, 0) != KS_OK) exit(2);
    if (ks_server_applied(&server, &done, path, sizeof path) != KS_DONE) return;
    uint32_t token;
    memcpy(&token, done.token, 4);
    if (token_peer[token] != f.peer || token != f.token) broken("applied for another", token);
    if (applied[token]++ != 0) broken("applied twice", token);
    once++;
}

/* What goes to a peer is its own. It acknowledges most notifications; some observers fall silent in the end. */
static void look_at(const uint8_t *out, uint32_t peer) {
    uint32_t token = 0;
    if ((out[0] & 15) == 4) {
        memcpy(&token, out + 4, 4);
        if (token > tokens || token_peer[token] != peer) broken("what another asked for", token);
    }
    if (out[0] >> 4 == 6) {
        acks++;
        if (out[1] == 0x44 && applied[token] != 1) broken("acknowledged, and never applied", token);
    }
    if (out[0] >> 4 != 4 || rnd() % 8 == 0 || (peer % 3 == 0 && now >= until / 2)) return;
    notified++;
    flying f = {.at = now + rnd() % 2000, .peer = peer, .session = peers[peer].session, .what = ACK};
    f.id = (uint16_t)(out[2] << 8 | out[3]);
    fly(f);
}

static void send_all(void) {
    uint8_t out[KS_DATAGRAM_ROOM], key[KS_KEY_ROOM];
    size_t len, key_len;
    ks_address to;
    while (ks_server_next_out(&server, &to, out, sizeof out, &len) == KS_DONE) {
        uint32_t peer;
        sent++;
        if (!ks_places_to(&names, now, &to, out, len, key, &key_len)) {
            unknown++;
            if (out[0] >> 4 == 4 && !was_retired(&to)) broken("a notification to a peer that was forgotten", unknown);
            continue;
        }
        memcpy(&peer, key + 12, 4);
        look_at(out, peer);
    }
}

static void begin(void) {
    ks_config config = {.size = sizeof config, .remembered = 65536};
    ks_seed seed = {rnd(), rnd(), rnd()};
    most = (uint32_t)(until / 40);
    applied = calloc(most + 1, 1);
    token_peer = calloc(most + 1, 4);
    if (ks_server_new(&server, &config, &seed) != KS_OK) exit(2);
    ks_places_init(&names, places, PLACES, WATCH, rnd(), rnd());
    change();
    for (uint32_t i = 0; i < PEERS; i++) peers[i].next = (uint16_t)(rnd() % 8); /* many use the same Message IDs */
}

int main(int argc, char **argv) {
    until = (argc > 1 ? strtoull(argv[1], NULL, 10) : 20000) * 1000;
    if (argc > 2) s ^= strtoull(argv[2], NULL, 10) * 0x9e3779b97f4a7c15u;
    begin();
    while (now < until) {
        uint64_t at = next_request < next_change ? next_request : next_change, due;
        if (heap_len > 0 && heap[0].at < at) at = heap[0].at;
        if (ks_server_due(&server, &due) == KS_DONE && due < at) at = due;
        now = at > now ? at : now;
        if (now == next_request) ask();
        else if (now == next_change) change();
        else if (heap_len > 0 && heap[0].at == now) arrive(land());
        while (ks_server_tick(&server, now, rnd()) == KS_DONE) {}
        send_all();
    }
    printf("place_ends: %.0f s, %u requests of %u peers through %u places: %llu applied, each once; ",
           (double)now / 1000, tokens, PEERS, PLACES, (unsigned long long)once);
    printf("%llu datagrams out (%llu of no peer), %llu acks, %llu notifications; ", (unsigned long long)sent,
           (unsigned long long)unknown, (unsigned long long)acks, (unsigned long long)notified);
    printf("names %llu given, %llu retired, %llu forgotten, %llu datagrams without a place\n",
           (unsigned long long)names.given, (unsigned long long)retired,
           (unsigned long long)(names.forgotten - retired), (unsigned long long)no_place);
    ks_server_free(&server);
    return 0;
}
