/* loads: how much an end has, row by row; a peer that is forgotten; what a datagram would be against what its feed then did, for random datagrams and
 * changed ones at each end; and the text of ks_stats.h. Ends with status 0, or says what differs. */
#include "both_ends.h"
#include "ks_stats.h"

#define TRIES 100000
#define B(...) (const uint8_t[]){__VA_ARGS__}, sizeof((const uint8_t[]){__VA_ARGS__})

static ks_end_load of_server(uint64_t at) {
    ks_end_load load = {0};
    load.size = sizeof load;
    IS(ks_server_load(&server, at, &load), KS_OK);
    IS(load.size, sizeof load);
    return load;
}

static ks_end_load of_client(uint64_t at) {
    ks_end_load load = {0};
    load.size = sizeof load;
    IS(ks_client_load(&client, at, &load), KS_OK);
    return load;
}

/* ---- Rows ---- */

static void sizes(void) {
    ks_end_load load = {0};
    ks_server empty = {{0}};
    begin();
    IS(ks_server_load(&server, 0, &load), KS_BAD_SIZE);
    load.size = sizeof load + 8;
    IS(ks_server_load(&server, 0, &load), KS_BAD_SIZE);
    IS(ks_client_load(&client, 0, &load), KS_BAD_SIZE);
    IS(load.size, sizeof load + 8);
    load.size = sizeof load;
    IS(ks_server_load(&empty, 0, &load), KS_NOT_LIVE);
    IS(ks_server_would(&empty, 0, &here, "", 0), KS_NOT_LIVE);
    IS(load.remembered_most, 0);
    allocated = 0;
    IS(ks_server_load(&server, 0, &load), KS_OK);
    IS(ks_client_load(&client, 0, &load), KS_OK);
    IS(ks_server_would(&server, 0, &here, B(0x40, 1, 0, 1)), KS_WOULD_TAKE);
    IS(allocated, 0);
    end();
}

static void fed(const uint8_t *bytes, size_t len) { IS(ks_server_feed(&server, now, &here, bytes, len, 0), KS_OK); }

static void a_server(void) {
    ks_address to;
    ks_ended ended;
    uint64_t version;
    size_t len;
    begin();
    IS(of_server(0).ids_left, 65536);
    IS(of_server(0).changes_left, 4194303);
    IS(of_server(0).remembered_most, 4096);
    IS(of_server(0).waiting, 0);
    IS(ks_server_set(&server, 0, P("t"), 0, P("hi"), &version), KS_OK);
    IS(ks_server_set(&server, 0, P("u"), 0, P("ho"), &version), KS_OK);
    IS(ks_server_set_delay(&server, P("u"), 1000), KS_OK);
    IS(ks_server_set_plain(&server, P("v")), KS_OK);
    fed(B(0x41, 1, 0, 1, 9, 0x60, 0x51, 't'));
    fed(B(0x41, 1, 0, 2, 8, 0xb1, 'u'));
    fed(B(0x41, 3, 0, 3, 7, 0xb1, 'w', 0xd1, 3, 8, 0xff, 1, 2, 3, 4, 5, 6, 7, 8, 9, 10, 11, 12, 13, 14, 15, 16));
    ks_end_load load = of_server(0);
    IS(load.paths, 2);
    IS(load.delays, 1);
    IS(load.plains, 1);
    IS(load.changes_left, 4194301);
    IS(load.observers, 1);
    IS(load.deferred, 1);
    IS(load.partial, 1);
    IS(load.remembered, 3);
    IS(load.queued, 3);
    IS(ks_server_knows(&server, 0, &here), KS_DONE);
    IS(ks_server_knows(&server, 0, &there), KS_OK);
    while (ks_server_next_out(&server, &to, datagram, sizeof datagram, &len) == KS_DONE) {}
    IS(of_server(0).queued, 0);
    IS(of_server(247000).remembered, 3);
    IS(of_server(247001).remembered, 0);
    IS(of_server(256000).changes_left, 4194303);
    /* A notification that is rejected. */
    IS(ks_server_ended(&server, &ended), KS_OK);
    IS(ks_server_set(&server, 0, P("t"), 0, P("ha"), &version), KS_OK);
    IS(ks_server_tick(&server, 0, 0), KS_DONE);
    IS(ks_server_next_out(&server, &to, datagram, sizeof datagram, &len), KS_DONE);
    IS(of_server(0).outstanding, 1);
    IS(of_server(0).ids_left, 65535);
    fed(B(0x70, 0, datagram[2], datagram[3]));
    IS(ks_server_ended(&server, &ended), KS_DONE);
    IS(ended.to.port, here.port);
    IS(ended.observe, true);
    IS(ended.token_len, 1);
    IS(ended.token[0], 9);
    IS(of_server(0).outstanding, 0);
    IS(of_server(0).observers, 0);
    IS(ks_server_tick(&server, 1, 0), KS_OK);
    IS(ks_server_ended(&server, &ended), KS_OK);
    end();
}

/* An observation of /t, a request that waits for the delay of /u, and the first block of an upload to /w. */
static void has_some_of_each(const ks_address *peer) {
    IS(ks_server_feed(&server, now, peer, B(0x41, 1, 0, 1, 9, 0x60, 0x51, 't'), 0), KS_OK);
    IS(ks_server_feed(&server, now, peer, B(0x41, 1, 0, 2, 8, 0xb1, 'u'), 0), KS_OK);
    IS(ks_server_feed(&server, now, peer, B(0x41, 3, 0, 3, 7, 0xb1, 'w', 0xd1, 3, 8, 0xff, 1, 2, 3, 4, 5, 6, 7, 8, 9, 10,
                                            11, 12, 13, 14, 15, 16), 0), KS_OK);
}

static void take_all_out(uint64_t *out, const ks_address *peer) {
    ks_address to;
    size_t len;
    for (*out = 0; ks_server_next_out(&server, &to, datagram, sizeof datagram, &len) == KS_DONE; *out += 1)
        if (peer != NULL) IS(to.port, peer->port);
}

/* So many peers have each of these at the server; seven messages are remembered. */
static void has_of_each(uint64_t peers) {
    ks_end_load load = of_server(0);
    IS(load.observers, peers);
    IS(load.deferred, peers);
    IS(load.partial, peers);
    IS(load.outstanding, peers);
    IS(load.remembered, 7);
    IS(load.queued, 0);
}

/* A peer that is forgotten: what is of it goes, and takes no memory. What is of another stays, and what tells repeats. */
static void a_forgotten_peer(void) {
    static const uint8_t put[] = {0x41, 3, 0, 4, 6, 0xb1, 'x', 0xff, 'y'};
    ks_server empty = {{0}};
    ks_representation shown;
    ks_ended ended;
    uint64_t version, out;
    begin();
    IS(ks_server_forget(&empty, &here), KS_NOT_LIVE);
    IS(ks_server_set_delay(&server, P("u"), 1000), KS_OK);
    IS(ks_server_set(&server, 0, P("t"), 0, P("hi"), &version), KS_OK);
    has_some_of_each(&here);
    has_some_of_each(&there);
    fed(put, sizeof put);
    IS(ks_server_get(&server, P("x"), &shown, room, sizeof room), KS_DONE);
    take_all_out(&out, NULL);
    IS(out, 7);
    IS(ks_server_set(&server, 0, P("t"), 0, P("ha"), &version), KS_OK);
    while (ks_server_tick(&server, 0, 0) == KS_DONE) {}
    take_all_out(&out, NULL);
    IS(out, 2);
    has_of_each(2);
    allocated = 0;
    IS(ks_server_forget(&server, &here), KS_DONE);
    IS(allocated, 0);
    IS(ks_server_ended(&server, &ended), KS_DONE);
    IS(ended.to.port, here.port);
    IS(ended.observe, true);
    has_of_each(1);
    IS(ks_server_knows(&server, 0, &here), KS_OK);
    IS(ks_server_knows(&server, 0, &there), KS_DONE);
    IS(ks_server_forget(&server, &here), KS_OK);
    IS(ks_server_ended(&server, &ended), KS_OK);
    /* A copy of a request that was served has its stored reply, and is not served again. */
    IS(ks_server_would(&server, 0, &here, put, sizeof put), KS_WOULD_REPEAT);
    fed(put, sizeof put);
    take_all_out(&out, &here);
    IS(out, 1);
    IS(datagram[1], 0x41);
    version = shown.version;
    IS(ks_server_get(&server, P("x"), &shown, room, sizeof room), KS_DONE);
    IS(shown.version, version);
    /* What waits to be taken stays, and is of the peer until then. */
    fed(B(0x41, 1, 0, 5, 5, 0xb1, 't'));
    IS(ks_server_forget(&server, &here), KS_DONE);
    IS(ks_server_knows(&server, 0, &here), KS_DONE);
    take_all_out(&out, &here);
    IS(out, 1);
    IS(ks_server_knows(&server, 0, &here), KS_OK);
    /* All that goes out from now on goes to the other peer: copies, the response that waited, what changed. */
    uint64_t sent = 0;
    for (; now < 200000; now += 500, sent += out) {
        IS(ks_server_set(&server, now, P("t"), 0, P("he"), &version), KS_OK);
        while (ks_server_tick(&server, now, 0) == KS_DONE) {}
        take_all_out(&out, &there);
    }
    IS(sent > 1, true);
    IS(of_server(now).deferred, 0);
    end();
}

static void a_client(void) {
    ks_address to;
    uint64_t id;
    size_t len;
    begin();
    IS(of_client(0).ids_left, 65536);
    IS(of_client(0).changes_left, 0);
    IS(ks_client_observe(&client, 0, P("t"), &id), KS_OK);
    IS(ks_client_observe(&client, 0, P("u"), &id), KS_OK);
    IS(of_client(0).waiting, 2);
    IS(ks_client_tick(&client, 0, 0), KS_DONE);
    IS(of_client(0).waiting, 1);
    IS(of_client(0).outstanding, 1);
    IS(of_client(0).queued, 1);
    IS(ks_client_next_out(&client, &to, datagram, sizeof datagram, &len), KS_DONE);
    datagram[0] |= 0x20;
    datagram[1] = 0x45;
    datagram[12] = 0x60;
    datagram[13] = 0xff;
    datagram[14] = 'a';
    IS(ks_client_would(&client, 0, &there, datagram, 15), KS_WOULD_TAKE);
    IS(ks_client_feed(&client, 0, &there, datagram, 15, 0), KS_OK);
    IS(of_client(0).observations, 1);
    IS(of_client(0).reports, 1);
    IS(of_client(0).outstanding, 0);
    end();
}

/* ---- What it would be, and what it was ---- */

static uint64_t came[2][KS_STATS_WOULDS];

/* What is out at an end: how many datagrams, and whether the first is a bare Reset. */
static int taken_out(bool at_server, bool *resets) {
    ks_address to;
    size_t len;
    int out = 0;
    while ((at_server ? ks_server_next_out(&server, &to, datagram, sizeof datagram, &len)
                      : ks_client_next_out(&client, &to, datagram, sizeof datagram, &len)) == KS_DONE)
        if (out++ == 0) *resets = len == 4 && datagram[0] == 0x70 && datagram[1] == 0;
    return out;
}

static bool is_same(const ks_end_load *a, const ks_end_load *b) { return memcmp(a, b, sizeof *a) == 0; }

static void feed_foretold(bool at_server, const ks_address *from, const uint8_t *bytes, size_t len) {
    uint8_t kept[KS_DATAGRAM_ROOM];
    bool resets = false;
    memcpy(kept, bytes, len);
    ks_end_load before = at_server ? of_server(now) : of_client(now);
    int32_t would = at_server ? ks_server_would(&server, now, from, kept, len) : ks_client_would(&client, now, from, kept, len);
    ks_end_load asked = at_server ? of_server(now) : of_client(now);
    IS(is_same(&before, &asked), true);
    IS(at_server ? ks_server_feed(&server, now, from, kept, len, word()) : ks_client_feed(&client, now, from, kept, len, word()),
       KS_OK);
    int out = taken_out(at_server, &resets);
    ks_end_load after = at_server ? of_server(now) : of_client(now);
    came[at_server][would - KS_WOULD_IGNORE]++;
    switch (would) {
    case KS_WOULD_NO_PLACE:
        IS(before.remembered, before.remembered_most);
        /* fall through */
    case KS_WOULD_IGNORE:
    case KS_WOULD_NO_ID:
        IS(out, 0);
        IS(is_same(&before, &after), true);
        break;
    case KS_WOULD_REJECT:
        IS(out, 1);
        IS(resets, true);
        IS(is_same(&before, &after), true);
        break;
    case KS_WOULD_REPEAT:
        IS(out <= 1, true);
        IS(is_same(&before, &after), true);
        break;
    case KS_WOULD_TAKE:
        /* A response in an acknowledgement is handed up, and not remembered. */
        IS(after.remembered, before.remembered + ((kept[0] >> 4 & 3) < 2));
        break;
    case KS_WOULD_ACKNOWLEDGE:
        IS(out, 0);
        IS(after.outstanding + 1, before.outstanding);
        break;
    case KS_WOULD_RESET:
        IS(out, 0);
        IS(after.outstanding == before.outstanding || after.outstanding + 1 == before.outstanding, true);
        IS(after.remembered, before.remembered);
        break;
    default: IS(would, KS_WOULD_IGNORE);
    }
}

/* A datagram of few Message IDs and tokens, so that some are of what is outstanding; now and then with a byte changed. */
static size_t drawn(uint8_t *bytes) {
    static const uint8_t codes[] = {0, 1, 1, 2, 3, 0x45, 0x45, 0x20};
    uint64_t by = word();
    size_t len = 0;
    bytes[len++] = (uint8_t)(0x40 | (by & 3) << 4);
    bytes[len++] = codes[by >> 2 & 7];
    bytes[len++] = 0;
    bytes[len++] = (uint8_t)(by >> 8 & 31);
    if (bytes[1] != 0) {
        bytes[0] |= 1;
        bytes[len++] = (uint8_t)(by >> 16 & 3);
        if ((by >> 20 & 7) == 0) bytes[len++] = 0x60, bytes[len++] = 0x51;
        else bytes[len++] = 0xb1;
        bytes[len++] = (uint8_t)('t' + (by >> 24 & 1));
    }
    if ((by >> 32 & 15) == 0) bytes[by >> 36 & 3] ^= (uint8_t)(1 << (by >> 40 & 7));
    return len;
}

static void random_ones(bool at_server) {
    ks_config config = {0};
    uint64_t version, id;
    config.size = sizeof config;
    config.remembered = at_server ? 48 : 8;
    begin_with(&config, &config);
    for (int i = 0; i < TRIES; i++, now += word() % 4000) {
        uint8_t bytes[16];
        bool resets;
        ks_address from = {{10, 0, 0, 1}, (uint16_t)(1 + word() % 3)};
        if (at_server) {
            if (word() % 4 == 0) ks_server_set(&server, now, P("t"), 0, P("x"), &version);
            while (ks_server_tick(&server, now, word()) == KS_DONE) {}
        } else {
            ks_report report;
            from = there;
            if (word() % 4 == 0) ks_client_observe(&client, now, P("t"), &id);
            while (ks_client_tick(&client, now, word()) == KS_DONE) {}
            while (ks_client_next_report(&client, &report, room, sizeof room) == KS_DONE) {}
        }
        taken_out(at_server, &resets);
        size_t len = drawn(bytes);
        /* A quarter has the Message ID of what went out last. */
        if (word() % 4 == 0) bytes[2] = datagram[2], bytes[3] = datagram[3];
        feed_foretold(at_server, &from, bytes, len);
    }
    end();
}

/* Where all Message IDs were given within 400 s, a Non-confirmable request is not served. */
static void without_ids(void) {
    ks_config config = {0};
    config.size = sizeof config;
    config.remembered = 1048576;
    begin_with(&config, &config);
    for (uint32_t i = 0; i < 65536 + 8; i++) {
        ks_address from = {{10, 0, (uint8_t)(i >> 16), 2}, 7};
        feed_foretold(true, &from, B(0x50, 1, (uint8_t)(i >> 8), (uint8_t)i, 0xb1, 't'));
    }
    IS(of_server(now).ids_left, 0);
    IS(of_server(400000).ids_left, 0);
    IS(of_server(400001).ids_left, 65536);
    end();
}

/* 5,000 new messages in a second, and 4,096 places. */
static void without_places(void) {
    int no_place = 0;
    begin();
    for (int i = 0; i < 5000; i++, now = (uint64_t)i / 5) {
        const uint8_t get[] = {0x40, 1, (uint8_t)(i >> 8), (uint8_t)i, 0xb1, 't'};
        no_place += ks_server_would(&server, now, &here, get, sizeof get) == KS_WOULD_NO_PLACE;
        feed_foretold(true, &here, get, sizeof get);
    }
    IS(no_place, 904);
    end();
}

/* ---- Text ---- */

static int count_of(const char *text, const char *of) {
    int count = 0;
    for (const char *at = text; (at = strstr(at, of)) != NULL; at++) count++;
    return count;
}

static void stats(void) {
    static char text[8192], cut[100];
    ks_stats_end ends[2] = {{.name = "a", .would = {0}}, {.name = "b", .would = {0}}};
    begin();
    ends[0].load = of_server(0);
    ends[1].load = of_client(0);
    ks_stats_count(&ends[0], KS_WOULD_TAKE);
    ks_stats_count(&ends[0], KS_WOULD_TAKE);
    ks_stats_count(&ends[1], KS_WOULD_RESET);
    ks_stats_count(&ends[1], KS_NOT_LIVE);
    size_t len = ks_stats_text(text, sizeof text, ends, 2);
    IS(len, strlen(text));
    IS(count_of(text, "# TYPE "), 16);
    IS(count_of(text, "\n"), 16 + 2 * 15 + 2 * 8);
    IS(count_of(text, "knifesilver_ids_left{end=\"a\"} 65536\n"), 1);
    IS(count_of(text, "knifesilver_changes_left{end=\"b\"} 0\n"), 1);
    IS(count_of(text, "knifesilver_remembered_most{end=\"b\"} 4096\n"), 1);
    IS(count_of(text, "knifesilver_datagrams_total{end=\"a\",would=\"take\"} 2\n"), 1);
    IS(count_of(text, "knifesilver_datagrams_total{end=\"b\",would=\"reset\"} 1\n"), 1);
    IS(ks_stats_text(cut, sizeof cut, ends, 2), len);
    IS(strlen(cut), sizeof cut - 1);
    IS(memcmp(cut, text, sizeof cut - 1), 0);
    end();
}

int main(void) {
    sizes();
    a_server();
    a_forgotten_peer();
    a_client();
    random_ones(true);
    random_ones(false);
    without_ids();
    without_places();
    stats();
    for (int w = 0; w < KS_STATS_WOULDS; w++) {
        IS(came[1][w] != 0, true);
        /* (a client is asked nothing that it would answer in a message with a new ID) */
        IS(came[0][w] != 0 || w + KS_WOULD_IGNORE == KS_WOULD_NO_ID, true);
    }
    printf("loads: %d datagrams at each end were what they would be\n", TRIES);
    return 0;
}
