/* A server whose answers the application computes: its rows, byte for byte, and calls in any order. Says how many calls were
 * answered how; status 1 at the first thing that is not as it should be. */
#include "knifesilver_exchange.h"
#include <stdio.h>
#include <stdlib.h>

#define WANT(holds) \
    do { \
        if (!(holds)) return fprintf(stderr, "%s:%d: not so: %s\n", __FILE__, __LINE__, #holds), 1; \
    } while (0)

static const ks_address client = {{127, 0, 0, 1}, 40001};
static const ks_seed seed = {0, 1, 2};

static bool sends(ks_answerer *server, const void *bytes, size_t len) {
    uint8_t room[KS_DATAGRAM_ROOM];
    ks_address to;
    size_t n;
    return ks_answerer_next_out(server, &to, room, sizeof room, &n) == KS_DONE && n == len && memcmp(room, bytes, n) == 0
        && to.port == client.port;
}

/* An answer goes out once, and a copy gets it again; what was answered, or not asked, is refused by name. */
static int answers(void) {
    static const uint8_t get[] = {0x40, 1, 0, 1}, other[] = {0x40, 1, 0, 2}, reply[] = {0x60, 0x45, 0, 1, 0xff, 'h', 'i'};
    ks_answerer server = {0};
    ks_request_told request, second;
    ks_draft draft;
    WANT(ks_answerer_feed(&server, 0, &client, get, sizeof get, &request) == KS_NOT_LIVE);
    WANT(ks_answerer_new(&server, 1048577, &seed) == KS_BAD_REMEMBERED);
    WANT(ks_answerer_new(&server, 0, &seed) == KS_OK);
    WANT(ks_answerer_feed(&server, 0, &client, get, sizeof get, &request) == KS_DONE);
    WANT(request.code == 1 && request.payload_len == 0 && request.asked.id == 1 && request.asked.kind == KS_CON);
    ks_draft_begin(&draft, 0x45);
    WANT(ks_draft_payload(&draft, "hi", 2) == KS_OK);
    WANT(ks_answerer_answer(&server, &request.asked, draft.bytes, 3) == KS_BAD_ARGUMENT);
    WANT(ks_answerer_answer(&server, &request.asked, draft.bytes, draft.len) == KS_OK);
    WANT(ks_answerer_answer(&server, &request.asked, draft.bytes, draft.len) == KS_ANSWER_GIVEN);
    WANT(ks_answerer_defer(&server, 0, &request.asked, 0) == KS_ANSWER_GIVEN);
    WANT(sends(&server, reply, sizeof reply));
    WANT(ks_answerer_feed(&server, 1, &client, get, sizeof get, &second) == KS_OK);
    WANT(sends(&server, reply, sizeof reply));
    WANT(ks_answerer_answer(&server, &request.asked, draft.bytes, draft.len) == KS_ANSWER_NOT_ASKED);
    WANT(ks_answerer_feed(&server, 1, &client, other, sizeof other, &second) == KS_DONE);
    WANT(ks_answerer_answer(&server, &request.asked, draft.bytes, draft.len) == KS_ANSWER_NOT_ASKED);
    ks_draft_begin(&draft, 1);
    WANT(ks_answerer_answer(&server, &second.asked, draft.bytes, draft.len) == KS_ANSWER_BAD_RESPONSE);
    ks_answerer_free(&server);
    ks_answerer_free(&server);
    return 0;
}

/* A deferred request is acknowledged, ready when its delay has passed, and answered once. */
static int deferrals(void) {
    static const uint8_t ack[] = {0x60, 0, 0, 7}, later[] = {0x41, 0x45, 0, 0, 9, 0xff, 'h', 'i'};
    static const uint8_t get[] = {0x41, 5, 0, 7, 9}, non[] = {0x50, 1, 0, 8};
    ks_answerer server = {0};
    ks_request_told request;
    ks_asked ready;
    ks_draft draft;
    uint64_t at;
    ks_draft_begin(&draft, 0x45);
    ks_draft_payload(&draft, "hi", 2);
    WANT(ks_answerer_new(&server, 0, &seed) == KS_OK);
    WANT(ks_answerer_feed(&server, 0, &client, non, sizeof non, &request) == KS_DONE);
    WANT(ks_answerer_defer(&server, 0, &request.asked, 0) == KS_ANSWER_NOT_CONFIRMABLE);
    WANT(ks_answerer_feed(&server, 0, &client, get, sizeof get, &request) == KS_DONE && request.code == 5);
    WANT(ks_answerer_defer(&server, 0, &request.asked, 1000) == KS_OK);
    WANT(sends(&server, ack, sizeof ack));
    WANT(ks_answerer_due(&server, 0, &at) == KS_DONE && at == 1000);
    WANT(ks_answerer_tick(&server, 999, &ready) == KS_OK);
    WANT(ks_answerer_tick(&server, 1000, &ready) == KS_READY && memcmp(&ready.token, &request.asked.token, 1) == 0);
    WANT(ks_answerer_respond(&server, &ready, draft.bytes, draft.len, 0) == KS_OK);
    WANT(ks_answerer_respond(&server, &ready, draft.bytes, draft.len, 0) == KS_ANSWER_GIVEN);
    WANT(sends(&server, later, sizeof later));
    ready.id = 8;
    WANT(ks_answerer_respond(&server, &ready, draft.bytes, draft.len, 0) == KS_ANSWER_NOT_READY);
    ks_answerer_free(&server);
    return 0;
}

/* Whether just this ended: what had this token of one byte. */
static bool ended(ks_answerer *server, uint8_t token, bool observe) {
    ks_address to = {{0}, 0};
    ks_token told = {0};
    bool observed = !observe;
    return ks_answerer_ended(server, &to, &told, &observed) == KS_DONE && memcmp(to.ip, client.ip, 4) == 0
        && to.port == client.port && told.len == 1 && told.bytes[0] == token && observed == observe;
}

static bool nothing_ended(ks_answerer *server) {
    ks_address to;
    ks_token told;
    bool observe = false;
    return ks_answerer_ended(server, &to, &told, &observe) == KS_OK;
}

/* The Message ID of the datagram that goes out next, which is of this type (RFC 7252, section 3). */
static int32_t id_out(ks_answerer *server, uint8_t type) {
    uint8_t room[KS_DATAGRAM_ROOM];
    ks_address to;
    size_t n;
    if (ks_answerer_next_out(server, &to, room, sizeof room, &n) != KS_DONE || (room[0] >> 4 & 3) != type) return -1;
    return room[2] << 8 | room[3];
}

static int32_t reset(ks_answerer *server, uint64_t now, int32_t id) {
    const uint8_t rst[] = {0x70, 0, (uint8_t)(id >> 8), (uint8_t)id};
    ks_request_told request;
    return ks_answerer_feed(server, now, &client, rst, sizeof rst, &request);
}

/* A notification that is rejected or never acknowledged, and a late answer: what ended is told until the next feed or tick. */
static int endings(void) {
    static const uint8_t con[] = {0x41, 1, 0, 7, 9};
    ks_answerer server = {0};
    ks_address from;
    ks_token token;
    ks_request_told request;
    ks_asked ready;
    ks_draft draft;
    bool observe = false;
    uint16_t id;
    int told = 0;
    WANT(ks_answerer_ended(&server, &from, &token, &observe) == KS_NOT_LIVE);
    ks_draft_begin(&draft, 0x45);
    ks_draft_uint(&draft, 6, 1);
    WANT(ks_answerer_new(&server, 0, &seed) == KS_OK && nothing_ended(&server));
    WANT(ks_answerer_notify(&server, 0, &client, "\x07", 1, draft.bytes, draft.len, 0, &id) == KS_OK);
    WANT(id_out(&server, KS_CON) == id && nothing_ended(&server));
    WANT(reset(&server, 10, id) == KS_OK && ended(&server, 7, true) && ended(&server, 7, true));
    WANT(ks_answerer_unmatched(&server, &from, &id) == KS_OK);
    WANT(ks_answerer_tick(&server, 11, &ready) == KS_OK && nothing_ended(&server));
    WANT(ks_answerer_notify(&server, 20, &client, "\x08", 1, draft.bytes, draft.len, 0, &id) == KS_OK);
    WANT(id_out(&server, KS_CON) == id);
    /* (MAX_TRANSMIT_WAIT is 93 s: RFC 7252, section 4.8.2) */
    for (uint64_t now = 20; now < 100000; now += 100)
        while (ks_answerer_tick(&server, now, &ready) == KS_DONE) told += ended(&server, 8, true);
    WANT(told == 1 && nothing_ended(&server));
    while (id_out(&server, KS_CON) >= 0) {}
    WANT(ks_answerer_feed(&server, 100000, &client, con, sizeof con, &request) == KS_DONE);
    WANT(ks_answerer_defer(&server, 100000, &request.asked, 0) == KS_OK && id_out(&server, KS_ACK) == 7);
    WANT(ks_answerer_tick(&server, 100000, &ready) == KS_READY);
    ks_draft_begin(&draft, 0x45);
    WANT(ks_answerer_respond(&server, &ready, draft.bytes, draft.len, 0) == KS_OK);
    WANT(reset(&server, 100001, id_out(&server, KS_CON)) == KS_OK && ended(&server, 9, false));
    ks_answerer_free(&server);
    return 0;
}

/* An answer in a Non-confirmable message is rejected: the Message ID of the Reset is told until the next feed. */
static int rejections(void) {
    static const uint8_t non[] = {0x51, 1, 0, 8, 7, 0x60}, ping[] = {0x40, 0, 0, 9};
    ks_answerer server = {0};
    ks_address from = {{0}, 0};
    ks_request_told request;
    ks_asked ready;
    ks_draft draft;
    uint16_t id = 0;
    WANT(ks_answerer_unmatched(&server, &from, &id) == KS_NOT_LIVE);
    ks_draft_begin(&draft, 0x45);
    ks_draft_uint(&draft, 6, 1);
    WANT(ks_answerer_new(&server, 0, &seed) == KS_OK);
    WANT(ks_answerer_feed(&server, 0, &client, non, sizeof non, &request) == KS_DONE);
    WANT(ks_answerer_answer(&server, &request.asked, draft.bytes, draft.len) == KS_OK);
    int32_t sent = id_out(&server, KS_NON);
    WANT(sent >= 0 && ks_answerer_unmatched(&server, &from, &id) == KS_OK);
    WANT(reset(&server, 10, sent) == KS_OK && nothing_ended(&server));
    WANT(ks_answerer_tick(&server, 11, &ready) == KS_OK);
    WANT(ks_answerer_unmatched(&server, &from, &id) == KS_DONE && id == sent);
    WANT(memcmp(from.ip, client.ip, 4) == 0 && from.port == client.port);
    WANT(ks_answerer_feed(&server, 12, &client, ping, sizeof ping, &request) == KS_OK);
    WANT(ks_answerer_unmatched(&server, &from, &id) == KS_OK);
    ks_answerer_free(&server);
    return 0;
}

static uint64_t drawn = 88172645463325252u;

static uint64_t draw(uint64_t most) {
    drawn ^= drawn << 13;
    drawn ^= drawn >> 7;
    drawn ^= drawn << 17;
    return drawn % most;
}

/* A notification in a Non-confirmable message: nothing is outstanding then, and its Reset is told by its Message ID. */
static int plain(void) {
    static const ks_address other = {{127, 0, 0, 2}, 7};
    ks_answerer server = {0};
    ks_address from = {{0}, 0};
    ks_draft draft, wrong;
    uint16_t id = 0, second = 0;
    uint64_t at;
    ks_draft_begin(&draft, 0x45);
    ks_draft_uint(&draft, 6, 1);
    ks_draft_begin(&wrong, 1);
    WANT(ks_answerer_notify_plain(&server, 0, &client, "\x07", 1, draft.bytes, draft.len, &id) == KS_NOT_LIVE);
    WANT(ks_answerer_new(&server, 0, &seed) == KS_OK);
    WANT(ks_answerer_notify_plain(&server, 0, &client, "123456789", 9, draft.bytes, draft.len, &id) == KS_BAD_ARGUMENT);
    WANT(ks_answerer_notify_plain(&server, 0, &client, "\x07", 1, draft.bytes, 3, &id) == KS_BAD_ARGUMENT);
    WANT(ks_answerer_notify_plain(&server, 0, &client, "\x07", 1, wrong.bytes, wrong.len, &id) == KS_ANSWER_BAD_RESPONSE);
    WANT(ks_answerer_notify_plain(&server, 0, &client, "\x07", 1, draft.bytes, draft.len, &id) == KS_OK);
    WANT(id_out(&server, KS_NON) == id && ks_answerer_due(&server, 0, &at) == KS_OK);
    WANT(ks_answerer_ready(&server, 0, &client) == KS_DONE);
    WANT(ks_answerer_notify_plain(&server, 0, &client, "\x07", 1, draft.bytes, draft.len, &second) == KS_OK && second != id);
    WANT(id_out(&server, KS_NON) == second);
    WANT(reset(&server, 10, id) == KS_OK && nothing_ended(&server));
    WANT(ks_answerer_unmatched(&server, &from, &second) == KS_DONE && second == id && from.port == client.port);
    /* (one is outstanding there, and none elsewhere) */
    WANT(ks_answerer_notify(&server, 20, &client, "\x07", 1, draft.bytes, draft.len, 0, &id) == KS_OK);
    WANT(ks_answerer_notify_plain(&server, 20, &client, "\x07", 1, draft.bytes, draft.len, &id) == KS_ANSWER_NOT_READY);
    WANT(ks_answerer_notify_plain(&server, 20, &other, "\x07", 1, draft.bytes, draft.len, &id) == KS_OK);
    ks_answerer_free(&server);
    return 0;
}

/* How many are deferred: one more by each deferral, one fewer by each late answer, at most 16. */
static int loads(void) {
    ks_answerer server = {0};
    ks_load load = {0};
    ks_request_told request;
    ks_asked ready;
    ks_draft draft;
    ks_draft_begin(&draft, 0x45);
    WANT(ks_answerer_load(&server, &load) == KS_NOT_LIVE);
    WANT(ks_answerer_new(&server, 100, &seed) == KS_OK && ks_answerer_load(&server, &load) == KS_OK);
    WANT(load.deferred == 0 && load.most_deferred == 16 && load.most_remembered == 100);
    for (uint8_t n = 0; n < 17; n++) {
        const uint8_t get[] = {0x40, 1, 0, n};
        const ks_address there = {{127, 0, 1, n}, 7};
        WANT(ks_answerer_feed(&server, 0, &there, get, sizeof get, &request) == KS_DONE);
        WANT(ks_answerer_defer(&server, 0, &request.asked, 0) == (n < 16 ? KS_OK : KS_ANSWER_DEFERRALS_FULL));
        WANT(ks_answerer_load(&server, &load) == KS_OK && load.deferred == (n < 16 ? n + 1u : 16u));
    }
    for (size_t n = 16; n > 0; n--) {
        WANT(ks_answerer_tick(&server, 1, &ready) == KS_READY);
        WANT(ks_answerer_load(&server, &load) == KS_OK && load.deferred == n);
        WANT(ks_answerer_respond(&server, &ready, draft.bytes, draft.len, 0) == KS_OK);
        WANT(ks_answerer_load(&server, &load) == KS_OK && load.deferred == n - 1 && load.most_remembered == 100);
    }
    ks_answerer_free(&server);
    return 0;
}

/* What a datagram that came to a server is to be answered by the message layer alone: the Reset of a Confirmable message that
 * is faulty behind its header or a ping (RFC 7252, sections 4.2 and 4.3), or nothing. */
static bool is_reset_due(const uint8_t *bytes, size_t len, int32_t fault, const ks_message *shown) {
    if (len < 4 || bytes[0] >> 6 != 1 || (bytes[0] >> 4 & 3) != KS_CON) return false;
    return fault != KS_OK || shown->code == 0 || shown->code >= 0x20;
}

/* Datagrams of any bytes, and requests of which some bytes are changed: each is answered as its faults say. What is a request
 * is handed up and answered; what is to be rejected gets the Reset of its Message ID; nothing else is sent. */
static int any_bytes(long datagrams, bool mutated) {
    ks_answerer server = {0};
    ks_draft draft;
    uint8_t path[2048], room[KS_DATAGRAM_ROOM];
    unsigned handed = 0, rejected = 0, silent = 0;
    ks_draft_begin(&draft, 0x45);
    WANT(ks_answerer_new(&server, 64, &seed) == KS_OK);
    for (long n = 0; n < datagrams; n++) {
        uint8_t bytes[64] = {0x41, KS_GET, (uint8_t)(n >> 8), (uint8_t)n, 7, 0xb6, 't', 'a', 'r', 'g', 'e', 't', 0xff, '2', '1'};
        size_t len = mutated ? 15 : draw(sizeof bytes), sent_len;
        ks_request_told request;
        ks_message shown = {0};
        ks_address to;
        for (size_t i = 0; !mutated && i < len; i++) bytes[i] = (uint8_t)draw(256);
        for (uint64_t i = draw(4); mutated && i > 0; i--) bytes[draw(len)] = (uint8_t)draw(256);
        if (!mutated && draw(2)) bytes[0] = (uint8_t)(0x40 | (bytes[0] & 0x33));
        /* (so far apart that no two are copies, and 64 are remembered: 247 s, RFC 7252, section 4.8.2) */
        const uint64_t now = (uint64_t)n * 300000;
        const int32_t fault = ks_peek(bytes, len, &shown, (char *)path, sizeof path);
        const int32_t answer = ks_answerer_feed(&server, now, &client, bytes, len, &request);
        const bool is_request = fault == KS_OK && shown.code > 0 && shown.code < 0x20
            && (bytes[0] >> 4 & 3) <= KS_NON;
        WANT(answer == (is_request ? KS_DONE : KS_OK));
        if (is_request) {
            WANT(request.code == shown.code && request.payload_len == shown.payload_len);
            WANT(ks_answerer_answer(&server, &request.asked, draft.bytes, draft.len) == KS_OK);
            handed++;
        }
        const int32_t out = ks_answerer_next_out(&server, &to, room, sizeof room, &sent_len);
        if (is_request) WANT(out == KS_DONE && room[1] == 0x45 && memcmp(room + 4, bytes + 4, bytes[0] & 15) == 0);
        else if (is_reset_due(bytes, len, fault, &shown)) {
            WANT(out == KS_DONE && sent_len == 4 && room[0] == 0x70 && room[1] == 0 && memcmp(room + 2, bytes + 2, 2) == 0);
            rejected++;
        } else if (out == KS_DONE) {
            /* (a response that nobody asked for, in a Non-confirmable message) */
            WANT(fault == KS_OK && shown.code >= 0x40 && (bytes[0] >> 4 & 3) == KS_NON && room[0] == 0x70);
        } else silent++;
        WANT(ks_answerer_next_out(&server, &to, room, sizeof room, &sent_len) == KS_OK);
    }
    ks_answerer_free(&server);
    printf("%ld datagrams %s: %u requests, %u rejected, %u answered by nothing\n", datagrams,
           mutated ? "with changed bytes" : "of any bytes", handed, rejected, silent);
    WANT(handed > 100 && rejected > 1000 && silent > 1000);
    return 0;
}

/* Calls in any order, with what was asked now, before, or never: each is answered by a number that the header has. */
static int any_order(long calls) {
    static const int32_t answers_of[] = {KS_OK, KS_DONE, KS_READY, KS_BAD_ARGUMENT, KS_ANSWER_NOT_ASKED, KS_ANSWER_GIVEN,
        KS_ANSWER_DEFERRALS_FULL, KS_ANSWER_NOT_READY, KS_ANSWER_NOT_CONFIRMABLE, KS_ANSWER_BAD_RESPONSE};
    enum { ANSWERS = sizeof answers_of / sizeof *answers_of };
    long counted[ANSWERS] = {0};
    ks_answerer server = {0};
    ks_asked asked[8] = {0};
    uint64_t now = 0;
    WANT(ks_answerer_new(&server, 0, &seed) == KS_OK);
    for (long n = 0; n < calls; n++) {
        uint8_t bytes[64], room[KS_DATAGRAM_ROOM];
        ks_request_told request = {0};
        ks_asked *one = &asked[draw(8)];
        ks_address to;
        ks_token token;
        ks_draft draft;
        ks_load load = {0};
        bool observe = false;
        uint16_t id;
        size_t len = draw(2) ? 4 : draw(sizeof bytes);
        int32_t answer = KS_OK;
        for (size_t i = 0; i < len; i++) bytes[i] = (uint8_t)draw(256);
        if (len == 4) bytes[0] = draw(4) ? 0x40 : 0x50, bytes[1] = (uint8_t)(1 + draw(7)), bytes[2] = 0;
        ks_draft_begin(&draft, draw(16) ? 0x45 : (uint8_t)draw(256));
        now += draw(50);
        switch (draw(12)) {
        case 0:
        case 1: answer = ks_answerer_feed(&server, now, &client, bytes, len, &request);
            if (answer == KS_DONE) *one = request.asked;
            break;
        case 2: answer = ks_answerer_answer(&server, one, draft.bytes, draft.len); break;
        case 3: answer = ks_answerer_defer(&server, now, one, draw(100)); break;
        case 4: answer = ks_answerer_tick(&server, now, one); break;
        case 5: answer = ks_answerer_respond(&server, one, draft.bytes, draft.len, draw(1000)); break;
        case 6: answer = ks_answerer_notify(&server, now, &client, bytes, draw(10), draft.bytes, draft.len, 0, &id); break;
        case 7: answer = ks_answerer_ended(&server, &to, &token, &observe); break;
        case 8: answer = ks_answerer_unmatched(&server, &to, &id); break;
        case 9: answer = ks_answerer_notify_plain(&server, now, &client, bytes, draw(10), draft.bytes, draft.len, &id); break;
        case 10: answer = ks_answerer_load(&server, &load);
            WANT(load.deferred <= load.most_deferred);
            break;
        default: while (ks_answerer_next_out(&server, &to, room, sizeof room, &len) == KS_DONE) {} break;
        }
        int i = 0;
        while (i < ANSWERS && answers_of[i] != answer) i++;
        WANT(i < ANSWERS);
        counted[i]++;
    }
    ks_answerer_free(&server);
    printf("%ld calls:", calls);
    for (int i = 0; i < ANSWERS; i++) printf(" %d %ld times%s", (int)answers_of[i], counted[i], i + 1 < ANSWERS ? "," : "\n");
    for (int i = 0; i < ANSWERS; i++) WANT(counted[i] > 0);
    return 0;
}

int main(void) {
    return answers() || deferrals() || endings() || rejections() || plain() || loads() || any_order(100000)
        || any_bytes(100000, false) || any_bytes(100000, true);
}
