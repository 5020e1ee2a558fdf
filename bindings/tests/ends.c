/* ends: both ends in one process, call by call; each answer is compared. Then an exchange with each allocation refused in
 * turn. Ends with status 0, or says where an answer differs. */
#include "both_ends.h"

static void the_servers_own_side(void) {
    static uint8_t body[65537];
    uint64_t version;
    ks_representation shown;
    begin();
    IS(ks_server_set(&server, now, P("t"), 0, body, 65537, &version), KS_SET_TOO_LARGE);
    IS(ks_server_update(&server, now, P("t"), 0, P("22.3 C"), &version), KS_DONE);
    IS(version, 1);
    IS(ks_server_update(&server, now, P("/t"), 0, P("22.3 C"), &version), KS_OK);
    IS(version, 1);
    IS(ks_server_update(&server, now, P("t"), 42, P("22.3 C"), &version), KS_DONE);
    IS(ks_server_set(&server, now, P("t"), 42, P("22.3 C"), &version), KS_OK);
    IS(version, 3);
    IS(ks_server_set(&server, now, P("a/b/c/d/e/f/g/h/i/j/k/l/m/n/o/p/q"), 0, P(""), &version), KS_BAD_PATH);
    static char longest[256];
    allocated = 0;
    IS(ks_server_get(&server, longest, 256, &shown, room, 5), KS_BAD_PATH);
    IS(ks_server_remove(&server, now, P("a/b/c/d/e/f/g/h/i/j/k/l/m/n/o//q")), KS_BAD_PATH);
    IS(allocated, 0);
    IS(ks_server_get(&server, longest, 255, &shown, room, 5), KS_OK);
    IS(ks_server_get(&server, P("/a/b/c/d/e/f/g/h/i/j/k/l/m/n/o/"), &shown, room, 5), KS_OK);
    IS(ks_server_get(&server, P("/t"), &shown, room, 5), KS_SMALL_ROOM);
    IS(shown.body_len, 6);
    IS(ks_server_get(&server, P("/t"), &shown, room, 6), KS_DONE);
    IS(memcmp(room, "22.3 C", 6), 0);
    IS(shown.format, 42);
    IS(ks_server_get(&server, P("none"), &shown, room, 6), KS_OK);
    for (int i = 0; i < 255; i++) {
        char p[3] = {'p', (char)('A' + i / 16), (char)('A' + i % 16)};
        IS(ks_server_set(&server, now, p, 3, -1, p, 3, &version), KS_OK);
    }
    IS(ks_server_set(&server, now, P("more"), 0, P(""), &version), KS_SET_TOO_MANY_PATHS);
    IS(ks_server_remove(&server, now, P("pAA")), KS_DONE);
    IS(ks_server_remove(&server, now, P("pAA")), KS_OK);
    for (int i = 0; i < 16; i++) {
        char p[2] = {'d', (char)('A' + i)};
        IS(ks_server_set_delay(&server, p, 2, 5000), KS_OK);
    }
    IS(ks_server_set_delay(&server, P("pC"), 1), KS_DELAY_FULL);
    for (int i = 0; i < 16; i++) {
        char p[2] = {'q', (char)('A' + i)};
        IS(ks_server_set_plain(&server, p, 2), KS_OK);
    }
    IS(ks_server_set_plain(&server, P("qB")), KS_OK);
    IS(ks_server_set_plain(&server, P("pC")), KS_PLAIN_FULL);
    end();
}

static void each_call_of_a_client(void) {
    static uint8_t body[65537];
    uint64_t id, at;
    ks_report r;
    for (size_t i = 0; i < sizeof body; i++) body[i] = (uint8_t)(i * 7);
    begin();
    ks_request put = {.format = 42, .accept = -1, .method = KS_PUT}, get = {-1, -1, KS_GET, false};
    IS(ks_client_due(&client, &at), KS_OK);
    IS(ks_client_call(&client, now, &put, P("big"), body, 65537, NONE, NONE, &id), KS_CALL_BODY_TOO_LARGE);
    IS(ks_client_call(&client, now, &put, P("big"), body, 65536, NONE, NONE, &id), KS_OK);
    IS(ks_client_due(&client, &at), KS_DONE);
    IS(at, 0);
    r = await();
    IS(r.kind, KS_SUCCESS);
    IS(r.code, 0x41);
    IS(r.id, id);
    IS(ks_client_call(&client, now, &get, P("big"), P(""), NONE, NONE, &id), KS_OK);
    for (int i = 0; i < 10; i++) turn();
    IS(ks_client_next_report(&client, &r, room, 65535), KS_SMALL_ROOM);
    IS(r.body_len, 65536);
    IS(ks_client_next_report(&client, &r, room, 65536), KS_DONE);
    IS(r.kind, KS_BODY);
    IS(r.format, 42);
    IS(memcmp(room, body, 65536), 0);
    IS(r.tag_len, 8);
    ks_tag tag = {r.tag_len, {0}};
    memcpy(tag.bytes, r.tag, 8);
    IS(ks_client_call(&client, now, &get, P("big"), P(""), &tag, 1, NONE, &id), KS_OK);
    r = await();
    IS(r.kind, KS_VALID);
    IS(memcmp(r.tag, tag.bytes, 8), 0);
    get.accept = 41;
    IS(ks_client_call(&client, now, &get, P("big"), P(""), NONE, NONE, &id), KS_OK);
    IS(await().code, 0x86);
    get.accept = -1;
    tag.bytes[7]++;
    IS(ks_client_call(&client, now, &put, P("big"), P("x"), NONE, &tag, 1, &id), KS_OK);
    r = await();
    IS(r.kind, KS_FAILED);
    IS(r.code, 0x8c);
    ks_request post = {-1, -1, KS_POST, false}, del = {-1, -1, KS_DELETE, false}, bad = {-1, -1, 5, false};
    IS(ks_client_call(&client, now, &del, P("big"), P(""), NONE, NONE, &id), KS_OK);
    IS(await().code, 0x42);
    IS(ks_client_call(&client, now, &post, P("big"), P("!"), NONE, NONE, &id), KS_OK);
    r = await();
    IS(ks_client_call(&client, now, &bad, P("t"), P(""), NONE, NONE, &id), KS_BAD_ARGUMENT);
    tag.len = 9;
    IS(ks_client_call(&client, now, &get, P("t"), P(""), &tag, 1, NONE, &id), KS_BAD_ARGUMENT);
    tag.len = 0;
    IS(ks_client_call(&client, now, &get, P("t"), P(""), &tag, 1, NONE, &id), KS_BAD_ARGUMENT);
    ks_tag five[5] = {{1, {1}}, {1, {2}}, {1, {3}}, {1, {4}}, {1, {5}}};
    IS(ks_client_call(&client, now, &get, P("t"), P(""), five, 5, NONE, &id), KS_BAD_ARGUMENT);
    IS(ks_client_call(&client, now, &get, P("aaaaaaaaaaaaaaaaaaaaaaaaaaaaaaaaaaaaaaaaaaaaaaaaaaaaaaaaaaaaaaaaaaaaaaaaaaaaaaaaaaaaa"
                      "aaaaaaaaaaaaaaaaaaaaaaaaaaaaaaaaaaaaaaaaaaaaaaaaa"), P(""), NONE, NONE, &id), KS_CALL_BAD_PATH);
    IS(ks_client_next_out(&client, &(ks_address){{0}, 0}, datagram, KS_DATAGRAM_ROOM - 1, &(size_t){0}), KS_SMALL_ROOM);
    for (int i = 0; i < 8; i++) IS(ks_client_call(&client, now, &get, P("o"), P(""), NONE, NONE, &id), KS_OK);
    IS(ks_client_call(&client, now, &get, P("o"), P(""), NONE, NONE, &id), KS_CALL_QUEUE_FULL);
    for (int i = 0; i < 8; i++) IS(await().code, 0x84);
    end();
}

static void observation(void) {
    uint64_t id, version;
    ks_report r;
    begin();
    IS(ks_server_set(&server, now, P("o"), 0, P("one"), &version), KS_OK);
    IS(ks_client_observe(&client, now, P("o"), &id), KS_OK);
    r = await();
    IS(r.kind, KS_VALUE);
    IS(r.id, id);
    IS(r.body_len, 3);
    uint32_t first = r.sequence;
    IS(ks_server_update(&server, now, P("o"), 0, P("three"), &version), KS_DONE);
    r = await();
    IS(r.kind, KS_VALUE);
    IS(memcmp(room, "three", 5), 0);
    IS(r.sequence > first, 1);
    /* An update that changes nothing notifies nobody. */
    IS(ks_server_update(&server, now, P("o"), 0, P("three"), &version), KS_OK);
    for (int i = 0; i < 100; i++, now += 50) turn();
    IS(ks_client_next_report(&client, &r, room, sizeof room), KS_OK);
    IS(ks_client_cancel(&client, now, 999), KS_CANCEL_UNKNOWN);
    IS(ks_client_cancel(&client, now, id), KS_OK);
    IS(await().kind, KS_CANCELLED);
    for (int i = 0; i < 16; i++) {
        IS(ks_client_observe(&client, now, P("o"), &id), KS_OK);
        IS(await().kind, KS_VALUE);
    }
    IS(ks_client_observe(&client, now, P("o"), &version), KS_CALL_WATCHES_FULL);
    IS(ks_client_forget(&client, id), KS_DONE);
    IS(ks_client_forget(&client, id), KS_OK);
    end();
}

/* A lamp at a path with a delay: each datagram of the exchange comes three times, and it is switched once. */
static void lamp(void) {
    uint64_t id;
    ks_address to;
    size_t len;
    ks_report r;
    ks_request put = {.format = 0, .accept = -1, .method = KS_PUT};
    begin();
    switched = 0;
    IS(ks_server_set_delay(&server, P("lamp"), 500), KS_OK);
    IS(ks_client_call(&client, now, &put, P("lamp"), P("on"), NONE, NONE, &id), KS_OK);
    for (int i = 0; i < 100; i++, now += 100) {
        while (ks_client_tick(&client, now, word()) == KS_DONE) {}
        while (ks_client_next_out(&client, &to, datagram, sizeof datagram, &len) == KS_DONE) {
            for (int n = 0; n < 3; n++) {
                IS(ks_server_feed(&server, now, &here, datagram, len, word()), KS_OK);
                ask_applied();
            }
        }
        while (ks_server_tick(&server, now, word()) == KS_DONE) ask_applied();
        while (ks_server_next_out(&server, &to, datagram, sizeof datagram, &len) == KS_DONE)
            for (int n = 0; n < 3; n++) IS(ks_client_feed(&client, now, &there, datagram, len, word()), KS_OK);
    }
    IS(switched, 1);
    IS(ks_client_next_report(&client, &r, room, sizeof room), KS_DONE);
    IS(r.kind, KS_SUCCESS);
    end();
}

static void a_look_at_a_datagram(void) {
    ks_message shown;
    static const char get[] = "\x42\x01\x7d\x34\xab\xcd\xb5" "floor" "\x01" "2";
    IS(ks_peek(get, sizeof get - 1, &shown, path_room, sizeof path_room), KS_OK);
    IS(shown.kind, 0);
    IS(shown.code, KS_GET);
    IS(shown.id, 0x7d34);
    IS(shown.token_len, 2);
    IS(shown.token[1], 0xcd);
    IS(shown.path_len, 8);
    IS(memcmp(path_room, "/floor/2", 8), 0);
    IS(shown.payload_len, 0);
    IS(ks_peek(get, sizeof get - 1, &shown, path_room, 7), KS_SMALL_ROOM);
    IS(ks_peek(get, 3, &shown, path_room, 1), KS_FAULT_SHORT);
    IS(shown.fault_at, 3);
    IS(shown.kind, KS_TYPE_HIDDEN);
    IS(ks_peek(get, 9, &shown, path_room, 1), KS_FAULT_OPTION_CUT);
    IS(shown.kind, 0);
    IS(shown.id, 0x7d34);
}

/* A PUT and a GET of three blocks, with the n-th allocation refused: how many allocations there were. */
static long exchange(long n) {
    uint8_t body[2500];
    uint64_t id;
    int tries = 0;
    memset(body, 'x', sizeof body);
    begin();
    allocated = 0;
    refuse_at = n;
    ks_request put = {0, -1, KS_PUT, false}, get = {-1, -1, KS_GET, false};
    while (seen(ks_client_call(&client, now, &put, P("a"), body, sizeof body, NONE, NONE, &id)) != KS_OK) IS(tries++ < 2, 1);
    IS(await().kind, KS_SUCCESS);
    while (seen(ks_client_call(&client, now, &get, P("a"), P(""), NONE, NONE, &id)) != KS_OK) IS(tries++ < 2, 1);
    ks_report r = await();
    IS(r.kind, KS_BODY);
    IS(r.body_len, sizeof body);
    IS(memcmp(room, body, sizeof body), 0);
    refuse_at = -1;
    end();
    return allocated;
}

/* Which answers are refusals, and what each says. */
static void answers(void) {
    static const int32_t refuse[] = {KS_NOT_LIVE, KS_BAD_CHANGES, KS_SET_TOO_LARGE, KS_CALL_CALLS_SPENT, KS_DELAY_FULL};
    IS(ks_refused(KS_OK), 0);
    IS(ks_refused(KS_DONE), 0);
    for (size_t i = 0; i < sizeof refuse / sizeof refuse[0]; i++) IS(ks_refused(refuse[i]), 1);
    IS(strcmp(ks_answer_text(KS_NO_MEMORY), "out of memory"), 0);
    IS(strcmp(ks_answer_text(KS_PLAIN_FULL), "16 other paths are plain"), 0);
    IS(strcmp(ks_answer_text(7), "no answer of this library"), 0);
}

int main(void) {
    answers();
    the_servers_own_side();
    each_call_of_a_client();
    observation();
    lamp();
    a_look_at_a_datagram();
    long count = exchange(-1);
    no_memory = 0;
    for (long n = 1; n <= count; n++) exchange(n);
    IS(no_memory > 0, 1);
    printf("each answer as it should be; %ld allocations, each refused once, %ld calls answered KS_NO_MEMORY\n", count, no_memory);
    return 0;
}
