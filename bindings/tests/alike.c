/* alike: so many random calls of a server, a client and a table of names, of which each answer, and all that is written,
 * goes into one number, which is told after each tenth of them. Two builds of the library that are alike tell the same
 * numbers.
 *
 *     alike [CALLS] [SEED] */
#include "knifesilver.h"
#include <stdio.h>
#include <stdlib.h>
#include <string.h>

#define MOST_BODY 3000
#define PATHS 9
#define BAD_PATHS 2
#define CHANGES_S 200           /* a call out of so many makes an end anew */
#define PEERS 40
#define MOST_PLACES 12

static ks_server server;
static ks_client client;
static ks_names names;
static const ks_address here = {{127, 0, 0, 1}, 40001}, there = {{127, 0, 0, 1}, 5683};
static uint64_t now, drawn, told = 0xcbf29ce484222325u;
static uint8_t room[65536], last[KS_DATAGRAM_ROOM];
static char path_room[KS_PATH_ROOM];
static size_t last_len;
static const char *const paths[PATHS + BAD_PATHS] = {"a", "b/c", "", "temperature", "d", "e/f/g", "x%2Fy", "lamp", "q",
                                                     "%", "%4"};

static uint64_t draw(void) {
    uint64_t z = drawn += 0x9e3779b97f4a7c15u;
    z = (z ^ z >> 30) * 0xbf58476d1ce4e5b9u;
    z = (z ^ z >> 27) * 0x94d049bb133111ebu;
    return z ^ z >> 31;
}

/* FNV-1a */
static void tell(const void *bytes, size_t len) {
    for (size_t i = 0; i < len; i++) told = (told ^ ((const uint8_t *)bytes)[i]) * 0x100000001b3u;
}

static void tell_number(uint64_t n) {
    uint8_t bytes[8];
    for (int i = 0; i < 8; i++) bytes[i] = (uint8_t)(n >> 8 * i);
    tell(bytes, sizeof bytes);
}

static int32_t answered(int32_t answer) {
    tell_number((uint32_t)answer);
    return answer;
}

static ks_seed draw_seed(void) {
    uint64_t a = draw(), b = draw(), c = draw();
    return (ks_seed){a, b, c};
}

static const char *draw_path(void) {
    size_t of = draw() % 20 == 0 ? PATHS + BAD_PATHS : PATHS;
    return paths[draw() % of];
}

static size_t draw_body(void) {
    size_t len = draw() % 3 == 0 ? draw() % MOST_BODY : draw() % 40;
    for (size_t i = 0; i < len; i++) room[i] = (uint8_t)draw();
    return len;
}

static void begin(void) {
    ks_config config = {.size = sizeof config};
    ks_seed of_server = draw_seed(), of_client = draw_seed(), of_names = draw_seed();
    uint32_t places = (uint32_t)(draw() % MOST_PLACES);
    if (draw() % 2) config.block_size = (uint32_t)(8u << draw() % 9);
    if (draw() % 4 == 0) config.remembered = (uint32_t)(draw() % 50);
    if (draw() % 8 == 0) config.body_limit = (uint32_t)(draw() % 2000000);
    if (draw() % 8 == 0) config.size = (uint32_t)(draw() % 30);
    answered(ks_server_new(&server, &config, &of_server));
    answered(ks_client_new(&client, &there, &config, &of_client));
    if (draw() % 10 == 0) ks_server_free(&server);
    if (draw() % 10 == 0) ks_client_free(&client);
    answered(ks_names_new(&names, places, draw() % 2, &of_names));
    if (draw() % 10 == 0) ks_names_free(&names);
}

static void ask_applied(void) {
    ks_applied done;
    if (answered(ks_server_applied(&server, &done, path_room, draw() % 4 ? sizeof path_room : draw() % 4)) != KS_DONE)
        return;
    tell_number(done.version);
    tell(path_room, done.path_len);
    tell(done.from.ip, 4);
    tell_number((uint64_t)done.from.port << 16 | (uint64_t)done.method << 8 | done.token_len);
    tell(done.token, done.token_len);
}

/* What is out comes at the other end, is lost, or comes twice. */
static void carry(void) {
    ks_address to;
    size_t len;
    while (answered(ks_client_next_out(&client, &to, last, sizeof last, &len)) == KS_DONE) {
        tell(last, last_len = len);
        for (uint64_t n = draw() % 4 ? 1 : draw() % 3; n > 0; n--) {
            answered(ks_server_feed(&server, now, &here, last, len, 0));
            ask_applied();
        }
    }
    while (answered(ks_server_next_out(&server, &to, last, sizeof last, &len)) == KS_DONE) {
        tell(last, last_len = len);
        tell_number(to.port);
        for (uint64_t n = draw() % 4 ? 1 : draw() % 3; n > 0; n--)
            answered(ks_client_feed(&client, now, &there, last, len, draw()));
    }
    answered(ks_server_next_out(&server, &to, last, draw() % 1200, &len));
}

static void take_reports(void) {
    ks_report r;
    for (int i = 0; i < 20; i++) {
        int32_t answer = answered(ks_client_next_report(&client, &r, room, draw() % 4 ? sizeof room : draw() % 100));
        if (answer != KS_DONE && answer != KS_SMALL_ROOM) return;
        tell_number(r.id);
        tell_number(r.body_len);
        tell_number((uint64_t)(uint32_t)r.format << 32 | r.sequence);
        tell_number((uint64_t)r.kind << 16 | (uint64_t)r.code << 8 | r.tag_len);
        tell(r.tag, r.tag_len);
        if (answer == KS_DONE) tell(room, r.body_len);
    }
}

static void damaged(void) {
    ks_message m;
    size_t len = draw() % 3 ? last_len : draw() % (last_len + 1), out;
    for (uint64_t n = draw() % 3; n > 0 && len > 0; n--) {
        uint8_t *at = &last[draw() % len];
        *at ^= (uint8_t)(1u << draw() % 8);
    }
    int32_t answer = answered(ks_peek(last, len, &m, path_room, draw() % 4 ? sizeof path_room : draw() % 10));
    if (answer != KS_SMALL_ROOM) {
        tell_number(m.fault_at);
        tell_number(m.payload_len);
        tell_number((uint64_t)m.id << 32 | (uint64_t)m.kind << 16 | (uint64_t)m.code << 8 | m.token_len);
        tell(m.token, m.token_len);
        tell(path_room, m.path_len);
    }
    uint8_t code = (uint8_t)draw();
    if (answered(ks_refuse(last, len, code, room, draw() % 20, &out)) == KS_DONE) tell(room, out);
    if (draw() % 2) answered(ks_server_refuse(&server, now, &here, last, len, 0));
    else if (draw() % 2) answered(ks_server_refuse_by(&server, now, &here, last, len, 0, (uint8_t)(draw() % 4 * 32 + 99)));
    else if (draw() % 2) answered(ks_server_feed(&server, now, &here, last, len, 0));
    else answered(ks_client_feed(&client, now, &there, last, len, draw()));
    ask_applied();
}

static void of_server(void) {
    const char *path = draw_path();
    size_t path_len = strlen(path), len = draw_body();
    uint64_t version = 7;
    ks_representation shown;
    switch (draw() % 7) {
    case 0:
        answered(ks_server_set(&server, now, path, path_len, (int32_t)(draw() % 3) - 1, room, len, &version));
        break;
    case 1: answered(ks_server_update(&server, now, path, path_len, 0, room, len, &version)); break;
    case 2: answered(ks_server_remove(&server, now, path, path_len)); break;
    case 3:
        if (answered(ks_server_get(&server, path, path_len, &shown, room, draw() % 2 ? sizeof room : draw() % 50))
            == KS_DONE) {
            tell_number(shown.version);
            tell(room, shown.body_len);
        }
        break;
    case 4: answered(ks_server_set_delay(&server, path, path_len, draw() % 3000)); break;
    case 5: answered(draw() % 9 ? KS_OK : ks_server_forget(&server, draw() % 2 ? &here : &there)); break;
    default: answered(draw() % 9 ? KS_OK : ks_server_set_plain(&server, path, path_len));
    }
    tell_number(version);
}

static void of_client(void) {
    /* (one after the other: in an initializer or a call the order is the compiler's) */
    ks_request what = {.accept = KS_NO_FORMAT};
    ks_tag tag = {0};
    what.format = (int32_t)(draw() % 3) - 1;
    what.method = (uint8_t)(draw() % 6);
    what.if_none_match = draw() % 8 == 0;
    tag.len = (uint8_t)(draw() % 10);
    tag.bytes[7] = (uint8_t)(draw() % 9);
    const char *path = draw_path();
    size_t len = draw_body(), etags = draw() % 8 == 0, matches = draw() % 8 == 0;
    uint64_t id = 0;
    switch (draw() % 5) {
    case 0: answered(ks_client_observe(&client, now, path, strlen(path), &id)); break;
    case 1: answered(ks_client_cancel(&client, now, draw() % 20)); break;
    case 2: answered(ks_client_forget(&client, draw() % 20)); break;
    default:
        answered(ks_client_call(&client, now, &what, path, strlen(path), room, len, &tag, etags, &tag, matches, &id));
    }
    tell_number(id);
}

/* A key, at times of a wrong length: how many bytes it has. */
static size_t draw_key(uint8_t *key) {
    size_t len = draw() % 30 == 0 ? draw() % (KS_KEY_ROOM + 3) : 2 + draw() % 2;
    memset(key, 'k', KS_KEY_ROOM + 3);
    key[0] = (uint8_t)(draw() % PEERS);
    return len;
}

static void tell_name(const ks_address *name) {
    tell(name->ip, 4);
    tell_number(name->port);
}

static void of_names(void) {
    static ks_address last_name;
    ks_address name = {{9, 9, 9, 9}, 9};
    uint8_t key[KS_KEY_ROOM + 3];
    uint64_t taken = 7;
    size_t len = draw_key(key), told_len = 7, key_room = draw() % 8 ? KS_KEY_ROOM : draw() % KS_KEY_ROOM;
    uint64_t by = draw() % 12;
    switch (by) {
    case 0: answered(ks_names_of(&names, key, len, &name)); break;
    case 1: answered(ks_names_key(&names, &last_name, room, key_room, &told_len)); break;
    case 2:
    case 3: answered(ks_names_sent(&names, now, &last_name, room, key_room, &told_len)); break;
    case 4: answered(ks_names_hold(&names, &last_name)); break;
    case 5: answered(ks_names_release(&names, now, &last_name)); break;
    case 6: answered(draw() % 4 ? KS_OK : ks_names_retire(&names, &last_name)); break;
    case 7: answered(ks_names_load(&names, &taken)); break;
    default:
        if (answered(ks_names_fed(&names, now, key, len, &name)) == KS_OK) last_name = name;
    }
    tell_name(&name);
    tell_number(taken);
    tell_number(told_len);
    if (told_len != 7) tell(room, told_len);
}

int main(int argc, char **argv) {
    long calls = argc > 1 ? atol(argv[1]) : 100000;
    drawn = argc > 2 ? strtoull(argv[2], NULL, 10) : 1;
    begin();
    for (long i = 1; i <= calls; i++) {
        uint64_t at;
        now += draw() % 10 == 0 ? draw() % 40000 : draw() % 300;
        switch (draw() % CHANGES_S == 0 ? 7 : draw() % 7) {
        case 0: of_server(); break;
        case 1: of_client(); break;
        case 2: damaged(); break;
        case 3: of_names(); break;
        case 7: begin(); break;
        default:
            for (int n = 0; n < 9 && answered(ks_client_tick(&client, now, draw())) == KS_DONE; n++) {}
            for (int n = 0; n < 9 && answered(ks_server_tick(&server, now, draw())) == KS_DONE; n++) ask_applied();
            carry();
            take_reports();
        }
        if (answered(ks_client_due(&client, &at)) == KS_DONE) tell_number(at);
        if (answered(ks_server_due(&server, &at)) == KS_DONE) tell_number(at);
        if (i % (calls / 10 + 1) == 0 || i == calls) printf("%ld: %016llx\n", i, (unsigned long long)told);
    }
    ks_server_free(&server);
    ks_client_free(&client);
    ks_names_free(&names);
    return 0;
}
