/* A client for any request, and bodies in blocks: their rows, byte for byte, calls in any order, and datagrams of any
 * bytes. Says how many calls were answered how; status 1 at the first thing that is not as it should be. */
#include "knifesilver_exchange.h"
#include <stdio.h>
#include <stdlib.h>

#define WANT(holds) \
    do { \
        if (!(holds)) return fprintf(stderr, "%s:%d: not so: %s\n", __FILE__, __LINE__, #holds), 1; \
    } while (0)

enum { GET = 1, POST = 2, PUT = 3, FETCH = 5, CREATED = 0x41, CONTENT = 0x45, CONTINUE = 0x5f };
enum { ETAG = 4, OBSERVE = 6, URI_PATH = 11, BLOCK2 = 23, BLOCK1 = 27 };

static const ks_address there = {{127, 0, 0, 1}, 5683}, stranger = {{127, 0, 0, 1}, 5684};
static const ks_seed seed = {0, 1, 2};

/* GET of `target`, with Message ID 0 and the first token of word 0 (RFC 7252, sections 3 and 5.3.1). */
static const uint8_t get[] = {0x48, GET, 0, 0, 0, 0, 0, 0, 0, 0, 0, 0, 0xb6, 't', 'a', 'r', 'g', 'e', 't'};

static void draft_get(ks_draft *draft) {
    ks_draft_begin(draft, GET);
    ks_draft_option(draft, URI_PATH, "target", 6);
}

static bool sends(ks_asker *asker, const void *bytes, size_t len) {
    uint8_t room[KS_DATAGRAM_ROOM];
    ks_address to;
    size_t n;
    return ks_asker_next_out(asker, &to, room, sizeof room, &n) == KS_DONE && n == len && memcmp(room, bytes, n) == 0
        && to.port == there.port;
}

static bool sends_nothing(ks_asker *asker) {
    uint8_t room[KS_DATAGRAM_ROOM];
    ks_address to;
    size_t n;
    return ks_asker_next_out(asker, &to, room, sizeof room, &n) == KS_OK;
}

static bool tells(ks_asker *asker, uint8_t kind) {
    ks_answer answer;
    return ks_asker_next_answer(asker, &answer) == KS_DONE && answer.kind == kind
        && ks_asker_next_answer(asker, &answer) == KS_OK;
}

/* A request has one answer, from the server alone; what may not be asked is refused by name. */
static int answers(void) {
    static const uint8_t reply[] = {0x68, CONTENT, 0, 0, 0, 0, 0, 0, 0, 0, 0, 0, 0xff, 'h', 'i'};
    ks_asker asker = {0};
    ks_draft draft;
    ks_token token;
    ks_answer answer;
    uint8_t room[KS_DATAGRAM_ROOM];
    ks_address to;
    size_t len;
    draft_get(&draft);
    WANT(ks_asker_ask(&asker, 0, draft.bytes, draft.len, 0, &token) == KS_NOT_LIVE);
    WANT(ks_asker_new(&asker, &there, 1048577, &seed) == KS_BAD_REMEMBERED);
    WANT(ks_asker_new(&asker, &there, 0, &seed) == KS_OK);
    WANT(ks_asker_next_answer(&asker, &answer) == KS_OK);
    WANT(ks_asker_ask(&asker, 0, draft.bytes, 3, 0, &token) == KS_BAD_ARGUMENT);
    WANT(ks_asker_ask(&asker, 0, draft.bytes, draft.len, 0, &token) == KS_OK);
    WANT(token.len == 8 && memcmp(token.bytes, get + 4, 8) == 0);
    WANT(ks_asker_ask(&asker, 0, draft.bytes, draft.len, 0, &token) == KS_ASK_RUNNING);
    WANT(ks_asker_next_out(&asker, &to, room, KS_DATAGRAM_ROOM - 1, &len) == KS_SMALL_ROOM);
    WANT(sends(&asker, get, sizeof get) && sends_nothing(&asker));
    WANT(ks_asker_feed(&asker, 1, &stranger, reply, sizeof reply) == KS_OK);
    WANT(ks_asker_feed(&asker, 1, &there, reply, sizeof reply) == KS_DONE);
    WANT(ks_asker_next_answer(&asker, &answer) == KS_DONE);
    WANT(answer.kind == KS_RESPONSE && answer.code == CONTENT && answer.payload_len == 2 && answer.token_len == 8);
    WANT(memcmp(answer.token, get + 4, 8) == 0 && ks_asker_next_answer(&asker, &answer) == KS_OK);
    WANT(ks_asker_feed(&asker, 2, &there, reply, sizeof reply) == KS_OK);
    ks_draft_begin(&draft, FETCH);
    WANT(ks_asker_ask(&asker, 2, draft.bytes, draft.len, 0, &token) == KS_ASK_BAD_REQUEST);
    /* With a token of 8 bytes it has 1,153. */
    ks_draft_begin(&draft, PUT);
    memset(room, 'x', sizeof room);
    WANT(ks_draft_payload(&draft, room, KS_DATAGRAM_ROOM - 4 - 1 - 7) == KS_OK);
    WANT(ks_asker_ask(&asker, 2, draft.bytes, draft.len, 0, &token) == KS_ASK_BAD_REQUEST);
    draft.len--;
    WANT(ks_asker_ask(&asker, 2, draft.bytes, draft.len, 0, &token) == KS_OK && token.bytes[7] == 1);
    ks_asker_free(&asker);
    ks_asker_free(&asker);
    return 0;
}

/* The ends of an exchange that have no answer (RFC 7252, sections 4.2 and 5.2.2): 2, 6, 14 and 30 s, and 62 s. */
static int ends(void) {
    static const uint64_t copies[] = {2000, 6000, 14000, 30000};
    static const uint8_t reset[] = {0x70, 0, 0, 1}, ack[] = {0x60, 0, 0, 2};
    ks_asker asker = {0};
    ks_draft draft;
    ks_token token;
    uint64_t at;
    draft_get(&draft);
    WANT(ks_asker_new(&asker, &there, 0, &seed) == KS_OK && ks_asker_due(&asker, 0, &at) == KS_OK);
    WANT(ks_asker_ask(&asker, 0, draft.bytes, draft.len, 0, &token) == KS_OK && sends(&asker, get, sizeof get));
    for (int i = 0; i < 4; i++) {
        WANT(ks_asker_due(&asker, 0, &at) == KS_DONE && at == copies[i]);
        WANT(ks_asker_tick(&asker, at - 1) == KS_OK && ks_asker_tick(&asker, at) == KS_DONE);
        WANT(sends(&asker, get, sizeof get) && !tells(&asker, KS_TIMEOUT));
    }
    WANT(ks_asker_due(&asker, 0, &at) == KS_DONE && at == 62000 && ks_asker_tick(&asker, at) == KS_DONE);
    WANT(tells(&asker, KS_TIMEOUT));
    WANT(ks_asker_ask(&asker, 70000, draft.bytes, draft.len, 0, &token) == KS_OK);
    WANT(ks_asker_feed(&asker, 70001, &there, reset, sizeof reset) == KS_DONE && tells(&asker, KS_RESET));
    WANT(ks_asker_ask(&asker, 70002, draft.bytes, draft.len, 0, &token) == KS_OK);
    WANT(ks_asker_feed(&asker, 70003, &there, ack, sizeof ack) == KS_OK);
    WANT(ks_asker_due(&asker, 70003, &at) == KS_DONE && at == 70003 + 247000);
    WANT(ks_asker_tick(&asker, at) == KS_DONE && tells(&asker, KS_NO_RESPONSE));
    ks_asker_free(&asker);
    return 0;
}

/* Each request takes a Message ID for 400 s, so that in the end none is free. */
static int ids(void) {
    ks_asker asker = {0};
    ks_draft draft;
    ks_token token;
    int32_t answer;
    long asked = 0;
    draft_get(&draft);
    WANT(ks_asker_new(&asker, &there, 0, &seed) == KS_OK);
    while ((answer = ks_asker_ask(&asker, 0, draft.bytes, draft.len, 0, &token)) == KS_OK && asked <= 65536) {
        uint8_t room[KS_DATAGRAM_ROOM];
        ks_address to;
        size_t len;
        WANT(ks_asker_next_out(&asker, &to, room, sizeof room, &len) == KS_DONE);
        uint8_t reset[] = {0x70, 0, room[2], room[3]};
        WANT(ks_asker_feed(&asker, 0, &there, reset, sizeof reset) == KS_DONE && tells(&asker, KS_RESET));
        asked++;
    }
    WANT(answer == KS_ASK_NO_IDS && asked > 1000);
    WANT(ks_asker_ask(&asker, 401000, draft.bytes, draft.len, 0, &token) == KS_OK);
    ks_asker_free(&asker);
    return 0;
}

/* Notifications come by tokens that are kept (RFC 7641, section 3.2); a cancel has the token of its observation. */
static int observations(void) {
    static const uint8_t registered[] = {0x68, CONTENT, 0, 0, 0, 0, 0, 0, 0, 0, 0, 0, 0x61, 5, 0xff, '1'};
    static const uint8_t notified[] = {0x48, CONTENT, 0, 9, 0, 0, 0, 0, 0, 0, 0, 0, 0x61, 6, 0xff, '2'};
    static const uint8_t again[] = {0x48, CONTENT, 0, 10, 0, 0, 0, 0, 0, 0, 0, 0, 0x61, 7, 0xff, '3'};
    static const uint8_t acknowledged[] = {0x60, 0, 0, 9}, rejected[] = {0x70, 0, 0, 10};
    static const uint8_t cancel[] = {0x48, GET, 0, 1, 0, 0, 0, 0, 0, 0, 0, 0, 0x61, 1, 0x56, 't', 'a', 'r', 'g', 'e', 't'};
    ks_asker asker = {0};
    ks_draft draft;
    ks_token token, other;
    ks_answer answer;
    ks_draft_begin(&draft, GET);
    ks_draft_uint(&draft, OBSERVE, 0);
    ks_draft_option(&draft, URI_PATH, "target", 6);
    WANT(ks_asker_new(&asker, &there, 0, &seed) == KS_OK);
    WANT(ks_asker_ask(&asker, 0, draft.bytes, draft.len, 0, &token) == KS_OK);
    WANT(ks_asker_keep(&asker, "123456789", 9) == KS_BAD_ARGUMENT);
    WANT(ks_asker_release(&asker, "123456789", 9) == KS_BAD_ARGUMENT);
    WANT(ks_asker_keep(&asker, token.bytes, token.len) == KS_DONE);
    WANT(ks_asker_keep(&asker, token.bytes, token.len) == KS_DONE);
    for (uint8_t i = 1; i < 16; i++) WANT(ks_asker_keep(&asker, &i, 1) == KS_DONE);
    WANT(ks_asker_keep(&asker, "x", 1) == KS_OK && ks_asker_release(&asker, "x", 1) == KS_OK);
    while (!sends_nothing(&asker)) {}
    WANT(ks_asker_feed(&asker, 1, &there, registered, sizeof registered) == KS_DONE && tells(&asker, KS_RESPONSE));
    WANT(ks_asker_feed(&asker, 2, &there, notified, sizeof notified) == KS_DONE);
    WANT(sends(&asker, acknowledged, sizeof acknowledged));
    WANT(ks_asker_next_answer(&asker, &answer) == KS_DONE && answer.kind == KS_NOTIFICATION && answer.payload_len == 1);
    ks_draft_begin(&draft, GET);
    ks_draft_token(&draft, &token);
    ks_draft_uint(&draft, OBSERVE, 1);
    ks_draft_option(&draft, URI_PATH, "target", 6);
    WANT(ks_asker_ask(&asker, 3, draft.bytes, draft.len, 0, &other) == KS_OK && sends(&asker, cancel, sizeof cancel));
    WANT(other.len == 8 && memcmp(other.bytes, token.bytes, 8) == 0);
    WANT(ks_asker_release(&asker, token.bytes, token.len) == KS_DONE);
    ks_asker_free(&asker);
    WANT(ks_asker_new(&asker, &there, 0, &seed) == KS_OK);
    WANT(ks_asker_feed(&asker, 4, &there, again, sizeof again) == KS_OK && sends(&asker, rejected, sizeof rejected));
    ks_asker_free(&asker);
    return 0;
}

/* ---- Bodies in blocks ---------------------------------------------------------------------------------------------- */

/* A message with a block of a body of so many bytes, each of which is its place. */
static void draft_part(ks_draft *draft, uint8_t code, const char *tag, uint16_t number, ks_block block, size_t len) {
    uint8_t bytes[64];
    for (size_t i = 0; i < len; i++) bytes[i] = (uint8_t)((block.num << (4 + block.szx)) + i);
    ks_draft_begin(draft, code);
    if (tag != NULL) ks_draft_option(draft, ETAG, tag, strlen(tag));
    if (code < 32) ks_draft_option(draft, URI_PATH, "big", 3);
    ks_draft_block(draft, number, &block);
    ks_draft_payload(draft, bytes, len);
}

static int32_t accepts(ks_fetch *fetch, const char *tag, uint32_t num, bool more, size_t len, ks_block *next,
                       size_t *body_len) {
    ks_draft draft;
    draft_part(&draft, CONTENT, tag, BLOCK2, (ks_block){num, more, 0}, len);
    return ks_fetch_accept(fetch, draft.bytes, draft.len, next, body_len);
}

static bool is_whole(int32_t answer, const uint8_t *room, size_t len, size_t wanted) {
    for (size_t i = 0; i < wanted; i++)
        if (room[i] != (uint8_t)i) return false;
    return answer == KS_DONE && len == wanted;
}

/* RFC 7959, section 2.4: blocks of 16 bytes, in order and with one entity-tag. */
static int fetches(void) {
    ks_fetch fetch = {0};
    ks_draft draft;
    ks_block next;
    uint8_t room[64];
    size_t len = 0;
    WANT(ks_fetch_new(&fetch, 17, 0, false) == KS_BAD_BLOCK_SIZE);
    WANT(ks_fetch_new(&fetch, 16, 1048577, false) == KS_BAD_BODY_LIMIT);
    WANT(accepts(&fetch, "a", 0, true, 16, &next, &len) == KS_NOT_LIVE);
    WANT(ks_fetch_body(&fetch, room, 64, &len) == KS_NOT_LIVE);
    WANT(ks_fetch_new(&fetch, 16, 40, false) == KS_OK && ks_fetch_body(&fetch, room, 64, &len) == KS_OK);
    WANT(ks_fetch_accept(&fetch, "\x60", 1, &next, &len) == KS_BAD_ARGUMENT);
    WANT(ks_fetch_accept(&fetch, "\x60\x45\0\0\xd1\x0a\x07", 7, &next, &len) == KS_BAD_ARGUMENT);
    WANT(accepts(&fetch, "a", 0, true, 16, &next, &len) == KS_OK && next.num == 1 && !next.more && next.szx == 0);
    WANT(accepts(&fetch, "a", 2, true, 16, &next, &len) == KS_FETCH_BAD_BLOCK);
    WANT(accepts(&fetch, NULL, 1, true, 16, &next, &len) == KS_FETCH_NO_TAG);
    WANT(accepts(&fetch, "a", 1, true, 16, &next, &len) == KS_OK && next.num == 2);
    WANT(accepts(&fetch, "a", 2, false, 16, &next, &len) == KS_FETCH_TOO_LARGE);
    WANT(accepts(&fetch, "a", 2, false, 3, &next, &len) == KS_DONE && len == 35);
    WANT(ks_fetch_body(&fetch, room, 34, &len) == KS_SMALL_ROOM && len == 35);
    WANT(is_whole(ks_fetch_body(&fetch, room, sizeof room, &len), room, len, 35));
    WANT(is_whole(ks_fetch_body(&fetch, room, sizeof room, &len), room, len, 35));
    /* Another version, three times, and once more. */
    for (int i = 0; i < 4; i++) {
        WANT(accepts(&fetch, "a", 0, true, 16, &next, &len) == KS_OK && ks_fetch_body(&fetch, room, 64, &len) == KS_OK);
        WANT(accepts(&fetch, "b", 1, false, 3, &next, &len) == (i < 3 ? KS_AGAIN : KS_FETCH_CHANGED));
    }
    /* One part, with a Block2 or without. */
    WANT(ks_fetch_new(&fetch, 16, 40, true) == KS_OK);
    WANT(accepts(&fetch, NULL, 0, false, 5, &next, &len) == KS_DONE && len == 5);
    ks_draft_begin(&draft, CONTENT);
    ks_draft_payload(&draft, "\0\1\2", 3);
    WANT(ks_fetch_accept(&fetch, draft.bytes, draft.len, &next, &len) == KS_DONE && len == 3);
    WANT(is_whole(ks_fetch_body(&fetch, room, sizeof room, &len), room, len, 3));
    /* Parts without an entity-tag are joined where that is allowed; with one among them, the body changed. */
    WANT(accepts(&fetch, NULL, 0, true, 16, &next, &len) == KS_OK);
    WANT(accepts(&fetch, NULL, 1, false, 4, &next, &len) == KS_JOINED);
    WANT(is_whole(ks_fetch_body(&fetch, room, sizeof room, &len), room, len, 20));
    WANT(accepts(&fetch, NULL, 0, true, 16, &next, &len) == KS_OK);
    WANT(accepts(&fetch, "a", 1, false, 4, &next, &len) == KS_AGAIN);
    WANT(accepts(&fetch, "a", 0, true, 16, &next, &len) == KS_OK);
    WANT(accepts(&fetch, NULL, 1, false, 4, &next, &len) == KS_AGAIN);
    /* .. whatever bytes it has. */
    WANT(accepts(&fetch, "\1", 0, true, 16, &next, &len) == KS_OK);
    WANT(accepts(&fetch, NULL, 1, false, 4, &next, &len) == KS_AGAIN);
    ks_fetch_free(&fetch);
    return 0;
}

/* RFC 7959, section 2.5: a body of 40 bytes, in blocks of 16, to an assembly and back. */
static int uploads(void) {
    static const ks_block reserved = {0, false, 7};
    uint8_t body[40], room[64], over[96] = {0x40, POST, 0, 0};
    ks_upload upload = {0};
    ks_assembly assembly = {0};
    ks_draft draft;
    ks_block block, answer, given;
    size_t len, whole = 0, n = 4;
    for (size_t i = 0; i < sizeof body; i++) body[i] = (uint8_t)i;
    WANT(ks_upload_next(&upload, &block, room, 16, &len) == KS_NOT_LIVE);
    WANT(ks_upload_accepted(&upload, body, 1) == KS_BAD_ARGUMENT);
    WANT(ks_upload_new(&upload, body, sizeof body, 1025) == KS_BAD_BLOCK_SIZE);
    WANT(ks_assembly_new(&assembly, 3, 0) == KS_BAD_BLOCK_SIZE);
    WANT(ks_assembly_new(&assembly, 16, 1048577) == KS_BAD_BODY_LIMIT && ks_assembly_new(&assembly, 16, 40) == KS_OK);
    WANT(ks_upload_new(&upload, body, sizeof body, 16) == KS_OK);
    for (uint32_t i = 0; i < 3; i++) {
        WANT(ks_upload_next(&upload, &block, room, 1, &len) == KS_SMALL_ROOM);
        WANT(ks_upload_next(&upload, &block, room, sizeof room, &len) == KS_DONE && len == (i < 2 ? 16 : 8));
        WANT(block.num == i && block.more == (i < 2) && block.szx == 0);
        WANT(ks_slice(body, sizeof body, &block, &given, over + 8, 16, &len) == KS_DONE);
        WANT(memcmp(over + 8, room, len) == 0);
        WANT(given.num == block.num && given.more == block.more && given.szx == block.szx);
        draft_part(&draft, POST, NULL, BLOCK1, block, len);
        WANT(ks_block_in(draft.bytes, draft.len, BLOCK1, &given) == KS_DONE && given.num == i && given.more == block.more);
        WANT(ks_block_in(draft.bytes, draft.len, BLOCK2, &given) == KS_OK);
        int32_t took = ks_assembly_take(&assembly, 0, &there, draft.bytes, draft.len, &answer, &whole);
        WANT(took == (i < 2 ? KS_OK : KS_DONE) && answer.num == i && answer.more == (i < 2));
        ks_draft_begin(&draft, i < 2 ? CONTINUE : CREATED);
        ks_draft_block(&draft, BLOCK1, &answer);
        WANT(ks_upload_accepted(&upload, draft.bytes, draft.len) == (i < 2 ? KS_DONE : KS_OK));
        WANT(ks_upload_accepted(&upload, draft.bytes, draft.len) == KS_OK);
    }
    WANT(whole == 40 && ks_assembly_body(&assembly, room, 39, &len) == KS_SMALL_ROOM && len == 40);
    WANT(is_whole(ks_assembly_body(&assembly, room, sizeof room, &len), room, len, 40));
    WANT(ks_slice(body, sizeof body, &(ks_block){3, false, 0}, &given, room, 16, &len) == KS_OK);
    WANT(ks_slice(body, sizeof body, &(ks_block){1, false, 1}, &given, room, 16, &len) == KS_DONE);
    WANT(len == 8 && !given.more);
    WANT(ks_slice(body, sizeof body, &(ks_block){0, false, 1}, &given, room, 16, &len) == KS_SMALL_ROOM && len == 32);
    WANT(ks_slice(body, sizeof body, &reserved, &given, room, 16, &len) == KS_BAD_ARGUMENT);
    /* A block that is not the next, not of its size, too much, of no request, and of a path that is none. */
    draft_part(&draft, POST, NULL, BLOCK1, (ks_block){1, true, 0}, 16);
    WANT(ks_assembly_take(&assembly, 0, &there, draft.bytes, draft.len, &answer, &whole) == KS_ASSEMBLY_INCOMPLETE);
    draft_part(&draft, POST, NULL, BLOCK1, (ks_block){0, true, 0}, 15);
    WANT(ks_assembly_take(&assembly, 0, &there, draft.bytes, draft.len, &answer, &whole) == KS_ASSEMBLY_BAD_REQUEST);
    draft_part(&draft, POST, NULL, BLOCK1, (ks_block){0, false, 2}, 41);
    WANT(ks_assembly_take(&assembly, 0, &there, draft.bytes, draft.len, &answer, &whole) == KS_ASSEMBLY_TOO_LARGE);
    draft_part(&draft, FETCH, NULL, BLOCK1, (ks_block){0, true, 0}, 16);
    WANT(ks_assembly_take(&assembly, 0, &there, draft.bytes, draft.len, &answer, &whole) == KS_BAD_ARGUMENT);
    WANT(ks_assembly_take(&assembly, 0, &there, get, sizeof get, &answer, &whole) == KS_BAD_ARGUMENT);
    for (int i = 0; i < 17; i++) over[n++] = i == 0 ? 0xb0 : 0;
    over[n++] = 0xd1, over[n++] = 3, over[n++] = 0;
    WANT(ks_assembly_take(&assembly, 0, &there, over, n, &answer, &whole) == KS_BAD_PATH);
    for (uint16_t i = 0; i <= 16; i++) {
        ks_address from = {{10, 0, 0, 1}, (uint16_t)(1000 + i)};
        draft_part(&draft, PUT, NULL, BLOCK1, (ks_block){0, true, 0}, 16);
        int32_t took = ks_assembly_take(&assembly, 0, &from, draft.bytes, draft.len, &answer, &whole);
        WANT(took == (i < 16 ? KS_OK : KS_ASSEMBLY_FULL));
    }
    /* A handle of one kind is none of another. */
    WANT(ks_asker_tick((ks_asker *)&assembly, 0) == KS_NOT_LIVE);
    WANT(ks_upload_accepted((ks_upload *)&assembly, get, sizeof get) == KS_NOT_LIVE);
    WANT(ks_fetch_body((ks_fetch *)&upload, room, 64, &len) == KS_NOT_LIVE);
    WANT(ks_answerer_due((ks_answerer *)&upload, 0, &(uint64_t){0}) == KS_NOT_LIVE);
    ks_upload_free(&upload);
    ks_assembly_free(&assembly);
    return 0;
}

/* ---- Anything ------------------------------------------------------------------------------------------------------ */

static uint64_t drawn = 88172645463325252u;

static uint64_t draw(uint64_t most) {
    drawn ^= drawn << 13;
    drawn ^= drawn >> 7;
    drawn ^= drawn << 17;
    return drawn % most;
}

static const int32_t answers_of[] = {KS_OK, KS_DONE, KS_BAD_ARGUMENT, KS_ASK_RUNNING, KS_ASK_BAD_REQUEST, KS_ASK_NO_IDS,
    KS_JOINED, KS_AGAIN, KS_SMALL_ROOM, KS_NOT_LIVE, KS_FETCH_BAD_BLOCK, KS_FETCH_NO_TAG, KS_FETCH_CHANGED,
    KS_ASSEMBLY_BAD_REQUEST, KS_ASSEMBLY_INCOMPLETE};
enum { ANSWERS = sizeof answers_of / sizeof *answers_of };

/* Calls in any order, on handles that hold something or nothing, with what is a message or is none: each is answered by a
 * number that the header has. */
static int any_order(long calls) {
    long counted[ANSWERS] = {0};
    ks_asker asker = {0};
    ks_fetch fetch = {0};
    ks_upload upload = {0};
    ks_assembly assembly = {0};
    uint64_t now = 0;
    for (long n = 0; n < calls; n++) {
        uint8_t room[KS_DATAGRAM_ROOM];
        uint8_t byte = (uint8_t)draw(20);
        size_t len, body_len;
        ks_draft draft;
        ks_token token;
        ks_answer told;
        ks_address to;
        ks_block block = {(uint32_t)draw(3), draw(2) == 0, 0};
        int32_t answer = KS_OK;
        const char *tag = draw(2) ? NULL : draw(2) ? "a" : "b";
        draft_part(&draft, draw(8) ? CONTENT : CONTINUE, tag, draw(2) ? BLOCK1 : BLOCK2, block, draw(4) ? 16 : draw(17));
        if (draw(16) == 0) draft.len = 3;
        now += draw(500);
        /* For a while there is nothing in the handles, and then mostly something. */
        bool makes = n > calls / 50 && draw(50) == 0;
        switch (draw(24)) {
        case 0: if (makes) answer = ks_asker_new(&asker, &there, 16, &seed); break;
        case 1: if (draw(400) == 0) ks_asker_free(&asker); break;
        case 2:
        case 3: draft.bytes[1] = (uint8_t)draw(6);
            answer = ks_asker_ask(&asker, now, draft.bytes, draft.len, draw(9), &token);
            break;
        case 4: answer = ks_asker_feed(&asker, now, draw(4) ? &there : &stranger, draft.bytes, draft.len); break;
        case 5: answer = ks_asker_tick(&asker, now); break;
        case 6: answer = ks_asker_next_answer(&asker, &told); break;
        case 7: answer = ks_asker_keep(&asker, &byte, draw(2)); break;
        case 8: answer = ks_asker_release(&asker, &byte, draw(2)); break;
        case 9: answer = ks_asker_next_out(&asker, &to, room, draw(2) ? sizeof room : 9, &len);
            if (answer == KS_DONE && draw(2)) {
                uint8_t reply[] = {draw(2) ? 0x60 : 0x70, 0, room[2], room[3]};
                answer = ks_asker_feed(&asker, now, &there, reply, sizeof reply);
            }
            break;
        case 10: if (makes) answer = ks_fetch_new(&fetch, 16, 64, draw(2)); break;
        case 11: answer = ks_fetch_body(&fetch, room, draw(64), &len);
            if (draw(400) == 0) ks_fetch_free(&fetch);
            break;
        case 12: if (makes) answer = ks_upload_new(&upload, room, 0, 16); break;
        case 13: answer = ks_upload_next(&upload, &block, room, draw(2), &len);
            if (draw(400) == 0) ks_upload_free(&upload);
            break;
        case 14: answer = ks_upload_accepted(&upload, draft.bytes, draft.len); break;
        case 15: if (makes) answer = ks_assembly_new(&assembly, 16, 64); break;
        case 16: answer = ks_assembly_body(&assembly, room, draw(64), &len);
            if (draw(400) == 0) ks_assembly_free(&assembly);
            break;
        case 17:
        case 18: draft.bytes[1] = (uint8_t)(1 + draw(5));
            answer = ks_assembly_take(&assembly, now, &there, draft.bytes, draft.len, &block, &body_len);
            break;
        case 19:
        case 20: block = (ks_block){(uint32_t)draw(2), draw(16) != 0, 0};
            draft_part(&draft, CONTENT, tag, BLOCK2, block, 16);
            answer = ks_fetch_accept(&fetch, draft.bytes, draft.len, &block, &body_len);
            break;
        default: answer = ks_fetch_accept(&fetch, draft.bytes, draft.len, &block, &body_len); break;
        }
        int i = 0;
        while (i < ANSWERS && answers_of[i] != answer) i++;
        WANT(i < ANSWERS);
        counted[i]++;
    }
    ks_asker_free(&asker);
    ks_fetch_free(&fetch);
    ks_upload_free(&upload);
    ks_assembly_free(&assembly);
    printf("%ld calls of a client and of bodies in blocks:", calls);
    for (int i = 0; i < ANSWERS; i++)
        printf(" %d %ld times%s", (int)answers_of[i], counted[i], i + 1 < ANSWERS ? "," : "\n");
    for (int i = 0; i < ANSWERS; i++) WANT(counted[i] > 0 || answers_of[i] == KS_ASK_NO_IDS);
    return 0;
}

/* Datagrams of any bytes, and messages of which some bytes are changed: all are taken, and then a request is answered. */
static int any_bytes(long datagrams, bool mutated) {
    static const uint8_t reply[] = {0x60, CONTENT};
    ks_asker asker = {0};
    ks_fetch fetch = {0};
    ks_upload upload = {0};
    ks_assembly assembly = {0};
    ks_draft draft;
    ks_token token;
    ks_address to;
    uint8_t room[KS_DATAGRAM_ROOM];
    size_t len;
    WANT(ks_asker_new(&asker, &there, 64, &seed) == KS_OK && ks_fetch_new(&fetch, 16, 64, true) == KS_OK);
    WANT(ks_upload_new(&upload, reply, sizeof reply, 16) == KS_OK && ks_assembly_new(&assembly, 16, 64) == KS_OK);
    for (long n = 0; n < datagrams; n++) {
        uint8_t bytes[64];
        ks_block block = {(uint32_t)draw(3), draw(2) == 0, 0};
        draft_part(&draft, draw(2) ? CONTENT : POST, draw(2) ? NULL : "a", draw(2) ? BLOCK1 : BLOCK2, block, 16);
        len = mutated ? draft.len : draw(sizeof bytes);
        for (size_t i = 0; i < len; i++) bytes[i] = mutated ? draft.bytes[i] : (uint8_t)draw(256);
        for (uint64_t i = draw(4); mutated && i > 0; i--) bytes[draw(len)] = (uint8_t)draw(256);
        WANT(ks_asker_feed(&asker, (uint64_t)n, &there, bytes, len) >= KS_OK);
        WANT(ks_fetch_accept(&fetch, bytes, len, &block, &(size_t){0}) != KS_NOT_LIVE);
        WANT(ks_upload_accepted(&upload, bytes, len) != KS_NOT_LIVE);
        WANT(ks_assembly_take(&assembly, (uint64_t)n, &there, bytes, len, &block, &(size_t){0}) != KS_NOT_LIVE);
        while (ks_asker_next_out(&asker, &to, room, sizeof room, &len) == KS_DONE) {}
    }
    draft_get(&draft);
    WANT(ks_asker_ask(&asker, 1000000, draft.bytes, draft.len, 0, &token) == KS_OK);
    WANT(ks_asker_next_out(&asker, &to, room, sizeof room, &len) == KS_DONE && room[0] == 0x48);
    room[0] = 0x68, room[1] = CONTENT;
    WANT(ks_asker_feed(&asker, 1000001, &there, room, 12) == KS_DONE && tells(&asker, KS_RESPONSE));
    ks_asker_free(&asker);
    ks_fetch_free(&fetch);
    ks_upload_free(&upload);
    ks_assembly_free(&assembly);
    return 0;
}

int main(void) {
    return answers() || ends() || ids() || observations() || fetches() || uploads() || any_order(100000)
        || any_bytes(100000, false) || any_bytes(100000, true);
}
