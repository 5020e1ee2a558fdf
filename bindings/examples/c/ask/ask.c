/* ask PORT METHOD PATH [FILE]: asks coap://127.0.0.1:PORT/PATH by get, post, put or delete. The body of a post or put is
 * that of the file, and goes in blocks of 64 bytes; the answer's body is joined of blocks, and written to standard output. Its
 * code goes to standard error, with a word where the body is not proved to be of one version. Status 0 is of a code of
 * class 2. */
#include "knifesilver_exchange.h"
#include <arpa/inet.h>
#include <poll.h>
#include <stdio.h>
#include <stdlib.h>
#include <sys/random.h>
#include <sys/socket.h>
#include <time.h>

/* Options (RFC 7252, section 12.2; RFC 7959, section 2.1). */
enum { URI_PATH = 11, BLOCK2 = 23, BLOCK1 = 27 };
enum { CONTENT = 0x45, BLOCK_SIZE = 64, BODY_LIMIT = 65536 };

static ks_asker asker;
static ks_address server = {{127, 0, 0, 1}, 0};
static int udp;
static uint8_t datagram[2048], body[BODY_LIMIT];
static size_t datagram_len;

static uint64_t now_ms(void) {
    struct timespec t;
    clock_gettime(CLOCK_BOOTTIME, &t);
    return (uint64_t)t.tv_sec * 1000 + (uint64_t)t.tv_nsec / 1000000;
}

static void draw(void *to, size_t len) {
    if (getrandom(to, len, 0) != (ssize_t)len) exit(1);
}

static void fail(const char *what) {
    fprintf(stderr, "ask: %s\n", what);
    exit(1);
}

/* Sends what is out, and waits for a datagram until something is due: its answer, if one came. */
static bool turn(ks_answer *answer) {
    uint8_t room[KS_DATAGRAM_ROOM];
    ks_address to;
    size_t len;
    uint64_t at;
    while (ks_asker_tick(&asker, now_ms()) == KS_DONE)
        if (ks_asker_next_answer(&asker, answer) == KS_DONE) return true;
    while (ks_asker_next_out(&asker, &to, room, sizeof room, &len) == KS_DONE) send(udp, room, len, 0);
    uint64_t now = now_ms();
    struct pollfd in = {udp, POLLIN, 0};
    int wait = ks_asker_due(&asker, now, &at) == KS_DONE ? (int)(at > now ? at - now : 0) : -1;
    if (poll(&in, 1, wait) <= 0) return false;
    ssize_t got = recv(udp, datagram, sizeof datagram, 0);
    if (got < 0) return false;
    datagram_len = (size_t)got;
    return ks_asker_feed(&asker, now_ms(), &server, datagram, datagram_len) == KS_DONE
        && ks_asker_next_answer(&asker, answer) == KS_DONE;
}

/* The answer to a request: it is a response, whose bytes are those of the last datagram. */
static ks_answer ask(const ks_draft *draft) {
    ks_token token;
    ks_answer answer;
    uint64_t word;
    draw(&word, sizeof word);
    if (ks_asker_ask(&asker, now_ms(), draft->bytes, draft->len, word, &token) != KS_OK) fail("the request is too long");
    while (!turn(&answer)) {}
    if (answer.kind != KS_RESPONSE) fail("no response came");
    /* (the acknowledgement of a response goes out) */
    uint8_t room[KS_DATAGRAM_ROOM];
    ks_address to;
    size_t len;
    while (ks_asker_next_out(&asker, &to, room, sizeof room, &len) == KS_DONE) send(udp, room, len, 0);
    return answer;
}

/* A request of this path, each segment between `/`. */
static void begin(ks_draft *draft, uint8_t method, const char *path) {
    ks_draft_begin(draft, method);
    while (*path != 0) {
        size_t len = strcspn(path, "/");
        if (len > 0 && ks_draft_option(draft, URI_PATH, path, len) != KS_OK) fail("the path is too long");
        path += len + (path[len] == '/');
    }
}

/* Sends the body in blocks: the answer to the last one. */
static ks_answer uploaded(uint8_t method, const char *path, size_t len) {
    ks_upload upload = {0};
    ks_answer answer;
    if (ks_upload_new(&upload, body, len, BLOCK_SIZE) != KS_OK) fail("out of memory");
    do {
        uint8_t part[BLOCK_SIZE];
        size_t part_len;
        ks_block block;
        ks_draft draft;
        begin(&draft, method, path);
        ks_upload_next(&upload, &block, part, sizeof part, &part_len);
        if (ks_draft_block(&draft, BLOCK1, &block) != KS_OK || ks_draft_payload(&draft, part, part_len) != KS_OK)
            fail("the path is too long");
        answer = ask(&draft);
    } while (ks_upload_accepted(&upload, datagram, datagram_len) == KS_DONE);
    ks_upload_free(&upload);
    return answer;
}

/* Asks for the blocks of a body: the answer to the last request, with the body's length, where it is whole. */
static ks_answer fetched(const char *path, size_t *len, bool *joined) {
    ks_fetch fetch = {0};
    ks_answer answer;
    ks_block next;
    int32_t took = KS_AGAIN;
    if (ks_fetch_new(&fetch, BLOCK_SIZE, BODY_LIMIT, true) != KS_OK) fail("out of memory");
    do {
        ks_draft draft;
        begin(&draft, KS_GET, path);
        if (took == KS_OK) ks_draft_block(&draft, BLOCK2, &next);
        answer = ask(&draft);
        if (answer.code != CONTENT) break;
        took = ks_fetch_accept(&fetch, datagram, datagram_len, &next, len);
    } while (took == KS_OK || took == KS_AGAIN);
    *joined = took == KS_JOINED;
    if (answer.code == CONTENT && ks_fetch_body(&fetch, body, sizeof body, len) != KS_DONE) fail("the body is not whole");
    ks_fetch_free(&fetch);
    return answer;
}

int main(int count, char **words) {
    static const char *methods[] = {"get", "post", "put", "delete"};
    uint8_t method = 0;
    while (count > 3 && method < 4 && strcmp(words[2], methods[method]) != 0) method++;
    if (count < 4 || method == 4) fail("ask PORT get|post|put|delete PATH [FILE]");
    method++;
    server.port = (uint16_t)atoi(words[1]);
    struct sockaddr_in there = {.sin_family = AF_INET, .sin_port = htons(server.port)};
    inet_pton(AF_INET, "127.0.0.1", &there.sin_addr);
    udp = socket(AF_INET, SOCK_DGRAM, 0);
    if (udp < 0 || connect(udp, (struct sockaddr *)&there, sizeof there) != 0) fail("no socket");
    ks_seed seed;
    draw(&seed, sizeof seed);
    if (ks_asker_new(&asker, &server, 0, &seed) != KS_OK) fail("out of memory");
    size_t len = 0;
    bool joined = false;
    ks_answer answer;
    if (count > 4) {
        FILE *file = fopen(words[4], "rb");
        if (file == NULL) fail("no such file");
        len = fread(body, 1, sizeof body, file);
        fclose(file);
        answer = uploaded(method, words[3], len);
        len = 0;
    } else if (method == KS_GET) {
        answer = fetched(words[3], &len, &joined);
    } else {
        ks_draft draft;
        begin(&draft, method, words[3]);
        answer = ask(&draft);
    }
    if (len > 0) fwrite(body, 1, len, stdout);
    else fwrite(datagram + datagram_len - answer.payload_len, 1, answer.payload_len, stdout);
    fprintf(stderr, "%d.%02d%s\n", answer.code >> 5, answer.code & 31, joined ? ", not proved to be of one version" : "");
    ks_asker_free(&asker);
    return answer.code >> 5 == 2 ? 0 : 2;
}
