/* What the tests of both ends share: the three calls by which the library takes memory, of which one may be refused (a
 * test is linked with an archive that bindings/build --no-heap made); both ends in one process, over no socket, by the
 * calls of knifesilver.h alone. */
#ifndef BOTH_ENDS_H
#define BOTH_ENDS_H

#include "answers.h"
#include "knifesilver.h"
#include <string.h>

#define P(text) (text), sizeof(text) - 1
#define NONE &(ks_tag){0, {0}}, 0

/* Memory, of which the n-th allocation is refused. */

struct tried {
    bool ok;
    void *at;
};

struct tried rattle_alloc(size_t size, size_t align);
struct tried rattle_realloc(void *at, size_t kept, size_t size, size_t align);
void rattle_dealloc(void *at);

static long refuse_at = -1, allocated;
static char nowhere;

static inline struct tried tried(void *at) { return (struct tried){at != NULL, at != NULL ? at : &nowhere}; }

struct tried rattle_alloc(size_t size, size_t align) {
    return tried(++allocated == refuse_at ? NULL : malloc(size != 0 ? size : align));
}

struct tried rattle_realloc(void *at, size_t kept, size_t size, size_t align) {
    (void)kept;
    return tried(++allocated == refuse_at ? NULL : realloc(at, size != 0 ? size : align));
}

void rattle_dealloc(void *at) { free(at); }

/* The same for knifesilver-portable.c, which takes its memory by itself. */
bool allocation_is_refused(void);

bool allocation_is_refused(void) { return ++allocated == refuse_at; }

/* Two ends, and a network that carries what is out. */

static ks_server server;
static ks_client client;
static uint64_t now;
static const ks_address here = {{127, 0, 0, 1}, 40001}, there = {{127, 0, 0, 1}, 5683};
static uint8_t room[65536], datagram[KS_DATAGRAM_ROOM];
static char path_room[KS_PATH_ROOM];
static long no_memory, switched;

static inline uint64_t word(void) {
    static uint64_t s = 88172645463325252u;
    s ^= s << 13;
    s ^= s >> 7;
    return s ^= s << 17;
}

static inline int32_t seen(int32_t answer) {
    if (answer == KS_NO_MEMORY) no_memory++;
    return answer;
}

/* What the server applied, in the call that served it. */
static inline void ask_applied(void) {
    ks_applied done;
    if (ks_server_applied(&server, &done, path_room, sizeof path_room) == KS_DONE && done.path_len == 5
        && memcmp(path_room, "/lamp", 5) == 0)
        switched++;
}

static inline void turn(void) {
    ks_address to;
    size_t len;
    while (seen(ks_client_tick(&client, now, word())) == KS_DONE) {}
    while (seen(ks_server_tick(&server, now, word())) == KS_DONE) ask_applied();
    for (int more = 1; more;) {
        more = 0;
        while (ks_client_next_out(&client, &to, datagram, sizeof datagram, &len) == KS_DONE) {
            IS(to.port, there.port);
            if (seen(ks_server_feed(&server, now, &here, datagram, len, word())) == KS_OK) ask_applied();
            more = 1;
        }
        while (ks_server_next_out(&server, &to, datagram, sizeof datagram, &len) == KS_DONE) {
            IS(to.port, here.port);
            seen(ks_client_feed(&client, now, &there, datagram, len, word()));
            more = 1;
        }
    }
}

static inline ks_report await(void) {
    ks_report report;
    for (int i = 0; i < 100000; i++, now += 50) {
        turn();
        if (ks_client_next_report(&client, &report, room, sizeof room) == KS_DONE) return report;
    }
    printf("no report\n");
    exit(1);
}

/* Both are made anew, as these configurations say. */
static inline void begin_with(const ks_config *of_server, const ks_config *of_client) {
    ks_seed seed = {word(), word(), word()};
    IS(ks_server_new(&server, of_server, &seed), KS_OK);
    IS(ks_client_new(&client, &there, of_client, &seed), KS_OK);
    now = 0;
}

static inline void begin(void) {
    ks_config usual = {0};
    begin_with(&usual, &usual);
}

static inline void end(void) {
    ks_server_free(&server);
    ks_server_free(&server);
    ks_client_free(&client);
}

#endif
