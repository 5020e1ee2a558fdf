/* replay_time [RECORDS]: how long a journal of so many datagrams (1,000,000) is, and how long it takes to replay it.
 *
 * In made-up time four clients PUT and GET, 16 datagrams a second, each a turn of its own, or 64 a turn at 256 a second
 * and 65,536 that are remembered. The library writes the journal into memory and replays it (ks_server_noted,
 * ks_journal_frame, ks_server_replay). Seconds are those of the processor. */
#include "knifesilver.h"
#include <inttypes.h>
#include <stdio.h>
#include <stdlib.h>
#include <string.h>
#include <time.h>

enum { HEAD_ROOM = 128, AROUND = 20, TURN_ROOM = 1 << 16 };

static const ks_seed seed = {9, 1, 2};
static const ks_life life = {1, 2, 0, 0};
static uint8_t *file, turn[TURN_ROOM], out[KS_DATAGRAM_ROOM];
static size_t size, room;

/* Room for so many bytes at the end of the journal. */
static uint8_t *at_end(size_t len) {
    if (size + len > room && !(file = realloc(file, room = 2 * (size + len)))) exit(1);
    return file + size;
}

static void want(int32_t answer, int32_t wanted) {
    if (answer != wanted) fprintf(stderr, "%s\n", ks_answer_text(answer)), exit(1);
}

/* What was taken is kept in a frame. */
static void keep(ks_server *server) {
    size_t len, more;
    want(ks_server_noted(server, turn, sizeof turn, &len), KS_DONE);
    want(ks_journal_frame(size, turn, len, at_end(len + AROUND), len + AROUND, &more), KS_DONE);
    size += more;
}

static uint64_t take_all(ks_server *server) {
    ks_address to;
    size_t len;
    uint64_t taken = 0;
    while (ks_server_next_out(server, &to, out, sizeof out, &len) == KS_DONE) taken++;
    return taken;
}

/* The k-th datagram: a Confirmable PUT or GET of /t (RFC 7252, section 3), of one of four clients. */
static size_t datagram(uint64_t k, uint8_t *at, ks_address *from) {
    bool puts = k % 4 == 0;
    uint64_t id = k / 4;
    *from = (ks_address){{10, 0, 0, (uint8_t)(k % 4)}, 5683};
    memcpy(at, "\x41\x01\0\0\0\xb1t\xff" "22.3 C", 14);
    at[1] = puts ? 3 : 1;
    at[2] = (uint8_t)(id >> 8), at[3] = at[4] = (uint8_t)id;
    return puts ? 14 : 7;
}

/* Serves so many datagrams and writes the journal of it: how many were answered. */
static uint64_t serve(ks_server *server, uint64_t records, uint64_t a_turn, uint64_t a_second) {
    uint64_t answered = 0;
    uint8_t bytes[16];
    ks_address from;
    for (uint64_t k = 0; k < records;) {
        uint64_t now = k * 1000 / a_second;
        for (uint64_t i = 0; i < a_turn && k < records; i++, k++) {
            size_t len = datagram(k, bytes, &from);
            want(ks_server_feed(server, now, &from, bytes, len, 1), KS_OK);
        }
        keep(server);
        answered += take_all(server);
    }
    return answered;
}

static double seconds(void) {
    return (double)clock() / CLOCKS_PER_SEC;
}

static void measure(uint64_t records, uint64_t a_turn, uint64_t a_second, uint32_t remembered) {
    ks_config config = {.size = sizeof config, .remembered = remembered};
    ks_server server = {0};
    ks_replayed replayed;
    size_t len;
    size = 0;
    want(ks_journal_begin(&config, &seed, &life, at_end(HEAD_ROOM), HEAD_ROOM, &len), KS_DONE);
    size = len;
    want(ks_server_replay(&server, file, size, &replayed), KS_OK);
    double began = seconds();
    uint64_t answered = serve(&server, records, a_turn, a_second);
    double served = seconds();
    want(ks_server_replay(&server, file, size, &replayed), KS_OK);
    double done = seconds();
    if (replayed.end != size || take_all(&server) == 0) exit(1);
    printf("%" PRIu64 " a turn: %" PRIu64 " datagrams, %" PRIu64 " answered, %.1f bytes each; served and written in "
           "%.2f s, replayed in %.2f s\n", a_turn, records, answered, (double)size / (double)records, served - began,
           done - served);
    ks_server_free(&server);
}

int main(int argc, char **argv) {
    uint64_t records = argc > 1 ? strtoull(argv[1], NULL, 10) : 1000000;
    if (ks_version() != KS_VERSION) return fprintf(stderr, "the library is not the header's\n"), 2;
    measure(records, 1, 16, 0);
    measure(records, 64, 256, 65536);
    return free(file), 0;
}
