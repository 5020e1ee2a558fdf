/* exchanges KIND COUNT: a client and a server of the library do COUNT exchanges, one after the other, through two links
 * in memory. KIND is get (22.3 C of `temperature`), tick (the same, and the server ticks after each datagram, as a
 * program's loop has it), put (the same there) or block (one of the blocks of a body of 65,536 bytes that is fetched). Moments, words and keys are fixed, so each run does the same. For bench/profile/run, which
 * counts the instructions of client_turn and server_turn. */
#include "knifesilver.h"
#include <stdio.h>
#include <stdlib.h>
#include <string.h>

#define APART_MS 64             /* between two exchanges: some 3,860 messages are remembered for 247 s */
#define BODY_LEN 65536
#define BLOCK_LEN 1024
#define PATH "temperature"
#define TEXT "22.3 C"

static const ks_address server_at = {{127, 0, 0, 1}, 5683}, client_at = {{127, 0, 0, 1}, 40001};
static ks_server server;
static ks_client client;
static uint8_t up[KS_DATAGRAM_ROOM], down[KS_DATAGRAM_ROOM], body[BODY_LEN];
static size_t up_len, down_len;
static bool ticks;
static const ks_tag none;

static void must(bool right, const char *what) {
    if (right) return;
    fprintf(stderr, "exchanges: %s\n", what);
    exit(1);
}

/* The server takes what is on the way up and gives its answer. */
__attribute__((noinline)) static void server_turn(uint64_t now) {
    ks_address to;
    must(ks_server_feed(&server, now, &client_at, up, up_len, 0) == KS_OK, "the server takes no datagram");
    if (ticks) must(ks_server_tick(&server, now, 1) == KS_OK, "something is due");
    must(ks_server_next_out(&server, &to, down, sizeof down, &down_len) == KS_DONE, "the server has no answer");
}

/* The client takes what is on the way down, if anything is, and gives its next request: whether there is one. */
__attribute__((noinline)) static bool client_turn(uint64_t now) {
    ks_address to;
    if (down_len > 0) must(ks_client_feed(&client, now, &server_at, down, down_len, 1) == KS_OK, "the client takes none");
    down_len = 0;
    while (ks_client_tick(&client, now, 1) == KS_DONE) {}
    return ks_client_next_out(&client, &to, up, sizeof up, &up_len) == KS_DONE;
}

/* One call, to its report: how many exchanges it took. */
static unsigned long call(const ks_request *request, const char *sent, uint64_t now) {
    uint64_t id;
    ks_report report;
    unsigned long exchanges = 0;
    must(ks_client_call(&client, now, request, PATH, strlen(PATH), sent, strlen(sent), &none, 0, &none, 0, &id) == KS_OK,
         "the call is not taken");
    while (client_turn(now)) {
        server_turn(now);
        exchanges++;
    }
    must(ks_client_next_report(&client, &report, body, sizeof body) == KS_DONE, "there is no report");
    must(report.kind == KS_BODY || report.kind == KS_SUCCESS, "the call did not succeed");
    return exchanges;
}

int main(int argc, char **argv) {
    must(argc == 3, "words: get|tick|put|block COUNT");
    bool puts = strcmp(argv[1], "put") == 0, blocks = strcmp(argv[1], "block") == 0;
    ticks = strcmp(argv[1], "tick") == 0;
    unsigned long wanted = strtoul(argv[2], NULL, 10), done = 0;
    ks_config config = {0};
    ks_seed seed = {1, 2, 3};
    uint64_t now = 0, version;
    memset(body, 'x', sizeof body);
    must(ks_server_new(&server, &config, &seed) == KS_OK, "no server");
    must(ks_client_new(&client, &server_at, &config, &seed) == KS_OK, "no client");
    must(ks_server_set(&server, 0, PATH, strlen(PATH), 0, blocks ? (const void *)body : TEXT,
                       blocks ? BODY_LEN : strlen(TEXT), &version) == KS_OK, "the path is not set");
    ks_request request = {.method = puts ? KS_PUT : KS_GET, .format = puts ? 0 : KS_NO_FORMAT, .accept = KS_NO_FORMAT};
    while (done < wanted)
        done += call(&request, puts ? TEXT : "", now += APART_MS * (blocks ? BODY_LEN / BLOCK_LEN : 1));
    printf("%lu\n", done);
    ks_server_free(&server);
    ks_client_free(&client);
}
