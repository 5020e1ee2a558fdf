/* doors: how many nanoseconds a GET takes in process, by the store door and by the exchange door: both hand in the same
 * 64 requests and take what is sent. Prints a row for each number of messages that are remembered already. */
#define _GNU_SOURCE
#include "knifesilver_exchange.h"
#include <stdio.h>
#include <stdlib.h>
#include <time.h>

enum { GETS = 64, TIMINGS = 301, URI_PATH = 11, CONTENT_FORMAT = 12, TOKEN_LEN = 2 };
enum { CONTENT = 0x45, NOT_FOUND = 0x84 };
static const ks_seed seed = {1, 2, 3};
static const ks_address client = {{127, 0, 0, 1}, 40001};
static const char path[] = "temperature", value[] = "22.3 C";

static double now_ns(void) {
    struct timespec t;
    clock_gettime(CLOCK_MONOTONIC, &t);
    return (double)t.tv_sec * 1e9 + (double)t.tv_nsec;
}

static void must(bool holds) {
    if (!holds) fprintf(stderr, "doors: a request is not answered\n"), exit(1);
}

/* A Confirmable GET of the path, with the number as Message ID (RFC 7252, section 3): 16 bytes. */
static size_t get(uint8_t *out, uint16_t number) {
    const uint8_t head[] = {0x40, 0x01, (uint8_t)(number >> 8), (uint8_t)number, 0xbb};
    memcpy(out, head, sizeof head);
    memcpy(out + sizeof head, path, sizeof path - 1);
    return sizeof head + sizeof path - 1;
}

static void store(ks_server *server, uint16_t number) {
    uint8_t datagram[32], room[KS_DATAGRAM_ROOM];
    ks_address to;
    size_t len = get(datagram, number);
    must(ks_server_feed(server, 0, &client, datagram, len, number) == KS_OK);
    must(ks_server_next_out(server, &to, room, sizeof room, &len) == KS_DONE);
}

/* The path is looked at, and the answer is made: format and payload. */
static void exchange(ks_answerer *server, uint16_t number) {
    uint8_t datagram[32], room[KS_DATAGRAM_ROOM], text[16];
    ks_request_told request;
    ks_draft draft;
    ks_address to;
    size_t len = get(datagram, number), place = 0, text_len;
    uint16_t option;
    bool here = false;
    must(ks_answerer_feed(server, 0, &client, datagram, len, &request) == KS_DONE);
    while (ks_next_option(datagram, len, &place, &option, text, sizeof text, &text_len) == KS_DONE)
        if (option == URI_PATH) here = text_len == sizeof path - 1 && memcmp(text, path, text_len) == 0;
    ks_draft_begin(&draft, here ? CONTENT : NOT_FOUND);
    ks_draft_uint(&draft, CONTENT_FORMAT, 0);
    ks_draft_payload(&draft, value, sizeof value - 1);
    must(ks_answerer_answer(server, &request.asked, draft.bytes, draft.len) == KS_OK);
    must(ks_answerer_next_out(server, &to, room, sizeof room, &len) == KS_DONE);
}

static double of_store(uint16_t remembered) {
    ks_server server = {0};
    ks_config usual = {0};
    uint64_t version;
    must(ks_server_new(&server, &usual, &seed) == KS_OK);
    must(ks_server_set(&server, 0, path, sizeof path - 1, 0, value, sizeof value - 1, &version) == KS_OK);
    for (uint16_t n = 0; n < remembered; n++) store(&server, n);
    double began = now_ns();
    for (uint16_t n = 0; n < GETS; n++) store(&server, remembered + n);
    double took = (now_ns() - began) / GETS;
    ks_server_free(&server);
    return took;
}

static double of_exchange(uint16_t remembered) {
    ks_answerer server = {0};
    must(ks_answerer_new(&server, 0, &seed) == KS_OK);
    for (uint16_t n = 0; n < remembered; n++) exchange(&server, n);
    double began = now_ns();
    for (uint16_t n = 0; n < GETS; n++) exchange(&server, remembered + n);
    double took = (now_ns() - began) / GETS;
    ks_answerer_free(&server);
    return took;
}

int main(void) {
    static const uint16_t remembered[] = {0, 4000};
    for (size_t i = 0; i < 2; i++) {
        double least[2] = {1e9, 1e9};
        for (int n = 0; n < TIMINGS; n++) {
            double took[2] = {of_store(remembered[i]), of_exchange(remembered[i])};
            for (int door = 0; door < 2; door++)
                if (took[door] < least[door]) least[door] = took[door];
        }
        printf("| GET, %u to %u remembered | %.0f | %.0f | %.2f |\n", remembered[i], remembered[i] + GETS, least[0],
               least[1], least[1] / least[0]);
    }
    return 0;
}
