/* sensor PORT [PERIOD_MS [FILE]]: a CoAP server of one resource, coap://127.0.0.1:PORT/temperature, whose value is measured
 * every PERIOD_MS milliseconds (5,000; 0: once) and notified to those who observe it, where it has changed. It sleeps until
 * a datagram comes or something is due. With a FILE it keeps a journal: it may be killed at any moment, and goes on. */
#include "ks_journal.h"
#include <arpa/inet.h>
#include <poll.h>
#include <stdio.h>
#include <stdlib.h>
#include <string.h>
#include <sys/random.h>
#include <sys/socket.h>
#include <time.h>

enum { LINK_FORMAT = 40, AT_ONCE = 64 }; /* application/link-format (RFC 6690, section 7.3) */

static ks_server server;
static ks_file file = {.fd = -1};
static int udp;

static uint64_t now_ms(void) {
    struct timespec t;
    if (file.fd >= 0) return ks_file_now(&file);
    clock_gettime(CLOCK_MONOTONIC, &t);
    return (uint64_t)t.tv_sec * 1000 + (uint64_t)t.tv_nsec / 1000000;
}

static uint64_t random_word(void) {
    uint64_t word;
    if (getrandom(&word, sizeof word, 0) != sizeof word) exit(1);
    return word;
}

/* What was taken is kept, and then what is out is sent. */
static void send_all(void) {
    static uint8_t out[KS_DATAGRAM_ROOM];
    ks_address to;
    size_t len;
    if (file.fd >= 0 && ks_file_keep(&file, &server) != KS_OK) perror("the journal"), exit(1);
    while (ks_server_next_out(&server, &to, out, sizeof out, &len) == KS_DONE) {
        struct sockaddr_in a = {.sin_family = AF_INET, .sin_port = htons(to.port)};
        memcpy(&a.sin_addr, to.ip, 4);
        /* what the socket does not take is lost, and sent again if it is to be */
        (void)!sendto(udp, out, len, 0, (struct sockaddr *)&a, sizeof a);
    }
}

static void receive_all(void) {
    static uint8_t in[65536];
    struct sockaddr_in a;
    socklen_t a_len = sizeof a;
    ssize_t len;
    for (int n = 0; n < AT_ONCE; n++) {
        if ((len = recvfrom(udp, in, sizeof in, MSG_DONTWAIT, (struct sockaddr *)&a, &a_len)) < 0) break;
        ks_address from = {.port = ntohs(a.sin_port)};
        memcpy(from.ip, &a.sin_addr, 4);
        ks_server_feed(&server, now_ms(), &from, in, (size_t)len, 0); /* a server's feed draws no random numbers */
        a_len = sizeof a;
    }
    send_all();
}

/* What is there, for whoever asks (RFC 6690): the library makes no such list by itself. */
static int32_t list(void) {
    static const char path[] = ".well-known/core", links[] = "</temperature>;obs;ct=0";
    uint64_t version;
    return ks_server_update(&server, 0, path, sizeof path - 1, LINK_FORMAT, links, sizeof links - 1, &version);
}

static void measure(void) {
    char body[16];
    uint64_t version;
    int len = snprintf(body, sizeof body, "%.1f C", 20 + (double)(random_word() % 5));
    int32_t answer = ks_server_update(&server, now_ms(), "temperature", 11, 0, body, (size_t)len, &version);
    if (answer == KS_DONE) printf("version %llu: %s\n", (unsigned long long)version, body);
    else if (answer != KS_OK) printf("refused: %d\n", (int)answer);
    fflush(stdout);
}

/* How long to wait: until the next tick or the next measurement, whichever comes first; -1: for a datagram. */
static int wait_ms(uint64_t now, uint64_t measurement) {
    uint64_t at;
    if (ks_server_due(&server, &at) != KS_DONE || at > measurement) at = measurement;
    if (at == UINT64_MAX) return -1;
    return at <= now ? 0 : at - now < 3600000 ? (int)(at - now) : 3600000;
}

int main(int argc, char **argv) {
    if (argc < 2) return fprintf(stderr, "sensor PORT [PERIOD_MS [FILE]]\n"), 2;
    if (ks_version() != KS_VERSION) return fprintf(stderr, "the library is not the header's\n"), 2;
    uint64_t period = argc > 2 ? strtoull(argv[2], NULL, 10) : 5000, next = 0;
    struct sockaddr_in a = {.sin_family = AF_INET, .sin_port = htons((uint16_t)atoi(argv[1])),
                            .sin_addr = {htonl(INADDR_LOOPBACK)}};
    ks_config config = {.size = sizeof config, .base = ks_base(random_word())};
    ks_seed seed = {random_word(), random_word(), random_word()};
    if (!ks_file_start(&file, &server, argc > 3 ? argv[3] : NULL, &config, &seed) || list() > KS_DONE) return 3;
    udp = socket(AF_INET, SOCK_DGRAM, 0);
    if (udp < 0 || bind(udp, (struct sockaddr *)&a, sizeof a) < 0) return perror("bind"), 1;
    for (;;) {
        uint64_t now = now_ms();
        if (now >= next) {
            measure();
            next = period != 0 ? now + period : UINT64_MAX;
        }
        while (ks_server_tick(&server, now, random_word()) == KS_DONE) {}
        send_all();
        struct pollfd wait = {.fd = udp, .events = POLLIN};
        if (poll(&wait, 1, wait_ms(now_ms(), next)) > 0) receive_all();
    }
}
