/* mirror PORT DEVICE [PATH [FRESH_MS]]: observes coap://127.0.0.1:DEVICE/PATH (temperature), and serves what it reads
 * at coap://127.0.0.1:PORT/PATH for FRESH_MS milliseconds (60,000). Then the path is gone, until the device says
 * something again. It has a client and a server, each with a socket of its own. mirror.h says what holds. */
#include "knifesilver.h"
#include "mirror.h"
#include <arpa/inet.h>
#include <poll.h>
#include <stdio.h>
#include <stdlib.h>
#include <sys/random.h>
#include <sys/socket.h>
#include <time.h>

enum { OF_DEVICE, OWN };
static int udp[2];
static ks_server server;
static mirror shown;

static uint64_t now_ms(void) {
    struct timespec t;
    clock_gettime(CLOCK_MONOTONIC, &t);
    return (uint64_t)t.tv_sec * 1000 + (uint64_t)t.tv_nsec / 1000000;
}

static uint64_t random_word(void) {
    uint64_t word;
    if (getrandom(&word, sizeof word, 0) != sizeof word) exit(1);
    return word;
}

static int bound(int port) {
    struct sockaddr_in a = {.sin_family = AF_INET, .sin_addr = {htonl(INADDR_LOOPBACK)}};
    a.sin_port = htons((uint16_t)port);
    int it = socket(AF_INET, SOCK_DGRAM, 0);
    if (it < 0 || bind(it, (struct sockaddr *)&a, sizeof a) < 0) exit((perror("bind"), 1));
    return it;
}

static void send_to(int socket, const ks_address *to, const void *bytes, size_t len) {
    struct sockaddr_in a = {.sin_family = AF_INET, .sin_port = htons(to->port)};
    memcpy(&a.sin_addr, to->ip, 4);
    /* what the socket does not take is lost, and sent again if it is to be */
    (void)!sendto(socket, bytes, len, 0, (struct sockaddr *)&a, sizeof a);
}

static void send_all(void) {
    static uint8_t out[KS_DATAGRAM_ROOM];
    ks_address to;
    size_t len;
    while (ks_client_next_out(&shown.client, &to, out, sizeof out, &len) == KS_DONE)
        send_to(udp[OF_DEVICE], &to, out, len);
    while (ks_server_next_out(&server, &to, out, sizeof out, &len) == KS_DONE) send_to(udp[OWN], &to, out, len);
}

/* Who may do what: clients of the mirror read. */
static bool is_write(const void *datagram, size_t len) {
    static char path[3 * 65536];
    ks_message m;
    return ks_peek(datagram, len, &m, path, sizeof path) == KS_OK && m.code >= KS_POST && m.code <= KS_DELETE;
}

static void receive_all(int end) {
    static uint8_t in[65536];
    struct sockaddr_in a;
    socklen_t a_len = sizeof a;
    ssize_t got;
    while ((got = recvfrom(udp[end], in, sizeof in, MSG_DONTWAIT, (struct sockaddr *)&a, &a_len)) >= 0) {
        ks_address from = {.port = ntohs(a.sin_port)};
        size_t len = (size_t)got;
        memcpy(from.ip, &a.sin_addr, 4);
        if (end == OF_DEVICE) ks_client_feed(&shown.client, now_ms(), &from, in, len, random_word());
        else if (is_write(in, len)) ks_server_refuse(&server, now_ms(), &from, in, len, 0);
        else ks_server_feed(&server, now_ms(), &from, in, len, 0);
        send_all();
        a_len = sizeof a;
    }
}

/* Until something is due. */
static int wait_ms(uint64_t now) {
    uint64_t at = mirror_due(&shown), due;
    if (ks_client_due(&shown.client, &due) == KS_DONE && due < at) at = due;
    if (ks_server_due(&server, &due) == KS_DONE && due < at) at = due;
    return at <= now ? 0 : at - now < 3600000 ? (int)(at - now) : 3600000;
}

int main(int argc, char **argv) {
    if (argc < 3) return fprintf(stderr, "mirror PORT DEVICE [PATH [FRESH_MS]]\n"), 2;
    if (ks_version() != KS_VERSION) return fprintf(stderr, "the library is not the header's\n"), 2;
    ks_address device = {{127, 0, 0, 1}, (uint16_t)atoi(argv[2])};
    ks_config usual = {.size = sizeof usual, .base = ks_base(random_word())};
    ks_seed seeds[] = {{random_word(), random_word(), random_word()}, {random_word(), random_word(), random_word()}};
    if (ks_client_new(&shown.client, &device, &usual, &seeds[OF_DEVICE]) != KS_OK) return 1;
    if (ks_server_new(&server, &usual, &seeds[OWN]) != KS_OK) return 1;
    shown.server = &server;
    shown.path = argc > 3 ? argv[3] : "temperature";
    shown.fresh_ms = argc > 4 ? strtoull(argv[4], NULL, 10) : 60000;
    udp[OWN] = bound(atoi(argv[1])), udp[OF_DEVICE] = bound(0);
    for (bool did_show = false;; did_show = shown.shows) {
        uint64_t now = now_ms();
        do {
            while (ks_client_tick(&shown.client, now, random_word()) == KS_DONE) {}
        } while (mirror_turn(&shown, now));
        if (shown.shows != did_show) puts(shown.shows ? "the device is there" : "nothing is shown"), fflush(stdout);
        while (ks_server_tick(&server, now, random_word()) == KS_DONE) {}
        send_all();
        struct pollfd wait[] = {{.fd = udp[OF_DEVICE], .events = POLLIN}, {.fd = udp[OWN], .events = POLLIN}};
        if (poll(wait, 2, wait_ms(now_ms())) <= 0) continue;
        for (int end = OF_DEVICE; end <= OWN; end++)
            if (wait[end].revents & POLLIN) receive_all(end);
    }
}
