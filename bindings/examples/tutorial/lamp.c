/* lamp PORT: a server that holds a lamp, coap://127.0.0.1:PORT/lamp, and prints each change that a client makes. */
#include "knifesilver_easy.h"
#include <arpa/inet.h>
#include <poll.h>
#include <stdio.h>
#include <stdlib.h>
#include <sys/random.h>
#include <time.h>

static uint64_t now_ms(void) {
    struct timespec t;
    clock_gettime(CLOCK_BOOTTIME, &t);
    return (uint64_t)t.tv_sec * 1000 + (uint64_t)t.tv_nsec / 1000000;
}

static uint64_t random_word(void) {
    uint64_t word;
    if (getrandom(&word, sizeof word, 0) != sizeof word) exit(1);
    return word;
}

static void print_change(ks_server *server) {
    static char path[KS_PATH_ROOM];
    ks_applied change;
    if (ks_server_applied(server, &change, path, sizeof path) != KS_DONE) return;
    printf("%.*s: version %llu\n", (int)change.path_len, path, (unsigned long long)(change.version & 0xffffff));
    fflush(stdout);
}

int main(int argc, char **argv) {
    static uint8_t bytes[65536];
    ks_server server = {0};
    ks_config config = {.size = sizeof config, .base = ks_base(random_word())};
    ks_seed seed = {random_word(), random_word(), random_word()};
    struct sockaddr_in at = {.sin_family = AF_INET, .sin_addr = {htonl(INADDR_LOOPBACK)}};
    uint64_t version;
    if (argc != 2) return fprintf(stderr, "lamp PORT\n"), 2;
    if (ks_version() != KS_VERSION) return fprintf(stderr, "the library is not the header's\n"), 2;
    if (ks_server_new(&server, &config, &seed) != KS_OK) return 3;
    if (ks_refused(ks_set_text(&server, now_ms(), "lamp", "off", &version))) return 3;
    int udp = socket(AF_INET, SOCK_DGRAM, 0);
    at.sin_port = htons((uint16_t)atoi(argv[1]));
    if (udp < 0 || bind(udp, (struct sockaddr *)&at, sizeof at) < 0) return perror("bind"), 1;
    for (;;) {
        ks_address peer;
        size_t length;
        uint64_t due, now = now_ms();
        while (ks_server_tick(&server, now, random_word()) == KS_DONE) print_change(&server);
        while (ks_server_next_out(&server, &peer, bytes, sizeof bytes, &length) == KS_DONE) {
            struct sockaddr_in to = {.sin_family = AF_INET, .sin_port = htons(peer.port)};
            memcpy(&to.sin_addr, peer.ip, sizeof peer.ip);
            (void)!sendto(udp, bytes, length, 0, (struct sockaddr *)&to, sizeof to);
        }
        int wait = ks_server_due(&server, &due) != KS_DONE ? -1 : due <= now ? 0 : due - now < 60000 ? (int)(due - now) : 60000;
        struct pollfd on = {.fd = udp, .events = POLLIN};
        if (poll(&on, 1, wait) <= 0) continue;
        struct sockaddr_in from;
        socklen_t from_length = sizeof from;
        ssize_t got = recvfrom(udp, bytes, sizeof bytes, MSG_DONTWAIT, (struct sockaddr *)&from, &from_length);
        if (got < 0 || from.sin_port == 0) continue;
        peer.port = ntohs(from.sin_port);
        memcpy(peer.ip, &from.sin_addr, sizeof peer.ip);
        if (ks_server_feed(&server, now_ms(), &peer, bytes, (size_t)got, 0) == KS_OK) print_change(&server);
    }
}
