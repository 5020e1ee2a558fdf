/* reuseport PORT THREADS: a server of CoAP on several cores, which has coap://127.0.0.1:PORT/temperature. Each thread
 * has a socket of its own at that port (SO_REUSEPORT) and a server of the library of its own; they have nothing in
 * common. Linux hands all that comes from one peer to one of the sockets, as long as no socket comes or goes. So each
 * peer has one server. Prints `ready` once all sockets are there; after SIGTERM, for each thread, how many datagrams it
 * was fed and the microseconds of processor time that it took. */
#define _GNU_SOURCE
#include "knifesilver.h"
#include <arpa/inet.h>
#include <poll.h>
#include <pthread.h>
#include <signal.h>
#include <stdatomic.h>
#include <stdio.h>
#include <stdlib.h>
#include <string.h>
#include <sys/random.h>
#include <sys/socket.h>
#include <time.h>

enum { MOST_THREADS = 64, MOST_WAIT_MS = 100, REMEMBERED = 1048576, LONGEST = 2048 };
enum { MS_PER_S = 1000, US_PER_S = 1000000, NS_PER_MS = 1000000, NS_PER_US = 1000 };
static const char path[] = "temperature", value[] = "22.3 C";
static atomic_bool is_over;

typedef struct {
    _Alignas(64) ks_server server;  /* on a line of the cache of its own */
    pthread_t thread;
    int udp;
    unsigned long fed, processor_us;
} lane;

static void must(bool holds, const char *what) {
    if (!holds) perror(what), exit(1);
}

static struct timespec clock_of(clockid_t clock) {
    struct timespec t;
    clock_gettime(clock, &t);
    return t;
}

static uint64_t now_ms(void) {
    struct timespec t = clock_of(CLOCK_BOOTTIME);
    return (uint64_t)t.tv_sec * MS_PER_S + (uint64_t)t.tv_nsec / NS_PER_MS;
}

static uint64_t random_word(void) {
    uint64_t word;
    must(getrandom(&word, sizeof word, 0) == sizeof word, "getrandom");
    return word;
}

static int bound_at(const char *port) {
    const int one = 1;
    struct sockaddr_in at = {.sin_family = AF_INET, .sin_port = htons((uint16_t)atoi(port)),
                             .sin_addr = {htonl(INADDR_LOOPBACK)}};
    int udp = socket(AF_INET, SOCK_DGRAM, 0);
    must(udp >= 0 && setsockopt(udp, SOL_SOCKET, SO_REUSEPORT, &one, sizeof one) == 0, "socket");
    must(bind(udp, (struct sockaddr *)&at, sizeof at) == 0, "bind");
    return udp;
}

static void send_all(lane *it) {
    uint8_t out[KS_DATAGRAM_ROOM];
    ks_address to;
    size_t len;
    while (ks_server_next_out(&it->server, &to, out, sizeof out, &len) == KS_DONE) {
        struct sockaddr_in a = {.sin_family = AF_INET, .sin_port = htons(to.port)};
        memcpy(&a.sin_addr, to.ip, sizeof to.ip);
        /* what the socket does not take is lost, and sent again if it is to be */
        (void)!sendto(it->udp, out, len, 0, (struct sockaddr *)&a, sizeof a);
    }
}

/* (What comes from port 0 takes no answer, and is dropped.) */
static void receive_all(lane *it) {
    uint8_t in[LONGEST];
    struct sockaddr_in a;
    socklen_t a_len = sizeof a;
    ssize_t len;
    while ((len = recvfrom(it->udp, in, sizeof in, MSG_DONTWAIT, (struct sockaddr *)&a, &a_len)) >= 0) {
        ks_address from = {.port = ntohs(a.sin_port)};
        memcpy(from.ip, &a.sin_addr, sizeof from.ip);
        if (from.port != 0) it->fed += ks_server_feed(&it->server, now_ms(), &from, in, (size_t)len, 0) == KS_OK;
        send_all(it);
        a_len = sizeof a;
    }
}

/* How long to wait until something is due, MOST_WAIT_MS at most. */
static int wait_ms(lane *it) {
    uint64_t at, now = now_ms();
    if (ks_server_due(&it->server, &at) != KS_DONE || at > now + MOST_WAIT_MS) return MOST_WAIT_MS;
    return at <= now ? 0 : (int)(at - now);
}

/* The thread makes its server itself, so that the memory of that is near to it. */
static void *serve(void *at) {
    lane *it = at;
    const ks_config config = {.size = sizeof config, .remembered = REMEMBERED, .base = ks_base(random_word())};
    const ks_seed seed = {random_word(), random_word(), random_word()};
    uint64_t version;
    must(ks_server_new(&it->server, &config, &seed) == KS_OK, "ks_server_new");
    must(ks_server_set(&it->server, now_ms(), path, sizeof path - 1, 0, value, sizeof value - 1, &version) == KS_OK,
         "ks_server_set");
    while (!is_over) {
        while (ks_server_tick(&it->server, now_ms(), random_word()) == KS_DONE) {}
        send_all(it);
        struct pollfd wait = {.fd = it->udp, .events = POLLIN};
        if (poll(&wait, 1, wait_ms(it)) > 0) receive_all(it);
    }
    struct timespec took = clock_of(CLOCK_THREAD_CPUTIME_ID);
    it->processor_us = (unsigned long)took.tv_sec * US_PER_S + (unsigned long)took.tv_nsec / NS_PER_US;
    ks_server_free(&it->server);
    return NULL;
}

int main(int argc, char **argv) {
    static lane lanes[MOST_THREADS];
    int threads = argc == 3 ? atoi(argv[2]) : 0, signal;
    if (threads < 1 || threads > MOST_THREADS) return fprintf(stderr, "reuseport PORT THREADS\n"), 2;
    if (ks_version() != KS_VERSION) return fprintf(stderr, "the library is not the header's\n"), 2;
    sigset_t end;
    sigemptyset(&end), sigaddset(&end, SIGTERM);
    must(pthread_sigmask(SIG_BLOCK, &end, NULL) == 0, "pthread_sigmask");
    for (int n = 0; n < threads; n++) lanes[n].udp = bound_at(argv[1]);
    for (int n = 0; n < threads; n++)
        must(pthread_create(&lanes[n].thread, NULL, serve, &lanes[n]) == 0, "pthread_create");
    printf("ready\n"), fflush(stdout);
    must(sigwait(&end, &signal) == 0, "sigwait");
    is_over = true;
    for (int n = 0; n < threads; n++) {
        must(pthread_join(lanes[n].thread, NULL) == 0, "pthread_join");
        printf("%lu %lu\n", lanes[n].fed, lanes[n].processor_us);
    }
    return 0;
}
