/* get6 ADDRESS PORT get PATH | put PATH FILE | delete PATH | observe PATH COUNT: a client of a server with an IPv6 or
 * IPv4 address, as ::1, fe80::1%eth0 or 127.0.0.1. That nobody listens there is said at once, by the socket; what was
 * asked goes on, since a server may begin late. */
#define _GNU_SOURCE
#include "asking.h"
#include <errno.h>
#include <netdb.h>
#include <poll.h>
#include <sys/socket.h>
#include <unistd.h>

static int udp;

/* A connected socket: what comes is from this server alone, so one name is enough. */
static const ks_address server = {{0, 0, 0, 1}, 1};

static void note_nobody(void) {
    if (errno == ECONNREFUSED) fprintf(stderr, "nobody listens there, so far\n");
}

static void send_all(void) {
    static uint8_t out[KS_DATAGRAM_ROOM];
    ks_address to;
    size_t len;
    while (ks_client_next_out(&client, &to, out, sizeof out, &len) == KS_DONE)
        if (send(udp, out, len, 0) < 0) note_nobody();
}

static void receive(void) {
    static uint8_t in[65536];
    ssize_t len = recv(udp, in, sizeof in, 0);
    if (len < 0) note_nobody();
    else ks_client_feed(&client, now_ms(), &server, in, (size_t)len, random_word());
}

static int connected(const char *address, const char *port) {
    struct addrinfo *at, wants = {.ai_family = AF_INET6, .ai_socktype = SOCK_DGRAM};
    wants.ai_flags = AI_NUMERICHOST | AI_NUMERICSERV | AI_V4MAPPED;
    if (getaddrinfo(address, port, &wants, &at) != 0) return -1;
    int it = socket(AF_INET6, SOCK_DGRAM | SOCK_NONBLOCK | SOCK_CLOEXEC, 0);
    int failed = it < 0 || connect(it, at->ai_addr, at->ai_addrlen) < 0;
    freeaddrinfo(at);
    return failed ? -1 : it;
}

int main(int argc, char **argv) {
    if (argc < 5) return fprintf(stderr, "get6 ADDRESS PORT %s\n", ASKING_WORDS), STATUS_WORDS;
    if (ks_version() != KS_VERSION) return fprintf(stderr, "the library is not the header's\n"), STATUS_WORDS;
    if ((udp = connected(argv[1], argv[2])) < 0) return fprintf(stderr, "get6: no such address\n"), STATUS_WORDS;
    ks_config config = {.size = sizeof config, .body_limit = sizeof body};
    ks_seed seed = random_seed();
    if (ks_client_new(&client, &server, &config, &seed) != KS_OK || !ask(argc - 3, argv + 3)) return STATUS_WORDS;
    int status;
    for (;;) {
        uint64_t at;
        tick_client();
        status = said();
        tick_client(); /* (what was said may have it cancel) */
        send_all();
        if (status != STATUS_GOES_ON) break;
        struct pollfd wait = {.fd = udp, .events = POLLIN};
        if (poll(&wait, 1, wait_ms(ks_client_due(&client, &at) == KS_DONE ? at : UINT64_MAX)) > 0) receive();
    }
    ks_client_free(&client);
    close(udp);
    return status;
}
