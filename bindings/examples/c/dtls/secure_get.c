/* secure_get ADDRESS PORT IDENTITY KEY get PATH | put PATH FILE | delete PATH | observe PATH COUNT: get6.c under DTLS.
 * The call begins when the handshake is over. Status 4: there was no session within 20 s, or within HANDSHAKE_MS. */
#define _GNU_SOURCE
#include "../asking.h"
#include "dtls.h"
#include <netdb.h>
#include <poll.h>
#include <sys/socket.h>
#include <unistd.h>

#define HANDSHAKE_MS 20000u
#define SERVER "server", 6      /* the socket is connected: there is one peer */

enum { STATUS_NO_SESSION = 4 };

static int udp;
static dtls *sessions;
static ks_address server;       /* the name of the session */

static void send_ciphers(void) {
    static uint8_t out[DTLS_ROOM];
    uint8_t peer[KS_KEY_ROOM];
    size_t len, peer_len;
    while (dtls_next_cipher(sessions, peer, &peer_len, out, sizeof out, &len)) (void)!send(udp, out, len, 0);
}

static void send_all(void) {
    static uint8_t out[KS_DATAGRAM_ROOM];
    ks_address to;
    size_t len;
    while (ks_client_next_out(&client, &to, out, sizeof out, &len) == KS_DONE)
        dtls_send(sessions, now_ms(), &to, out, len);
    send_ciphers();
}

static void wait_until(uint64_t at) {
    static uint8_t in[65536];
    uint64_t then;
    struct pollfd wait = {.fd = udp, .events = POLLIN};
    if (dtls_due(sessions, &then)) at = sooner(at, then);
    if (poll(&wait, 1, wait_ms(at)) > 0) {
        ssize_t len = recv(udp, in, sizeof in, 0);
        if (len >= 0) dtls_feed(sessions, now_ms(), SERVER, in, (size_t)len);
    }
    dtls_tick(sessions, now_ms());
}

static int connected(const char *address, const char *port) {
    struct addrinfo *at, wants = {.ai_family = AF_INET6, .ai_socktype = SOCK_DGRAM};
    wants.ai_flags = AI_NUMERICHOST | AI_NUMERICSERV | AI_V4MAPPED;
    if (getaddrinfo(address, port, &wants, &at) != 0) return -1;
    int it = socket(AF_INET6, SOCK_DGRAM | SOCK_NONBLOCK | SOCK_CLOEXEC, 0);
    int failed = it < 0 || connect(it, at->ai_addr, at->ai_addrlen) < 0;
    freeaddrinfo(at);
    return failed ? -1 : it;
}

/* Whether there is a session, within the time of a handshake. */
static bool begins_session(const char *identity, const char *key) {
    static const uint8_t no_secret[DTLS_SECRET]; /* a client makes no cookies */
    const char *within = getenv("HANDSHAKE_MS");
    uint64_t most_ms = within != NULL ? strtoull(within, NULL, 10) : HANDSHAKE_MS;
    const dtls_config config = {.sessions = 2, .handshake_ms = most_ms};
    uint64_t until = now_ms() + most_ms;
    sessions = dtls_new(&config, no_secret);
    if (sessions == NULL || !dtls_open(sessions, now_ms(), SERVER, identity, key, strlen(key), &server)) return false;
    for (send_ciphers(); dtls_state_of(sessions, &server) == DTLS_HANDSHAKE; send_ciphers()) wait_until(until);
    return dtls_state_of(sessions, &server) == DTLS_OPEN;
}

static void feed_plains(void) {
    static uint8_t plain[16384];
    ks_address name;
    size_t len;
    while (dtls_next_plain(sessions, &name, plain, sizeof plain, &len))
        ks_client_feed(&client, now_ms(), &name, plain, len, random_word());
}

static int ask_until_said(void) {
    for (;;) {
        uint64_t at;
        feed_plains();
        tick_client();
        int status = said();
        tick_client(); /* (what was said may have it cancel) */
        send_all();
        if (status != STATUS_GOES_ON) return status;
        if (dtls_state_of(sessions, &server) != DTLS_OPEN)
            return fprintf(stderr, "the session is closed: perhaps applied\n"), STATUS_UNKNOWN;
        wait_until(ks_client_due(&client, &at) == KS_DONE ? at : UINT64_MAX);
    }
}

int main(int argc, char **argv) {
    if (argc < 7) return fprintf(stderr, "secure_get ADDRESS PORT IDENTITY KEY %s\n", ASKING_WORDS), STATUS_WORDS;
    if (ks_version() != KS_VERSION) return fprintf(stderr, "the library is not the header's\n"), STATUS_WORDS;
    udp = connected(argv[1], argv[2]);
    if (udp < 0) return fprintf(stderr, "secure_get: no such address\n"), STATUS_WORDS;
    ks_config config = {.size = sizeof config, .body_limit = sizeof body};
    ks_seed seed = random_seed();
    int status = STATUS_NO_SESSION;
    if (!begins_session(argv[3], argv[4])) fprintf(stderr, "no session\n");
    /* A session is a peer, and has a client of its own. */
    else if (ks_client_new(&client, &server, &config, &seed) != KS_OK) status = STATUS_UNKNOWN;
    else status = ask(argc - 5, argv + 5) ? ask_until_said() : STATUS_WORDS;
    if (sessions != NULL) {
        dtls_close(sessions, &server);
        send_ciphers();
    }
    ks_client_free(&client);
    dtls_free(sessions);
    close(udp);
    return status;
}
