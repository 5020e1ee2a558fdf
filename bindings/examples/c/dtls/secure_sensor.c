/* secure_sensor PORT ADDRESS PERIOD_MS IDENTITY:KEY:RIGHTS..: sensor6.c under DTLS, for those who have a key. RIGHTS
 * are r or rw. Everyone with a key reads. Who has w makes and removes what is not the sensor's own; /temperature and
 * /.well-known/core are read-only (4.05); to others nothing is writable (4.03). KNIFESILVER_PCAP names a capture of the
 * messages, in the clear; IDLE_MS, after which silence a session is closed. SIGTERM ends it. */
#define _GNU_SOURCE
#include "../running.h"
#include "dtls.h"
#include "ks_udp6.h"
#include <poll.h>

#define MOST_USERS 16

static ks_server server;
static dtls *sessions;
static int udp;
static unsigned long fed, refused, unknown;
static struct user { char identity[64], key[64], rights[4]; } users[MOST_USERS];
static int users_len;

static const struct user *user_of(const char *identity) {
    for (int i = 0; i < users_len; i++)
        if (strcmp(users[i].identity, identity) == 0) return &users[i];
    return NULL;
}

static size_t key_of(void *of, const char *identity, uint8_t *key, size_t room) {
    const struct user *it = user_of(identity);
    (void)of;
    if (it == NULL || strlen(it->key) > room) return 0;
    memcpy(key, it->key, strlen(it->key));
    return strlen(it->key);
}

/* What the server has of a session goes with it: its observations, its uploads, its requests that wait. */
static void forget(void *of, const ks_address *name) {
    (void)of;
    ks_server_forget(&server, name);
}

static void send_all(void) {
    static uint8_t out[DTLS_ROOM];
    uint8_t peer[KS_KEY_ROOM];
    ks_address to;
    size_t len, peer_len;
    while (ks_server_next_out(&server, &to, out, sizeof out, &len) == KS_DONE) {
        note(&own_address, &to, out, len);
        if (!dtls_send(sessions, now_ms(), &to, out, len)) unknown++; /* the session is closed */
    }
    while (dtls_next_cipher(sessions, peer, &peer_len, out, sizeof out, &len)) ks_udp6_send(udp, peer, out, len);
}

/* The code of a refusal, or 0. It is one of the session's identity, the method and the path, which no copy changes. */
static uint8_t verdict(const char *identity, const ks_message *m, const char *path) {
    const struct user *it = user_of(identity);
    if (!is_write(m)) return 0;
    if (it == NULL || strcmp(it->rights, "rw") != 0) return KS_CODE(4, 03);
    return is_fixed(m, path) ? KS_CODE(4, 05) : 0;
}

static void serve(void) {
    static uint8_t in[65536];
    static char path[3 * sizeof in];
    uint8_t answer[KS_REFUSAL_ROOM];
    ks_address name;
    ks_message m;
    size_t len, answer_len;
    while (dtls_next_plain(sessions, &name, in, sizeof in, &len)) {
        bool is_message = ks_peek(in, len, &m, path, sizeof path) == KS_OK;
        uint8_t code = is_message ? verdict(dtls_identity(sessions, &name), &m, path) : 0;
        note(&name, &own_address, in, len);
        if (code == 0) {
            ks_server_feed(&server, now_ms(), &name, in, len, 0);
            fed++;
        } else {
            refused++;
            if (ks_refuse(in, len, code, answer, sizeof answer, &answer_len) == KS_DONE) {
                note(&own_address, &name, answer, answer_len);
                dtls_send(sessions, now_ms(), &name, answer, answer_len);
            }
        }
        send_all();
    }
}

static void receive(void) {
    static uint8_t in[65536];
    uint8_t peer[KS_UDP6_KEY];
    ssize_t len;
    for (int i = 0; i < MOST_AT_ONCE && (len = ks_udp6_receive(udp, in, sizeof in, peer)) != KS_UDP6_NONE; i++) {
        if (len >= 0) dtls_feed(sessions, now_ms(), peer, sizeof peer, in, (size_t)len);
        serve();
    }
}

static bool take_users(int count, char **words) {
    for (users_len = 0; users_len < count && users_len < MOST_USERS; users_len++) {
        struct user *it = &users[users_len];
        if (sscanf(words[users_len], "%63[^:]:%63[^:]:%3s", it->identity, it->key, it->rights) != 3) return false;
    }
    return true;
}

static bool begin_all(char **words) {
    dtls_config of_dtls = {.psk = key_of, .closed = forget, .hint = "sensor"};
    uint64_t secret[DTLS_SECRET / 8];
    ks_config config = {.size = sizeof config, .base = ks_base(random_word())};
    ks_seed seed = random_seed();
    if (getenv("IDLE_MS") != NULL) of_dtls.idle_ms = strtoull(getenv("IDLE_MS"), NULL, 10);
    for (size_t i = 0; i < DTLS_SECRET / 8; i++) secret[i] = random_word();
    udp = ks_udp6_open(words[1], (uint16_t)atoi(words[0]));
    sessions = dtls_new(&of_dtls, (uint8_t *)secret);
    return udp >= 0 && sessions != NULL && ks_server_new(&server, &config, &seed) == KS_OK && tell_links(&server);
}

int main(int argc, char **argv) {
    if (argc < 5 || !take_users(argc - 4, argv + 4))
        return fprintf(stderr, "secure_sensor PORT ADDRESS PERIOD_MS IDENTITY:KEY:RIGHTS..\n"), 2;
    if (ks_version() != KS_VERSION) return fprintf(stderr, "the library is not the header's\n"), 2;
    end_by_signal();
    if (!begin_all(argv + 1)) return perror("secure_sensor"), 1;
    uint64_t period = strtoull(argv[3], NULL, 10), next = 0, due;
    begin_capture();
    while (!is_over) {
        if (now_ms() >= next) {
            measure(&server);
            next = period != 0 ? now_ms() + period : UINT64_MAX;
        }
        dtls_tick(sessions, now_ms());
        while (ks_server_tick(&server, now_ms(), random_word()) == KS_DONE) {}
        send_all();
        uint64_t at = ks_server_due(&server, &due) == KS_DONE ? sooner(next, due) : next;
        if (dtls_due(sessions, &due)) at = sooner(at, due);
        struct pollfd wait = {.fd = udp, .events = POLLIN};
        if (poll(&wait, 1, wait_ms(at)) > 0) receive();
    }
    const dtls_counts *t = dtls_told(sessions);
    printf("fed %lu refused %lu unknown %lu cookies %lu handshakes %lu opened %lu ", fed, refused, unknown, t->asked,
           t->begun, t->opened);
    printf("failed %lu closed %lu idle %lu full %lu sessions %u\n", t->failed, t->closed, t->idle, t->full,
           (unsigned)dtls_sessions(sessions));
    ks_server_free(&server);
    dtls_free(sessions);
    return end_capture();
}
