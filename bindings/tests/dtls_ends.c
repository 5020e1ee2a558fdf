/* All of it at once, without sockets: one server and its clients under dtls.c, over a network that loses, repeats and
 * delays; clients close their sessions, or die, and begin anew at the same UDP address or another; half of them may not
 * write. What must hold: each request is applied at most once; after KS_SUCCESS it was, after KS_FAILED never; nothing
 * is applied of who may not; no name comes twice; of a session that is closed the server has nothing. dtls_ends
 * [SECONDS] [SEED] */
#define _GNU_SOURCE
#include "dtls.h"
#include "knifesilver_easy.h"
#include <stdio.h>
#include <stdlib.h>
#include <time.h>

#define CLIENTS 12
#define MOST 200000
#define MOST_GONE 64

static uint64_t s = 88172645463325252u, now;
static uint64_t rnd(void) { return s ^= s << 13, s ^= s >> 7, s ^= s << 17; }
static void broken(const char *what, long n) { printf("%s (%ld, at %.1f s)\n", what, n, (double)now / 1000), exit(1); }

typedef struct {
    uint64_t at;
    bool up;
    uint64_t peer;
    size_t len;
    uint8_t bytes[1400];
} flying;
static flying air[4096];
static size_t air_len;
static unsigned long passed;

static void fly(bool up, uint64_t peer, const uint8_t *bytes, size_t len) {
    for (uint64_t copies = rnd() % 100 < 12 ? 0 : rnd() % 100 < 12 ? 2 : 1; copies > 0 && air_len < 4096; copies--) {
        flying *f = &air[air_len++];
        f->at = now + (rnd() % 10 ? rnd() % 300 : rnd() % 20000), f->up = up, f->peer = peer, f->len = len;
        memcpy(f->bytes, bytes, len), passed++;
    }
}

static struct caller {
    dtls *d;
    ks_client c;
    ks_address name;
    uint64_t peer, opened;
    bool has, runs;
    long call;
} callers[CLIENTS];
static dtls *sessions_of;
static ks_server server;
static uint8_t applied[MOST], ended[MOST], writer[MOST];
static long asked, sessions, died, full, told[16];
static ks_address gone[MOST_GONE];
static size_t gone_len, forgotten;

static size_t key_of(void *of, const char *identity, uint8_t *key, size_t room) {
    (void)of, (void)room;
    return strncmp(identity, "user", 4) == 0 ? (memcpy(key, identity, strlen(identity)), strlen(identity)) : 0;
}

/* What the server has of a session goes with it. */
static void forget(void *of, const ks_address *name) {
    (void)of;
    int32_t had = ks_server_forget(&server, name);
    if (had < 0 || gone_len == MOST_GONE) exit(2);
    forgotten += had == KS_DONE;
    gone[gone_len++] = *name;
}

static void ask_applied(void) {
    char path[KS_PATH_ROOM];
    uint8_t body[1200];
    ks_applied done;
    ks_representation shown;
    if (ks_server_applied(&server, &done, path, sizeof path) != KS_DONE) return;
    if (ks_server_get(&server, path, done.path_len, &shown, body, sizeof body - 1) != KS_DONE)
        broken("nothing is there", 0);
    body[shown.body_len] = 0;
    long n = atol((char *)body);
    if (n <= 0 || n > asked || applied[n]++ != 0) broken("applied twice", n);
    if (!writer[n]) broken("applied of who may not write", n);
    if (ended[n] == KS_FAILED) broken("applied after it failed", n);
}

/* A client without a session: the last one is gone, by a close or by death, and what ran is perhaps applied. */
static void leave(struct caller *c) {
    if (c->has) ks_client_free(&c->c);
    dtls_free(c->d);
    c->d = NULL, c->has = c->runs = false, died++;
    if (rnd() % 2) c->peer = (uint64_t)(c - callers) + CLIENTS * (1 + rnd() % 1000000);
}

static void live(struct caller *c) {
    static const uint8_t secret[32];
    char identity[32];
    uint8_t out[1400], peer[KS_KEY_ROOM];
    size_t len, peer_len;
    ks_address to;
    long me = c - callers;
    snprintf(identity, sizeof identity, "user%ld%c", me, me % 2 ? 'r' : 'w');
    if (c->d == NULL) {
        c->d = dtls_new(&(dtls_config){.sessions = 2, .first_ms = 1}, secret), c->opened = now;
        if (!dtls_open(c->d, now, "server", 6, identity, identity, strlen(identity), &c->name)) exit(2);
    }
    dtls_tick(c->d, now);
    int state = dtls_state_of(c->d, &c->name);
    if (state == DTLS_NONE || (state == DTLS_HANDSHAKE && now - c->opened > 30000)) leave(c);
    else if (state == DTLS_OPEN) {
        if (!c->has) {
            ks_config config = {.size = sizeof config, .block_size = 256};
            ks_seed seed = {rnd(), rnd(), rnd()};
            if (ks_client_new(&c->c, &c->name, &config, &seed) != KS_OK) exit(2);
            c->has = true, sessions++;
        }
        if (!c->runs && asked + 1 < MOST) {
            char path[16], body[1100];
            ks_request put = {.format = 0, .accept = KS_NO_FORMAT, .method = KS_PUT};
            ks_tag none = {0};
            uint64_t id;
            int n = snprintf(body, sizeof body, "%ld ", ++asked);
            memset(body + n, 'x', sizeof body - (size_t)n);
            n += rnd() % 2 ? 0 : (int)(rnd() % (sizeof body - (size_t)n));
            c->call = asked, writer[asked] = me % 2 == 0, c->runs = true;
            if (ks_client_call(&c->c, now, &put, path,
                               (size_t)snprintf(path, sizeof path, "p/%u", (unsigned)(rnd() % 9)), body, (size_t)n,
                               &none, 0, &none, 0, &id)
                != KS_OK)
                exit(2);
        }
        while (ks_client_tick(&c->c, now, rnd()) == KS_DONE) {}
        while (ks_client_next_out(&c->c, &to, out, sizeof out, &len) == KS_DONE) dtls_send(c->d, now, &to, out, len);
        ks_report r;
        while (ks_client_next_report(&c->c, &r, out, sizeof out) == KS_DONE) {
            ended[c->call] = r.kind, told[r.kind]++, c->runs = false;
            if (r.kind == KS_SUCCESS && applied[c->call] != 1) broken("a success that was not applied once", c->call);
            if (r.kind == KS_FAILED && applied[c->call] != 0) broken("a failure that was applied", c->call);
            /* (a body in blocks whose caller died without a word keeps one of 16 places until its session is closed, or
             * for 247 s: then others are told 5.03) */
            if (r.kind == KS_FAILED && writer[c->call] && r.code != KS_CODE(5, 3))
                broken("a writer was refused", r.code);
            if (r.kind == KS_FAILED && r.code == KS_CODE(5, 3)) full++;
        }
        if (rnd() % 600 == 0) {
            if (rnd() % 2) dtls_close(c->d, &c->name); /* with close_notify; else it dies */
            while (dtls_next_cipher(c->d, peer, &peer_len, out, sizeof out, &len)) fly(true, c->peer, out, len);
            leave(c);
        }
    }
    if (c->d != NULL)
        while (dtls_next_cipher(c->d, peer, &peer_len, out, sizeof out, &len)) fly(true, c->peer, out, len);
}

static void serve(void) {
    uint8_t in[1400], out[1400], peer[KS_KEY_ROOM];
    char path[2000];
    size_t len, peer_len;
    ks_address name;
    ks_message m;
    while (dtls_next_plain(sessions_of, &name, in, sizeof in, &len)) {
        bool writes = ks_peek(in, len, &m, path, sizeof path) == KS_OK && m.code >= 2 && m.code <= 4;
        const char *who = dtls_identity(sessions_of, &name);
        bool refuses = writes && who[strlen(who) - 1] != 'w';
        int32_t took = refuses ? ks_server_refuse(&server, now, &name, in, len, 0)
                               : ks_server_feed(&server, now, &name, in, len, 0);
        if (took != KS_OK) exit(2);
        ask_applied();
    }
    dtls_tick(sessions_of, now);
    while (ks_server_tick(&server, now, rnd()) == KS_DONE) ask_applied();
    while (ks_server_next_out(&server, &name, out, sizeof out, &len) == KS_DONE)
        dtls_send(sessions_of, now, &name, out, len);
    for (size_t i = 0; i < gone_len; i++)
        if (ks_server_knows(&server, now, &gone[i]) != KS_OK) broken("something is left of a session", (long)i);
    gone_len = 0;
    while (dtls_next_cipher(sessions_of, peer, &peer_len, out, sizeof out, &len)) {
        uint64_t to;
        memcpy(&to, peer, 8);
        fly(false, to, out, len);
    }
}

int main(int argc, char **argv) {
    uint64_t until = (argc > 1 ? strtoull(argv[1], NULL, 10) : 3000) * 1000;
    static const uint8_t secret[32] = {7};
    if (argc > 2) s ^= strtoull(argv[2], NULL, 10) * 0x9e3779b97f4a7c15u;
    ks_config config = {.size = sizeof config, .remembered = 100000};
    ks_seed seed = {rnd(), rnd(), rnd()};
    sessions_of = dtls_new(&(dtls_config){.sessions = 64,
                                          .psk = key_of,
                                          .closed = forget,
                                          .first_ms = 1,
                                          .handshake_ms = 30000,
                                          .idle_ms = 400000},
                           secret);
    if (sessions_of == NULL || ks_server_new(&server, &config, &seed) != KS_OK
        || ks_server_set_delay(&server, "p/3", 3, 700) != KS_OK)
        return 2;
    for (long i = 0; i < CLIENTS; i++) callers[i].peer = (uint64_t)i;
    for (; now < until + 300000; now += 100) {
        if (now % 5000 == 0) nanosleep(&(struct timespec){0, 300000}, NULL); /* OpenSSL's timers go by the clock */
        for (long i = 0; i < CLIENTS && now < until; i++) live(&callers[i]);
        for (size_t i = 0; i < air_len;) {
            if (air[i].at > now) {
                i++;
                continue;
            }
            flying f = air[i];
            air[i] = air[--air_len];
            if (f.up) dtls_feed(sessions_of, now, &f.peer, sizeof f.peer, f.bytes, f.len), serve();
            for (long k = 0; k < CLIENTS && !f.up; k++) {
                struct caller *c = &callers[k];
                uint8_t plain[1400];
                ks_address name;
                size_t len;
                if (c->d == NULL || c->peer != f.peer) continue;
                dtls_feed(c->d, now, "server", 6, f.bytes, f.len);
                while (dtls_next_plain(c->d, &name, plain, sizeof plain, &len))
                    if (c->has) ks_client_feed(&c->c, now, &name, plain, len, rnd());
            }
        }
        serve();
    }
    long once = 0, refused = 0;
    for (long n = 1; n <= asked; n++) {
        once += applied[n];
        refused += ended[n] == KS_FAILED;
        if (ended[n] == KS_SUCCESS && applied[n] != 1) broken("in the end", n);
    }
    const dtls_counts *t = dtls_told(sessions_of);
    printf("%.0f s, %ld calls in %ld sessions (%ld left): %ld success, %ld refused (%ld by 5.03), %ld timeouts, %ld "
           "more; %ld applied, each once; %lu ciphertexts, "
           "%lu handshakes of which %lu opened, %lu closed, %lu idle; of %zu something was forgotten\n",
           (double)until / 1000, asked, sessions, died, told[KS_SUCCESS], refused, full, told[KS_TIMEOUT],
           asked - told[KS_SUCCESS] - refused - told[KS_TIMEOUT], once, passed, t->begun, t->opened, t->closed,
           t->idle, forgotten);
    for (long i = 0; i < CLIENTS; i++)
        if (callers[i].d != NULL) leave(&callers[i]);
    ks_server_free(&server), dtls_free(sessions_of);
    return 0;
}
