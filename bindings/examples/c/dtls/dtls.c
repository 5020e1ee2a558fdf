#include "inside.h"
#include <openssl/crypto.h>
#include <openssl/err.h>
#include <openssl/rand.h>
#include <stdlib.h>
#include <sys/time.h>

#define RECORD_HEAD 13          /* bytes of a record before its content (RFC 6347, section 4.1) */
#define RANDOM_AT 27            /* where a ClientHello has its random bytes: record 13, handshake 12, version 2 */
#define PLAIN_ROOM (16384 + 256)
#define HANDSHAKE 22
#define CLIENT_HELLO 1
#define LEAST_TYPE 20
#define MOST_TYPE 25
#define VERSION_FIRST 0xfe

/* A peer is filed by its role: a handshake that began, or a session that is open. */
enum role { BEGUN = 'p', OPEN = 'o' };

/* ---- Sessions ---- */

static session *of_peer(const dtls *d, const void *peer, size_t peer_len, enum role role) {
    uint8_t key[KS_KEY_ROOM];
    ks_address by;
    if (peer_len == 0 || peer_len >= sizeof key) return NULL;
    memcpy(key, peer, peer_len);
    key[peer_len] = (uint8_t)role;
    if (ks_places_find(&d->peers, key, peer_len + 1, &by) != KS_DONE) return NULL;
    return &d->sessions[d->session_of[by.port - 1]];
}

static session *of_name(const dtls *d, const ks_address *name) {
    uint32_t at = ks_places_place(&d->names, name);
    return at != 0 ? &d->sessions[at - 1] : NULL;
}

static void file_by(dtls *d, session *s, enum role role) {
    uint8_t key[KS_KEY_ROOM];
    memcpy(key, s->peer, s->peer_len);
    key[s->peer_len] = (uint8_t)role;
    /* (there are as many places) */
    if (ks_places_from(&d->peers, d->now, key, s->peer_len + 1, &s->by) != KS_DONE) abort();
    ks_places_hold(&d->peers, &s->by);
    d->session_of[s->by.port - 1] = (uint32_t)(s - d->sessions);
}

static void close_session(dtls *d, session *s) {
    if (s->open) SSL_shutdown(s->ssl); /* close_notify is queued */
    else d->begun--;
    if (s->open && d->config.closed != NULL) d->config.closed(d->config.of, &s->name);
    SSL_free(s->ssl);
    ks_places_retire(&d->names, &s->name);
    ks_places_retire(&d->peers, &s->by);
    OPENSSL_cleanse(s, sizeof *s);
}

/* Closes it, and counts why. */
static void close_as(dtls *d, session *s, unsigned long *why) {
    ++*why;
    close_session(d, s);
}

/* How many handshakes there are with the source of this peer. */
static uint32_t begun_with(const dtls *d, const void *peer, size_t peer_len) {
    size_t len = peer_len < d->config.source_len ? peer_len : d->config.source_len;
    uint32_t n = 0;
    for (uint32_t i = 0; i < d->config.sessions; i++) {
        const session *s = &d->sessions[i];
        n += s->ssl != NULL && !s->open && s->peer_len >= len && memcmp(s->peer, peer, len) == 0;
    }
    return n;
}

/* Whether there is a place, where need be that of the session that was silent longest. */
static bool makes_room(dtls *d) {
    session *silent = NULL;
    if (d->names.taken < d->config.sessions) return true;
    for (uint32_t i = 0; i < d->config.sessions; i++) {
        session *s = &d->sessions[i];
        if (s->open && (silent == NULL || s->at < silent->at)) silent = s;
    }
    if (silent == NULL || d->now - silent->at <= d->config.spare_ms) return false;
    close_as(d, silent, &d->told.idle);
    return true;
}

/* A new session of this peer, without a connection yet; NULL: there is no place. */
static session *place(dtls *d, const void *peer, size_t peer_len) {
    ks_address name;
    uint64_t serial = ++d->serial;
    if (d->begun >= d->config.handshakes || begun_with(d, peer, peer_len) >= d->config.handshakes_each) return NULL;
    if (!makes_room(d)) return NULL;
    if (ks_places_from(&d->names, d->now, &serial, sizeof serial, &name) != KS_DONE) return NULL;
    ks_places_hold(&d->names, &name);
    session *s = of_name(d, &name);
    *s = (session){.name = name, .at = d->now, .began = d->now, .peer_len = peer_len};
    memcpy(s->peer, peer, peer_len);
    d->begun++;
    d->told.begun++;
    file_by(d, s, BEGUN);
    return s;
}

/* ---- What is late ---- */

static uint64_t number_of(const uint8_t *record) {
    uint64_t n = 0;
    for (int i = 5; i < 11; i++) n = n << 8 | record[i]; /* (RFC 6347, section 4.1: behind type, version and epoch) */
    return n;
}

/* Whether it was sent before one that came long ago. */
static bool is_late(const dtls *d, const session *s, uint64_t seq) {
    for (unsigned i = 0; i < SPANS; i++)
        if (s->came[i].seq > seq && d->now - s->came[i].at > d->config.late_ms) return true;
    return false;
}

static void note_came(const dtls *d, session *s, uint64_t seq) {
    uint64_t most = s->came[s->newest].seq > seq ? s->came[s->newest].seq : seq;
    if (d->now - s->came[s->newest].began >= d->config.late_ms / 10) {
        s->newest = (s->newest + 1) % SPANS;
        s->came[s->newest].began = d->now;
    }
    s->came[s->newest].at = d->now;
    s->came[s->newest].seq = most;
}

/* ---- What comes ---- */

static bool wants_more(const session *s, int answer) {
    int why = SSL_get_error(s->ssl, answer);
    return why == SSL_ERROR_WANT_READ || why == SSL_ERROR_WANT_WRITE;
}

/* Goes on with the handshake: whether it is over. The session may be gone if it is not. */
static bool is_shaken(dtls *d, session *s) {
    int done = SSL_do_handshake(s->ssl);
    if (done != 1) {
        s->in = NULL;
        if (!wants_more(s, done)) close_as(d, s, &d->told.failed);
        return false;
    }
    session *old = of_peer(d, s->peer, s->peer_len, OPEN);
    if (old != NULL) close_as(d, old, &d->told.closed);
    s->open = true;
    s->at = d->now;
    d->begun--;
    d->told.opened++;
    ks_places_retire(&d->peers, &s->by);
    file_by(d, s, OPEN);
    return true;
}

/* Has the session read what there is. It may be gone afterwards. */
static void run(dtls *d, session *s) {
    static uint8_t room[PLAIN_ROOM];
    uint64_t seq = s->in != NULL && s->open ? number_of(s->in) : 0;
    int len;
    ERR_clear_error();
    if (!s->open && !is_shaken(d, s)) return;
    while ((len = SSL_read(s->ssl, room, sizeof room)) > 0) {
        s->at = d->now;
        d->told.in++;
        note_came(d, s, seq);
        dtls_put(&d->plain, &s->name, NULL, 0, room, (size_t)len);
    }
    s->in = NULL;
    if (!wants_more(s, len)) close_as(d, s, &d->told.closed);
}

static void read_by(dtls *d, session *s, const uint8_t *cipher, size_t len) {
    if (s->open && is_late(d, s, number_of(cipher))) {
        d->told.late++;
        return;
    }
    s->in = cipher;
    s->in_len = len;
    run(d, s);
}

/* Whether a ClientHello has the cookie of its peer. Else nothing is kept of it. */
static bool has_cookie(dtls *d, const void *peer, size_t peer_len, const uint8_t *cipher, size_t len) {
    session *l = &d->listener;
    BIO_ADDR *nobody = BIO_ADDR_new();
    int done = 0;
    if (nobody != NULL && (l->ssl != NULL || dtls_connect(d, l, d->of_server))) {
        memcpy(l->peer, peer, peer_len);
        l->peer_len = peer_len;
        l->in = cipher;
        l->in_len = len;
        ERR_clear_error();
        done = DTLSv1_listen(l->ssl, nobody);
        l->in = NULL;
    }
    BIO_ADDR_free(nobody);
    return done == 1;
}

static void begin(dtls *d, const void *peer, size_t peer_len, const uint8_t *cipher, size_t len) {
    if (!has_cookie(d, peer, peer_len, cipher, len)) return;
    session *s = of_peer(d, peer, peer_len, BEGUN);
    if (s != NULL) close_as(d, s, &d->told.failed); /* it began anew */
    s = place(d, peer, peer_len);
    if (s == NULL) {
        d->told.full++;
        return;
    }
    dtls_hand_over(&d->listener, s);
    memcpy(s->random, cipher + RANDOM_AT, RANDOM_LEN);
    run(d, s);
}

/* A ClientHello: a copy of the one that began a session is that session's, or late. */
static void feed_hello(dtls *d, const void *peer, size_t peer_len, const uint8_t *c, size_t len) {
    session *begun = of_peer(d, peer, peer_len, BEGUN), *open = of_peer(d, peer, peer_len, OPEN);
    if (begun != NULL && memcmp(begun->random, c + RANDOM_AT, RANDOM_LEN) == 0) read_by(d, begun, c, len);
    else if (open != NULL && memcmp(open->random, c + RANDOM_AT, RANDOM_LEN) == 0) d->told.dropped++;
    else begin(d, peer, peer_len, c, len);
}

static bool is_record(const uint8_t *c, size_t len) {
    return len >= RECORD_HEAD && c[0] >= LEAST_TYPE && c[0] <= MOST_TYPE && c[1] == VERSION_FIRST;
}

void dtls_feed(dtls *d, uint64_t now, const void *peer, size_t peer_len, const void *cipher, size_t len) {
    const uint8_t *c = cipher;
    session *begun = of_peer(d, peer, peer_len, BEGUN), *open = of_peer(d, peer, peer_len, OPEN);
    if (now > d->now) d->now = now;
    if (peer_len == 0 || peer_len >= KS_KEY_ROOM || !is_record(c, len)) {
        d->told.dropped++;
        return;
    }
    bool is_clear = c[3] == 0 && c[4] == 0; /* epoch 0: of the handshake */
    bool is_hello = is_clear && c[0] == HANDSHAKE && len >= RANDOM_AT + RANDOM_LEN && c[RECORD_HEAD] == CLIENT_HELLO;
    if (is_hello && d->of_server != NULL && (begun == NULL || !begun->is_client)) {
        feed_hello(d, peer, peer_len, c, len);
        return;
    }
    if (begun == NULL && open == NULL) {
        d->told.dropped++;
        return;
    }
    /* In the clear it is the new handshake's, if there is one; else the keys tell whose it is: the other drops it. */
    if (open != NULL && !(is_clear && begun != NULL)) read_by(d, open, c, len);
    begun = of_peer(d, peer, peer_len, BEGUN);
    if (begun != NULL) read_by(d, begun, c, len);
}

bool dtls_open(dtls *d, uint64_t now, const void *peer, size_t peer_len, const char *identity, const void *key,
               size_t key_len, ks_address *name) {
    if (now > d->now) d->now = now;
    if (peer_len == 0 || peer_len >= KS_KEY_ROOM) return false;
    if (strlen(identity) >= IDENTITY_ROOM || key_len > KEY_ROOM) return false;
    session *s = of_peer(d, peer, peer_len, BEGUN) == NULL ? place(d, peer, peer_len) : NULL;
    if (s == NULL) return false;
    if (!dtls_connect(d, s, d->of_client)) {
        close_session(d, s);
        return false;
    }
    memcpy(s->identity, identity, strlen(identity) + 1);
    memcpy(s->key, key, key_len);
    s->key_len = key_len;
    s->is_client = true;
    SSL_set_connect_state(s->ssl);
    *name = s->name;
    run(d, s);
    return true;
}

enum dtls_state dtls_state_of(const dtls *d, const ks_address *name) {
    const session *s = of_name(d, name);
    return s == NULL ? DTLS_NONE : s->open ? DTLS_OPEN : DTLS_HANDSHAKE;
}

const char *dtls_identity(const dtls *d, const ks_address *name) {
    const session *s = of_name(d, name);
    return s != NULL && s->open ? s->identity : "";
}

void dtls_close(dtls *d, const ks_address *name) {
    session *s = of_name(d, name);
    if (s != NULL) close_session(d, s);
}

/* ---- What goes ---- */

bool dtls_send(dtls *d, uint64_t now, const ks_address *name, const void *plain, size_t len) {
    session *s = of_name(d, name);
    if (now > d->now) d->now = now;
    if (s == NULL || !s->open || len == 0) return false;
    ERR_clear_error();
    s->at = d->now;
    d->told.out++;
    return SSL_write(s->ssl, plain, (int)len) > 0;
}

bool dtls_next_plain(dtls *d, ks_address *name, void *room, size_t room_len, size_t *len) {
    for (item *it; (it = dtls_take(&d->plain)) != NULL;) {
        bool given = it->len <= room_len && of_name(d, &it->name) != NULL;
        if (given) {
            memcpy(room, it->bytes, it->len);
            *len = it->len;
            *name = it->name;
        }
        free(it);
        if (given) return true;
    }
    return false;
}

bool dtls_next_cipher(dtls *d, uint8_t peer[KS_KEY_ROOM], size_t *peer_len, void *room, size_t room_len, size_t *len) {
    for (item *it; (it = dtls_take(&d->cipher)) != NULL;) {
        bool given = it->len <= room_len;
        if (given) {
            memcpy(room, it->bytes, it->len);
            memcpy(peer, it->peer, it->peer_len);
            *len = it->len;
            *peer_len = it->peer_len;
        }
        free(it);
        if (given) return true;
    }
    return false;
}

/* ---- Time ---- */

/* When something is due of it. */
static uint64_t due_of(const dtls *d, const session *s) {
    struct timeval left;
    if (s->open) return s->at + d->config.idle_ms + 1;
    uint64_t given_up = s->began + d->config.handshake_ms + 1;
    if (DTLSv1_get_timeout(s->ssl, &left) != 1) return given_up;
    uint64_t again = d->now + (uint64_t)left.tv_sec * 1000 + (uint64_t)left.tv_usec / 1000 + 1;
    return again < given_up ? again : given_up;
}

bool dtls_due(dtls *d, uint64_t *at) {
    bool there = false;
    for (uint32_t i = 0; i < d->config.sessions; i++) {
        if (d->sessions[i].ssl == NULL) continue;
        uint64_t then = due_of(d, &d->sessions[i]);
        if (!there || then < *at) *at = then;
        there = true;
    }
    return there;
}

void dtls_tick(dtls *d, uint64_t now) {
    if (now > d->now) d->now = now;
    for (uint32_t i = 0; i < d->config.sessions; i++) {
        session *s = &d->sessions[i];
        if (s->ssl == NULL) continue;
        bool is_idle = s->open && d->now - s->at > d->config.idle_ms;
        bool fails = !s->open && (d->now - s->began > d->config.handshake_ms || DTLSv1_handle_timeout(s->ssl) < 0);
        if (is_idle) close_as(d, s, &d->told.idle);
        else if (fails) close_as(d, s, &d->told.failed);
    }
}

const dtls_counts *dtls_told(const dtls *d) { return &d->told; }

uint32_t dtls_sessions(const dtls *d) { return (uint32_t)d->names.taken; }

/* ---- Making it ---- */

static void fill_in(dtls_config *c) {
    if (c->sessions == 0 || c->sessions > UINT16_MAX) c->sessions = 256;
    if (c->handshakes == 0) c->handshakes = 64;
    if (c->handshakes_each == 0) c->handshakes_each = 8;
    if (c->source_len == 0) c->source_len = 16;
    if (c->idle_ms == 0) c->idle_ms = 86400000u + KS_PLACES_KEEP_MS;
    if (c->spare_ms == 0) c->spare_ms = KS_PLACES_KEEP_MS;
    if (c->late_ms == 0) c->late_ms = 100000;
    if (c->handshake_ms == 0) c->handshake_ms = 60000;
    if (c->first_ms == 0) c->first_ms = 1000;
    if (c->ciphers == NULL)
        c->ciphers = "PSK-AES128-CCM8:PSK-AES128-CCM:PSK-AES128-GCM-SHA256:PSK-CHACHA20-POLY1305:@SECLEVEL=0";
}

dtls *dtls_new(const dtls_config *config, const uint8_t secret[DTLS_SECRET]) {
    dtls *d = calloc(1, sizeof *d);
    uint64_t keys[2];
    if (d == NULL) return NULL;
    d->config = *config;
    fill_in(&d->config);
    memcpy(d->secret, secret, sizeof d->secret);
    d->plain.last = &d->plain.first;
    d->cipher.last = &d->cipher.first;
    uint32_t count = d->config.sessions;
    d->sessions = calloc(count, sizeof *d->sessions);
    d->places = calloc(2 * (size_t)count, sizeof *d->places);
    d->session_of = calloc(count, sizeof *d->session_of);
    if (d->sessions == NULL || d->places == NULL || d->session_of == NULL || !dtls_make_contexts(d)
        || RAND_bytes((unsigned char *)keys, sizeof keys) != 1) {
        dtls_free(d);
        return NULL;
    }
    ks_places_init(&d->names, d->places, count, 0, keys[0], keys[1]);
    ks_places_init(&d->peers, d->places + count, count, 0, keys[1], keys[0]);
    return d;
}

void dtls_free(dtls *d) {
    if (d == NULL) return;
    for (uint32_t i = 0; d->sessions != NULL && i < d->config.sessions; i++) SSL_free(d->sessions[i].ssl);
    SSL_free(d->listener.ssl);
    for (item *it; (it = dtls_take(&d->plain)) != NULL;) free(it);
    for (item *it; (it = dtls_take(&d->cipher)) != NULL;) free(it);
    dtls_free_contexts(d);
    free(d->sessions);
    free(d->places);
    free(d->session_of);
    OPENSSL_cleanse(d, sizeof *d);
    free(d);
}
