#include "inside.h"
#include <openssl/bio.h>
#include <openssl/crypto.h>
#include <openssl/evp.h>
#include <openssl/hmac.h>
#include <openssl/rand.h>
#include <stdlib.h>

#define MTU 1232                /* 1,280 of IPv6 without its and UDP's header */
#define OVERHEAD 48
#define QUEUE_MOST 1024
#define MINUTE_MS 60000
#define LONGEST_US 60000000u    /* of a handshake timer */
#define UNKNOWN_KEY_LEN 16

static dtls *of_ssl(const SSL *ssl) { return SSL_CTX_get_app_data(SSL_get_SSL_CTX(ssl)); }

static session *session_of(const SSL *ssl) { return (session *)SSL_get_app_data(ssl); }

/* ---- Queues ---- */

void dtls_put(queue *q, const ks_address *name, const uint8_t *peer, size_t peer_len, const void *bytes, size_t len) {
    item *it = q->count < QUEUE_MOST ? malloc(sizeof *it + len) : NULL;
    if (it == NULL) return;
    *it = (item){.name = *name, .peer_len = peer_len, .len = len};
    if (peer_len != 0) memcpy(it->peer, peer, peer_len);
    memcpy(it->bytes, bytes, len);
    *q->last = it;
    q->last = &it->next;
    q->count++;
}

item *dtls_take(queue *q) {
    item *it = q->first;
    if (it == NULL) return NULL;
    q->first = it->next;
    if (q->first == NULL) q->last = &q->first;
    q->count--;
    return it;
}

/* ---- A BIO of datagrams: one to read, and what is written is queued ---- */

static int bio_read(BIO *bio, char *room, int room_len) {
    session *s = BIO_get_data(bio);
    BIO_clear_retry_flags(bio);
    if (s->in == NULL) {
        BIO_set_retry_read(bio);
        return -1;
    }
    int len = s->in_len < (size_t)room_len ? (int)s->in_len : room_len;
    memcpy(room, s->in, (size_t)len);
    s->in = NULL;
    return len;
}

static int bio_write(BIO *bio, const char *bytes, int len) {
    session *s = BIO_get_data(bio);
    dtls_put(&of_ssl(s->ssl)->cipher, &s->name, s->peer, s->peer_len, bytes, (size_t)len);
    return len;
}

static long bio_ctrl(BIO *bio, int what, long number, void *pointer) {
    (void)bio, (void)number, (void)pointer;
    switch (what) {
    case BIO_CTRL_FLUSH: return 1;
    case BIO_CTRL_DGRAM_QUERY_MTU:
    case BIO_CTRL_DGRAM_GET_FALLBACK_MTU: return MTU;
    case BIO_CTRL_DGRAM_GET_MTU_OVERHEAD: return OVERHEAD;
    default: return 0;
    }
}

/* The next handshake timer, behind one of so many microseconds. */
static unsigned int timer(SSL *ssl, unsigned int us) {
    unsigned int first = of_ssl(ssl)->config.first_ms * 1000;
    return us == 0 ? first : us >= LONGEST_US / 2 ? LONGEST_US : us * 2;
}

bool dtls_connect(dtls *d, session *s, SSL_CTX *of) {
    BIO *bio = BIO_new(d->datagrams);
    s->ssl = SSL_new(of);
    if (bio == NULL || s->ssl == NULL) {
        BIO_free(bio);
        SSL_free(s->ssl);
        s->ssl = NULL;
        return false;
    }
    BIO_set_init(bio, 1);
    BIO_set_data(bio, s);
    SSL_set_bio(s->ssl, bio, bio);
    SSL_set_app_data(s->ssl, (char *)s);
    SSL_set_mtu(s->ssl, MTU);
    DTLS_set_timer_cb(s->ssl, timer);
    return true;
}

void dtls_hand_over(session *from, session *to) {
    to->ssl = from->ssl;
    from->ssl = NULL;
    BIO_set_data(SSL_get_rbio(to->ssl), to);
    SSL_set_app_data(to->ssl, (char *)to);
}

/* ---- OpenSSL's questions ---- */

/* A cookie is a keyed hash of the minute and the peer, so none is kept. */
static bool cookie_of(dtls *d, const session *s, uint64_t minute, unsigned char *cookie, unsigned int *len) {
    uint8_t said[sizeof minute + sizeof s->peer];
    memcpy(said, &minute, sizeof minute);
    memcpy(said + sizeof minute, s->peer, s->peer_len);
    return HMAC(EVP_sha256(), d->secret, sizeof d->secret, said, sizeof minute + s->peer_len, cookie, len) != NULL;
}

static int make_cookie(SSL *ssl, unsigned char *cookie, unsigned int *len) {
    dtls *d = of_ssl(ssl);
    d->told.asked++;
    return cookie_of(d, session_of(ssl), d->now / MINUTE_MS, cookie, len);
}

/* A cookie of this minute or of the last one is good. */
static int check_cookie(SSL *ssl, const unsigned char *cookie, unsigned int len) {
    dtls *d = of_ssl(ssl);
    uint64_t minute = d->now / MINUTE_MS;
    for (uint64_t before = 0; before < 2 && before <= minute; before++) {
        unsigned char own[EVP_MAX_MD_SIZE];
        unsigned int own_len;
        if (!cookie_of(d, session_of(ssl), minute - before, own, &own_len) || len != own_len) continue;
        if (CRYPTO_memcmp(cookie, own, len) == 0) return 1;
    }
    return 0;
}

static unsigned int key_of_peer(SSL *ssl, const char *identity, unsigned char *key, unsigned int room) {
    dtls *d = of_ssl(ssl);
    session *s = session_of(ssl);
    bool fits = strlen(identity) < sizeof s->identity;
    size_t len = fits ? d->config.psk(d->config.of, identity, key, room) : 0;
    if (len == 0) /* nobody knows this key */
        return room >= UNKNOWN_KEY_LEN && RAND_bytes(key, UNKNOWN_KEY_LEN) == 1 ? UNKNOWN_KEY_LEN : 0;
    memcpy(s->identity, identity, strlen(identity) + 1);
    return (unsigned int)len;
}

static unsigned int own_key(SSL *ssl, const char *hint, char *identity, unsigned int identity_room, unsigned char *key,
                            unsigned int room) {
    const session *s = session_of(ssl);
    (void)hint;
    if (strlen(s->identity) >= identity_room || s->key_len > room) return 0;
    memcpy(identity, s->identity, strlen(s->identity) + 1);
    memcpy(key, s->key, s->key_len);
    return (unsigned int)s->key_len;
}

/* ---- Contexts ---- */

static SSL_CTX *context(dtls *d, const SSL_METHOD *method) {
    SSL_CTX *of = SSL_CTX_new(method);
    if (of == NULL || SSL_CTX_set_min_proto_version(of, DTLS1_2_VERSION) != 1
        || SSL_CTX_set_cipher_list(of, d->config.ciphers) != 1) {
        SSL_CTX_free(of);
        return NULL;
    }
    SSL_CTX_set_options(of, SSL_OP_NO_RENEGOTIATION | SSL_OP_NO_TICKET | SSL_OP_NO_QUERY_MTU | SSL_OP_COOKIE_EXCHANGE
                                | SSL_OP_CIPHER_SERVER_PREFERENCE);
    SSL_CTX_set_max_send_fragment(of, DTLS_ROOM); /* no plaintext is longer, and a session takes 14 kB less */
    SSL_CTX_set_session_cache_mode(of, SSL_SESS_CACHE_OFF);
    SSL_CTX_set_app_data(of, (char *)d);
    return of;
}

bool dtls_make_contexts(dtls *d) {
    d->datagrams = BIO_meth_new(BIO_get_new_index() | BIO_TYPE_SOURCE_SINK, "datagrams");
    d->of_client = context(d, DTLS_client_method());
    if (d->datagrams == NULL || d->of_client == NULL) return false;
    BIO_meth_set_read(d->datagrams, bio_read);
    BIO_meth_set_write(d->datagrams, bio_write);
    BIO_meth_set_ctrl(d->datagrams, bio_ctrl);
    SSL_CTX_set_psk_client_callback(d->of_client, own_key);
    if (d->config.psk == NULL) return true;
    d->of_server = context(d, DTLS_server_method());
    if (d->of_server == NULL) return false;
    SSL_CTX_set_cookie_generate_cb(d->of_server, make_cookie);
    SSL_CTX_set_cookie_verify_cb(d->of_server, check_cookie);
    SSL_CTX_set_psk_server_callback(d->of_server, key_of_peer);
    return d->config.hint == NULL || SSL_CTX_use_psk_identity_hint(d->of_server, d->config.hint) == 1;
}

void dtls_free_contexts(dtls *d) {
    SSL_CTX_free(d->of_server);
    SSL_CTX_free(d->of_client);
    BIO_meth_free(d->datagrams);
}
