/* inside.h: what dtls.c (sessions) and openssl.c (what OpenSSL calls) share. */
#ifndef DTLS_INSIDE_H
#define DTLS_INSIDE_H

#include "dtls.h"
#include <openssl/ssl.h>

#define RANDOM_LEN 32
#define IDENTITY_ROOM 129       /* an identity has at most 128 bytes (RFC 4279, section 5.3) */
#define KEY_ROOM 64
#define SPANS 12                /* late_ms is looked back at in tenths, and a little more */

typedef struct {
    SSL *ssl;                   /* NULL: the place is free */
    ks_address name;
    ks_address by;              /* in the table of peers */
    uint64_t at, began;         /* last use; begin */
    const uint8_t *in;          /* the datagram that is being read, or NULL */
    size_t in_len, peer_len;
    bool open, is_client;
    uint8_t peer[KS_KEY_ROOM - 1];
    uint8_t random[RANDOM_LEN]; /* of the ClientHello that began it */
    uint8_t key[KEY_ROOM];      /* a client's */
    size_t key_len;
    char identity[IDENTITY_ROOM];
    /* By the moment `at` a record of number `seq` had come; each stands for a tenth of late_ms. */
    struct { uint64_t began, at, seq; } came[SPANS];
    unsigned newest;
} session;

/* A datagram that waits: a plaintext has a name, a ciphertext a peer. */
typedef struct item {
    struct item *next;
    ks_address name;
    size_t peer_len, len;
    uint8_t peer[KS_KEY_ROOM];
    uint8_t bytes[];
} item;

typedef struct { item *first, **last; size_t count; } queue;

struct dtls {
    dtls_config config;
    dtls_counts told;
    SSL_CTX *of_server, *of_client;
    BIO_METHOD *datagrams;
    session *sessions, listener;    /* a session has the number of its name's place, less 1; the listener is none */
    ks_places names, peers;          /* a session's number to its name; a peer, begun or open, to its session */
    ks_name_place *places;
    uint32_t *session_of;           /* by the place in `peers` */
    uint64_t now, serial, begun;
    queue plain, cipher;
    uint8_t secret[DTLS_SECRET];
};

void dtls_put(queue *q, const ks_address *name, const uint8_t *peer, size_t peer_len, const void *bytes, size_t len);
item *dtls_take(queue *q);

/* Has the session a connection of this context, that reads what is in `in` and writes to the queue. */
bool dtls_connect(dtls *d, session *s, SSL_CTX *of);
/* The connection of one becomes that of the other. */
void dtls_hand_over(session *from, session *to);
/* Both contexts, by the configuration. */
bool dtls_make_contexts(dtls *d);
void dtls_free_contexts(dtls *d);

#endif
