/* dtls.h: DTLS 1.2 with pre-shared keys under an end of knifesilver, over OpenSSL 3. It has no socket. Ciphertexts go
 * in and out as datagrams with the identity of the UDP peer (bytes, as of ks_udp6.h); plaintexts have the name of the
 * session (as of ks_places.h).
 *
 *     a datagram came from `peer`:
 *         dtls_feed(d, now, peer, peer_len, bytes, len);
 *         while (dtls_next_plain(d, &name, room, ..)) ks_server_feed(&server, now, &name, ..);
 *     each turn:
 *         dtls_tick(d, now);
 *         while (ks_server_next_out(&server, &name, ..) == KS_DONE) dtls_send(d, now, &name, ..);
 *         while (dtls_next_cipher(d, peer, &peer_len, room, ..)) send room to `peer`;
 *     wait until the earlier of ks_server_due and dtls_due.
 *
 *  - A name is a session's. It is known from the end of its handshake until its close, and never again. A new session
 *    of the same client is a new peer to the end, and wants a new ks_client at the client.
 *  - Nothing is kept of a peer that did not return a cookie (RFC 6347, section 4.2.1). No plaintext is given out before
 *    the handshake is over on this side: who sent it knows the key of dtls_identity(d, name).
 *  - A session lives beside a new handshake of the same UDP peer until that is over (RFC 6347, section 4.2.8). Who
 *    forges an address ends no session.
 *  - A ciphertext that comes twice is given out once. A copy that a client makes of a message is a new ciphertext, and
 *    is told by the end, as ever.
 *  - Nothing comes over 100 s late, where that can be known. A record is older than one with a higher number that came
 *    100 s ago, and is dropped. The last record of a session that says nothing more can be held back for longer on the
 *    way, and nobody knows.
 *  - An unknown identity gets a random key. It fails as a wrong key does, by silence: nothing tells who is known.
 *  - There is no renegotiation, no ticket, no resumption (it would skip the look at the identity), no early data.
 *  - OpenSSL keeps the time of handshake timers by the wall clock, and not by `now`.
 *
 * What cannot be sent or kept (no memory, a queue of over 1,024) is lost, as on the way. Nothing of this is proved. */
#ifndef DTLS_H
#define DTLS_H

#include "ks_places.h"

typedef struct dtls dtls;

/* 0 in a field is the usual, which stands behind it. */
typedef struct {
    uint32_t sessions;          /* at most, with handshakes: 256 */
    uint32_t handshakes;        /* at once, at most: 64 */
    uint32_t handshakes_each;   /* at once of one source: 8 */
    size_t source_len;          /* so many bytes at the front of a peer are its source: 16, the address of ks_udp6.h */
    uint64_t idle_ms;           /* a session to and from which nothing went for so long is closed: a day and 247 s */
    uint64_t spare_ms;          /* where all places are taken, one that was silent for so long makes room: 247 s */
    uint64_t late_ms;           /* what is known to have been sent before that long is dropped: 100 s */
    uint64_t handshake_ms;      /* after which a handshake is given up: 60 s */
    uint32_t first_ms;          /* first handshake timer, which doubles: 1 s */
    const char *ciphers;        /* OpenSSL's names */
    const char *hint;           /* the server's identity hint, or NULL */
    /* A server's: the key of an identity, its length, or 0 for none. NULL: no server. */
    size_t (*psk)(void *of, const char *identity, uint8_t *key, size_t room);
    /* Told of each session that was open and is closed, while its name is still its own; or NULL. It calls nothing of
     * dtls.h. A server forgets the name here (ks_server_forget), which no other session gets. */
    void (*closed)(void *of, const ks_address *name);
    void *of;
} dtls_config;

typedef struct {
    unsigned long asked;        /* cookies that were asked for */
    unsigned long begun, opened, failed;    /* handshakes with a cookie, or of our own */
    unsigned long closed, idle; /* sessions that the peer closed; that were idle */
    unsigned long full;         /* handshakes without a place */
    unsigned long in, out;      /* plaintexts */
    unsigned long dropped;      /* ciphertexts of no session */
    unsigned long late;         /* ciphertexts that are over 100 s old */
} dtls_counts;

enum dtls_state { DTLS_NONE, DTLS_HANDSHAKE, DTLS_OPEN };

#define DTLS_SECRET 32          /* random bytes, of which the cookies are made */
#define DTLS_ROOM 2048          /* no ciphertext that goes out is longer */

dtls *dtls_new(const dtls_config *config, const uint8_t secret[DTLS_SECRET]);
void dtls_free(dtls *d);

/* A client's: begins a handshake with this peer. *name is the session's, which may be used from DTLS_OPEN on. */
bool dtls_open(dtls *d, uint64_t now, const void *peer, size_t peer_len, const char *identity, const void *key,
               size_t key_len, ks_address *name);
enum dtls_state dtls_state_of(const dtls *d, const ks_address *name);
/* Whose session it is; "" of a name that is not known. */
const char *dtls_identity(const dtls *d, const ks_address *name);
void dtls_close(dtls *d, const ks_address *name);

void dtls_feed(dtls *d, uint64_t now, const void *peer, size_t peer_len, const void *cipher, size_t len);
bool dtls_next_plain(dtls *d, ks_address *name, void *room, size_t room_len, size_t *len);
/* False: there is no such session. */
bool dtls_send(dtls *d, uint64_t now, const ks_address *name, const void *plain, size_t len);
bool dtls_next_cipher(dtls *d, uint8_t peer[KS_KEY_ROOM], size_t *peer_len, void *room, size_t room_len, size_t *len);
bool dtls_due(dtls *d, uint64_t *at);
void dtls_tick(dtls *d, uint64_t now);

const dtls_counts *dtls_told(const dtls *d);
uint32_t dtls_sessions(const dtls *d);      /* how many there are, with handshakes */

#endif
