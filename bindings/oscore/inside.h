/* inside.h: what the files of ks_oscore share. */
#ifndef KS_OSCORE_INSIDE_H
#define KS_OSCORE_INSIDE_H

#include "ks_oscore.h"
#include <openssl/evp.h>

#define HEADER_LEN 4
#define TOKEN_ROOM 8
#define KEY_LEN 16
#define NONCE_LEN 13
#define TAG_LEN 8
#define PIV_ROOM 5
#define DIGEST_LEN 32
#define CHECK_LEN 16
#define WINDOW 256u                 /* so many numbers behind the greatest may still come */
#define MOST_NUMBERS (1ull << 40)   /* a Partial IV has at most 5 bytes */
#define ASKED 64                    /* requests of ours */
#define TAKEN 256                   /* requests of the peer */
#define HEARD 8                     /* notifications that are told apart from older ones */

enum { CON = 0, NON = 1, ACK = 2 };
enum { URI_HOST = 3, ETAG = 4, OBSERVE = 6, URI_PORT = 7, OSCORE = 9, PROXY_URI = 35, PROXY_SCHEME = 39 };
enum { POST = 0x02, FETCH = 0x05, CHANGED = 0x44, CONTENT = 0x45 };
enum { NOT_OBSERVING = -1, REGISTERS = 0, CANCELS = 1 };

/* ---- Messages ---- */

typedef struct { const uint8_t *at; size_t len; } span;

/* Type, Message ID and token: what a message is told by outside. */
typedef struct { uint8_t type, token_len, id[2], token[TOKEN_ROOM]; } head;

typedef struct {
    head head;
    uint8_t code;
    span options, payload;
    span observe, oscore;           /* the values of these options; at is NULL where there is none */
    bool has_proxy_uri, has_outer;  /* Proxy-Uri; an option that stays outside */
} message;

typedef struct { span value; uint32_t number; } option;
typedef struct { const uint8_t *at, *end; uint32_t number; } option_reader;
typedef struct { uint8_t *at; size_t room, len; uint32_t number; bool is_full; } writer;

/* False where it is no message of CoAP, or has Observe twice or in over 3 bytes, or OSCORE twice. */
bool message_read(const uint8_t *bytes, size_t len, message *m);
/* The code, options and payload that were sealed, as a message with no head. */
bool inner_read(const uint8_t *bytes, size_t len, message *m);
bool option_next(option_reader *r, option *o);
option_reader options_of(const message *m);
bool is_outer(uint32_t number);
bool is_request(uint8_t code);
bool is_response(uint8_t code);

void put(writer *w, const void *bytes, size_t len);
void put_head(writer *w, const head *h, uint8_t code);
void put_option(writer *w, uint32_t number, span value);
void put_payload(writer *w, span payload);

/* The value of option 9 (RFC 8613, section 6.1); at of kid is NULL where there is none. */
typedef struct { span piv, kid, id_context; } oscore_value;
bool oscore_read(span value, oscore_value *v);
size_t oscore_write(const oscore_value *v, uint8_t bytes[KS_OSCORE_MORE]);
size_t piv_of(uint64_t number, uint8_t piv[PIV_ROOM]);
uint64_t number_of(span piv);

/* ---- Cipher ---- */

typedef struct {
    uint8_t sender_key[KEY_LEN], recipient_key[KEY_LEN], iv[NONCE_LEN];
    uint8_t check[CHECK_LEN];       /* names these keys in the file of numbers */
    ks_oscore_word sender, recipient, id_context;
    EVP_CIPHER_CTX *seals, *opens;
} cipher;

/* The nonce is of an ID and a Partial IV; kid and request_piv are the request's, or those of which this answers. */
typedef struct { span id, piv, kid, request_piv; } binding;

int32_t cipher_begin(cipher *c, const ks_oscore_keys *keys);
void cipher_end(cipher *c);
/* `out` has room for the text and TAG_LEN bytes. KS_OK or KS_NO_MEMORY. */
int32_t cipher_seal(cipher *c, const binding *b, span text, uint8_t *out);
/* .. for the text without its TAG_LEN bytes. KS_OK, KS_OSCORE_FORGED or KS_NO_MEMORY. */
int32_t cipher_open(cipher *c, const binding *b, span sealed, uint8_t *out);
bool digest_of(span text, uint8_t digest[DIGEST_LEN]);

/* ---- Numbers ---- */

typedef struct {
    int fd;                         /* -1: no file */
    bool is_broken;                 /* a write failed */
    uint64_t turn;                  /* of the last record */
    uint64_t next, reserved;        /* ours: the next; the first that is not written as used */
    uint64_t above;                 /* the peer's: one more than the greatest that came */
    uint8_t came[WINDOW / 8];       /* a bit for each of the last WINDOW, at its number modulo WINDOW */
    uint8_t check[CHECK_LEN];
} numbers;

enum came { NUMBER_NEW, NUMBER_CAME, NUMBER_OLD };

int32_t numbers_open(numbers *n, const char *file, bool begins, const uint8_t check[CHECK_LEN]);
void numbers_close(numbers *n);
/* A number of ours that was never used: KS_OK, KS_OSCORE_SPENT or KS_OSCORE_FILE_FAILED. */
int32_t numbers_take(numbers *n, uint64_t *number);
enum came numbers_look(const numbers *n, uint64_t number);
/* Notes that this one came: KS_OK or KS_OSCORE_FILE_FAILED, after which it did not. */
int32_t numbers_note(numbers *n, uint64_t number);

/* ---- Requests that may be answered ---- */

#define UNDER_REQUEST 0             /* in the place of a number: the request's nonce; else the number is one less */
#define SENT 2

/* What was sealed: the digest of its plain datagram. */
typedef struct { uint8_t digest[DIGEST_LEN]; uint64_t at, number; bool is_there; } sent;
typedef struct { head head; uint64_t number; bool is_there; } heard;

/* A request, ours or the peer's. */
typedef struct {
    bool is_there, is_answered;
    int observe;                    /* NOT_OBSERVING, REGISTERS or CANCELS */
    uint64_t at, used, number;      /* when it came or went; when something last did under it; its sequence number */
    head head;
    uint8_t same[DIGEST_LEN];       /* of the request without Observe and ETag */
    sent sent[SENT];                /* ours: itself. The peer's: under its nonce; the last of a number of its own */
    heard heard[HEARD];             /* responses to ours */
} exchange;

typedef struct { exchange *at; size_t count; } table;

struct ks_oscore {
    cipher cipher;
    numbers numbers;
    uint64_t now;
    exchange asked[ASKED], taken[TAKEN];
};

int observe_of(const message *m);
/* The digest of a request but for Observe and ETag, which alone may differ where an observation is registered anew or
 * cancelled (RFC 7641, sections 3.1 and 3.6). */
bool same_of(const message *m, uint8_t digest[DIGEST_LEN]);
/* What was sealed of this very datagram, as long as it may go out again. */
exchange *sealed_before(ks_oscore *c, table t, const sent *now, const sent **which);

/* Ours: the earlier ones of its token are answered no more, but for the observation that it cancels. */
void asked_put(ks_oscore *c, const exchange *made);
bool is_same_token(const head *a, const head *b);
/* Whether a response of this number came under this head, or may come: KS_OSCORE_COPY, KS_DONE or KS_OSCORE_REPLAYED.
 * Where nothing is observed there is one response. */
int32_t asked_hear(exchange *e, const head *h, uint64_t number);

/* The peer's, of this number, or NULL. */
exchange *taken_as(ks_oscore *c, uint64_t number);
bool is_copy_of(const ks_oscore *c, const exchange *e, const head *h);
/* Whether no other request of the peer, which may still be answered, has this token: else the end's answer to one of
 * them would be taken for one to the other. */
bool has_own_token(const ks_oscore *c, const exchange *made);
/* A free place, or that of the oldest which is answered no more; or NULL. */
exchange *taken_place(ks_oscore *c);
void taken_put(ks_oscore *c, const exchange *made, exchange *place);
/* The request that this response of ours is to, or NULL. An acknowledgement has its Message ID, and all its token. */
exchange *request_of(ks_oscore *c, const message *m);
void taken_answered(ks_oscore *c, exchange *e, bool observes);

#endif
