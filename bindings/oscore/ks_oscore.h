/* ks_oscore.h: OSCORE (RFC 8613) between the socket and an end of knifesilver, below either of its doors, for clients
 * and servers: AES-CCM-16-64-128 and HKDF SHA-256, by OpenSSL 3. It has no socket. Nothing of this is proved.
 *
 *     what an end has out:
 *         answer = ks_oscore_seal(c, now, plain, len, &out);      KS_DONE, KS_OSCORE_PASSED: send out. Else it is lost
 *     what came:
 *         answer = ks_oscore_open(c, now, datagram, len, &out);
 *         KS_DONE, KS_OSCORE_COPY, KS_OSCORE_PASSED: feed out. A request that is KS_DONE moves the address of its peer
 *             to where this came from; nothing else does
 *         KS_OSCORE_UNPROTECTED_REQUEST: send what ks_refuse(datagram, len, KS_OSCORE_UNAUTHORIZED, ..) writes
 *         else: feed nothing, send nothing
 *
 * A context is what two ends share, and one program at a time has it. Type, Message ID and token stay outside, so
 * retransmission, separate responses, observations and blocks are the end's, as without it. What rests on it:
 *  - Who knows no key makes no end take a request, or a client's a response. An unprotected response is fed to nobody.
 *  - No nonce is used for two plaintexts. Sequence numbers are written to a file before they are used, 1,000 at a time.
 *    A response has the nonce of its request once, and else a number of its own. A copy of a datagram that went out is
 *    sealed to the same bytes: for 47 s of a request, for 247 s of a response.
 *  - Each sealed request is fed under one type, Message ID and token, and its copies for 247 s. Later, and under others,
 *    it is a replay. The numbers that came are written before what they brought is fed. How old a request is that comes
 *    for the first time is not known: it may be held back for as long as fewer than 256 newer ones came.
 *  - A request has a token that no other has which may still be answered, so each response is bound to its own request.
 *    The cancel of an observation, and its registration anew, have that observation's token.
 * A peer's name (ks_names_fed) is that of its context, whatever its address is. An end answers within 247 s, or never:
 * give no path a longer delay. Who restarts a server has no observers: they register anew.
 *
 * Options that stay outside: Uri-Host, Uri-Port, Proxy-Scheme; Observe is on both sides. A message with Proxy-Uri is
 * not sealed. The value of Observe in a notification is the low 24 bits of its sequence number. */
#ifndef KS_OSCORE_H
#define KS_OSCORE_H

#include "knifesilver.h"

#ifdef __cplusplus
extern "C" {
#endif

#define KS_OSCORE_MORE 96           /* a sealed datagram has at most so many bytes more than the plain one */
#define KS_OSCORE_ROOM 2048         /* no datagram that is sealed or opened is longer */
#define KS_OSCORE_WORD_ROOM 32      /* a secret, salt or ID context is no longer */
#define KS_OSCORE_ID_ROOM 7         /* an ID of a sender or recipient is no longer (RFC 8613, section 3.3) */
#define KS_OSCORE_UNAUTHORIZED 0x81 /* 4.01 */

enum ks_oscore_answer {
    KS_OSCORE_PASSED = 161,                 /* an Empty message, as it is */
    KS_OSCORE_COPY = 162,                   /* what was opened before, under the same type, Message ID and token */
    KS_OSCORE_UNPROTECTED_REQUEST = 163,
    KS_OSCORE_UNPROTECTED_RESPONSE = 164,
    KS_OSCORE_MALFORMED = 165,              /* no message of CoAP, or of OSCORE, or one that cannot be sealed */
    KS_OSCORE_OTHER_CONTEXT = 166,          /* it names another context */
    KS_OSCORE_FORGED = 167,                 /* it does not open */
    KS_OSCORE_REPLAYED = 168,
    KS_OSCORE_UNASKED = 169,                /* a response to no request that is known */
    KS_OSCORE_TOKEN_USED = 170,             /* a request with the token of one that may still be answered */
    KS_OSCORE_FULL = 171,                   /* as many requests may still be answered as there are places */
    KS_OSCORE_SPENT = 172,                  /* each sequence number was used: the context needs new keys */
    KS_OSCORE_FILE_FAILED = 173,            /* the file of numbers: see errno. After a write that failed, for good */
    KS_OSCORE_FILE_FOREIGN = 174,           /* .. is none, or of other keys */
    KS_OSCORE_FILE_DAMAGED = 175,           /* .. has no whole record */
    KS_OSCORE_FILE_TAKEN = 176              /* .. is another program's now */
};

typedef struct { size_t len; uint8_t bytes[KS_OSCORE_WORD_ROOM]; } ks_oscore_word;

/* Of one end; the other one has sender and recipient exchanged. An ID context or a salt of no bytes is none. */
typedef struct { ks_oscore_word secret, salt, id_context, sender, recipient; } ks_oscore_keys;

typedef struct ks_oscore ks_oscore;
typedef struct { size_t len; uint8_t bytes[KS_OSCORE_ROOM]; } ks_oscore_datagram;

/* Makes a context with the file of its numbers, which nobody else may have meanwhile. `begins`: there is no such file
 * yet, and it is made; so it is for new keys alone. A file that is lost takes its keys along: under them numbers would
 * be used twice. NULL: no file, for keys that this run alone has. KS_OK; KS_BAD_ARGUMENT (a length, no secret, equal
 * IDs), KS_NO_MEMORY, KS_OSCORE_FILE_FAILED, _FOREIGN, _DAMAGED, _TAKEN. */
int32_t ks_oscore_new(ks_oscore **made, const ks_oscore_keys *keys, const char *file, bool begins);

/* Frees it, and wipes its keys. NULL is none. */
void ks_oscore_free(ks_oscore *c);

int32_t ks_oscore_seal(ks_oscore *c, uint64_t now, const void *plain, size_t len, ks_oscore_datagram *out);
int32_t ks_oscore_open(ks_oscore *c, uint64_t now, const void *datagram, size_t len, ks_oscore_datagram *out);

/* Which of these contexts the datagram names, a request: its place, or `count` where it names none. */
size_t ks_oscore_named(ks_oscore *const *contexts, size_t count, const void *datagram, size_t len);

/* In words; of the library's answers, as ks_answer_text. */
const char *ks_oscore_text(int32_t answer);

#ifdef __cplusplus
}
#endif

#endif
