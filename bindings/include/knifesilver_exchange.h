/* knifesilver_exchange.h: a server of CoAP whose answers your code computes, a client for any request of one datagram, and
 * bodies in blocks (RFC 7252, section 5; RFC 7641, section 4; RFC 7959).
 *
 * knifesilver.h has a server that stores values: no function of yours is called. Here a request is handed to your code, with
 * its method, its options and its payload, and your code says what is answered. The exchanges below are the proved ones: a
 * request is handed up once while it is remembered, has at most one answer, and a copy of a Confirmable one gets the same
 * bytes again. What your code answers is yours: no entity-tags, blocks, observers or paths are kept for you.
 *
 *     for (;;) {
 *         while ((r = ks_answerer_tick(&server, now(), &asked)) != KS_OK)            KS_DONE: something was done; go on
 *             if (r == KS_READY) ks_answerer_respond(&server, &asked, ..);            a request that was deferred
 *         while (ks_answerer_next_out(&server, &to, room, sizeof room, &len) == KS_DONE) send(to, room, len);
 *         wait for a datagram, until the moment that ks_answerer_due tells;
 *         if (ks_answerer_feed(&server, now(), &from, datagram, len, &request) == KS_DONE)
 *             handle(&request, datagram, len);                                        ks_answerer_answer, or .._defer
 *     }
 *
 * The rules for all calls are those of knifesilver.h. Answer or defer a request before the next feed, tick or notification:
 * after that it can have no answer any more, and its copies get none. */
#ifndef KNIFESILVER_EXCHANGE_H
#define KNIFESILVER_EXCHANGE_H

#include "knifesilver.h"
#include <string.h>

#ifdef __cplusplus
extern "C" {
#endif

typedef struct { ks_handle handle; } ks_answerer;

#define KS_READY 2              /* of ks_answerer_tick: a deferred request is ready */

/* Why an answer is not sent, a request not deferred, or an option not written. Nothing is done then, but that
 * KS_ANSWER_DEFERRALS_FULL lets the moment count. */
enum ks_answer_refusal {
    KS_ANSWER_NOT_ASKED = 112,  /* it is not the request that the last feed told */
    KS_ANSWER_GIVEN = 113,      /* it was answered, or deferred, already */
    KS_ANSWER_DEFERRALS_FULL = 114, /* 16 requests are deferred */
    KS_ANSWER_NOT_READY = 115,  /* the last tick did not call it ready; a notification can't be sent there now */
    KS_ANSWER_NOT_CONFIRMABLE = 118, /* a Non-confirmable request is answered at once */
    KS_ANSWER_BAD_RESPONSE = 119, /* a code that is not of class 2 to 5, or a message of over 1,152 bytes */
    KS_OPTION_ORDER = 120,      /* its number is below that of the option before it */
    KS_OPTION_TOO_LONG = 121    /* no message of 1,152 bytes has such an option */
};

/* Makes a server that remembers so many messages (0: 4,096; at most 1,048,576); what the handle held is freed. KS_OK;
 * KS_BAD_REMEMBERED, KS_NO_MEMORY, after which the handle holds what it held. */
int32_t ks_answerer_new(ks_answerer *handle, uint32_t remembered, const ks_seed *seed);

/* Frees it. The handle is empty then: it may be freed again, and used for a new server. */
void ks_answerer_free(ks_answerer *handle);

/* A request, as its answer needs it. Hand it back as it is: it may be kept and copied. */
typedef struct {
    ks_address from;
    uint16_t id;                /* its Message ID */
    uint8_t kind;               /* enum ks_type: KS_CON or KS_NON */
    uint8_t token_len;
    uint8_t token[8];
} ks_asked;

/* .. and what it asks. Its options are read from the datagram by ks_options_begin or ks_next_option; its payload is the
 * datagram's last payload_len bytes. */
typedef struct {
    size_t payload_len;
    ks_asked asked;
    uint8_t code;               /* 1 GET, 2 POST, 3 PUT, 4 DELETE, 5 FETCH, 6 PATCH, 7 iPATCH, or another of class 0 */
} ks_request_told;

/* Takes a datagram that arrived. KS_DONE with *request: it is a request, which is handed up now for the first time. KS_OK: it
 * is none, or was handed up before. KS_NO_MEMORY, after which it counts as lost; KS_NOT_LIVE. */
int32_t ks_answerer_feed(ks_answerer *handle, uint64_t now, const ks_address *from, const void *datagram,
                         size_t datagram_len, ks_request_told *request);

/* Sends the answer to the request that the last feed told: the code, the options and the payload of a message, as ks_draft
 * makes one; its type, Message ID and token count for nothing. KS_OK; KS_ANSWER_BAD_RESPONSE, KS_ANSWER_GIVEN,
 * KS_ANSWER_NOT_ASKED; KS_BAD_ARGUMENT (no message, no request), KS_NO_MEMORY, KS_NOT_LIVE. */
int32_t ks_answerer_answer(ks_answerer *handle, const ks_asked *asked, const void *message, size_t message_len);

/* Acknowledges the Confirmable request that the last feed told; a tick calls it ready when so many milliseconds have passed,
 * and behind those that were deferred before and are ready. So a handler has to know its delay. One that does not, defers by
 * 0: each tick calls the request ready again until it is answered, and ks_answerer_due says now. KS_OK; KS_ANSWER_GIVEN,
 * KS_ANSWER_NOT_ASKED, KS_ANSWER_NOT_CONFIRMABLE, KS_ANSWER_DEFERRALS_FULL (answer it at once, as with 5.03);
 * KS_BAD_ARGUMENT, KS_NOT_LIVE. */
int32_t ks_answerer_defer(ks_answerer *handle, uint64_t now, const ks_asked *asked, uint64_t delay_ms);

/* Sends the answer to the deferred request that the last tick called ready, in a Confirmable message. As ks_answerer_answer,
 * but for KS_ANSWER_NOT_READY in the place of KS_ANSWER_NOT_ASKED. */
int32_t ks_answerer_respond(ks_answerer *handle, const ks_asked *asked, const void *message, size_t message_len,
                            uint64_t word);

/* Does one thing that is due. KS_DONE where there was one; KS_READY with *asked: this deferred request is ready, until the
 * next feed, tick or notification; KS_OK where there is nothing; KS_NO_MEMORY, KS_NOT_LIVE. */
int32_t ks_answerer_tick(ks_answerer *handle, uint64_t now, ks_asked *asked);

/* When the next tick has something to do, from this moment on: KS_DONE with *at, or KS_OK: never, unless something is handed
 * in before. KS_NOT_LIVE. */
int32_t ks_answerer_due(ks_answerer *handle, uint64_t now, uint64_t *at);

/* Takes the datagram that is to be sent next, as ks_server_next_out. */
int32_t ks_answerer_next_out(ks_answerer *handle, ks_address *to, void *room, size_t room_len, size_t *len);

/* Whether a notification could be sent there now: no Confirmable message to there is outstanding. KS_DONE: yes; KS_OK: no;
 * KS_NOT_LIVE. */
int32_t ks_answerer_ready(ks_answerer *handle, uint64_t now, const ks_address *to);

/* Sends a notification to an observer, which you keep with the token of its registration: as ks_answerer_answer, with an
 * Observe option of yours. *id is its Message ID. KS_OK; KS_ANSWER_BAD_RESPONSE, KS_ANSWER_NOT_READY; KS_BAD_ARGUMENT (a token
 * of over 8 bytes, no message), KS_NO_MEMORY, KS_NOT_LIVE. */
int32_t ks_answerer_notify(ks_answerer *handle, uint64_t now, const ks_address *to, const void *token, size_t token_len,
                           const void *message, size_t message_len, uint64_t word, uint16_t *id);

/* The same in a Non-confirmable message (RFC 7641, section 4.5): nothing waits for an acknowledgement, and a Reset of it is
 * what ks_answerer_unmatched tells, with the *id of this call. */
int32_t ks_answerer_notify_plain(ks_answerer *handle, uint64_t now, const ks_address *to, const void *token,
                                 size_t token_len, const void *message, size_t message_len, uint16_t *id);

/* A token of at most 8 bytes. */
typedef struct { uint8_t len; uint8_t bytes[8]; } ks_token;

/* What the last feed or tick ended of what ks_answerer_notify or ks_answerer_respond sent: its Reset came, or no
 * acknowledgement did. KS_DONE with where it went, its token and whether it carried Observe: who observes by that token does
 * so no more (RFC 7641, sections 3.6 and 4.5). KS_OK: nothing; KS_NOT_LIVE. Ask after each feed and each tick: the next one
 * forgets it. */
int32_t ks_answerer_ended(ks_answerer *handle, ks_address *to, ks_token *token, bool *observe);

/* The Reset that the last feed took, of no Confirmable message that is outstanding: as of an answer in a Non-confirmable one,
 * whose Message ID is bytes 2 and 3 of its datagram. KS_DONE with where it came from, and that Message ID; KS_OK: it took
 * none; KS_NOT_LIVE. A tick leaves it. */
int32_t ks_answerer_unmatched(ks_answerer *handle, ks_address *from, uint16_t *id);

/* How many places of a server's tables are taken, as far as it tells, and how many there are. How many messages it remembers
 * now, and how many of its messages are outstanding, it does not tell; ks_answerer_ready says of one address whether one is. */
typedef struct {
    size_t deferred;            /* so many requests are deferred */
    size_t most_deferred;       /* of at most so many: 16 */
    size_t most_remembered;     /* so many messages can be remembered */
} ks_load;

/* KS_OK with *load; KS_NOT_LIVE. Nothing changes. */
int32_t ks_answerer_load(ks_answerer *handle, ks_load *load);

/* ---- The asking side: a client of one server, for any request of one datagram ------------------------------------- */

/* It runs one exchange at a time (RFC 7252, section 4.7). What it is asked goes out in a Confirmable message with a fresh
 * token, and has at most one answer.
 *
 *     ks_asker_ask(&asker, now(), draft.bytes, draft.len, word(), &token);
 *     for (;;) {
 *         while (ks_asker_tick(&asker, now()) == KS_DONE) ask_answer();            what is due is done; then
 *         while (ks_asker_next_out(&asker, &to, room, sizeof room, &len) == KS_DONE) send(to, room, len);
 *         wait for a datagram, until the moment that ks_asker_due tells;
 *         if (ks_asker_feed(&asker, now(), &from, datagram, len) == KS_DONE) ask_answer();
 *     }
 *
 * ask_answer stands for ks_asker_next_answer: the next feed or tick forgets what the last one brought. */
typedef struct { ks_handle handle; } ks_asker;

/* Why a request is not sent. Nothing is done then, but that of the first three the moment counts. */
enum ks_ask_refusal {
    KS_ASK_RUNNING = 116,       /* an exchange runs */
    KS_ASK_TOKENS_SPENT = 117,  /* each token was given once */
    KS_ASK_NO_IDS = 122,        /* no Message ID is free */
    KS_ASK_BAD_REQUEST = 123    /* a code that is none of enum ks_method, or a message of over 1,152 bytes with 8 of token */
};

/* Makes a client of that server, to which nothing has happened, that remembers so many messages (0: 4,096; at most
 * 1,048,576); what the handle held is freed. KS_OK; KS_BAD_REMEMBERED, KS_NO_MEMORY, after which the handle holds what it
 * held. */
int32_t ks_asker_new(ks_asker *handle, const ks_address *server, uint32_t remembered, const ks_seed *seed);

/* Frees it. The handle is empty then: it may be freed again, and used for a new client. */
void ks_asker_free(ks_asker *handle);

/* Sends a request: the code (enum ks_method), the options and the payload of a message, as ks_draft makes one; its type and
 * Message ID count for nothing. *token is the token that it got. A message with a token cancels the observation that has
 * that token: the request goes out with it (ks_draft_token). KS_OK; ks_ask_refusal; KS_BAD_ARGUMENT (no message),
 * KS_NO_MEMORY, KS_NOT_LIVE. */
int32_t ks_asker_ask(ks_asker *handle, uint64_t now, const void *message, size_t message_len, uint64_t word,
                     ks_token *token);

/* Takes a datagram that arrived. KS_DONE: it brought an answer, a notification or a Reset, which ks_asker_next_answer tells.
 * KS_OK: it brought none. KS_NO_MEMORY, after which it counts as lost; KS_NOT_LIVE. */
int32_t ks_asker_feed(ks_asker *handle, uint64_t now, const ks_address *from, const void *datagram,
                      size_t datagram_len);

/* Does one thing that is due: the request is sent again, or its exchange ends, which ks_asker_next_answer tells. KS_DONE
 * where there was one, KS_OK where there was none; KS_NO_MEMORY, KS_NOT_LIVE. */
int32_t ks_asker_tick(ks_asker *handle, uint64_t now);

/* What came of a request, beside KS_TIMEOUT, KS_RESET and KS_NO_RESPONSE of ks_report_kind. */
enum ks_answer_kind {
    KS_RESPONSE = 16,           /* the answer to the request: the exchange is over */
    KS_NOTIFICATION = 17        /* a response with a token that is kept (RFC 7641, section 3.2) */
};

/* The options of an answer are read from the datagram that was fed, by ks_options_begin or ks_next_option; its payload is the
 * datagram's last payload_len bytes. */
typedef struct {
    size_t payload_len;
    uint8_t kind;               /* KS_RESPONSE, KS_NOTIFICATION, KS_TIMEOUT, KS_RESET or KS_NO_RESPONSE */
    uint8_t code;               /* of a KS_RESPONSE or KS_NOTIFICATION, as in ks_report; else 0 */
    uint8_t token_len;
    uint8_t token[8];           /* of a KS_RESPONSE or KS_NOTIFICATION */
} ks_answer;

/* What the last feed or tick brought: KS_DONE with *answer, once; KS_OK: nothing, or it was told already. KS_NOT_LIVE. */
int32_t ks_asker_next_answer(ks_asker *handle, ks_answer *answer);

/* Keeps the token of an observation, so that its notifications are told; the others are rejected. KS_DONE; KS_OK: it is not
 * kept, since 16 others are; KS_BAD_ARGUMENT (over 8 bytes), KS_NOT_LIVE. Keep it before the answer to the registration
 * is taken. */
int32_t ks_asker_keep(ks_asker *handle, const void *token, size_t token_len);

/* Keeps it no more. KS_DONE; KS_OK: it was not kept; KS_BAD_ARGUMENT, KS_NOT_LIVE. */
int32_t ks_asker_release(ks_asker *handle, const void *token, size_t token_len);

/* As ks_answerer_due and ks_answerer_next_out. */
int32_t ks_asker_due(ks_asker *handle, uint64_t now, uint64_t *at);
int32_t ks_asker_next_out(ks_asker *handle, ks_address *to, void *room, size_t room_len, size_t *len);

/* ---- Bodies in blocks (RFC 7959) ---------------------------------------------------------------------------------- */

/* The value of a Block1 or Block2 option (section 2.2): a number, whether more follows, and 0 to 6 for a size of 16, 32, ..
 * 1,024 bytes. */
typedef struct { uint32_t num; bool more; uint8_t szx; } ks_block;

#define KS_JOINED 3             /* of ks_fetch_accept: whole, but joined of parts with no entity-tag */
#define KS_AGAIN 4              /* of ks_fetch_accept: the body changed; ask anew */

/* The block that the first option of this number says (27 Block1, 23 Block2): KS_DONE with *block; KS_OK: there is none, or
 * the datagram is no message; KS_BAD_ARGUMENT: the value is no block. It needs no handle. */
int32_t ks_block_in(const void *datagram, size_t datagram_len, uint16_t number, ks_block *block);

/* The bytes of a body that a block asks for, and the block that they are, whose `more` says whether others follow: KS_DONE
 * with the bytes at the front of the room; KS_OK: the block begins at or past the end; KS_SMALL_ROOM with *len;
 * KS_BAD_ARGUMENT (a szx over 6). It needs no handle. */
int32_t ks_slice(const void *body, size_t body_len, const ks_block *asked, ks_block *given, void *room,
                 size_t room_len, size_t *len);

/* A body that is fetched in blocks by Block2 (section 2.4). */
typedef struct { ks_handle handle; } ks_fetch;

enum ks_fetch_refusal {
    KS_FETCH_BAD_BLOCK = 124,   /* not the block that was asked for, not of its size, or no Block2 after others */
    KS_FETCH_NO_TAG = 125,      /* one of several parts has no entity-tag */
    KS_FETCH_TOO_LARGE = 126,   /* the body is longer than the limit */
    KS_FETCH_CHANGED = 127      /* the body changed again and again */
};

/* Makes a fetch that has nothing yet: block_size and body_limit as in ks_config. `untagged` allows a body whose parts have
 * no entity-tag: it is KS_JOINED. KS_OK; KS_BAD_BLOCK_SIZE, KS_BAD_BODY_LIMIT, KS_NO_MEMORY, after which the handle holds
 * what it held. */
int32_t ks_fetch_new(ks_fetch *handle, uint32_t block_size, uint32_t body_limit, bool untagged);
void ks_fetch_free(ks_fetch *handle);

/* Takes the part of the body that came in a message, a 2.05: its Block2, its ETag and its payload. KS_OK with *next: ask for
 * that block. KS_DONE with *body_len: the body is whole, and its parts had one entity-tag, or it is one part. KS_JOINED with
 * *body_len: it is joined, not proved to be of one version. KS_AGAIN: the body changed (another entity-tag, or a tag in some
 * parts and none in others): ask as at first, with no Block2. ks_fetch_refusal; KS_BAD_ARGUMENT (no message, a Block2 that
 * is none), KS_NO_MEMORY, KS_NOT_LIVE. */
int32_t ks_fetch_accept(ks_fetch *handle, const void *datagram, size_t datagram_len, ks_block *next,
                        size_t *body_len);

/* The body that the last accept made whole: KS_DONE with *len and its bytes at the front of the room; KS_OK: the last accept
 * made none; KS_SMALL_ROOM with *len; KS_NOT_LIVE. */
int32_t ks_fetch_body(ks_fetch *handle, void *room, size_t room_len, size_t *len);

/* A body that is sent in blocks by Block1 (section 2.5). */
typedef struct { ks_handle handle; } ks_upload;

/* Makes an upload of a copy of the body; block_size as in ks_config. KS_OK; KS_BAD_BLOCK_SIZE, KS_NO_MEMORY, after which the
 * handle holds what it held. */
int32_t ks_upload_new(ks_upload *handle, const void *body, size_t body_len, uint32_t block_size);
void ks_upload_free(ks_upload *handle);

/* The block to send now, and its bytes at the front of the room; the same until it is accepted: KS_DONE; KS_SMALL_ROOM with
 * *len; KS_NOT_LIVE. */
int32_t ks_upload_next(ks_upload *handle, ks_block *block, void *room, size_t room_len, size_t *len);

/* Takes the answer to that block. KS_DONE: it is a 2.31 that fits, and ks_upload_next tells the next one. KS_OK: the upload is
 * where it was. KS_BAD_ARGUMENT (no message), KS_NOT_LIVE. */
int32_t ks_upload_accepted(ks_upload *handle, const void *datagram, size_t datagram_len);

/* Bodies that come in blocks by Block1, at a server (section 2.5): at most 16 at a time, told apart by sender, path and
 * method. */
typedef struct { ks_handle handle; } ks_assembly;

enum ks_assembly_refusal {
    KS_ASSEMBLY_BAD_REQUEST = 128, /* a block that is not of its size: answer 4.00 */
    KS_ASSEMBLY_INCOMPLETE = 129, /* a block that is not the next one: 4.08 */
    KS_ASSEMBLY_TOO_LARGE = 130, /* the body is longer than the limit: 4.13 */
    KS_ASSEMBLY_FULL = 131      /* 16 other bodies are being joined: 5.03 */
};

/* Makes one that has nothing yet: block_size and body_limit as in ks_config. KS_OK; KS_BAD_BLOCK_SIZE, KS_BAD_BODY_LIMIT,
 * KS_NO_MEMORY, after which the handle holds what it held. */
int32_t ks_assembly_new(ks_assembly *handle, uint32_t block_size, uint32_t body_limit);
void ks_assembly_free(ks_assembly *handle);

/* Takes the block of a request that was handed up: its Block1, its payload, its Uri-Path and its code. KS_OK: it is joined;
 * answer 2.31 with *answer in Block1. KS_DONE with *body_len: the body is whole; answer with *answer in Block1.
 * ks_assembly_refusal; KS_BAD_PATH (over 16 segments, or one of over 255 bytes), KS_BAD_ARGUMENT (no message with a Block1
 * and a code of enum ks_method), KS_NO_MEMORY, KS_NOT_LIVE. */
int32_t ks_assembly_take(ks_assembly *handle, uint64_t now, const ks_address *from, const void *datagram,
                         size_t datagram_len, ks_block *answer, size_t *body_len);

/* The body that the last take made whole. As ks_fetch_body. */
int32_t ks_assembly_body(ks_assembly *handle, void *room, size_t room_len, size_t *len);

/* ---- Options ------------------------------------------------------------------------------------------------------ */

/* Tells the option at *place of a message, which is 0 at first: KS_DONE with its number and its value at the front of the
 * room, and *place behind it; KS_OK: there is none, or the datagram is no message; KS_SMALL_ROOM with *value_len. It needs no
 * server, takes no memory and changes nothing else. Each call reads the message from its first byte, and a datagram may have
 * thousands of options: where a stranger's are all to be read, use ks_options_begin. */
int32_t ks_next_option(const void *datagram, size_t datagram_len, size_t *place, uint16_t *number, void *room,
                       size_t room_len, size_t *value_len);

/* Where the reading of a message's options stands in its datagram; and an option, whose value lies in the datagram, so that
 * nothing is copied. Keep a reading beside the datagram that it began with, and change no byte of either. */
typedef struct {
    size_t at;                  /* where the next option begins */
    size_t end;                 /* where the options end */
    uint16_t number;            /* of the option before it; 0 where there is none */
} ks_options;

typedef struct {
    size_t value_at;            /* its value is at datagram + value_at */
    size_t value_len;
    uint16_t number;
} ks_option;

/* Begins a reading of all options of a message, in one pass: KS_OK. KS_BAD_ARGUMENT: the datagram is no message, and the
 * reading has no options. Like ks_options_next it needs no server and takes no memory.
 *
 *     ks_options_begin(datagram, len, &options);
 *     while (ks_options_next(datagram, len, &options, &option) == KS_DONE)
 *         use(option.number, datagram + option.value_at, option.value_len); */
int32_t ks_options_begin(const void *datagram, size_t datagram_len, ks_options *options);

/* Tells the next option of a reading: KS_DONE with *option; KS_OK: there is none. KS_BAD_ARGUMENT: no option of the datagram
 * is where the reading stands, as where another datagram is handed in, or a field was changed; nothing is read outside. */
int32_t ks_options_next(const void *datagram, size_t datagram_len, ks_options *options, ks_option *option);

/* Tells the first critical option of a message that is none of these: KS_DONE with its number; KS_OK: there is none, or the
 * datagram is no message. A Confirmable request with one is to be answered 4.02, and a Non-confirmable one is to be ignored
 * (RFC 7252, section 5.4.1). */
int32_t ks_unknown_critical(const void *datagram, size_t datagram_len, const uint16_t *known, size_t known_len,
                            uint16_t *number);

/* Writes an option into the room, behind the first *len bytes of a message whose last option has the number *last, 0 where it
 * has none; then *len and *last are those of the longer message. KS_OK; KS_OPTION_ORDER, KS_OPTION_TOO_LONG; KS_SMALL_ROOM,
 * KS_BAD_ARGUMENT (*len over room_len). */
int32_t ks_options_add(void *room, size_t room_len, size_t *len, uint16_t *last, uint16_t number, const void *value,
                       size_t value_len);

/* What is to be answered: a code, options in rising order, a payload behind them. */
typedef struct {
    size_t len;
    uint16_t last;
    uint8_t bytes[KS_DATAGRAM_ROOM];
} ks_draft;

static inline void ks_draft_begin(ks_draft *draft, uint8_t code) {
    draft->len = 4;
    draft->last = 0;
    draft->bytes[0] = 0x40;
    draft->bytes[1] = code;
    draft->bytes[2] = draft->bytes[3] = 0;
}

static inline int32_t ks_draft_option(ks_draft *draft, uint16_t number, const void *value, size_t len) {
    return ks_options_add(draft->bytes, sizeof draft->bytes, &draft->len, &draft->last, number, value, len);
}

/* A number, in as few bytes as it takes (RFC 7252, section 3.2). */
static inline int32_t ks_draft_uint(ks_draft *draft, uint16_t number, uint32_t value) {
    uint8_t bytes[4] = {(uint8_t)(value >> 24), (uint8_t)(value >> 16), (uint8_t)(value >> 8), (uint8_t)value};
    size_t skip = 0;
    while (skip < 4 && bytes[skip] == 0) skip++;
    return ks_draft_option(draft, number, bytes + skip, 4 - skip);
}

/* The token of a message that has no options yet, of at most 8 bytes: of the cancel of an observation. */
static inline void ks_draft_token(ks_draft *draft, const ks_token *token) {
    draft->bytes[0] = (uint8_t)(0x40 + token->len);
    memcpy(draft->bytes + 4, token->bytes, token->len);
    draft->len = 4 + (size_t)token->len;
}

/* A Block1 (27) or Block2 (23). */
static inline int32_t ks_draft_block(ks_draft *draft, uint16_t number, const ks_block *block) {
    return ks_draft_uint(draft, number, block->num << 4 | (block->more ? 8u : 0u) | block->szx);
}

/* The payload, which is the last part. KS_OK; KS_SMALL_ROOM. */
static inline int32_t ks_draft_payload(ks_draft *draft, const void *payload, size_t len) {
    if (len == 0) return KS_OK;
    if (len >= sizeof draft->bytes - draft->len) return KS_SMALL_ROOM;
    draft->bytes[draft->len] = 0xff;
    memcpy(draft->bytes + draft->len + 1, payload, len);
    draft->len += 1 + len;
    return KS_OK;
}

#ifdef __cplusplus
}
#endif
#endif
