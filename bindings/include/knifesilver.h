/* knifesilver.h: a client and a server of CoAP (RFC 7252, RFC 7641, RFC 7959) with no input or output of their own, and
 * names for peers at any kind of address.
 *
 * An end is a value behind a handle. You hand it what arrived and what you want, with the moment; it hands you the
 * datagrams to send, what a client had it do and what it reports. It opens no socket, reads no clock, starts no thread
 * and has no global state. Of the C library it calls malloc, realloc, free, memcpy, memmove and memset.
 *
 * The loop of an end, whichever it is:
 *
 *     for (;;) {
 *         while (ks_server_tick(&server, now(), word()) == KS_DONE) ask_applied();        what is due is done; then
 *         while (ks_server_next_out(&server, &to, room, sizeof room, &len) == KS_DONE) send(to, room, len);
 *         wait for a datagram, until the moment that ks_server_due tells;
 *         ks_server_feed(&server, now(), &from, datagram, datagram_len, word()), ask_applied();
 *     }
 *
 * ask_applied stands for ks_server_applied, at a server: the next feed or tick forgets what the last one applied.
 *
 * Rules for all calls. Nothing checks them:
 *  - A handle is all zero before its first call: `ks_server server = {0};`. Change none of its bytes, and do not copy it
 *    (moving it is fine while no call runs). Two handles share nothing.
 *  - One call of a handle at a time, and none from a signal handler. A handle may go to another thread, by a lock, by the
 *    start or join of a thread, or by a sequentially consistent atomic.
 *  - A pointer is never NULL, also where its length is 0, and what it points to stays as it is until the call returns.
 *    What a call writes to overlaps with nothing else that the call is handed.
 *  - Each end has a UDP port of its own. Two ends behind one port kill each other's exchanges: a server answers a
 *    response with a Reset, as it awaits none. Two clients of one server behind one port break a premise of the theorem.
 *  - `now` is in milliseconds since a moment that you chose once, the same one for all calls of an end. A moment before
 *    the last one counts as the last, so a clock that jumps back is harmless.
 *  - `word` is 64 random bits, new ones for each call; a seed is 24 random bytes. Take both from getrandom(), say. What is
 *    proved holds whatever they are; that a stranger cannot guess Message IDs, tokens and timeouts rests on them. A
 *    server's feed uses no word: hand it 0.
 * Bytes that you hand in are used up before the call returns; bytes that come out are written to your buffers. Nothing of
 * the library's memory is seen outside.
 *
 * What a call answers: KS_OK, KS_DONE, the number of a refusal (above 1, in the enum that stands at the call), or one
 * of the numbers below 0, the same for all calls. No two refusals have one number; ks_refused tells them from KS_OK
 * and KS_DONE, and ks_answer_text says each in words. After an answer below 0 the end is as it was before the call. */
#ifndef KNIFESILVER_H
#define KNIFESILVER_H

#include <stdbool.h>
#include <stddef.h>
#include <stdint.h>

#ifdef __cplusplus
extern "C" {
#endif

enum {
    KS_OK = 0,              /* carried out; or there is nothing */
    KS_DONE = 1,            /* there was something, and it is done or written */
    KS_NOT_LIVE = -1,       /* the handle holds no end of this kind */
    KS_NO_MEMORY = -2,      /* malloc or realloc answered NULL */
    KS_BAD_PATH = -3,       /* over 16 segments, one of over 255 bytes, or a % without two hexadecimal digits */
    KS_SMALL_ROOM = -4,     /* the buffer is too small: nothing was taken, call again with a larger one */
    KS_BAD_ARGUMENT = -5,   /* an entity-tag of 0 or over 8 bytes, over 4 of them, a method or an error that is none; a
                             * place of 2^62 or a turn of 2^32 bytes or more; a key of 0 or over 60 bytes, or no places
                             * or over 1,048,576 */
    KS_BAD_SIZE = -6,       /* ks_config.size is neither 0 nor sizeof (ks_config); ks_end_load.size is not sizeof (ks_end_load) */
    KS_BAD_BLOCK_SIZE = -7, /* ks_config.block_size is none of 0, 16, 32, 64, 128, 256, 512 and 1,024 */
    KS_BAD_BODY_LIMIT = -8, /* ks_config.body_limit is over 1,048,576 */
    KS_BAD_REMEMBERED = -9, /* ks_config.remembered is over 1,048,576 */
    KS_BAD_CHANGES = -10,   /* ks_config.changes is over 4,194,303 */
    KS_BAD_BASE = -11,      /* ks_config.base is no multiple of 2^24, or not below 2^63 */
    KS_UNTOLD = -12         /* what a server took is to be asked by ks_server_noted first, and kept */
};

#define KS_VERSION 200u         /* of this header: 0.2.0 */
#define KS_NO_FORMAT (-1)       /* no Content-Format, no Accept; a number that is none counts as this */
#define KS_DATAGRAM_ROOM 1152   /* no datagram that goes out is longer */
#define KS_PATH_ROOM 12256      /* no path as text is longer: 16 segments of 255 bytes, each three bytes long */

/* The version of the library. It should be KS_VERSION. */
uint32_t ks_version(void);

typedef struct { void *at; bool live; } ks_handle;   /* opaque */
typedef struct { ks_handle handle; } ks_server;
typedef struct { ks_handle handle; } ks_client;

/* An IPv4 address, ip[0] the 127 of 127.0.0.1, and a UDP port in the host's order. */
typedef struct { uint8_t ip[4]; uint16_t port; } ks_address;

/* What an end is made with. All zero it is the usual: `ks_config config = {0};`. To choose, set `size` to
 * sizeof (ks_config) and the fields that you want; 0 in a field is the usual number.
 *   block_size  bytes of a block at most: 16, 32, .. 1,024 (1,024)
 *   body_limit  bytes of a body at most, that is sent, joined from blocks or held: up to 1,048,576 (65,536)
 *   remembered  how many messages are remembered at once, to tell repeats: up to 1,048,576 (4,096). One is remembered for
 *               247 s, with its reply of up to 1,152 bytes; while all places are taken, new messages go unanswered
 *   changes     how many changes a server's store takes in 256 s: up to 4,194,303 (4,194,303); a client has no use for it
 *   base        the version after which a server's versions begin: a multiple of 2^24 below 2^63. With 0 the first is 1. A
 *               server that begins anew at its address should have a base that ks_base draws for each of its lives: else
 *               an entity-tag of a life before names another body. A client has no use for it
 * Later versions add fields at the end; an older library refuses the larger size. */
typedef struct {
    uint32_t size;
    uint32_t block_size;
    uint32_t body_limit;
    uint32_t remembered;
    uint32_t changes;
    uint64_t base;
} ks_config;

/* The base that 39 bits of a random word choose: `config.base = ks_base(word())`. Two lives of a server share a version
 * with a chance of some 2^-38; no order between two lives is promised. */
uint64_t ks_base(uint64_t word);

/* 24 random bytes: the word picks the first Message ID and token, the keys those of the hash of what is remembered. */
typedef struct { uint64_t word; uint64_t key0; uint64_t key1; } ks_seed;

/* A path is text, with its length: "temperature", "/floor/2/lamp". Its segments stand between `/`; one `/` in front is
 * left out; "" and "/" are the root. In a segment `%` and two hexadecimal digits are the byte of that number. Where a
 * call writes a path, a `/` stands before each segment, and in a segment `%2F` stands for `/` and `%25` for `%`; all
 * other bytes are written as they are. So no two paths have one text, and the text of a path is read as that path; but
 * "/", the text of the path of one empty segment, is read as the root: no text says that path, nor does a URI (RFC 7252,
 * section 6.4). */

/* ---- The server -------------------------------------------------------------------------------------------------- */

/* Makes a server that holds nothing; what the handle held is freed. KS_OK; KS_BAD_SIZE, KS_BAD_BLOCK_SIZE,
 * KS_BAD_BODY_LIMIT, KS_BAD_REMEMBERED, KS_BAD_CHANGES, KS_BAD_BASE, KS_NO_MEMORY, after which the handle holds what it
 * held. A number names a field that is wrong, and KS_NO_MEMORY says that none is. */
int32_t ks_server_new(ks_server *handle, const ks_config *config, const ks_seed *seed);

/* Frees it. The handle is empty then: it may be freed again, and used for a new end. */
void ks_server_free(ks_server *handle);

/* Why a store is not changed. (Want of memory is KS_NO_MEMORY.) */
enum ks_set_refusal {
    KS_SET_TOO_LARGE = 18,      /* the body is longer than body_limit */
    KS_SET_TOO_MANY_PATHS = 19, /* 256 other paths hold something */
    KS_SET_RATE_EXCEEDED = 20,  /* the window of 256 s has no change left */
    KS_SET_VERSIONS_SPENT = 21  /* the last change had the greatest version */
};

/* Has the path hold the body, and marks its observers, which ticks notify. *version is the number of the change, which
 * rises with each change of this server; the entity-tag is that number in 8 bytes. Each set is a change, also where the
 * body is the same. KS_OK; ks_set_refusal; KS_BAD_PATH, KS_NO_MEMORY, KS_NOT_LIVE. */
int32_t ks_server_set(ks_server *handle, uint64_t now, const char *path, size_t path_len, int32_t format,
                      const void *body, size_t body_len, uint64_t *version);

/* The same, but where the path holds this very body in this format nothing is changed: KS_DONE where it was set, KS_OK
 * where nothing changed; *version is the number of what the path holds. Else as ks_server_set. */
int32_t ks_server_update(ks_server *handle, uint64_t now, const char *path, size_t path_len, int32_t format,
                         const void *body, size_t body_len, uint64_t *version);

/* Takes away what the path holds; its observers are told. KS_DONE, or KS_OK where it held nothing; KS_SET_RATE_EXCEEDED,
 * KS_SET_VERSIONS_SPENT; KS_BAD_PATH, KS_NO_MEMORY (for the path), KS_NOT_LIVE. */
int32_t ks_server_remove(ks_server *handle, uint64_t now, const char *path, size_t path_len);

typedef struct { uint64_t version; size_t body_len; int32_t format; } ks_representation;

/* What the path holds: KS_DONE with *shown written and the body at the front of the room, KS_OK where it holds nothing,
 * KS_SMALL_ROOM with *shown written. KS_BAD_PATH, KS_NO_MEMORY (for the path), KS_NOT_LIVE. */
int32_t ks_server_get(ks_server *handle, const char *path, size_t path_len, ks_representation *shown,
                      void *room, size_t room_len);

/* The path at this place, from 0 on, of those that hold something: KS_DONE with its text at the front of the room
 * (KS_PATH_ROOM bytes are always enough), its length in *path_len, and what it holds in *shown; KS_OK where fewer paths hold
 * something. They stand in an order of the server's own, which a change can move. KS_SMALL_ROOM, KS_NOT_LIVE. */
int32_t ks_server_paths(ks_server *handle, size_t place, ks_representation *shown, char *room, size_t room_len,
                        size_t *path_len);

enum ks_delay_refusal { KS_DELAY_FULL = 48 };   /* 16 other paths have a delay */

/* Has each Confirmable request of the path wait so many ms, be carried out then, and be answered by a separate response.
 * KS_OK; ks_delay_refusal; KS_BAD_PATH, KS_NO_MEMORY, KS_NOT_LIVE. */
int32_t ks_server_set_delay(ks_server *handle, const char *path, size_t path_len, uint64_t ms);

enum ks_plain_refusal { KS_PLAIN_FULL = 49 };   /* 16 other paths are plain */

/* Has the notifications of the path go in Non-confirmable messages, but for one a day, a state that is older than 100 s, and
 * the 4.04 of a path that is gone. There is no way back. KS_OK; ks_plain_refusal; KS_BAD_PATH, KS_NO_MEMORY, KS_NOT_LIVE. */
int32_t ks_server_set_plain(ks_server *handle, const char *path, size_t path_len);

/* Takes a datagram that arrived. KS_OK; KS_NO_MEMORY, after which it counts as lost; KS_NOT_LIVE. Then ask
 * ks_server_applied, and send what is out. */
int32_t ks_server_feed(ks_server *handle, uint64_t now, const ks_address *from, const void *datagram,
                       size_t datagram_len, uint64_t word);

/* Does one thing that is due: a retransmission, a notification, a response that was delayed. KS_DONE where there was one,
 * KS_OK where there was none, KS_NO_MEMORY (nothing is done: try later), KS_NOT_LIVE. Call it until it does not answer
 * KS_DONE: at one moment it does so finitely often. Ask ks_server_applied after each KS_DONE, before the next tick. */
int32_t ks_server_tick(ks_server *handle, uint64_t now, uint64_t word);

/* When the next tick has something to do: KS_DONE with *at, which is never before the last moment that was handed in.
 * KS_OK: never, unless something is handed in before. KS_NOT_LIVE. Ask again after each other call. */
int32_t ks_server_due(ks_server *handle, uint64_t *at);

/* Takes the datagram that is to be sent next: KS_DONE with *to, *len and its bytes at the front of the room; KS_OK where
 * there is none; KS_SMALL_ROOM where the room has under KS_DATAGRAM_ROOM bytes; KS_UNTOLD, of a server with a journal
 * alone; KS_NOT_LIVE. What you don't send is lost, as on the way: it is sent again if it is to be. */
int32_t ks_server_next_out(ks_server *handle, ks_address *to, void *room, size_t room_len, size_t *len);

typedef struct {
    uint64_t version;           /* that it made; 0 where it changed nothing */
    size_t path_len;            /* bytes of the path's text */
    ks_address from;            /* whose request it was */
    uint8_t method;             /* enum ks_method */
    uint8_t token_len;
    uint8_t token[8];
} ks_applied;

/* What the last feed or tick applied, if it did: a PUT, POST or DELETE of a client that was answered with 2.01, 2.02 or
 * 2.04, with its path as text at the front of the room (KS_PATH_ROOM bytes are always enough). KS_DONE; KS_OK where there
 * is nothing; KS_SMALL_ROOM, after which you may ask again; KS_NOT_LIVE. The next feed or tick, an idle one too, empties
 * it: ask after each feed, and after each tick that answered KS_DONE, before the next. */
int32_t ks_server_applied(ks_server *handle, ks_applied *done, char *room, size_t room_len);

/* ---- The journal of a server ------------------------------------------------------------------------------------- */

/* A server that is ended at any moment, and goes on. It is a function of what it is handed; so what it took is kept in a
 * file, and a server that is handed the same again is the same one: nothing is applied twice, no entity-tag names two
 * bodies, observers stay. The file is one frame after the other: how the server began, then its further lives and its
 * turns. You write and sync the file; the library has the format.
 *
 *     read the file; where it is empty: append ks_journal_begin, sync, read it
 *     ks_server_replay(&server, file, file_len, &replayed);  cut the file to replayed.end bytes; sync
 *     take each ks_server_next_out, and throw it away
 *     silence = ks_journal_go_on(&replayed, &life, &life.moment);  wait for so long, with the socket unread
 *     append ks_journal_wake(place, &life, ..), sync; switch what hangs on what a path holds
 *     for (;;) {
 *         feed what came; tick while something is due; set, remove and so on
 *         if (ks_server_noted(&server, turn, ..) == KS_DONE) append ks_journal_frame(place, turn, ..), sync
 *         send each ks_server_next_out; wait
 *     }
 *
 * `place` is how many bytes the file has then. Append the whole frame and sync the file before you send anything: until
 * ks_server_noted has told what was taken, ks_server_next_out answers KS_UNTOLD. After a write or a sync that failed, end,
 * and don't write to this file again. One program at a time writes to it. The file holds all bodies and the seed.
 *
 * The moments go on: `now` is `life.moment` and the milliseconds since ks_journal_go_on and that silence. */

/* A life of a server, from its start to its end. The boot is 128 bits that differ in each boot of the machine (Linux:
 * /proc/sys/kernel/random/boot_id), the uptime how long it has been up, with what it slept, in ms (CLOCK_BOOTTIME). Who has
 * no such name hands in 128 random bits: then each outage counts as one of unknown length. */
typedef struct {
    uint64_t boot_high;
    uint64_t boot_low;
    uint64_t uptime;
    uint64_t moment;            /* of the server, at that uptime */
} ks_life;

/* The frame with which a file begins: how the server is made, as by ks_server_new, and its first life: 109 bytes. KS_DONE
 * with *len and its bytes at the front of the room; KS_SMALL_ROOM with *len; KS_BAD_SIZE, KS_BAD_BLOCK_SIZE, KS_BAD_BODY_LIMIT,
 * KS_BAD_REMEMBERED, KS_BAD_CHANGES, KS_BAD_BASE; KS_NO_MEMORY. */
int32_t ks_journal_begin(const ks_config *config, const ks_seed *seed, const ks_life *life, void *room, size_t room_len,
                         size_t *len);

/* The frame of a further life, 53 bytes, which is to stand at this place of the file. KS_DONE and KS_SMALL_ROOM as there;
 * KS_BAD_ARGUMENT: no frame stands at a place of 2^62 or more; KS_NO_MEMORY. */
int32_t ks_journal_wake(uint64_t place, const ks_life *life, void *room, size_t room_len, size_t *len);

/* The frame of a turn, as ks_server_noted tells it, with 20 bytes more. Else as ks_journal_wake; KS_BAD_ARGUMENT, too, where the turn has 2^32
 * bytes or more. */
int32_t ks_journal_frame(uint64_t place, const void *turn, size_t turn_len, void *room, size_t room_len, size_t *len);

typedef struct {
    uint64_t end;               /* where the last whole frame ends: cut the file off there */
    uint64_t torn;              /* how many bytes of a torn frame are behind it */
    uint64_t moment;            /* the latest moment that the journal tells */
    ks_life life;               /* the last life */
} ks_replayed;

/* Why a journal is not replayed. (Want of memory is KS_NO_MEMORY.) */
enum ks_journal_refusal {
    KS_JOURNAL_DAMAGED = 145,   /* whole frames stand behind one that isn't, which begins at told->end */
    KS_JOURNAL_NOT_BEGUN = 146, /* no frame is whole: no journal, or one of which nothing was ever sent */
    KS_JOURNAL_OTHER_FORMAT = 147, /* another library wrote it */
    KS_JOURNAL_OTHER_LAW = 148, /* .. whose server does otherwise with the same inputs */
    KS_JOURNAL_UNREADABLE = 149, /* a whole frame that holds no record, or a first one that holds no beginning */
    KS_JOURNAL_OTHER_SERVER = 150 /* more datagrams went out than this server had */
};

/* Makes the server of this file, as it was after the last whole frame; what the handle held is freed. From then on it
 * notes what it takes. KS_OK with *told written, also where a torn frame is behind the whole ones. After another answer the
 * handle holds what it held: ks_journal_refusal; KS_NO_MEMORY. The applications of what is replayed are not told again:
 * look at what the paths hold. */
int32_t ks_server_replay(ks_server *handle, const void *file, size_t file_len, ks_replayed *told);

/* For how many ms a server that was replayed is to be silent: nothing is fed and nothing sent. *moment is that of the
 * server behind the silence. In the boot of its last life it is 0, and the time that passed counts; in another boot, or
 * where the uptime is smaller, what passed isn't known: then it is 47,001, and that alone counts. The moment of `now` is
 * not read. */
uint64_t ks_journal_go_on(const ks_replayed *replayed, const ks_life *now, uint64_t *moment);

/* What a server with a journal took since this was asked last, for ks_journal_frame: KS_DONE with *len and its bytes at the
 * front of the room, after which it is told no more; KS_OK where it took nothing, or has no journal; KS_SMALL_ROOM with *len;
 * KS_NO_MEMORY; KS_NOT_LIVE. A call that was refused memory is in no turn. A tick is one where it was due; where none is,
 * ks_server_tick of a server with a journal does nothing. A datagram takes 27 bytes and its own, a tick 17. */
int32_t ks_server_noted(ks_server *handle, void *room, size_t room_len, size_t *len);

/* ---- The client of one server ------------------------------------------------------------------------------------ */

/* Makes a client of that server, to which nothing has happened; what the handle held is freed. As ks_server_new,
 * but for KS_BAD_CHANGES and KS_BAD_BASE. */
int32_t ks_client_new(ks_client *handle, const ks_address *server, const ks_config *config, const ks_seed *seed);

/* Frees it, as ks_server_free does. What it asked for is not cancelled: an observation ends at the server's next
 * notification, if your port answers that with a Reset or not at all. */
void ks_client_free(ks_client *handle);

enum ks_method { KS_GET = 1, KS_POST = 2, KS_PUT = 3, KS_DELETE = 4 };

typedef struct {
    int32_t format;             /* of the body, or KS_NO_FORMAT */
    int32_t accept;             /* that is wanted, or KS_NO_FORMAT */
    uint8_t method;             /* enum ks_method */
    bool if_none_match;         /* whether nothing may be there yet */
} ks_request;

typedef struct { uint8_t len; uint8_t bytes[8]; } ks_tag;   /* an entity-tag of 1 to 8 bytes */

/* Why a call or an observation is not taken. (Want of memory is KS_NO_MEMORY.) */
enum ks_call_refusal {
    KS_CALL_QUEUE_FULL = 33,    /* 8 calls wait */
    KS_CALL_BODY_TOO_LARGE = 34, /* the body is longer than body_limit */
    KS_CALL_BAD_PATH = 35,      /* path and options are too long for one message */
    KS_CALL_WATCHES_FULL = 37,  /* 16 observations wait, run or are live */
    KS_CALL_CALLS_SPENT = 38    /* each number was given once */
};

/* Takes a request. It starts at a later tick; one runs at a time, in order, and 8 wait. *id is its number; its report has
 * that number. At most 4 tags each: for none any pointer and 0. KS_OK; ks_call_refusal; KS_BAD_PATH, KS_BAD_ARGUMENT,
 * KS_NO_MEMORY, KS_NOT_LIVE. */
int32_t ks_client_call(ks_client *handle, uint64_t now, const ks_request *what, const char *path, size_t path_len,
                       const void *body, size_t body_len, const ks_tag *etags, size_t etags_len,
                       const ks_tag *if_match, size_t if_match_len, uint64_t *id);

/* Takes an observation of what the path holds, whose registration starts at a later tick. Its reports are of kind
 * KS_VALUE until a last one. As ks_client_call. */
int32_t ks_client_observe(ks_client *handle, uint64_t now, const char *path, size_t path_len, uint64_t *id);

enum ks_cancel_refusal {
    KS_CANCEL_UNKNOWN = 57,     /* no live observation has the number, or it is being cancelled */
    KS_CANCEL_QUEUE_FULL = 58   /* 8 calls wait */
};

/* Takes the cancel of an observation, which is asked of the server; KS_CANCELLED is its last report. KS_OK;
 * ks_cancel_refusal; KS_NOT_LIVE. */
int32_t ks_client_cancel(ks_client *handle, uint64_t now, uint64_t id);

/* Forgets an observation, with no message and no further report; its next notification is answered with a Reset, which
 * ends it at the server. KS_DONE; KS_OK where none is live with that number; KS_NOT_LIVE. */
int32_t ks_client_forget(ks_client *handle, uint64_t id);

/* As the server's. A client's calls start in its ticks, so tick after each call, cancel and feed. */
int32_t ks_client_feed(ks_client *handle, uint64_t now, const ks_address *from, const void *datagram,
                       size_t datagram_len, uint64_t word);
int32_t ks_client_tick(ks_client *handle, uint64_t now, uint64_t word);
int32_t ks_client_due(ks_client *handle, uint64_t *at);
int32_t ks_client_next_out(ks_client *handle, ks_address *to, void *room, size_t room_len, size_t *len);

enum ks_report_kind {
    KS_BODY = 1,                /* what a GET asked for: body, format, tag */
    KS_VALID = 2,               /* one that was named by an entity-tag is valid: tag */
    KS_SUCCESS = 3,             /* a POST, PUT or DELETE succeeded: code */
    KS_VALUE = 4,               /* of an observation: sequence, body, format, tag; more may follow */
    KS_ENDED = 5,               /* the server ended the observation, or did not begin it: code */
    KS_CANCELLED = 6,           /* the observation is cancelled */
    KS_FAILED = 7,              /* another response: code */
    KS_TIMEOUT = 8,             /* no acknowledgement came */
    KS_RESET = 9,               /* the server rejected the request by a Reset */
    KS_NO_RESPONSE = 10,        /* acknowledged, but no separate response came */
    KS_CHANGED = 11,            /* the representation changed again and again while its blocks were fetched */
    KS_BAD_BLOCK = 12,          /* a block is not the one that was asked for */
    KS_NO_TAG = 13,             /* one of several blocks has no entity-tag */
    KS_TOO_LARGE = 14,          /* the body is longer than body_limit */
    KS_NO_IDS = 15              /* no Message ID or no token was free */
};

typedef struct {
    uint64_t id;                /* of which call or observation */
    size_t body_len;
    int32_t format;             /* or KS_NO_FORMAT */
    uint32_t sequence;          /* of a KS_VALUE: rises, modulo 2^24 */
    uint8_t kind;               /* enum ks_report_kind */
    uint8_t code;               /* 0x45 for 2.05: three bits of class, five of detail; or 0 */
    uint8_t tag_len;            /* 0: no entity-tag */
    uint8_t tag[8];
} ks_report;

/* Takes the report that is to be taken next: KS_DONE with *report written and its body at the front of the room; KS_OK
 * where there is none; KS_SMALL_ROOM with *report written, where body_len says how much room is wanted: it is given again.
 * As many bytes as the client's body_limit are always enough. KS_NOT_LIVE. Each report but a KS_VALUE is the last of its
 * number. After KS_SUCCESS the request was applied once; after KS_FAILED never; after another last report perhaps. */
int32_t ks_client_next_report(ks_client *handle, ks_report *report, void *room, size_t room_len);

/* ---- A look at a datagram ---------------------------------------------------------------------------------------- */

/* The first fault of a datagram that is no message of CoAP. */
enum ks_fault {
    KS_FAULT_SHORT = 81,        /* fewer than the 4 bytes of a header */
    KS_FAULT_VERSION = 82,      /* a version other than 1 */
    KS_FAULT_TOKEN_LENGTH = 83, /* a token length of 9 to 15 */
    KS_FAULT_TOKEN_CUT = 84,    /* fewer bytes than the token length says */
    KS_FAULT_EMPTY_NOT_BARE = 85, /* code 0.00 with a token length, or with bytes behind the Message ID */
    KS_FAULT_DELTA_RESERVED = 86, /* a delta of 15 in a byte that is no payload marker */
    KS_FAULT_LENGTH_RESERVED = 87, /* a length of 15 */
    KS_FAULT_OPTION_CUT = 88,   /* the bytes end inside an option */
    KS_FAULT_NUMBER_TOO_LARGE = 89, /* an option number above 65,535 */
    KS_FAULT_NO_PAYLOAD = 90    /* the payload marker is the last byte */
};

/* The type of a message. */
enum ks_type { KS_CON = 0, KS_NON = 1, KS_ACK = 2, KS_RST = 3, KS_TYPE_HIDDEN = 255 };

typedef struct {
    size_t fault_at;            /* where the fault is, in bytes from the start; 0 where there is none */
    size_t path_len;            /* bytes of the path's text */
    size_t payload_len;
    uint16_t id;                /* the Message ID; 0 where the fault hides it */
    uint8_t kind;               /* enum ks_type; KS_TYPE_HIDDEN where the fault hides it */
    uint8_t code;               /* as in ks_report; 1 to 4 of a request are enum ks_method; 0 at a fault */
    uint8_t token_len;
    uint8_t token[8];
} ks_message;

/* What a datagram says, so that an application may drop one before ks_server_feed, by its path or its sender; one that is
 * dropped looks lost to both ends. KS_OK with *shown written and the values of Uri-Path as text at the front of the
 * room, each behind a `/`; ks_fault with *shown written; KS_SMALL_ROOM with nothing written to *shown: three times the
 * length of the datagram is room enough. It needs no end, takes no memory and changes nothing. */
int32_t ks_peek(const void *datagram, size_t datagram_len, ks_message *shown, char *room, size_t room_len);

/* ---- A request that is refused ----------------------------------------------------------------------------------- */

/* As ks_server_feed, but a request that is new is answered with this code of class 4 or 5 (0x83 for 4.03), and nothing
 * that it asks is done. Two answers come first, whatever is asked: 4.02 where it has a critical option that nobody knows
 * (none to a Non-confirmable request), and 5.05 where it wants a proxy. What is no request is fed as it is. The refusal
 * is remembered as any message: a copy of it gets that answer, and a copy of a request that was served gets the stored
 * reply. So your rules may change at any moment. KS_DONE: there was such a request; KS_OK: there was none;
 * KS_BAD_ARGUMENT: another code; KS_NO_MEMORY, after which the datagram counts as lost; KS_NOT_LIVE. */
int32_t ks_server_refuse_by(ks_server *handle, uint64_t now, const ks_address *from, const void *datagram,
                            size_t datagram_len, uint64_t word, uint8_t code);

/* The same with 4.05; KS_OK whether there was such a request or not. */
int32_t ks_server_refuse(ks_server *handle, uint64_t now, const ks_address *from, const void *datagram,
                         size_t datagram_len, uint64_t word);

#define KS_REFUSAL_ROOM 12      /* no answer of ks_refuse is longer */

/* The answer of a Confirmable request that you do not feed: an acknowledgement with its Message ID, its token and this
 * code of class 4 or 5 (0x83 for 4.03), and nothing else. KS_DONE with *len and its bytes at the front of the room;
 * KS_OK: the datagram gets none, since it is no Confirmable request; KS_BAD_ARGUMENT: another code; KS_SMALL_ROOM. It
 * needs no end, takes no memory and changes nothing. A client takes the answer to say that the request is never
 * applied. So it is right only where no copy of the request is ever fed: your verdict is one of the sender and the
 * datagram's bytes alone, and it stays as it is for 147 s. Send the answer at that moment or never. Prefer
 * ks_server_refuse, which asks nothing of the kind, and answers a Non-confirmable request, too. */
int32_t ks_refuse(const void *datagram, size_t datagram_len, uint8_t code, void *room, size_t room_len, size_t *len);

/* ---- How much an end has, and what a datagram would be ------------------------------------------------------------- */

/* How much an end has at a moment. Set `size` to sizeof (ks_end_load) before the call. What an end of the other kind has alone
 * is 0. Each count is exact; what has lived its time is not counted. Later versions add fields at the end. */
typedef struct {
    uint32_t size;              /* sizeof (ks_end_load) */
    uint32_t ids_left;          /* Message IDs that can be given now, one after the other: at 0 nothing new can be sent */
    uint64_t changes_left;      /* of a server: changes that its store can take now, one after the other */
    uint64_t remembered;        /* messages that are remembered, to tell repeats */
    uint64_t remembered_most;   /* how many can be: with as many, new messages go unanswered */
    uint64_t outstanding;       /* Confirmable messages that are not acknowledged yet */
    uint64_t queued;            /* datagrams that wait for ks_.._next_out */
    uint64_t observers;         /* of a server: 64 at most */
    uint64_t partial;           /* of a server: uploads that are not whole yet; 16 at most */
    uint64_t deferred;          /* of a server: requests that wait for their separate responses; 16 at most */
    uint64_t paths;             /* of a server: paths that hold something; 256 at most */
    uint64_t delays;            /* of a server: paths with a delay; 16 at most */
    uint64_t plains;            /* of a server: paths that are plain; 16 at most */
    uint64_t waiting;           /* of a client: calls and cancels that wait; 8 at most */
    uint64_t observations;      /* of a client: live ones; 16 at most */
    uint64_t reports;           /* of a client: reports that wait for ks_client_next_report */
} ks_end_load;

/* How much the end has at this moment. A moment before the last one counts as the last. Nothing changes, and it takes no
 * memory. KS_OK with *load written; KS_BAD_SIZE; KS_NOT_LIVE. */
int32_t ks_server_load(ks_server *handle, uint64_t now, ks_end_load *load);
int32_t ks_client_load(ks_client *handle, uint64_t now, ks_end_load *load);

/* What a datagram would be if it were fed now. */
enum ks_would {
    KS_WOULD_IGNORE = 64,       /* silently ignored */
    KS_WOULD_REJECT = 65,       /* answered with a Reset */
    KS_WOULD_REPEAT = 66,       /* a repeat of what is remembered: the stored reply goes out again, if there is one */
    KS_WOULD_TAKE = 67,         /* new: handed up */
    KS_WOULD_NO_PLACE = 68,     /* new, but dropped: as many messages are remembered as can be */
    KS_WOULD_NO_ID = 69,        /* a Non-confirmable request that is not served, as no Message ID is free for its answer */
    KS_WOULD_ACKNOWLEDGE = 70,  /* an acknowledgement of what is outstanding, and no more */
    KS_WOULD_RESET = 71         /* a Reset, of what is outstanding or of what is not */
};

/* What ks_.._feed would make of the datagram at this moment: the row of the table of arrivals that it would take. So new
 * messages can be charged to whom they come from, or counted, before they are fed. Nothing changes, and it takes no
 * memory. enum ks_would; KS_NOT_LIVE. */
int32_t ks_server_would(ks_server *handle, uint64_t now, const ks_address *from, const void *datagram,
                        size_t datagram_len);
int32_t ks_client_would(ks_client *handle, uint64_t now, const ks_address *from, const void *datagram,
                        size_t datagram_len);

typedef struct {
    ks_address to;
    bool observe;               /* it was a notification */
    uint8_t token_len;
    uint8_t token[8];
} ks_ended;

/* The separate response or the notification that the last feed or tick ended, by a Reset or for want of an
 * acknowledgement; whom a notification ends so, is no longer notified. KS_DONE with *ended written; KS_OK where there is
 * none; KS_NOT_LIVE. The next feed or tick empties it, as ks_server_applied. */
int32_t ks_server_ended(ks_server *handle, ks_ended *ended);

/* Whether the server has something of this peer at this moment that it may send, or may still need: an observation, an
 * upload that is not whole, a request that waits for its delay, a message that is not acknowledged or that waits for
 * ks_server_next_out. KS_DONE; KS_OK where it has nothing; KS_NOT_LIVE. What tells repeats is not counted: that is over
 * by itself, 247 s after the peer's last message. After both, a name of the peer can be given to another. */
int32_t ks_server_knows(ks_server *handle, uint64_t now, const ks_address *peer);

/* Forgets a peer from which nothing comes any more, as one whose session is closed: its observations, its uploads that are
 * not whole, its requests that wait for their delay, and what it did not acknowledge. What waits for ks_server_next_out
 * stays: take that first. What tells repeats stays, too, so a copy of a request that was served is not served again. Like a
 * feed it empties what ks_server_applied tells, and ks_server_ended tells what it ended. KS_DONE: there was something, as
 * ks_server_knows tells it; KS_OK: there was nothing; KS_NO_MEMORY, of a server with a journal alone; KS_NOT_LIVE. */
int32_t ks_server_forget(ks_server *handle, const ks_address *peer);

/* ---- Names for peers --------------------------------------------------------------------------------------------- */

/* An end compares addresses and reads nothing in them. So a ks_address can be the name of anything that sends datagrams:
 * an IPv6 address with its scope, a DTLS session, a radio. This table gives such names to peers, and finds the peer of a
 * name again. A peer is the bytes of a key that you choose; two spellings are two peers.
 *
 *     while (a datagram came from the peer of `key`)
 *         if (ks_names_fed(&names, now, key, key_len, &name) == KS_OK) ks_server_feed(&server, now, &name, ..);
 *     while (ks_server_next_out(&server, &name, room, ..) == KS_DONE)
 *         if (ks_names_sent(&names, now, &name, key, sizeof key, &key_len) == KS_DONE) send to the peer of `key`;
 *
 * What is kept, for as long as the table lives, and what rests on it:
 *  - No two peers have one name, and no name is given again. Else one is answered with what another asked.
 *  - A peer keeps its name for 247 s after the last datagram from it or to it, and while the name is held. In that time
 *    an end forgets what it remembers of the peer's messages, so no copy of one is served twice.
 *  - A peer is refused a name only where each place is taken so. Else whose last datagram is the oldest makes room.
 * Yours are these rules:
 *  - Drop a datagram from a peer that gets no name, and one to a name that is nobody's. It counts as lost.
 *  - Hold the name of a peer to which an end may send by itself: that of a client's server; and of a server each for
 *    which ks_server_knows answers KS_DONE behind a feed. Release it once that answers KS_OK.
 *  - A table begins with its end. One that begins anew under an end that goes on gives names twice.
 * A moment before the last one counts as the last. A table goes with an end in one place of your program, and takes its
 * moments from the same clock. */
typedef struct { ks_handle handle; } ks_names;

#define KS_KEY_ROOM 60          /* a key has 1 to 60 bytes */

/* Why a peer gets no name. */
enum ks_names_refusal {
    KS_NAMES_FULL = 96,         /* each place is taken: by a name that is held, or that had a datagram in the last 247 s */
    KS_NAMES_SPENT = 97         /* all names are used up: 65,535 * 2^32, or of "this network" 65,535 * 2^24 */
};

/* Makes a table in which no peer has a name, for at most so many peers at once, 1 to 1,048,576; what the handle held is
 * freed. With `this_network` all names are in 0.0.0.0/8, from which no IPv4 datagram comes (RFC 1122, section 3.2.1.3):
 * then IPv4 peers can go by their own addresses beside them. The keys of the seed are those of the hash by which peers are
 * found. KS_OK; KS_BAD_ARGUMENT (the number of places), KS_NO_MEMORY, after which the handle holds what it held. */
int32_t ks_names_new(ks_names *handle, uint32_t places, bool this_network, const ks_seed *seed);

/* Frees it. The handle is empty then: it may be freed again, and used for a new table. */
void ks_names_free(ks_names *handle);

/* A datagram came from this peer: KS_OK with the name that it has, or a new one; ks_names_refusal; KS_BAD_ARGUMENT (the
 * key), KS_NO_MEMORY (never of a peer that has a name), KS_NOT_LIVE. */
int32_t ks_names_fed(ks_names *handle, uint64_t now, const void *key, size_t key_len, ks_address *name);

/* A datagram goes to this name: KS_DONE with the peer's key at the front of the room; KS_OK where it is nobody's;
 * KS_SMALL_ROOM (under KS_KEY_ROOM bytes), KS_NOT_LIVE. It takes no memory. */
int32_t ks_names_sent(ks_names *handle, uint64_t now, const ks_address *name, void *room, size_t room_len, size_t *len);

/* The name of a peer: KS_DONE; KS_OK where it has none; KS_BAD_ARGUMENT (the key), KS_NOT_LIVE. Nothing changes, and it
 * takes no memory. So what asks nothing can be dropped where its peer has no name, and takes no place. */
int32_t ks_names_of(ks_names *handle, const void *key, size_t key_len, ks_address *name);

/* As ks_names_sent, but nothing goes there, and nothing changes. */
int32_t ks_names_key(ks_names *handle, const ks_address *name, void *room, size_t room_len, size_t *len);

/* Holds a name: it is kept until it is released or retired. KS_DONE, also where it is held already; KS_OK where it is
 * nobody's; KS_NO_MEMORY (never of a name that is held, or nobody's), KS_NOT_LIVE. */
int32_t ks_names_hold(ks_names *handle, const ks_address *name);

/* Holds it no more; that counts as a datagram. KS_DONE; KS_OK where it was not held; KS_NO_MEMORY (never of a name that is
 * not held), KS_NOT_LIVE. */
int32_t ks_names_release(ks_names *handle, uint64_t now, const ks_address *name);

/* Forgets a name at once. Only where nothing can come from its peer any more, as from a DTLS session that is closed; the
 * key may come again, and gets another name. Where the name is that of a server's peer, ks_server_forget comes first. KS_DONE;
 * KS_OK where it is nobody's; KS_NOT_LIVE. */
int32_t ks_names_retire(ks_names *handle, const ks_address *name);

/* How many peers have a name: KS_OK with *taken written; KS_NOT_LIVE. */
int32_t ks_names_load(ks_names *handle, uint64_t *taken);

/* ---- What an answer says ----------------------------------------------------------------------------------------- */

/* Whether a call refused. (Not of ks_peek, which answers KS_OK or what is wrong with the datagram, and not of
 * ks_server_would and ks_client_would.) */
static inline bool ks_refused(int32_t answer) { return answer != KS_OK && answer != KS_DONE; }

/* An answer in words. */
static inline const char *ks_answer_text(int32_t answer) {
    switch (answer) {
    case KS_OK: return "carried out, or there is nothing";
    case KS_DONE: return "there was something, and it is done";
    case KS_NOT_LIVE: return "the handle holds no end of this kind";
    case KS_NO_MEMORY: return "out of memory";
    case KS_BAD_PATH: return "the text is no path";
    case KS_SMALL_ROOM: return "the buffer is too small";
    case KS_BAD_ARGUMENT: return "a method, an entity-tag, a code, a key or a number of places that is none";
    case KS_BAD_SIZE: return "the size of the struct is none";
    case KS_BAD_BLOCK_SIZE: return "the block size is none of 16, 32, .. 1,024";
    case KS_BAD_BODY_LIMIT: return "the limit of bodies is not 1 to 1,048,576";
    case KS_BAD_REMEMBERED: return "the number of remembered messages is not 1 to 1,048,576";
    case KS_BAD_CHANGES: return "the number of changes is not 1 to 4,194,303";
    case KS_BAD_BASE: return "the base of versions is no multiple of 2^24 below 2^63";
    case KS_UNTOLD: return "what was taken is not handed out yet";
    case KS_SET_TOO_LARGE: return "the body is longer than the server's limit";
    case KS_SET_TOO_MANY_PATHS: return "256 other paths hold something";
    case KS_SET_RATE_EXCEEDED: return "the window of 256 s has no change left";
    case KS_SET_VERSIONS_SPENT: return "the versions are spent";
    case KS_CALL_QUEUE_FULL: return "8 calls wait: the call is not taken";
    case KS_CALL_BODY_TOO_LARGE: return "the body is longer than the client's limit";
    case KS_CALL_BAD_PATH: return "path and options are too long for one message";
    case KS_CALL_WATCHES_FULL: return "16 observations wait, run or are live";
    case KS_CALL_CALLS_SPENT: return "the numbers of calls are spent";
    case KS_DELAY_FULL: return "16 other paths have a delay";
    case KS_PLAIN_FULL: return "16 other paths are plain";
    case KS_CANCEL_UNKNOWN: return "no live observation has the number";
    case KS_CANCEL_QUEUE_FULL: return "8 calls wait: the cancel is not taken";
    case KS_WOULD_IGNORE: return "the datagram would be ignored";
    case KS_WOULD_REJECT: return "the datagram would be answered with a Reset";
    case KS_WOULD_REPEAT: return "the datagram would be a repeat";
    case KS_WOULD_TAKE: return "the datagram would be taken";
    case KS_WOULD_NO_PLACE: return "the datagram would be dropped, as no place is left to remember it";
    case KS_WOULD_NO_ID: return "the datagram would not be served, as no Message ID is free";
    case KS_WOULD_ACKNOWLEDGE: return "the datagram would acknowledge what is outstanding";
    case KS_WOULD_RESET: return "the datagram would be a Reset";
    case KS_NAMES_FULL: return "each place of the names is taken";
    case KS_NAMES_SPENT: return "all names are used up";
    case KS_JOURNAL_DAMAGED: return "whole frames of the journal stand behind one that isn't";
    case KS_JOURNAL_NOT_BEGUN: return "no frame of the journal is whole";
    case KS_JOURNAL_OTHER_FORMAT: return "a journal of another format";
    case KS_JOURNAL_OTHER_LAW: return "a journal of a server by another law";
    case KS_JOURNAL_UNREADABLE: return "a whole frame of the journal that holds no record";
    case KS_JOURNAL_OTHER_SERVER: return "a journal of another server";
    case KS_FAULT_SHORT: return "fewer than 4 bytes";
    case KS_FAULT_VERSION: return "a version other than 1";
    case KS_FAULT_TOKEN_LENGTH: return "a token length of 9 to 15";
    case KS_FAULT_TOKEN_CUT: return "the bytes end inside the token";
    case KS_FAULT_EMPTY_NOT_BARE: return "an Empty message that is not bare";
    case KS_FAULT_DELTA_RESERVED: return "a reserved option delta";
    case KS_FAULT_LENGTH_RESERVED: return "a reserved option length";
    case KS_FAULT_OPTION_CUT: return "the bytes end inside an option";
    case KS_FAULT_NUMBER_TOO_LARGE: return "an option number above 65,535";
    case KS_FAULT_NO_PAYLOAD: return "a payload marker with no payload";
    default: return "no answer of this library";
    }
}

#ifdef __cplusplus
}
#endif
#endif
