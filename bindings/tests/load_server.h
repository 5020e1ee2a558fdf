/* How much a server has: a model of it for load_server.c. It says what each call answers, what goes out, and from that
 * how many places of each table are taken, by RFC 7252, RFC 7641, RFC 7959 and the limits in docs/EMBEDDING.md. */
#ifndef LOAD_SERVER_H
#define LOAD_SERVER_H

#include "load_layer.h"

#define PATHS 300u
#define HOT 24u                 /* paths that are asked for most */
#define TOKENS 6u
#define BLOCK 16u
#define LIMIT 48u
#define MOST_PATHS 256u
#define MOST_CHOSEN 16u         /* paths with a delay, plain paths, uploads, requests that wait */
#define MOST_OBSERVERS 64u
#define WINDOW_MS 256000u
#define DAY_MS 86400000u        /* RFC 7641, section 4.5 */
#define PLAIN_AGE_MS 100000u

enum { NO_OBSERVE = 2 };

struct asked {
    uint8_t peer, method, token, observe;
    uint16_t id;
    bool con, in_block, more, refused;
    uint32_t path, num;
    size_t len;
};

static struct { bool held, delayed, plain; uint64_t ms; size_t len; } paths[PATHS];
static struct observer {
    uint8_t peer, token;
    bool marked, noted;
    uint32_t path;
    uint16_t id;
    uint64_t con, changed, noted_at;
} observers[MOST_OBSERVERS + 1];
static struct upload {
    uint8_t peer, method;
    uint32_t path;
    size_t len;
    uint64_t began, last;
} uploads[MOST_CHOSEN + 1];
static struct wait {
    struct asked asked;
    uint64_t at, ms;
} waits[MOST_CHOSEN];
static size_t observing, uploading, waiting;
static uint64_t window, used, most_changes, changes_at[100000], changed;
static uint64_t twice;

/* Calls that were of each kind: at the end none may be missing. */
enum kind {
    SERVED, REPEATED, NO_PLACE, NO_ID, REGISTERED, LEFT, CON_NOTIFIED, PLAIN_NOTIFIED, ENDED_BY_RESET, PLAIN_ENDED,
    EXPIRED, COPIED, DEFERRED, RESPONDED, JOINED, JOINED_WHOLE, NO_UPLOAD, RATE, FULL_PATHS, OUT_OF_IDS, FORGOTTEN, KINDS
};
static uint64_t kinds[KINDS];

/* ---- What is counted ---- */

static uint64_t count_held(void) {
    uint64_t n = 0;
    for (uint32_t i = 0; i < PATHS; i++) n += paths[i].held;
    return n;
}

static uint64_t count_delayed(void) {
    uint64_t n = 0;
    for (uint32_t i = 0; i < PATHS; i++) n += paths[i].delayed;
    return n;
}

static uint64_t count_plain(void) {
    uint64_t n = 0;
    for (uint32_t i = 0; i < PATHS; i++) n += paths[i].plain;
    return n;
}

static bool is_open(const struct upload *u, uint64_t at) {
    return at <= (is_wrong(8) ? u->began : u->last) + LIFETIME_MS;
}

static uint64_t count_open(uint64_t at) {
    uint64_t n = 0;
    for (size_t i = 0; i < uploading; i++) n += is_open(&uploads[i], at);
    return n;
}

static uint64_t count_waiting(uint64_t at) {
    uint64_t n = 0;
    if (!is_wrong(10)) return waiting;
    for (size_t i = 0; i < waiting; i++) n += at - waits[i].at < waits[i].ms;
    return n;
}

/* Moments fall into windows of 256 s, and a window takes so many changes. */
static uint64_t changes_left(uint64_t at) {
    uint64_t n = 0;
    if (!is_wrong(7)) return most_changes - (at / WINDOW_MS == window ? used : 0);
    for (uint64_t i = changed; i > 0 && at - changes_at[i - 1] < WINDOW_MS; i--) n++;
    return most_changes > n ? most_changes - n : 0;
}

static void compare(uint64_t asked_at) {
    ks_end_load told = {.size = sizeof told};
    uint64_t at = counting(asked_at);
    IS(ks_server_load(&server, asked_at, &told), KS_OK);
    compare_layer(&told, at);
    IS(told.changes_left, changes_left(at));
    IS(told.observers, observing + twice);
    IS(told.partial, count_open(at));
    IS(told.deferred, count_waiting(at));
    IS(told.paths, count_held());
    IS(told.delays, count_delayed());
    IS(told.plains, count_plain());
    IS(told.waiting + told.observations + told.reports, 0);
}

/* ---- The store ---- */

static bool has_change(void) { return (clock_ms / WINDOW_MS == window ? used : 0) < most_changes; }

static void mark(uint32_t path) {
    for (size_t i = 0; i < observing; i++)
        if (observers[i].path == path) observers[i].marked = true, observers[i].changed = clock_ms;
}

static void change(uint32_t path, bool holds, size_t len) {
    used = clock_ms / WINDOW_MS == window ? used + 1 : 1;
    window = clock_ms / WINDOW_MS;
    if (changed < sizeof changes_at / sizeof *changes_at) changes_at[changed++] = clock_ms;
    paths[path].held = holds;
    paths[path].len = len;
    mark(path);
}

/* Why a path can't hold so many bytes: the code that a client is told, or 0. */
static uint8_t why_not(uint32_t path, size_t len) {
    if (len > LIMIT) return TOO_LARGE;
    if (!paths[path].held && count_held() >= MOST_PATHS) return kinds[FULL_PATHS]++, UNAVAILABLE;
    return has_change() ? 0 : (kinds[RATE]++, UNAVAILABLE);
}

static uint8_t put(uint32_t path, size_t len) {
    uint8_t why = why_not(path, len), done = paths[path].held ? CHANGED : CREATED;
    if (why == 0) change(path, true, len);
    return why != 0 ? why : done;
}

static uint8_t erase(uint32_t path) {
    if (!paths[path].held) return DELETED;
    if (!has_change()) return kinds[RATE]++, UNAVAILABLE;
    change(path, false, 0);
    return DELETED;
}

/* ---- Observers (RFC 7641, sections 3.6 and 4.1) ---- */

static bool drop(uint8_t peer, uint8_t token) {
    for (size_t i = 0; i < observing; i++) {
        if (observers[i].peer != peer || observers[i].token != token) continue;
        memmove(&observers[i], &observers[i + 1], (--observing - i) * sizeof *observers);
        return true;
    }
    return false;
}

static bool observes(uint8_t peer, uint8_t token) {
    for (size_t i = 0; i < observing; i++)
        if (observers[i].peer == peer && observers[i].token == token) return true;
    return false;
}

/* A registration takes the place of an earlier one of its peer and token. Where there is no place, there is none. */
static bool registers(const struct asked *q) {
    bool again = observes(q->peer, q->token);
    if (observing - again >= MOST_OBSERVERS) return false;
    drop(q->peer, q->token);
    twice += again && is_wrong(9);
    observers[observing++] = (struct observer){
        .peer = q->peer, .token = q->token, .path = q->path, .con = clock_ms, .changed = clock_ms};
    kinds[REGISTERED]++;
    return true;
}

/* ---- Requests ---- */

/* The code that a request is answered with, and whether it is registered. */
static uint8_t serve(const struct asked *q, bool *registered) {
    bool held = paths[q->path].held;
    *registered = false;
    if (q->refused) return NOT_ALLOWED;
    if (q->method == PUT) return put(q->path, q->len);
    if (q->method == DELETE) return erase(q->path);
    if (q->method == POST) return held ? put(q->path, paths[q->path].len + q->len) : NOT_FOUND;
    if (q->observe == 1) kinds[LEFT] += drop(q->peer, q->token);
    *registered = q->observe == 0 && held && registers(q);
    return held ? CONTENT : NOT_FOUND;
}

static void answer(const struct asked *q, uint8_t code, bool observe) {
    struct head head = {q->peer, q->con ? ACK : NON, code, q->token, q->id, observe};
    if (q->con) reply(head);
    else head.id = give_id(), push(head);
}

/* A Confirmable request of a path with a delay waits, if there is a place, and is acknowledged by an Empty message. */
static void take_whole(const struct asked *q) {
    bool registered;
    if (q->con && !q->refused && paths[q->path].delayed && waiting < MOST_CHOSEN) {
        waits[waiting++] = (struct wait){*q, clock_ms, paths[q->path].ms};
        reply((struct head){q->peer, ACK, EMPTY, 0, q->id, false});
        kinds[DEFERRED]++;
        return;
    }
    uint8_t code = serve(q, &registered);
    answer(q, code, registered);
}

/* ---- Uploads in blocks (RFC 7959, sections 2.5 and 2.9): each of a peer, a path and a method ---- */

static struct upload *upload_of(const struct asked *q) {
    for (size_t i = 0; i < uploading; i++) {
        struct upload *u = &uploads[i];
        if (u->peer == q->peer && u->path == q->path && u->method == q->method) return u;
    }
    return NULL;
}

static void forget_uploads(void) {
    for (size_t i = uploading; i-- > 0;)
        if (clock_ms > uploads[i].last + LIFETIME_MS) uploads[i] = uploads[--uploading];
}

static void end_upload(struct upload *u) {
    if (u != NULL) *u = uploads[--uploading];
}

static void join(const struct asked *q, struct upload *u, size_t len) {
    if (u == NULL) u = &uploads[uploading++];
    if (q->num == 0) *u = (struct upload){q->peer, q->method, q->path, 0, clock_ms, 0};
    u->len = len;
    u->last = clock_ms;
    kinds[JOINED]++;
}

/* Why a block is not taken: the code, or 0. */
static uint8_t why_no_block(const struct asked *q, const struct upload *u) {
    size_t before = q->num * BLOCK;
    if (q->more ? q->len != BLOCK : q->len > BLOCK) return BAD_REQUEST;
    if (q->num != 0 && (u == NULL || u->len != before)) return INCOMPLETE;
    if (before + q->len > LIMIT) return TOO_LARGE;
    return q->more && q->num == 0 && uploading - (u != NULL) >= MOST_CHOSEN ? UNAVAILABLE : 0;
}

static void take_block(struct asked q) {
    forget_uploads();
    struct upload *u = upload_of(&q);
    size_t len = (q.num == 0 || u == NULL ? 0 : u->len) + q.len;
    uint8_t why = why_no_block(&q, u);
    kinds[NO_UPLOAD] += why == UNAVAILABLE;
    if (why == TOO_LARGE) end_upload(u);
    if (why == 0 && q.more) join(&q, u, len);
    if (why != 0 || q.more) {
        answer(&q, why != 0 ? why : CONTINUE, false);
        return;
    }
    end_upload(u);
    kinds[JOINED_WHOLE] += q.num != 0;
    q.len = len;
    take_whole(&q);
}

/* A request that came. */
static void take(const struct asked *q) {
    struct head m = {q->peer, q->con ? CON : NON, q->method, q->token, q->id, false};
    bool is_full = remembered(clock_ms) >= most, is_repeat = entry_of(q->peer, q->id) != NULL;
    if (is_over(&m, !q->con)) {
        kinds[is_repeat ? REPEATED : is_full ? NO_PLACE : NO_ID]++;
        if (!is_repeat && !is_full && is_wrong(11)) remember(q->peer, q->id, q->con);
        return;
    }
    remember(q->peer, q->id, q->con);
    kinds[SERVED]++;
    if (q->in_block && !q->refused && q->method != PUT && q->method != POST) answer(q, BAD_REQUEST, false);
    else if (q->in_block && !q->refused) take_block(*q);
    else take_whole(q);
}

/* ---- A peer that never comes again ---- */

static bool is_known(uint8_t peer) {
    bool is = open_to(peer) != NULL;
    for (size_t i = 0; i < observing; i++) is |= observers[i].peer == peer;
    for (size_t i = 0; i < uploading; i++) is |= uploads[i].peer == peer && is_open(&uploads[i], clock_ms);
    for (size_t i = 0; i < waiting; i++) is |= waits[i].asked.peer == peer;
    for (size_t i = queue_first; i < queue_len; i++) is |= queue[i % QUEUED].peer == peer;
    return is;
}

/* What is remembered of its messages stays, and what waits to go out. */
static void forget(uint8_t peer) {
    for (size_t i = observing; i-- > 0;)
        if (observers[i].peer == peer) drop(peer, observers[i].token);
    for (size_t i = uploading; i-- > 0;)
        if (uploads[i].peer == peer && !is_wrong(18)) end_upload(&uploads[i]);
    for (size_t i = waiting; i-- > 0;)
        if (waits[i].asked.peer == peer) memmove(&waits[i], &waits[i + 1], (--waiting - i) * sizeof *waits);
    if (open_to(peer) != NULL) close_one(open_to(peer));
}

/* ---- What goes out by ticks ---- */

static struct wait *ready(void) {
    for (size_t i = 0; i < waiting; i++)
        if (clock_ms - waits[i].at >= waits[i].ms && open_to(waits[i].asked.peer) == NULL) return &waits[i];
    return NULL;
}

static struct observer *notifiable(void) {
    for (size_t i = 0; i < observing; i++)
        if (observers[i].marked && open_to(observers[i].peer) == NULL) return &observers[i];
    return NULL;
}

static void respond(struct wait *w, const struct head *out) {
    struct asked q = w->asked;
    bool registered;
    memmove(w, w + 1, (size_t)(&waits[--waiting] - w) * sizeof *w);
    uint8_t code = serve(&q, &registered);
    struct head head = {q.peer, CON, code, q.token, give_id(), registered};
    same(out, &head);
    open_one(head);
    kinds[RESPONDED]++;
}

/* A notification of a plain path needs no acknowledgement, but for one a day and one of an old state. That of a path
 * which holds nothing ends the observation. */
static void notify(struct observer *o, const struct head *out) {
    bool held = paths[o->path].held, old = clock_ms - o->con >= DAY_MS || clock_ms - o->changed > PLAIN_AGE_MS;
    bool plain = held && paths[o->path].plain && !old;
    struct head head = {o->peer, plain ? NON : CON, held ? CONTENT : NOT_FOUND, o->token, give_id(), held};
    same(out, &head);
    o->marked = false;
    if (plain) o->noted = true, o->id = head.id, o->noted_at = clock_ms;
    else o->con = clock_ms, open_one(head);
    if (!held) drop(head.peer, head.token);
    kinds[plain ? PLAIN_NOTIFIED : CON_NOTIFIED]++;
}

/* A datagram went out by a tick: a copy of what is not acknowledged, a response that waited, or a notification. */
static void went(const struct head *out) {
    struct open *o = open_of(out->peer, out->id);
    if (o != NULL) {
        same(out, &o->head);
        IS(clock_ms - o->first >= FIRST_TIMEOUT_MS, true);
        kinds[COPIED]++;
        return;
    }
    IS(has_id(clock_ms), true);
    struct wait *w = ready();
    struct observer *notified = notifiable();
    IS(w != NULL || notified != NULL, true);
    if (w != NULL) respond(w, out);
    else notify(notified, out);
}

/* What is not acknowledged is given up after 31 of its first timeout; that ends an observation. */
static void expire(const ks_ended *ended) {
    struct open *o = open_to((uint8_t)(ended->to.port - 1000));
    IS(o != NULL && clock_ms - o->first >= FAILURE_MS, true);
    IS(ended->observe, o->head.observe);
    IS(ended->token[0], o->head.token);
    if (o->head.observe) drop(o->head.peer, o->head.token);
    close_one(o);
    kinds[EXPIRED]++;
}

#endif
