/* How much a client has: a model of it for load_client.c. It says what each call answers, what goes out and what is
 * reported, and from that how many calls wait, how many observations are live and how many reports there are, by RFC
 * 7252, RFC 7641 and the limits in docs/EMBEDDING.md. */
#ifndef LOAD_CLIENT_H
#define LOAD_CLIENT_H

#include "load_layer.h"

#define MOST_WAITING 8u
#define MOST_WATCHES 16u
#define MOST_REPORTS 4096u
#define LIMIT 48u
#define HALF_RANGE (1u << 23)   /* RFC 7641, section 3.4 */
#define REORDERING_MS 128000u
#define SERVER 0u               /* the peer that is the client's server; the others are strangers */

enum role { CALL, REGISTER, CANCEL };

struct operation {
    enum role role;
    uint8_t method;
    uint64_t number;
};

/* What the server sends: the token of a request, or 8 other bytes. */
struct message {
    uint8_t peer, type, code, token[8];
    uint16_t id;
    bool observe;
    uint32_t sequence;
};

static struct operation waits[MOST_WAITING], running;
static struct watch { uint64_t number, at; uint32_t sequence; uint8_t token[8]; } watches[MOST_WATCHES];
static struct told { uint64_t number; uint8_t kind; } reports[MOST_REPORTS];
static size_t waiting, watching, report_len;
static bool runs, acknowledged;
static uint64_t acknowledged_at, numbers;
static uint16_t running_id;
static uint8_t running_token[8];
static uint64_t kinds[KS_NO_IDS + 1], copied, started, ignored, rejected, full, watches_full, unknown;

static bool is_same(const uint8_t *a, const uint8_t *b) { return memcmp(a, b, 8) == 0; }

static void compare(uint64_t asked_at) {
    ks_end_load told = {.size = sizeof told};
    IS(ks_client_load(&client, asked_at, &told), KS_OK);
    compare_layer(&told, counting(asked_at));
    IS(told.waiting, waiting + (is_wrong(13) && runs));
    IS(told.observations, watching);
    IS(told.reports, report_len);
    IS(told.changes_left + told.observers + told.partial + told.deferred + told.paths + told.delays + told.plains, 0);
}

/* ---- Operations, observations and reports ---- */

static void report(uint64_t number, uint8_t kind) {
    IS(report_len < MOST_REPORTS, true);
    reports[report_len++] = (struct told){number, kind};
    kinds[kind]++;
}

static struct watch *watch_of(uint64_t number) {
    for (size_t i = 0; i < watching; i++)
        if (watches[i].number == number) return &watches[i];
    return NULL;
}

static struct watch *watch_with(const uint8_t *token) {
    for (size_t i = 0; i < watching; i++)
        if (is_same(watches[i].token, token)) return &watches[i];
    return NULL;
}

static bool is_cancel(const struct operation *o, uint64_t number) { return o->role == CANCEL && o->number == number; }

static bool is_cancelled(uint64_t number) {
    for (size_t i = 0; i < waiting; i++)
        if (is_cancel(&waits[i], number)) return true;
    return runs && is_cancel(&running, number);
}

/* An observation is over: a cancel of it that waits is taken away. */
static void end_watch(uint64_t number) {
    struct watch *w = watch_of(number);
    if (w != NULL) memmove(w, w + 1, (size_t)(&watches[--watching] - w) * sizeof *w);
    for (size_t i = waiting; i-- > 0 && !is_wrong(14);)
        if (is_cancel(&waits[i], number)) memmove(&waits[i], &waits[i + 1], (--waiting - i) * sizeof *waits);
}

/* What runs is over. */
static void finish(uint8_t kind) {
    runs = false;
    if (running.role == CANCEL) end_watch(running.number);
    report(running.number, kind);
}

static uint64_t observed(void) {
    uint64_t count = watching + (runs && running.role == REGISTER);
    for (size_t i = 0; i < waiting; i++) count += waits[i].role == REGISTER;
    return count;
}

/* ---- What arrives (RFC 7252, sections 4.2, 4.3 and 5.2; RFC 7641, section 3) ---- */

static uint8_t kind_of(uint8_t method, uint8_t code) {
    if (method == GET) return code == CONTENT ? KS_BODY : KS_FAILED;
    if (method == DELETE) return code == DELETED ? KS_SUCCESS : KS_FAILED;
    return code == CREATED || code == CHANGED ? KS_SUCCESS : KS_FAILED;
}

static bool is_notification(const struct message *m) { return m->code == CONTENT && m->observe; }

static void begin_watch(const struct message *m) {
    struct watch w = {.number = running.number, .at = clock_ms, .sequence = m->sequence};
    memcpy(w.token, m->token, sizeof w.token);
    watches[watching++] = w;
}

/* The answer to the request that runs. */
static void answered(const struct message *m) {
    struct open *o = open_of(SERVER, running_id);
    if (o != NULL) close_one(o);
    if (running.role == CANCEL) finish(KS_CANCELLED);
    else if (running.role == CALL) finish(kind_of(running.method, m->code));
    else if (is_notification(m)) begin_watch(m), finish(KS_VALUE);
    else finish(KS_ENDED);
}

static bool is_newer(const struct watch *w, uint32_t number) {
    return (w->sequence < number && number - w->sequence < HALF_RANGE)
           || (w->sequence > number && w->sequence - number > HALF_RANGE) || clock_ms > w->at + REORDERING_MS;
}

static void noticed(const struct message *m) {
    struct watch *w = watch_with(m->token);
    uint64_t number = w->number;
    if (!is_notification(m)) {
        end_watch(number);
        report(number, KS_ENDED);
    } else if (is_newer(w, m->sequence)) {
        w->sequence = m->sequence;
        w->at = clock_ms;
        report(number, KS_VALUE);
    }
}

static void reply_empty(const struct message *m, uint8_t type) {
    rejected += type == RST;
    reply((struct head){m->peer, type, EMPTY, 0, m->id, false});
}

/* A response in a message of its own. */
static void separate(const struct message *m) {
    bool of_running = runs && is_same(running_token, m->token), con = m->type == CON;
    bool crossed = of_running && running.role == CANCEL && m->observe;
    if (m->peer != SERVER || (!of_running && watch_with(m->token) == NULL)) {
        reply_empty(m, RST);
        return;
    }
    if (con) reply_empty(m, ACK);
    if (crossed) ignored++;
    else if (of_running) answered(m);
    else noticed(m);
}

/* An acknowledgement or a Reset of the request that runs; of anything else it is ignored. */
static void acknowledges(const struct message *m) {
    struct open *o = open_of(m->peer, m->id);
    bool is_bare = m->code == EMPTY;
    if (o == NULL || (m->type == RST && !is_bare) || (!is_bare && !is_same(running_token, m->token))) {
        ignored++;
        return;
    }
    if (!is_bare) {
        if (is_wrong(16)) count_one();
        answered(m);
        return;
    }
    if (!is_wrong(17) || m->type == RST) close_one(o);
    if (m->type == RST) finish(KS_RESET);
    else acknowledged = true, acknowledged_at = clock_ms;
}

static void take(const struct message *m) {
    struct head head = {m->peer, m->type, m->code, m->token[0], m->id, m->observe};
    bool is_request = m->code >= GET && m->code <= DELETE;
    if (m->type >= ACK) acknowledges(m);
    else if (m->code == EMPTY) {
        if (m->type == CON) push((struct head){m->peer, RST, EMPTY, 0, m->id, false});
    } else if (!is_over(&head, is_request && m->type == NON)) {
        remember(m->peer, m->id, m->type == CON);
        if (!is_request) separate(m);
        else if (m->type == CON) reply_empty(m, RST);
    }
}

#endif
