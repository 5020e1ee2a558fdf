/* exchanges.c: the requests that may be answered, ours and the peer's. */
#include "inside.h"
#include <openssl/crypto.h>
#include <string.h>

#define COPY_OF_REQUEST_MS 47000    /* no retransmission goes out later */
#define KEEP_MS 247000              /* EXCHANGE_LIFETIME (RFC 7252, section 4.8.2) */
/* An observer is sent something each day (RFC 7641, section 4.5). */
#define WATCH_MS (86400000 + KEEP_MS)

static uint64_t age(const ks_oscore *c, uint64_t at) { return c->now - at; }

static bool is_same_head(const head *a, const head *b) { return memcmp(a, b, sizeof *a) == 0; }

bool is_same_token(const head *a, const head *b) {
    return a->token_len == b->token_len && memcmp(a->token, b->token, a->token_len) == 0;
}

int observe_of(const message *m) {
    if (m->observe.at == NULL || m->observe.len > 1) return NOT_OBSERVING;
    uint8_t value = m->observe.len == 0 ? 0 : m->observe.at[0];
    return value == REGISTERS || value == CANCELS ? value : NOT_OBSERVING;
}

bool same_of(const message *m, uint8_t digest[DIGEST_LEN]) {
    uint8_t bytes[KS_OSCORE_ROOM + KS_OSCORE_MORE];
    writer w = {bytes, sizeof bytes, 0, 0, false};
    option_reader r = options_of(m);
    option o;
    put(&w, &m->code, 1);
    while (option_next(&r, &o))
        if (!is_outer(o.number) && o.number != OBSERVE && o.number != ETAG) put_option(&w, o.number, o.value);
    put_payload(&w, m->payload);
    bool is_made = !w.is_full && digest_of((span){bytes, w.len}, digest);
    OPENSSL_cleanse(bytes, sizeof bytes);
    return is_made;
}

exchange *sealed_before(ks_oscore *c, table t, const sent *now, const sent **which) {
    uint64_t longest = t.at == c->asked ? COPY_OF_REQUEST_MS : KEEP_MS;
    for (exchange *e = t.at; e < t.at + t.count; e++)
        for (size_t i = 0; e->is_there && i < SENT; i++) {
            *which = &e->sent[i];
            if ((*which)->is_there && memcmp((*which)->digest, now->digest, DIGEST_LEN) == 0
                && age(c, (*which)->at) <= longest)
                return e;
        }
    return NULL;
}

/* Whether this is the observation which the other cancels, or registers anew. */
static bool is_observation_of(const exchange *e, const exchange *other) {
    return e->is_there && e->observe == REGISTERS && other->observe != NOT_OBSERVING
        && is_same_token(&e->head, &other->head) && memcmp(e->same, other->same, DIGEST_LEN) == 0;
}

static bool is_older(const exchange *a, const exchange *b) {
    return a->used < b->used || (a->used == b->used && a->number < b->number);
}

/* A free place; else that of the least used which `may_go`. */
static exchange *place_in(const ks_oscore *c, table t, bool (*may_go)(const ks_oscore *, const exchange *)) {
    exchange *oldest = NULL;
    for (exchange *e = t.at; e < t.at + t.count; e++) {
        if (!e->is_there) return e;
        if (may_go(c, e) && (oldest == NULL || is_older(e, oldest))) oldest = e;
    }
    return oldest;
}

/* ---- Ours ---- */

static bool is_no_observation(const ks_oscore *c, const exchange *e) { return (void)c, e->observe != REGISTERS; }

static bool is_any(const ks_oscore *c, const exchange *e) { return (void)c, (void)e, true; }

/* What comes for those that are forgotten does not open as a response to this one. */
void asked_put(ks_oscore *c, const exchange *made) {
    table asked = {c->asked, ASKED};
    for (exchange *e = c->asked; e < c->asked + ASKED; e++) {
        bool is_kept = made->observe == CANCELS && is_observation_of(e, made);
        if (is_same_token(&e->head, &made->head) && !is_kept) e->is_there = false;
    }
    exchange *place = place_in(c, asked, is_no_observation);
    if (place == NULL) place = place_in(c, asked, is_any);
    *place = *made;
}

int32_t asked_hear(exchange *e, const head *h, uint64_t number) {
    heard *oldest = &e->heard[0];
    for (size_t i = 0; i < (e->observe == REGISTERS ? HEARD : 1); i++) {
        heard *it = &e->heard[i];
        if (it->is_there && (it->number == number || e->observe != REGISTERS))
            return is_same_head(&it->head, h) ? KS_OSCORE_COPY : KS_OSCORE_REPLAYED;
        if (oldest->is_there && (!it->is_there || it->number < oldest->number)) oldest = it;
    }
    if (oldest->is_there && number < oldest->number) return KS_OSCORE_REPLAYED;
    *oldest = (heard){*h, number, true};
    return KS_DONE;
}

/* ---- The peer's ---- */

exchange *taken_as(ks_oscore *c, uint64_t number) {
    for (exchange *e = c->taken; e < c->taken + TAKEN; e++)
        if (e->is_there && e->number == number) return e;
    return NULL;
}

bool is_copy_of(const ks_oscore *c, const exchange *e, const head *h) {
    return is_same_head(&e->head, h) && age(c, e->at) < KEEP_MS;
}

static bool may_be_answered(const ks_oscore *c, const exchange *e) {
    return e->observe == REGISTERS ? age(c, e->used) < WATCH_MS : !e->is_answered && age(c, e->at) < KEEP_MS;
}

static bool is_over(const ks_oscore *c, const exchange *e) { return !may_be_answered(c, e); }

bool has_own_token(const ks_oscore *c, const exchange *made) {
    for (const exchange *e = c->taken; e < c->taken + TAKEN; e++)
        if (e->is_there && is_same_token(&e->head, &made->head) && may_be_answered(c, e) && !is_observation_of(e, made))
            return false;
    return true;
}

exchange *taken_place(ks_oscore *c) { return place_in(c, (table){c->taken, TAKEN}, is_over); }

static void end_observation(ks_oscore *c, const exchange *of) {
    for (exchange *e = c->taken; e < c->taken + TAKEN; e++)
        if (e != of && is_observation_of(e, of)) e->observe = NOT_OBSERVING, e->is_answered = true;
}

void taken_put(ks_oscore *c, const exchange *made, exchange *place) {
    if (made->observe == REGISTERS) end_observation(c, made);
    *place = *made;
}

/* The newest of the token for which `holds`. */
static exchange *newest(ks_oscore *c, const head *h, bool (*holds)(const exchange *, const head *)) {
    exchange *found = NULL;
    for (exchange *e = c->taken; e < c->taken + TAKEN; e++)
        if (e->is_there && is_same_token(&e->head, h) && holds(e, h) && (found == NULL || e->number > found->number))
            found = e;
    return found;
}

static bool has_its_id(const exchange *e, const head *h) {
    return e->head.type == CON && memcmp(e->head.id, h->id, sizeof h->id) == 0;
}

static bool is_observed(const exchange *e, const head *h) { return (void)h, e->observe == REGISTERS; }

static bool is_unanswered(const exchange *e, const head *h) { return (void)h, !e->is_answered; }

exchange *request_of(ks_oscore *c, const message *m) {
    if (m->head.type == ACK) return newest(c, &m->head, has_its_id);
    exchange *e = m->observe.at == NULL ? newest(c, &m->head, is_unanswered) : NULL;
    return e != NULL ? e : newest(c, &m->head, is_observed);
}

void taken_answered(ks_oscore *c, exchange *e, bool observes) {
    if (e->observe == CANCELS) end_observation(c, e);
    if (!observes) e->observe = NOT_OBSERVING;
    e->is_answered = true;
    e->used = c->now;
}
