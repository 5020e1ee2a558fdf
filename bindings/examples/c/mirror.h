/* mirror.h: what a mirror does between its two ends. Its client observes a path of a device, and its server shows the
 * readings to clients of its own. It has no socket and no clock; mirror.c has both.
 *
 * Every reading that a client of the mirror is shown was held by the device before, and readings never go back:
 *  - Values of one observation rise. The mirror forgets an observation before it takes the next one, and an observation
 *    that is taken later shows what was held later. So it needs no look at entity-tags.
 *  - The server holds a reading only once it was reported, and what its clients read was held by it.
 * Ages add up: a value is at most 252 s old when it is reported; then it is shown for at most `fresh_ms`; and what a
 * client of the mirror reads was shown at most 252 s before.
 *
 * A device that is gone says nothing, and so does one whose value stays. Half of `fresh_ms` after the last value the
 * mirror observes anew, which has the device say what it holds. Where nothing came when `fresh_ms` is over, the path is
 * removed: who asks is told 4.04, and who observes, too. So an old reading is never shown as new. A device that is back
 * is shown again with its next value. */
#ifndef MIRROR_H
#define MIRROR_H

#include "knifesilver.h"
#include <string.h>

#define MIRROR_REST_MS 2000u    /* so long it waits after a refusal, or an observation that ended */

enum mirror_state { MIRROR_NONE, MIRROR_ASKED, MIRROR_LIVE };

typedef struct {
    ks_client client;           /* of the device */
    ks_server *server;
    const char *path;           /* at the device, and at the server */
    uint64_t fresh_ms;
    enum mirror_state state;    /* of its observation */
    uint64_t id;
    uint64_t again;             /* when it observes, or observes anew */
    uint64_t until;             /* when the reading is no longer shown */
    bool shows;                 /* whether there is one */
} mirror;

/* The path holds nothing from now on; where that is refused it is tried again. */
static inline void mirror_hide(mirror *m, uint64_t now) {
    m->shows = ks_refused(ks_server_remove(m->server, now, m->path, strlen(m->path)));
    m->until = now + MIRROR_REST_MS;
}

/* A value came. (One that the server has no room for is as one that did not come.) */
static inline void mirror_show(mirror *m, uint64_t now, const ks_report *r, const void *body) {
    uint64_t version;
    m->state = MIRROR_LIVE;
    if (ks_refused(ks_server_update(m->server, now, m->path, strlen(m->path), r->format, body, r->body_len, &version)))
        return;
    m->shows = true;
    m->until = now + m->fresh_ms;
    m->again = now + m->fresh_ms / 2;
}

static inline void mirror_report(mirror *m, uint64_t now, const ks_report *r, const void *body) {
    if (r->kind == KS_VALUE) {
        mirror_show(m, now, r, body);
        return;
    }
    m->state = MIRROR_NONE;
    m->again = now + MIRROR_REST_MS;
    if (r->kind == KS_ENDED && m->shows) mirror_hide(m, now); /* the device itself says that it holds nothing */
}

/* Forgets the observation that there is, and takes the next one. One that has no answer yet is waited for: its client
 * reports a device that is gone, 93 s after the registration. */
static inline void mirror_observe(mirror *m, uint64_t now) {
    if (m->state == MIRROR_LIVE) ks_client_forget(&m->client, m->id);
    bool taken = !ks_refused(ks_client_observe(&m->client, now, m->path, strlen(m->path), &m->id));
    m->state = taken ? MIRROR_ASKED : MIRROR_NONE;
    m->again = now + MIRROR_REST_MS;
}

/* After the ticks of its client. True: tick the client again, and then make another turn. */
static inline bool mirror_turn(mirror *m, uint64_t now) {
    static uint8_t body[65536];
    ks_report r;
    while (ks_client_next_report(&m->client, &r, body, sizeof body) == KS_DONE) mirror_report(m, now, &r, body);
    if (m->shows && now >= m->until) mirror_hide(m, now);
    if (m->state == MIRROR_ASKED || now < m->again) return false;
    mirror_observe(m, now);
    return m->state == MIRROR_ASKED;
}

/* When the next turn has something to do, beside what its ends are due for; UINT64_MAX: never. */
static inline uint64_t mirror_due(const mirror *m) {
    uint64_t again = m->state != MIRROR_ASKED ? m->again : UINT64_MAX;
    return m->shows && m->until < again ? m->until : again;
}

#endif
