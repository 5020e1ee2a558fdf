/* ks_places.h: names for peers, as those of ks_names in knifesilver.h, but with no proofs and no heap. The memory is
 * yours; a name tells a place, so that you may keep more beside it; and who observes keeps its name without your doing.
 * This table gives names to identities, and finds the identity of a name again. An identity is the bytes of a key.
 *
 *     while (a datagram came from `key`)
 *         if (!ks_refused(ks_places_from(&t, now, key, key_len, &name))) ks_server_feed(&server, now, &name, ..);
 *     while (ks_server_next_out(&server, &name, room, ..) == KS_DONE)
 *         if (ks_places_to(&t, now, &name, room, len, key, &key_len)) send to `key`;
 *
 * What is kept, and what rests on it:
 *  - No two peers share a name. Else one is answered with what another asked.
 *  - A name whose peer was forgotten is no other peer's, for as long as the table lives. A name is a place of the table
 *    and how many peers have had it; after 2^32 of them the place is used no more.
 *  - A peer keeps its name for 247 s after the last datagram from it or to it. Within that time an end forgets what it
 *    remembers of a message, and the last copy of one comes 147 s after the first sending. So no copy comes under
 *    another name while it could be told, and none is served twice.
 *  - An observer keeps its name for longer: else it would be cut off without a word. Either the end is asked, where
 *    `knows` is set. Or who was sent a 2.05 or 2.03 with Observe keeps it until nothing has come or gone for `watch_ms`
 *    and 247 s more. Then change each path that can be observed at least once in `watch_ms`. (RFC 7641, section 4.5,
 *    wants a Confirmable notification in 24 hours anyway.)
 *  - Where there is no place, or a name is not known, drop the datagram. It counts as lost.
 *  - A table begins with its end. One that begins anew under an end that goes on would give a name twice.
 *  - A client holds the name of its server (ks_places_hold).
 *
 * The memory is yours: an array of places, at most 65,535. Each call takes the same few steps, whatever is in the
 * table. A moment before the last one counts as the last. No function is called but memcpy, memcmp and memset. Nothing
 * of this is proved. */
#ifndef KS_PLACES_H
#define KS_PLACES_H

#include "knifesilver.h"
#include <string.h>

#define KS_PLACES_KEEP_MS 247000u   /* EXCHANGE_LIFETIME (RFC 7252, section 4.8.2) */
#define KS_PLACES_TRIES 128u        /* so many observers are asked of the end at most, to find a place */
#define KS_PLACES_OBSERVE 6u        /* the number of the option (RFC 7641, section 2) */

/* Free places are in no list; the others are in one of three, each in the order of their moments. */
enum ks_places_state { KS_PLACES_FREE = 0, KS_PLACES_TAKEN = 1, KS_PLACES_WATCHES = 2, KS_PLACES_HELD = 3 };

typedef struct {
    uint64_t at;                    /* of the last datagram from it or to it */
    uint32_t life;                  /* how many peers have had this place */
    uint32_t older, newer;          /* in its list; places count from 1, 0 is none */
    uint32_t next, bucket;          /* the next with this hash; the first of the hash that is this place's number */
    uint8_t state;
    uint8_t len;
    uint8_t key[KS_KEY_ROOM];
} ks_name_place;

typedef struct {
    ks_name_place *places;
    uint32_t count, free, oldest[4], newest[4];
    uint64_t now, watch_ms, key0, key1;
    bool (*knows)(void *end, const ks_address *name);   /* whether the end may still send to it by itself; or NULL */
    void *end;
    uint64_t taken, given, forgotten, refused; /* places in use; names given, forgotten; peers without a place */
} ks_places;

/* No peer has a name. `key0` and `key1` are random: a stranger who knows them can make look-ups slow. */
static inline void ks_places_init(ks_places *t, ks_name_place *places, uint32_t count, uint64_t watch_ms, uint64_t key0,
                                  uint64_t key1) {
    memset(t, 0, sizeof *t);
    memset(places, 0, count * sizeof *places);
    t->places = places;
    t->count = count;
    t->watch_ms = watch_ms;
    t->key0 = key0;
    t->key1 = key1;
    for (uint32_t i = count; i > 0; i--) {
        places[i - 1].newer = t->free;
        t->free = i;
    }
}

static inline uint64_t ks_places_turned(uint64_t x, int by) { return x << by | x >> (64 - by); }

static inline void ks_places_round(uint64_t v[4]) {
    v[0] += v[1];
    v[1] = ks_places_turned(v[1], 13) ^ v[0];
    v[0] = ks_places_turned(v[0], 32);
    v[2] += v[3];
    v[3] = ks_places_turned(v[3], 16) ^ v[2];
    v[0] += v[3];
    v[3] = ks_places_turned(v[3], 21) ^ v[0];
    v[2] += v[1];
    v[1] = ks_places_turned(v[1], 17) ^ v[2];
    v[2] = ks_places_turned(v[2], 32);
}

/* SipHash-1-3. */
static inline uint64_t ks_places_hash(const ks_places *t, const uint8_t *key, size_t len) {
    uint64_t v[4] = {t->key0 ^ 0x736f6d6570736575u, t->key1 ^ 0x646f72616e646f6du, t->key0 ^ 0x6c7967656e657261u,
                     t->key1 ^ 0x7465646279746573u};
    for (size_t i = 0; i <= len; i += 8) {
        uint64_t m = i + 8 > len ? (uint64_t)len << 56 : 0;
        for (size_t j = 0; j < 8 && i + j < len; j++) m |= (uint64_t)key[i + j] << 8 * j;
        v[3] ^= m;
        ks_places_round(v);
        v[0] ^= m;
    }
    v[2] ^= 255;
    for (int i = 0; i < 3; i++) ks_places_round(v);
    return v[0] ^ v[1] ^ v[2] ^ v[3];
}

static inline ks_name_place *ks_places_of(const ks_places *t, uint32_t at) { return &t->places[at - 1]; }

/* Where the list of an identity's hash begins. */
static inline uint32_t *ks_places_bucket(const ks_places *t, const uint8_t *key, size_t len) {
    return &t->places[ks_places_hash(t, key, len) % t->count].bucket;
}

static inline void ks_places_unlink(ks_places *t, uint32_t at) {
    ks_name_place *p = ks_places_of(t, at);
    *(p->older != 0 ? &ks_places_of(t, p->older)->newer : &t->oldest[p->state]) = p->newer;
    *(p->newer != 0 ? &ks_places_of(t, p->newer)->older : &t->newest[p->state]) = p->older;
}

/* Puts it behind all others of its state, with this moment. */
static inline void ks_places_link(ks_places *t, uint32_t at, uint8_t state) {
    ks_name_place *p = ks_places_of(t, at);
    p->state = state;
    p->at = t->now;
    p->newer = 0;
    p->older = t->newest[state];
    *(p->older != 0 ? &ks_places_of(t, p->older)->newer : &t->oldest[state]) = at;
    t->newest[state] = at;
}

static inline void ks_places_move(ks_places *t, uint32_t at, uint8_t state) {
    ks_places_unlink(t, at);
    ks_places_link(t, at, state);
}

static inline void ks_places_forget(ks_places *t, uint32_t at) {
    ks_name_place *p = ks_places_of(t, at);
    uint32_t *of = ks_places_bucket(t, p->key, p->len);
    while (*of != at) of = &ks_places_of(t, *of)->next;
    *of = p->next;
    ks_places_unlink(t, at);
    p->state = KS_PLACES_FREE;
    if (p->life != UINT32_MAX) { /* else its names are used up, and so is the place */
        p->newer = t->free;
        t->free = at;
    }
    t->taken--;
    t->forgotten++;
}

/* A name: the place is the port, and how many peers have had it the address. */
static inline ks_address ks_places_name(const ks_places *t, uint32_t at) {
    uint32_t life = ks_places_of(t, at)->life;
    ks_address name;
    for (int i = 0; i < 4; i++) name.ip[i] = (uint8_t)(life >> (24 - 8 * i));
    name.port = (uint16_t)at;
    return name;
}

/* The place of a name, counted from 1; 0 where its peer is forgotten. You may keep more beside the places by it. */
static inline uint32_t ks_places_place(const ks_places *t, const ks_address *name) {
    uint32_t at = name->port, life = 0;
    for (int i = 0; i < 4; i++) life = life << 8 | name->ip[i];
    if (at == 0 || at > t->count) return 0;
    return ks_places_of(t, at)->state != KS_PLACES_FREE && ks_places_of(t, at)->life == life ? at : 0;
}

/* The oldest of a list, where it may be forgotten; else 0. */
static inline uint32_t ks_places_over(const ks_places *t, uint8_t state) {
    uint32_t at = t->oldest[state];
    uint64_t keep = KS_PLACES_KEEP_MS + (state == KS_PLACES_WATCHES && t->knows == NULL ? t->watch_ms : 0);
    return at != 0 && t->now - ks_places_of(t, at)->at > keep ? at : 0;
}

/* A free place, where need be that of a peer that may be forgotten; 0: there is none. */
static inline uint32_t ks_places_free(ks_places *t) {
    for (uint32_t tries = 0; t->free == 0 && tries < KS_PLACES_TRIES; tries++) {
        uint32_t at = ks_places_over(t, KS_PLACES_TAKEN);
        if (at == 0) at = ks_places_over(t, KS_PLACES_WATCHES);
        if (at == 0) break;
        ks_address name = ks_places_name(t, at);
        if (t->knows == NULL || !t->knows(t->end, &name)) ks_places_forget(t, at);
        else ks_places_move(t, at, KS_PLACES_WATCHES); /* it is asked of again in 247 s */
    }
    return t->free;
}

/* The name of a peer that has one: KS_DONE with *name; KS_OK where it has none; KS_BAD_ARGUMENT. Nothing changes. */
static inline int32_t ks_places_find(const ks_places *t, const void *key, size_t len, ks_address *name) {
    if (len == 0 || len > KS_KEY_ROOM) return KS_BAD_ARGUMENT;
    uint32_t at = t->count != 0 ? *ks_places_bucket(t, (const uint8_t *)key, len) : 0;
    while (at != 0 && (ks_places_of(t, at)->len != len || memcmp(ks_places_of(t, at)->key, key, len) != 0))
        at = ks_places_of(t, at)->next;
    if (at == 0) return KS_OK;
    *name = ks_places_name(t, at);
    return KS_DONE;
}

/* A datagram came from this peer, and will be handed to the end: KS_OK with the name that it has, KS_DONE with a new
 * one; where it is refused (KS_NAMES_FULL, KS_BAD_ARGUMENT), drop the datagram. */
static inline int32_t ks_places_from(ks_places *t, uint64_t now, const void *key, size_t len, ks_address *name) {
    int32_t found = ks_places_find(t, key, len, name);
    if (now > t->now) t->now = now;
    if (found == KS_BAD_ARGUMENT) return found;
    if (found == KS_DONE) {
        ks_places_move(t, name->port, ks_places_of(t, name->port)->state);
        return KS_OK;
    }
    uint32_t at = ks_places_free(t);
    if (at == 0) {
        t->refused++;
        return KS_NAMES_FULL;
    }
    ks_name_place *p = ks_places_of(t, at);
    uint32_t *bucket = ks_places_bucket(t, (const uint8_t *)key, len);
    t->free = p->newer;
    p->life++;
    p->len = (uint8_t)len;
    p->next = *bucket;
    *bucket = at;
    memcpy(p->key, key, len);
    ks_places_link(t, at, KS_PLACES_TAKEN);
    t->taken++;
    t->given++;
    *name = ks_places_name(t, at);
    return KS_DONE;
}

/* A number of 0 to 15 in the head of an option, and its bytes behind that (RFC 7252, section 3.1): where they end, or
 * NULL. */
static inline const uint8_t *ks_places_number(const uint8_t *at, const uint8_t *end, uint32_t *n) {
    uint32_t bytes = *n == 13 ? 1 : *n == 14 ? 2 : 0;
    if (*n == 15 || (size_t)(end - at) < bytes) return NULL;
    if (bytes == 1) *n = 13u + at[0];
    if (bytes == 2) *n = 269u + ((uint32_t)at[0] << 8 | at[1]);
    return at + bytes;
}

/* Whether a datagram that goes out is a response with Observe: 2.05 or 2.03, and that option. */
static inline bool ks_places_observes(const void *datagram, size_t len) {
    const uint8_t *d = (const uint8_t *)datagram, *at = d + 4, *end = d + len;
    uint32_t number = 0;
    if (len < 4 || d[1] >> 5 != 2 || (size_t)(end - at) < (d[0] & 15u)) return false;
    at += d[0] & 15u;
    while (at != end && *at != 0xff) {
        uint32_t delta = *at >> 4, value = *at & 15u;
        at = ks_places_number(at + 1, end, &delta);
        if (at != NULL) at = ks_places_number(at, end, &value);
        if (at == NULL || (size_t)(end - at) < value) return false;
        number += delta;
        at += value;
        if (number >= KS_PLACES_OBSERVE) return number == KS_PLACES_OBSERVE;
    }
    return false;
}

/* A datagram is to go to this name: true with the peer's identity, for which KS_KEY_ROOM bytes are room enough; false:
 * drop it. */
static inline bool ks_places_to(ks_places *t, uint64_t now, const ks_address *name, const void *datagram,
                                size_t datagram_len, uint8_t *key, size_t *len) {
    uint32_t at = ks_places_place(t, name);
    if (now > t->now) t->now = now;
    if (at == 0) return false;
    ks_name_place *p = ks_places_of(t, at);
    bool begins = p->state == KS_PLACES_TAKEN && ks_places_observes(datagram, datagram_len);
    ks_places_move(t, at, begins ? (uint8_t)KS_PLACES_WATCHES : p->state);
    memcpy(key, p->key, p->len);
    *len = p->len;
    return true;
}

/* Has the peer keep its name until it is released or retired: of a client, its server; of a DTLS session, as long as it
 * is open. */
static inline bool ks_places_hold(ks_places *t, const ks_address *name) {
    uint32_t at = ks_places_place(t, name);
    if (at != 0) ks_places_move(t, at, KS_PLACES_HELD);
    return at != 0;
}

/* From now on it is as one that observes: it may be forgotten. */
static inline bool ks_places_release(ks_places *t, const ks_address *name) {
    uint32_t at = ks_places_place(t, name);
    if (at != 0) ks_places_move(t, at, KS_PLACES_WATCHES);
    return at != 0;
}

/* Forgets the name at once. Only where nothing can come from this peer any more: its DTLS session is closed. */
static inline bool ks_places_retire(ks_places *t, const ks_address *name) {
    uint32_t at = ks_places_place(t, name);
    if (at != 0) ks_places_forget(t, at);
    return at != 0;
}

#endif
