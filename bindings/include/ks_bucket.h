/* ks_bucket.h: how many datagrams each source may bring: a table of buckets, in which tokens gather. A datagram takes one
 * from the bucket of its source, whose row is a keyed hash of it; without a token it is dropped before it takes a place at
 * the end, and counts as lost. What is a source is your choice: an IPv4 address, the first 64 bits of an IPv6 address, a
 * DTLS identity; not a port, of which a stranger has many. Sources that share a row share its tokens, and the key keeps a
 * stranger from choosing with whom. A new message takes a place of `remembered` for 247 s. So n sources at once, with a
 * rate of remembered / 247 / n each, never fill the end. The memory is yours. Nothing of this is proved. */
#ifndef KS_BUCKET_H
#define KS_BUCKET_H

#include <stdbool.h>
#include <stddef.h>
#include <stdint.h>
#include <string.h>

/* Tokens are counted in thousandths. */
typedef struct { uint64_t at; uint64_t tokens; } ks_bucket_row;
typedef struct {
    ks_bucket_row *rows;
    uint32_t count;             /* of rows */
    uint32_t per_s;             /* tokens that a bucket gets in a second */
    uint32_t burst;             /* tokens that it holds at most, with which it begins */
    uint64_t key0, key1;        /* random */
    uint64_t dropped;           /* datagrams without a token */
} ks_bucket;

static inline void ks_bucket_init(ks_bucket *b, ks_bucket_row *rows, uint32_t count, uint32_t per_s, uint32_t burst,
                                  uint64_t key0, uint64_t key1) {
    b->rows = rows;
    b->count = count;
    b->per_s = per_s;
    b->burst = burst;
    b->key0 = key0;
    b->key1 = key1;
    b->dropped = 0;
    for (uint32_t i = 0; i < count; i++) {
        rows[i].at = 0;
        rows[i].tokens = (uint64_t)burst * 1000;
    }
}

static inline uint64_t ks_bucket_turned(uint64_t x, int by) { return x << by | x >> (64 - by); }

static inline void ks_bucket_round(uint64_t v[4]) {
    v[0] += v[1];
    v[1] = ks_bucket_turned(v[1], 13) ^ v[0];
    v[0] = ks_bucket_turned(v[0], 32);
    v[2] += v[3];
    v[3] = ks_bucket_turned(v[3], 16) ^ v[2];
    v[0] += v[3];
    v[3] = ks_bucket_turned(v[3], 21) ^ v[0];
    v[2] += v[1];
    v[1] = ks_bucket_turned(v[1], 17) ^ v[2];
    v[2] = ks_bucket_turned(v[2], 32);
}

/* SipHash-1-3. */
static inline uint64_t ks_bucket_hash(const ks_bucket *b, const void *source, size_t len) {
    const uint8_t *bytes = (const uint8_t *)source;
    uint64_t v[4] = {b->key0 ^ 0x736f6d6570736575u, b->key1 ^ 0x646f72616e646f6du, b->key0 ^ 0x6c7967656e657261u,
                     b->key1 ^ 0x7465646279746573u};
    for (size_t i = 0; i <= len; i += 8) {
        uint64_t m = i + 8 > len ? (uint64_t)len << 56 : 0;
        for (size_t j = 0; j < 8 && i + j < len; j++) m |= (uint64_t)bytes[i + j] << 8 * j;
        v[3] ^= m;
        ks_bucket_round(v);
        v[0] ^= m;
    }
    v[2] ^= 255;
    for (int i = 0; i < 3; i++) ks_bucket_round(v);
    return v[0] ^ v[1] ^ v[2] ^ v[3];
}

/* Whether a datagram of this source may go on. A moment before the last one of its row counts as that. */
static inline bool ks_bucket_take(ks_bucket *b, uint64_t now, const void *source, size_t len) {
    ks_bucket_row *row = &b->rows[ks_bucket_hash(b, source, len) % b->count];
    uint64_t since = now > row->at ? now - row->at : 0, full = (uint64_t)b->burst * 1000;
    /* A millisecond brings per_s thousandths. */
    uint64_t more = b->per_s != 0 && since > full / b->per_s ? full : since * b->per_s;
    row->at += since;
    row->tokens = more < full - row->tokens ? row->tokens + more : full;
    if (row->tokens < 1000) {
        b->dropped++;
        return false;
    }
    row->tokens -= 1000;
    return true;
}

#endif
