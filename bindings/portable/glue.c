/* ---- The calls of knifesilver.h over the module ----
 *
 * Each end has an instance of the module with a memory of its own, so that two ends share nothing. A call lends its
 * bytes to the module: they are copied into that memory, and what comes out is copied back. Numbers are written as the
 * module reads them, the least significant byte first, and addresses in eight bytes. */

#include "knifesilver.h"

#define LEAST_CLASS 5           /* blocks have 2^5 bytes and more, */
#define CLASSES 32
#define BLOCK_HEAD 16           /* of which the first ones say how many */
#define PAGE 65536u
#define MOST_PAGES 65535u       /* a size is a number of 32 bits */
#define DANGLING 16u            /* an address for no bytes */

/* The host of an instance, by the name that the translated code gives it. */
struct Z_heap_instance_t {
    Z_knifesilver_instance_t module;
    u32 next;                   /* behind the last block */
    u32 freed[CLASSES];         /* the first free block of each size, or 0 */
    u32 handle;                 /* where the module has its handle */
};

typedef struct Z_heap_instance_t ks_end;

/* ---- Bytes of an instance's memory ---- */

static void put(ks_end *e, u32 at, const void *bytes, u32 len) {
    wasm_rt_memory_t *m = &e->module.w2c_memory;
#if WABT_BIG_ENDIAN /* it is turned round there, so that numbers are as the processor has them */
    for (u32 i = 0; i < len; i++) m->data[m->size - at - i - 1] = ((const u8 *)bytes)[i];
#else
    memcpy(m->data + at, bytes, len);
#endif
}

static void get(ks_end *e, u32 at, void *bytes, u32 len) {
    const wasm_rt_memory_t *m = &e->module.w2c_memory;
#if WABT_BIG_ENDIAN
    for (u32 i = 0; i < len; i++) ((u8 *)bytes)[i] = m->data[m->size - at - i - 1];
#else
    memcpy(bytes, m->data + at, len);
#endif
}

static void put_number(ks_end *e, u32 at, u64 n, u32 len) {
    u8 bytes[8];
    for (u32 i = 0; i < len; i++) bytes[i] = (u8)(n >> 8 * i);
    put(e, at, bytes, len);
}

static u64 get_number(ks_end *e, u32 at, u32 len) {
    u8 bytes[8];
    u64 n = 0;
    get(e, at, bytes, len);
    for (u32 i = len; i > 0; i--) n = n << 8 | bytes[i - 1];
    return n;
}

/* ---- Blocks of an instance's memory ---- */

static u32 class_of(u64 len) {
    u32 k = LEAST_CLASS;
    while (k < CLASSES && ((u64)1 << k) < len + BLOCK_HEAD) k++;
    return k;
}

/* Whether the memory has so many bytes, or has now. */
static bool grows(ks_end *e, u64 size) {
    wasm_rt_memory_t *m = &e->module.w2c_memory;
    if (size <= m->size) return true;
    u64 lacks = (size - m->size + PAGE - 1) / PAGE, more = m->pages / 4 > lacks ? m->pages / 4 : lacks;
    if (m->pages + lacks > MOST_PAGES) return false;
    if (m->pages + more > MOST_PAGES) more = lacks;
    if (wasm_rt_grow_memory(m, (u32)more) != UINT32_MAX) return true;
    return more != lacks && wasm_rt_grow_memory(m, (u32)lacks) != UINT32_MAX;
}

/* A block of so many bytes at least, or 0. */
static u32 take(ks_end *e, u64 len) {
    u32 k = class_of(len), at;
    if (k == CLASSES) return 0;
    at = e->freed[k];
    if (at != 0) {
        e->freed[k] = (u32)get_number(e, at, 4);
        return at;
    }
    if (!grows(e, (u64)e->next + ((u64)1 << k))) return 0;
    put_number(e, e->next, k, 4);
    at = e->next + BLOCK_HEAD;
    e->next += (u32)1 << k;
    return at;
}

static void give(ks_end *e, u32 at) {
    if (at < PAGE) return; /* no block */
    u32 k = (u32)get_number(e, at - BLOCK_HEAD, 4);
    put_number(e, at, e->freed[k], 4);
    e->freed[k] = at;
}

#ifdef KNIFESILVER_REFUSES      /* a test's: whether this allocation is refused */
bool KNIFESILVER_REFUSES(void);
#define IS_REFUSED KNIFESILVER_REFUSES()
#else
#define IS_REFUSED false
#endif

/* The two functions that the module has of its host (page/crates/page_heap has their contracts). */
void Z_heapZ_heap_take(struct Z_heap_instance_t *e, u64 to, u64 len, u64 align) {
    u32 at = align <= BLOCK_HEAD && !IS_REFUSED ? take(e, len) : 0;
    put_number(e, (u32)to, at != 0, 8);
    put_number(e, (u32)to + 8, at != 0 ? at : DANGLING, 8);
}

void Z_heapZ_heap_give(struct Z_heap_instance_t *e, u64 at) { give(e, (u32)at); }

/* ---- Ends ---- */

static void end_free(ks_end *e) {
    if (e == NULL) return;
    Z_knifesilver_free(&e->module);
    free(e);
}

/* An instance with a handle that holds nothing; NULL: there is no memory. */
static ks_end *end_new(void) {
    ks_end *e = calloc(1, sizeof *e);
    if (e == NULL) return NULL;
    Z_knifesilver_instantiate(&e->module, e);
    if (e->module.w2c_memory.data == NULL) {
        free(e);
        return NULL;
    }
    e->next = (u32)((*Z_knifesilverZ___heap_base(&e->module) + BLOCK_HEAD - 1) / BLOCK_HEAD * BLOCK_HEAD);
    e->handle = take(e, 16);
    if (e->handle == 0) {
        end_free(e);
        return NULL;
    }
    put_number(e, e->handle, 0, 8);
    put_number(e, e->handle + 8, 0, 8);
    return e;
}

/* The end of a handle, or one that holds nothing, which goes when the call is over. */
static ks_end *begin(const ks_handle *h) { return h->at != NULL ? h->at : end_new(); }

static void leave(const ks_handle *h, ks_end *e) {
    if (h->at == NULL) end_free(e);
}

/* A copy of these bytes in the memory; 0: there is no room. */
static u32 lent(ks_end *e, const void *bytes, size_t len) {
    u32 at = len == 0 ? DANGLING : len < UINT32_MAX ? take(e, len) : 0;
    if (at != 0 && len != 0) put(e, at, bytes, (u32)len);
    return at;
}

/* Room for so many bytes. */
static u32 lent_room(ks_end *e, size_t len) { return len == 0 ? DANGLING : take(e, len); }

static u32 lent_address(ks_end *e, const ks_address *a) {
    u32 at = take(e, 8);
    if (at == 0) return 0;
    put(e, at, a->ip, 4);
    put_number(e, at + 4, a->port, 2);
    return at;
}

static void get_address(ks_end *e, u32 at, ks_address *a) {
    get(e, at, a->ip, 4);
    a->port = (u16)get_number(e, at + 4, 2);
}

static u32 lent_config(ks_end *e, const ks_config *c) {
    const u32 fields[] = {c->size, c->block_size, c->body_limit, c->remembered, c->changes};
    u32 at = take(e, sizeof *c);
    for (u32 i = 0; at != 0 && i < 5; i++) put_number(e, at + 4 * i, fields[i], 4);
    if (at != 0) put_number(e, at + offsetof(ks_config, base), c->base, 8);
    return at;
}

static u32 lent_seed(ks_end *e, const ks_seed *s) {
    const u64 fields[] = {s->word, s->key0, s->key1};
    u32 at = take(e, sizeof fields);
    for (u32 i = 0; at != 0 && i < 3; i++) put_number(e, at + 8 * i, fields[i], 8);
    return at;
}

static u32 lent_tags(ks_end *e, const ks_tag *tags, size_t len) {
    u32 at = len == 0 ? DANGLING : len < UINT16_MAX ? take(e, 9 * (u64)len) : 0;
    for (u32 i = 0; at != 0 && i < len; i++) {
        put_number(e, at + 9 * i, tags[i].len, 1);
        put(e, at + 9 * i + 1, tags[i].bytes, 8);
    }
    return at;
}

static void handle_free(ks_handle *h) {
    end_free(h->at);
    h->at = NULL;
    h->live = false;
}

/* What is lent in a call, which is given back at its end. */
typedef struct { ks_end *e; u32 at[8]; u32 len; bool lacks; } loans;

static u32 keep(loans *l, u32 at) {
    l->at[l->len++] = at;
    l->lacks = l->lacks || at == 0;
    return at;
}

static void give_back(loans *l) {
    while (l->len > 0) give(l->e, l->at[--l->len]);
}

uint32_t ks_version(void) {
    ks_end *e = end_new();
    if (e == NULL) return 0;
    uint32_t version = Z_knifesilverZ_ks_version(&e->module);
    end_free(e);
    return version;
}

uint64_t ks_base(uint64_t word) {
    ks_end *e = end_new();
    if (e == NULL) return 0;
    uint64_t base = Z_knifesilverZ_ks_base(&e->module, word);
    end_free(e);
    return base;
}

/* ---- What both ends have ---- */

#define MODULE (&l.e->module)
#define HANDLE (l.e->handle)

/* The same call of either end: `kind` is server or client. */
#define BOTH_ENDS(kind)                                                                                               \
    void ks_##kind##_free(ks_##kind *h) { handle_free(&h->handle); }                                                  \
                                                                                                                      \
    int32_t ks_##kind##_feed(ks_##kind *h, uint64_t now, const ks_address *from, const void *datagram, size_t len,    \
                             uint64_t word) {                                                                         \
        loans l = {.e = begin(&h->handle)};                                                                           \
        if (l.e == NULL) return KS_NOT_LIVE;                                                                          \
        u32 a = keep(&l, lent_address(l.e, from)), d = keep(&l, lent(l.e, datagram, len));                            \
        int32_t answer = KS_NO_MEMORY;                                                                                \
        if (!l.lacks) answer = (int32_t)Z_knifesilverZ_ks_##kind##_feed(MODULE, HANDLE, now, a, d, len, word);        \
        give_back(&l);                                                                                                \
        leave(&h->handle, l.e);                                                                                       \
        return answer;                                                                                                \
    }                                                                                                                 \
                                                                                                                      \
    int32_t ks_##kind##_tick(ks_##kind *h, uint64_t now, uint64_t word) {                                             \
        loans l = {.e = begin(&h->handle)};                                                                           \
        if (l.e == NULL) return KS_NOT_LIVE;                                                                          \
        int32_t answer = (int32_t)Z_knifesilverZ_ks_##kind##_tick(MODULE, HANDLE, now, word);                         \
        leave(&h->handle, l.e);                                                                                       \
        return answer;                                                                                                \
    }                                                                                                                 \
                                                                                                                      \
    int32_t ks_##kind##_due(ks_##kind *h, uint64_t *at) {                                                             \
        loans l = {.e = begin(&h->handle)};                                                                           \
        if (l.e == NULL) return KS_NOT_LIVE;                                                                          \
        u32 out = keep(&l, take(l.e, 8));                                                                             \
        int32_t answer = l.lacks ? KS_NO_MEMORY : (int32_t)Z_knifesilverZ_ks_##kind##_due(MODULE, HANDLE, out);       \
        if (answer == KS_DONE) *at = get_number(l.e, out, 8);                                                         \
        give_back(&l);                                                                                                \
        leave(&h->handle, l.e);                                                                                       \
        return answer;                                                                                                \
    }                                                                                                                 \
                                                                                                                      \
    int32_t ks_##kind##_next_out(ks_##kind *h, ks_address *to, void *room, size_t room_len, size_t *len) {            \
        loans l = {.e = begin(&h->handle)};                                                                           \
        if (l.e == NULL) return KS_NOT_LIVE;                                                                          \
        u64 most = room_len < KS_DATAGRAM_ROOM ? room_len : KS_DATAGRAM_ROOM;                                         \
        u32 a = keep(&l, take(l.e, 8)), r = keep(&l, lent_room(l.e, most)), n = keep(&l, take(l.e, 8));               \
        int32_t answer = KS_NO_MEMORY;                                                                                \
        if (!l.lacks) answer = (int32_t)Z_knifesilverZ_ks_##kind##_next_out(MODULE, HANDLE, a, r, most, n);           \
        if (answer == KS_DONE) {                                                                                      \
            *len = (size_t)get_number(l.e, n, 8);                                                                     \
            get_address(l.e, a, to);                                                                                  \
            get(l.e, r, room, (u32)*len);                                                                             \
        }                                                                                                             \
        give_back(&l);                                                                                                \
        leave(&h->handle, l.e);                                                                                       \
        return answer;                                                                                                \
    }

BOTH_ENDS(server)
BOTH_ENDS(client)

/* ---- The server ---- */

/* The handle has this end from now on, where it was made. */
static int32_t made(ks_handle *h, ks_end *e, int32_t answer) {
    if (answer == KS_OK) {
        end_free(h->at);
        h->at = e;
        h->live = true;
    } else
        end_free(e);
    return answer;
}

int32_t ks_server_new(ks_server *h, const ks_config *config, const ks_seed *seed) {
    loans l = {.e = end_new()};
    if (l.e == NULL) return KS_NO_MEMORY;
    u32 c = keep(&l, lent_config(l.e, config)), s = keep(&l, lent_seed(l.e, seed));
    int32_t answer = l.lacks ? KS_NO_MEMORY : (int32_t)Z_knifesilverZ_ks_server_new(MODULE, HANDLE, c, s);
    give_back(&l);
    return made(&h->handle, l.e, answer);
}

/* ks_server_set and ks_server_update. */
typedef u32 (*setter)(Z_knifesilver_instance_t *, u64, u64, u64, u64, u32, u64, u64, u64);

static int32_t set_by(setter set, ks_server *h, uint64_t now, const char *path, size_t path_len, int32_t format,
                      const void *body, size_t body_len, uint64_t *version) {
    loans l = {.e = begin(&h->handle)};
    if (l.e == NULL) return KS_NOT_LIVE;
    u32 p = keep(&l, lent(l.e, path, path_len)), b = keep(&l, lent(l.e, body, body_len)), v = keep(&l, take(l.e, 8));
    int32_t answer = KS_NO_MEMORY;
    if (!l.lacks) {
        put_number(l.e, v, *version, 8);
        answer = (int32_t)set(MODULE, HANDLE, now, p, path_len, (u32)format, b, body_len, v);
        *version = get_number(l.e, v, 8);
    }
    give_back(&l);
    leave(&h->handle, l.e);
    return answer;
}

int32_t ks_server_set(ks_server *h, uint64_t now, const char *path, size_t path_len, int32_t format, const void *body,
                      size_t body_len, uint64_t *version) {
    return set_by(Z_knifesilverZ_ks_server_set, h, now, path, path_len, format, body, body_len, version);
}

int32_t ks_server_update(ks_server *h, uint64_t now, const char *path, size_t path_len, int32_t format,
                         const void *body, size_t body_len, uint64_t *version) {
    return set_by(Z_knifesilverZ_ks_server_update, h, now, path, path_len, format, body, body_len, version);
}

int32_t ks_server_remove(ks_server *h, uint64_t now, const char *path, size_t path_len) {
    loans l = {.e = begin(&h->handle)};
    if (l.e == NULL) return KS_NOT_LIVE;
    u32 p = keep(&l, lent(l.e, path, path_len));
    int32_t answer = KS_NO_MEMORY;
    if (!l.lacks) answer = (int32_t)Z_knifesilverZ_ks_server_remove(MODULE, HANDLE, now, p, path_len);
    give_back(&l);
    leave(&h->handle, l.e);
    return answer;
}

static void get_shown(ks_end *e, u32 at, ks_representation *shown) {
    shown->version = get_number(e, at, 8);
    shown->body_len = (size_t)get_number(e, at + 8, 8);
    shown->format = (int32_t)get_number(e, at + 16, 4);
}

/* (the first time with no room, which tells how much is wanted) */
int32_t ks_server_get(ks_server *h, const char *path, size_t path_len, ks_representation *shown, void *room,
                      size_t room_len) {
    loans l = {.e = begin(&h->handle)};
    if (l.e == NULL) return KS_NOT_LIVE;
    u32 p = keep(&l, lent(l.e, path, path_len)), s = keep(&l, take(l.e, 24));
    int32_t answer = KS_NO_MEMORY;
    if (!l.lacks) answer = (int32_t)Z_knifesilverZ_ks_server_get(MODULE, HANDLE, p, path_len, s, DANGLING, 0);
    if (answer == KS_DONE || answer == KS_SMALL_ROOM) get_shown(l.e, s, shown);
    if (answer == KS_SMALL_ROOM && shown->body_len <= room_len) {
        size_t len = shown->body_len;
        u32 r = keep(&l, lent_room(l.e, len));
        answer = KS_NO_MEMORY;
        if (!l.lacks) answer = (int32_t)Z_knifesilverZ_ks_server_get(MODULE, HANDLE, p, path_len, s, r, len);
        if (answer == KS_DONE) get(l.e, r, room, (u32)len);
    }
    give_back(&l);
    leave(&h->handle, l.e);
    return answer;
}

int32_t ks_server_paths(ks_server *h, size_t place, ks_representation *shown, char *room, size_t room_len,
                        size_t *path_len) {
    loans l = {.e = begin(&h->handle)};
    if (l.e == NULL) return KS_NOT_LIVE;
    size_t most = room_len < KS_PATH_ROOM ? room_len : KS_PATH_ROOM;
    u32 s = keep(&l, take(l.e, 24)), r = keep(&l, lent_room(l.e, most)), n = keep(&l, take(l.e, 8));
    int32_t answer = KS_NO_MEMORY;
    if (!l.lacks) answer = (int32_t)Z_knifesilverZ_ks_server_paths(MODULE, HANDLE, place, s, r, most, n);
    if (answer == KS_DONE) {
        get_shown(l.e, s, shown);
        *path_len = (size_t)get_number(l.e, n, 8);
        get(l.e, r, room, (u32)*path_len);
    }
    give_back(&l);
    leave(&h->handle, l.e);
    return answer;
}

int32_t ks_server_set_delay(ks_server *h, const char *path, size_t path_len, uint64_t ms) {
    loans l = {.e = begin(&h->handle)};
    if (l.e == NULL) return KS_NOT_LIVE;
    u32 p = keep(&l, lent(l.e, path, path_len));
    int32_t answer = KS_NO_MEMORY;
    if (!l.lacks) answer = (int32_t)Z_knifesilverZ_ks_server_set_delay(MODULE, HANDLE, p, path_len, ms);
    give_back(&l);
    leave(&h->handle, l.e);
    return answer;
}

int32_t ks_server_set_plain(ks_server *h, const char *path, size_t path_len) {
    loans l = {.e = begin(&h->handle)};
    if (l.e == NULL) return KS_NOT_LIVE;
    u32 p = keep(&l, lent(l.e, path, path_len));
    int32_t answer = KS_NO_MEMORY;
    if (!l.lacks) answer = (int32_t)Z_knifesilverZ_ks_server_set_plain(MODULE, HANDLE, p, path_len);
    give_back(&l);
    leave(&h->handle, l.e);
    return answer;
}

int32_t ks_server_applied(ks_server *h, ks_applied *done, char *room, size_t room_len) {
    loans l = {.e = begin(&h->handle)};
    if (l.e == NULL) return KS_NOT_LIVE;
    size_t most = room_len < KS_PATH_ROOM ? room_len : KS_PATH_ROOM;
    u32 d = keep(&l, take(l.e, 32)), r = keep(&l, lent_room(l.e, most));
    int32_t answer = KS_NO_MEMORY;
    if (!l.lacks) answer = (int32_t)Z_knifesilverZ_ks_server_applied(MODULE, HANDLE, d, r, most);
    if (answer == KS_DONE) {
        done->version = get_number(l.e, d, 8);
        done->path_len = (size_t)get_number(l.e, d + 8, 8);
        get_address(l.e, d + 16, &done->from);
        done->method = (uint8_t)get_number(l.e, d + 22, 1);
        done->token_len = (uint8_t)get_number(l.e, d + 23, 1);
        get(l.e, d + 24, done->token, 8);
        get(l.e, r, room, (u32)done->path_len);
    }
    give_back(&l);
    leave(&h->handle, l.e);
    return answer;
}

int32_t ks_server_refuse_by(ks_server *h, uint64_t now, const ks_address *from, const void *datagram, size_t len,
                            uint64_t word, uint8_t code) {
    if (code / 32 != 4 && code / 32 != 5) return KS_BAD_ARGUMENT;
    loans l = {.e = begin(&h->handle)};
    if (l.e == NULL) return KS_NOT_LIVE;
    u32 a = keep(&l, lent_address(l.e, from)), d = keep(&l, lent(l.e, datagram, len));
    int32_t answer = KS_NO_MEMORY;
    if (!l.lacks) answer = (int32_t)Z_knifesilverZ_ks_server_refuse_by(MODULE, HANDLE, now, a, d, len, word, code);
    give_back(&l);
    leave(&h->handle, l.e);
    return answer;
}

int32_t ks_server_refuse(ks_server *h, uint64_t now, const ks_address *from, const void *datagram, size_t len,
                         uint64_t word) {
    loans l = {.e = begin(&h->handle)};
    if (l.e == NULL) return KS_NOT_LIVE;
    u32 a = keep(&l, lent_address(l.e, from)), d = keep(&l, lent(l.e, datagram, len));
    int32_t answer = KS_NO_MEMORY;
    if (!l.lacks) answer = (int32_t)Z_knifesilverZ_ks_server_refuse(MODULE, HANDLE, now, a, d, len, word);
    give_back(&l);
    leave(&h->handle, l.e);
    return answer;
}

int32_t ks_server_forget(ks_server *h, const ks_address *peer) {
    loans l = {.e = begin(&h->handle)};
    if (l.e == NULL) return KS_NOT_LIVE;
    u32 a = keep(&l, lent_address(l.e, peer));
    int32_t answer = KS_NO_MEMORY;
    if (!l.lacks) answer = (int32_t)Z_knifesilverZ_ks_server_forget(MODULE, HANDLE, a);
    give_back(&l);
    leave(&h->handle, l.e);
    return answer;
}

/* ---- The client ---- */

int32_t ks_client_new(ks_client *h, const ks_address *server, const ks_config *config, const ks_seed *seed) {
    loans l = {.e = end_new()};
    if (l.e == NULL) return KS_NO_MEMORY;
    u32 a = keep(&l, lent_address(l.e, server)), c = keep(&l, lent_config(l.e, config));
    u32 s = keep(&l, lent_seed(l.e, seed));
    int32_t answer = l.lacks ? KS_NO_MEMORY : (int32_t)Z_knifesilverZ_ks_client_new(MODULE, HANDLE, a, c, s);
    give_back(&l);
    return made(&h->handle, l.e, answer);
}

static u32 lent_request(ks_end *e, const ks_request *what) {
    u32 at = take(e, 12);
    if (at == 0) return 0;
    put_number(e, at, (u32)what->format, 4);
    put_number(e, at + 4, (u32)what->accept, 4);
    put_number(e, at + 8, what->method, 1);
    put_number(e, at + 9, what->if_none_match, 1);
    return at;
}

int32_t ks_client_call(ks_client *h, uint64_t now, const ks_request *what, const char *path, size_t path_len,
                       const void *body, size_t body_len, const ks_tag *etags, size_t etags_len,
                       const ks_tag *if_match, size_t if_match_len, uint64_t *id) {
    loans l = {.e = begin(&h->handle)};
    if (l.e == NULL) return KS_NOT_LIVE;
    u32 w = keep(&l, lent_request(l.e, what)), p = keep(&l, lent(l.e, path, path_len));
    u32 b = keep(&l, lent(l.e, body, body_len)), t = keep(&l, lent_tags(l.e, etags, etags_len));
    u32 m = keep(&l, lent_tags(l.e, if_match, if_match_len)), n = keep(&l, take(l.e, 8));
    int32_t answer = KS_NO_MEMORY;
    if (!l.lacks)
        answer = (int32_t)Z_knifesilverZ_ks_client_call(MODULE, HANDLE, now, w, p, path_len, b, body_len, t, etags_len,
                                                        m, if_match_len, n);
    if (answer == KS_OK) *id = get_number(l.e, n, 8);
    give_back(&l);
    leave(&h->handle, l.e);
    return answer;
}

int32_t ks_client_observe(ks_client *h, uint64_t now, const char *path, size_t path_len, uint64_t *id) {
    loans l = {.e = begin(&h->handle)};
    if (l.e == NULL) return KS_NOT_LIVE;
    u32 p = keep(&l, lent(l.e, path, path_len)), n = keep(&l, take(l.e, 8));
    int32_t answer = KS_NO_MEMORY;
    if (!l.lacks) answer = (int32_t)Z_knifesilverZ_ks_client_observe(MODULE, HANDLE, now, p, path_len, n);
    if (answer == KS_OK) *id = get_number(l.e, n, 8);
    give_back(&l);
    leave(&h->handle, l.e);
    return answer;
}

int32_t ks_client_cancel(ks_client *h, uint64_t now, uint64_t id) {
    loans l = {.e = begin(&h->handle)};
    if (l.e == NULL) return KS_NOT_LIVE;
    int32_t answer = (int32_t)Z_knifesilverZ_ks_client_cancel(MODULE, HANDLE, now, id);
    leave(&h->handle, l.e);
    return answer;
}

int32_t ks_client_forget(ks_client *h, uint64_t id) {
    loans l = {.e = begin(&h->handle)};
    if (l.e == NULL) return KS_NOT_LIVE;
    int32_t answer = (int32_t)Z_knifesilverZ_ks_client_forget(MODULE, HANDLE, id);
    leave(&h->handle, l.e);
    return answer;
}

static void get_report(ks_end *e, u32 at, ks_report *report) {
    report->id = get_number(e, at, 8);
    report->body_len = (size_t)get_number(e, at + 8, 8);
    report->format = (int32_t)get_number(e, at + 16, 4);
    report->sequence = (uint32_t)get_number(e, at + 20, 4);
    report->kind = (uint8_t)get_number(e, at + 24, 1);
    report->code = (uint8_t)get_number(e, at + 25, 1);
    report->tag_len = (uint8_t)get_number(e, at + 26, 1);
    get(e, at + 27, report->tag, 8);
}

/* (the first time with no room, which tells how much is wanted, and gives the report again) */
int32_t ks_client_next_report(ks_client *h, ks_report *report, void *room, size_t room_len) {
    loans l = {.e = begin(&h->handle)};
    if (l.e == NULL) return KS_NOT_LIVE;
    u32 p = keep(&l, take(l.e, 40));
    int32_t answer = KS_NO_MEMORY;
    if (!l.lacks) answer = (int32_t)Z_knifesilverZ_ks_client_next_report(MODULE, HANDLE, p, DANGLING, 0);
    if (answer == KS_DONE || answer == KS_SMALL_ROOM) get_report(l.e, p, report);
    if (answer == KS_SMALL_ROOM && report->body_len <= room_len) {
        size_t len = report->body_len;
        u32 r = keep(&l, lent_room(l.e, len));
        answer = KS_SMALL_ROOM; /* (without memory for it, too: it is given again) */
        if (!l.lacks) answer = (int32_t)Z_knifesilverZ_ks_client_next_report(MODULE, HANDLE, p, r, len);
        if (answer == KS_DONE) get(l.e, r, room, (u32)len);
    }
    give_back(&l);
    leave(&h->handle, l.e);
    return answer;
}

/* ---- Without an end ---- */

int32_t ks_peek(const void *datagram, size_t len, ks_message *shown, char *room, size_t room_len) {
    loans l = {.e = end_new()};
    if (l.e == NULL) return KS_NO_MEMORY;
    size_t most = room_len < 3 * len ? room_len : 3 * len;
    u32 d = keep(&l, lent(l.e, datagram, len)), s = keep(&l, take(l.e, 40)), r = keep(&l, lent_room(l.e, most));
    int32_t answer = l.lacks ? KS_NO_MEMORY : (int32_t)Z_knifesilverZ_ks_peek(MODULE, d, len, s, r, most);
    if (answer != KS_SMALL_ROOM && answer != KS_NO_MEMORY) {
        shown->fault_at = (size_t)get_number(l.e, s, 8);
        shown->path_len = (size_t)get_number(l.e, s + 8, 8);
        shown->payload_len = (size_t)get_number(l.e, s + 16, 8);
        shown->id = (uint16_t)get_number(l.e, s + 24, 2);
        shown->kind = (uint8_t)get_number(l.e, s + 26, 1);
        shown->code = (uint8_t)get_number(l.e, s + 27, 1);
        shown->token_len = (uint8_t)get_number(l.e, s + 28, 1);
        get(l.e, s + 29, shown->token, 8);
        get(l.e, r, room, (u32)shown->path_len);
    }
    end_free(l.e);
    return answer;
}

int32_t ks_refuse(const void *datagram, size_t len, uint8_t code, void *room, size_t room_len, size_t *out_len) {
    loans l = {.e = end_new()};
    if (l.e == NULL) return KS_NO_MEMORY;
    size_t most = room_len < KS_REFUSAL_ROOM ? room_len : KS_REFUSAL_ROOM;
    u32 d = keep(&l, lent(l.e, datagram, len)), r = keep(&l, lent_room(l.e, most)), n = keep(&l, take(l.e, 8));
    int32_t answer = l.lacks ? KS_NO_MEMORY : (int32_t)Z_knifesilverZ_ks_refuse(MODULE, d, len, code, r, most, n);
    if (answer == KS_DONE) {
        *out_len = (size_t)get_number(l.e, n, 8);
        get(l.e, r, room, (u32)*out_len);
    }
    end_free(l.e);
    return answer;
}
