/* How much the message layer of an end has: a model of it for load_server.h and load_client.h. It counts what comes and
 * goes by RFC 7252, sections 4.2, 4.4 and 4.5, and by the words at ks_end_load. It never asks the library how much
 * there is. Built with -DMISTAKE=n the model has a mistake, which has to be noticed. */
#ifndef LOAD_LAYER_H
#define LOAD_LAYER_H

#include "both_ends.h"

#ifndef MISTAKE
#define MISTAKE 0
#endif
#define PEERS 24u
#define PEER_IDS 8192u          /* Message IDs of a peer's messages: some come again while they are remembered */
#define LIFETIME_MS 247000u     /* EXCHANGE_LIFETIME: section 4.8.2 */
#define IDS 65536u
#define GROUPS 16u              /* An end gives its Message IDs in groups, in rising order. It enters a group .. */
#define GROUP_IDS (IDS / GROUPS)
#define REST_MS 400000u         /* .. only if the last one of that group was given longer ago than this. */
#define FIRST_TIMEOUT_MS 2000u  /* ACK_TIMEOUT; a message fails after 31 of its first timeout: section 4.8.2 */
#define FAILURE_MS (31 * FIRST_TIMEOUT_MS)
#define LONGEST_WAIT_MS 93000u  /* MAX_TRANSMIT_WAIT */
#define QUEUED 65536u
#define REMEMBERED 1048576u

enum { CON, NON, ACK, RST };
enum { EMPTY, GET, POST, PUT, DELETE };
enum { CREATED = 0x41, DELETED, VALID, CHANGED, CONTENT, CONTINUE = 0x5f };
enum { BAD_REQUEST = 0x80, NOT_FOUND = 0x84, NOT_ALLOWED, INCOMPLETE = 0x88, TOO_LARGE = 0x8d, UNAVAILABLE = 0xa3 };

/* The head of a datagram: where it goes to, or comes from. */
struct head {
    uint8_t peer, type, code, token;
    uint16_t id;
    bool observe;
};

/* A message that is remembered, with the reply to it. */
struct entry {
    bool is, con, replied;
    uint64_t at;
    struct head reply;
};

/* A Confirmable message that is not acknowledged. */
struct open {
    struct head head;
    uint64_t first;
};

/* The layer. `clock` is the last moment that counted. */
static uint64_t clock_ms, most, came_at[REMEMBERED];
static size_t came_first, came_len, queue_first, queue_len, open_len;
static struct entry came[PEERS][PEER_IDS];
static struct head queue[QUEUED];
static struct open opens[PEERS + 1];
static uint16_t next_id;
static struct { bool used; uint64_t last; } groups[GROUPS];
static uint64_t given_at[IDS];  /* of a mistaken model alone */
static bool was_given[IDS];

/* A mistake of the model: it is there where it is that one. */
static inline bool is_wrong(int mistake) { return MISTAKE == mistake; }

static inline uint64_t later(uint64_t a, uint64_t b) { return a < b ? b : a; }

/* A moment before the last one counts as the last. */
static inline uint64_t counting(uint64_t at) { return is_wrong(1) ? at : later(clock_ms, at); }

static inline void pass(uint64_t at) { clock_ms = counting(at); }

static inline void begin_layer(uint64_t seed_word, uint32_t places) {
    came_first = came_len = queue_first = queue_len = open_len = 0;
    clock_ms = 0;
    most = places;
    next_id = (uint16_t)(seed_word % GROUPS * GROUP_IDS);
    memset(came, 0, sizeof came);
    memset(groups, 0, sizeof groups);
    memset(was_given, 0, sizeof was_given);
}

/* ---- Messages that are remembered (section 4.5) ---- */

static inline uint64_t lifetime(void) {
    return is_wrong(2) ? LIFETIME_MS - 1 : is_wrong(3) ? LIFETIME_MS + 1 : LIFETIME_MS;
}

static inline bool is_alive(uint64_t since, uint64_t at) { return at <= since + lifetime(); }

/* How many of them there are at this moment: they came in order. */
static inline uint64_t remembered(uint64_t at) {
    size_t low = came_first, high = came_len;
    while (low < high) {
        size_t middle = low + (high - low) / 2;
        if (is_alive(came_at[middle], at)) high = middle;
        else low = middle + 1;
    }
    return came_len - low;
}

static inline struct entry *entry_of(uint8_t peer, uint16_t id) {
    struct entry *e = &came[peer][id % PEER_IDS];
    return e->is && is_alive(e->at, clock_ms) ? e : NULL;
}

static inline void count_one(void) {
    while (came_first < came_len && !is_alive(came_at[came_first], clock_ms)) came_first++;
    if (came_len == REMEMBERED) {
        memmove(came_at, came_at + came_first, (came_len - came_first) * sizeof *came_at);
        came_len -= came_first;
        came_first = 0;
    }
    IS(came_len < REMEMBERED, true);
    came_at[came_len++] = clock_ms;
}

static inline void remember(uint8_t peer, uint16_t id, bool con) {
    count_one();
    came[peer][id % PEER_IDS] = (struct entry){.is = true, .con = con, .at = clock_ms};
}

/* ---- Message IDs (section 4.4) ---- */

static inline uint64_t rest_ms(void) { return is_wrong(4) ? REST_MS - 1 : REST_MS; }

static inline bool rests(uint32_t group, uint64_t at) {
    return !groups[group].used || groups[group].last + rest_ms() < at;
}

/* Whether the next one can be given: its group goes on, or may be entered. */
static inline bool has_id(uint64_t at) { return next_id % GROUP_IDS != 0 || rests(next_id / GROUP_IDS, at); }

static inline uint16_t give_id(void) {
    uint16_t id = next_id++;
    IS(id % GROUP_IDS != 0 || rests(id / GROUP_IDS, clock_ms), true);
    groups[id / GROUP_IDS].used = true;
    groups[id / GROUP_IDS].last = clock_ms;
    given_at[id] = clock_ms;
    was_given[id] = true;
    return id;
}

/* The mistaken model in which each Message ID rests by itself. */
static inline uint64_t rested_ids(uint64_t at) {
    uint64_t count = 0;
    for (uint32_t id = 0; id < IDS; id++) count += !was_given[id] || given_at[id] + REST_MS < at;
    return count;
}

/* How many can be given now, one after the other: the rest of a group that goes on, and then whole groups. Each of them
 * is used now, so it does not rest when its turn comes again. */
static inline uint64_t ids_left(uint64_t at) {
    uint32_t group = next_id / GROUP_IDS, within = next_id % GROUP_IDS, left = within != 0 ? GROUP_IDS - within : 0;
    bool entered[GROUPS] = {false};
    if (is_wrong(5)) return rested_ids(at);
    if (within != 0) {
        entered[group] = true;
        group = (group + 1) % GROUPS;
    }
    for (; !entered[group] && rests(group, at); group = (group + 1) % GROUPS) {
        entered[group] = true;
        left += GROUP_IDS;
    }
    return left;
}

/* ---- What goes out ---- */

static inline void push(struct head head) {
    IS(queue_len - queue_first < QUEUED, true);
    queue[queue_len++ % QUEUED] = head;
}

/* The reply to a message: a copy of it that comes is answered by it again. */
static inline void reply(struct head head) {
    struct entry *e = entry_of(head.peer, head.id);
    if (e != NULL && e->con) {
        e->replied = true;
        e->reply = head;
    }
    push(head);
}

static inline struct open *open_to(uint8_t peer) {
    for (size_t i = 0; i < open_len; i++)
        if (opens[i].head.peer == peer) return &opens[i];
    return NULL;
}

static inline struct open *open_of(uint8_t peer, uint16_t id) {
    struct open *o = open_to(peer);
    return o != NULL && o->head.id == id ? o : NULL;
}

static inline void close_one(struct open *o) { *o = opens[--open_len]; }

static inline void open_one(struct head head) {
    IS(open_len <= PEERS, true);
    opens[open_len++] = (struct open){head, clock_ms};
}

/* ---- What comes in: the rows of messages that are no new request or response ---- */

/* Whether the message is dropped or a repeat: a copy of a Confirmable one has its reply again. */
static inline bool is_over(const struct head *m, bool needs_id) {
    struct entry *e = entry_of(m->peer, m->id);
    if (e != NULL) {
        if (m->type == CON && e->replied) push(e->reply);
        if (is_wrong(6)) count_one();
        return true;
    }
    return remembered(clock_ms) >= most || (needs_id && !has_id(clock_ms));
}

/* ---- Random moments and Message IDs ---- */

static uint16_t peer_ids[PEERS];

/* The next Message ID of a peer. */
static inline uint16_t next_of(uint8_t peer) { return peer_ids[peer]++ % PEER_IDS; }

/* A moment that is handed in: now and then one that is over. */
static inline uint64_t handed(void) { return word() % 50 == 0 && now > 300000 ? now - word() % 300000 : now; }

/* The last moment of a message that is remembered, of a group that rests; or 0. */
static inline uint64_t last_remembered(void) {
    return came_first < came_len ? came_at[came_first + word() % (came_len - came_first)] + LIFETIME_MS : 0;
}

static inline uint64_t last_resting(void) {
    uint32_t group = (uint32_t)(word() % GROUPS);
    return groups[group].used ? groups[group].last + REST_MS : 0;
}

/* ---- The comparison ---- */

static inline struct head head_of(const ks_address *at, const uint8_t *bytes) {
    struct head head = {0};
    head.peer = (uint8_t)(at->port - 1000);
    head.type = bytes[0] >> 4 & 3;
    head.code = bytes[1];
    head.token = (bytes[0] & 15) != 0 ? bytes[4] : 0;
    head.id = (uint16_t)(bytes[2] << 8 | bytes[3]);
    return head;
}

static inline ks_address address_of(uint8_t peer) { return (ks_address){{10, 0, 0, 1}, (uint16_t)(1000 + peer)}; }

/* Whether a message has the option Observe, whose number is 6. */
static inline bool has_observe(const uint8_t *bytes, size_t len) {
    uint32_t number = 0;
    for (size_t at = 4 + (bytes[0] & 15u); at < len && bytes[at] != 0xff;) {
        number += bytes[at] >> 4;
        if (number >= 6) return number == 6;
        at += 1 + (bytes[at] & 15u);
    }
    return false;
}

static inline void same(const struct head *is, const struct head *wanted) {
    IS(is->peer, wanted->peer);
    IS(is->type, wanted->type);
    IS(is->code, wanted->code);
    IS(is->id, wanted->id);
    IS(is->token, wanted->token);
    IS(is->observe, wanted->observe);
}

static inline void compare_layer(const ks_end_load *told, uint64_t at) {
    IS(told->remembered, remembered(at));
    IS(told->remembered_most, most);
    IS(told->outstanding, open_len);
    IS(told->queued, queue_len - queue_first);
    IS(told->ids_left, ids_left(at));
}

#endif
