/* load_server [CALLS] [SEED]: ks_server_load against a model of a server (load_server.h), after each of 100,000 random
 * calls; what the calls answer and send is compared, too. Time is made up. Ends with status 0, or says what differs. */
#include "load_server.h"

#define ROUNDS (sizeof rounds / sizeof *rounds)

/* How a round is made: the places to remember messages, the changes, the longest step of time, and how often many
 * requests come at a time: once in so many calls. */
static const struct round {
    uint32_t places, changes;
    uint64_t pace, rush;
} rounds[] = {
    {8, 3, 200000, 0},
    {100, 40, 20000, 0},
    {600, 40, 2000, 0},
    {4096, 4194303, 500, 256},
    {REMEMBERED, 4194303, 20, 16},
    {REMEMBERED, 40, 500, 32},
    {600, 3, 20, 0},
    {100, 4194303, 200000, 0},
    {4096, 40, 2000, 512},
    {REMEMBERED, 40, 20000, 0},
}, *now_round;
/* ---- Calls ---- */

/* Takes a datagram: it is the one that is to go out next. */
static bool take_out(struct head *out) {
    ks_address to;
    size_t len;
    if (ks_server_next_out(&server, &to, datagram, sizeof datagram, &len) != KS_DONE) return false;
    *out = head_of(&to, datagram);
    out->observe = has_observe(datagram, len);
    return true;
}

static void take_outs(uint64_t count) {
    struct head out;
    for (; count > 0 && queue_first < queue_len; count--) {
        IS(take_out(&out), true);
        same(&out, &queue[queue_first++ % QUEUED]);
    }
    if (queue_first == queue_len) IS(take_out(&out), false);
}

static bool tick(void) {
    ks_end_load told = {.size = sizeof told};
    ks_ended ended;
    struct head out;
    take_outs(QUEUED);
    uint64_t at = handed();
    int32_t answer = ks_server_tick(&server, at, word());
    pass(at);
    bool ends = ks_server_ended(&server, &ended) == KS_DONE;
    if (answer == KS_OK) {
        IS(ends, false);
        IS(has_id(clock_ms) && (ready() != NULL || notifiable() != NULL), false);
        for (size_t i = 0; i < open_len; i++) IS(clock_ms - opens[i].first < LONGEST_WAIT_MS, true);
        kinds[OUT_OF_IDS] += !has_id(clock_ms) && notifiable() != NULL;
    } else if (ends) {
        IS(answer, KS_DONE);
        expire(&ended);
    } else {
        IS(answer, KS_DONE);
        IS(ks_server_load(&server, at, &told), KS_OK);
        IS(told.queued, 1);
        IS(take_out(&out), true);
        went(&out);
    }
    return answer == KS_DONE;
}

static void feed(uint8_t peer, const uint8_t *bytes, size_t len) {
    ks_address from = address_of(peer);
    uint64_t at = handed();
    IS(ks_server_feed(&server, at, &from, bytes, len, 0), KS_OK);
    pass(at);
}

/* The request as bytes: Observe (6), Uri-Path (11) and Block1 (27). */
static size_t spelled(const struct asked *q, uint8_t *bytes) {
    char text[8];
    size_t len = 0, path_len = (size_t)sprintf(text, "%u", q->path);
    uint8_t head[] = {(uint8_t)(q->con ? 0x41 : 0x51), q->method, (uint8_t)(q->id >> 8), (uint8_t)q->id, q->token};
    memcpy(bytes, head, len = sizeof head);
    if (q->observe == 0) bytes[len++] = 0x60;
    if (q->observe == 1) bytes[len++] = 0x61, bytes[len++] = 1;
    bytes[len++] = (uint8_t)((q->observe == NO_OBSERVE ? 0xb0 : 0x50) | path_len);
    memcpy(bytes + len, text, path_len);
    len += path_len;
    if (q->in_block) {
        const uint8_t option[] = {0xd1, 3, (uint8_t)(q->num << 4 | (unsigned)q->more << 3)};
        memcpy(bytes + len, option, sizeof option);
        len += sizeof option;
    }
    if (q->len != 0) {
        bytes[len++] = 0xff;
        memset(bytes + len, 'x', q->len);
        len += q->len;
    }
    return len;
}

static void ask(const struct asked *q) {
    uint8_t bytes[128];
    size_t len = spelled(q, bytes);
    ks_address from = address_of(q->peer);
    if (!q->refused) feed(q->peer, bytes, len);
    else {
        uint64_t at = handed();
        IS(ks_server_refuse(&server, at, &from, bytes, len, 0), KS_OK);
        pass(at);
    }
    take(q);
}

/* ---- Random calls ---- */

static uint32_t drawn_path(void) {
    uint32_t from = (uint32_t)(word() % PATHS);
    if (word() % 4 == 0)
        for (uint32_t i = 0; i < PATHS; i++)
            if (paths[(from + i) % PATHS].delayed) return (from + i) % PATHS;
    return word() % 3 ? from % HOT : from;
}

/* The next block of an upload, where there is one. */
static void go_on_with(struct asked *q) {
    if (uploading == 0 || word() % 2) return;
    const struct upload *u = &uploads[word() % uploading];
    q->peer = u->peer;
    q->method = u->method;
    q->path = u->path;
    q->num = (uint32_t)(u->len / BLOCK);
}

static struct asked drawn_request(void) {
    static const uint8_t methods[] = {GET, GET, GET, GET, PUT, PUT, POST, DELETE};
    struct asked q = {.peer = (uint8_t)(word() % PEERS), .token = (uint8_t)(1 + word() % TOKENS)};
    q.method = methods[word() % sizeof methods];
    q.con = word() % 4 != 0;
    q.path = drawn_path();
    q.observe = q.method != GET ? NO_OBSERVE : word() % 2 ? 0 : word() % 8 ? NO_OBSERVE : 1;
    q.refused = word() % 32 == 0;
    if (q.method == PUT || q.method == POST) q.len = word() % 32 ? word() % 20 : word() % 64;
    if (word() % (q.method == PUT || q.method == POST ? 2 : 32) == 0) {
        q.in_block = true;
        q.num = word() % 2 ? 0 : (uint32_t)(word() % 4);
        go_on_with(&q);
        q.more = word() % 4 != 0;
        q.len = q.more && word() % 8 ? BLOCK : word() % 18;
    }
    q.id = next_of(q.peer);
    return q;
}

static void asks(void) {
    static struct asked last[64];
    static uint64_t count;
    struct asked q = drawn_request();
    if (count > 64 && word() % 6 == 0) { /* a copy: of the same message, or as a message of the other type */
        q = last[word() % 64];
        q.con = word() % 8 ? q.con : !q.con;
    } else last[count++ % 64] = q;
    ask(&q);
}

/* Many Non-confirmable requests at a time, each of which is answered with a Message ID of the server's. */
static void rush(void) {
    struct asked q = {.method = GET, .observe = NO_OBSERVE, .token = 1, .peer = (uint8_t)(word() % PEERS), .path = 1};
    for (uint64_t n = word() % 2000; n > 0; n--) {
        q.id = next_of(q.peer);
        ask(&q);
        if (n % 64 == 0) compare(now);
    }
    take_outs(QUEUED);
}

/* An Empty message: an acknowledgement, a Reset, or one that is answered by a Reset. */
static void send_empty(uint8_t peer, uint8_t type, uint16_t id) {
    uint8_t bytes[] = {(uint8_t)(0x40 | type << 4), 0, (uint8_t)(id >> 8), (uint8_t)id};
    feed(peer, bytes, sizeof bytes);
    if (type == CON) push((struct head){peer, RST, EMPTY, 0, id, false});
    struct open *o = type >= ACK ? open_of(peer, id) : NULL;
    if (o != NULL) {
        if (type == RST && o->head.observe) kinds[ENDED_BY_RESET] += drop(peer, o->head.token);
        close_one(o);
        return;
    }
    if (type != RST) return;
    for (size_t i = 0; i < observing; i++) { /* RFC 7641, section 3.6: a Reset of the last one that went unconfirmed */
        struct observer *it = &observers[i];
        if (it->peer != peer || !it->noted || it->id != id || clock_ms - it->noted_at > LIFETIME_MS) continue;
        if (!is_wrong(12)) drop(peer, it->token);
        kinds[PLAIN_ENDED]++;
        return;
    }
}

static void empties(void) {
    const struct observer *o = observing > 0 ? &observers[word() % observing] : NULL;
    uint8_t type = word() % 8 ? ACK : RST;
    if (o != NULL && o->noted && word() % 16 == 0) send_empty(o->peer, RST, o->id);
    else if (open_len > 0 && word() % 8) {
        struct head head = opens[word() % open_len].head;
        send_empty(head.peer, type, head.id);
    } else send_empty((uint8_t)(word() % PEERS), (uint8_t)(word() % 4), (uint16_t)(word() % PEER_IDS));
}

/* A response at a server belongs to no request: it is remembered, and rejected by a Reset. */
static void responds_to_nothing(void) {
    struct head m = {(uint8_t)(word() % PEERS), (uint8_t)(word() % 2), CONTENT, 0, 0, false};
    m.id = next_of(m.peer);
    uint8_t bytes[] = {(uint8_t)(0x40 | m.type << 4), m.code, (uint8_t)(m.id >> 8), (uint8_t)m.id};
    feed(m.peer, bytes, sizeof bytes);
    if (is_over(&m, false)) return;
    remember(m.peer, m.id, m.type == CON);
    reply((struct head){m.peer, RST, EMPTY, 0, m.id, false});
}

static void chooses(void) {
    char text[8];
    uint32_t path = (uint32_t)(word() % PATHS);
    uint64_t ms = word() % 60000;
    size_t len = (size_t)sprintf(text, "%u", path);
    if (word() % 2) {
        bool may = paths[path].plain || count_plain() < MOST_CHOSEN;
        IS(ks_server_set_plain(&server, text, len), may ? KS_OK : KS_PLAIN_FULL);
        if (may) paths[path].plain = true;
    } else {
        bool may = count_delayed() - paths[path].delayed < MOST_CHOSEN;
        IS(ks_server_set_delay(&server, text, len, ms), may ? KS_OK : KS_DELAY_FULL);
        if (may) paths[path].delayed = true, paths[path].ms = ms;
    }
}

static void at_home(void) {
    static const uint8_t x[64];
    char text[8];
    uint64_t version, at = handed();
    uint32_t path = drawn_path();
    size_t len = (size_t)sprintf(text, "%u", path), body = word() % (LIMIT + 3);
    if (word() % 3 == 0) {
        int32_t told = ks_server_remove(&server, at, text, len);
        pass(at);
        IS(told, !paths[path].held ? KS_OK : has_change() ? KS_DONE : KS_SET_RATE_EXCEEDED);
        erase(path);
        return;
    }
    int32_t told = ks_server_set(&server, at, text, len, 0, x, body, &version);
    pass(at);
    bool is_new = !paths[path].held;
    switch (why_not(path, body)) {
    case 0: IS(told, KS_OK); break;
    case TOO_LARGE: IS(told, KS_SET_TOO_LARGE); break;
    default: IS(told, is_new && count_held() >= MOST_PATHS ? KS_SET_TOO_MANY_PATHS : KS_SET_RATE_EXCEEDED);
    }
    put(path, body);
}

/* At times a peer that has something at the server, and which goes on to send. */
static void forgets(void) {
    ks_ended ended;
    uint8_t peer = word() % 4 && observing > 0 ? observers[word() % observing].peer : (uint8_t)(word() % PEERS);
    ks_address at = address_of(peer);
    bool known = is_known(peer), waited = open_to(peer) != NULL;
    IS(ks_server_knows(&server, clock_ms, &at), known ? KS_DONE : KS_OK);
    IS(ks_server_forget(&server, &at), known ? KS_DONE : KS_OK);
    IS(ks_server_ended(&server, &ended), waited ? KS_DONE : KS_OK);
    forget(peer);
    IS(ks_server_knows(&server, clock_ms, &at), is_known(peer) ? KS_DONE : KS_OK);
    kinds[FORGOTTEN] += known;
}

/* The last moment of something that lives for some time, or the one after it. */
static uint64_t edge(void) {
    uint64_t by = word() % 2;
    switch (word() % 4) {
    case 0: return last_remembered() + by;
    case 1: return last_resting() + by;
    case 2: return uploading > 0 ? uploads[word() % uploading].last + LIFETIME_MS + by : 0;
    default: return (clock_ms / WINDOW_MS + 1) * WINDOW_MS - 1 + by;
    }
}

static void step(void) {
    uint64_t by = word() % 32;
    now += word() % 4 ? 0 : word() % now_round->pace;
    if (word() % 256 == 0) now = later(now, edge());
    if (now_round->rush != 0 && word() % now_round->rush == 0) rush();
    else if (by < 4) at_home();
    else if (by < 14) asks();
    else if (by < 19) empties();
    else if (by < 20) responds_to_nothing();
    else if (by < 21 && word() % 4 == 0) chooses();
    else if (by < 21 && word() % 8 == 0) forgets();
    else if (by < 26) take_outs(1 + word() % 4);
    else for (uint64_t n = word() % 4 ? 1 : QUEUED; n > 0 && tick(); n--) compare(clock_ms);
    compare(word() % 8 ? now : word() % 2 ? handed() : edge());
}

static void begin_round(const struct round *it) {
    ks_config config = {.size = sizeof config, .block_size = BLOCK, .body_limit = LIMIT};
    ks_seed seed = {word(), word(), word()};
    now_round = it;
    config.remembered = it->places;
    config.changes = it->changes;
    most_changes = it->changes;
    IS(ks_server_new(&server, &config, &seed), KS_OK);
    begin_layer(seed.word, config.remembered);
    memset(paths, 0, sizeof paths);
    observing = uploading = waiting = 0;
    window = used = changed = twice = now = 0;
    compare(0);
}

int main(int argc, char **argv) {
    long calls = argc > 1 ? atol(argv[1]) : 100000, each = calls / (long)ROUNDS + 1;
    for (int skip = argc > 2 ? atoi(argv[2]) : 0; skip > 0; skip--) word();
    for (long i = 0; i < calls; i++) {
        if (i % each == 0) begin_round(&rounds[i / each]);
        step();
    }
    printf("load_server: %ld calls, of each kind:", calls);
    for (int k = 0; k < KINDS; k++) printf(" %llu", (unsigned long long)kinds[k]);
    printf("\n");
    /* These rounds fill neither the uploads nor the paths. */
    for (int k = 0; k < KINDS; k++)
        IS(kinds[k] != 0 || k == NO_UPLOAD || k == FULL_PATHS || calls < 100000, true);
    ks_server_free(&server);
    return 0;
}
