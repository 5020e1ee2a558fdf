/* load_client [CALLS] [SEED]: ks_client_load against a model of a client (load_client.h), after each of 100,000 random
 * calls; what the calls answer, send and report is compared, too. The client's server is this test. Time is made up.
 * Ends with status 0, or says what differs. */
#include "load_client.h"

#define ROUNDS (sizeof rounds / sizeof *rounds)

/* How a round is made: the places to remember messages, the longest step of time, and how often many calls come at a
 * time: once in so many calls. */
static const struct round {
    uint32_t places;
    uint64_t pace, rush;
} rounds[] = {
    {8, 20000, 0}, {100, 2000, 0}, {4096, 20, 32}, {4096, 500, 64}, {100, 200000, 0}, {REMEMBERED, 2000, 0},
}, *now_round;

static uint32_t sequence;

/* ---- Calls ---- */

static bool take_out(struct head *out) {
    ks_address to;
    size_t len;
    if (ks_client_next_out(&client, &to, datagram, sizeof datagram, &len) != KS_DONE) return false;
    *out = head_of(&to, datagram);
    out->observe = has_observe(datagram, len);
    return true;
}

static void take_outs(uint64_t count) {
    struct head out;
    for (; count > 0 && queue_first < queue_len; count--) {
        IS(take_out(&out), true);
        same(&out, &queue[queue_first++ % QUEUED]);
    }
    if (queue_first == queue_len) IS(take_out(&out), false);
}

/* The first of what waits runs: its request went out. A cancel has the token of its observation. */
static void starts(const struct head *out) {
    uint8_t code = running.role == CALL ? running.method : GET;
    struct head head = {SERVER, CON, code, datagram[4], give_id(), running.role != CALL};
    same(out, &head);
    IS(datagram[0] & 15, 8);
    memcpy(running_token, datagram + 4, sizeof running_token);
    if (running.role == CANCEL) IS(is_same(running_token, watch_of(running.number)->token), true);
    running_id = head.id;
    open_one(head);
    acknowledged = false;
    started++;
}

static void pop_waiting(void) {
    running = waits[0];
    runs = true;
    memmove(waits, waits + 1, --waiting * sizeof *waits);
}

static void went(const struct head *out) {
    struct open *o = open_of(SERVER, out->id);
    if (o != NULL) {
        same(out, &o->head);
        IS(clock_ms - o->first >= FIRST_TIMEOUT_MS, true);
        copied++;
        return;
    }
    IS(!runs && waiting > 0 && has_id(clock_ms), true);
    pop_waiting();
    starts(out);
}

/* Something was done without a datagram: a request failed, or none could be sent. */
static void failed(void) {
    struct open *o = open_to(SERVER);
    if (runs && acknowledged) {
        IS(clock_ms - acknowledged_at >= LIFETIME_MS, true);
        finish(KS_NO_RESPONSE);
    } else if (runs) {
        IS(o != NULL && clock_ms - o->first >= FAILURE_MS, true);
        close_one(o);
        finish(KS_TIMEOUT);
    } else {
        IS(waiting > 0 && !has_id(clock_ms), true);
        pop_waiting();
        finish(KS_NO_IDS);
    }
}

static bool tick(void) {
    struct head out;
    take_outs(QUEUED);
    uint64_t at = handed();
    int32_t answer = ks_client_tick(&client, at, word());
    pass(at);
    if (answer == KS_OK) {
        IS(runs || waiting == 0, true);
        IS(runs && acknowledged && clock_ms - acknowledged_at >= LIFETIME_MS, false);
        IS(open_len != 0 && clock_ms - opens[0].first >= LONGEST_WAIT_MS, false);
        IS(take_out(&out), false);
        return false;
    }
    IS(answer, KS_DONE);
    if (take_out(&out)) went(&out);
    else failed();
    return true;
}

/* A message as bytes: Observe (6), and a payload with a response that has one. */
static void feed(const struct message *m) {
    uint8_t bytes[64] = {(uint8_t)(0x40 | m->type << 4), m->code, (uint8_t)(m->id >> 8), (uint8_t)m->id};
    size_t len = 4;
    ks_address from = address_of(m->peer);
    uint64_t at = handed();
    if (m->code != EMPTY) {
        bytes[0] |= 8;
        memcpy(bytes + len, m->token, sizeof m->token);
        len += sizeof m->token;
        if (m->observe) {
            uint32_t n = m->sequence;
            const uint8_t option[] = {0x63, (uint8_t)(n >> 16), (uint8_t)(n >> 8), (uint8_t)n};
            memcpy(bytes + len, option, sizeof option);
            len += sizeof option;
        }
        if (m->code == CONTENT) bytes[len++] = 0xff, bytes[len++] = 'x';
    }
    IS(ks_client_feed(&client, at, &from, bytes, len, word()), KS_OK);
    pass(at);
    take(m);
}

static void call(void) {
    static const uint8_t methods[] = {GET, POST, PUT, DELETE};
    uint8_t method = methods[word() % 4], body[LIMIT + 1] = {0};
    ks_request what = {KS_NO_FORMAT, KS_NO_FORMAT, method, false};
    size_t len = method == GET || method == DELETE ? 0 : word() % 17;
    uint64_t id = 0, at = handed();
    if (word() % 64 == 0) len = LIMIT + 1;
    int32_t answer = ks_client_call(&client, at, &what, P("a"), body, len, NONE, NONE, &id);
    pass(at);
    full += waiting == MOST_WAITING;
    IS(answer, waiting == MOST_WAITING ? KS_CALL_QUEUE_FULL : len > LIMIT ? KS_CALL_BODY_TOO_LARGE : KS_OK);
    if (answer != KS_OK) return;
    IS(id, numbers);
    waits[waiting++] = (struct operation){CALL, method, numbers++};
}

static void observe(void) {
    uint64_t id = 0, at = handed();
    int32_t answer = ks_client_observe(&client, at, P("t"), &id);
    bool is_full = waiting == MOST_WAITING, is_much = observed() >= MOST_WATCHES;
    pass(at);
    watches_full += !is_full && is_much;
    IS(answer, is_full ? KS_CALL_QUEUE_FULL : is_much ? KS_CALL_WATCHES_FULL : KS_OK);
    if (answer != KS_OK) return;
    IS(id, numbers);
    waits[waiting++] = (struct operation){REGISTER, GET, numbers++};
}

static uint64_t drawn_number(void) {
    return watching > 0 && word() % 8 ? watches[word() % watching].number : word() % (numbers + 1);
}

static void cancel(void) {
    uint64_t number = drawn_number(), at = handed();
    int32_t answer = ks_client_cancel(&client, at, number);
    bool is_known = watch_of(number) != NULL && !is_cancelled(number);
    pass(at);
    unknown += !is_known;
    IS(answer, !is_known ? KS_CANCEL_UNKNOWN : waiting == MOST_WAITING ? KS_CANCEL_QUEUE_FULL : KS_OK);
    if (answer == KS_OK) waits[waiting++] = (struct operation){CANCEL, GET, number};
}

/* A forgotten observation has no further report: those that wait are taken away. */
static void forget(void) {
    uint64_t number = drawn_number();
    bool is_known = watch_of(number) != NULL && !is_cancelled(number);
    size_t kept = 0;
    IS(ks_client_forget(&client, number), is_known ? KS_DONE : KS_OK);
    if (!is_known) return;
    end_watch(number);
    for (size_t i = 0; i < report_len; i++)
        if (reports[i].number != number || is_wrong(15)) reports[kept++] = reports[i];
    report_len = kept;
}

static void take_reports(uint64_t count) {
    ks_report r;
    for (; count > 0; count--) {
        IS(ks_client_next_report(&client, &r, room, sizeof room), report_len > 0 ? KS_DONE : KS_OK);
        if (report_len == 0) return;
        IS(r.id, reports[0].number);
        IS(r.kind, reports[0].kind);
        memmove(reports, reports + 1, --report_len * sizeof *reports);
    }
}

/* ---- Random calls ---- */

static struct message fresh(uint8_t peer, uint8_t type) {
    struct message m = {.peer = peer, .type = type, .id = next_of(peer)};
    for (size_t i = 0; i < sizeof m.token; i++) m.token[i] = (uint8_t)word();
    sequence = (word() % 16 ? sequence + (uint32_t)(word() % 3) : (uint32_t)word()) % (1u << 24);
    m.sequence = sequence;
    return m;
}

static void draw_code(struct message *m) {
    static const uint8_t codes[] = {CONTENT, CONTENT, CONTENT, CONTENT, CREATED, CHANGED, DELETED, NOT_FOUND};
    m->code = codes[word() % sizeof codes];
    m->observe = m->code == CONTENT && word() % 4 != 0;
}

/* Of the request that runs: the answer in its acknowledgement or behind it, an Empty message, or what doesn't match. */
static struct message to_running(void) {
    uint64_t by = word() % 12;
    struct message m = fresh(SERVER, by < 6 ? ACK : by < 7 ? RST : by < 9 ? CON : by < 10 ? NON : ACK);
    if (m.type >= ACK) m.id = running_id;
    if (by == 11) m.id++;
    if (by != 10) memcpy(m.token, running_token, sizeof m.token);
    if (by != 5 && by != 6) draw_code(&m);
    return m;
}

static struct message notification(void) {
    struct message m = fresh(SERVER, (uint8_t)(word() % 2));
    memcpy(m.token, watches[word() % watching].token, sizeof m.token);
    m.code = word() % 32 ? CONTENT : NOT_FOUND;
    m.observe = m.code == CONTENT && word() % 32 != 0;
    return m;
}

static struct message of_stranger(void) {
    struct message m = fresh((uint8_t)(word() % PEERS), (uint8_t)(word() % 2));
    if (word() % 4 == 0) m.code = word() % 2 ? EMPTY : GET;
    else draw_code(&m);
    if (word() % 4 == 0) memcpy(m.token, running_token, sizeof m.token);
    return m;
}

static void arrive(void) {
    static struct message last[32];
    static uint64_t count;
    uint64_t by = word() % 16;
    struct message m = by < 8 && runs ? to_running() : by < 13 && watching > 0 ? notification() : of_stranger();
    if (by == 15 && count > 32) m = last[word() % 32];
    else if (m.type < ACK) last[count++ % 32] = m;
    feed(&m);
}

/* Many calls, one after the other, each of which is answered at once. */
static void rush(void) {
    for (uint64_t n = word() % 2000; n > 0; n--) {
        if (waiting < MOST_WAITING) call();
        tick();
        if (runs && !acknowledged) {
            struct message m = fresh(SERVER, ACK);
            m.id = running_id;
            m.code = CONTENT;
            memcpy(m.token, running_token, sizeof m.token);
            feed(&m);
        }
        take_reports(4);
        if (n % 64 == 0) compare(now);
    }
}

static uint64_t edge(void) {
    uint64_t by = word() % 2;
    switch (word() % 3) {
    case 0: return last_remembered() + by;
    case 1: return last_resting() + by;
    default: return runs && acknowledged ? acknowledged_at + LIFETIME_MS - by : 0;
    }
}

static void step(void) {
    uint64_t by = word() % 64;
    now += word() % 4 ? 0 : word() % now_round->pace;
    if (word() % 256 == 0) now = later(now, edge());
    if (now_round->rush != 0 && word() % now_round->rush == 0) rush();
    else if (by < 8) call();
    else if (by < 13) observe();
    else if (by < 15) cancel();
    else if (by < 16) forget();
    else if (by < 36) arrive();
    else if (by < 44) take_outs(1 + word() % 4);
    else if (by < 48) take_reports(word() % 8 ? 1 + word() % 4 : MOST_REPORTS);
    else for (uint64_t n = word() % 4 ? 1 : QUEUED; n > 0 && tick(); n--) compare(clock_ms);
    compare(word() % 8 ? now : word() % 2 ? handed() : edge());
}

static void begin_round(const struct round *it) {
    ks_config config = {.size = sizeof config, .body_limit = LIMIT, .remembered = it->places};
    ks_seed seed = {word(), word(), word()};
    ks_address server_at = address_of(SERVER);
    now_round = it;
    IS(ks_client_new(&client, &server_at, &config, &seed), KS_OK);
    begin_layer(seed.word, it->places);
    waiting = watching = report_len = 0;
    runs = acknowledged = false;
    numbers = now = 0;
    compare(0);
}

int main(int argc, char **argv) {
    long calls = argc > 1 ? atol(argv[1]) : 100000, each = calls / (long)ROUNDS + 1;
    for (int skip = argc > 2 ? atoi(argv[2]) : 0; skip > 0; skip--) word();
    for (long i = 0; i < calls; i++) {
        if (i % each == 0) begin_round(&rounds[i / each]);
        step();
    }
    static const uint8_t met[] = {KS_BODY, KS_SUCCESS, KS_VALUE, KS_ENDED, KS_CANCELLED,
                                  KS_FAILED, KS_TIMEOUT, KS_RESET, KS_NO_RESPONSE};
    /* These rounds come neither to a lack of Message IDs nor to the most observations. */
    const uint64_t more[] = {started, copied, ignored, rejected, full, unknown};
    printf("load_client: %ld calls, of each kind:", calls);
    for (size_t i = 0; i < sizeof met; i++) printf(" %llu", (unsigned long long)kinds[met[i]]);
    for (size_t i = 0; i < sizeof more / sizeof *more; i++) printf(" %llu", (unsigned long long)more[i]);
    printf("\n");
    for (size_t i = 0; i < sizeof met; i++) IS(kinds[met[i]] != 0 || calls < 100000, true);
    for (size_t i = 0; i < sizeof more / sizeof *more; i++) IS(more[i] != 0 || calls < 100000, true);
    ks_client_free(&client);
    return 0;
}
