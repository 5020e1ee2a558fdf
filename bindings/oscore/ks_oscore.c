/* ks_oscore.c: what is sealed and what is opened (RFC 8613, section 8). */
#include "inside.h"
#include <openssl/crypto.h>
#include <string.h>

/* One that is being sealed or opened. */
typedef struct { message m; span bytes; ks_oscore_datagram *out; } passing;

int32_t ks_oscore_new(ks_oscore **made, const ks_oscore_keys *keys, const char *file, bool begins) {
    ks_oscore *c = OPENSSL_zalloc(sizeof *c);
    *made = NULL;
    if (c == NULL) return KS_NO_MEMORY;
    c->numbers.fd = -1;
    int32_t answer = cipher_begin(&c->cipher, keys);
    if (answer == KS_OK) answer = numbers_open(&c->numbers, file, begins, c->cipher.check);
    if (answer != KS_OK) return ks_oscore_free(c), answer;
    *made = c;
    return KS_OK;
}

void ks_oscore_free(ks_oscore *c) {
    if (c == NULL) return;
    numbers_close(&c->numbers);
    cipher_end(&c->cipher);
    OPENSSL_clear_free(c, sizeof *c);
}

/* ---- Sealing ---- */

/* The options that stay outside, and OSCORE, in their order. */
static void put_outer(writer *w, const message *m, span observe, span oscore) {
    option_reader r = options_of(m);
    option o;
    bool is_put = false;
    while (option_next(&r, &o)) {
        if (!is_outer(o.number) && o.number != OBSERVE) continue;
        if (o.number > OSCORE && !is_put) put_option(w, OSCORE, oscore), is_put = true;
        put_option(w, o.number, o.number == OBSERVE ? observe : o.value);
    }
    if (!is_put) put_option(w, OSCORE, oscore);
}

/* Code, the options that go inside, and the payload. Observe is empty in a response (RFC 8613, section 4.1.3.5.2). */
static size_t put_inner(const message *m, uint8_t *bytes, size_t room) {
    writer w = {bytes, room, 0, 0, false};
    option_reader r = options_of(m);
    option o;
    put(&w, &m->code, 1);
    while (option_next(&r, &o)) {
        if (is_outer(o.number)) continue;
        if (o.number == OBSERVE && is_response(m->code)) o.value.len = 0;
        put_option(&w, o.number, o.value);
    }
    put_payload(&w, m->payload);
    return w.is_full ? 0 : w.len;
}

static int32_t write_sealed(ks_oscore *c, const passing *p, const binding *b, span oscore) {
    uint8_t inner[KS_OSCORE_ROOM], sealed[KS_OSCORE_ROOM + TAG_LEN];
    const message *m = &p->m;
    bool observes = m->observe.at != NULL;
    writer w = {p->out->bytes, KS_OSCORE_ROOM, 0, 0, false};
    size_t len = put_inner(m, inner, sizeof inner);
    int32_t answer = len == 0 ? KS_OSCORE_MALFORMED : cipher_seal(&c->cipher, b, (span){inner, len}, sealed);
    OPENSSL_cleanse(inner, sizeof inner);
    if (answer != KS_OK) return answer;
    put_head(&w, &m->head, is_request(m->code) ? (observes ? FETCH : POST) : observes ? CONTENT : CHANGED);
    put_outer(&w, m, m->observe, oscore);
    put_payload(&w, (span){sealed, len + TAG_LEN});
    if (w.is_full) return KS_OSCORE_MALFORMED;
    p->out->len = w.len;
    return KS_DONE;
}

static span word_span(const ks_oscore_word *word) { return (span){word->bytes, word->len}; }

static int32_t write_request(ks_oscore *c, const passing *p, uint64_t number) {
    uint8_t piv[PIV_ROOM], value[KS_OSCORE_MORE];
    span sender = word_span(&c->cipher.sender), own = {piv, piv_of(number, piv)};
    oscore_value v = {own, sender, word_span(&c->cipher.id_context)};
    binding b = {sender, own, sender, own};
    return write_sealed(c, p, &b, (span){value, oscore_write(&v, value)});
}

static int32_t write_response(ks_oscore *c, const passing *p, const exchange *e, uint64_t number) {
    uint8_t piv[PIV_ROOM], of_request[PIV_ROOM], value[KS_OSCORE_MORE];
    span peer = word_span(&c->cipher.recipient), asked = {of_request, piv_of(e->number, of_request)};
    oscore_value v = {{NULL, 0}, {NULL, 0}, {NULL, 0}};
    binding b = {peer, asked, peer, asked};
    if (number != UNDER_REQUEST) {
        b.id = word_span(&c->cipher.sender);
        b.piv = v.piv = (span){piv, piv_of(number - 1, piv)};
    }
    return write_sealed(c, p, &b, (span){value, oscore_write(&v, value)});
}

static int32_t seal_request(ks_oscore *c, passing *p, sent *now) {
    const sent *which;
    exchange made = {.is_there = true, .at = c->now, .used = c->now, .head = p->m.head};
    made.observe = observe_of(&p->m);
    exchange *e = sealed_before(c, (table){c->asked, ASKED}, now, &which);
    if (e != NULL) return write_request(c, p, e->number);
    if (!same_of(&p->m, made.same)) return KS_NO_MEMORY;
    int32_t answer = numbers_take(&c->numbers, &made.number);
    if (answer == KS_OK) answer = write_request(c, p, made.number);
    if (answer != KS_DONE) return answer;
    made.sent[0] = *now;
    asked_put(c, &made);
    return KS_DONE;
}

static int32_t seal_response(ks_oscore *c, passing *p, sent *now) {
    const sent *which;
    bool observes = p->m.observe.at != NULL;
    exchange *e = sealed_before(c, (table){c->taken, TAKEN}, now, &which);
    if (e != NULL) return write_response(c, p, e, which->number);
    e = request_of(c, &p->m);
    if (e == NULL) return KS_OSCORE_UNASKED;
    if (observes || e->sent[0].is_there) {
        int32_t answer = numbers_take(&c->numbers, &now->number);
        if (answer != KS_OK) return answer;
        now->number++;
    }
    e->sent[now->number == UNDER_REQUEST ? 0 : 1] = *now;
    taken_answered(c, e, observes);
    return write_response(c, p, e, now->number);
}

static int32_t begin(ks_oscore *c, uint64_t now, passing *p) {
    if (now > c->now) c->now = now;
    p->out->len = 0;
    if (!message_read(p->bytes.at, p->bytes.len, &p->m)) return KS_OSCORE_MALFORMED;
    if (p->m.code == 0) {
        memcpy(p->out->bytes, p->bytes.at, p->bytes.len);
        p->out->len = p->bytes.len;
        return KS_OSCORE_PASSED;
    }
    return is_request(p->m.code) || is_response(p->m.code) ? KS_OK : KS_OSCORE_MALFORMED;
}

int32_t ks_oscore_seal(ks_oscore *c, uint64_t now, const void *plain, size_t len, ks_oscore_datagram *out) {
    passing p = {.bytes = {plain, len}, .out = out};
    sent sealed = {.is_there = true};
    int32_t answer = begin(c, now, &p);
    sealed.at = c->now;
    if (answer != KS_OK) return answer;
    if (p.m.oscore.at != NULL || p.m.has_proxy_uri) return KS_OSCORE_MALFORMED;
    if (len > KS_OSCORE_ROOM - KS_OSCORE_MORE) return KS_OSCORE_MALFORMED;
    if (!digest_of(p.bytes, sealed.digest)) return KS_NO_MEMORY;
    return is_request(p.m.code) ? seal_request(c, &p, &sealed) : seal_response(c, &p, &sealed);
}

/* ---- Opening ---- */

/* The inner options and the outer ones, in the order of their numbers; a response has this value of Observe. */
static void put_merged(writer *w, const message *outer, const message *inner, const span *observe) {
    option_reader r = options_of(outer), q = options_of(inner);
    option a, b;
    bool has_a = option_next(&r, &a), has_b = option_next(&q, &b);
    while (has_a || has_b) {
        if (has_a && (a.number == OSCORE || !is_outer(a.number))) {
            has_a = option_next(&r, &a);
        } else if (has_a && (!has_b || a.number <= b.number)) {
            put_option(w, a.number, a.value);
            has_a = option_next(&r, &a);
        } else {
            put_option(w, b.number, b.number == OBSERVE && observe != NULL ? *observe : b.value);
            has_b = option_next(&q, &b);
        }
    }
}

static int32_t write_opened(const passing *p, const message *inner, const span *observe) {
    writer w = {p->out->bytes, KS_OSCORE_ROOM, 0, 0, false};
    put_head(&w, &p->m.head, inner->code);
    put_merged(&w, &p->m, inner, observe);
    put_payload(&w, inner->payload);
    if (w.is_full || p->m.has_proxy_uri) return KS_OSCORE_MALFORMED;
    p->out->len = w.len;
    return KS_DONE;
}

static bool names_context(const ks_oscore *c, const oscore_value *v) {
    const ks_oscore_word *peer = &c->cipher.recipient, *context = &c->cipher.id_context;
    return v->kid.len == peer->len && memcmp(v->kid.at, peer->bytes, peer->len) == 0
        && (v->id_context.len == 0
            || (v->id_context.len == context->len && memcmp(v->id_context.at, context->bytes, context->len) == 0));
}

/* A request of a number that never came. */
static int32_t take_request(ks_oscore *c, const passing *p, const message *inner, uint64_t number) {
    exchange made = {.is_there = true, .at = c->now, .used = c->now, .number = number, .head = p->m.head};
    made.observe = observe_of(inner);
    if (!same_of(inner, made.same)) return KS_NO_MEMORY;
    if (!has_own_token(c, &made)) return KS_OSCORE_TOKEN_USED;
    exchange *place = taken_place(c);
    if (place == NULL) return KS_OSCORE_FULL;
    int32_t answer = numbers_note(&c->numbers, number);
    if (answer == KS_OK) taken_put(c, &made, place);
    return answer == KS_OK ? KS_DONE : answer;
}

static int32_t open_request(ks_oscore *c, const passing *p, const oscore_value *v, uint8_t *text) {
    span sealed = p->m.payload, kid = v->kid;
    message inner;
    if (v->piv.len == 0 || v->kid.at == NULL) return KS_OSCORE_MALFORMED;
    if (!names_context(c, v)) return KS_OSCORE_OTHER_CONTEXT;
    uint64_t number = number_of(v->piv);
    exchange *e = taken_as(c, number);
    bool is_new = numbers_look(&c->numbers, number) == NUMBER_NEW;
    if (!is_new && (e == NULL || !is_copy_of(c, e, &p->m.head))) return KS_OSCORE_REPLAYED;
    binding b = {kid, v->piv, kid, v->piv};
    int32_t answer = cipher_open(&c->cipher, &b, sealed, text);
    if (answer != KS_OK) return answer;
    if (!inner_read(text, sealed.len - TAG_LEN, &inner) || !is_request(inner.code)) return KS_OSCORE_MALFORMED;
    answer = write_opened(p, &inner, NULL);
    if (answer != KS_DONE || !is_new) return answer == KS_DONE ? KS_OSCORE_COPY : answer;
    return take_request(c, p, &inner, number);
}

/* A response that opened as one to this request. */
static int32_t take_response(ks_oscore *c, exchange *e, const passing *p, const oscore_value *v, span text) {
    static const uint8_t none[1];
    enum { OBSERVE_LEN = 3 };
    message inner;
    uint64_t number = v->piv.len == 0 ? UNDER_REQUEST : number_of(v->piv) + 1;
    span low = v->piv.len == 0 ? (span){none, 0} : v->piv;
    if (low.len > OBSERVE_LEN) low = (span){low.at + low.len - OBSERVE_LEN, OBSERVE_LEN};
    while (low.len > 0 && low.at[0] == 0) low = (span){low.at + 1, low.len - 1};
    if (!inner_read(text.at, text.len, &inner) || !is_response(inner.code)) return KS_OSCORE_MALFORMED;
    if (inner.observe.at != NULL && e->observe != REGISTERS) return KS_OSCORE_MALFORMED;
    int32_t answer = asked_hear(e, &p->m.head, number);
    if (answer == KS_OSCORE_REPLAYED) return answer;
    e->used = c->now;
    int32_t written = write_opened(p, &inner, &low);
    return written == KS_DONE ? answer : written;
}

static int32_t open_response(ks_oscore *c, const passing *p, const oscore_value *v, uint8_t *text) {
    uint8_t of_request[PIV_ROOM];
    span own = word_span(&c->cipher.sender), peer = word_span(&c->cipher.recipient), sealed = p->m.payload;
    int32_t answer = KS_OSCORE_UNASKED;
    if (v->kid.at != NULL && !names_context(c, v)) return KS_OSCORE_OTHER_CONTEXT;
    for (exchange *e = c->asked; e < c->asked + ASKED; e++) {
        if (!e->is_there || !is_same_token(&e->head, &p->m.head)) continue;
        span asked = {of_request, piv_of(e->number, of_request)};
        binding b = {v->piv.len == 0 ? own : peer, v->piv.len == 0 ? asked : v->piv, own, asked};
        answer = cipher_open(&c->cipher, &b, sealed, text);
        if (answer == KS_OK) return take_response(c, e, p, v, (span){text, sealed.len - TAG_LEN});
        if (answer != KS_OSCORE_FORGED) return answer;
    }
    return answer;
}

int32_t ks_oscore_open(ks_oscore *c, uint64_t now, const void *datagram, size_t len, ks_oscore_datagram *out) {
    uint8_t text[KS_OSCORE_ROOM];
    passing p = {.bytes = {datagram, len}, .out = out};
    oscore_value v;
    int32_t answer = begin(c, now, &p);
    if (answer != KS_OK) return answer;
    bool asks = is_request(p.m.code);
    if (p.m.oscore.at == NULL) return asks ? KS_OSCORE_UNPROTECTED_REQUEST : KS_OSCORE_UNPROTECTED_RESPONSE;
    if (!oscore_read(p.m.oscore, &v)) return KS_OSCORE_MALFORMED;
    answer = asks ? open_request(c, &p, &v, text) : open_response(c, &p, &v, text);
    OPENSSL_cleanse(text, sizeof text);
    if (answer != KS_DONE && answer != KS_OSCORE_COPY) out->len = 0;
    return answer;
}

size_t ks_oscore_named(ks_oscore *const *contexts, size_t count, const void *datagram, size_t len) {
    message m;
    oscore_value v;
    if (!message_read(datagram, len, &m) || m.oscore.at == NULL || !oscore_read(m.oscore, &v)) return count;
    for (size_t i = 0; i < count; i++)
        if (v.kid.at != NULL && names_context(contexts[i], &v)) return i;
    return count;
}
