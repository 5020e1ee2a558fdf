/* message.c: messages of CoAP (RFC 7252, section 3) and the value of the option OSCORE (RFC 8613, section 6.1). */
#include "inside.h"
#include <string.h>

enum { MARKER = 0xff, TYPE_SHIFT = 4, VERSION = 1, VERSION_SHIFT = 6, LOW_NIBBLE = 15, OBSERVE_ROOM = 3 };
enum { ONE_BYTE = 13, TWO_BYTES = 14, ONE_BYTE_FROM = 13, TWO_BYTES_FROM = 269, MOST_OPTION = 65535 };
enum { HAS_ID_CONTEXT = 0x10, HAS_KID = 0x08, PIV_LEN = 0x07, RESERVED = 0xe0 };

bool is_outer(uint32_t number) {
    bool is_of_uri = number == URI_HOST || number == URI_PORT || number == PROXY_SCHEME || number == PROXY_URI;
    return is_of_uri || number == OSCORE;
}

bool is_request(uint8_t code) { return code != 0 && code >> 5 == 0; }

bool is_response(uint8_t code) { return code >> 5 >= 2 && code >> 5 <= 5; }

/* The number that a nibble and the bytes after it stand for. */
static bool extended(option_reader *r, uint32_t nibble, uint32_t *n) {
    size_t more = nibble == ONE_BYTE ? 1 : nibble == TWO_BYTES ? 2 : 0;
    if (nibble > TWO_BYTES || (size_t)(r->end - r->at) < more) return false;
    *n = nibble;
    if (more == 1) *n = ONE_BYTE_FROM + (uint32_t)r->at[0];
    if (more == 2) *n = TWO_BYTES_FROM + ((uint32_t)r->at[0] << 8 | r->at[1]);
    r->at += more;
    return true;
}

bool option_next(option_reader *r, option *o) {
    uint32_t delta, len;
    if (r->at == r->end || *r->at == MARKER) return false;
    uint8_t first = *r->at++;
    if (!extended(r, first >> TYPE_SHIFT, &delta) || !extended(r, first & LOW_NIBBLE, &len)) return r->at = NULL, false;
    if (len > (size_t)(r->end - r->at) || r->number + delta > MOST_OPTION) return r->at = NULL, false;
    r->number += delta;
    o->number = r->number;
    o->value = (span){r->at, len};
    r->at += len;
    return true;
}

option_reader options_of(const message *m) { return (option_reader){m->options.at, m->options.at + m->options.len, 0}; }

static bool note_once(span *seen, span value, size_t room) {
    if (seen->at != NULL || value.len > room) return false;
    *seen = value;
    return true;
}

/* Options and payload, from here on. */
static bool tail_read(const uint8_t *at, const uint8_t *end, message *m) {
    option_reader r = {at, end, 0};
    option o;
    while (option_next(&r, &o)) {
        if (o.number == OBSERVE && !note_once(&m->observe, o.value, OBSERVE_ROOM)) return false;
        if (o.number == OSCORE && !note_once(&m->oscore, o.value, KS_OSCORE_ROOM)) return false;
        m->has_proxy_uri |= o.number == PROXY_URI;
        m->has_outer |= is_outer(o.number);
    }
    if (r.at == NULL) return false;
    m->options = (span){at, (size_t)(r.at - at)};
    if (r.at == end) return true;
    m->payload = (span){r.at + 1, (size_t)(end - r.at) - 1};
    return m->payload.len > 0;
}

bool message_read(const uint8_t *bytes, size_t len, message *m) {
    memset(m, 0, sizeof *m);
    if (len < HEADER_LEN || len > KS_OSCORE_ROOM || bytes[0] >> VERSION_SHIFT != VERSION) return false;
    m->head.type = bytes[0] >> TYPE_SHIFT & 3;
    m->head.token_len = bytes[0] & LOW_NIBBLE;
    m->code = bytes[1];
    memcpy(m->head.id, bytes + 2, sizeof m->head.id);
    if (m->head.token_len > TOKEN_ROOM || len < (size_t)HEADER_LEN + m->head.token_len) return false;
    if (m->code == 0) return len == HEADER_LEN;
    memcpy(m->head.token, bytes + HEADER_LEN, m->head.token_len);
    return tail_read(bytes + HEADER_LEN + m->head.token_len, bytes + len, m);
}

bool inner_read(const uint8_t *bytes, size_t len, message *m) {
    memset(m, 0, sizeof *m);
    if (len == 0) return false;
    m->code = bytes[0];
    return tail_read(bytes + 1, bytes + len, m) && !m->has_outer;
}

void put(writer *w, const void *bytes, size_t len) {
    if (len > w->room - w->len) w->is_full = true;
    if (w->is_full || len == 0) return;
    memcpy(w->at + w->len, bytes, len);
    w->len += len;
}

void put_head(writer *w, const head *h, uint8_t code) {
    uint8_t bytes[HEADER_LEN] = {0, code, h->id[0], h->id[1]};
    bytes[0] = (uint8_t)(VERSION << VERSION_SHIFT | h->type << TYPE_SHIFT | h->token_len);
    put(w, bytes, sizeof bytes);
    put(w, h->token, h->token_len);
}

/* The nibble of a number, and the bytes after it. */
static uint8_t shortened(uint32_t n, uint8_t more[2], size_t *len) {
    if (n < ONE_BYTE_FROM) return *len = 0, (uint8_t)n;
    if (n < TWO_BYTES_FROM) return *len = 1, more[0] = (uint8_t)(n - ONE_BYTE_FROM), ONE_BYTE;
    n -= TWO_BYTES_FROM;
    *len = 2;
    more[0] = (uint8_t)(n >> 8);
    more[1] = (uint8_t)n;
    return TWO_BYTES;
}

void put_option(writer *w, uint32_t number, span value) {
    uint8_t of_delta[2], of_len[2];
    size_t delta_len, len_len;
    uint8_t delta = shortened(number - w->number, of_delta, &delta_len);
    uint8_t len = shortened((uint32_t)value.len, of_len, &len_len);
    uint8_t first = (uint8_t)(delta << TYPE_SHIFT | len);
    put(w, &first, 1);
    put(w, of_delta, delta_len);
    put(w, of_len, len_len);
    put(w, value.at, value.len);
    w->number = number;
}

void put_payload(writer *w, span payload) {
    const uint8_t marker = MARKER;
    if (payload.len == 0) return;
    put(w, &marker, 1);
    put(w, payload.at, payload.len);
}

/* The next bytes of a span, which it is short of then. */
static bool cut(span *from, size_t len, span *to) {
    if (len > from->len) return false;
    *to = (span){from->at, len};
    *from = (span){from->at + len, from->len - len};
    return true;
}

bool oscore_read(span value, oscore_value *v) {
    span flags, len;
    memset(v, 0, sizeof *v);
    if (value.len == 0) return true;
    cut(&value, 1, &flags);
    uint8_t f = flags.at[0];
    if (f == 0 || (f & RESERVED) != 0 || (f & PIV_LEN) > PIV_ROOM || !cut(&value, f & PIV_LEN, &v->piv)) return false;
    if (v->piv.len > 1 && v->piv.at[0] == 0) return false;
    if ((f & HAS_ID_CONTEXT) != 0 && (!cut(&value, 1, &len) || !cut(&value, len.at[0], &v->id_context))) return false;
    if ((f & HAS_KID) != 0) v->kid = value;
    return (f & HAS_KID) != 0 || value.len == 0;
}

size_t oscore_write(const oscore_value *v, uint8_t bytes[KS_OSCORE_MORE]) {
    writer w = {bytes, KS_OSCORE_MORE, 0, 0, false};
    uint8_t context_len = (uint8_t)v->id_context.len;
    uint8_t flags = (uint8_t)(v->piv.len | (v->kid.at != NULL ? HAS_KID : 0) | (context_len != 0 ? HAS_ID_CONTEXT : 0));
    if (flags == 0) return 0;
    put(&w, &flags, 1);
    put(&w, v->piv.at, v->piv.len);
    if (context_len != 0) put(&w, &context_len, 1);
    put(&w, v->id_context.at, v->id_context.len);
    put(&w, v->kid.at, v->kid.len);
    return w.len;
}

size_t piv_of(uint64_t number, uint8_t piv[PIV_ROOM]) {
    size_t len = 0;
    for (int i = PIV_ROOM - 1; i >= 0; i--)
        if (len > 0 || i == 0 || (number >> 8 * i & 0xff) != 0) piv[len++] = (uint8_t)(number >> 8 * i);
    return len;
}

uint64_t number_of(span piv) {
    uint64_t number = 0;
    for (size_t i = 0; i < piv.len; i++) number = number << 8 | piv.at[i];
    return number;
}
