/* knifesilver_easy.h: shorter calls over knifesilver.h, for paths that end by a NUL. Everything here is inline, and
 * nothing of it is proved: it hands over to the calls of that header, with the same answers and the same rules. */
#ifndef KNIFESILVER_EASY_H
#define KNIFESILVER_EASY_H

#include "knifesilver.h"
#include <string.h>

/* The code of a message, from its class and detail as digits: KS_CODE(2, 5) or KS_CODE(2, 05), KS_CODE(4, 08). (A
 * leading 0 makes no octal number of the detail.) For other expressions than digits there is ks_code. */
#define KS_CODE(class_, detail) ((uint8_t)((class_) << 5 | (1##detail - (1##detail < 100 ? 10 : 100))))

static inline uint8_t ks_code(unsigned class_, unsigned detail) { return (uint8_t)(class_ << 5 | (detail & 31u)); }

#define KS_CODE_ROOM 5

/* Writes the code as text, "4.04" with the NUL behind it, and answers the text. */
static inline const char *ks_code_text(uint8_t code, char room[KS_CODE_ROOM]) {
    room[0] = (char)('0' + (code >> 5));
    room[1] = '.';
    room[2] = (char)('0' + (code & 31) / 10);
    room[3] = (char)('0' + (code & 31) % 10);
    room[4] = '\0';
    return room;
}

/* The name of a report's kind, as the enumerator has it: "TIMEOUT" of KS_TIMEOUT; "?" of a number that is none. */
static inline const char *ks_report_name(uint8_t kind) {
    switch (kind) {
    case KS_BODY: return "BODY";
    case KS_VALID: return "VALID";
    case KS_SUCCESS: return "SUCCESS";
    case KS_VALUE: return "VALUE";
    case KS_ENDED: return "ENDED";
    case KS_CANCELLED: return "CANCELLED";
    case KS_FAILED: return "FAILED";
    case KS_TIMEOUT: return "TIMEOUT";
    case KS_RESET: return "RESET";
    case KS_NO_RESPONSE: return "NO_RESPONSE";
    case KS_CHANGED: return "CHANGED";
    case KS_BAD_BLOCK: return "BAD_BLOCK";
    case KS_NO_TAG: return "NO_TAG";
    case KS_TOO_LARGE: return "TOO_LARGE";
    case KS_NO_IDS: return "NO_IDS";
    default: return "?";
    }
}

/* ---- The server -------------------------------------------------------------------------------------------------- */

/* The Content-Format of text in UTF-8 (RFC 7252, section 12.3). */
#define KS_TEXT 0

/* ks_server_set of a text, as text. */
static inline int32_t ks_set_text(ks_server *server, uint64_t now, const char *path, const char *text,
                                  uint64_t *version) {
    return ks_server_set(server, now, path, strlen(path), KS_TEXT, text, strlen(text), version);
}

/* ks_server_update of a text, as text. */
static inline int32_t ks_update_text(ks_server *server, uint64_t now, const char *path, const char *text,
                                     uint64_t *version) {
    return ks_server_update(server, now, path, strlen(path), KS_TEXT, text, strlen(text), version);
}

/* ks_server_remove. */
static inline int32_t ks_remove(ks_server *server, uint64_t now, const char *path) {
    return ks_server_remove(server, now, path, strlen(path));
}

/* ---- The client -------------------------------------------------------------------------------------------------- */

/* ks_client_call without entity-tags; the format is that of the body of a PUT or POST. */
static inline int32_t ks_client_ask(ks_client *client, uint64_t now, enum ks_method method, const char *path,
                                    int32_t format, const void *body, size_t body_len, uint64_t *id) {
    ks_request what;
    ks_tag none;
    memset(&none, 0, sizeof none);
    memset(&what, 0, sizeof what);
    what.format = format;
    what.accept = KS_NO_FORMAT;
    what.method = (uint8_t)method;
    return ks_client_call(client, now, &what, path, strlen(path), body, body_len, &none, 0, &none, 0, id);
}

static inline int32_t ks_client_get(ks_client *client, uint64_t now, const char *path, uint64_t *id) {
    return ks_client_ask(client, now, KS_GET, path, KS_NO_FORMAT, "", 0, id);
}

static inline int32_t ks_client_put(ks_client *client, uint64_t now, const char *path, int32_t format,
                                    const void *body, size_t body_len, uint64_t *id) {
    return ks_client_ask(client, now, KS_PUT, path, format, body, body_len, id);
}

static inline int32_t ks_client_put_text(ks_client *client, uint64_t now, const char *path, const char *text,
                                         uint64_t *id) {
    return ks_client_ask(client, now, KS_PUT, path, KS_TEXT, text, strlen(text), id);
}

static inline int32_t ks_client_post(ks_client *client, uint64_t now, const char *path, int32_t format,
                                     const void *body, size_t body_len, uint64_t *id) {
    return ks_client_ask(client, now, KS_POST, path, format, body, body_len, id);
}

static inline int32_t ks_client_delete(ks_client *client, uint64_t now, const char *path, uint64_t *id) {
    return ks_client_ask(client, now, KS_DELETE, path, KS_NO_FORMAT, "", 0, id);
}

/* ks_client_observe. */
static inline int32_t ks_client_watch(ks_client *client, uint64_t now, const char *path, uint64_t *id) {
    return ks_client_observe(client, now, path, strlen(path), id);
}

#endif
