/* asking.h: what get6 and secure_get share: the words of the command line, the calls that they are, and what is said of
 * the reports.
 *
 *     get PATH | put PATH FILE | delete PATH | observe PATH COUNT
 *
 * The status of a program is 0: done; 1: refused by the server; 3: nobody knows. */
#ifndef ASKING_H
#define ASKING_H

#include "running.h"

#define ASKING_WORDS "get PATH | put PATH FILE | delete PATH | observe PATH COUNT"
#define BINARY_FORMAT 42            /* application/octet-stream (RFC 7252, section 12.3) */

enum { STATUS_DONE = 0, STATUS_REFUSED = 1, STATUS_WORDS = 2, STATUS_UNKNOWN = 3, STATUS_GOES_ON = -1 };

static ks_client client;
static uint8_t body[1048576];
static long wanted = 1;             /* so many values of an observation are still wanted */

/* Reads a file, "-" the standard input: its length, or -1. */
static inline long read_file(const char *name) {
    FILE *file = strcmp(name, "-") != 0 ? fopen(name, "rb") : stdin;
    return file != NULL ? (long)fread(body, 1, sizeof body, file) : -1;
}

/* Has the client do what the words say: whether it took that. */
static inline bool ask(int count, char **words) {
    uint64_t now = now_ms(), id;
    if (count < 2) return false;
    const char *what = words[0], *path = words[1];
    if (strcmp(what, "get") == 0 && count == 2) return ks_client_get(&client, now, path, &id) == KS_OK;
    if (strcmp(what, "delete") == 0 && count == 2) return ks_client_delete(&client, now, path, &id) == KS_OK;
    if (strcmp(what, "observe") == 0 && count == 3) {
        wanted = atol(words[2]);
        return ks_client_watch(&client, now, path, &id) == KS_OK;
    }
    long len = strcmp(what, "put") == 0 && count == 3 ? read_file(words[2]) : -1;
    return len >= 0 && ks_client_put(&client, now, path, BINARY_FORMAT, body, (size_t)len, &id) == KS_OK;
}

static inline int status_of(const ks_report *r) {
    if (r->kind <= KS_SUCCESS || r->kind == KS_CANCELLED) return STATUS_DONE;
    if (r->kind == KS_FAILED && r->code >> 5 == 2) return STATUS_UNKNOWN; /* the server says that it did */
    return r->kind == KS_FAILED || r->kind == KS_ENDED ? STATUS_REFUSED : STATUS_UNKNOWN;
}

/* Prints what came: the status with which the program ends, or STATUS_GOES_ON. */
static inline int said(void) {
    char code[KS_CODE_ROOM];
    ks_report r;
    while (ks_client_next_report(&client, &r, body, sizeof body) == KS_DONE) {
        if (r.kind == KS_BODY || r.kind == KS_VALUE) fwrite(body, 1, r.body_len, stdout);
        if (r.kind == KS_VALUE) putchar('\n');
        fflush(stdout);
        if (r.kind == KS_VALUE) {
            if (--wanted == 0) ks_client_cancel(&client, now_ms(), r.id);
            continue;
        }
        if (status_of(&r) != STATUS_DONE)
            fprintf(stderr, "%s %s\n", ks_report_name(r.kind), ks_code_text(r.code, code));
        return status_of(&r);
    }
    return STATUS_GOES_ON;
}

static inline void tick_client(void) {
    while (ks_client_tick(&client, now_ms(), random_word()) == KS_DONE) {}
}

#endif
