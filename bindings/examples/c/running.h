/* running.h: what the programs with ks_udp6.h share: the moment, random words, how long to wait, a capture, and what
 * everyone is told of a sensor. */
#ifndef RUNNING_H
#define RUNNING_H

#include "knifesilver_easy.h"
#include "ks_pcap.h"
#include <signal.h>
#include <stdio.h>
#include <stdlib.h>
#include <sys/random.h>
#include <time.h>

#define MOST_AT_ONCE 64             /* datagrams that are taken between two ticks */
#define LINK_FORMAT 40              /* application/link-format (RFC 6690, section 7.3) */
#define TEMPERATURE "temperature"
#define LINKS ".well-known/core"
#define MOST_WAIT_MS 60000u

/* A clock that goes on while the machine sleeps, so that what is remembered is forgotten in time. */
static inline uint64_t now_ms(void) {
    struct timespec t;
    clock_gettime(CLOCK_BOOTTIME, &t);
    return (uint64_t)t.tv_sec * 1000 + (uint64_t)t.tv_nsec / 1000000;
}

static inline uint64_t random_word(void) {
    uint64_t word;
    if (getrandom(&word, sizeof word, 0) != sizeof word) abort();
    return word;
}

static inline ks_seed random_seed(void) {
    uint64_t word = random_word(), key0 = random_word(), key1 = random_word();
    return (ks_seed){word, key0, key1};
}

static inline uint64_t sooner(uint64_t a, uint64_t b) { return a < b ? a : b; }

/* For poll: until that moment. */
static inline int wait_ms(uint64_t at) {
    uint64_t now = now_ms();
    return at <= now ? 0 : (int)sooner(at - now, MOST_WAIT_MS);
}

/* SIGTERM ends a program, which says then what it did. */
static volatile sig_atomic_t is_over;

static void note_end(int signal) { is_over = signal; }

static inline void end_by_signal(void) { sigaction(SIGTERM, &(struct sigaction){.sa_handler = note_end}, NULL); }

/* ---- A capture, which KNIFESILVER_PCAP names ---- */

static FILE *capture;
static const ks_address own_address = {{127, 0, 0, 1}, 5683}; /* of the end, in the capture */

static inline void begin_capture(void) {
    const char *name = getenv("KNIFESILVER_PCAP");
    uint8_t head[KS_PCAP_HEAD];
    if (name == NULL || (capture = fopen(name, "wb")) == NULL) return;
    ks_pcap_head(head);
    fwrite(head, sizeof head, 1, capture);
}

static inline void note(const ks_address *from, const ks_address *to, const void *bytes, size_t len) {
    uint8_t head[KS_PCAP_PACKET];
    struct timespec t;
    size_t kept;
    if (capture == NULL) return;
    clock_gettime(CLOCK_REALTIME, &t);
    ks_pcap_packet(head, (uint64_t)t.tv_sec * 1000000 + (uint64_t)t.tv_nsec / 1000, from, to, len, &kept);
    fwrite(head, sizeof head, 1, capture);
    fwrite(bytes, kept, 1, capture);
}

static inline int end_capture(void) { return capture != NULL ? fclose(capture) : 0; }

/* ---- A sensor ---- */

/* What is there, for whoever asks (RFC 6690). */
static inline bool tell_links(ks_server *server) {
    static const char links[] = "</temperature>;rt=\"temperature\";if=\"sensor\";ct=0;obs";
    uint64_t version;
    const size_t len = sizeof links - 1;
    return ks_server_set(server, now_ms(), LINKS, strlen(LINKS), LINK_FORMAT, links, len, &version) == KS_OK;
}

static inline void measure(ks_server *server) {
    char body[16];
    uint64_t version;
    snprintf(body, sizeof body, "%.1f C", 20 + (double)(random_word() % 50) / 10);
    ks_update_text(server, now_ms(), TEMPERATURE, body, &version);
}

static inline bool is_path(const ks_message *m, const char *path, const char *text) {
    return m->path_len == strlen(text) + 1 && memcmp(path + 1, text, strlen(text)) == 0;
}

/* Whether a request writes; and whether it would write what is the sensor's own. */
static inline bool is_write(const ks_message *m) { return m->code >= KS_POST && m->code <= KS_DELETE; }

static inline bool is_fixed(const ks_message *m, const char *path) {
    return is_path(m, path, TEMPERATURE) || is_path(m, path, LINKS);
}

#endif
