/* sensor6 PORT [ADDRESS [PERIOD_MS]]: a sensor on a host with IPv6, IPv4 and several addresses. Its resources are
 * /temperature, which is measured each PERIOD_MS milliseconds (5,000; 0: once), and /.well-known/core, which tells of
 * it. Both are read-only (4.05); whatever else a client makes is stored. KNIFESILVER_PCAP names a capture of all
 * messages. SIGTERM ends it; its last line says what it did. */
#define _GNU_SOURCE
#include "ks_places.h"
#include "ks_udp6.h"
#include "running.h"
#include <poll.h>

#define PEERS 4096
/* The temperature is measured once a day at least, so that an observer of it keeps its name (ks_places.h). What clients
 * store need not change: who observes that and hears nothing for a day can lose its name, and the observation. */
#define DAY_MS 86400000u

static ks_server server;
static ks_places names;
static ks_name_place places[PEERS];
static int udp;
static unsigned long fed, refused, dropped, sent, unknown;

static void send_all(void) {
    static uint8_t out[KS_DATAGRAM_ROOM];
    uint8_t key[KS_KEY_ROOM];
    ks_address to;
    size_t len, key_len;
    while (ks_server_next_out(&server, &to, out, sizeof out, &len) == KS_DONE) {
        if (!ks_places_to(&names, now_ms(), &to, out, len, key, &key_len)) {
            unknown++;
            continue;
        }
        note(&own_address, &to, out, len);
        ks_udp6_send(udp, key, out, len);
        sent++;
    }
}

/* Whether the datagram's peer has a name, or is given one. Nothing was sent to a stranger that it could acknowledge or
 * reject: it gets a name for a request, or for what a CON says that is none. */
static bool is_named(const uint8_t key[KS_UDP6_KEY], const ks_message *m, int32_t fault, ks_address *name) {
    bool asks = m->kind == KS_CON || (fault == KS_OK && m->kind == KS_NON && m->code != 0);
    if (!asks && ks_places_find(&names, key, KS_UDP6_KEY, name) != KS_DONE) return false;
    return !ks_refused(ks_places_from(&names, now_ms(), key, KS_UDP6_KEY, name));
}

static void receive(void) {
    static uint8_t in[65536];
    static char path[3 * sizeof in];
    uint8_t key[KS_UDP6_KEY];
    ks_address name;
    ks_message m;
    ssize_t got;
    for (int i = 0; i < MOST_AT_ONCE && (got = ks_udp6_receive(udp, in, sizeof in, key)) != KS_UDP6_NONE; i++) {
        size_t len = got < 0 ? 0 : (size_t)got;
        int32_t fault = got < 0 ? KS_FAULT_SHORT : ks_peek(in, len, &m, path, sizeof path);
        if (got < 0 || !is_named(key, &m, fault, &name)) {
            dropped++;
            continue;
        }
        note(&name, &own_address, in, len);
        bool refuses = fault == KS_OK && is_write(&m) && is_fixed(&m, path);
        if (refuses) ks_server_refuse(&server, now_ms(), &name, in, len, 0);
        else ks_server_feed(&server, now_ms(), &name, in, len, 0);
        refused += refuses;
        fed++;
        send_all();
    }
}

int main(int argc, char **argv) {
    if (argc < 2) return fprintf(stderr, "sensor6 PORT [ADDRESS [PERIOD_MS]]\n"), 2;
    if (ks_version() != KS_VERSION) return fprintf(stderr, "the library is not the header's\n"), 2;
    uint64_t period = argc > 3 ? strtoull(argv[3], NULL, 10) : 5000, next = 0, due;
    end_by_signal();
    if ((udp = ks_udp6_open(argc > 2 ? argv[2] : "::", (uint16_t)atoi(argv[1]))) < 0) return perror("sensor6"), 1;
    ks_config config = {.size = sizeof config, .base = ks_base(random_word())};
    ks_seed seed = random_seed();
    if (ks_server_new(&server, &config, &seed) != KS_OK || !tell_links(&server)) return 1;
    ks_places_init(&names, places, PEERS, DAY_MS, random_word(), random_word());
    begin_capture();
    while (!is_over) {
        if (now_ms() >= next) {
            measure(&server);
            next = period != 0 ? now_ms() + period : UINT64_MAX;
        }
        while (ks_server_tick(&server, now_ms(), random_word()) == KS_DONE) {}
        send_all();
        uint64_t at = ks_server_due(&server, &due) == KS_DONE ? sooner(next, due) : next;
        struct pollfd wait = {.fd = udp, .events = POLLIN};
        if (poll(&wait, 1, wait_ms(at)) > 0) receive();
    }
    printf("fed %lu refused %lu dropped %lu sent %lu unknown %lu peers %llu\n", fed, refused, dropped, sent, unknown,
           (unsigned long long)names.given);
    ks_server_free(&server);
    return end_capture();
}
