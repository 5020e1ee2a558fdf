/* share.c: the ends of share.h, and what passes between them. */
#include "share.h"
#include <stdio.h>
#include <string.h>

enum { BODY_ROOM = 64, SERVER_PORT = 5683, CLIENT_PORT = 40001, FIRST_OF_ADDRESS = 10 };
static const ks_request get = {.method = KS_GET, .format = KS_NO_FORMAT, .accept = KS_NO_FORMAT};
static const ks_tag no_tag;

void must(bool right, const char *what) {
    if (right) return;
    fprintf(stderr, "fleet: %s\n", what);
    exit(1);
}

/* 64 bits that look random (splitmix64). */
static uint64_t word(share *s) {
    uint64_t z = s->random += 0x9e3779b97f4a7c15u;
    z = (z ^ (z >> 30)) * 0xbf58476d1ce4e5b9u;
    z = (z ^ (z >> 27)) * 0x94d049bb133111ebu;
    return z ^ (z >> 31);
}

static ks_seed new_seed(share *s) {
    ks_seed seed;
    seed.word = word(s);
    seed.key0 = word(s);
    seed.key1 = word(s);
    return seed;
}

static bool is_server(const share *s, uint32_t end) { return end < s->servers; }
static uint32_t client_of(const share *s, uint32_t end) { return end - s->servers; }

/* An end's number is in its address: 10.0.0.0 and so on. */
static ks_address address_of(const share *s, uint32_t end) {
    ks_address at = {{FIRST_OF_ADDRESS, (uint8_t)(end >> 16), (uint8_t)(end >> 8), (uint8_t)end}, CLIENT_PORT};
    if (is_server(s, end)) at.port = SERVER_PORT;
    return at;
}

static uint32_t end_at(const ks_address *at) {
    return (uint32_t)at->ip[1] << 16 | (uint32_t)at->ip[2] << 8 | at->ip[3];
}

static void touch(share *s, uint32_t end) {
    if (s->is_touched[end]) return;
    s->is_touched[end] = true;
    s->touched[s->touched_count++] = end;
}

/* ---- What passes ---- */

static int32_t next_out(share *s, uint32_t end, ks_address *to, uint8_t *room, size_t *len) {
    if (is_server(s, end)) return ks_server_next_out(&s->server[end], to, room, KS_DATAGRAM_ROOM, len);
    return ks_client_next_out(&s->client[client_of(s, end)], to, room, KS_DATAGRAM_ROOM, len);
}

static int32_t feed(share *s, uint32_t end, const ks_address *from, const uint8_t *datagram, size_t len) {
    if (is_server(s, end)) return ks_server_feed(&s->server[end], s->now, from, datagram, len, 0);
    return ks_client_feed(&s->client[client_of(s, end)], s->now, from, datagram, len, word(s));
}

static void send_all(share *s, uint32_t end) {
    uint8_t room[KS_DATAGRAM_ROOM];
    const ks_address from = address_of(s, end);
    ks_address to;
    size_t len;
    while (next_out(s, end, &to, room, &len) == KS_DONE) {
        must(feed(s, end_at(&to), &from, room, len) == KS_OK, "a datagram is not taken");
        touch(s, end_at(&to));
        s->datagrams++;
    }
}

/* ---- What the clients ask, and hear ---- */

static void ask(share *s, uint32_t n) {
    uint64_t id;
    must(ks_client_call(&s->client[n], s->now, &get, PATH, strlen(PATH), "", 0, &no_tag, 0, &no_tag, 0, &id) == KS_OK,
         "a call is not taken");
}

static void observe(share *s, uint32_t n) {
    must(ks_client_observe(&s->client[n], s->now, PATH, strlen(PATH), &s->heard[n].number) == KS_OK,
         "an observation is not taken");
}

/* Each value is heard once: the next one has the number of those before it. */
static void hear(share *s, uint32_t n, const ks_report *report, const char *body) {
    heard *it = &s->heard[n];
    char wanted[BODY_ROOM];
    if (report->kind == KS_ENDED) {
        must(it->values == 0 && !it->is_over, "an observation ends");
        it->is_over = true;
        return;
    }
    must(report->kind == KS_VALUE && report->id == it->number && !it->is_over, "a report is not of an observation");
    size_t len = (size_t)snprintf(wanted, sizeof wanted, "%u", it->values);
    must(report->body_len == len && memcmp(body, wanted, len) == 0, "a value is not the next one");
    it->values++;
    s->values++;
}

static void take_reports(share *s, uint32_t n) {
    ks_report report;
    char body[BODY_ROOM];
    int32_t answer;
    while ((answer = ks_client_next_report(&s->client[n], &report, body, sizeof body)) == KS_DONE) {
        if (s->work.kind == WORK_CHANGES) {
            hear(s, n, &report, body);
            continue;
        }
        must(report.kind == KS_BODY && report.body_len == strlen(TEXT) && memcmp(body, TEXT, strlen(TEXT)) == 0,
             "a call is not answered");
        s->bodies++;
    }
    must(answer == KS_OK, "a report is not told");
}

static void set_value(share *s, uint32_t n) {
    char body[BODY_ROOM] = TEXT;
    uint64_t version;
    if (s->work.kind == WORK_CHANGES) snprintf(body, sizeof body, "%u", s->changed[n]);
    must(ks_server_set(&s->server[n], s->now, PATH, strlen(PATH), 0, body, strlen(body), &version) == KS_OK,
         "a value is not set");
}

/* ---- Turns ---- */

/* What the work has for an end at this moment. */
static void act(share *s, uint32_t end) {
    if (s->next[end] > s->now) return;
    s->next[end] = NEVER;
    if (is_server(s, end)) {
        s->changed[end]++;
        set_value(s, end);
        if (s->changed[end] < s->work.changes) s->next[end] = s->now + s->work.period;
    } else if (s->work.kind == WORK_GETS) {
        ask(s, client_of(s, end));
        s->next[end] = s->now + s->work.period;
    } else {
        observe(s, client_of(s, end));
    }
}

uint64_t share_due(share *s, uint32_t end) {
    uint64_t at;
    int32_t answer = is_server(s, end) ? ks_server_due(&s->server[end], &at)
                                       : ks_client_due(&s->client[client_of(s, end)], &at);
    return answer == KS_DONE ? at : NEVER;
}

static int32_t tick(share *s, uint32_t end) {
    if (is_server(s, end)) return ks_server_tick(&s->server[end], s->now, word(s));
    return ks_client_tick(&s->client[client_of(s, end)], s->now, word(s));
}

/* What is due of an end is done, what is out goes, and the heap has the next moment. */
static void turn(share *s, uint32_t end) {
    int32_t answer;
    act(s, end);
    while ((answer = tick(s, end)) == KS_DONE) {}
    must(answer == KS_OK, "a tick is refused");
    if (!is_server(s, end)) take_reports(s, client_of(s, end));
    send_all(s, end);
    uint64_t due = share_due(s, end);
    heap_set(&s->due, end, due < s->next[end] ? due : s->next[end]);
    s->turns++;
}

void share_run(share *s, uint64_t until) {
    uint32_t first;
    while (first = heap_first(&s->due), s->due.at[first] <= until) {
        s->now = s->due.at[first];
        touch(s, first);
        while (s->touched_count > 0) {
            uint32_t end = s->touched[--s->touched_count];
            s->is_touched[end] = false;
            turn(s, end);
        }
    }
    s->now = until;
}

/* ---- Its beginning and its end ---- */

static void new_ends(share *s) {
    ks_config config = {.size = sizeof config, .remembered = REMEMBERED};
    for (uint32_t n = 0; n < s->servers; n++) {
        const ks_seed seed = new_seed(s);
        must(ks_server_new(&s->server[n], &config, &seed) == KS_OK, "no server");
        set_value(s, n);
    }
    for (uint32_t n = 0; n < s->clients; n++) {
        const ks_seed seed = new_seed(s);
        const ks_address at = address_of(s, n % s->servers);
        must(ks_client_new(&s->client[n], &at, &config, &seed) == KS_OK, "no client");
    }
}

/* The clients begin one after the other, within a period; so do the changes, a period later. */
static void plan(share *s) {
    for (uint32_t n = 0; n < s->servers + s->clients; n++) s->next[n] = NEVER;
    for (uint32_t n = 0; n < s->servers && s->work.kind == WORK_CHANGES; n++)
        s->next[n] = s->work.period + s->work.period * n / s->servers;
    for (uint32_t n = 0; n < s->clients && s->work.kind != WORK_NONE; n++)
        s->next[s->servers + n] = s->work.period * n / s->clients;
    for (uint32_t n = 0; n < s->servers + s->clients; n++) heap_set(&s->due, n, s->next[n]);
}

void share_new(share *s, uint32_t servers, uint32_t clients, workload work, uint64_t random) {
    uint32_t ends = servers + clients;
    *s = (share){.servers = servers, .clients = clients, .work = work, .random = random};
    s->server = calloc(servers, sizeof *s->server);
    s->client = calloc(clients, sizeof *s->client);
    s->next = calloc(ends, sizeof *s->next);
    s->changed = calloc(servers, sizeof *s->changed);
    s->heard = calloc(clients, sizeof *s->heard);
    s->touched = calloc(ends, sizeof *s->touched);
    s->is_touched = calloc(ends, sizeof *s->is_touched);
    must(s->server != NULL && s->client != NULL && s->next != NULL && s->changed != NULL && s->heard != NULL
             && s->touched != NULL && s->is_touched != NULL && heap_new(&s->due, ends), "no memory");
    new_ends(s);
    plan(s);
}

uint32_t share_complete(const share *s) {
    uint32_t complete = 0;
    for (uint32_t n = 0; n < s->clients; n++) complete += s->heard[n].values == s->work.changes + 1;
    return complete;
}

uint32_t share_over(const share *s) {
    uint32_t over = 0;
    for (uint32_t n = 0; n < s->clients; n++) over += s->heard[n].is_over;
    return over;
}

void share_free_clients(share *s) {
    for (uint32_t n = 0; n < s->clients; n++) ks_client_free(&s->client[n]);
}

void share_free(share *s) {
    share_free_clients(s);
    for (uint32_t n = 0; n < s->servers; n++) ks_server_free(&s->server[n]);
    heap_free(&s->due);
    free(s->server), free(s->client), free(s->next), free(s->changed);
    free(s->heard), free(s->touched), free(s->is_touched);
}
