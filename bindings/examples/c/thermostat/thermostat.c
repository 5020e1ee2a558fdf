/* thermostat PORT: coap://127.0.0.1:PORT/target, whose answers are computed. GET tells the target in degrees, for 5 s
 * (?unit=f: in Fahrenheit); PUT and POST set it, and answer 4.00 with a reason where they don't; DELETE sets 20; FETCH answers
 * the sum of the target and the number in its payload, two seconds later; who observes it is told of each change. */
#include "knifesilver_exchange.h"
#include <arpa/inet.h>
#include <poll.h>
#include <stdio.h>
#include <stdlib.h>
#include <sys/random.h>
#include <sys/socket.h>
#include <time.h>

/* Options, the method FETCH (RFC 8132) and codes (RFC 7252, section 12; RFC 7641, section 2). */
enum { URI_HOST = 3, OBSERVE = 6, URI_PORT = 7, URI_PATH = 11, CONTENT_FORMAT = 12, MAX_AGE = 14, URI_QUERY = 15, ACCEPT = 17 };
enum { FETCH = 5 };
enum { DELETED = 0x42, CHANGED = 0x44, CONTENT = 0x45, BAD_REQUEST = 0x80, BAD_OPTION = 0x82, NOT_FOUND = 0x84 };
enum { NOT_ALLOWED = 0x85, UNAVAILABLE = 0xa3 };
enum { OBSERVERS = 16, DEFERRED = 16, LATER_MS = 2000 };

static ks_answerer server;
static int udp;
static int target = 20;
static uint32_t version;
static struct { bool on; ks_asked asked; } observers[OBSERVERS];
static struct { bool on; ks_asked asked; int sum; } later[DEFERRED];

static uint64_t now_ms(void) {
    struct timespec t;
    clock_gettime(CLOCK_MONOTONIC, &t);
    return (uint64_t)t.tv_sec * 1000 + (uint64_t)t.tv_nsec / 1000000;
}

static uint64_t random_word(void) {
    uint64_t word;
    if (getrandom(&word, sizeof word, 0) != sizeof word) exit(1);
    return word;
}

static bool same(const ks_asked *a, const ks_asked *b) {
    return memcmp(&a->from, &b->from, sizeof a->from) == 0 && a->token_len == b->token_len
        && memcmp(a->token, b->token, a->token_len) == 0;
}

static void text(ks_draft *draft, uint8_t code, const char *payload) {
    ks_draft_begin(draft, code);
    if (code == CONTENT) {
        ks_draft_uint(draft, CONTENT_FORMAT, 0);
        ks_draft_uint(draft, MAX_AGE, 5);
    }
    ks_draft_payload(draft, payload, strlen(payload));
}

static void value(ks_draft *draft, bool observe, bool fahrenheit) {
    char body[16];
    snprintf(body, sizeof body, "%d", fahrenheit ? target * 9 / 5 + 32 : target);
    ks_draft_begin(draft, CONTENT);
    if (observe) ks_draft_uint(draft, OBSERVE, version & 0xffffff);
    ks_draft_uint(draft, CONTENT_FORMAT, 0);
    ks_draft_uint(draft, MAX_AGE, 5);
    ks_draft_payload(draft, body, strlen(body));
}

/* Has the endpoint and token observe the target, or no more; false where no place is left. */
static bool observe(const ks_asked *asked, bool on) {
    for (int i = 0; i < OBSERVERS; i++)
        if (observers[i].on && same(&observers[i].asked, asked)) return observers[i].on = on;
    for (int i = 0; on && i < OBSERVERS; i++)
        if (!observers[i].on) return observers[i].asked = *asked, observers[i].on = true;
    return false;
}

/* Who rejected a notification, or acknowledged none, observes no more (RFC 7641, sections 3.6 and 4.5). */
static void drop_ended(void) {
    ks_asked was = {0};
    ks_token token;
    bool notified;
    if (ks_answerer_ended(&server, &was.from, &token, &notified) != KS_DONE || !notified) return;
    was.token_len = token.len;
    memcpy(was.token, token.bytes, token.len);
    observe(&was, false);
}

static void changed(void) {
    ks_draft draft;
    uint16_t id;
    version++;
    for (int i = 0; i < OBSERVERS; i++) {
        if (!observers[i].on) continue;
        ks_asked *to = &observers[i].asked;
        value(&draft, true, false);
        /* one that is still outstanding to there: the next change tells it */
        ks_answerer_notify(&server, now_ms(), &to->from, to->token, to->token_len, draft.bytes, draft.len, random_word(), &id);
    }
}

static bool set(const char *payload, size_t len, ks_draft *draft) {
    char number[8], *end;
    snprintf(number, sizeof number, "%.*s", (int)(len < 7 ? len : 7), payload);
    long to = strtol(number, &end, 10);
    if (end == number || *end != 0 || to < 5 || to > 30) return text(draft, BAD_REQUEST, "a number from 5 to 30"), false;
    target = (int)to;
    return text(draft, CHANGED, number), true;
}

/* The sum is answered later: the request is acknowledged now. */
static bool answer_later(const ks_asked *asked, const char *payload, size_t len) {
    char number[8];
    for (int i = 0; i < DEFERRED; i++) {
        if (later[i].on) continue;
        if (ks_answerer_defer(&server, now_ms(), asked, LATER_MS) != KS_OK) return false;
        snprintf(number, sizeof number, "%.*s", (int)(len < 7 ? len : 7), payload);
        later[i].on = true;
        later[i].asked = *asked;
        later[i].sum = target + atoi(number);
        return true;
    }
    return false;
}

static void respond(const ks_asked *asked) {
    char body[16] = "";
    ks_draft draft;
    for (int i = 0; i < DEFERRED; i++)
        if (later[i].on && same(&later[i].asked, asked) && later[i].asked.id == asked->id) {
            snprintf(body, sizeof body, "%d", later[i].sum);
            later[i].on = false;
        }
    text(&draft, CONTENT, body);
    ks_answerer_respond(&server, asked, draft.bytes, draft.len, random_word());
}

/* What is asked, by the options of the request. */
struct question { bool here, fahrenheit; int observe; };

static struct question read_options(const uint8_t *datagram, size_t len) {
    struct question q = {true, false, -1};
    int segments = 0;
    ks_options reading;
    ks_option it;
    ks_options_begin(datagram, len, &reading);
    while (ks_options_next(datagram, len, &reading, &it) == KS_DONE) {
        const uint8_t *value = datagram + it.value_at;
        bool is_target = it.value_len == 6 && memcmp(value, "target", 6) == 0;
        if (it.number == URI_PATH) q.here = q.here && segments++ == 0 && is_target;
        if (it.number == URI_QUERY) q.fahrenheit = it.value_len == 6 && memcmp(value, "unit=f", 6) == 0;
        if (it.number == OBSERVE) q.observe = it.value_len == 0 ? 0 : value[it.value_len - 1];
    }
    q.here = q.here && segments == 1;
    return q;
}

/* A critical option that is not known: 4.02 to a Confirmable request, silence to another (RFC 7252, section 5.4.1). */
static bool is_understood(const ks_request_told *request, const uint8_t *datagram, size_t len) {
    static const uint16_t known[] = {URI_HOST, URI_PORT, URI_PATH, URI_QUERY, ACCEPT};
    uint16_t number;
    ks_draft draft;
    if (ks_unknown_critical(datagram, len, known, sizeof known / sizeof *known, &number) != KS_DONE) return true;
    if (request->asked.kind == KS_CON) {
        text(&draft, BAD_OPTION, "an option that is not known");
        ks_answerer_answer(&server, &request->asked, draft.bytes, draft.len);
    }
    return false;
}

static void handle(const ks_request_told *request, const uint8_t *datagram, size_t len) {
    const char *payload = (const char *)datagram + len - request->payload_len;
    ks_draft draft;
    bool told = false;
    if (!is_understood(request, datagram, len)) return;
    struct question q = read_options(datagram, len);
    if (!q.here) text(&draft, NOT_FOUND, "");
    else if (request->code == KS_GET) value(&draft, q.observe >= 0 && observe(&request->asked, q.observe == 0), q.fahrenheit);
    else if (request->code == KS_PUT || request->code == KS_POST) told = set(payload, request->payload_len, &draft);
    else if (request->code == KS_DELETE) target = 20, told = true, text(&draft, DELETED, "");
    else if (request->code == FETCH) {
        if (answer_later(&request->asked, payload, request->payload_len)) return;
        text(&draft, UNAVAILABLE, "");
    } else text(&draft, NOT_ALLOWED, "");
    ks_answerer_answer(&server, &request->asked, draft.bytes, draft.len);
    if (told) changed();
}

static void send_all(void) {
    static uint8_t out[KS_DATAGRAM_ROOM];
    ks_address to;
    size_t len;
    while (ks_answerer_next_out(&server, &to, out, sizeof out, &len) == KS_DONE) {
        struct sockaddr_in a = {.sin_family = AF_INET, .sin_port = htons(to.port)};
        memcpy(&a.sin_addr, to.ip, 4);
        (void)!sendto(udp, out, len, 0, (struct sockaddr *)&a, sizeof a);
    }
}

static void receive_all(void) {
    static uint8_t in[65536];
    struct sockaddr_in a;
    socklen_t a_len = sizeof a;
    ks_request_told request;
    ssize_t len;
    while ((len = recvfrom(udp, in, sizeof in, MSG_DONTWAIT, (struct sockaddr *)&a, &a_len)) >= 0) {
        ks_address from = {.port = ntohs(a.sin_port)};
        memcpy(from.ip, &a.sin_addr, 4);
        if (ks_answerer_feed(&server, now_ms(), &from, in, (size_t)len, &request) == KS_DONE) {
            printf("called\n");
            fflush(stdout);
            handle(&request, in, (size_t)len);
        }
        drop_ended();
        send_all();
        a_len = sizeof a;
    }
}

static int wait_ms(uint64_t now) {
    uint64_t at;
    if (ks_answerer_due(&server, now, &at) != KS_DONE) return -1;
    return at <= now ? 0 : at - now < 3600000 ? (int)(at - now) : 3600000;
}

int main(int argc, char **argv) {
    if (argc < 2) return fprintf(stderr, "thermostat PORT\n"), 2;
    struct sockaddr_in a = {.sin_family = AF_INET, .sin_port = htons((uint16_t)atoi(argv[1])),
                            .sin_addr = {htonl(INADDR_LOOPBACK)}};
    udp = socket(AF_INET, SOCK_DGRAM, 0);
    if (udp < 0 || bind(udp, (struct sockaddr *)&a, sizeof a) < 0) return perror("bind"), 1;
    ks_seed seed = {random_word(), random_word(), random_word()};
    if (ks_answerer_new(&server, 0, &seed) != KS_OK) return 1;
    for (;;) {
        ks_asked asked;
        int32_t answer;
        while ((answer = ks_answerer_tick(&server, now_ms(), &asked)) == KS_DONE || answer == KS_READY) {
            drop_ended();
            if (answer == KS_READY) respond(&asked);
        }
        send_all();
        struct pollfd wait = {.fd = udp, .events = POLLIN};
        if (poll(&wait, 1, wait_ms(now_ms())) > 0) receive_all();
    }
}
