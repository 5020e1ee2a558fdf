/* lock_sockets: four clients of one server, each end with a socket of 127.0.0.1, and one clock. Each takes a lock,
 * gives it back, and writes a counter, until the lock was taken 20 times or a few more: never do two hold it, and the
 * counter ends at as many. So what locks.c shows in made-up time is seen over sockets, too. Ends with status 0, or says
 * what differs. */
#include "both_ends.h"
#include <arpa/inet.h>
#include <poll.h>
#include <sys/socket.h>
#include <time.h>
#include <unistd.h>

#define CLIENTS 4
#define TIMES 20                /* no lock is taken anew after so many */
#define WAIT_MS 5
#define MOST_MS 60000u
#define UNMET 0x8c              /* 4.12 */

/* What a client asks for, in this order; where a condition is not met, it tries again. */
enum step { TAKE, SEE, GIVE, READ, WRITE };

struct end {
    ks_client client;
    int udp;
    enum step step;
    ks_tag tag;
    uint8_t count;
};

static struct end ends[CLIENTS];
static int of_server, holders, taken, written, refused;
static ks_address at_server;

static uint64_t clock_ms(void) {
    struct timespec t;
    clock_gettime(CLOCK_MONOTONIC, &t);
    return (uint64_t)t.tv_sec * 1000 + (uint64_t)t.tv_nsec / 1000000;
}

static int open_socket(ks_address *at) {
    struct sockaddr_in a = {.sin_family = AF_INET, .sin_addr.s_addr = htonl(INADDR_LOOPBACK)};
    socklen_t len = sizeof a;
    int udp = socket(AF_INET, SOCK_DGRAM | SOCK_NONBLOCK, 0);
    IS(udp >= 0 && bind(udp, (struct sockaddr *)&a, sizeof a) == 0, 1);
    IS(getsockname(udp, (struct sockaddr *)&a, &len), 0);
    *at = (ks_address){{127, 0, 0, 1}, ntohs(a.sin_port)};
    return udp;
}

static void send_from(int udp, ks_address to, size_t len) {
    struct sockaddr_in a = {.sin_family = AF_INET, .sin_port = htons(to.port)};
    memcpy(&a.sin_addr, to.ip, sizeof to.ip);
    (void)!sendto(udp, datagram, len, 0, (struct sockaddr *)&a, sizeof a);
}

/* Takes a datagram that is there: whether one is. */
static bool receive(int udp, ks_address *from, size_t *len) {
    struct sockaddr_in a;
    socklen_t a_len = sizeof a;
    ssize_t got = recvfrom(udp, datagram, sizeof datagram, 0, (struct sockaddr *)&a, &a_len);
    if (got < 0) return false;
    memcpy(from->ip, &a.sin_addr, sizeof from->ip);
    from->port = ntohs(a.sin_port);
    *len = (size_t)got;
    return true;
}

static void ask(struct end *it, enum step step) {
    static const uint8_t methods[] = {KS_PUT, KS_GET, KS_DELETE, KS_GET, KS_PUT};
    const ks_request what = {KS_NO_FORMAT, KS_NO_FORMAT, methods[step], step == TAKE};
    uint8_t body = step == WRITE ? it->count + 1 : (uint8_t)(it - ends);
    uint64_t id;
    it->step = step;
    IS(ks_client_call(&it->client, now, &what, step < READ ? "lock" : "many", 4, &body, methods[step] == KS_PUT, NONE,
                      &it->tag, step == GIVE || step == WRITE, &id), KS_OK);
}

static void goes_on(struct end *it, const ks_report *r) {
    bool unmet = r->kind == KS_FAILED && r->code == UNMET && (it->step == TAKE || it->step == WRITE);
    IS(r->kind == KS_BODY || r->kind == KS_SUCCESS || unmet, 1);
    refused += unmet;
    if (r->kind == KS_BODY) memcpy(it->tag.bytes, r->tag, it->tag.len = r->tag_len);
    if (r->kind == KS_BODY) it->count = room[0];
    switch (it->step) {
    case TAKE:
        if (!unmet) IS(holders++, 0);
        ask(it, unmet ? TAKE : SEE);
        break;
    case SEE:
        IS(room[0], it - ends);
        holders--;
        taken++;
        ask(it, GIVE);
        break;
    case GIVE: ask(it, READ); break;
    case READ: ask(it, WRITE); break;
    case WRITE:
        written += !unmet;
        if (unmet) ask(it, READ);
        else if (taken + holders < TIMES) ask(it, TAKE);
    }
}

static void turn_of(struct end *it) {
    ks_address to;
    ks_report r;
    size_t len;
    while (receive(it->udp, &to, &len)) IS(ks_client_feed(&it->client, now, &to, datagram, len, word()), KS_OK);
    while (ks_client_next_report(&it->client, &r, room, sizeof room) == KS_DONE) goes_on(it, &r);
    while (ks_client_tick(&it->client, now, word()) == KS_DONE) {}
    while (ks_client_next_out(&it->client, &to, datagram, sizeof datagram, &len) == KS_DONE)
        send_from(it->udp, to, len);
}

static void turn_of_server(void) {
    ks_address to;
    size_t len;
    while (receive(of_server, &to, &len)) IS(ks_server_feed(&server, now, &to, datagram, len, 0), KS_OK);
    while (ks_server_tick(&server, now, word()) == KS_DONE) {}
    while (ks_server_next_out(&server, &to, datagram, sizeof datagram, &len) == KS_DONE) send_from(of_server, to, len);
}

int main(void) {
    ks_config usual = {0};
    struct pollfd polled[CLIENTS + 1];
    ks_representation shown;
    uint64_t version, first = now = clock_ms();
    of_server = open_socket(&at_server);
    polled[CLIENTS] = (struct pollfd){.fd = of_server, .events = POLLIN};
    IS(ks_server_new(&server, &usual, &(ks_seed){1, 2, 3}), KS_OK);
    IS(ks_server_set(&server, now, P("many"), KS_NO_FORMAT, "", 1, &version), KS_OK);
    for (uint64_t i = 0; i < CLIENTS; i++) {
        ks_address own;
        ends[i].udp = open_socket(&own);
        polled[i] = (struct pollfd){.fd = ends[i].udp, .events = POLLIN};
        IS(ks_client_new(&ends[i].client, &at_server, &usual, &(ks_seed){i, i, i}), KS_OK);
        ask(&ends[i], TAKE);
    }
    for (; written < taken || taken < TIMES; now = clock_ms()) {
        IS(now < first + MOST_MS, 1);
        for (int i = 0; i < CLIENTS; i++) turn_of(&ends[i]);
        turn_of_server();
        poll(polled, CLIENTS + 1, WAIT_MS);
    }
    IS(ks_server_get(&server, P("many"), &shown, room, sizeof room), KS_DONE);
    IS(room[0], written);
    printf("over sockets the lock was taken %d times, and the counter is %d; %d tries were refused; %d ms\n", taken,
           room[0], refused, (int)(now - first));
    for (int i = 0; i < CLIENTS; i++) close(ends[i].udp), ks_client_free(&ends[i].client);
    close(of_server);
    ks_server_free(&server);
    return 0;
}
