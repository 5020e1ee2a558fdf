/* passing.c: what goes between the network and the program, sealed and opened. */
#include "seal.h"
#include <errno.h>
#include <poll.h>
#include <signal.h>
#include <stdlib.h>
#include <sys/wait.h>
#include <time.h>

enum { LOOK_MS = 1000, MOST_SESSIONS = 256, A_GROUP = 250, FAILED = 3, BY_SIGNAL = 128 };

static uint8_t datagram[DATAGRAM_ROOM];
static ks_oscore_datagram out;

static uint64_t now_ms(void) {
    struct timespec t;
    clock_gettime(CLOCK_BOOTTIME, &t);
    return (uint64_t)t.tv_sec * 1000 + (uint64_t)t.tv_nsec / 1000000;
}

static int inside_bind(struct sockaddr_in *at) {
    socklen_t len = sizeof *at;
    int fd = socket(AF_INET, SOCK_DGRAM | SOCK_NONBLOCK | SOCK_CLOEXEC, 0);
    if (fd < 0 || bind(fd, (struct sockaddr *)at, sizeof *at) != 0
        || getsockname(fd, (struct sockaddr *)at, &len) != 0) {
        fprintf(stderr, "coap-seal: the inside: %s\n", strerror(errno));
        if (fd >= 0) close(fd);
        return -1;
    }
    return fd;
}

uint16_t inside_open(session *s) {
    struct sockaddr_in at = {.sin_family = AF_INET, .sin_addr.s_addr = htonl(INADDR_LOOPBACK)};
    s->inside = inside_bind(&at);
    return s->inside < 0 ? 0 : ntohs(at.sin_port);
}

bool inside_connect(session *s, size_t place, uint16_t port) {
    uint32_t own = INADDR_LOOPBACK + (uint32_t)((place / A_GROUP + 1) << 8) + (uint32_t)(place % A_GROUP);
    struct sockaddr_in at = {.sin_family = AF_INET, .sin_addr.s_addr = htonl(own)};
    struct sockaddr_in to = {.sin_family = AF_INET, .sin_addr.s_addr = htonl(INADDR_LOOPBACK), .sin_port = htons(port)};
    s->inside = inside_bind(&at);
    return s->inside >= 0 && connect(s->inside, (struct sockaddr *)&to, sizeof to) == 0;
}

static bool is_fed(int32_t answer) {
    return answer == KS_DONE || answer == KS_OSCORE_COPY || answer == KS_OSCORE_PASSED;
}

/* Whether a context can go on after this answer. What is lost is told, but for what a stranger may send. */
static bool goes_on(int32_t answer) {
    if (answer != KS_OSCORE_FILE_FAILED && answer != KS_OSCORE_SPENT) return true;
    fprintf(stderr, "coap-seal: %s\n", ks_oscore_text(answer));
    return false;
}

/* Seals what the program has out. */
static bool pass_out(session *s, int outside, size_t len) {
    int32_t answer = ks_oscore_seal(s->oscore, now_ms(), datagram, len, &out);
    bool goes_out = answer == KS_DONE || answer == KS_OSCORE_PASSED;
    if (goes_out && s->is_connected) (void)!send(outside, out.bytes, out.len, 0);
    if (goes_out && s->has_peer) ks_udp6_send(outside, s->peer, out.bytes, out.len);
    return goes_on(answer);
}

/* Waits until one of these has something, and for a while at most: false where the program ended, with its status. */
static bool await(struct pollfd *fds, size_t count, pid_t program, int *status) {
    int is;
    if (poll(fds, (nfds_t)count, LOOK_MS) < 0 && errno != EINTR) return *status = FAILED, false;
    if (waitpid(program, &is, WNOHANG) != program) return true;
    *status = WIFEXITED(is) ? WEXITSTATUS(is) : BY_SIGNAL + WTERMSIG(is);
    return false;
}

/* What the client's program has out, from its own socket alone. */
static bool client_out(session *s, int outside, pid_t program, struct sockaddr_in *inside) {
    struct sockaddr_in from;
    for (;;) {
        socklen_t from_len = sizeof from;
        ssize_t len = recvfrom(s->inside, datagram, sizeof datagram, 0, (struct sockaddr *)&from, &from_len);
        if (len < 0) return true;
        bool is_known = from.sin_port == inside->sin_port && from.sin_addr.s_addr == inside->sin_addr.s_addr;
        if (!is_known && !program_has_port(program, ntohs(from.sin_port))) continue;
        *inside = from;
        if (!pass_out(s, outside, (size_t)len)) return false;
    }
}

static bool client_in(session *s, int outside, const struct sockaddr_in *inside) {
    for (ssize_t len; (len = recv(outside, datagram, sizeof datagram, 0)) >= 0;) {
        int32_t answer = ks_oscore_open(s->oscore, now_ms(), datagram, (size_t)len, &out);
        if (!goes_on(answer)) return false;
        if (answer == KS_OSCORE_UNPROTECTED_RESPONSE)
            fprintf(stderr, "coap-seal: dropped: %s\n", ks_oscore_text(answer));
        if (is_fed(answer) && inside->sin_port != 0)
            (void)!sendto(s->inside, out.bytes, out.len, 0, (const struct sockaddr *)inside, sizeof *inside);
    }
    return true;
}

int seal_client(session *s, int outside, pid_t program) {
    struct sockaddr_in inside = {0};
    struct pollfd fds[] = {{s->inside, POLLIN, 0}, {outside, POLLIN, 0}};
    int status = FAILED;
    bool runs = true;
    while (runs) {
        runs = await(fds, 2, program, &status);
        if (!client_out(s, outside, program, &inside) || !client_in(s, outside, &inside)) {
            kill(program, SIGTERM);
            return FAILED;
        }
    }
    return status;
}

static session *session_of(session *sessions, size_t count, const uint8_t from[KS_UDP6_KEY]) {
    for (size_t i = 0; i < count; i++)
        if (sessions[i].has_peer && memcmp(sessions[i].peer, from, KS_UDP6_KEY) == 0) return &sessions[i];
    return NULL;
}

/* Whose datagram it is: the context that a request names, or the one of this address. */
static session *session_named(session *sessions, size_t count, size_t len, const uint8_t from[KS_UDP6_KEY]) {
    ks_oscore *contexts[MOST_SESSIONS];
    for (size_t i = 0; i < count; i++) contexts[i] = sessions[i].oscore;
    size_t named = ks_oscore_named(contexts, count, datagram, len);
    return named < count ? &sessions[named] : session_of(sessions, count, from);
}

static void refuse(int outside, const uint8_t from[KS_UDP6_KEY], size_t len) {
    uint8_t room[KS_REFUSAL_ROOM];
    size_t room_len;
    if (ks_refuse(datagram, len, KS_OSCORE_UNAUTHORIZED, room, sizeof room, &room_len) == KS_DONE)
        ks_udp6_send(outside, from, room, room_len);
}

static bool server_in(session *sessions, size_t count, int outside) {
    uint8_t from[KS_UDP6_KEY];
    for (ssize_t len; (len = ks_udp6_receive(outside, datagram, sizeof datagram, from)) != KS_UDP6_NONE;) {
        if (len < 0) continue;
        session *s = session_named(sessions, count, (size_t)len, from);
        session *by = s != NULL ? s : &sessions[0];
        int32_t answer = ks_oscore_open(by->oscore, now_ms(), datagram, (size_t)len, &out);
        if (!goes_on(answer)) return false;
        if (answer == KS_OSCORE_UNPROTECTED_REQUEST) refuse(outside, from, (size_t)len);
        if (s == NULL || !is_fed(answer)) continue;
        if (answer == KS_DONE) {
            memcpy(s->peer, from, sizeof from);
            s->has_peer = true;
        }
        (void)!send(s->inside, out.bytes, out.len, 0);
    }
    return true;
}

int seal_server(session *sessions, size_t count, int outside, pid_t program) {
    struct pollfd fds[MOST_SESSIONS + 1] = {{outside, POLLIN, 0}};
    int status = FAILED;
    for (size_t i = 0; i < count; i++) fds[i + 1] = (struct pollfd){sessions[i].inside, POLLIN, 0};
    while (await(fds, count + 1, program, &status)) {
        bool goes = server_in(sessions, count, outside);
        for (size_t i = 0; i < count && goes; i++)
            for (ssize_t len; goes && (len = recv(sessions[i].inside, datagram, sizeof datagram, 0)) >= 0;)
                goes = pass_out(&sessions[i], outside, (size_t)len);
        if (!goes) {
            kill(program, SIGTERM);
            return FAILED;
        }
    }
    return status;
}
