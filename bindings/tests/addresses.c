/* addresses: the socket of ks_udp6.h. An answer leaves from the address that was asked, over IPv4 and IPv6; a peer that asks two
 * addresses is two peers; what is not for an end is dropped. Ends with status 0, or says what differs. */
#define _GNU_SOURCE
#include "answers.h"
#include "ks_udp6.h"
#include <poll.h>

#define WAIT_MS 60000
#define ROOM 64

static int udp;
static uint16_t port;
static uint8_t key[KS_UDP6_KEY], room[ROOM];

/* A socket of a peer of that family, at any port. */
static int peer_of(int family) {
    int fd = socket(family, SOCK_DGRAM | SOCK_CLOEXEC, 0);
    IS(fd >= 0, 1);
    return fd;
}

static socklen_t address(const char *text, uint16_t at, struct sockaddr_storage *out) {
    struct sockaddr_in *four = (struct sockaddr_in *)out;
    struct sockaddr_in6 *six = (struct sockaddr_in6 *)out;
    memset(out, 0, sizeof *out);
    if (inet_pton(AF_INET, text, &four->sin_addr) == 1) {
        four->sin_family = AF_INET;
        four->sin_port = htons(at);
        return sizeof *four;
    }
    IS(inet_pton(AF_INET6, text, &six->sin6_addr), 1);
    six->sin6_family = AF_INET6;
    six->sin6_port = htons(at);
    return sizeof *six;
}

static void send_to(int fd, const char *to, size_t len) {
    struct sockaddr_storage a;
    socklen_t a_len = address(to, port, &a);
    IS(sendto(fd, "0123456789", len, 0, (struct sockaddr *)&a, a_len), len);
}

static ssize_t receive(size_t room_len) {
    struct pollfd on = {.fd = udp, .events = POLLIN};
    IS(poll(&on, 1, WAIT_MS), 1);
    return ks_udp6_receive(udp, room, room_len, key);
}

/* An answer to the last peer comes from the address that it asked. */
static void answers(int fd, const char *from) {
    struct sockaddr_storage came, wants;
    socklen_t came_len = sizeof came, wants_len = address(from, port, &wants);
    struct pollfd on = {.fd = fd, .events = POLLIN};
    char text[8];
    ks_udp6_send(udp, key, "answer", 6);
    IS(poll(&on, 1, WAIT_MS), 1);
    IS(recvfrom(fd, text, sizeof text, 0, (struct sockaddr *)&came, &came_len), 6);
    IS(memcmp(text, "answer", 6), 0);
    IS(came_len, wants_len);
    if (came.ss_family == AF_INET) {
        IS(memcmp(&came, &wants, 8), 0);
    } else
        IS(memcmp(&((struct sockaddr_in6 *)&came)->sin6_addr, &((struct sockaddr_in6 *)&wants)->sin6_addr, 16), 0);
}

static void each_address(void) {
    static const char *const asked[] = {"127.0.0.1", "127.0.0.2", "::1"};
    uint8_t known[3][KS_UDP6_KEY];
    char text[KS_UDP6_TEXT], end[64];
    int four = peer_of(AF_INET), six = peer_of(AF_INET6);
    for (int i = 0; i < 3; i++) {
        int fd = i < 2 ? four : six;
        send_to(fd, asked[i], 4);
        IS(receive(ROOM), 4);
        IS(memcmp(room, "0123", 4), 0);
        memcpy(known[i], key, sizeof key);
        snprintf(end, sizeof end, " at %s%s", i < 2 ? "::ffff:" : "", asked[i]);
        ks_udp6_text(key, text);
        IS(strcmp(text + strlen(text) - strlen(end), end), 0);
        IS(memcmp(text, i < 2 ? "[::ffff:127.0.0." : "[::1]:", i < 2 ? 16 : 6), 0);
        answers(fd, asked[i]);
    }
    IS(memcmp(known[0], known[1], sizeof key) != 0, 1);
    send_to(four, asked[0], 4);
    IS(receive(ROOM), 4);
    IS(memcmp(known[0], key, sizeof key), 0);
    IS(ks_udp6_receive(udp, room, ROOM, key), KS_UDP6_NONE);
    send_to(four, asked[0], 5);
    IS(receive(4), KS_UDP6_DROP);
    close(four);
    close(six);
}

/* A datagram of IPv4 and UDP whose port is 0, by a raw socket, which not everybody may have. */
static void port_0(void) {
    uint8_t of_udp[12] = {0, 0, (uint8_t)(port >> 8), (uint8_t)port, 0, 12, 0, 0, 'g', 'e', 't', '!'};
    struct sockaddr_storage a;
    socklen_t a_len = address("127.0.0.1", 0, &a);
    int fd = socket(AF_INET, SOCK_RAW | SOCK_CLOEXEC, IPPROTO_UDP);
    if (fd < 0 || sendto(fd, of_udp, sizeof of_udp, 0, (struct sockaddr *)&a, a_len) != sizeof of_udp) {
        printf("port 0: not tried, for want of a raw socket; ");
        return;
    }
    IS(receive(ROOM), KS_UDP6_DROP);
    close(fd);
}

static struct in6_addr in6(const char *text) {
    struct in6_addr a;
    IS(inet_pton(AF_INET6, text, &a), 1);
    return a;
}

static void keys(void) {
    struct sockaddr_in6 peer = {.sin6_family = AF_INET6, .sin6_port = htons(5683), .sin6_scope_id = 3}, back;
    struct in6_pktinfo own = {.ipi6_ifindex = 3}, own_back;
    uint8_t other[KS_UDP6_KEY];
    char text[KS_UDP6_TEXT];
    peer.sin6_addr = in6("fe80::1");
    own.ipi6_addr = in6("fe80::2");
    ks_udp6_key(key, &peer, &own);
    IS(strcmp(ks_udp6_text(key, text), "[fe80::1%3]:5683 at fe80::2"), 0);
    ks_udp6_of(key, &back, &own_back);
    IS(memcmp(&peer, &back, sizeof peer), 0);
    IS(memcmp(&own, &own_back, sizeof own), 0);
    peer.sin6_scope_id = 4;
    ks_udp6_key(other, &peer, &own);
    IS(memcmp(key, other, sizeof key) != 0, 1);
    /* Elsewhere the link is no part of a peer. */
    peer.sin6_addr = in6("2001:db8::1");
    own.ipi6_addr = in6("2001:db8::2");
    ks_udp6_key(key, &peer, &own);
    own.ipi6_ifindex = 9;
    ks_udp6_key(other, &peer, &own);
    IS(memcmp(key, other, sizeof key), 0);
}

static void groups(void) {
    static const char *const are[] = {"ff02::1", "ff05::fd", "::ffff:224.0.1.187", "::ffff:239.255.255.255"};
    static const char *const are_not[] = {"::1", "fe80::1", "::ffff:223.255.255.255", "::ffff:240.0.0.0", "::ffff:127.0.0.1"};
    for (size_t i = 0; i < sizeof are / sizeof are[0]; i++) {
        struct in6_addr a = in6(are[i]);
        IS(ks_udp6_is_group(&a), 1);
    }
    for (size_t i = 0; i < sizeof are_not / sizeof are_not[0]; i++) {
        struct in6_addr a = in6(are_not[i]);
        IS(ks_udp6_is_group(&a), 0);
    }
}

int main(void) {
    struct sockaddr_in6 own;
    socklen_t own_len = sizeof own;
    keys();
    groups();
    IS(ks_udp6_open("127.0.0.1", 0), -1);
    udp = ks_udp6_open(NULL, 0);
    if (udp < 0) return printf("sockets: not tried: there is no IPv6\n"), 0;
    IS(getsockname(udp, (struct sockaddr *)&own, &own_len), 0);
    port = ntohs(own.sin6_port);
    each_address();
    port_0();
    close(udp);
    udp = ks_udp6_open("::1", 0);
    IS(udp >= 0, 1);
    close(udp);
    printf("each answer leaves from the address that was asked\n");
    return 0;
}
