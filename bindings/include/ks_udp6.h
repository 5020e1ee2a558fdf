/* ks_udp6.h: a UDP socket for IPv6 and IPv4 at once, for a host with several addresses. Each datagram comes with the
 * address that it was sent to, and its answer leaves from there: Message IDs are told apart by source and destination
 * (RFC 7252, section 4.4), so both together are a peer. A peer is KS_UDP6_KEY bytes, of which no two peers have the same;
 * an IPv4 address is ::ffff:a.b.c.d there. An end knows peers by ks_address alone: give each key one, and take it back
 * when nothing has come from it or gone to it for 247 s. Linux; define _GNU_SOURCE first. Nothing of this is proved. */
#ifndef KS_UDP6_H
#define KS_UDP6_H

#include <arpa/inet.h>
#include <netinet/in.h>
#include <stdbool.h>
#include <stdint.h>
#include <stdio.h>
#include <string.h>
#include <sys/socket.h>
#include <unistd.h>

#define KS_UDP6_KEY 42      /* 16 of the peer's address, 2 of its port, 4 of its scope, 16 of the own address, 4 of its link */
#define KS_UDP6_NONE (-1)   /* no datagram is there now */
#define KS_UDP6_DROP (-2)   /* one came that is not for an end */
#define KS_UDP6_TEXT 128    /* no text of a peer is longer */

/* Scope and link count for link-local addresses alone: elsewhere routes may change them, and the peer stays the same. */
static inline void ks_udp6_key(uint8_t key[KS_UDP6_KEY], const struct sockaddr_in6 *peer, const struct in6_pktinfo *own) {
    uint32_t scope = IN6_IS_ADDR_LINKLOCAL(&peer->sin6_addr) ? peer->sin6_scope_id : 0;
    uint32_t link = IN6_IS_ADDR_LINKLOCAL(&own->ipi6_addr) ? (uint32_t)own->ipi6_ifindex : 0;
    memcpy(key, &peer->sin6_addr, 16);
    memcpy(key + 16, &peer->sin6_port, 2);
    memcpy(key + 18, &scope, 4);
    memcpy(key + 22, &own->ipi6_addr, 16);
    memcpy(key + 38, &link, 4);
}

static inline void ks_udp6_of(const uint8_t key[KS_UDP6_KEY], struct sockaddr_in6 *peer, struct in6_pktinfo *own) {
    uint32_t link;
    memset(peer, 0, sizeof *peer);
    memset(own, 0, sizeof *own);
    peer->sin6_family = AF_INET6;
    memcpy(&peer->sin6_addr, key, 16);
    memcpy(&peer->sin6_port, key + 16, 2);
    memcpy(&peer->sin6_scope_id, key + 18, 4);
    memcpy(&own->ipi6_addr, key + 22, 16);
    memcpy(&link, key + 38, 4);
    own->ipi6_ifindex = link;
}

/* A socket of all addresses of the host (`at` NULL or "::"), or of one: its descriptor, or -1, with errno. */
static inline int ks_udp6_open(const char *at, uint16_t port) {
    struct sockaddr_in6 a;
    int no = 0, yes = 1;
    memset(&a, 0, sizeof a);
    a.sin6_family = AF_INET6;
    a.sin6_port = htons(port);
    if (at != NULL && inet_pton(AF_INET6, at, &a.sin6_addr) != 1) return -1;
    int fd = socket(AF_INET6, SOCK_DGRAM | SOCK_NONBLOCK | SOCK_CLOEXEC, 0);
    if (fd < 0) return -1;
    if (setsockopt(fd, IPPROTO_IPV6, IPV6_V6ONLY, &no, sizeof no) == 0
        && setsockopt(fd, IPPROTO_IPV6, IPV6_RECVPKTINFO, &yes, sizeof yes) == 0
        && bind(fd, (struct sockaddr *)&a, sizeof a) == 0)
        return fd;
    close(fd);
    return -1;
}

/* Whether an address is that of a group, of IPv6 or of IPv4. */
static inline bool ks_udp6_is_group(const struct in6_addr *a) {
    return IN6_IS_ADDR_MULTICAST(a) || (IN6_IS_ADDR_V4MAPPED(a) && (a->s6_addr[12] & 0xf0) == 0xe0);
}

union ks_udp6_control {
    struct cmsghdr head;
    uint8_t bytes[CMSG_SPACE(sizeof(struct in6_pktinfo))];
};

/* One datagram, whose peer and control message are to be read or written. */
static inline struct msghdr ks_udp6_message(struct sockaddr_in6 *peer, struct iovec *io, union ks_udp6_control *control) {
    struct msghdr m;
    memset(&m, 0, sizeof m);
    memset(control, 0, sizeof *control);
    m.msg_name = peer;
    m.msg_namelen = sizeof *peer;
    m.msg_iov = io;
    m.msg_iovlen = 1;
    m.msg_control = control;
    m.msg_controllen = sizeof *control;
    return m;
}

/* The next datagram and whose it is: its length, KS_UDP6_NONE or KS_UDP6_DROP. Dropped is one from port 0, which cannot
 * be answered; one to a group, which is not for an end (RFC 7252, section 8); and one that is longer than the room. */
static inline ssize_t ks_udp6_receive(int fd, void *room, size_t room_len, uint8_t key[KS_UDP6_KEY]) {
    struct sockaddr_in6 peer;
    struct in6_pktinfo own;
    union ks_udp6_control control;
    struct iovec io = {room, room_len};
    struct msghdr m = ks_udp6_message(&peer, &io, &control);
    memset(&own, 0, sizeof own);
    ssize_t len = recvmsg(fd, &m, 0);
    if (len < 0) return KS_UDP6_NONE;
    for (struct cmsghdr *c = CMSG_FIRSTHDR(&m); c != NULL; c = CMSG_NXTHDR(&m, c))
        if (c->cmsg_level == IPPROTO_IPV6 && c->cmsg_type == IPV6_PKTINFO) memcpy(&own, CMSG_DATA(c), sizeof own);
    if (peer.sin6_port == 0 || (m.msg_flags & MSG_TRUNC) != 0 || ks_udp6_is_group(&own.ipi6_addr)) return KS_UDP6_DROP;
    ks_udp6_key(key, &peer, &own);
    return len;
}

/* Sends to a peer, from the address that it asked. What the socket does not take is lost, as on the way. */
static inline void ks_udp6_send(int fd, const uint8_t key[KS_UDP6_KEY], const void *bytes, size_t len) {
    struct sockaddr_in6 peer;
    struct in6_pktinfo own;
    union ks_udp6_control control;
    struct iovec io = {(void *)(uintptr_t)bytes, len};
    struct msghdr m = ks_udp6_message(&peer, &io, &control);
    ks_udp6_of(key, &peer, &own);
    control.head.cmsg_level = IPPROTO_IPV6;
    control.head.cmsg_type = IPV6_PKTINFO;
    control.head.cmsg_len = CMSG_LEN(sizeof own);
    memcpy(CMSG_DATA(&control.head), &own, sizeof own);
    (void)!sendmsg(fd, &m, 0);
}

/* "[fe80::1%3]:5683 at fe80::2": a peer, and the own address that it asked. */
static inline const char *ks_udp6_text(const uint8_t key[KS_UDP6_KEY], char text[KS_UDP6_TEXT]) {
    struct sockaddr_in6 peer;
    struct in6_pktinfo own;
    char a[INET6_ADDRSTRLEN], b[INET6_ADDRSTRLEN], scope[16] = "";
    ks_udp6_of(key, &peer, &own);
    inet_ntop(AF_INET6, &peer.sin6_addr, a, sizeof a);
    inet_ntop(AF_INET6, &own.ipi6_addr, b, sizeof b);
    if (peer.sin6_scope_id != 0) snprintf(scope, sizeof scope, "%%%u", (unsigned)peer.sin6_scope_id);
    snprintf(text, KS_UDP6_TEXT, "[%s%s]:%u at %s", a, scope, (unsigned)ntohs(peer.sin6_port), b);
    return text;
}

#endif
