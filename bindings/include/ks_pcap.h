/* ks_pcap.h: what goes in and out of an end as a capture that Wireshark and tshark read: classic pcap, LINKTYPE_RAW, with
 * made-up headers of IPv4 and UDP. Over DTLS there is no other way to see the messages. Where one side has port 5683, a
 * datagram is shown as CoAP. Write ks_pcap_head once, and then ks_pcap_packet and the bytes of each datagram. It calls
 * memcpy and memset alone. Nothing of this is proved. */
#ifndef KS_PCAP_H
#define KS_PCAP_H

#include "knifesilver.h"
#include <string.h>

#define KS_PCAP_HEAD 24         /* bytes at the front of a file */
#define KS_PCAP_PACKET 44       /* bytes before each datagram: 16 of the record, 20 of IPv4, 8 of UDP */
#define KS_PCAP_MOST 65507      /* bytes of a datagram that fit a packet of IPv4 */

/* Writes so many bytes of a number, the least significant first: where the next are to stand. */
static inline uint8_t *ks_pcap_little(uint8_t *at, uint32_t n, int bytes) {
    for (int i = 0; i < bytes; i++) *at++ = (uint8_t)(n >> 8 * i);
    return at;
}

/* Two bytes of a number, the most significant first. */
static inline uint8_t *ks_pcap_big(uint8_t *at, uint32_t n) {
    *at++ = (uint8_t)(n >> 8);
    *at++ = (uint8_t)n;
    return at;
}

static inline void ks_pcap_head(uint8_t room[KS_PCAP_HEAD]) {
    memset(room, 0, KS_PCAP_HEAD);
    ks_pcap_little(room, 0xa1b2c3d4u, 4);   /* times are in microseconds */
    ks_pcap_little(room + 4, 2, 2);
    ks_pcap_little(room + 6, 4, 2);
    ks_pcap_little(room + 16, 65535, 4);
    ks_pcap_little(room + 20, 101, 4);      /* LINKTYPE_RAW */
}

/* What stands in the file before the datagram's bytes, of which *kept follow: all, or KS_PCAP_MOST. The moment is in
 * microseconds since 1970. */
static inline void ks_pcap_packet(uint8_t room[KS_PCAP_PACKET], uint64_t us, const ks_address *from,
                                  const ks_address *to, size_t len, size_t *kept) {
    uint32_t size = len < KS_PCAP_MOST ? (uint32_t)len : KS_PCAP_MOST, sum = 0;
    uint8_t *at = ks_pcap_little(room, (uint32_t)(us / 1000000), 4), *ip;
    *kept = size;
    at = ks_pcap_little(at, (uint32_t)(us % 1000000), 4);
    at = ks_pcap_little(at, size + 28, 4);
    ip = at = ks_pcap_little(at, size + 28, 4);
    at = ks_pcap_big(at, 0x4500);           /* version 4, five words */
    at = ks_pcap_big(at, size + 28);
    at = ks_pcap_big(at, 0);
    at = ks_pcap_big(at, 0x4000);           /* not to be cut */
    at = ks_pcap_big(at, 64 << 8 | 17);     /* 64 hops, UDP */
    at = ks_pcap_big(at, 0);
    memcpy(at, from->ip, 4);
    memcpy(at + 4, to->ip, 4);
    for (int i = 0; i < 20; i += 2) sum += (uint32_t)ip[i] << 8 | ip[i + 1];
    sum = (sum & 0xffff) + (sum >> 16);
    ks_pcap_big(ip + 10, ~((sum & 0xffff) + (sum >> 16)) & 0xffff);
    at = ks_pcap_big(at + 8, from->port);
    at = ks_pcap_big(at, to->port);
    at = ks_pcap_big(at, size + 8);
    ks_pcap_big(at, 0);                     /* no checksum of UDP */
}

#endif
