/* echo PORT: answers each datagram by itself, as a piggybacked 2.05 with its Message ID and token: what the two system
 * calls of an answer take, with no end of CoAP. */
#include <arpa/inet.h>
#include <stdint.h>
#include <stdlib.h>
#include <sys/socket.h>

enum { LONGEST = 2048, HEAD_LEN = 4, ACK_BITS = 0x60, TOKEN_BITS = 0x0f, CONTENT = 0x45 };

int main(int argc, char **argv) {
    if (argc != 2) return 2;
    struct sockaddr_in peer, at = {.sin_family = AF_INET, .sin_port = htons((uint16_t)atoi(argv[1])),
                                   .sin_addr = {htonl(INADDR_LOOPBACK)}};
    int udp = socket(AF_INET, SOCK_DGRAM, 0);
    if (udp < 0 || bind(udp, (struct sockaddr *)&at, sizeof at) != 0) return 1;
    for (;;) {
        uint8_t bytes[LONGEST];
        socklen_t peer_len = sizeof peer;
        ssize_t len = recvfrom(udp, bytes, sizeof bytes, 0, (struct sockaddr *)&peer, &peer_len);
        if (len < HEAD_LEN) continue;
        bytes[0] = (uint8_t)(ACK_BITS | (bytes[0] & TOKEN_BITS));
        bytes[1] = CONTENT;
        (void)!sendto(udp, bytes, (size_t)len, 0, (struct sockaddr *)&peer, peer_len);
    }
}
