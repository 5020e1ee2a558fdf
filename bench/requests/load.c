/* load PORT PATH OUTSTANDING COUNT: sends COUNT Confirmable GETs of coap://127.0.0.1:PORT/PATH, of which OUTSTANDING await
 * their answer at a time, and prints how many were answered 2.05, how many a second, and after how many microseconds: half
 * of them, 99 in 100, and the last one at most. */
#include <arpa/inet.h>
#include <poll.h>
#include <stdint.h>
#include <stdio.h>
#include <stdlib.h>
#include <string.h>
#include <sys/socket.h>
#include <time.h>
#include <unistd.h>

enum { LONGEST_PATH = 12, SILENCE_MS = 2000, TOKEN_LEN = 2, HEAD_LEN = 4, MESSAGE_IDS = 65536 };
static const double us_per_s = 1e6;

static double asked_at[MESSAGE_IDS], took[MESSAGE_IDS];

static double now(void) {
    struct timespec t;
    clock_gettime(CLOCK_MONOTONIC, &t);
    return (double)t.tv_sec + (double)t.tv_nsec / 1e9;
}

static int by_size(const void *a, const void *b) {
    double x = *(const double *)a, y = *(const double *)b;
    return (x > y) - (x < y);
}

/* After how many microseconds so many in 100 were answered. */
static double percentile(long answered, long percent) {
    if (answered == 0) return 0;
    long at = answered * percent / 100;
    return took[at < answered ? at : answered - 1] * us_per_s;
}

/* A GET with its number as Message ID and token (RFC 7252, section 3). */
static void ask(int udp, uint16_t number, const char *path) {
    size_t len = strlen(path);
    uint8_t out[HEAD_LEN + TOKEN_LEN + 1 + LONGEST_PATH] = {
        0x40 | TOKEN_LEN, 0x01, (uint8_t)(number >> 8), (uint8_t)number, (uint8_t)(number >> 8), (uint8_t)number,
        (uint8_t)(0xb0 | len)};
    memcpy(out + HEAD_LEN + TOKEN_LEN + 1, path, len);
    asked_at[number] = now();
    if (send(udp, out, HEAD_LEN + TOKEN_LEN + 1 + len, 0) < 0) exit(1);
}

int main(int argc, char **argv) {
    if (argc != 5 || strlen(argv[2]) > LONGEST_PATH) return 2;
    const char *path = argv[2];
    long outstanding = atol(argv[3]), count = atol(argv[4]), sent = 0, answered = 0, good = 0;
    struct sockaddr_in to = {.sin_family = AF_INET, .sin_port = htons((uint16_t)atoi(argv[1]))};
    to.sin_addr.s_addr = htonl(INADDR_LOOPBACK);
    int udp = socket(AF_INET, SOCK_DGRAM, 0);
    if (udp < 0 || connect(udp, (struct sockaddr *)&to, sizeof to) != 0) return 1;
    double began = now(), ended = began;
    while (answered < count) {
        while (sent < count && sent - answered < outstanding) ask(udp, (uint16_t)sent++, path);
        struct pollfd wait = {.fd = udp, .events = POLLIN};
        if (poll(&wait, 1, SILENCE_MS) <= 0) break;
        uint8_t in[2048];
        ssize_t len = recv(udp, in, sizeof in, 0);
        if (len < HEAD_LEN) continue;
        ended = now();
        took[answered % MESSAGE_IDS] = ended - asked_at[in[2] << 8 | in[3]];
        answered++;
        good += in[0] == (0x60 | TOKEN_LEN) && in[1] == 0x45;
    }
    long told = answered < MESSAGE_IDS ? answered : MESSAGE_IDS;
    qsort(took, (size_t)told, sizeof *took, by_size);
    printf("%ld of %ld, %.0f/s, %.0f %.0f %.0f us\n", good, count, (double)good / (ended - began), percentile(told, 50),
           percentile(told, 99), percentile(told, 100));
    return 0;
}
