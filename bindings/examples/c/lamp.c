/* lamp serve PORT [FILE]: a CoAP server of a lamp, coap://127.0.0.1:PORT/lamp, which a client switches by a PUT of "on"
 *     or "off". A request is carried out half a second later, once, whatever is repeated on the way, and answered then.
 *     The lamp follows what its path holds. With a FILE the server keeps a journal: it may be killed at any moment.
 * lamp switch PORT on|off: the client that switches it. It says what became of the request, and ends with status 0 where
 *     the lamp was switched, 1 where it was not, and 3 where nobody knows. */
#include "ks_journal.h"
#include <arpa/inet.h>
#include <poll.h>
#include <sys/random.h>
#include <sys/socket.h>

static int udp;
static uint8_t buffer[65536];
static ks_file file = {.fd = -1};

static uint64_t now_ms(void) {
    struct timespec t;
    if (file.fd >= 0) return ks_file_now(&file);
    clock_gettime(CLOCK_MONOTONIC, &t);
    return (uint64_t)t.tv_sec * 1000 + (uint64_t)t.tv_nsec / 1000000;
}

static uint64_t random_word(void) {
    uint64_t word;
    if (getrandom(&word, sizeof word, 0) != sizeof word) exit(1);
    return word;
}

static bool open_socket(uint16_t port) {
    struct sockaddr_in a = {.sin_family = AF_INET, .sin_port = htons(port), .sin_addr = {htonl(INADDR_LOOPBACK)}};
    udp = socket(AF_INET, SOCK_DGRAM, 0);
    if (udp >= 0 && bind(udp, (struct sockaddr *)&a, sizeof a) == 0) return true;
    return perror("bind"), false;
}

static void send_to(ks_address to, size_t len) {
    struct sockaddr_in a = {.sin_family = AF_INET, .sin_port = htons(to.port)};
    memcpy(&a.sin_addr, to.ip, 4);
    (void)!sendto(udp, buffer, len, 0, (struct sockaddr *)&a, sizeof a);
}

/* Waits for a datagram until the moment: how many bytes it has, in the buffer, or -1. */
static ssize_t receive(bool until, uint64_t at, ks_address *from) {
    uint64_t now = now_ms();
    struct pollfd on = {.fd = udp, .events = POLLIN};
    int wait = !until ? -1 : at <= now ? 0 : at - now < 60000 ? (int)(at - now) : 60000;
    struct sockaddr_in a;
    socklen_t a_len = sizeof a;
    if (poll(&on, 1, wait) <= 0) return -1;
    ssize_t len = recvfrom(udp, buffer, sizeof buffer, MSG_DONTWAIT, (struct sockaddr *)&a, &a_len);
    if (len >= 0) memcpy(from->ip, &a.sin_addr, 4), from->port = ntohs(a.sin_port);
    return len;
}

static bool is_on; /* what the lamp is; a real one is asked, as the level of its relay's pin */

/* Switches the lamp where it isn't what the path holds. It hangs on what is held, and not on the telling of
 * ks_server_applied: that is told once, and lost with a program that ends before it has acted on it. */
static void follow(ks_server *server) {
    ks_representation lamp = {0};
    if (ks_server_get(server, "lamp", 4, &lamp, buffer, sizeof buffer) != KS_DONE) return;
    bool wanted = lamp.body_len == 2 && memcmp(buffer, "on", 2) == 0;
    if (wanted != is_on) printf("switched %s\n", wanted ? "on" : "off"), fflush(stdout);
    is_on = wanted;
}

/* The lamp is switched, and datagrams go out, only once what was taken is in the journal. */
static int serve(const ks_config *config, const ks_seed *seed, uint16_t port, const char *journal) {
    ks_server server = {0};
    ks_address peer;
    uint64_t at = 0;
    size_t len;
    if (!ks_file_start(&file, &server, journal, config, seed) || !open_socket(port)) return 2;
    for (ks_server_set_delay(&server, "lamp", 4, 500);;) {
        if (file.fd >= 0 && ks_file_keep(&file, &server) != KS_OK) return perror("the journal"), 1;
        follow(&server);
        while (ks_server_next_out(&server, &peer, buffer, sizeof buffer, &len) == KS_DONE) send_to(peer, len);
        bool until = ks_server_due(&server, &at) == KS_DONE;
        ssize_t got = receive(until, at, &peer);
        if (got >= 0) ks_server_feed(&server, now_ms(), &peer, buffer, (size_t)got, 0);
        while (ks_server_tick(&server, now_ms(), random_word()) == KS_DONE) {}
    }
}

static int switch_it(const ks_config *config, const ks_seed *seed, ks_address to, const char *state) {
    ks_client client = {0};
    ks_request put = {.format = 0, .accept = KS_NO_FORMAT, .method = KS_PUT};
    ks_report report;
    ks_tag none = {0};
    ks_address peer;
    uint64_t id, at = 0;
    size_t len;
    if (ks_client_new(&client, &to, config, seed) != KS_OK) return 2;
    if (ks_client_call(&client, now_ms(), &put, "lamp", 4, state, strlen(state), &none, 0, &none, 0, &id) != KS_OK) return 2;
    for (;;) {
        while (ks_client_tick(&client, now_ms(), random_word()) == KS_DONE) {}
        while (ks_client_next_out(&client, &peer, buffer, sizeof buffer, &len) == KS_DONE) send_to(peer, len);
        if (ks_client_next_report(&client, &report, buffer, sizeof buffer) == KS_DONE) break;
        bool until = ks_client_due(&client, &at) == KS_DONE;
        ssize_t got = receive(until, at, &peer);
        if (got >= 0) ks_client_feed(&client, now_ms(), &peer, buffer, (size_t)got, random_word());
    }
    ks_client_free(&client);
    if (report.kind == KS_SUCCESS) return puts("the lamp was switched once"), 0;
    if (report.kind == KS_FAILED) return printf("not switched: %d.%02d\n", report.code >> 5, report.code & 31), 1;
    return printf("perhaps switched: report %d\n", report.kind), 3;
}

int main(int argc, char **argv) {
    bool serves = argc > 2 && argc < 5 && strcmp(argv[1], "serve") == 0;
    if (!serves && (argc != 4 || strcmp(argv[1], "switch") != 0))
        return fprintf(stderr, "lamp serve PORT [FILE] | lamp switch PORT on|off\n"), 2;
    if (ks_version() != KS_VERSION) return fprintf(stderr, "the library is not the header's\n"), 2;
    uint16_t port = (uint16_t)atoi(argv[2]);
    ks_config config = {.size = sizeof config, .base = ks_base(random_word())};
    ks_seed seed = {random_word(), random_word(), random_word()};
    if (serves) return serve(&config, &seed, port, argc == 4 ? argv[3] : NULL);
    return !open_socket(0) ? 2 : switch_it(&config, &seed, (ks_address){{127, 0, 0, 1}, port}, argv[3]);
}
