/* coap_seal.c: OSCORE for a program that has none, on Linux.
 *
 *     coap-seal --draw CLIENT SERVER                               draws keys, for two ends, into these files
 *     coap-seal --oscore KEYS -- coap get coap://host/path         a client: its first coap:// is what it asks
 *     coap-seal --oscore KEYS.. --listen PORT -- coap serve INSIDE a server: its first number is its port
 *
 * It starts the program, seals what that sends, and hands it what opened. To a server each KEYS is a client at an
 * address of 127.0.1.0 on. Its status is the program's; 2 where it is not started, 3 where a file of numbers fails. */
#include "seal.h"
#include <errno.h>
#include <netdb.h>
#include <signal.h>
#include <stdlib.h>

enum { MOST_SESSIONS = 256, USAGE = 2, HOST_ROOM = 256, WORD_ROOM = 4096, COAP_PORT_LEN = 5, MOST_PORT = 65535 };

static const char scheme[] = "coap://", usual_port[] = "5683";
static volatile pid_t program;

typedef struct {
    const char *listen;
    char **words;                   /* of the program */
    size_t count;
    session sessions[MOST_SESSIONS];
} asked;

/* (a number that is no program's would name others) */
static void stop(int signal) {
    if (program <= 0) _exit(USAGE);
    (void)!kill(program, signal);
}

static void wake(int signal) { (void)signal; }

static int usage(void) {
    fprintf(stderr, "coap-seal --draw CLIENT SERVER\n"
                    "coap-seal --oscore KEYS [--oscore KEYS ..] [--listen PORT] -- PROGRAM ..\n");
    return USAGE;
}

static bool read_words(int count, char **words, asked *a) {
    int i = 1;
    for (; i + 1 < count && strcmp(words[i], "--") != 0; i += 2) {
        if (strcmp(words[i], "--listen") == 0) {
            a->listen = words[i + 1];
        } else if (strcmp(words[i], "--oscore") == 0 && a->count < MOST_SESSIONS) {
            if (!keys_open(words[i + 1], &a->sessions[a->count].oscore)) exit(USAGE);
            a->count++;
        } else {
            return false;
        }
    }
    a->words = words + i + 1;
    return i + 1 < count && strcmp(words[i], "--") == 0 && a->count > 0 && (a->listen != NULL || a->count == 1);
}

/* Host and port of a URI, and where its path begins. */
static const char *split(const char *uri, char host[HOST_ROOM], char port[HOST_ROOM]) {
    const char *at = uri + sizeof scheme - 1, *end = at + strcspn(at, "/?#");
    bool is_bracketed = *at == '[';
    const char *host_end = is_bracketed ? memchr(at, ']', (size_t)(end - at)) : memchr(at, ':', (size_t)(end - at));
    if (is_bracketed && host_end == NULL) return NULL;
    const char *begin = is_bracketed ? at + 1 : at, *colon = is_bracketed ? host_end + 1 : host_end;
    if (host_end == NULL) host_end = colon = end;
    bool has_port = colon < end && *colon == ':';
    if (end - at >= HOST_ROOM || host_end == begin) return NULL;
    snprintf(host, HOST_ROOM, "%.*s", (int)(host_end - begin), begin);
    int port_len = has_port ? (int)(end - colon - 1) : COAP_PORT_LEN;
    snprintf(port, HOST_ROOM, "%.*s", port_len, has_port ? colon + 1 : usual_port);
    return end;
}

/* A socket that is connected to that server, or -1. */
static int connected(const char *host, const char *port) {
    struct addrinfo *found, wants = {.ai_family = AF_INET6, .ai_socktype = SOCK_DGRAM};
    int fd = ks_udp6_open(NULL, 0);
    wants.ai_flags = AI_V4MAPPED | AI_ALL;
    int why = getaddrinfo(host, port, &wants, &found);
    if (why == 0 && fd >= 0 && connect(fd, found->ai_addr, found->ai_addrlen) == 0) return freeaddrinfo(found), fd;
    fprintf(stderr, "coap-seal: %s: %s\n", host, why != 0 ? gai_strerror(why) : strerror(errno));
    if (why == 0) freeaddrinfo(found);
    if (fd >= 0) close(fd);
    return -1;
}

static int run_client(asked *a) {
    static char host[HOST_ROOM], port[HOST_ROOM], word[WORD_ROOM];
    session *s = &a->sessions[0];
    char **uri = a->words;
    while (*uri != NULL && strncmp(*uri, scheme, sizeof scheme - 1) != 0) uri++;
    const char *path = *uri == NULL ? NULL : split(*uri, host, port);
    if (path == NULL || strlen(path) + HOST_ROOM > sizeof word) return usage();
    int outside = connected(host, port);
    uint16_t inside = inside_open(s);
    if (outside < 0 || inside == 0) return USAGE;
    s->is_connected = true;
    snprintf(word, sizeof word, "%s127.0.0.1:%u%s", scheme, (unsigned)inside, path);
    *uri = word;
    program = program_start(a->words);
    return program < 0 ? USAGE : seal_client(s, outside, program);
}

static bool port_of(const char *text, uint16_t *port) {
    char *end;
    unsigned long n = strtoul(text, &end, 10);
    *port = (uint16_t)n;
    return *text >= '0' && *text <= '9' && *end == 0 && n > 0 && n <= MOST_PORT;
}

static int run_server(asked *a) {
    uint16_t outer, inner = 0;
    char **word = a->words;
    while (*word != NULL && !port_of(*word, &inner)) word++;
    if (*word == NULL || !port_of(a->listen, &outer)) return usage();
    int outside = ks_udp6_open(NULL, outer);
    if (outside < 0) return fprintf(stderr, "coap-seal: port %s: %s\n", a->listen, strerror(errno)), USAGE;
    for (size_t i = 0; i < a->count; i++)
        if (!inside_connect(&a->sessions[i], i, inner)) return USAGE;
    program = program_start(a->words);
    return program < 0 ? USAGE : seal_server(a->sessions, a->count, outside, program);
}

int main(int count, char **words) {
    static asked a;
    if (count == 4 && strcmp(words[1], "--draw") == 0) return keys_draw(words[2], words[3]) ? 0 : USAGE;
    if (!read_words(count, words, &a)) return usage();
    signal(SIGTERM, stop);
    signal(SIGINT, stop);
    signal(SIGCHLD, wake);
    int status = a.listen != NULL ? run_server(&a) : run_client(&a);
    for (size_t i = 0; i < a.count; i++) ks_oscore_free(a.sessions[i].oscore);
    return status;
}
