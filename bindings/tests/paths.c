/* paths [TIMES]: each path that a datagram has is told as its text, and read from that text it is the same path: TIMES of
 * them (100,000), and the longest. Ends with status 0, or says where one differs. */
#include "both_ends.h"

#define TIMES 100000
#define MOST_SEGMENTS 16
#define MOST_BYTES 255
#define HEADER 4
#define OPTIONS (MOST_SEGMENTS * (2 + MOST_BYTES))

struct path {
    size_t count, len[MOST_SEGMENTS];
    uint8_t bytes[MOST_SEGMENTS][MOST_BYTES];
};

/* Its Uri-Path options (RFC 7252, section 3.1): how many bytes they have. */
static size_t spelled(const struct path *path, uint8_t *out) {
    uint8_t *at = out;
    for (size_t i = 0; i < path->count; i++) {
        size_t len = path->len[i];
        uint8_t delta = i == 0 ? 11 : 0;
        *at++ = (uint8_t)(delta << 4 | (len < 13 ? len : 13));
        if (len >= 13) *at++ = (uint8_t)(len - 13);
        memcpy(at, path->bytes[i], len);
        at += len;
    }
    return (size_t)(at - out);
}

/* Its text, a `/` before each segment: as the library writes it, or with some more bytes escaped, in digits of either
 * case. */
static size_t text_of(const struct path *path, bool freely, char *out) {
    char *at = out;
    for (size_t i = 0; i < path->count; i++) {
        *at++ = '/';
        for (size_t j = 0; j < path->len[i]; j++) {
            uint8_t byte = path->bytes[i][j];
            if (freely && word() % 2) at += sprintf(at, word() % 2 ? "%%%02x" : "%%%02X", byte);
            else if (byte == '/') at += sprintf(at, "%%2F");
            else if (byte == '%') at += sprintf(at, "%%25");
            else *at++ = (char)byte;
        }
    }
    return (size_t)(at - out);
}

static bool is_one_empty(const struct path *path) { return path->count == 1 && path->len[0] == 0; }

/* A path of up to 16 segments of up to 5 bytes, many of them such as have to be escaped. */
static struct path some_path(void) {
    static const uint8_t often[] = {'/', '%', '2', 'F', '5', 'a'};
    struct path path;
    path.count = word() % (MOST_SEGMENTS + 1);
    for (size_t i = 0; i < path.count; i++) {
        path.len[i] = word() % 6;
        for (size_t j = 0; j < path.len[i]; j++)
            path.bytes[i][j] = word() % 3 ? often[word() % sizeof often] : (uint8_t)word();
    }
    return path;
}

/* What ks_peek tells of a GET of that path: its text, in a room of three times the datagram's length. */
static void told(const uint8_t *options, size_t options_len, const char *text, size_t text_len) {
    size_t len = HEADER + options_len;
    uint8_t *get = malloc(len);
    char *place = malloc(3 * len);
    ks_message shown;
    memcpy(get, "\x40\x01\x00\x01", HEADER);
    memcpy(get + HEADER, options, options_len);
    IS(ks_peek(get, len, &shown, place, 3 * len), KS_OK);
    IS(shown.path_len, text_len);
    IS(memcmp(place, text, text_len), 0);
    free(get);
    free(place);
}

/* What a client asks for whose call has that text: these options, and no others. */
static void read_back(const char *text, size_t text_len, const uint8_t *options, size_t options_len) {
    static const ks_request get = {.format = KS_NO_FORMAT, .accept = KS_NO_FORMAT, .method = KS_GET};
    ks_config usual = {0};
    ks_seed seed = {word(), word(), word()};
    ks_address to;
    uint64_t id;
    size_t len, head;
    IS(ks_client_new(&client, &there, &usual, &seed), KS_OK);
    IS(ks_client_call(&client, 0, &get, text, text_len, P(""), NONE, NONE, &id), KS_OK);
    while (ks_client_tick(&client, 0, word()) == KS_DONE) {}
    IS(ks_client_next_out(&client, &to, datagram, sizeof datagram, &len), KS_DONE);
    head = HEADER + (datagram[0] & 15u);
    IS(len, head + options_len);
    IS(memcmp(datagram + head, options, options_len), 0);
}

static void there_and_back(long times) {
    static uint8_t options[OPTIONS];
    static char text[KS_PATH_ROOM];
    for (long n = 0; n < times; n++) {
        struct path path = some_path();
        size_t options_len = spelled(&path, options), text_len = text_of(&path, false, text);
        told(options, options_len, text, text_len);
        if (is_one_empty(&path)) continue;
        if (n % 2) text_len = text_of(&path, true, text);
        /* A `/` in front is left out, so it may be missing, where another one does not come first then. */
        size_t skip = n % 3 == 0 && path.count > 0 && path.len[0] > 0;
        read_back(text + skip, text_len - skip, options, options_len);
    }
}

/* 16 segments of 255 slashes: no text of a path is longer. */
static void the_longest(void) {
    static uint8_t put[HEADER + OPTIONS + 2];
    static char text[KS_PATH_ROOM + 1];
    static struct path path;
    ks_representation shown;
    ks_applied done;
    path.count = MOST_SEGMENTS;
    for (size_t i = 0; i < MOST_SEGMENTS; i++) {
        path.len[i] = MOST_BYTES;
        memset(path.bytes[i], '/', MOST_BYTES);
    }
    size_t options_len = spelled(&path, put + HEADER), text_len = text_of(&path, false, text);
    IS(text_len, KS_PATH_ROOM);
    told(put + HEADER, options_len, text, text_len);
    begin();
    memcpy(put, "\x40\x03\x00\x01", HEADER);
    memcpy(put + HEADER + options_len, "\xffx", 2);
    IS(ks_server_feed(&server, now, &here, put, HEADER + options_len + 2, 0), KS_OK);
    IS(ks_server_applied(&server, &done, path_room, KS_PATH_ROOM - 1), KS_SMALL_ROOM);
    IS(ks_server_applied(&server, &done, path_room, KS_PATH_ROOM), KS_DONE);
    IS(done.path_len, KS_PATH_ROOM);
    IS(memcmp(path_room, text, KS_PATH_ROOM), 0);
    IS(ks_server_get(&server, text, text_len, &shown, room, 1), KS_DONE);
    IS(room[0], 'x');
    text[text_len] = '/';
    IS(ks_server_get(&server, text, text_len + 1, &shown, room, 1), KS_BAD_PATH);
    text[text_len] = 'a';
    IS(ks_server_get(&server, text, text_len + 1, &shown, room, 1), KS_BAD_PATH);
    end();
}

static void no_paths(void) {
    static const char *const none[] = {"%", "a/%", "%2", "a%2/b", "%2G", "%g2", "%%", "%/25", "% 5", "%+5"};
    ks_representation shown;
    begin();
    for (size_t i = 0; i < sizeof none / sizeof none[0]; i++)
        IS(ks_server_get(&server, none[i], strlen(none[i]), &shown, room, 1), KS_BAD_PATH);
    IS(ks_server_get(&server, P("%00%ff/%2f"), &shown, room, 1), KS_OK);
    end();
}

int main(int argc, char **argv) {
    long times = argc > 1 ? atol(argv[1]) : TIMES;
    the_longest();
    no_paths();
    there_and_back(times);
    end();
    printf("%ld paths, each told as its text and read from it again\n", times);
    return 0;
}
