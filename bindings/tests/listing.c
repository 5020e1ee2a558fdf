/* listing [TIMES]: ks_server_paths against a model of what paths hold, after each of TIMES (20,000) random changes: a body
 * is set, a path is emptied. Ends with status 0, or says where they differ. */
#include "both_ends.h"

#define TIMES 20000
#define MOST_PATHS 256
#define NAMES 300
#define NAME_ROOM 8
/* So many changes fill it, and so many empty it again. */
#define PHASE 1000

/* What each path holds: the version of the change that made it, or 0; and how many bytes. */
static struct held {
    uint64_t version;
    size_t len;
} model[NAMES];

static size_t count(void) {
    size_t held = 0;
    for (size_t i = 0; i < NAMES; i++) held += model[i].version != 0;
    return held;
}

static size_t name_of(size_t number, char *name) { return (size_t)snprintf(name, NAME_ROOM, "/%zu", number); }

/* The number of the path of this text. */
static size_t number_of(size_t len) {
    path_room[len] = 0;
    return strtoul(path_room + 1, NULL, 10);
}

static void change(size_t number, bool fills) {
    char name[NAME_ROOM];
    size_t len = name_of(number, name), body_len = word() % 40;
    uint64_t version = 0;
    now += 1;
    if (fills ? word() % 16 != 0 : word() % 3 == 0) {
        int32_t answer = ks_server_set(&server, now, name, len, -1, room, body_len, &version);
        bool is_full = model[number].version == 0 && count() == MOST_PATHS;
        IS(answer, is_full ? KS_SET_TOO_MANY_PATHS : KS_OK);
        if (!is_full) model[number] = (struct held){version, body_len};
    } else {
        IS(ks_server_remove(&server, now, name, len), model[number].version ? KS_DONE : KS_OK);
        model[number].version = 0;
    }
}

/* Each path is told once, with what it holds; and none behind the last. */
static void compare(void) {
    bool is_told[NAMES] = {false};
    size_t held = count(), len = 0;
    ks_representation shown;
    for (size_t place = 0; place < held; place++) {
        IS(ks_server_paths(&server, place, &shown, path_room, sizeof path_room, &len), KS_DONE);
        size_t number = number_of(len);
        IS(is_told[number], false);
        is_told[number] = true;
        IS(shown.version == model[number].version && shown.body_len == model[number].len, true);
    }
    IS(ks_server_paths(&server, held, &shown, path_room, sizeof path_room, &len), KS_OK);
    IS(ks_server_paths(&server, SIZE_MAX, &shown, path_room, sizeof path_room, &len), KS_OK);
}

/* A text that is longer than the room is not told, and nothing is written. */
static void no_room(void) {
    ks_representation shown = {.version = 77};
    size_t len = 78;
    IS(ks_server_set(&server, now, P("a/b"), -1, room, 5, &(uint64_t){0}), KS_OK);
    IS(ks_server_paths(&server, 0, &shown, path_room, 3, &len), KS_SMALL_ROOM);
    IS(shown.version == 77 && len == 78, true);
    IS(ks_server_paths(&server, 0, &shown, path_room, 4, &len), KS_DONE);
    IS(len == 4 && memcmp(path_room, "/a/b", 4) == 0 && shown.version == 1 && shown.body_len == 5, true);
    IS(ks_server_remove(&server, now, P("a/b")), KS_DONE);
}

int main(int argc, char **argv) {
    long times = argc > 1 ? atol(argv[1]) : TIMES;
    ks_config usual = {0};
    ks_seed seed = {word(), word(), word()};
    ks_representation shown;
    size_t len, most = 0;
    IS(ks_server_paths(&server, 0, &shown, path_room, sizeof path_room, &len), KS_NOT_LIVE);
    IS(ks_server_new(&server, &usual, &seed), KS_OK);
    no_room();
    for (long i = 0; i < times; i++) {
        change(word() % NAMES, i / PHASE % 2 == 0);
        most = count() > most ? count() : most;
        compare();
    }
    ks_server_free(&server);
    printf("listing: %ld changes, %zu paths at most\n", times, most);
}
