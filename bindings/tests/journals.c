/* journals: a server with a journal in memory, call by call; each answer is compared. Then it is ended at each byte of its
 * file, and its life goes on with each allocation refused in turn. Ends with status 0, or says where an answer differs. */
#include "both_ends.h"

enum { AROUND = 20, BEGINNING = 109, LIFE = 53, TURN = 17 };

static const ks_life first = {1, 2, 1000, 7};
static uint8_t file[1 << 20], told[1 << 16];
static size_t size;
static ks_replayed replayed;

static void begin_file(void) {
    ks_config config = {0};
    ks_seed seed = {9, 1, 2};
    size = 0;
    IS(ks_journal_begin(&config, &seed, &first, file, BEGINNING - 1, &size), KS_SMALL_ROOM);
    IS(size, BEGINNING);
    IS(ks_journal_begin(&config, &seed, &first, file, sizeof file, &size), KS_DONE);
    IS(size, BEGINNING);
    config.changes = 4194304;
    IS(ks_journal_begin(&config, &seed, &first, room, sizeof room, &(size_t){0}), KS_BAD_CHANGES);
    config = (ks_config){.size = 19};
    IS(ks_journal_begin(&config, &seed, &first, room, sizeof room, &(size_t){0}), KS_BAD_SIZE);
    config = (ks_config){.size = sizeof config, .base = 1};
    IS(ks_journal_begin(&config, &seed, &first, room, sizeof room, &(size_t){0}), KS_BAD_BASE);
}

/* What was taken is kept in a frame. */
static int32_t keep(void) {
    size_t len = 0, more;
    int32_t answer = ks_server_noted(&server, told, sizeof told, &len);
    if (answer != KS_DONE) return answer;
    IS(ks_server_noted(&server, told, sizeof told, &more), KS_OK);
    IS(ks_journal_frame(size, told, len, file + size, len + AROUND - 1, &more), KS_SMALL_ROOM);
    IS(more, len + AROUND);
    answer = ks_journal_frame(size, told, len, file + size, sizeof file - size, &more);
    if (answer == KS_DONE) size += more;
    return answer;
}

static int32_t take_out(size_t *len) {
    ks_address to;
    return ks_server_next_out(&server, &to, datagram, sizeof datagram, len);
}

/* A PUT of "x" to /t, and a GET of it, Message IDs 1 and 2 (RFC 7252, section 3). */
static const uint8_t put[] = {0x40, 3, 0, 1, 0xb1, 't', 0xff, 'x'}, get[] = {0x40, 1, 0, 2, 0xb1, 't'};

static void nothing_goes_out_untold(void) {
    size_t len = 0;
    begin_file();
    IS(ks_server_replay(&server, file, size, &replayed), KS_OK);
    IS(replayed.end, BEGINNING);
    IS(replayed.torn, 0);
    IS(replayed.moment, 7);
    IS(replayed.life.boot_low, 2);
    IS(keep(), KS_OK);
    IS(ks_server_feed(&server, 100, &here, put, sizeof put, 0), KS_OK);
    IS(take_out(&len), KS_UNTOLD);
    IS(ks_server_noted(&server, told, 5, &len), KS_SMALL_ROOM);
    IS(len, TURN + 27 + sizeof put);
    IS(take_out(&len), KS_UNTOLD);
    IS(keep(), KS_DONE);
    IS(take_out(&len), KS_DONE);
    IS(datagram[1], 0x41);
    IS(take_out(&len), KS_OK);
    /* no tick is due: nothing is done, and nothing noted */
    IS(ks_server_tick(&server, 200, 5), KS_OK);
    IS(keep(), KS_OK);
    uint64_t version;
    IS(ks_server_set(&server, 200, P("t"), 0, P("y"), &version), KS_OK);
    IS(ks_server_update(&server, 200, P("t"), 0, P("y"), &version), KS_OK);
    IS(ks_server_set_delay(&server, P("d"), 500), KS_OK);
    IS(ks_server_set_plain(&server, P("q")), KS_OK);
    IS(ks_server_remove(&server, 300, P("none")), KS_OK);
    IS(ks_server_refuse(&server, 300, &here, get, sizeof get, 0), KS_OK);
    IS(keep(), KS_DONE);
    IS(told[0], 9);
    IS(told[8], 300 & 255);
    IS(told[16], 1);
    IS(take_out(&len), KS_DONE);
    IS(datagram[1], 0x85);
}

/* A life goes on at the last whole frame, wherever the file is cut. */
static void each_cut(void) {
    size_t len, whole = size;
    for (size_t cut = 0; cut < BEGINNING; cut++) IS(ks_server_replay(&server, file, cut, &replayed), KS_JOURNAL_NOT_BEGUN);
    for (size_t cut = BEGINNING; cut <= whole; cut++) {
        IS(ks_server_replay(&server, file, cut, &replayed), KS_OK);
        IS(replayed.end + replayed.torn, cut);
        ks_representation shown;
        int32_t held = ks_server_get(&server, P("t"), &shown, room, sizeof room);
        bool has_put = replayed.end > BEGINNING;
        IS(held, has_put ? KS_DONE : KS_OK);
        if (has_put) IS(room[0], replayed.end == whole ? 'y' : 'x');
        while (take_out(&len) == KS_DONE) {}
        IS(ks_server_noted(&server, told, sizeof told, &len), KS_OK);
    }
    for (size_t at = BEGINNING; at < BEGINNING + 50; at++) {
        file[at] ^= 1;
        IS(ks_server_replay(&server, file, whole, &replayed), KS_JOURNAL_DAMAGED);
        IS(replayed.end, BEGINNING);
        file[at] ^= 1;
    }
}

static void other_files(void) {
    static uint8_t other[1024];
    size_t len, more;
    IS(ks_server_replay(&server, other, 0, &replayed), KS_JOURNAL_NOT_BEGUN);
    IS(ks_journal_frame(0, "?", 1, other, sizeof other, &len), KS_DONE);
    IS(ks_server_replay(&server, other, len, &replayed), KS_JOURNAL_UNREADABLE);
    /* a beginning of format 2, and of law 2 */
    for (int at = 4; at <= 8; at += 4) {
        memcpy(told, file + 12, BEGINNING - AROUND);
        told[at] = 2;
        IS(ks_journal_frame(0, told, BEGINNING - AROUND, other, sizeof other, &len), KS_DONE);
        IS(ks_server_replay(&server, other, len, &replayed), at == 4 ? KS_JOURNAL_OTHER_FORMAT : KS_JOURNAL_OTHER_LAW);
    }
    /* a turn before which nine datagrams were given out */
    memcpy(other, file, BEGINNING);
    memset(told, 0, TURN);
    told[0] = 9, told[16] = 9;
    IS(ks_journal_frame(BEGINNING, told, TURN, other + BEGINNING, sizeof other - BEGINNING, &len), KS_DONE);
    IS(ks_server_replay(&server, other, BEGINNING + len, &replayed), KS_JOURNAL_OTHER_SERVER);
    IS(ks_journal_frame((uint64_t)1 << 62, told, TURN, other, sizeof other, &len), KS_BAD_ARGUMENT);
    IS(ks_journal_wake((uint64_t)1 << 62, &first, other, sizeof other, &len), KS_BAD_ARGUMENT);
    IS(ks_journal_wake(BEGINNING, &first, other + BEGINNING, LIFE - 1, &more), KS_SMALL_ROOM);
    IS(more, LIFE);
    ks_server none = {0};
    IS(ks_server_noted(&none, told, sizeof told, &len), KS_NOT_LIVE);
}

/* The last life, and when the next one goes on. */
static void lives(void) {
    static uint8_t other[1024];
    ks_life second = {1, 2, 5000, 4007}, now_here = {1, 2, 6500, 0};
    uint64_t moment;
    size_t len;
    memcpy(other, file, BEGINNING);
    IS(ks_journal_wake(BEGINNING, &second, other + BEGINNING, LIFE, &len), KS_DONE);
    IS(len, LIFE);
    IS(ks_server_replay(&server, other, BEGINNING + LIFE, &replayed), KS_OK);
    IS(replayed.life.uptime, 5000);
    IS(replayed.moment, 4007);
    IS(ks_journal_go_on(&replayed, &now_here, &moment), 0);
    IS(moment, 5507);
    now_here.boot_high = 3;
    IS(ks_journal_go_on(&replayed, &now_here, &moment), 47001);
    IS(moment, 4007 + 47001);
    now_here.boot_high = 1, now_here.uptime = 4999;
    IS(ks_journal_go_on(&replayed, &now_here, &moment), 47001);
}

/* One life with the n-th allocation refused: what was refused is in no frame, and the replay is the server that ran. */
static bool a_life(long n) {
    size_t len;
    uint64_t version;
    begin_file();
    IS(ks_server_replay(&server, file, size, &replayed), KS_OK);
    allocated = 0, refuse_at = n;
    bool fed = ks_server_feed(&server, 100, &here, put, sizeof put, 0) == KS_OK;
    int32_t set = ks_server_set(&server, 100, P("s"), 0, P("y"), &version);
    IS(set == KS_OK || set == KS_NO_MEMORY, 1);
    int32_t removed = ks_server_remove(&server, 100, P("s"));
    bool more = refuse_at <= allocated;
    refuse_at = -1;
    int32_t kept = keep();
    IS(kept, fed || set == KS_OK || removed >= 0 ? KS_DONE : KS_OK);
    ks_representation shown;
    IS(ks_server_get(&server, P("t"), &shown, room, sizeof room), fed ? KS_DONE : KS_OK);
    while (take_out(&len) == KS_DONE) {}
    IS(ks_server_replay(&server, file, size, &replayed), KS_OK);
    IS(replayed.end, size);
    IS(ks_server_get(&server, P("t"), &shown, room, sizeof room), fed ? KS_DONE : KS_OK);
    bool has_s = set == KS_OK && removed != KS_DONE;
    IS(ks_server_get(&server, P("s"), &shown, room, sizeof room), has_s ? KS_DONE : KS_OK);
    return more;
}

/* A peer that is forgotten is noted as its Reset and that it is let go, and is not there after a replay, either. Without
 * memory for both it stays. */
static void a_forgotten_peer(void) {
    enum { RESET = 31, FORGET = 7 };
    static const uint8_t observe[] = {0x41, 1, 0, 9, 9, 0x60, 0x51, 't'};
    uint64_t version;
    size_t len = 0;
    begin_file();
    IS(ks_server_replay(&server, file, size, &replayed), KS_OK);
    IS(ks_server_set(&server, 100, P("t"), 0, P("y"), &version), KS_OK);
    IS(ks_server_feed(&server, 100, &here, observe, sizeof observe, 0), KS_OK);
    IS(ks_server_feed(&server, 100, &there, observe, sizeof observe, 0), KS_OK);
    IS(keep(), KS_DONE);
    while (take_out(&len) == KS_DONE) {}
    long n = 1;
    for (int32_t answer = KS_NO_MEMORY; answer == KS_NO_MEMORY; n++) {
        allocated = 0, refuse_at = n;
        answer = ks_server_forget(&server, &here);
        refuse_at = -1;
        IS(answer, allocated < n ? KS_DONE : KS_NO_MEMORY);
        IS(ks_server_knows(&server, 0, &here), answer == KS_DONE ? KS_OK : KS_DONE);
        if (answer != KS_DONE) IS(ks_server_noted(&server, told, sizeof told, &len), KS_OK);
    }
    IS(n > 2, true);
    IS(take_out(&len), KS_UNTOLD);
    IS(ks_server_noted(&server, told, 1, &len), KS_SMALL_ROOM);
    IS(len, TURN + RESET + FORGET);
    IS(keep(), KS_DONE);
    IS(told[TURN], 1);
    IS(told[TURN + RESET], 11);
    IS(told[TURN + RESET + 1], here.ip[0]);
    for (int life = 0; life < 2; life++) {
        IS(ks_server_knows(&server, 0, &here), KS_OK);
        IS(ks_server_knows(&server, 0, &there), KS_DONE);
        IS(ks_server_forget(&server, &here), KS_OK);
        IS(ks_server_replay(&server, file, size, &replayed), KS_OK);
        IS(replayed.end, size);
        while (take_out(&len) == KS_DONE) {}
    }
}

/* A replay that is refused memory leaves the server that is there. */
static void replays_without_memory(void) {
    long n = 1, refusals = 0;
    for (bool more = true; more; n++) {
        ks_seed seed = {1, 1, 1};
        ks_config config = {0};
        IS(ks_server_new(&server, &config, &seed), KS_OK);
        allocated = 0, refuse_at = n;
        int32_t answer = ks_server_replay(&server, file, size, &replayed);
        more = refuse_at <= allocated;
        refuse_at = -1;
        IS(answer == KS_OK || (more && answer == KS_NO_MEMORY), 1);
        ks_representation shown;
        IS(ks_server_get(&server, P("t"), &shown, room, sizeof room), answer == KS_OK ? KS_DONE : KS_OK);
        refusals += answer != KS_OK;
    }
    printf("a replay with each of %ld allocations refused, which refused %ld times; ", n - 2, refusals);
}

int main(void) {
    nothing_goes_out_untold();
    each_cut();
    other_files();
    lives();
    replays_without_memory();
    a_forgotten_peer();
    long n = 1;
    while (a_life(n)) n++;
    printf("a life with each of %ld refused; a file of %zu bytes\n", n - 1, size);
    ks_server_free(&server);
    return 0;
}
