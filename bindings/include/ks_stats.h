/* ks_stats.h: how much ends have, and what came to them, as the text that Prometheus reads (its text format 0.0.4). Each
 * end has a name. Before you hand out the text, ask ks_server_load or ks_client_load of each; before you feed a datagram,
 * count what ks_server_would or ks_client_would says of it. It calls snprintf and memcpy alone. Nothing of this is proved. */
#ifndef KS_STATS_H
#define KS_STATS_H

#include "knifesilver.h"
#include <inttypes.h>
#include <stdio.h>
#include <string.h>

#define KS_STATS_WOULDS 8       /* what a datagram can be: KS_WOULD_IGNORE to KS_WOULD_RESET */

typedef struct {
    const char *name;           /* has no quotation mark, no backslash and no line break in it */
    ks_end_load load;
    uint64_t would[KS_STATS_WOULDS];
} ks_stats_end;

/* Counts a datagram. What is no enum ks_would is not counted. */
static inline void ks_stats_count(ks_stats_end *end, int32_t would) {
    if (would >= KS_WOULD_IGNORE && would <= KS_WOULD_RESET) end->would[would - KS_WOULD_IGNORE]++;
}

typedef struct { const char *name; size_t at; } ks_stats_gauge;

/* Text at the end of what stands in the room: how long it is then, also where the room ends before. */
static inline size_t ks_stats_put(char *room, size_t room_len, size_t len, const char *text) {
    size_t more = strlen(text);
    if (len < room_len) {
        size_t fits = room_len - len - 1 < more ? room_len - len - 1 : more;
        memcpy(room + len, text, fits);
        room[len + fits] = 0;
    }
    return len + more;
}

static inline size_t ks_stats_number(char *room, size_t room_len, size_t len, uint64_t number) {
    char text[24];
    snprintf(text, sizeof text, " %" PRIu64 "\n", number);
    return ks_stats_put(room, room_len, len, text);
}

/* Writes a line for each number of each of these ends, and a 0 behind: how many bytes the text has without it. Where that
 * is not below room_len, the text is cut. */
static inline size_t ks_stats_text(char *room, size_t room_len, const ks_stats_end *ends, size_t count) {
    static const ks_stats_gauge gauges[] = {
        {"changes_left", offsetof(ks_end_load, changes_left)}, {"remembered", offsetof(ks_end_load, remembered)},
        {"remembered_most", offsetof(ks_end_load, remembered_most)}, {"outstanding", offsetof(ks_end_load, outstanding)},
        {"queued", offsetof(ks_end_load, queued)}, {"observers", offsetof(ks_end_load, observers)},
        {"partial", offsetof(ks_end_load, partial)}, {"deferred", offsetof(ks_end_load, deferred)},
        {"paths", offsetof(ks_end_load, paths)}, {"delays", offsetof(ks_end_load, delays)},
        {"plains", offsetof(ks_end_load, plains)}, {"waiting", offsetof(ks_end_load, waiting)},
        {"observations", offsetof(ks_end_load, observations)}, {"reports", offsetof(ks_end_load, reports)},
    };
    static const char *const woulds[KS_STATS_WOULDS] = {
        "ignore", "reject", "repeat", "take", "no_place", "no_id", "acknowledge", "reset",
    };
    size_t len = ks_stats_put(room, room_len, 0, "# TYPE knifesilver_ids_left gauge\n");
    for (size_t i = 0; i < count; i++) {
        len = ks_stats_put(room, room_len, len, "knifesilver_ids_left{end=\"");
        len = ks_stats_put(room, room_len, len, ends[i].name);
        len = ks_stats_put(room, room_len, len, "\"}");
        len = ks_stats_number(room, room_len, len, ends[i].load.ids_left);
    }
    for (size_t g = 0; g < sizeof gauges / sizeof *gauges; g++) {
        len = ks_stats_put(room, room_len, len, "# TYPE knifesilver_");
        len = ks_stats_put(room, room_len, len, gauges[g].name);
        len = ks_stats_put(room, room_len, len, " gauge\n");
        for (size_t i = 0; i < count; i++) {
            uint64_t number;
            memcpy(&number, (const char *)&ends[i].load + gauges[g].at, sizeof number);
            len = ks_stats_put(room, room_len, len, "knifesilver_");
            len = ks_stats_put(room, room_len, len, gauges[g].name);
            len = ks_stats_put(room, room_len, len, "{end=\"");
            len = ks_stats_put(room, room_len, len, ends[i].name);
            len = ks_stats_put(room, room_len, len, "\"}");
            len = ks_stats_number(room, room_len, len, number);
        }
    }
    len = ks_stats_put(room, room_len, len, "# TYPE knifesilver_datagrams_total counter\n");
    for (size_t i = 0; i < count; i++)
        for (int w = 0; w < KS_STATS_WOULDS; w++) {
            len = ks_stats_put(room, room_len, len, "knifesilver_datagrams_total{end=\"");
            len = ks_stats_put(room, room_len, len, ends[i].name);
            len = ks_stats_put(room, room_len, len, "\",would=\"");
            len = ks_stats_put(room, room_len, len, woulds[w]);
            len = ks_stats_put(room, room_len, len, "\"}");
            len = ks_stats_number(room, room_len, len, ends[i].would[w]);
        }
    return len;
}

#endif
