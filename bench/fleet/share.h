/* share.h: a share of the fleet: some servers, the clients of them and the moments at which they are due. One thread
 * has it to itself. Time is made up, in milliseconds, and goes on to the next moment at which something is due; a
 * datagram arrives at the moment at which it is sent. So each run does the same. */
#ifndef SHARE_H
#define SHARE_H

#include "knifesilver.h"
#include "heap.h"

#define REMEMBERED 512          /* messages that an end remembers at most */
#define PATH "temperature"
#define TEXT "22.3 C"

/* What the clients ask, and what happens to the servers' values. */
typedef enum {
    WORK_NONE,
    WORK_GETS,                  /* each client asks each `period`; the values stay */
    WORK_CHANGES                /* each client observes; each server changes its value `changes` times, `period` apart */
} work_kind;

typedef struct {
    work_kind kind;
    uint64_t period;            /* in ms */
    uint32_t changes;
} workload;

/* Of a client: what it heard of the values, which are numbered from 0 on. */
typedef struct {
    uint64_t number;            /* of its observation */
    uint32_t values;            /* that it heard, in order */
    bool is_over;               /* whether the server did not begin it */
} heard;

typedef struct {
    uint32_t servers, clients;
    ks_server *server;
    ks_client *client;
    heap due;                   /* of the servers, and behind them the clients */
    uint64_t *next;             /* of each end: when the work has something for it */
    uint32_t *changed;          /* of each server: how many changes it made */
    heard *heard;               /* of each client */
    uint32_t *touched;          /* ends that were handed something, and have not had a turn since */
    uint32_t touched_count;
    bool *is_touched;
    workload work;
    uint64_t now, random;
    uint64_t bodies, values, turns, datagrams;  /* how many there were of each */
} share;

/* A share of that many ends, at moment 0. Client n is one of server n modulo the number of servers. */
void share_new(share *s, uint32_t servers, uint32_t clients, workload work, uint64_t random);

/* Goes on to that moment. */
void share_run(share *s, uint64_t until);

/* How many clients observe and heard the value of each change once, in order; how many have no observation. */
uint32_t share_complete(const share *s);
uint32_t share_over(const share *s);

/* When something is due of an end, as the library says; or NEVER. */
uint64_t share_due(share *s, uint32_t end);

void share_free_clients(share *s);
void share_free(share *s);

/* Ends the program where something is not as it should be. */
void must(bool right, const char *what);

#endif
