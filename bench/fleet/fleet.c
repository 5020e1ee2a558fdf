/* fleet: many clients and servers of the library in one process, in memory and in made-up time. For bench/fleet/run.
 *
 *   fleet gets THREADS CLIENTS SERVERS       each client asks again and again; how many exchanges a second
 *   fleet changes THREADS CLIENTS SERVERS    each client observes, and each value is heard once
 *   fleet due CLIENTS SERVERS                what it takes to ask all ends when they are due, and what a heap takes
 *   fleet memory                             what an end takes of memory
 *
 * Each thread has a share of the ends to itself, which it made, and no two have anything in common. Prints rows of
 * tables; the status is 1 where something is not as it should be. */
#define _GNU_SOURCE
#include "share.h"
#include <malloc.h>
#include <pthread.h>
#include <stdio.h>
#include <string.h>
#include <time.h>

#define ASKED_EVERY_MS 60000u
#define ROUNDS_BEFORE 5u        /* after these, what comes makes the end forget as much: 247 s have passed */
#define ROUNDS 30u
#define CHANGED_EVERY_MS 1000u
#define CHANGES 10u
#define MOST_THREADS 64u
#define RUNS 5                  /* of which the shortest counts */
#define TIMINGS 101             /* of which the least counts */
#define HEAP_STEPS 100000u
#define KEPT_ENDS 64u           /* of each kind, whose memory is shared out */
#define KEPT_EVERY_MS 400u      /* 512 messages in 205 s, so that none is forgotten */
#define NS_PER_S 1e9
#define US_PER_S 1e6
#define KB_PER_MB 1024.0

typedef struct {
    _Alignas(64) share share;   /* on lines of the cache of its own */
    uint32_t servers, clients;
    workload work;
    uint64_t random, from, until;   /* timed from that moment until that one */
    pthread_barrier_t *begin;
    double began, ended, processor; /* by the machine's clock, and by that of the thread, in s */
    uint64_t bodies, values, datagrams;
} lane;

static double clock_s(clockid_t clock) {
    struct timespec t;
    clock_gettime(clock, &t);
    return (double)t.tv_sec + (double)t.tv_nsec / NS_PER_S;
}

/* Makes its share, waits for the others, and goes through the time. */
static void *run_lane(void *at) {
    lane *it = at;
    share *s = &it->share;
    share_new(s, it->servers, it->clients, it->work, it->random);
    if (it->from > 0) share_run(s, it->from);
    it->bodies = s->bodies, it->values = s->values, it->datagrams = s->datagrams;
    pthread_barrier_wait(it->begin);
    it->began = clock_s(CLOCK_MONOTONIC);
    it->processor = clock_s(CLOCK_THREAD_CPUTIME_ID);
    share_run(s, it->until);
    it->processor = clock_s(CLOCK_THREAD_CPUTIME_ID) - it->processor;
    it->ended = clock_s(CLOCK_MONOTONIC);
    it->bodies = s->bodies - it->bodies, it->values = s->values - it->values;
    it->datagrams = s->datagrams - it->datagrams;
    return NULL;
}

static double resident_mb(void) {
    char line[256];
    double kb = 0;
    FILE *status = fopen("/proc/self/status", "r");
    must(status != NULL, "no /proc/self/status");
    while (fgets(line, sizeof line, status) != NULL)
        if (sscanf(line, "VmRSS: %lf kB", &kb) == 1) break;
    fclose(status);
    return kb / KB_PER_MB;
}

static uint32_t share_of(uint32_t all, uint32_t lanes, uint32_t n) { return all / lanes + (n < all % lanes); }

static void run_lanes(lane *lanes, uint32_t threads, uint32_t clients, uint32_t servers, workload work) {
    pthread_t thread[MOST_THREADS];
    pthread_barrier_t begin;
    must(pthread_barrier_init(&begin, NULL, threads) == 0, "no barrier");
    for (uint32_t n = 0; n < threads; n++) {
        lane *it = &lanes[n];
        it->servers = share_of(servers, threads, n), it->clients = share_of(clients, threads, n);
        it->work = work, it->random = n, it->begin = &begin;
        it->from = work.kind == WORK_GETS ? (uint64_t)ROUNDS_BEFORE * work.period : 0;
        it->until = it->from + work.period * (work.kind == WORK_GETS ? ROUNDS : CHANGES + 2);
        must(pthread_create(&thread[n], NULL, run_lane, it) == 0, "no thread");
    }
    for (uint32_t n = 0; n < threads; n++) must(pthread_join(thread[n], NULL) == 0, "a thread is lost");
    pthread_barrier_destroy(&begin);
}

typedef struct {
    double seconds, processor;      /* from the first that began until the last that ended; of all together */
    uint64_t bodies, values, datagrams;
    uint32_t complete, over;
} sum;

static sum sum_of(const lane *lanes, uint32_t threads) {
    sum all = {0};
    double began = lanes[0].began, ended = lanes[0].ended;
    for (uint32_t n = 0; n < threads; n++) {
        const lane *it = &lanes[n];
        began = it->began < began ? it->began : began;
        ended = it->ended > ended ? it->ended : ended;
        all.processor += it->processor;
        all.bodies += it->bodies, all.values += it->values, all.datagrams += it->datagrams;
        all.complete += share_complete(&it->share), all.over += share_over(&it->share);
    }
    all.seconds = ended - began;
    return all;
}

static void print_gets(uint32_t threads, uint32_t clients, uint32_t servers, const sum *all, double resident) {
    double count = (double)all->bodies;
    printf("| %u | %u | %u | %.0f | %.2f | %.0f |\n", clients, servers, threads, count / all->seconds,
           all->processor * US_PER_S / count, resident);
}

static void print_changes(uint32_t threads, uint32_t clients, uint32_t servers, const sum *all) {
    uint32_t observing = clients - all->over;
    must(all->complete == observing, "a value is not heard");
    must(all->values == (uint64_t)observing * (CHANGES + 1), "a value is heard twice");
    printf("| %u | %u | %u | %.0f | %.2f |\n", servers, observing, threads, (double)all->values / all->seconds,
           all->processor * US_PER_S / (double)all->values);
}

static double least(double a, double b) { return a < b ? a : b; }

/* One run; the shares are freed, and what they did is told. */
static sum run_once(workload work, uint32_t threads, uint32_t clients, uint32_t servers, double *resident) {
    lane *lanes = aligned_alloc(_Alignof(lane), threads * sizeof *lanes);
    must(lanes != NULL, "no memory");
    memset(lanes, 0, threads * sizeof *lanes);
    run_lanes(lanes, threads, clients, servers, work);
    const sum all = sum_of(lanes, threads);
    *resident = resident_mb();
    for (uint32_t n = 0; n < threads; n++) share_free(&lanes[n].share);
    free(lanes);
    return all;
}

static void run(workload work, uint32_t threads, uint32_t clients, uint32_t servers) {
    double resident;
    must(threads > 0 && threads <= MOST_THREADS && servers >= threads && clients >= threads, "no such numbers");
    sum best = run_once(work, threads, clients, servers, &resident);
    for (int n = 1; n < RUNS; n++) {
        double ignored;
        const sum more = run_once(work, threads, clients, servers, &ignored);
        must(more.bodies == best.bodies && more.values == best.values && more.datagrams == best.datagrams,
             "a run does other than the one before");
        best.seconds = least(best.seconds, more.seconds);
        best.processor = least(best.processor, more.processor);
    }
    if (work.kind == WORK_GETS) print_gets(threads, clients, servers, &best, resident);
    else print_changes(threads, clients, servers, &best);
}

/* ---- When they are due ---- */

/* To ask each end, and keep the first moment: in s. */
static double look_through(share *s, uint64_t *first) {
    double began = clock_s(CLOCK_THREAD_CPUTIME_ID);
    *first = NEVER;
    for (uint32_t n = 0; n < s->servers + s->clients; n++) {
        uint64_t at = share_due(s, n);
        *first = at < *first ? at : *first;
    }
    return clock_s(CLOCK_THREAD_CPUTIME_ID) - began;
}

/* To take the first of a heap, and give it a later moment: in s for each. */
static double step_through(heap *h) {
    double began = clock_s(CLOCK_THREAD_CPUTIME_ID);
    for (uint32_t n = 0; n < HEAP_STEPS; n++) {
        uint32_t end = heap_first(h);
        heap_set(h, end, h->at[end] + ASKED_EVERY_MS);
    }
    return (clock_s(CLOCK_THREAD_CPUTIME_ID) - began) / HEAP_STEPS;
}

static void print_due(uint32_t clients, uint32_t servers) {
    share s;
    heap h;
    uint64_t first, known;
    double ends = (double)clients + servers, look = 1, step = 1;
    must(servers > 0 && clients >= servers, "no such numbers");
    share_new(&s, servers, clients, (workload){WORK_GETS, ASKED_EVERY_MS, 0}, 0);
    share_run(&s, ROUNDS_BEFORE * ASKED_EVERY_MS);
    must(heap_new(&h, s.due.count), "no memory");
    for (uint32_t n = 0; n < h.count; n++) heap_set(&h, n, n);
    known = NEVER;
    for (uint32_t n = 0; n < h.count; n++) {
        uint64_t at = s.due.at[n] == s.next[n] ? NEVER : s.due.at[n];
        known = at < known ? at : known;
    }
    for (int n = 0; n < TIMINGS; n++) {
        look = least(look, look_through(&s, &first));
        step = least(step, step_through(&h));
        must(first == known, "the heap has another moment");
    }
    printf("| %.0f | %.1f | %.2f | %.0f |\n", ends, look * NS_PER_S / ends, look * US_PER_S, step * NS_PER_S);
    heap_free(&h);
    share_free(&s);
}

/* ---- Memory ---- */

static double allocated(void) {
    struct mallinfo2 info = mallinfo2();
    return (double)(info.uordblks + info.hblkhd);
}

/* What the ends give back when they are freed is what they held. */
static void print_memory(const char *what, workload work, uint64_t until) {
    share s;
    share_new(&s, KEPT_ENDS, KEPT_ENDS, work, 0);
    share_run(&s, until);
    double all = allocated();
    share_free_clients(&s);
    double servers = allocated();
    for (uint32_t n = 0; n < s.servers; n++) ks_server_free(&s.server[n]);
    double none = allocated();
    printf("| %s | %.0f | %.0f |\n", what, (all - servers) / KEPT_ENDS, (servers - none) / KEPT_ENDS);
    share_free(&s);
}

static void print_kept(void) {
    const uint64_t until = (uint64_t)REMEMBERED * KEPT_EVERY_MS - 1;
    print_memory("fresh; the server has a value of 6 bytes", (workload){.kind = WORK_NONE}, 0);
    print_memory("after 512 GETs", (workload){WORK_GETS, KEPT_EVERY_MS, 0}, until);
    print_memory("after 512 notifications", (workload){WORK_CHANGES, KEPT_EVERY_MS, REMEMBERED},
                 until + 2 * KEPT_EVERY_MS);
}

static uint32_t number(const char *word) {
    unsigned long n = strtoul(word, NULL, 10);
    must(n <= UINT32_MAX, "a number is too large");
    return (uint32_t)n;
}

int main(int argc, char **argv) {
    const char *what = argc > 1 ? argv[1] : "";
    must(ks_version() == KS_VERSION, "the library is not the header's");
    if (argc == 5 && strcmp(what, "gets") == 0)
        run((workload){WORK_GETS, ASKED_EVERY_MS, 0}, number(argv[2]), number(argv[3]), number(argv[4]));
    else if (argc == 5 && strcmp(what, "changes") == 0)
        run((workload){WORK_CHANGES, CHANGED_EVERY_MS, CHANGES}, number(argv[2]), number(argv[3]), number(argv[4]));
    else if (argc == 4 && strcmp(what, "due") == 0)
        print_due(number(argv[2]), number(argv[3]));
    else if (argc == 2 && strcmp(what, "memory") == 0)
        print_kept();
    else
        return fprintf(stderr, "fleet gets|changes THREADS CLIENTS SERVERS, due CLIENTS SERVERS, memory\n"), 2;
    return 0;
}
