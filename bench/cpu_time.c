/* Has a program that asks what time it is hear the processor time of its process instead, which other work on the machine
 * doesn't lengthen so much: cc -O2 -shared -fPIC -o cpu_time.so cpu_time.c; LD_PRELOAD=./cpu_time.so coap_bench forgetting */
#include <sys/syscall.h>
#include <time.h>
#include <unistd.h>

int clock_gettime(clockid_t clock, struct timespec *now) {
    return (int)syscall(SYS_clock_gettime, clock == CLOCK_MONOTONIC ? CLOCK_PROCESS_CPUTIME_ID : clock, now);
}
