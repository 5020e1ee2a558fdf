/* held_back: what a process writes by pwrite is held back until it syncs the file, as in the memory of a machine whose power
 * may go; for LD_PRELOAD. A process that is killed loses it. By chance, one sync in KS_TORN (an environment variable; 0 or
 * none: never) writes a front of it alone and kills the process: a torn write. Linux; one file. */
#define _GNU_SOURCE
#include <dlfcn.h>
#include <signal.h>
#include <stdlib.h>
#include <string.h>
#include <sys/random.h>
#include <unistd.h>

static unsigned char held[1 << 24];
static size_t len;
static off_t place;

static unsigned chance(unsigned of) {
    unsigned word = 0;
    return getrandom(&word, sizeof word, 0) == sizeof word && of > 0 ? word % of : 0;
}

ssize_t pwrite(int fd, const void *bytes, size_t n, off_t at) {
    (void)fd;
    if (len == 0) place = at;
    if (at != place + (off_t)len || n > sizeof held - len) abort();
    memcpy(held + len, bytes, n);
    len += n;
    return (ssize_t)n;
}

int fdatasync(int fd) {
    ssize_t (*write_at)(int, const void *, size_t, off_t) = (ssize_t (*)(int, const void *, size_t, off_t))dlsym(RTLD_NEXT, "pwrite");
    const char *torn = getenv("KS_TORN");
    unsigned of = torn != NULL ? (unsigned)atoi(torn) : 0;
    size_t front = of > 0 && chance(of) == 0 ? chance((unsigned)len) : len;
    for (size_t done = 0; done < front;) {
        ssize_t n = write_at(fd, held + done, front - done, place + (off_t)done);
        if (n <= 0) return -1;
        done += (size_t)n;
    }
    if (front < len) raise(SIGKILL);
    len = 0;
    return 0;
}
