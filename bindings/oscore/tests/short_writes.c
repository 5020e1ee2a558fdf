/* short_writes.c: a pwrite that writes 7 bytes at most, and after SHORT_WRITES of them fails. numbers.c is compiled
 * with -Dpwrite=short_pwrite. */
#define _GNU_SOURCE
#undef pwrite
#include <errno.h>
#include <stdlib.h>
#include <unistd.h>

enum { AT_MOST = 7 };

ssize_t short_pwrite(int fd, const void *bytes, size_t len, off_t place);

ssize_t short_pwrite(int fd, const void *bytes, size_t len, off_t place) {
    static long left = -1;
    const char *many = getenv("SHORT_WRITES");
    if (left < 0) left = many != NULL ? strtol(many, NULL, 10) : 1000000000;
    if (left-- <= 0) return errno = ENOSPC, left = 0, -1;
    return pwrite(fd, bytes, len < AT_MOST ? len : AT_MOST, place);
}
