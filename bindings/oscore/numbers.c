/* numbers.c: the file of a context's numbers. It is a page that names the keys, and two pages of a record each, of
 * which the older one is written over. So a record that is torn leaves the one before it. The file is never renamed:
 * who has its lock is alone. */
#define _GNU_SOURCE
#include "inside.h"
#include <errno.h>
#include <fcntl.h>
#include <libgen.h>
#include <limits.h>
#include <openssl/crypto.h>
#include <string.h>
#include <sys/file.h>
#include <sys/stat.h>
#include <unistd.h>

#define PAGE 4096                   /* no write to one page tears another one */
#define RECORDS 2
#define FILE_LEN ((1 + RECORDS) * PAGE)
#define STEP 1000                   /* so many numbers are written as used at once */
#define SUM_LEN 8
#define RECORD_LEN (3 * 8 + WINDOW / 8 + SUM_LEN)

static const uint8_t magic[] = "ks_oscore 1\n\0\0\0";

static void put_u64(uint8_t *to, uint64_t n) {
    for (int i = 0; i < 8; i++) to[i] = (uint8_t)(n >> (56 - 8 * i));
}

static uint64_t u64_of(const uint8_t *from) {
    uint64_t n = 0;
    for (int i = 0; i < 8; i++) n = n << 8 | from[i];
    return n;
}

/* Of the keys' name and the record without its sum. */
static bool sum_of(const uint8_t check[CHECK_LEN], const uint8_t *record, uint8_t sum[SUM_LEN]) {
    uint8_t all[CHECK_LEN + RECORD_LEN - SUM_LEN], digest[DIGEST_LEN];
    memcpy(all, check, CHECK_LEN);
    memcpy(all + CHECK_LEN, record, RECORD_LEN - SUM_LEN);
    bool is_made = digest_of((span){all, sizeof all}, digest);
    memcpy(sum, digest, SUM_LEN);
    return is_made;
}

static bool write_at(int fd, const uint8_t *bytes, size_t len, off_t place) {
    while (len > 0) {
        ssize_t n = pwrite(fd, bytes, len, place);
        if (n < 0 && errno == EINTR) continue;
        if (n == 0) errno = ENOSPC;
        if (n <= 0) return false;
        bytes += n;
        len -= (size_t)n;
        place += n;
    }
    return true;
}

static bool read_at(int fd, uint8_t *bytes, size_t len, off_t place) {
    while (len > 0) {
        ssize_t n = pread(fd, bytes, len, place);
        if (n < 0 && errno == EINTR) continue;
        if (n == 0) errno = EIO;
        if (n <= 0) return false;
        bytes += n;
        len -= (size_t)n;
        place += n;
    }
    return true;
}

static off_t place_of(uint64_t turn) { return (off_t)(PAGE * (1 + turn % RECORDS)); }

/* Writes these numbers as the next record, and syncs. After a failure nothing more is written: what the file has is not
 * known then. */
static int32_t keep(numbers *n, const numbers *now) {
    uint8_t record[RECORD_LEN];
    if (n->fd >= 0) {
        put_u64(record, now->turn);
        put_u64(record + 8, now->reserved);
        put_u64(record + 16, now->above);
        memcpy(record + 24, now->came, sizeof now->came);
        if (!sum_of(n->check, record, record + RECORD_LEN - SUM_LEN)) return KS_NO_MEMORY;
        if (!write_at(n->fd, record, sizeof record, place_of(now->turn)) || fdatasync(n->fd) != 0) n->is_broken = true;
    }
    if (n->is_broken) return KS_OSCORE_FILE_FAILED;
    *n = *now;
    return KS_OK;
}

int32_t numbers_take(numbers *n, uint64_t *number) {
    if (n->is_broken) return KS_OSCORE_FILE_FAILED;
    if (n->next >= MOST_NUMBERS) return KS_OSCORE_SPENT;
    if (n->next >= n->reserved) {
        numbers now = *n;
        now.turn++;
        now.reserved = n->next + STEP;
        int32_t answer = keep(n, &now);
        if (answer != KS_OK) return answer;
    }
    *number = n->next++;
    return KS_OK;
}

enum came numbers_look(const numbers *n, uint64_t number) {
    if (number >= n->above) return NUMBER_NEW;
    if (n->above - number > WINDOW) return NUMBER_OLD;
    return (n->came[number % WINDOW / 8] >> number % 8 & 1) != 0 ? NUMBER_CAME : NUMBER_NEW;
}

int32_t numbers_note(numbers *n, uint64_t number) {
    numbers now = *n;
    if (n->is_broken) return KS_OSCORE_FILE_FAILED;
    if (number >= n->above && number - n->above >= WINDOW) memset(now.came, 0, sizeof now.came);
    for (uint64_t at = n->above; at < number && number - n->above < WINDOW; at++)
        now.came[at % WINDOW / 8] &= (uint8_t)~(1u << at % 8);
    now.came[number % WINDOW / 8] |= (uint8_t)(1u << number % 8);
    if (number >= n->above) now.above = number + 1;
    now.turn++;
    return keep(n, &now);
}

/* KS_OK where the record of this place is whole, else KS_OSCORE_FILE_DAMAGED. */
static int32_t record_read(numbers *n, uint64_t place) {
    uint8_t record[RECORD_LEN], sum[SUM_LEN];
    if (!read_at(n->fd, record, sizeof record, place_of(place))) return KS_OSCORE_FILE_FAILED;
    if (!sum_of(n->check, record, sum)) return KS_NO_MEMORY;
    if (memcmp(sum, record + RECORD_LEN - SUM_LEN, SUM_LEN) != 0) return KS_OSCORE_FILE_DAMAGED;
    if (u64_of(record) < n->turn) return KS_OK;
    n->turn = u64_of(record);
    n->next = n->reserved = u64_of(record + 8);
    n->above = u64_of(record + 16);
    memcpy(n->came, record + 24, sizeof n->came);
    return KS_OK;
}

static int32_t file_read(numbers *n) {
    uint8_t page[sizeof magic + CHECK_LEN];
    struct stat is;
    int32_t answers[RECORDS];
    if (fstat(n->fd, &is) != 0) return KS_OSCORE_FILE_FAILED;
    if (!S_ISREG(is.st_mode) || is.st_size != FILE_LEN) return KS_OSCORE_FILE_FOREIGN;
    if (!read_at(n->fd, page, sizeof page, 0)) return KS_OSCORE_FILE_FAILED;
    if (memcmp(page, magic, sizeof magic) != 0) return KS_OSCORE_FILE_FOREIGN;
    if (CRYPTO_memcmp(page + sizeof magic, n->check, CHECK_LEN) != 0) return KS_OSCORE_FILE_FOREIGN;
    for (uint64_t place = 0; place < RECORDS; place++) {
        answers[place] = record_read(n, place);
        if (answers[place] != KS_OK && answers[place] != KS_OSCORE_FILE_DAMAGED) return answers[place];
    }
    return answers[0] == KS_OK || answers[1] == KS_OK ? KS_OK : KS_OSCORE_FILE_DAMAGED;
}

/* Syncs the folder, so that the file has its name there. */
static bool folder_sync(const char *file) {
    char name[PATH_MAX];
    if (strlen(file) >= sizeof name) return errno = ENAMETOOLONG, false;
    memcpy(name, file, strlen(file) + 1);
    int fd = open(dirname(name), O_RDONLY | O_DIRECTORY | O_CLOEXEC);
    bool is_synced = fd >= 0 && fsync(fd) == 0;
    if (fd >= 0) close(fd);
    return is_synced;
}

static int32_t file_begin(numbers *n, const char *file) {
    uint8_t page[sizeof magic + CHECK_LEN];
    numbers now = *n;
    memcpy(page, magic, sizeof magic);
    memcpy(page + sizeof magic, n->check, CHECK_LEN);
    now.turn = 1;
    if (ftruncate(n->fd, FILE_LEN) != 0 || !write_at(n->fd, page, sizeof page, 0)) return KS_OSCORE_FILE_FAILED;
    int32_t answer = keep(n, &now);
    if (answer != KS_OK) return answer;
    return fsync(n->fd) == 0 && folder_sync(file) ? KS_OK : KS_OSCORE_FILE_FAILED;
}

int32_t numbers_open(numbers *n, const char *file, bool begins, const uint8_t check[CHECK_LEN]) {
    memset(n, 0, sizeof *n);
    memcpy(n->check, check, CHECK_LEN);
    n->fd = -1;
    if (file == NULL) return KS_OK;
    n->fd = open(file, O_RDWR | O_CLOEXEC | O_NOFOLLOW | (begins ? O_CREAT | O_EXCL : 0), 0600);
    if (n->fd < 0) return KS_OSCORE_FILE_FAILED;
    if (flock(n->fd, LOCK_EX | LOCK_NB) != 0)
        return errno == EWOULDBLOCK ? KS_OSCORE_FILE_TAKEN : KS_OSCORE_FILE_FAILED;
    return begins ? file_begin(n, file) : file_read(n);
}

void numbers_close(numbers *n) {
    if (n->fd >= 0) close(n->fd);
    n->fd = -1;
}
