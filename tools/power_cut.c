/* power_cut: a process that is killed leaves what a machine leaves whose power goes; for LD_PRELOAD. What it writes to a
 * file below the folder KS_FOLDER (an environment variable) is held back until it syncs the file, and what it makes or
 * renames there until it syncs the folder. Linux.
 *
 * KS_FAULT names a disk that doesn't do so, under which a program has to fail that relies on its disk:
 *   sync      a sync of a file keeps nothing
 *   last      .. keeps all but the last write
 *   folder    a sync of a folder keeps nothing
 *   renamed   a file that is renamed is cut to what stood there before its last sync
 *
 * KS_STOP has the process be killed before the n-th call of those that are held back. Beside that KS_UPTIME is how many seconds longer the machine has been up, and KS_PACE how many times as fast the
 * monotonic clock goes. */
#define _GNU_SOURCE
#include <dlfcn.h>
#include <errno.h>
#include <fcntl.h>
#include <limits.h>
#include <signal.h>
#include <stdarg.h>
#include <stdbool.h>
#include <stdio.h>
#include <stdlib.h>
#include <string.h>
#include <sys/mman.h>
#include <sys/stat.h>
#include <sys/syscall.h>
#include <sys/types.h>
#include <time.h>
#include <unistd.h>

enum { MOST_FILES = 16, MOST_NAMES = 16, MOST_HELD = 1 << 24, NS_PER_SECOND = 1000000000 };

static const char UPTIME[] = "/proc/uptime";
static const char UNSETTLED[] = ".unsettled";

/* A file that is open: what is held back of it, how much of that is the last write, whether it is to be cut first, and
 * how long it was before its last sync. */
struct held {
    int fd;
    char path[PATH_MAX];
    unsigned char *bytes;
    size_t len;
    size_t last;
    bool is_cut;
    off_t end;
    off_t before;
};

/* A name that a file is to have once its folder is synced. */
struct naming {
    char from[PATH_MAX];
    char to[PATH_MAX];
    bool is_new;
};

static struct held files[MOST_FILES];
static struct naming names[MOST_NAMES];
static size_t names_len;

static void stop(const char *why) {
    fprintf(stderr, "power_cut: %s\n", why);
    abort();
}

static void *next(const char *name) {
    void *found = dlsym(RTLD_NEXT, name);
    if (found == NULL) stop(name);
    return found;
}

static bool is_faulty(const char *fault) {
    const char *wanted = getenv("KS_FAULT");
    return wanted != NULL && strcmp(wanted, fault) == 0;
}

/* The process comes to one more call that is held back. */
static void step(void) {
    static int count;
    const char *stop_at = getenv("KS_STOP");
    count++;
    if (stop_at != NULL && count == atoi(stop_at)) raise(SIGKILL);
}

static bool is_below(const char *path) {
    const char *folder = getenv("KS_FOLDER");
    return folder != NULL && strncmp(path, folder, strlen(folder)) == 0;
}

static struct held *held_by(int fd) {
    for (size_t i = 0; i < MOST_FILES; i++)
        if (files[i].bytes != NULL && files[i].fd == fd) return &files[i];
    return NULL;
}

static void hold(int fd, const char *path) {
    struct stat about;
    if (fstat(fd, &about) != 0 || !S_ISREG(about.st_mode)) return;
    for (size_t i = 0; i < MOST_FILES; i++) {
        if (files[i].bytes != NULL) continue;
        files[i] = (struct held){.fd = fd, .bytes = malloc(MOST_HELD), .before = about.st_size};
        if (files[i].bytes == NULL) stop("no memory");
        snprintf(files[i].path, sizeof files[i].path, "%s", path);
        return;
    }
    stop("too many files");
}

static void add_name(const char *from, const char *to, bool is_new) {
    if (names_len == MOST_NAMES) stop("too many names");
    struct naming *name = &names[names_len++];
    snprintf(name->from, sizeof name->from, "%s", from);
    snprintf(name->to, sizeof name->to, "%s", to);
    name->is_new = is_new;
}

/* The path of a file as it is on the disk: one that was made is there under another name. */
static const char *on_disk(const char *path) {
    for (size_t i = 0; i < names_len; i++)
        if (names[i].is_new && strcmp(names[i].to, path) == 0) return names[i].from;
    return path;
}

static int made_up_uptime(void) {
    char text[256] = "";
    int (*open_it)(const char *, int, ...) = (int (*)(const char *, int, ...))next("open");
    int fd = open_it(UPTIME, O_RDONLY);
    ssize_t len = fd >= 0 ? read(fd, text, sizeof text - 1) : -1;
    if (fd >= 0) close(fd);
    if (len <= 0) return -1;
    double up = strtod(text, NULL) + strtod(getenv("KS_UPTIME"), NULL);
    int made = memfd_create("uptime", 0);
    if (made < 0 || dprintf(made, "%.2f 0.00\n", up) < 0 || lseek(made, 0, SEEK_SET) != 0) return -1;
    return made;
}

static const char *whole_path(const char *path, char *whole) {
    char here[PATH_MAX / 2];
    if (path[0] == '/')
        snprintf(whole, PATH_MAX, "%s", path);
    else if (getcwd(here, sizeof here) != NULL)
        snprintf(whole, PATH_MAX, "%s/%.*s", here, PATH_MAX / 4, path);
    else
        stop("no folder");
    return whole;
}

static int opened(const char *name, const char *path, int flags, mode_t mode) {
    int (*open_it)(const char *, int, ...) = (int (*)(const char *, int, ...))next(name);
    char whole[PATH_MAX];
    char hidden[PATH_MAX + sizeof UNSETTLED];
    if (strcmp(path, UPTIME) == 0 && getenv("KS_UPTIME") != NULL) return made_up_uptime();
    whole_path(path, whole);
    if (!is_below(whole)) return open_it(path, flags, mode);
    const char *there = on_disk(whole);
    if ((flags & O_CREAT) != 0 && access(there, F_OK) != 0) {
        snprintf(hidden, sizeof hidden, "%s%s", whole, UNSETTLED);
        unlink(hidden);
        add_name(hidden, whole, true);
        there = on_disk(whole);
    }
    int fd = open_it(there, flags, mode);
    if (fd >= 0 && (flags & O_ACCMODE) != O_RDONLY) hold(fd, whole);
    return fd;
}

static mode_t mode_in(int flags, va_list more) {
    return (flags & (O_CREAT | O_TMPFILE)) != 0 ? va_arg(more, mode_t) : 0;
}

int open(const char *path, int flags, ...) {
    va_list more;
    va_start(more, flags);
    mode_t mode = mode_in(flags, more);
    va_end(more);
    return opened("open", path, flags, mode);
}

int open64(const char *path, int flags, ...) {
    va_list more;
    va_start(more, flags);
    mode_t mode = mode_in(flags, more);
    va_end(more);
    return opened("open64", path, flags, mode);
}

int close(int fd) {
    int (*close_it)(int) = (int (*)(int))next("close");
    struct held *file = held_by(fd);
    if (file != NULL) {
        free(file->bytes);
        *file = (struct held){0};
    }
    return close_it(fd);
}

static off_t length_of(int fd) {
    struct stat about;
    return fstat(fd, &about) == 0 ? about.st_size : 0;
}

static ssize_t keep_back(struct held *file, const void *bytes, size_t n) {
    step();
    if (n > MOST_HELD - file->len) stop("too much is written");
    memcpy(file->bytes + file->len, bytes, n);
    file->len += n;
    file->last = n;
    return (ssize_t)n;
}

ssize_t write(int fd, const void *bytes, size_t n) {
    struct held *file = held_by(fd);
    if (file != NULL) return keep_back(file, bytes, n);
    return syscall(SYS_write, fd, bytes, n);
}

static ssize_t written_at(int fd, const void *bytes, size_t n, off_t at) {
    struct held *file = held_by(fd);
    if (file == NULL) return syscall(SYS_pwrite64, fd, bytes, n, at);
    off_t end = (file->is_cut ? file->end : length_of(fd)) + (off_t)file->len;
    if (at != end) stop("what is written isn't appended");
    return keep_back(file, bytes, n);
}

ssize_t pwrite(int fd, const void *bytes, size_t n, off_t at) { return written_at(fd, bytes, n, at); }

ssize_t pwrite64(int fd, const void *bytes, size_t n, off64_t at) { return written_at(fd, bytes, n, at); }

static int cut(int fd, off_t end) {
    struct held *file = held_by(fd);
    if (file == NULL) return (int)syscall(SYS_ftruncate, fd, end);
    step();
    off_t there = file->is_cut ? file->end : length_of(fd);
    if (end >= there) {
        if (end > there + (off_t)file->len) stop("a file is made longer");
        file->len = (size_t)(end - there);
    } else {
        file->is_cut = true;
        file->end = end;
        file->len = 0;
    }
    file->last = 0;
    return 0;
}

int ftruncate(int fd, off_t end) { return cut(fd, end); }

int ftruncate64(int fd, off64_t end) { return cut(fd, end); }

static int flush(struct held *file) {
    step();
    if (is_faulty("sync")) return 0;
    file->before = length_of(file->fd);
    if (file->is_cut && syscall(SYS_ftruncate, file->fd, file->end) != 0) return -1;
    file->is_cut = false;
    size_t whole = is_faulty("last") ? file->len - file->last : file->len;
    off_t at = length_of(file->fd);
    for (size_t done = 0; done < whole;) {
        ssize_t n = syscall(SYS_pwrite64, file->fd, file->bytes + done, whole - done, at + (off_t)done);
        if (n <= 0) return -1;
        done += (size_t)n;
    }
    memmove(file->bytes, file->bytes + whole, file->len - whole);
    file->len -= whole;
    file->last = file->len;
    return 0;
}

/* How long the file was before its last sync that has this path. */
static off_t length_before(const char *path) {
    for (size_t i = 0; i < MOST_FILES; i++)
        if (files[i].bytes != NULL && strcmp(files[i].path, path) == 0) return files[i].before;
    return 0;
}

static int settle(void) {
    step();
    int (*rename_it)(const char *, const char *) = (int (*)(const char *, const char *))next("rename");
    if (is_faulty("folder")) return 0;
    for (size_t i = 0; i < names_len; i++) {
        if (rename_it(names[i].from, names[i].to) != 0) return -1;
        if (names[i].is_new || !is_faulty("renamed")) continue;
        if (truncate(names[i].to, length_before(names[i].from)) != 0) return -1;
    }
    names_len = 0;
    return 0;
}

static int synced(int fd) {
    struct stat about;
    struct held *file = held_by(fd);
    if (file != NULL) return flush(file);
    if (fstat(fd, &about) == 0 && S_ISDIR(about.st_mode)) return settle();
    return (int)syscall(SYS_fsync, fd);
}

int fsync(int fd) { return synced(fd); }

int fdatasync(int fd) { return synced(fd); }

/* The file that is renamed may have been made, and not settled: it is settled under its first name before that. */
int rename(const char *from, const char *to) {
    int (*rename_it)(const char *, const char *) = (int (*)(const char *, const char *))next("rename");
    char old[PATH_MAX];
    char new[PATH_MAX];
    if (!is_below(whole_path(from, old))) return rename_it(from, to);
    step();
    add_name(old, whole_path(to, new), false);
    return 0;
}

int clock_gettime(clockid_t clock, struct timespec *now) {
    static struct timespec begin;
    const char *pace = getenv("KS_PACE");
    int done = (int)syscall(SYS_clock_gettime, clock, now);
    if (done != 0 || clock != CLOCK_MONOTONIC || pace == NULL) return done;
    if (begin.tv_sec == 0) begin = *now;
    long long passed = (long long)(now->tv_sec - begin.tv_sec) * NS_PER_SECOND + now->tv_nsec - begin.tv_nsec;
    passed = passed * atoi(pace) + begin.tv_nsec;
    now->tv_sec = begin.tv_sec + (time_t)(passed / NS_PER_SECOND);
    now->tv_nsec = (long)(passed % NS_PER_SECOND);
    return 0;
}
