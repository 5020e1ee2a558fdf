/* program.c: the program that coap-seal starts, and which sockets are its own. */
#include "seal.h"
#include <dirent.h>
#include <errno.h>
#include <signal.h>
#include <stdlib.h>
#include <sys/prctl.h>

enum { NAME_ROOM = 320, LINE_ROOM = 512, NOT_STARTED = 127, INODE_WORD = 9 };

pid_t program_start(char **words) {
    pid_t parent = getpid(), program = fork();
    if (program != 0) return program;
    if (prctl(PR_SET_PDEATHSIG, SIGTERM) != 0 || getppid() != parent) _exit(NOT_STARTED);
    execvp(words[0], words);
    fprintf(stderr, "coap-seal: %s: %s\n", words[0], strerror(errno));
    _exit(NOT_STARTED);
}

/* The inode of the UDP socket of that port, as this table of /proc has it, or 0. */
static unsigned long inode_of(const char *table, uint16_t port) {
    char line[LINE_ROOM];
    unsigned long inode = 0;
    FILE *file = fopen(table, "re");
    while (file != NULL && inode == 0 && fgets(line, sizeof line, file) != NULL) {
        char *word = strtok(line, " "), *at = strtok(NULL, " ");
        const char *colon = at == NULL ? NULL : strchr(at, ':');
        if (word == NULL || colon == NULL || strtoul(colon + 1, NULL, 16) != port) continue;
        for (int i = 2; i <= INODE_WORD && at != NULL; i++) at = strtok(NULL, " ");
        inode = at == NULL ? 0 : strtoul(at, NULL, 10);
    }
    if (file != NULL) fclose(file);
    return inode;
}

static bool has_inode(pid_t program, unsigned long inode) {
    char name[NAME_ROOM], wants[NAME_ROOM], leads[NAME_ROOM];
    bool found = false;
    snprintf(name, sizeof name, "/proc/%ld/fd", (long)program);
    snprintf(wants, sizeof wants, "socket:[%lu]", inode);
    DIR *folder = opendir(name);
    for (struct dirent *it; folder != NULL && !found && (it = readdir(folder)) != NULL;) {
        snprintf(name, sizeof name, "/proc/%ld/fd/%s", (long)program, it->d_name);
        ssize_t len = readlink(name, leads, sizeof leads - 1);
        found = len > 0 && (size_t)len == strlen(wants) && memcmp(leads, wants, (size_t)len) == 0;
    }
    if (folder != NULL) closedir(folder);
    return found;
}

bool program_has_port(pid_t program, uint16_t port) {
    unsigned long inode = inode_of("/proc/net/udp", port);
    if (inode == 0) inode = inode_of("/proc/net/udp6", port);
    return inode != 0 && has_inode(program, inode);
}
