/* keys.c: files of keys. A line is a name and hexadecimal digits: secret, salt, id-context, sender, recipient. */
#include "seal.h"
#include <errno.h>
#include <fcntl.h>
#include <openssl/crypto.h>
#include <openssl/rand.h>
#include <stdlib.h>
#include <sys/stat.h>

enum { SECRET_LEN = 16, SALT_LEN = 8, ID_LEN = 4, NAME_ROOM = 4096, LINE_ROOM = 256, OTHERS = 077 };

static bool is_hex(const char *text, ks_oscore_word *to) {
    size_t len = strlen(text);
    if (len % 2 != 0 || len / 2 > sizeof to->bytes) return false;
    for (to->len = 0; to->len < len / 2; to->len++) {
        const char pair[3] = {text[2 * to->len], text[2 * to->len + 1], 0};
        char *end;
        unsigned long byte = strtoul(pair, &end, 16);
        if (*end != 0 || pair[0] == '-' || pair[0] == '+' || pair[0] == ' ') return false;
        to->bytes[to->len] = (uint8_t)byte;
    }
    return true;
}

static ks_oscore_word *word_of(ks_oscore_keys *keys, const char *name) {
    static const char *const names[] = {"secret", "salt", "id-context", "sender", "recipient"};
    ks_oscore_word *words[] = {&keys->secret, &keys->salt, &keys->id_context, &keys->sender, &keys->recipient};
    for (size_t i = 0; i < sizeof words / sizeof *words; i++)
        if (strcmp(name, names[i]) == 0) return words[i];
    return NULL;
}

static bool keys_read(FILE *file, ks_oscore_keys *keys) {
    char line[LINE_ROOM];
    bool is_read = true;
    memset(keys, 0, sizeof *keys);
    while (is_read && fgets(line, sizeof line, file) != NULL) {
        char *name = strtok(line, " \n"), *value = strtok(NULL, " \n");
        ks_oscore_word *to = name == NULL ? NULL : word_of(keys, name);
        if (name == NULL || name[0] == '#') continue;
        is_read = to != NULL && to->len == 0 && is_hex(value == NULL ? "" : value, to);
    }
    OPENSSL_cleanse(line, sizeof line);
    return is_read && keys->secret.len >= SECRET_LEN;
}

static bool numbers_name(const char *name, char to[NAME_ROOM]) {
    int len = snprintf(to, NAME_ROOM, "%s.numbers", name);
    return len > 0 && len < NAME_ROOM;
}

static bool say(const char *name, const char *why) {
    fprintf(stderr, "coap-seal: %s: %s\n", name, why);
    return false;
}

static bool context_open(const char *name, const ks_oscore_keys *keys, bool begins, ks_oscore **made) {
    char numbers[NAME_ROOM];
    if (!numbers_name(name, numbers)) return say(name, "the name is too long");
    int32_t answer = ks_oscore_new(made, keys, numbers, begins);
    if (answer == KS_OSCORE_FILE_FAILED) return say(numbers, strerror(errno));
    return answer == KS_OK || say(numbers, ks_oscore_text(answer));
}

bool keys_open(const char *name, ks_oscore **made) {
    ks_oscore_keys keys;
    struct stat is;
    int fd = open(name, O_RDONLY | O_CLOEXEC);
    FILE *file = fd < 0 ? NULL : fdopen(fd, "r");
    if (file == NULL) return say(name, strerror(errno));
    /* (no copy of the secret is left in a buffer) */
    setvbuf(file, NULL, _IONBF, 0);
    bool is_own = fstat(fd, &is) == 0 && S_ISREG(is.st_mode) && is.st_uid == geteuid() && (is.st_mode & OTHERS) == 0;
    bool is_read = is_own && keys_read(file, &keys);
    fclose(file);
    if (!is_own) return say(name, "others may read it: chmod 600");
    bool is_made = is_read ? context_open(name, &keys, false, made) : say(name, "no keys: secret, sender, recipient");
    OPENSSL_cleanse(&keys, sizeof keys);
    return is_made;
}

static void put_word(FILE *file, const char *name, const ks_oscore_word *word) {
    fprintf(file, "%s ", name);
    for (size_t i = 0; i < word->len; i++) fprintf(file, "%02x", word->bytes[i]);
    fprintf(file, "\n");
}

static bool keys_write(const char *name, const ks_oscore_keys *keys) {
    ks_oscore *made;
    int fd = open(name, O_WRONLY | O_CREAT | O_EXCL | O_CLOEXEC, 0600);
    FILE *file = fd < 0 ? NULL : fdopen(fd, "w");
    if (file == NULL) return say(name, strerror(errno));
    setvbuf(file, NULL, _IONBF, 0);
    put_word(file, "secret", &keys->secret);
    put_word(file, "salt", &keys->salt);
    put_word(file, "sender", &keys->sender);
    put_word(file, "recipient", &keys->recipient);
    bool is_written = !ferror(file) && fsync(fd) == 0;
    if (fclose(file) != 0 || !is_written) return say(name, strerror(errno));
    if (!context_open(name, keys, true, &made)) return false;
    ks_oscore_free(made);
    return true;
}

bool keys_draw(const char *client, const char *server) {
    ks_oscore_keys keys;
    memset(&keys, 0, sizeof keys);
    keys.secret.len = SECRET_LEN;
    keys.salt.len = SALT_LEN;
    keys.sender.len = ID_LEN;
    keys.recipient.len = 1;
    if (RAND_priv_bytes(keys.secret.bytes, SECRET_LEN) != 1 || RAND_bytes(keys.salt.bytes, SALT_LEN) != 1
        || RAND_bytes(keys.sender.bytes, ID_LEN) != 1)
        return say("no random bytes", strerror(errno));
    bool is_written = keys_write(client, &keys);
    ks_oscore_word sender = keys.sender;
    keys.sender = keys.recipient;
    keys.recipient = sender;
    is_written = is_written && keys_write(server, &keys);
    OPENSSL_cleanse(&keys, sizeof keys);
    return is_written;
}
