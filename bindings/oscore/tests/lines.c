/* lines.c: contexts by lines of text, so that one test drives each implementation alike. Each line is answered by one:
 * the number of the answer, and bytes as hexadecimal digits, or `-` for none.
 *
 *     new PLACE SECRET SALT ID_CONTEXT SENDER RECIPIENT FILE|- begins|goes-on
 *     seal PLACE MOMENT BYTES
 *     open PLACE MOMENT BYTES
 *     free PLACE */
#include "ks_oscore.h"
#include <stdio.h>
#include <stdlib.h>
#include <string.h>

#define PLACES 8
#define LINE_ROOM 200000
#define WORDS 9

static ks_oscore *contexts[PLACES];

static size_t bytes_of(const char *text, uint8_t *bytes, size_t room) {
    size_t len = strcmp(text, "-") == 0 ? 0 : strlen(text) / 2;
    if (len > room) exit(2);
    for (size_t i = 0; i < len; i++) {
        const char pair[3] = {text[2 * i], text[2 * i + 1], 0};
        bytes[i] = (uint8_t)strtoul(pair, NULL, 16);
    }
    return len;
}

static void say(int32_t answer, const ks_oscore_datagram *out) {
    printf("%d ", (int)answer);
    for (size_t i = 0; i < out->len; i++) printf("%02x", out->bytes[i]);
    puts(out->len == 0 ? "-" : "");
}

static int32_t make(ks_oscore **at, char **words) {
    ks_oscore_keys keys;
    ks_oscore_word *all[] = {&keys.secret, &keys.salt, &keys.id_context, &keys.sender, &keys.recipient};
    memset(&keys, 0, sizeof keys);
    for (size_t i = 0; i < sizeof all / sizeof *all; i++)
        all[i]->len = bytes_of(words[i], all[i]->bytes, sizeof all[i]->bytes);
    return ks_oscore_new(at, &keys, strcmp(words[5], "-") == 0 ? NULL : words[5], strcmp(words[6], "begins") == 0);
}

/* (from malloc, of just this length, so that a look behind it is seen) */
static int32_t pass(ks_oscore *c, char **words, bool seals, ks_oscore_datagram *out) {
    size_t len = strcmp(words[1], "-") == 0 ? 0 : strlen(words[1]) / 2;
    uint8_t *bytes = malloc(len > 0 ? len : 1);
    if (bytes == NULL) exit(2);
    uint64_t now = strtoull(words[0], NULL, 10);
    bytes_of(words[1], bytes, len);
    int32_t answer = (seals ? ks_oscore_seal : ks_oscore_open)(c, now, bytes, len, out);
    free(bytes);
    return answer;
}

int main(void) {
    static char line[LINE_ROOM];
    static ks_oscore_datagram out;
    setvbuf(stdout, NULL, _IOLBF, 0);
    while (fgets(line, sizeof line, stdin) != NULL) {
        char *words[WORDS + 1] = {0};
        size_t count = 0;
        for (char *it = strtok(line, " \n"); it != NULL && count < WORDS; it = strtok(NULL, " \n")) words[count++] = it;
        if (count < 2) return 2;
        ks_oscore **at = &contexts[strtoul(words[1], NULL, 10) % PLACES];
        out.len = 0;
        if (strcmp(words[0], "new") == 0 && count == WORDS) {
            ks_oscore_free(*at);
            say(make(at, words + 2), &out);
        } else if (strcmp(words[0], "free") == 0) {
            ks_oscore_free(*at);
            *at = NULL;
            say(KS_OK, &out);
        } else if (count == 4) {
            int32_t answer = pass(*at, words + 2, strcmp(words[0], "seal") == 0, &out);
            say(answer, &out);
        } else {
            return 2;
        }
    }
    for (size_t i = 0; i < PLACES; i++) ks_oscore_free(contexts[i]);
    return 0;
}
