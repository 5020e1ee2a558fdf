/* memory.c: each allocation refused in turn, and no key left behind in memory that is freed. What is refused memory is
 * lost: the same call again does what it would have done. */
#include "ks_oscore.h"
#include <openssl/crypto.h>
#include <stdio.h>
#include <stdlib.h>
#include <string.h>

#define SIZE_LEN 16
#define IS(is, wants) check((int32_t)(is), (int32_t)(wants), __LINE__)

static long refuse_at = -1, allocated, refused, left;
/* The keys that the secret makes (RFC 8613, appendix C.1). */
static const uint8_t keys_made[2][16] = {
    {0xf0, 0x91, 0x0e, 0xd7, 0x29, 0x5e, 0x6a, 0xd4, 0xb5, 0x4f, 0xc7, 0x93, 0x15, 0x43, 0x02, 0xff},
    {0xff, 0xb1, 0x4e, 0x09, 0x3c, 0x94, 0xc9, 0xca, 0xc9, 0x47, 0x16, 0x48, 0xb4, 0xf9, 0x87, 0x10}};
static const char request[] = "\x44\x01\x5d\x1f\0\0\x39\x74\x39localhost\x83tv1";
static const char response[] = "\x64\x45\x5d\x1f\0\0\x39\x74\xffHello World!";

static void check(int32_t is, int32_t wants, int line) {
    if (is == wants) return;
    printf("line %d: %d, and not %d (allocation %ld refused)\n", line, (int)is, (int)wants, refuse_at);
    exit(1);
}

static void *take(size_t size, const char *file, int line) {
    (void)file, (void)line;
    if (++allocated == refuse_at) return refused++, NULL;
    uint8_t *at = calloc(1, size + SIZE_LEN);
    if (at == NULL) return NULL;
    memcpy(at, &size, sizeof size);
    return at + SIZE_LEN;
}

static void give(void *at, const char *file, int line) {
    size_t size;
    (void)file, (void)line;
    if (at == NULL) return;
    uint8_t *bytes = (uint8_t *)at - SIZE_LEN;
    memcpy(&size, bytes, sizeof size);
    for (size_t i = 0; i + 16 <= size; i++)
        for (int k = 0; k < 2; k++)
            if (bytes[SIZE_LEN + i] == keys_made[k][0] && memcmp(bytes + SIZE_LEN + i, keys_made[k], 16) == 0) left++;
    free(bytes);
}

static void *grow(void *at, size_t size, const char *file, int line) {
    size_t before;
    void *to = take(size, file, line);
    if (at == NULL || to == NULL) return to;
    memcpy(&before, (uint8_t *)at - SIZE_LEN, sizeof before);
    memcpy(to, at, before < size ? before : size);
    give(at, file, line);
    return to;
}

static ks_oscore *context(bool is_client) {
    ks_oscore_keys keys = {.secret.len = 16, .salt = {8, {0x9e, 0x7c, 0xa9, 0x22, 0x23, 0x78, 0x63, 0x40}}};
    ks_oscore_word *id = is_client ? &keys.recipient : &keys.sender;
    ks_oscore *made;
    for (uint8_t i = 0; i < 16; i++) keys.secret.bytes[i] = (uint8_t)(i + 1);
    id->len = id->bytes[0] = 1;
    int32_t answer = ks_oscore_new(&made, &keys, NULL, false);
    if (answer == KS_NO_MEMORY) answer = ks_oscore_new(&made, &keys, NULL, false);
    IS(answer, KS_OK);
    return made;
}

typedef int32_t passes(ks_oscore *c, uint64_t now, const void *bytes, size_t len, ks_oscore_datagram *out);

static void pass(passes *by, ks_oscore *c, const void *bytes, size_t len, ks_oscore_datagram *out) {
    int32_t answer = by(c, 0, bytes, len, out);
    if (answer == KS_NO_MEMORY) answer = by(c, 0, bytes, len, out);
    IS(answer, KS_DONE);
}

static void run(void) {
    static ks_oscore_datagram sealed, plain, answered;
    ks_oscore *client = context(true), *server = context(false);
    pass(ks_oscore_seal, client, request, sizeof request - 1, &sealed);
    pass(ks_oscore_open, server, sealed.bytes, sealed.len, &plain);
    IS(plain.len, sizeof request - 1);
    IS(memcmp(plain.bytes, request, plain.len), 0);
    pass(ks_oscore_seal, server, response, sizeof response - 1, &answered);
    pass(ks_oscore_open, client, answered.bytes, answered.len, &plain);
    IS(memcmp(plain.bytes, response, plain.len), 0);
    answered.bytes[answered.len - 1] ^= 1;
    IS(ks_oscore_open(client, 0, answered.bytes, answered.len, &plain), KS_OSCORE_FORGED);
    ks_oscore_free(client);
    ks_oscore_free(server);
}

int main(void) {
    long tried = 0;
    if (CRYPTO_set_mem_functions(take, grow, give) != 1) return 2;
    run();
    for (long before = -1; refused > before; tried++) {
        before = refused;
        refuse_at = allocated + tried + 1;
        run();
        refuse_at = -1;
    }
    IS(left, 0);
    printf("%ld allocations, each refused once\n", refused);
    return refused > 10 ? 0 : 1;
}
