/* cipher.c: the keys of a context (RFC 8613, section 3.2), nonces (5.2), additional data (5.4) and AES-CCM-16-64-128.
 * */
#include "inside.h"
#include <openssl/core_names.h>
#include <openssl/crypto.h>
#include <openssl/kdf.h>
#include <string.h>

enum { CBOR_BYTES = 0x40, CBOR_TEXT = 0x60, CBOR_ARRAY = 0x80, CBOR_LONG = 0x58, CBOR_NULL = 0xf6, SHORT_BELOW = 24 };
enum { AES_CCM_16_64_128 = 10, OSCORE_VERSION = 1, INFO_ROOM = 64, AAD_ROOM = 64 };

static void put_byte(writer *w, uint8_t byte) { put(w, &byte, 1); }

static void put_bytes(writer *w, span bytes) {
    if (bytes.len < SHORT_BELOW) {
        put_byte(w, (uint8_t)(CBOR_BYTES | bytes.len));
    } else {
        put_byte(w, CBOR_LONG);
        put_byte(w, (uint8_t)bytes.len);
    }
    put(w, bytes.at, bytes.len);
}

static void put_text(writer *w, const char *text) {
    put_byte(w, (uint8_t)(CBOR_TEXT | strlen(text)));
    put(w, text, strlen(text));
}

static span word_span(const ks_oscore_word *word) { return (span){word->bytes, word->len}; }

static bool hkdf(const ks_oscore_keys *keys, span info, uint8_t *out, size_t len) {
    EVP_KDF *kdf = EVP_KDF_fetch(NULL, "HKDF", NULL);
    EVP_KDF_CTX *ctx = EVP_KDF_CTX_new(kdf);
    char digest[] = "SHA256";
    OSSL_PARAM params[] = {
        OSSL_PARAM_construct_utf8_string(OSSL_KDF_PARAM_DIGEST, digest, 0),
        OSSL_PARAM_construct_octet_string(OSSL_KDF_PARAM_KEY, (void *)(uintptr_t)keys->secret.bytes, keys->secret.len),
        OSSL_PARAM_construct_octet_string(OSSL_KDF_PARAM_SALT, (void *)(uintptr_t)keys->salt.bytes, keys->salt.len),
        OSSL_PARAM_construct_octet_string(OSSL_KDF_PARAM_INFO, (void *)(uintptr_t)info.at, info.len),
        OSSL_PARAM_construct_end(),
    };
    bool is_made = ctx != NULL && EVP_KDF_derive(ctx, out, len, params) > 0;
    EVP_KDF_CTX_free(ctx);
    EVP_KDF_free(kdf);
    return is_made;
}

/* info = [id, id_context / nil, alg_aead, type, L] */
static bool derive(const ks_oscore_keys *keys, span id, const char *type, uint8_t *out, size_t len) {
    uint8_t info[INFO_ROOM];
    writer w = {info, sizeof info, 0, 0, false};
    put_byte(&w, CBOR_ARRAY | 5);
    put_bytes(&w, id);
    if (keys->id_context.len > 0) {
        put_bytes(&w, word_span(&keys->id_context));
    } else {
        put_byte(&w, CBOR_NULL);
    }
    put_byte(&w, AES_CCM_16_64_128);
    put_text(&w, type);
    put_byte(&w, (uint8_t)len);
    return !w.is_full && hkdf(keys, (span){info, w.len}, out, len);
}

bool digest_of(span text, uint8_t digest[DIGEST_LEN]) {
    return EVP_Digest(text.at, text.len, digest, NULL, EVP_sha256(), NULL) > 0;
}

static bool make_check(cipher *c) {
    uint8_t digest[DIGEST_LEN], all[2 * KEY_LEN + NONCE_LEN];
    memcpy(all, c->sender_key, KEY_LEN);
    memcpy(all + KEY_LEN, c->recipient_key, KEY_LEN);
    memcpy(all + 2 * KEY_LEN, c->iv, NONCE_LEN);
    bool is_made = digest_of((span){all, sizeof all}, digest);
    memcpy(c->check, digest, CHECK_LEN);
    OPENSSL_cleanse(all, sizeof all);
    return is_made;
}

/* Keys and nonces are set later, for each message; what takes memory is done here. */
static EVP_CIPHER_CTX *ccm(bool seals) {
    EVP_CIPHER_CTX *ctx = EVP_CIPHER_CTX_new();
    if (ctx != NULL && EVP_CipherInit_ex(ctx, EVP_aes_128_ccm(), NULL, NULL, NULL, seals) > 0
        && EVP_CIPHER_CTX_ctrl(ctx, EVP_CTRL_AEAD_SET_IVLEN, NONCE_LEN, NULL) > 0
        && EVP_CIPHER_CTX_ctrl(ctx, EVP_CTRL_AEAD_SET_TAG, TAG_LEN, NULL) > 0)
        return ctx;
    EVP_CIPHER_CTX_free(ctx);
    return NULL;
}

static bool is_short(const ks_oscore_word *word, size_t room) { return word->len <= room; }

static bool are_keys(const ks_oscore_keys *keys) {
    const ks_oscore_word *a = &keys->sender, *b = &keys->recipient;
    return is_short(&keys->secret, KS_OSCORE_WORD_ROOM) && keys->secret.len > 0
        && is_short(&keys->salt, KS_OSCORE_WORD_ROOM) && is_short(&keys->id_context, KS_OSCORE_WORD_ROOM)
        && is_short(a, KS_OSCORE_ID_ROOM) && is_short(b, KS_OSCORE_ID_ROOM)
        && (a->len != b->len || memcmp(a->bytes, b->bytes, a->len) != 0);
}

int32_t cipher_begin(cipher *c, const ks_oscore_keys *keys) {
    memset(c, 0, sizeof *c);
    if (!are_keys(keys)) return KS_BAD_ARGUMENT;
    c->sender = keys->sender;
    c->recipient = keys->recipient;
    c->id_context = keys->id_context;
    c->seals = ccm(true);
    c->opens = ccm(false);
    bool is_made = c->seals != NULL && c->opens != NULL
        && derive(keys, word_span(&keys->sender), "Key", c->sender_key, KEY_LEN)
        && derive(keys, word_span(&keys->recipient), "Key", c->recipient_key, KEY_LEN)
        && derive(keys, (span){NULL, 0}, "IV", c->iv, NONCE_LEN) && make_check(c);
    return is_made ? KS_OK : KS_NO_MEMORY;
}

/* (who has the keys wipes them) */
void cipher_end(cipher *c) {
    EVP_CIPHER_CTX_free(c->seals);
    EVP_CIPHER_CTX_free(c->opens);
}

static void make_nonce(const cipher *c, const binding *b, uint8_t nonce[NONCE_LEN]) {
    memset(nonce, 0, NONCE_LEN);
    nonce[0] = (uint8_t)b->id.len;
    if (b->id.len > 0) memcpy(nonce + NONCE_LEN - PIV_ROOM - b->id.len, b->id.at, b->id.len);
    memcpy(nonce + NONCE_LEN - b->piv.len, b->piv.at, b->piv.len);
    for (size_t i = 0; i < NONCE_LEN; i++) nonce[i] ^= c->iv[i];
}

/* Enc_structure = ["Encrypt0", h'', external_aad], external_aad = [1, [alg_aead], request_kid, request_piv, h''] */
static size_t make_aad(const binding *b, uint8_t aad[AAD_ROOM]) {
    uint8_t external[AAD_ROOM];
    writer e = {external, sizeof external, 0, 0, false}, w = {aad, AAD_ROOM, 0, 0, false};
    put_byte(&e, CBOR_ARRAY | 5);
    put_byte(&e, OSCORE_VERSION);
    put_byte(&e, CBOR_ARRAY | 1);
    put_byte(&e, AES_CCM_16_64_128);
    put_bytes(&e, b->kid);
    put_bytes(&e, b->request_piv);
    put_bytes(&e, (span){NULL, 0});
    put_byte(&w, CBOR_ARRAY | 3);
    put_text(&w, "Encrypt0");
    put_bytes(&w, (span){NULL, 0});
    put_bytes(&w, (span){external, e.len});
    return w.len;
}

int32_t cipher_seal(cipher *c, const binding *b, span text, uint8_t *out) {
    uint8_t nonce[NONCE_LEN], aad[AAD_ROOM];
    int n, aad_len = (int)make_aad(b, aad), len = (int)text.len;
    make_nonce(c, b, nonce);
    bool is_sealed = EVP_EncryptInit_ex(c->seals, NULL, NULL, c->sender_key, nonce) > 0
        && EVP_EncryptUpdate(c->seals, NULL, &n, NULL, len) > 0
        && EVP_EncryptUpdate(c->seals, NULL, &n, aad, aad_len) > 0
        && EVP_EncryptUpdate(c->seals, out, &n, text.at, len) > 0
        && EVP_EncryptFinal_ex(c->seals, out + n, &n) > 0
        && EVP_CIPHER_CTX_ctrl(c->seals, EVP_CTRL_AEAD_GET_TAG, TAG_LEN, out + text.len) > 0;
    return is_sealed ? KS_OK : KS_NO_MEMORY;
}

int32_t cipher_open(cipher *c, const binding *b, span sealed, uint8_t *out) {
    uint8_t nonce[NONCE_LEN], aad[AAD_ROOM], tag[TAG_LEN];
    if (sealed.len <= TAG_LEN) return KS_OSCORE_FORGED;
    int n, aad_len = (int)make_aad(b, aad), len = (int)(sealed.len - TAG_LEN);
    make_nonce(c, b, nonce);
    memcpy(tag, sealed.at + len, TAG_LEN);
    bool is_ready = EVP_DecryptInit_ex(c->opens, NULL, NULL, c->recipient_key, nonce) > 0
        && EVP_CIPHER_CTX_ctrl(c->opens, EVP_CTRL_AEAD_SET_TAG, TAG_LEN, tag) > 0
        && EVP_DecryptUpdate(c->opens, NULL, &n, NULL, len) > 0
        && EVP_DecryptUpdate(c->opens, NULL, &n, aad, aad_len) > 0;
    if (!is_ready) return KS_NO_MEMORY;
    return EVP_DecryptUpdate(c->opens, out, &n, sealed.at, len) > 0 ? KS_OK : KS_OSCORE_FORGED;
}
