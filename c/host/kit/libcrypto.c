/* Algorithms of OpenSSL's libcrypto, which is looked for as the program begins: before the explorer copies its memory. Where it isn't there, none is. */
#include "kit/libcrypto.h"

#include <dlfcn.h>

static struct {
    void *library;
    int (*sha1)(void *), (*sha256)(void *), (*sha384)(void *), (*sha512)(void *), (*md5)(void *);
    int (*add_sha1)(void *, const void *, size_t), (*add_sha256)(void *, const void *, size_t), (*add_sha384)(void *, const void *, size_t), (*add_sha512)(void *, const void *, size_t),
        (*add_md5)(void *, const void *, size_t);
    int (*end_sha1)(uint8_t *, void *), (*end_sha256)(uint8_t *, void *), (*end_sha384)(uint8_t *, void *), (*end_sha512)(uint8_t *, void *), (*end_md5)(uint8_t *, void *);
    int (*encrypting)(const uint8_t *, int, void *), (*decrypting)(const uint8_t *, int, void *);
    void (*cbc)(const uint8_t *, uint8_t *, size_t, const void *, uint8_t *, int);
    void (*ecb)(const uint8_t *, uint8_t *, const void *, int);
    void (*block)(const uint8_t *, uint8_t *, const void *);
    void *(*gcm)(const void *, void (*)(const uint8_t *, uint8_t *, const void *));
    void (*nonce)(void *, const uint8_t *, size_t), (*tag)(void *, uint8_t *, size_t), (*end_gcm)(void *);
    int (*beside)(void *, const uint8_t *, size_t), (*enciphered)(void *, const uint8_t *, uint8_t *, size_t), (*deciphered)(void *, const uint8_t *, uint8_t *, size_t),
        (*compared)(void *, const uint8_t *, size_t);
} crypto;

static const struct {
    const char *name;
    void *place;
} calls[] = {
    {"SHA1_Init", &crypto.sha1},      {"SHA1_Update", &crypto.add_sha1},      {"SHA1_Final", &crypto.end_sha1},
    {"SHA256_Init", &crypto.sha256},  {"SHA256_Update", &crypto.add_sha256},  {"SHA256_Final", &crypto.end_sha256},
    {"SHA384_Init", &crypto.sha384},  {"SHA384_Update", &crypto.add_sha384},  {"SHA384_Final", &crypto.end_sha384},
    {"SHA512_Init", &crypto.sha512},  {"SHA512_Update", &crypto.add_sha512},  {"SHA512_Final", &crypto.end_sha512},
    {"MD5_Init", &crypto.md5},        {"MD5_Update", &crypto.add_md5},        {"MD5_Final", &crypto.end_md5},
    {"AES_set_encrypt_key", &crypto.encrypting}, {"AES_set_decrypt_key", &crypto.decrypting}, {"AES_cbc_encrypt", &crypto.cbc},
    {"AES_ecb_encrypt", &crypto.ecb}, {"AES_encrypt", &crypto.block}, {"CRYPTO_gcm128_new", &crypto.gcm}, {"CRYPTO_gcm128_setiv", &crypto.nonce}, {"CRYPTO_gcm128_aad", &crypto.beside},
    {"CRYPTO_gcm128_encrypt", &crypto.enciphered}, {"CRYPTO_gcm128_decrypt", &crypto.deciphered}, {"CRYPTO_gcm128_finish", &crypto.compared}, {"CRYPTO_gcm128_tag", &crypto.tag},
    {"CRYPTO_gcm128_release", &crypto.end_gcm},
};

static const KzDigest digests[] = {
    {L"SHA1", 20, 64, &crypto.sha1, &crypto.add_sha1, &crypto.end_sha1},
    {L"SHA256", 32, 64, &crypto.sha256, &crypto.add_sha256, &crypto.end_sha256},
    {L"SHA384", 48, 128, &crypto.sha384, &crypto.add_sha384, &crypto.end_sha384},
    {L"SHA512", 64, 128, &crypto.sha512, &crypto.add_sha512, &crypto.end_sha512},
    {L"MD5", 16, 64, &crypto.md5, &crypto.add_md5, &crypto.end_md5},
};

static void __attribute__((constructor)) begin(void)
{
    void *library = dlopen("libcrypto.so.3", RTLD_NOW | RTLD_LOCAL);
    bool is_whole = library != NULL;
    for (size_t at = 0; is_whole && at < sizeof calls / sizeof calls[0]; at++) {
        void *found = dlsym(library, calls[at].name);
        memcpy(calls[at].place, &found, sizeof found);
        is_whole = found != NULL;
    }
    crypto.library = is_whole ? library : NULL;
}

bool kz_has_libcrypto(void)
{
    return crypto.library != NULL;
}

const KzDigest *kz_digest_named(const WCHAR *name)
{
    for (size_t at = 0; at < sizeof digests / sizeof digests[0]; at++)
        if (KzWcscmp(digests[at].name, name) == 0)
            return &digests[at];
    return NULL;
}

bool kz_aes_key(const uint8_t *bytes, unsigned length, bool encrypts, KzCryptoRoom *key)
{
    return (encrypts ? crypto.encrypting : crypto.decrypting)(bytes, (int)length * 8, key) == 0;
}

void kz_aes(const KzCryptoRoom *key, bool encrypts, const uint8_t *from, uint8_t *to, size_t length, uint8_t *vector)
{
    if (vector) {
        crypto.cbc(from, to, length, key, vector, encrypts);
        return;
    }
    for (size_t at = 0; at < length; at += KZ_AES_BLOCK)
        crypto.ecb(from + at, to + at, key, encrypts);
}

bool kz_aes_gcm(const KzCryptoRoom *key, bool encrypts, const KzSealed *sealed)
{
    void *message = crypto.gcm(key, crypto.block);
    bool is_right = message != NULL;
    if (!is_right)
        return false;
    crypto.nonce(message, sealed->nonce, KZ_NONCE);
    if (sealed->beside_length)
        crypto.beside(message, sealed->beside, sealed->beside_length);
    if (sealed->length)
        (encrypts ? crypto.enciphered : crypto.deciphered)(message, sealed->from, sealed->to, sealed->length);
    if (encrypts)
        crypto.tag(message, sealed->tag, sealed->tag_length);
    else
        is_right = crypto.compared(message, sealed->tag, sealed->tag_length) == 0;
    if (!is_right && sealed->length)
        memset(sealed->to, 0, sealed->length);
    crypto.end_gcm(message);
    return is_right;
}
