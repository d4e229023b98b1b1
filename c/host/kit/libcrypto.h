/* Algorithms of OpenSSL's libcrypto: those of its calls that keep nothing of their own. */
#ifndef KZ_KIT_LIBCRYPTO_H
#define KZ_KIT_LIBCRYPTO_H

#include "host.h"

/* A tag of GCM has 12 to 16 bytes in bcrypt.h, and a nonce 12. */
enum { KZ_DIGEST_MOST = 64, KZ_AES_BLOCK = 16, KZ_TAG_LEAST = 12, KZ_NONCE = 12 };

/* What a digest came to so far, and a key with its rounds: as libcrypto lays them out. */
typedef union {
    uint8_t bytes[256];
    uint64_t aligned;
} KzCryptoRoom;

typedef struct {
    const WCHAR *name; /* as bcrypt.h has it */
    unsigned size, block;
    int (**begin)(void *room);
    int (**add)(void *room, const void *bytes, size_t length);
    int (**end)(uint8_t *to, void *room);
} KzDigest;

/* Whether the library was there as the program began. */
bool kz_has_libcrypto(void);
const KzDigest *kz_digest_named(const WCHAR *name);
/* Of 16, 24 or 32 bytes. */
bool kz_aes_key(const uint8_t *bytes, unsigned length, bool encrypts, KzCryptoRoom *key);
/* Whole blocks; the vector is left as the next call needs it. Without one each block is by itself. */
void kz_aes(const KzCryptoRoom *key, bool encrypts, const uint8_t *from, uint8_t *to, size_t length, uint8_t *vector);

/* A message of GCM: its bytes, and those beside it that stay as they are. */
typedef struct {
    const uint8_t *nonce, *beside, *from;
    size_t beside_length, length;
    uint8_t *to, *tag; /* a tag is made, or compared */
    size_t tag_length;
} KzSealed;

/* By the key that encrypts, both ways. False: there is no memory, or the tag is another one; then what was deciphered is zeroed. */
bool kz_aes_gcm(const KzCryptoRoom *key, bool encrypts, const KzSealed *sealed);

#endif
