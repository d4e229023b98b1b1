/* What the calls of bcrypt.h share: their handles. */
#ifndef KZ_KIT_CRYPTO_H
#define KZ_KIT_CRYPTO_H

#include "kit/libcrypto.h"

#include <bcrypt.h>

typedef enum { KZ_ALGORITHM = 0x42430001, KZ_HASH, KZ_KEY } KzCryptoKind;
typedef enum { KZ_CBC, KZ_ECB, KZ_GCM } KzCryptoMode;

/* A handle: a piece of the driver's pool, so that one which is left is told as that. */
typedef struct {
    KzCryptoKind kind;
    const KzDigest *digest; /* NULL: AES, or numbers */
    KzCryptoMode mode;      /* of AES */
    bool is_hmac, is_aes, is_for_dispatch, is_reusable;
    KzCryptoRoom state, beginning, outer; /* of a digest: so far, as it began, and around it in an HMAC */
    KzCryptoRoom encrypts, decrypts;      /* of a key */
    ULONG key_length;
} KzCrypto;

NTSTATUS kz_crypto_limit(const char *call, const char *what);
/* NULL, which is told, if it is none of that kind. */
KzCrypto *kz_crypto_of(PVOID given, KzCryptoKind kind, const char *call);
/* That of an algorithm, which may be a number of bcrypt.h's: then it is in that room. NULL with a status, which is told. */
const KzCrypto *kz_algorithm_of(PVOID given, KzCrypto *room, NTSTATUS *status, const char *call);
NTSTATUS kz_make_crypto(KzCryptoKind kind, const KzCrypto *like, PVOID *given, const char *call);
NTSTATUS kz_close_crypto(PVOID given, KzCryptoKind kind, const char *call);

#endif
