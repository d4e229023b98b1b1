/* Cryptography of bcrypt.h but for ciphers: handles, properties, digests and their HMAC, keys that are derived from passwords, and numbers that are the same in each run. The algorithms are
 * libcrypto's; without it, and for others, a LIMIT is told. */
#include "core/client.h"
#include "core/irql.h"
#include "core/piece.h"
#include "core/told.h"
#include "kit/crypto.h"

static const ULONG tags[] = {'gAcB', 'hHcB', 'kKcB'};

/* ---- Handles. A call of one that wasn't opened for DISPATCH_LEVEL is for PASSIVE_LEVEL. */
NTSTATUS kz_crypto_limit(const char *call, const char *what)
{
    kz_tell(KZM_CRYPTO, call, "%s: it answers STATUS_NOT_SUPPORTED", what);
    return STATUS_NOT_SUPPORTED;
}

KzCrypto *kz_crypto_of(PVOID given, KzCryptoKind kind, const char *call)
{
    const KzPiece *piece = given ? kz_piece_of(given) : NULL;
    KzCrypto *handle = piece && piece->size == sizeof(KzCrypto) && piece->tag == tags[kind - KZ_ALGORITHM] ? given : NULL;
    if (!handle)
        kz_tell(KZM_NO_HANDLE, call, "no handle of that kind (closed twice?)");
    else if (!handle->is_for_dispatch)
        kz_may_be_called(call, PASSIVE_LEVEL);
    return handle;
}

NTSTATUS kz_make_crypto(KzCryptoKind kind, const KzCrypto *like, PVOID *given, const char *call)
{
    KzCrypto *made = kz_refuses(KZ_CHOICE_POOL, call) ? NULL : kz_take_memory(KZK_POOL, sizeof *made, 0, tags[kind - KZ_ALGORITHM]);
    *given = made;
    if (!made)
        return STATUS_NO_MEMORY;
    *made = *like;
    made->kind = kind;
    return STATUS_SUCCESS;
}

NTSTATUS kz_close_crypto(PVOID given, KzCryptoKind kind, const char *call)
{
    if (!kz_crypto_of(given, kind, call))
        return STATUS_INVALID_HANDLE;
    kz_give_back(given);
    return STATUS_SUCCESS;
}

/* The algorithms that bcrypt.h has numbers for, which nobody opens. */
static const struct {
    BCRYPT_ALG_HANDLE number;
    LPCWSTR name;
    KzCryptoMode mode;
    bool is_hmac;
} numbered[] = {
    {BCRYPT_MD5_ALG_HANDLE, BCRYPT_MD5_ALGORITHM, 0, false},
    {BCRYPT_SHA1_ALG_HANDLE, BCRYPT_SHA1_ALGORITHM, 0, false},
    {BCRYPT_SHA256_ALG_HANDLE, BCRYPT_SHA256_ALGORITHM, 0, false},
    {BCRYPT_SHA384_ALG_HANDLE, BCRYPT_SHA384_ALGORITHM, 0, false},
    {BCRYPT_SHA512_ALG_HANDLE, BCRYPT_SHA512_ALGORITHM, 0, false},
    {BCRYPT_HMAC_MD5_ALG_HANDLE, BCRYPT_MD5_ALGORITHM, 0, true},
    {BCRYPT_HMAC_SHA1_ALG_HANDLE, BCRYPT_SHA1_ALGORITHM, 0, true},
    {BCRYPT_HMAC_SHA256_ALG_HANDLE, BCRYPT_SHA256_ALGORITHM, 0, true},
    {BCRYPT_HMAC_SHA384_ALG_HANDLE, BCRYPT_SHA384_ALGORITHM, 0, true},
    {BCRYPT_HMAC_SHA512_ALG_HANDLE, BCRYPT_SHA512_ALGORITHM, 0, true},
    {BCRYPT_AES_CBC_ALG_HANDLE, BCRYPT_AES_ALGORITHM, KZ_CBC, false},
    {BCRYPT_AES_ECB_ALG_HANDLE, BCRYPT_AES_ALGORITHM, KZ_ECB, false},
    {BCRYPT_AES_GCM_ALG_HANDLE, BCRYPT_AES_ALGORITHM, KZ_GCM, false},
    {BCRYPT_RNG_ALG_HANDLE, BCRYPT_RNG_ALGORITHM, 0, false},
};

static bool is_numbered(PVOID given, KzCrypto *made)
{
    for (size_t at = 0; at < sizeof numbered / sizeof numbered[0] && kz_has_libcrypto(); at++)
        if (numbered[at].number == given) {
            *made = (KzCrypto){.kind = KZ_ALGORITHM, .digest = kz_digest_named(numbered[at].name), .mode = numbered[at].mode, .is_hmac = numbered[at].is_hmac, .is_for_dispatch = true};
            made->is_aes = KzWcscmp(numbered[at].name, BCRYPT_AES_ALGORITHM) == 0;
            return true;
        }
    return false;
}

/* A number that isn't one of these is of another algorithm, or the library is missing. */
const KzCrypto *kz_algorithm_of(PVOID given, KzCrypto *room, NTSTATUS *status, const char *call)
{
    if (is_numbered(given, room))
        return room;
    if (given && (ULONG_PTR)given < 0x1000) {
        *status = kz_crypto_limit(call, kz_has_libcrypto() ? "an algorithm that isn't modelled" : "libcrypto.so.3 isn't on this machine");
        return NULL;
    }
    *status = STATUS_INVALID_HANDLE;
    return kz_crypto_of(given, KZ_ALGORITHM, call);
}

NTSTATUS BCryptOpenAlgorithmProvider(BCRYPT_ALG_HANDLE *phAlgorithm, LPCWSTR pszAlgId, LPCWSTR pszImplementation, ULONG dwFlags)
{
    KZ_INSIDE_ALONE();
    kz_gives(phAlgorithm);
    (void)pszImplementation;
    *phAlgorithm = NULL;
    kz_may_be_called(__func__, PASSIVE_LEVEL);
    KzCrypto made = {.digest = kz_digest_named(pszAlgId), .is_hmac = dwFlags & BCRYPT_ALG_HANDLE_HMAC_FLAG, .is_for_dispatch = dwFlags & BCRYPT_PROV_DISPATCH};
    made.is_aes = KzWcscmp(pszAlgId, BCRYPT_AES_ALGORITHM) == 0;
    if (!kz_has_libcrypto())
        return kz_crypto_limit(__func__, "libcrypto.so.3 isn't on this machine");
    if (!made.digest && !made.is_aes && KzWcscmp(pszAlgId, BCRYPT_RNG_ALGORITHM) != 0)
        return kz_crypto_limit(__func__, "an algorithm that isn't modelled");
    return kz_make_crypto(KZ_ALGORITHM, &made, phAlgorithm, __func__);
}

NTSTATUS BCryptCloseAlgorithmProvider(BCRYPT_ALG_HANDLE hAlgorithm, ULONG dwFlags)
{
    KZ_INSIDE_ALONE();
    kz_uses_object(hAlgorithm, KZU_WRITES);
    (void)dwFlags;
    return kz_close_crypto(hAlgorithm, KZ_ALGORITHM, __func__);
}

/* ---- Properties. */
typedef union {
    ULONG number;
    BCRYPT_KEY_LENGTHS_STRUCT lengths;
    WCHAR text[16];
} Property;

static const LPCWSTR modes[] = {BCRYPT_CHAIN_MODE_CBC, BCRYPT_CHAIN_MODE_ECB, BCRYPT_CHAIN_MODE_GCM};

static bool number_of(const KzCrypto *handle, LPCWSTR property, ULONG *number)
{
    if (KzWcscmp(property, BCRYPT_OBJECT_LENGTH) == 0)
        *number = handle->digest ? 326 : 654;
    else if (KzWcscmp(property, BCRYPT_HASH_LENGTH) == 0 && handle->digest)
        *number = handle->digest->size;
    else if (KzWcscmp(property, BCRYPT_BLOCK_LENGTH) == 0 && handle->is_aes)
        *number = KZ_AES_BLOCK;
    else if (KzWcscmp(property, BCRYPT_HASH_BLOCK_LENGTH) == 0 && handle->digest)
        *number = handle->digest->block;
    else if (KzWcscmp(property, BCRYPT_KEY_LENGTH) == 0 && handle->kind == KZ_KEY)
        *number = handle->key_length * 8;
    else
        return false;
    return true;
}

/* How many bytes it has; 0: it isn't modelled. */
static ULONG property_of(const KzCrypto *handle, LPCWSTR property, Property *to)
{
    if (number_of(handle, property, &to->number))
        return sizeof to->number;
    if (handle->is_aes && KzWcscmp(property, BCRYPT_CHAINING_MODE) == 0) {
        memcpy(to->text, modes[handle->mode], sizeof to->text);
        return sizeof to->text;
    }
    if (handle->is_aes && KzWcscmp(property, BCRYPT_KEY_LENGTHS) == 0)
        to->lengths = (BCRYPT_KEY_LENGTHS_STRUCT){128, 256, 64};
    else if (handle->mode == KZ_GCM && KzWcscmp(property, BCRYPT_AUTH_TAG_LENGTH) == 0)
        to->lengths = (BCRYPT_KEY_LENGTHS_STRUCT){KZ_TAG_LEAST, KZ_AES_BLOCK, 1};
    else
        return 0;
    return sizeof to->lengths;
}

static PVOID any_of(PVOID given, const char *call)
{
    const KzPiece *piece = given ? kz_piece_of(given) : NULL;
    return kz_crypto_of(given, piece && piece->tag == tags[2] ? KZ_KEY : piece && piece->tag == tags[1] ? KZ_HASH : KZ_ALGORITHM, call);
}

NTSTATUS BCryptGetProperty(BCRYPT_HANDLE hObject, LPCWSTR pszProperty, PUCHAR pbOutput, ULONG cbOutput, ULONG *pcbResult, ULONG dwFlags)
{
    KZ_INSIDE_ALONE();
    kz_uses_object(hObject, KZU_READS);
    kz_uses_bytes(pbOutput, pbOutput ? cbOutput : 0, KZU_WRITES);
    kz_gives(pcbResult);
    (void)dwFlags;
    KzCrypto room;
    Property property;
    const KzCrypto *handle = is_numbered(hObject, &room) ? &room : any_of(hObject, __func__);
    if (!handle)
        return STATUS_INVALID_HANDLE;
    ULONG length = property_of(handle, pszProperty, &property);
    if (!length)
        return kz_crypto_limit(__func__, "a property that isn't modelled");
    *pcbResult = length;
    if (!pbOutput)
        return STATUS_SUCCESS;
    if (cbOutput < length)
        return STATUS_BUFFER_TOO_SMALL;
    memcpy(pbOutput, &property, length);
    return STATUS_SUCCESS;
}

NTSTATUS BCryptSetProperty(BCRYPT_HANDLE hObject, LPCWSTR pszProperty, PUCHAR pbInput, ULONG cbInput, ULONG dwFlags)
{
    KZ_INSIDE_ALONE();
    kz_uses_object(hObject, KZU_WRITES);
    kz_uses_bytes(pbInput, cbInput, KZU_READS);
    (void)cbInput, (void)dwFlags;
    KzCrypto *handle = any_of(hObject, __func__);
    if (!handle)
        return STATUS_INVALID_HANDLE;
    for (size_t at = 0; at < sizeof modes / sizeof modes[0] && handle->is_aes && KzWcscmp(pszProperty, BCRYPT_CHAINING_MODE) == 0; at++)
        if (KzWcscmp((LPCWSTR)(PVOID)pbInput, modes[at]) == 0) {
            handle->mode = (KzCryptoMode)at;
            return STATUS_SUCCESS;
        }
    return kz_crypto_limit(__func__, "a property, or a chaining mode, that isn't modelled");
}

/* ---- Digests. In an HMAC the key stands before the bytes, and once more before what they came to. */
static void put_key(KzCrypto *made, const uint8_t *secret, ULONG length)
{
    uint8_t key[128] = {0}, padded[128];
    const KzDigest *digest = made->digest;
    if (length > digest->block) {
        (*digest->begin)(&made->state);
        (*digest->add)(&made->state, secret, length);
        (*digest->end)(key, &made->state);
    } else if (length) {
        memcpy(key, secret, length);
    }
    for (unsigned at = 0; at < 2 * digest->block; at++) {
        padded[at % digest->block] = (uint8_t)(key[at % digest->block] ^ (at < digest->block ? 0x5c : 0x36));
        if (at + 1 == digest->block) {
            (*digest->begin)(&made->outer);
            (*digest->add)(&made->outer, padded, digest->block);
        }
    }
    (*digest->begin)(&made->state);
    (*digest->add)(&made->state, padded, digest->block);
}

static void begin_hash(KzCrypto *made, const uint8_t *secret, ULONG length)
{
    if (made->is_hmac)
        put_key(made, secret, length);
    else
        (*made->digest->begin)(&made->state);
    made->beginning = made->state;
}

static void end_hash(KzCrypto *handle, uint8_t *to)
{
    const KzDigest *digest = handle->digest;
    (*digest->end)(to, &handle->state);
    if (!handle->is_hmac)
        return;
    KzCryptoRoom outer = handle->outer;
    (*digest->add)(&outer, to, digest->size);
    (*digest->end)(to, &outer);
}

NTSTATUS BCryptCreateHash(BCRYPT_ALG_HANDLE hAlgorithm, BCRYPT_HASH_HANDLE *phHash, PUCHAR pbHashObject, ULONG cbHashObject, PUCHAR pbSecret, ULONG cbSecret, ULONG dwFlags)
{
    KZ_INSIDE_ALONE();
    kz_uses_object(hAlgorithm, KZU_READS);
    kz_uses_bytes(pbSecret, cbSecret, KZU_READS);
    kz_gives(phHash);
    *phHash = NULL;
    KzCrypto made;
    NTSTATUS status;
    const KzCrypto *algorithm = kz_algorithm_of(hAlgorithm, &made, &status, __func__);
    if (!algorithm)
        return status;
    if (!algorithm->digest || (cbSecret && !algorithm->is_hmac))
        return STATUS_INVALID_PARAMETER;
    if (pbHashObject && cbHashObject < 326)
        return STATUS_BUFFER_TOO_SMALL;
    made = *algorithm;
    made.is_reusable = dwFlags & BCRYPT_HASH_REUSABLE_FLAG;
    begin_hash(&made, pbSecret, cbSecret);
    return kz_make_crypto(KZ_HASH, &made, phHash, __func__);
}

NTSTATUS BCryptDuplicateHash(BCRYPT_HASH_HANDLE hHash, BCRYPT_HASH_HANDLE *phNewHash, PUCHAR pbHashObject, ULONG cbHashObject, ULONG dwFlags)
{
    KZ_INSIDE_ALONE();
    kz_uses_object(hHash, KZU_READS);
    kz_gives(phNewHash);
    (void)pbHashObject, (void)cbHashObject, (void)dwFlags;
    *phNewHash = NULL;
    const KzCrypto *handle = kz_crypto_of(hHash, KZ_HASH, __func__);
    return handle ? kz_make_crypto(KZ_HASH, handle, phNewHash, __func__) : STATUS_INVALID_HANDLE;
}

NTSTATUS BCryptHashData(BCRYPT_HASH_HANDLE hHash, PUCHAR pbInput, ULONG cbInput, ULONG dwFlags)
{
    KZ_INSIDE_ALONE();
    kz_uses_object(hHash, KZU_WRITES);
    kz_uses_bytes(pbInput, cbInput, KZU_READS);
    (void)dwFlags;
    KzCrypto *handle = kz_crypto_of(hHash, KZ_HASH, __func__);
    if (!handle)
        return STATUS_INVALID_HANDLE;
    (*handle->digest->add)(&handle->state, pbInput, kz_there(pbInput, cbInput, "pbInput"));
    return STATUS_SUCCESS;
}

NTSTATUS BCryptFinishHash(BCRYPT_HASH_HANDLE hHash, PUCHAR pbOutput, ULONG cbOutput, ULONG dwFlags)
{
    KZ_INSIDE_ALONE();
    kz_uses_object(hHash, KZU_WRITES);
    kz_uses_bytes(pbOutput, cbOutput, KZU_WRITES);
    (void)dwFlags;
    uint8_t made[KZ_DIGEST_MOST];
    KzCrypto *handle = kz_crypto_of(hHash, KZ_HASH, __func__);
    if (!handle)
        return STATUS_INVALID_HANDLE;
    if (cbOutput != handle->digest->size)
        return STATUS_INVALID_PARAMETER;
    end_hash(handle, made);
    memcpy(pbOutput, made, cbOutput);
    handle->state = handle->beginning;
    return STATUS_SUCCESS;
}

NTSTATUS BCryptDestroyHash(BCRYPT_HASH_HANDLE hHash)
{
    KZ_INSIDE_ALONE();
    kz_uses_object(hHash, KZU_WRITES);
    return kz_close_crypto(hHash, KZ_HASH, __func__);
}

NTSTATUS BCryptHash(BCRYPT_ALG_HANDLE hAlgorithm, PUCHAR pbSecret, ULONG cbSecret, PUCHAR pbInput, ULONG cbInput, PUCHAR pbOutput, ULONG cbOutput)
{
    KZ_INSIDE_ALONE();
    kz_uses_object(hAlgorithm, KZU_READS);
    kz_uses_bytes(pbSecret, cbSecret, KZU_READS);
    kz_uses_bytes(pbInput, cbInput, KZU_READS);
    kz_uses_bytes(pbOutput, cbOutput, KZU_WRITES);
    KzCrypto made;
    NTSTATUS status;
    const KzCrypto *algorithm = kz_algorithm_of(hAlgorithm, &made, &status, __func__);
    if (!algorithm)
        return status;
    if (!algorithm->digest || (cbSecret && !algorithm->is_hmac) || cbOutput != algorithm->digest->size)
        return STATUS_INVALID_PARAMETER;
    made = *algorithm;
    begin_hash(&made, pbSecret, cbSecret);
    (*made.digest->add)(&made.state, pbInput, kz_there(pbInput, cbInput, "pbInput"));
    end_hash(&made, pbOutput);
    return STATUS_SUCCESS;
}

/* ---- Keys from passwords, as RFC 8018 has PBKDF2: each block of the key is what an HMAC of the salt and its number came to, and that again and again, by exclusive or. */
typedef struct {
    const uint8_t *salt;
    ULONG length;
    ULONGLONG turns;
} Salted;

static void put_block(uint8_t *to, const KzCrypto *keyed, const Salted *salted, ULONG number)
{
    uint8_t made[KZ_DIGEST_MOST], place[4] = {(uint8_t)(number >> 24), (uint8_t)(number >> 16), (uint8_t)(number >> 8), (uint8_t)number};
    KzCrypto now = *keyed;
    (*now.digest->add)(&now.state, salted->salt, salted->length);
    (*now.digest->add)(&now.state, place, sizeof place);
    end_hash(&now, made);
    memcpy(to, made, now.digest->size);
    for (ULONGLONG turn = 1; turn < salted->turns; turn++) {
        now.state = keyed->state;
        (*now.digest->add)(&now.state, made, now.digest->size);
        end_hash(&now, made);
        for (unsigned at = 0; at < now.digest->size; at++)
            to[at] ^= made[at];
    }
}

NTSTATUS BCryptDeriveKeyPBKDF2(BCRYPT_ALG_HANDLE hPrf, PUCHAR pbPassword, ULONG cbPassword, PUCHAR pbSalt, ULONG cbSalt, ULONGLONG cIterations, PUCHAR pbDerivedKey, ULONG cbDerivedKey, ULONG dwFlags)
{
    KZ_INSIDE_ALONE();
    kz_uses_object(hPrf, KZU_READS);
    kz_uses_bytes(pbPassword, cbPassword, KZU_READS);
    kz_uses_bytes(pbSalt, cbSalt, KZU_READS);
    kz_uses_bytes(pbDerivedKey, cbDerivedKey, KZU_WRITES);
    KzCrypto keyed;
    NTSTATUS status;
    uint8_t block[KZ_DIGEST_MOST];
    const KzCrypto *algorithm = kz_algorithm_of(hPrf, &keyed, &status, __func__);
    if (!algorithm)
        return status;
    if (!algorithm->digest || !algorithm->is_hmac || !cIterations || !pbDerivedKey || !cbDerivedKey || dwFlags)
        return STATUS_INVALID_PARAMETER;
    keyed = *algorithm;
    begin_hash(&keyed, pbPassword, (ULONG)kz_there(pbPassword, cbPassword, "pbPassword"));
    const Salted salted = {pbSalt, (ULONG)kz_there(pbSalt, cbSalt, "pbSalt"), cIterations};
    for (ULONG at = 0; at < cbDerivedKey; at += keyed.digest->size) {
        put_block(block, &keyed, &salted, at / keyed.digest->size + 1);
        memcpy(pbDerivedKey + at, block, cbDerivedKey - at < keyed.digest->size ? cbDerivedKey - at : keyed.digest->size);
    }
    return STATUS_SUCCESS;
}

/* ---- Numbers: digests of a count, so that each run has the same. */
static void put_numbers(uint8_t *to, ULONG length, const KzDigest *digest, ULONG number)
{
    for (ULONG at = 0; at < length; at += digest->size) {
        uint8_t made[KZ_DIGEST_MOST];
        ULONG seed[] = {0x4b617a, number, at};
        KzCryptoRoom room;
        (*digest->begin)(&room);
        (*digest->add)(&room, seed, sizeof seed);
        (*digest->end)(made, &room);
        memcpy(to + at, made, length - at < digest->size ? length - at : digest->size);
    }
}

NTSTATUS BCryptGenRandom(BCRYPT_ALG_HANDLE hAlgorithm, PUCHAR pbBuffer, ULONG cbBuffer, ULONG dwFlags)
{
    KZ_INSIDE_ALONE();
    kz_scheduler->uses(&kz.uuids, KZU_WRITES);
    kz_uses_bytes(pbBuffer, cbBuffer, KZU_WRITES);
    KzCrypto made;
    NTSTATUS status;
    bool is_preferred = dwFlags & BCRYPT_USE_SYSTEM_PREFERRED_RNG;
    if (!is_preferred && !kz_algorithm_of(hAlgorithm, &made, &status, __func__))
        return status;
    if (!kz_has_libcrypto())
        return kz_crypto_limit(__func__, "libcrypto.so.3 isn't on this machine");
    put_numbers(pbBuffer, cbBuffer, kz_digest_named(BCRYPT_SHA256_ALGORITHM), ++kz.uuids);
    return STATUS_SUCCESS;
}
