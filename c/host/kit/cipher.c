/* Ciphers of bcrypt.h: AES by CBC, ECB and GCM. */
#include "core/client.h"
#include "core/piece.h"
#include "kit/crypto.h"

/* ---- Keys. */
NTSTATUS BCryptGenerateSymmetricKey(BCRYPT_ALG_HANDLE hAlgorithm, BCRYPT_KEY_HANDLE *phKey, PUCHAR pbKeyObject, ULONG cbKeyObject, PUCHAR pbSecret, ULONG cbSecret, ULONG dwFlags)
{
    KZ_INSIDE_ALONE();
    kz_uses_object(hAlgorithm, KZU_READS);
    kz_uses_bytes(pbSecret, cbSecret, KZU_READS);
    kz_gives(phKey);
    (void)dwFlags;
    *phKey = NULL;
    KzCrypto made;
    NTSTATUS status;
    const KzCrypto *algorithm = kz_algorithm_of(hAlgorithm, &made, &status, __func__);
    if (!algorithm)
        return status;
    if (!algorithm->is_aes || (cbSecret != 16 && cbSecret != 24 && cbSecret != 32))
        return STATUS_INVALID_PARAMETER;
    if (pbKeyObject && cbKeyObject < 654)
        return STATUS_BUFFER_TOO_SMALL;
    made = *algorithm;
    made.key_length = cbSecret;
    kz_aes_key(pbSecret, cbSecret, true, &made.encrypts);
    kz_aes_key(pbSecret, cbSecret, false, &made.decrypts);
    return kz_make_crypto(KZ_KEY, &made, phKey, __func__);
}

NTSTATUS BCryptImportKey(BCRYPT_ALG_HANDLE hAlgorithm, BCRYPT_KEY_HANDLE hImportKey, LPCWSTR pszBlobType, BCRYPT_KEY_HANDLE *phKey, PUCHAR pbKeyObject, ULONG cbKeyObject, PUCHAR pbInput,
                         ULONG cbInput, ULONG dwFlags)
{
    KZ_INSIDE_ALONE();
    kz_uses_object(hAlgorithm, KZU_READS);
    kz_uses_bytes(pbInput, cbInput, KZU_READS);
    kz_gives(phKey);
    const BCRYPT_KEY_DATA_BLOB_HEADER *blob = (PVOID)pbInput;
    *phKey = NULL;
    if (hImportKey || KzWcscmp(pszBlobType, BCRYPT_KEY_DATA_BLOB) != 0)
        return kz_crypto_limit(__func__, "a form of keys that isn't modelled");
    if (cbInput < sizeof *blob || blob->dwMagic != BCRYPT_KEY_DATA_BLOB_MAGIC || blob->dwVersion != BCRYPT_KEY_DATA_BLOB_VERSION1 || cbInput - sizeof *blob < blob->cbKeyData)
        return STATUS_INVALID_PARAMETER;
    return BCryptGenerateSymmetricKey(hAlgorithm, phKey, pbKeyObject, cbKeyObject, pbInput + sizeof *blob, blob->cbKeyData, dwFlags);
}

NTSTATUS BCryptDestroyKey(BCRYPT_KEY_HANDLE hKey)
{
    KZ_INSIDE_ALONE();
    kz_uses_object(hKey, KZU_WRITES);
    return kz_close_crypto(hKey, KZ_KEY, __func__);
}

/* ---- GCM: bytes of any length, with others beside them that aren't enciphered, and a tag of both. Where neither bytes nor room for them are given, the tag alone is made or compared. */
typedef struct {
    PUCHAR from, to;
    ULONG length, room, *result, flags;
    const BCRYPT_AUTHENTICATED_CIPHER_MODE_INFO *info;
} Sealing;

static bool is_right(const Sealing *sealing)
{
    const BCRYPT_AUTHENTICATED_CIPHER_MODE_INFO *info = sealing->info;
    return info && info->cbSize == sizeof *info && info->dwInfoVersion == BCRYPT_AUTHENTICATED_CIPHER_MODE_INFO_VERSION && info->pbNonce && info->cbNonce == KZ_NONCE && info->pbTag &&
           info->cbTag >= KZ_TAG_LEAST && info->cbTag <= KZ_AES_BLOCK && !(sealing->flags & BCRYPT_BLOCK_PADDING);
}

static NTSTATUS seal(KzCrypto *key, bool encrypts, const Sealing *sealing, const char *call)
{
    const BCRYPT_AUTHENTICATED_CIPHER_MODE_INFO *info = sealing->info;
    if (!is_right(sealing))
        return STATUS_INVALID_PARAMETER;
    if (info->dwFlags & BCRYPT_AUTH_MODE_CHAIN_CALLS_FLAG)
        return kz_crypto_limit(call, "GCM by several calls isn't modelled");
    ULONG length = sealing->from ? sealing->length : 0;
    *sealing->result = length;
    if (!sealing->to && sealing->from)
        return STATUS_SUCCESS;
    if (sealing->room < length)
        return STATUS_BUFFER_TOO_SMALL;
    KzSealed sealed = {.nonce = info->pbNonce, .beside = info->pbAuthData, .beside_length = info->pbAuthData ? kz_there(info->pbAuthData, info->cbAuthData, "pbAuthData") : 0};
    sealed.from = sealing->from;
    sealed.length = kz_there(sealing->from, length, "pbInput");
    sealed.to = sealing->to;
    sealed.tag = info->pbTag;
    sealed.tag_length = info->cbTag;
    if (!kz_aes_gcm(&key->encrypts, encrypts, &sealed))
        return encrypts ? STATUS_NO_MEMORY : STATUS_AUTH_TAG_MISMATCH;
    return STATUS_SUCCESS;
}

/* ---- CBC and ECB. */
/* What is asked for both ways: the key, and the vector, which is left as it came to be. */
typedef struct {
    KzCrypto *key;
    uint8_t *vector, none[KZ_AES_BLOCK];
} Asked;

static NTSTATUS ask(Asked *asked, PVOID key, PVOID padding, PUCHAR vector, ULONG vector_length, const char *call)
{
    *asked = (Asked){.key = kz_crypto_of(key, KZ_KEY, call)};
    if (!asked->key)
        return STATUS_INVALID_HANDLE;
    if (asked->key->mode == KZ_GCM)
        return STATUS_SUCCESS;
    if (padding || (vector && vector_length != KZ_AES_BLOCK))
        return STATUS_INVALID_PARAMETER;
    asked->vector = asked->key->mode == KZ_ECB ? NULL : vector ? vector : asked->none;
    return STATUS_SUCCESS;
}

NTSTATUS BCryptEncrypt(BCRYPT_KEY_HANDLE hKey, PUCHAR pbInput, ULONG cbInput, VOID *pPaddingInfo, PUCHAR pbIV, ULONG cbIV, PUCHAR pbOutput, ULONG cbOutput, ULONG *pcbResult, ULONG dwFlags)
{
    KZ_INSIDE_ALONE();
    kz_uses_object(hKey, KZU_READS);
    kz_uses_bytes(pbInput, cbInput, KZU_READS);
    kz_uses_bytes(pbIV, pbIV ? cbIV : 0, KZU_WRITES);
    kz_uses_bytes(pbOutput, pbOutput ? cbOutput : 0, KZU_WRITES);
    kz_gives(pcbResult);
    if (pPaddingInfo)
        kz_uses_all();
    Asked asked;
    uint8_t last[KZ_AES_BLOCK];
    NTSTATUS status = ask(&asked, hKey, pPaddingInfo, pbIV, cbIV, __func__);
    if (!NT_SUCCESS(status))
        return status;
    if (asked.key->mode == KZ_GCM)
        return seal(asked.key, true, &(Sealing){pbInput, pbOutput, cbInput, cbOutput, pcbResult, dwFlags, pPaddingInfo}, __func__);
    ULONG whole = cbInput / KZ_AES_BLOCK * KZ_AES_BLOCK, rest = cbInput - whole, padded = dwFlags & BCRYPT_BLOCK_PADDING ? KZ_AES_BLOCK : 0;
    if (rest && !padded)
        return STATUS_INVALID_BUFFER_SIZE;
    *pcbResult = whole + padded;
    if (!pbOutput)
        return STATUS_SUCCESS;
    if (cbOutput < whole + padded)
        return STATUS_BUFFER_TOO_SMALL;
    memset(last, (int)(KZ_AES_BLOCK - rest), sizeof last); /* as PKCS #7 has it */
    if (rest)
        memcpy(last, pbInput + whole, rest);
    if (whole)
        kz_aes(&asked.key->encrypts, true, pbInput, pbOutput, whole, asked.vector);
    if (padded)
        kz_aes(&asked.key->encrypts, true, last, pbOutput + whole, padded, asked.vector);
    return STATUS_SUCCESS;
}

NTSTATUS BCryptDecrypt(BCRYPT_KEY_HANDLE hKey, PUCHAR pbInput, ULONG cbInput, VOID *pPaddingInfo, PUCHAR pbIV, ULONG cbIV, PUCHAR pbOutput, ULONG cbOutput, ULONG *pcbResult, ULONG dwFlags)
{
    KZ_INSIDE_ALONE();
    kz_uses_object(hKey, KZU_READS);
    kz_uses_bytes(pbInput, cbInput, KZU_READS);
    kz_uses_bytes(pbIV, pbIV ? cbIV : 0, KZU_WRITES);
    kz_uses_bytes(pbOutput, pbOutput ? cbOutput : 0, KZU_WRITES);
    kz_gives(pcbResult);
    if (pPaddingInfo)
        kz_uses_all();
    Asked asked;
    uint8_t last[KZ_AES_BLOCK];
    bool is_padded = dwFlags & BCRYPT_BLOCK_PADDING;
    NTSTATUS status = ask(&asked, hKey, pPaddingInfo, pbIV, cbIV, __func__);
    if (!NT_SUCCESS(status))
        return status;
    if (asked.key->mode == KZ_GCM)
        return seal(asked.key, false, &(Sealing){pbInput, pbOutput, cbInput, cbOutput, pcbResult, dwFlags, pPaddingInfo}, __func__);
    if (cbInput % KZ_AES_BLOCK || (is_padded && !cbInput))
        return STATUS_INVALID_BUFFER_SIZE;
    ULONG whole = cbInput - (is_padded ? KZ_AES_BLOCK : 0);
    *pcbResult = cbInput;
    if (!pbOutput)
        return STATUS_SUCCESS;
    if (cbOutput < whole)
        return STATUS_BUFFER_TOO_SMALL;
    memcpy(last, is_padded ? pbInput + whole : last, is_padded ? sizeof last : 0);
    if (whole)
        kz_aes(&asked.key->decrypts, false, pbInput, pbOutput, whole, asked.vector);
    *pcbResult = whole;
    if (!is_padded)
        return STATUS_SUCCESS;
    kz_aes(&asked.key->decrypts, false, last, last, sizeof last, asked.vector);
    uint8_t more = last[KZ_AES_BLOCK - 1];
    if (!more || more > KZ_AES_BLOCK || last[KZ_AES_BLOCK - more] != more)
        return STATUS_DATA_ERROR;
    *pcbResult = cbInput - more;
    if (cbOutput < *pcbResult)
        return STATUS_BUFFER_TOO_SMALL;
    memcpy(pbOutput + whole, last, (size_t)(KZ_AES_BLOCK - more));
    return STATUS_SUCCESS;
}
