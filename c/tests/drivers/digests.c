/* A filter that makes digests and enciphers as the test vectors of the standards say: SHA-256 and SHA-384 of FIPS 180-2, an HMAC of RFC 4231, AES of SP 800-38A, its GCM as the test cases of
 * its specification have it, PBKDF2 of RFC 6070 and RFC 7914; and numbers, which differ from each other. */
#include <fltKernel.h>
#include <bcrypt.h>

static PFLT_FILTER gFilter;

static VOID Show(_In_ PCSTR What, _In_ NTSTATUS Status, _In_reads_(Length) const UCHAR *Bytes, _In_ ULONG Length)
{
    CHAR text[2 * 64 + 1] = "";
    ULONG at;

    for (at = 0; at < Length; at++) {
        sprintf_s(text + 2 * at, sizeof(text) - 2 * at, "%02x", Bytes[at]);
    }
    DbgPrint("%s: %08x %s\n", What, Status, text);
}

static VOID Digests(VOID)
{
    BCRYPT_ALG_HANDLE algorithm, hmac;
    BCRYPT_HASH_HANDLE hash, other;
    UCHAR made[32];
    ULONG length = 0, done;
    NTSTATUS status = BCryptOpenAlgorithmProvider(&algorithm, BCRYPT_SHA256_ALGORITHM, NULL, BCRYPT_PROV_DISPATCH);

    if (!NT_SUCCESS(status)) {
        DbgPrint("BCryptOpenAlgorithmProvider: %08x\n", status);
        return;
    }
    status = BCryptGetProperty(algorithm, BCRYPT_HASH_LENGTH, (PUCHAR)&length, sizeof(length), &done, 0);
    DbgPrint("BCryptGetProperty: %08x, %u bytes\n", status, length);
    status = BCryptCreateHash(algorithm, &hash, NULL, 0, NULL, 0, BCRYPT_HASH_REUSABLE_FLAG);
    if (NT_SUCCESS(status)) {
        BCryptHashData(hash, (PUCHAR)"ab", 2, 0);
        BCryptDuplicateHash(hash, &other, NULL, 0, 0);
        BCryptHashData(hash, (PUCHAR)"c", 1, 0);
        Show("too short", BCryptFinishHash(hash, made, 16, 0), NULL, 0);
        status = BCryptFinishHash(hash, made, sizeof(made), 0);
        Show("SHA256 of abc", status, made, sizeof(made));
        BCryptHashData(other, (PUCHAR)"c", 1, 0);
        status = BCryptFinishHash(other, made, sizeof(made), 0);
        Show("and of its copy", status, made, sizeof(made));
        status = BCryptFinishHash(hash, made, sizeof(made), 0);
        Show("and of nothing", status, made, sizeof(made));
        BCryptDestroyHash(hash);
        BCryptDestroyHash(other);
    }
    BCryptCloseAlgorithmProvider(algorithm, 0);
    status = BCryptOpenAlgorithmProvider(&hmac, BCRYPT_SHA256_ALGORITHM, NULL, BCRYPT_ALG_HANDLE_HMAC_FLAG);
    if (NT_SUCCESS(status)) {
        status = BCryptHash(hmac, (PUCHAR)"Jefe", 4, (PUCHAR)"what do ya want for nothing?", 28, made, sizeof(made));
        Show("HMAC", status, made, sizeof(made));
        BCryptCloseAlgorithmProvider(hmac, 0);
    }
}

static VOID Ciphers(VOID)
{
    static const UCHAR key[] = {0x2b, 0x7e, 0x15, 0x16, 0x28, 0xae, 0xd2, 0xa6, 0xab, 0xf7, 0x15, 0x88, 0x09, 0xcf, 0x4f, 0x3c};
    static const UCHAR plain[] = {0x6b, 0xc1, 0xbe, 0xe2, 0x2e, 0x40, 0x9f, 0x96, 0xe9, 0x3d, 0x7e, 0x11, 0x73, 0x93, 0x17, 0x2a};
    UCHAR vector[16], room[32], back[32];
    BCRYPT_ALG_HANDLE algorithm;
    BCRYPT_KEY_HANDLE made;
    ULONG at, done;
    NTSTATUS status = BCryptOpenAlgorithmProvider(&algorithm, BCRYPT_AES_ALGORITHM, NULL, 0);

    if (!NT_SUCCESS(status)) {
        return;
    }
    BCryptSetProperty(algorithm, BCRYPT_CHAINING_MODE, (PUCHAR)BCRYPT_CHAIN_MODE_CBC, sizeof(BCRYPT_CHAIN_MODE_CBC), 0);
    status = BCryptGenerateSymmetricKey(algorithm, &made, NULL, 0, (PUCHAR)key, sizeof(key), 0);
    if (NT_SUCCESS(status)) {
        for (at = 0; at < 16; at++) {
            vector[at] = (UCHAR)at;
        }
        status = BCryptEncrypt(made, (PUCHAR)plain, 16, NULL, vector, 16, room, sizeof(room), &done, 0);
        Show("AES-CBC", status, room, done);
        Show("a part of a block", BCryptEncrypt(made, (PUCHAR)plain, 15, NULL, vector, 16, room, sizeof(room), &done, 0), NULL, 0);
        RtlZeroMemory(vector, 16);
        status = BCryptEncrypt(made, (PUCHAR)plain, 15, NULL, vector, 16, room, sizeof(room), &done, BCRYPT_BLOCK_PADDING);
        DbgPrint("padded: %08x, %u bytes\n", status, done);
        RtlZeroMemory(vector, 16);
        status = BCryptDecrypt(made, room, done, NULL, vector, 16, back, sizeof(back), &done, BCRYPT_BLOCK_PADDING);
        Show("and back", status, back, done);
        room[15] ^= 1;
        RtlZeroMemory(vector, 16);
        Show("changed", BCryptDecrypt(made, room, 16, NULL, vector, 16, back, sizeof(back), &done, BCRYPT_BLOCK_PADDING), NULL, 0);
        BCryptDestroyKey(made);
    }
    BCryptSetProperty(algorithm, BCRYPT_CHAINING_MODE, (PUCHAR)BCRYPT_CHAIN_MODE_ECB, sizeof(BCRYPT_CHAIN_MODE_ECB), 0);
    status = BCryptGenerateSymmetricKey(algorithm, &made, NULL, 0, (PUCHAR)key, sizeof(key), 0);
    if (NT_SUCCESS(status)) {
        status = BCryptEncrypt(made, (PUCHAR)plain, 16, NULL, NULL, 0, room, sizeof(room), &done, 0);
        Show("AES-ECB", status, room, done);
        BCryptDestroyKey(made);
    }
    BCryptCloseAlgorithmProvider(algorithm, 0);
}

typedef struct {
    UCHAR Nonce[12], Beside[20], Tag[16];
    BCRYPT_AUTHENTICATED_CIPHER_MODE_INFO Info;
} SEALED;

static VOID FromHex(_Out_writes_(Length) PUCHAR To, _In_ ULONG Length, _In_ PCSTR Text)
{
    ULONG at;

    for (at = 0; at < 2 * Length; at++) {
        UCHAR digit = (UCHAR)(Text[at] <= '9' ? Text[at] - '0' : Text[at] - 'a' + 10);
        To[at / 2] = (UCHAR)(at % 2 ? To[at / 2] | digit : digit << 4);
    }
}

static VOID Prepare(_Out_ SEALED *Sealed, _In_ PCSTR Nonce, _In_ PCSTR Beside)
{
    FromHex(Sealed->Nonce, 12, Nonce);
    FromHex(Sealed->Beside, (ULONG)strlen(Beside) / 2, Beside);
    RtlZeroMemory(Sealed->Tag, sizeof(Sealed->Tag));
    BCRYPT_INIT_AUTH_MODE_INFO(Sealed->Info);
    Sealed->Info.pbNonce = Sealed->Nonce;
    Sealed->Info.cbNonce = 12;
    Sealed->Info.pbAuthData = *Beside ? Sealed->Beside : NULL;
    Sealed->Info.cbAuthData = (ULONG)strlen(Beside) / 2;
    Sealed->Info.pbTag = Sealed->Tag;
    Sealed->Info.cbTag = 16;
}

/* Test cases 1, 2, 4 and 16: a tag alone, one block, and 60 bytes with 20 beside them by keys of 16 and 32 bytes. */
static VOID SealAll(_In_ BCRYPT_ALG_HANDLE Algorithm)
{
    static const PCSTR plain = "d9313225f88406e5a55909c5aff5269a86a7a9531534f7da2e4c303d8a318a721c3c0c95956809532fcf0e2449a6b525b16aedf5aa0de657ba637b39";
    static const PCSTR beside = "feedfacedeadbeeffeedfacedeadbeefabaddad2";
    static const PCSTR secret = "feffe9928665731c6d6a8f9467308308feffe9928665731c6d6a8f9467308308";
    UCHAR key[32] = {0}, bytes[60] = {0}, made[60], back[60];
    BCRYPT_KEY_HANDLE handle;
    SEALED sealed;
    ULONG done = 0, size;
    NTSTATUS status = BCryptGenerateSymmetricKey(Algorithm, &handle, NULL, 0, key, 16, 0);

    if (!NT_SUCCESS(status)) {
        return;
    }
    Prepare(&sealed, "000000000000000000000000", "");
    status = BCryptEncrypt(handle, NULL, 0, &sealed.Info, NULL, 0, NULL, 0, &done, 0);
    Show("GCM 1", status, sealed.Tag, 16);
    status = BCryptEncrypt(handle, bytes, 16, &sealed.Info, NULL, 0, made, sizeof(made), &done, 0);
    Show("GCM 2", status, made, done);
    Show("its tag", status, sealed.Tag, 16);
    BCryptDestroyKey(handle);
    FromHex(key, 32, secret);
    FromHex(bytes, 60, plain);
    for (size = 16; size <= 32; size += 16) {
        if (!NT_SUCCESS(BCryptGenerateSymmetricKey(Algorithm, &handle, NULL, 0, key, size, 0))) {
            return;
        }
        Prepare(&sealed, "cafebabefacedbaddecaf888", beside);
        status = BCryptEncrypt(handle, bytes, 60, &sealed.Info, NULL, 0, made, sizeof(made), &done, 0);
        Show(size == 16 ? "GCM 4" : "GCM 16", status, made, done);
        Show("its tag", status, sealed.Tag, 16);
        status = BCryptDecrypt(handle, made, 60, &sealed.Info, NULL, 0, back, sizeof(back), &done, 0);
        DbgPrint("and back: %08x, %u bytes, %s\n", status, done, RtlEqualMemory(back, bytes, 60) ? "the same" : "others");
        sealed.Beside[0] ^= 1;
        status = BCryptDecrypt(handle, made, 60, &sealed.Info, NULL, 0, back, sizeof(back), &done, 0);
        DbgPrint("changed beside it: %08x, %s\n", status, back[0] == bytes[0] && back[1] == bytes[1] ? "told all the same" : "none is told");
        BCryptDestroyKey(handle);
    }
}

/* What GCM doesn't take, and the sizes that it says. */
static VOID Wrong(_In_ BCRYPT_ALG_HANDLE Algorithm)
{
    UCHAR key[16] = {0}, bytes[16] = {0}, made[16];
    BCRYPT_AUTH_TAG_LENGTHS_STRUCT tags = {0};
    BCRYPT_KEY_HANDLE handle;
    WCHAR mode[16];
    SEALED sealed;
    ULONG done = 0;
    NTSTATUS status = BCryptGetProperty(Algorithm, BCRYPT_AUTH_TAG_LENGTH, (PUCHAR)&tags, sizeof(tags), &done, 0);

    DbgPrint("tags: %08x, %u bytes, %u to %u by %u\n", status, done, tags.dwMinLength, tags.dwMaxLength, tags.dwIncrement);
    status = BCryptGetProperty(Algorithm, BCRYPT_CHAINING_MODE, (PUCHAR)mode, sizeof(mode), &done, 0);
    DbgPrint("mode: %08x, %u bytes, %ws\n", status, done, mode);
    if (!NT_SUCCESS(BCryptGenerateSymmetricKey(Algorithm, &handle, NULL, 0, key, 16, 0))) {
        return;
    }
    Prepare(&sealed, "000000000000000000000000", "");
    DbgPrint("no information: %08x\n", BCryptEncrypt(handle, bytes, 16, NULL, NULL, 0, made, 16, &done, 0));
    sealed.Info.cbTag = 11;
    DbgPrint("a tag of 11 bytes: %08x\n", BCryptEncrypt(handle, bytes, 16, &sealed.Info, NULL, 0, made, 16, &done, 0));
    sealed.Info.cbTag = 12;
    sealed.Info.cbNonce = 16;
    DbgPrint("a nonce of 16: %08x\n", BCryptEncrypt(handle, bytes, 16, &sealed.Info, NULL, 0, made, 16, &done, 0));
    sealed.Info.cbNonce = 12;
    DbgPrint("padding: %08x\n", BCryptEncrypt(handle, bytes, 16, &sealed.Info, NULL, 0, made, 16, &done, BCRYPT_BLOCK_PADDING));
    DbgPrint("little room: %08x\n", BCryptEncrypt(handle, bytes, 16, &sealed.Info, NULL, 0, made, 15, &done, 0));
    status = BCryptEncrypt(handle, bytes, 7, &sealed.Info, NULL, 0, NULL, 0, &done, 0);
    DbgPrint("how much room: %08x, %u bytes\n", status, done);
    status = BCryptEncrypt(handle, bytes, 16, &sealed.Info, NULL, 0, made, 16, &done, 0);
    Show("a tag of 12", status, sealed.Tag, 12);
    BCryptDestroyKey(handle);
}

static VOID Seal(VOID)
{
    BCRYPT_ALG_HANDLE algorithm;

    if (!NT_SUCCESS(BCryptOpenAlgorithmProvider(&algorithm, BCRYPT_AES_ALGORITHM, NULL, 0))) {
        return;
    }
    if (NT_SUCCESS(BCryptSetProperty(algorithm, BCRYPT_CHAINING_MODE, (PUCHAR)BCRYPT_CHAIN_MODE_GCM, sizeof(BCRYPT_CHAIN_MODE_GCM), 0))) {
        SealAll(algorithm);
        Wrong(algorithm);
    }
    BCryptCloseAlgorithmProvider(algorithm, 0);
}

static VOID Derive(VOID)
{
    BCRYPT_ALG_HANDLE sha1;
    UCHAR made[64];
    NTSTATUS status;

    if (!NT_SUCCESS(BCryptOpenAlgorithmProvider(&sha1, BCRYPT_SHA1_ALGORITHM, NULL, BCRYPT_ALG_HANDLE_HMAC_FLAG))) {
        return;
    }
    status = BCryptDeriveKeyPBKDF2(sha1, (PUCHAR)"password", 8, (PUCHAR)"salt", 4, 1, made, 20, 0);
    Show("PBKDF2 once", status, made, 20);
    status = BCryptDeriveKeyPBKDF2(sha1, (PUCHAR)"password", 8, (PUCHAR)"salt", 4, 2, made, 20, 0);
    Show("twice", status, made, 20);
    status = BCryptDeriveKeyPBKDF2(sha1, (PUCHAR)"passwordPASSWORDpassword", 24, (PUCHAR)"saltSALTsaltSALTsaltSALTsaltSALTsalt", 36, 4096, made, 25, 0);
    Show("more", status, made, 25);
    status = BCryptDeriveKeyPBKDF2(sha1, (PUCHAR)"pass\0word", 9, (PUCHAR)"sa\0lt", 5, 4096, made, 16, 0);
    Show("less", status, made, 16);
    DbgPrint("no turn: %08x\n", BCryptDeriveKeyPBKDF2(sha1, (PUCHAR)"password", 8, (PUCHAR)"salt", 4, 0, made, 20, 0));
    BCryptCloseAlgorithmProvider(sha1, 0);
    status = BCryptDeriveKeyPBKDF2(BCRYPT_HMAC_SHA256_ALG_HANDLE, (PUCHAR)"passwd", 6, (PUCHAR)"salt", 4, 1, made, 64, 0);
    Show("by SHA256", status, made, 64);
    DbgPrint("by no HMAC: %08x\n", BCryptDeriveKeyPBKDF2(BCRYPT_SHA256_ALG_HANDLE, (PUCHAR)"passwd", 6, (PUCHAR)"salt", 4, 1, made, 64, 0));
    status = BCryptHash(BCRYPT_SHA384_ALG_HANDLE, NULL, 0, (PUCHAR)"abc", 3, made, 48);
    Show("SHA384 of abc", status, made, 48);
}

static VOID Numbers(VOID)
{
    UCHAR one[40], two[40];
    NTSTATUS status = BCryptGenRandom(NULL, one, sizeof(one), BCRYPT_USE_SYSTEM_PREFERRED_RNG);

    BCryptGenRandom(NULL, two, sizeof(two), BCRYPT_USE_SYSTEM_PREFERRED_RNG);
    DbgPrint("BCryptGenRandom: %08x, %s\n", status, RtlEqualMemory(one, two, sizeof(one)) ? "the same" : "two different ones");
}

static NTSTATUS Unload(_In_ FLT_FILTER_UNLOAD_FLAGS Flags)
{
    UNREFERENCED_PARAMETER(Flags);
    FltUnregisterFilter(gFilter);
    return STATUS_SUCCESS;
}

static const FLT_OPERATION_REGISTRATION Callbacks[] = {{IRP_MJ_OPERATION_END}};
static const FLT_REGISTRATION Registration = {sizeof(FLT_REGISTRATION), FLT_REGISTRATION_VERSION, 0, NULL, Callbacks, Unload};

NTSTATUS DriverEntry(_In_ PDRIVER_OBJECT DriverObject, _In_ PUNICODE_STRING RegistryPath)
{
    NTSTATUS status;

    UNREFERENCED_PARAMETER(RegistryPath);
    Digests();
    Ciphers();
    Seal();
    Derive();
    Numbers();
    status = FltRegisterFilter(DriverObject, &Registration, &gFilter);
    if (NT_SUCCESS(status)) {
        status = FltStartFiltering(gFilter);
        if (!NT_SUCCESS(status)) {
            FltUnregisterFilter(gFilter);
        }
    }
    return status;
}
