/* A filter that forgets what it opened for cryptography: a provider and a digest are left, a key is destroyed twice, and a digest of a provider that isn't for DISPATCH_LEVEL is made under a
 * spin lock. */
#include <fltKernel.h>
#include <bcrypt.h>

static PFLT_FILTER gFilter;

static VOID Forget(VOID)
{
    UCHAR key[16] = {0}, made[32];
    BCRYPT_ALG_HANDLE digests, ciphers;
    BCRYPT_HASH_HANDLE hash;
    BCRYPT_KEY_HANDLE secret;
    KSPIN_LOCK lock;
    KIRQL irql;

    if (!NT_SUCCESS(BCryptOpenAlgorithmProvider(&digests, BCRYPT_SHA256_ALGORITHM, NULL, 0)) || !NT_SUCCESS(BCryptOpenAlgorithmProvider(&ciphers, BCRYPT_AES_ALGORITHM, NULL, 0))) {
        return;
    }
    BCryptCreateHash(digests, &hash, NULL, 0, NULL, 0, 0);
    KeInitializeSpinLock(&lock);
    KeAcquireSpinLock(&lock, &irql);
    BCryptHash(digests, NULL, 0, key, sizeof(key), made, sizeof(made));
    KeReleaseSpinLock(&lock, irql);
    if (NT_SUCCESS(BCryptGenerateSymmetricKey(ciphers, &secret, NULL, 0, key, sizeof(key), 0))) {
        BCryptDestroyKey(secret);
        BCryptDestroyKey(secret);
    }
    BCryptCloseAlgorithmProvider(ciphers, 0);
}

static NTSTATUS Unload(_In_ FLT_FILTER_UNLOAD_FLAGS Flags)
{
    UNREFERENCED_PARAMETER(Flags);
    FltUnregisterFilter(gFilter);
    return STATUS_SUCCESS;
}

static const FLT_OPERATION_REGISTRATION Callbacks[] = {{IRP_MJ_OPERATION_END}};
static const FLT_REGISTRATION Registration = {sizeof(FLT_REGISTRATION), FLT_REGISTRATION_VERSION, 0, NULL, Callbacks, Unload};

NTSTATUS DriverEntry(_In_ PDRIVER_OBJECT DriverObject, _In_ PUNICODE_STRING RegistryPath)
{
    NTSTATUS status;

    UNREFERENCED_PARAMETER(RegistryPath);
    status = FltRegisterFilter(DriverObject, &Registration, &gFilter);
    if (!NT_SUCCESS(status)) {
        return status;
    }
    Forget();
    return FltStartFiltering(gFilter);
}
