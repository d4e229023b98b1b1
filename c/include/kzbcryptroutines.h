/* Routines of bcrypt.h that aren't modelled: as kzroutines.h has those of the kernel. */
KZ_ROUTINE(NTSTATUS, STATUS_NOT_SUPPORTED, CRYPTO, BCryptExportKey, BCRYPT_KEY_HANDLE hKey, BCRYPT_KEY_HANDLE hExportKey, LPCWSTR pszBlobType, PUCHAR pbOutput, ULONG cbOutput, ULONG *pcbResult,
           ULONG dwFlags)
