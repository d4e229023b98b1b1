/* What the guardian and its service say to each other. */
#ifndef GUARDIAN_H
#define GUARDIAN_H

#define GUARDIAN_PORT L"\\GuardianPort"
#define GUARDIAN_LETTERS 64

enum { GuardianProcess = 1, GuardianFile = 2 };

typedef struct _GUARDIAN_QUESTION {
    ULONG Kind, ProcessId;
    UCHAR Digest[32]; /* of a file, by SHA-256 of what it begins with */
    WCHAR Name[GUARDIAN_LETTERS];
} GUARDIAN_QUESTION, *PGUARDIAN_QUESTION;

typedef struct _GUARDIAN_VERDICT {
    ULONG IsDenied;
} GUARDIAN_VERDICT, *PGUARDIAN_VERDICT;

/* What the service asks for; in front of it stands nothing. */
typedef struct _GUARDIAN_COUNTS {
    ULONG Processes, RemoteThreads, Images, DeniedKeys, Handles, DeniedFiles, DeniedRenames;
} GUARDIAN_COUNTS, *PGUARDIAN_COUNTS;

#endif
