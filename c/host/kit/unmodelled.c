/* What the manager leaves out by name is declared: it answers STATUS_NOT_SUPPORTED, or that there is none, and is told once as a LIMIT. */
#include "core/client.h"
#include "core/told.h"

/* ---- Answers. Arguments aren't looked at. */
static NTSTATUS none(KzMessage message, const char *call)
{
    kz_tell(message, call, "isn't modelled: it answers STATUS_NOT_SUPPORTED");
    return STATUS_NOT_SUPPORTED;
}

#pragma GCC diagnostic ignored "-Wunused-parameter"
#define NONE(message, name, ...)        \
    NTSTATUS name(__VA_ARGS__)          \
    {                                   \
        KZ_INSIDE();                    \
        return none((message), #name);  \
    }
/* I/O that a filter begins itself. */
NONE(KZM_OWN_IO, FltNotifyFilterChangeDirectory, PVOID NotifySync, PLIST_ENTRY NotifyList, PVOID FsContext, PVOID FullDirectoryName, BOOLEAN WatchTree,
     BOOLEAN IgnoreBuffer, ULONG CompletionFilter, PFLT_CALLBACK_DATA NotifyCallbackData, PVOID TraverseCallback, PVOID SubjectContext, PVOID FilterCallback)

/* Processes, tokens. */
NONE(KZM_SECURITY, ZwQueryInformationProcess, HANDLE ProcessHandle, ULONG ProcessInformationClass, PVOID ProcessInformation, ULONG ProcessInformationLength,
     PULONG ReturnLength)
/* No process of 32 bits is there. */
BOOLEAN IoIs32bitProcess(PIRP Irp)
{
    return FALSE;
}
