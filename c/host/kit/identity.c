/* What a driver asks of a process: its image, its parent, when it began. Texts lie in a pool, which the driver frees. */
#include "core/client.h"
#include "core/clock.h"
#include "core/process.h"

static const char *image_of(PEPROCESS process)
{
    if (process == PsInitialSystemProcess)
        return "";
    return *process->image ? process->image : "/Device/v0/test.exe";
}

NTSTATUS SeLocateProcessImageName(PEPROCESS Process, PUNICODE_STRING *ImageFileName)
{
    KZ_INSIDE_ALONE();
    kz_gives(ImageFileName);
    const char *image = image_of(Process);
    size_t length = strlen(image);
    *ImageFileName = ExAllocatePoolWithTag(PagedPool, sizeof(UNICODE_STRING) + (length + 1) * sizeof(WCHAR), 'nPeS');
    if (!*ImageFileName)
        return STATUS_INSUFFICIENT_RESOURCES;
    PWCHAR text = (PWCHAR)(*ImageFileName + 1);
    for (size_t at = 0; at <= length; at++)
        text[at] = (WCHAR)(image[at] == '/' ? '\\' : image[at]);
    **ImageFileName = (UNICODE_STRING){(USHORT)(length * sizeof(WCHAR)), (USHORT)((length + 1) * sizeof(WCHAR)), text};
    return STATUS_SUCCESS;
}

/* Of the image's own name 14 letters. */
PUCHAR PsGetProcessImageFileName(PEPROCESS Process)
{
    KZ_INSIDE_ALONE();
    const char *image = image_of(Process), *slash = strrchr(image, '/');
    snprintf(Process->own_name, 15, "%.14s", Process == PsInitialSystemProcess ? "System" : slash ? slash + 1 : image);
    return (PUCHAR)Process->own_name;
}

HANDLE PsGetProcessInheritedFromUniqueProcessId(PEPROCESS Process)
{
    KZ_INSIDE_ALONE();
    return ULongToHandle(Process->parent);
}

/* One that was there before the run began with the system. */
LONGLONG PsGetProcessCreateTimeQuadPart(PEPROCESS Process)
{
    KZ_INSIDE_ALONE();
    return Process->created ? Process->created : kz_time() - kz.passed;
}

NTSTATUS PsGetProcessExitStatus(PEPROCESS Process)
{
    KZ_CALL();
    return Process->is_over ? STATUS_SUCCESS : STATUS_PENDING;
}

/* Services have session 0, whoever is logged on the next one. */
ULONG PsGetProcessSessionId(PEPROCESS Process)
{
    KZ_INSIDE_ALONE();
    return Process == PsInitialSystemProcess ? 0 : 1;
}

BOOLEAN PsIsProtectedProcess(PEPROCESS Process)
{
    KZ_INSIDE_ALONE();
    return Process == PsInitialSystemProcess;
}

/* No process is protected. */
BOOLEAN PsIsProtectedProcessLight(PEPROCESS Process)
{
    KZ_INSIDE_ALONE();
    (void)Process;
    return FALSE;
}
