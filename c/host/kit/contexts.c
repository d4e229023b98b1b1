/* All contexts of an object at once, and which objects have some. */
#include "core/client.h"
#include "filesystem/fileobject.h"

VOID FltGetContexts(PCFLT_RELATED_OBJECTS FltObjects, FLT_CONTEXT_TYPE DesiredContexts, PFLT_RELATED_CONTEXTS Contexts)
{
    KZ_CALL();
    memset(Contexts, 0, sizeof *Contexts);
    if (DesiredContexts & FLT_VOLUME_CONTEXT && FltObjects->Volume)
        FltGetVolumeContext(FltObjects->Filter, FltObjects->Volume, &Contexts->VolumeContext);
    if (DesiredContexts & FLT_INSTANCE_CONTEXT && FltObjects->Instance)
        FltGetInstanceContext(FltObjects->Instance, &Contexts->InstanceContext);
    if (DesiredContexts & FLT_STREAM_CONTEXT && FltObjects->FileObject)
        FltGetStreamContext(FltObjects->Instance, FltObjects->FileObject, &Contexts->StreamContext);
    if (DesiredContexts & FLT_STREAMHANDLE_CONTEXT && FltObjects->FileObject)
        FltGetStreamHandleContext(FltObjects->Instance, FltObjects->FileObject, &Contexts->StreamHandleContext);
    if (DesiredContexts & FLT_FILE_CONTEXT && FltObjects->FileObject)
        FltGetFileContext(FltObjects->Instance, FltObjects->FileObject, &Contexts->FileContext);
    if (DesiredContexts & FLT_TRANSACTION_CONTEXT && FltObjects->Transaction)
        FltGetTransactionContext(FltObjects->Instance, FltObjects->Transaction, &Contexts->TransactionContext);
}

VOID FltReleaseContexts(PFLT_RELATED_CONTEXTS Contexts)
{
    KZ_CALL();
    PFLT_CONTEXT all[] = {Contexts->VolumeContext, Contexts->InstanceContext, Contexts->StreamContext, Contexts->StreamHandleContext, Contexts->FileContext, Contexts->TransactionContext};
    for (size_t at = 0; at < sizeof all / sizeof all[0]; at++)
        if (all[at])
            FltReleaseContext(all[at]);
    memset(Contexts, 0, sizeof *Contexts);
}

NTSTATUS FltGetContextsEx(PCFLT_RELATED_OBJECTS FltObjects, FLT_CONTEXT_TYPE DesiredContexts, SIZE_T ContextsSize, PFLT_RELATED_CONTEXTS_EX Contexts)
{
    KZ_CALL();
    if (ContextsSize < sizeof(FLT_RELATED_CONTEXTS))
        return STATUS_INVALID_PARAMETER;
    memset(Contexts, 0, ContextsSize);
    FltGetContexts(FltObjects, DesiredContexts, (PFLT_RELATED_CONTEXTS)Contexts);
    return STATUS_SUCCESS;
}

VOID FltReleaseContextsEx(SIZE_T ContextsSize, PFLT_RELATED_CONTEXTS_EX Contexts)
{
    KZ_CALL();
    (void)ContextsSize;
    FltReleaseContexts((PFLT_RELATED_CONTEXTS)Contexts);
}

/* The file system has none before it opened the file, nor of a volume. */
static bool has_contexts(PFILE_OBJECT object)
{
    const KzFile *file = kz_file_with(object);
    return file && object->FsContext && file->name && !file->is_volume;
}

/* Those of NTFS and ReFS have some by themselves; to others the filter manager gives them. */
BOOLEAN FltSupportsFileContexts(PFILE_OBJECT FileObject)
{
    KZ_INSIDE_ALONE();
    const KzFile *file = kz_file_with(FileObject);
    return has_contexts(FileObject) && (file->volume->type == FLT_FSTYPE_NTFS || file->volume->type == FLT_FSTYPE_REFS);
}

BOOLEAN FltSupportsFileContextsEx(PFILE_OBJECT FileObject, PFLT_INSTANCE Instance)
{
    KZ_INSIDE_ALONE();
    (void)Instance;
    return has_contexts(FileObject);
}

BOOLEAN FltSupportsStreamContexts(PFILE_OBJECT FileObject)
{
    KZ_INSIDE_ALONE();
    return has_contexts(FileObject);
}

BOOLEAN FltSupportsStreamHandleContexts(PFILE_OBJECT FileObject)
{
    KZ_INSIDE_ALONE();
    return has_contexts(FileObject);
}
