#include "count.h"

LONG gCount;

FLT_PREOP_CALLBACK_STATUS CountPreFlush(PFLT_CALLBACK_DATA Data, PCFLT_RELATED_OBJECTS FltObjects, PVOID *CompletionContext)
{
    UNREFERENCED_PARAMETER(Data);
    UNREFERENCED_PARAMETER(FltObjects);
    UNREFERENCED_PARAMETER(CompletionContext);
    InterlockedIncrement(&gCount);
    return FLT_PREOP_SUCCESS_NO_CALLBACK;
}
