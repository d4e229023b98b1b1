/* Names of objects: of files, devices, keys and drivers. Others have none. */
#include "core/client.h"
#include "filesystem/fileobject.h"
#include "filesystem/name.h"
#include "lib/letters.h"
#include "kit/device.h"
#include "kit/registry.h"

static bool name_of(PVOID object, char *room, size_t size)
{
    const KzFile *file = kz_file_with(object);
    const char *own = kz_key_name(object) ? kz_key_name(object) : kz_device_name(object);
    *room = 0;
    if (file)
        snprintf(room, size, "/Device/%s%s%s", file->volume->name, file->is_volume ? "" : "/", kz_name_now(file));
    else if (own)
        snprintf(room, size, "%s", own);
    for (size_t at = 0; at < kz.volumes_count; at++)
        if (object == &kz.volumes[at]->disk || object == &kz.volumes[at]->device)
            snprintf(room, size, "%s%s", object == &kz.volumes[at]->disk ? "/Device/" : "", object == &kz.volumes[at]->disk ? kz.volumes[at]->name : "");
    for (size_t at = 0; at < kz.filters_count; at++)
        if (object == &kz.filters[at]->object)
            snprintf(room, size, "/Driver/%.60s", kz.filters[at]->driver->name);
    return *room;
}

/* The structure, and its text behind that with a null. One that has no name has the structure alone. */
NTSTATUS ObQueryNameString(PVOID Object, POBJECT_NAME_INFORMATION ObjectNameInfo, ULONG Length, PULONG ReturnLength)
{
    KZ_INSIDE_ALONE();
    kz_scheduler->uses(&kz.files, KZU_READS);
    kz_uses_bytes(ObjectNameInfo, ObjectNameInfo ? Length : 0, KZU_WRITES);
    kz_gives(ReturnLength);
    char text[KZ_WHOLE_PATH];
    bool is_named = name_of(Object, text, sizeof text);
    size_t letters = kz_letters(text), needed = sizeof *ObjectNameInfo + (is_named ? (letters + 1) * sizeof(WCHAR) : 0);
    *ReturnLength = (ULONG)needed;
    if (Length < needed)
        return STATUS_INFO_LENGTH_MISMATCH;
    ObjectNameInfo->Name = (UNICODE_STRING){0, 0, NULL};
    if (!is_named)
        return STATUS_SUCCESS;
    PWCHAR behind = (PWCHAR)(ObjectNameInfo + 1);
    kz_widen(behind, text);
    behind[letters] = 0;
    ObjectNameInfo->Name = (UNICODE_STRING){(USHORT)(letters * sizeof(WCHAR)), (USHORT)((letters + 1) * sizeof(WCHAR)), behind};
    return STATUS_SUCCESS;
}

/* By its volume's letter, in memory of a pool that the driver frees. */
NTSTATUS IoQueryFileDosDeviceName(PFILE_OBJECT FileObject, POBJECT_NAME_INFORMATION *ObjectNameInformation)
{
    KZ_INSIDE_ALONE();
    kz_scheduler->uses(&kz.files, KZU_READS);
    kz_gives(ObjectNameInformation);
    char text[KZ_WHOLE_PATH];
    const KzFile *file = kz_file_with(FileObject);
    *ObjectNameInformation = NULL;
    if (!file)
        return STATUS_INVALID_PARAMETER;
    snprintf(text, sizeof text, "%c:/%s", 'C' + file->volume->id, kz_name_now(file));
    size_t letters = kz_letters(text);
    POBJECT_NAME_INFORMATION made = ExAllocatePoolWithTag(PagedPool, sizeof *made + (letters + 1) * sizeof(WCHAR), 'noDI');
    if (!made)
        return STATUS_INSUFFICIENT_RESOURCES;
    PWCHAR behind = (PWCHAR)(made + 1);
    kz_widen(behind, text);
    behind[letters] = 0;
    made->Name = (UNICODE_STRING){(USHORT)(letters * sizeof(WCHAR)), (USHORT)((letters + 1) * sizeof(WCHAR)), behind};
    *ObjectNameInformation = made;
    return STATUS_SUCCESS;
}
