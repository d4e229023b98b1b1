/* What an operation answered, as a line of text beside its bytes: `says size 5 links 1`. */
#include "manager/says.h"

#include "core/client.h"
#include "core/clock.h"
#include "core/op.h"
#include "core/spell.h"

#include <stdarg.h>

typedef struct {
    char *room;
    size_t size, used;
} Text;

__attribute__((format(printf, 2, 3))) static void add(Text *text, const char *format, ...)
{
    va_list arguments;
    va_start(arguments, format);
    int put = vsnprintf(text->room + text->used, text->size - text->used, format, arguments);
    va_end(arguments);
    text->used += (size_t)put < text->size - text->used ? (size_t)put : text->size - text->used - 1;
}

static void add_wide(Text *text, const WCHAR *from, size_t bytes)
{
    for (size_t at = 0; at < bytes / sizeof(WCHAR); at++)
        kz_put_utf8(text->room, text->size, &text->used, from[at] == '\\' ? '/' : from[at] >= ' ' && from[at] != 127 ? from[at] : '?');
}

static unsigned long long number(LARGE_INTEGER value)
{
    return (unsigned long long)value.QuadPart;
}

/* ---- Files. A time is how many milliseconds after the run's beginning it is. */
static unsigned long long passed(LARGE_INTEGER time)
{
    return time.QuadPart < kz_first_time() ? 0 : (unsigned long long)(time.QuadPart - kz_first_time()) / 10000;
}

static void add_basic(Text *text, const FILE_BASIC_INFORMATION *said)
{
    add(text, "attributes 0x%x created %llu written %llu", said->FileAttributes, passed(said->CreationTime), passed(said->LastWriteTime));
}

static void add_standard(Text *text, const FILE_STANDARD_INFORMATION *said)
{
    add(text, "size %llu allocation %llu links %u", number(said->EndOfFile), number(said->AllocationSize), said->NumberOfLinks);
    add(text, "%s%s", said->DeletePending ? " deleted" : "", said->Directory ? " directory" : "");
}

static void add_network(Text *text, const FILE_NETWORK_OPEN_INFORMATION *said)
{
    add(text, "size %llu allocation %llu attributes 0x%x", number(said->EndOfFile), number(said->AllocationSize), said->FileAttributes);
}

static void add_name(Text *text, const FILE_NAME_INFORMATION *said, size_t length)
{
    size_t there = length - offsetof(FILE_NAME_INFORMATION, FileName);
    add(text, "name ");
    add_wide(text, said->FileName, said->FileNameLength < there ? said->FileNameLength : there);
}

static void add_all(Text *text, const FILE_ALL_INFORMATION *said, size_t length)
{
    add_standard(text, &said->StandardInformation);
    add(text, " attributes 0x%x ", said->BasicInformation.FileAttributes);
    add_name(text, &said->NameInformation, length - offsetof(FILE_ALL_INFORMATION, NameInformation));
}

static void add_streams(Text *text, const uint8_t *from, size_t length)
{
    for (size_t place = 0; place < length;) {
        const FILE_STREAM_INFORMATION *one = (const void *)(from + place);
        add(text, place ? ", " : "");
        add_wide(text, one->StreamName, one->StreamNameLength);
        add(text, " %llu", number(one->StreamSize));
        if (!one->NextEntryOffset)
            break;
        place += one->NextEntryOffset;
    }
}

static void add_file(Text *text, int class, const void *from, size_t length)
{
    switch (class) {
    case FileBasicInformation:
        add_basic(text, from);
        break;
    case FileStandardInformation:
        add_standard(text, from);
        break;
    case FileNetworkOpenInformation:
        add_network(text, from);
        break;
    case FileInternalInformation:
    case FileIdInformation:
        add(text, "a number"); /* which no test needs to know */
        break;
    case FileEaInformation:
        add(text, "size %u", ((const FILE_EA_INFORMATION *)from)->EaSize);
        break;
    case FilePositionInformation:
        add(text, "position %llu", number(((const FILE_POSITION_INFORMATION *)from)->CurrentByteOffset));
        break;
    case FileAttributeTagInformation:
        add(text, "attributes 0x%x", ((const FILE_ATTRIBUTE_TAG_INFORMATION *)from)->FileAttributes);
        break;
    case FileNameInformation:
    case FileNormalizedNameInformation:
        add_name(text, from, length);
        break;
    case FileAllInformation:
        add_all(text, from, length);
        break;
    case FileStreamInformation:
        add_streams(text, from, length);
        break;
    }
}

/* ---- Directories: the names, with the size of each file, and a slash behind each directory. */
static size_t name_place(int class)
{
    switch (class) {
    case FileDirectoryInformation:
        return offsetof(FILE_DIRECTORY_INFORMATION, FileName);
    case FileFullDirectoryInformation:
        return offsetof(FILE_FULL_DIR_INFORMATION, FileName);
    case FileBothDirectoryInformation:
        return offsetof(FILE_BOTH_DIR_INFORMATION, FileName);
    case FileIdBothDirectoryInformation:
        return offsetof(FILE_ID_BOTH_DIR_INFORMATION, FileName);
    case FileIdFullDirectoryInformation:
        return offsetof(FILE_ID_FULL_DIR_INFORMATION, FileName);
    case FileIdExtdDirectoryInformation:
        return offsetof(FILE_ID_EXTD_DIR_INFORMATION, FileName);
    default:
        return offsetof(FILE_NAMES_INFORMATION, FileName);
    }
}

static void add_entries(Text *text, int class, const uint8_t *from, size_t length)
{
    for (size_t place = 0; place + name_place(class) <= length;) {
        const FILE_DIRECTORY_INFORMATION *one = (const void *)(from + place);
        bool is_names = class == FileNamesInformation;
        ULONG letters = is_names ? ((const FILE_NAMES_INFORMATION *)one)->FileNameLength : one->FileNameLength;
        if (letters > length - place - name_place(class))
            break;
        add(text, place ? ", " : "");
        add_wide(text, (const WCHAR *)(from + place + name_place(class)), letters);
        if (!is_names && one->FileAttributes & FILE_ATTRIBUTE_DIRECTORY)
            add(text, "/");
        else if (!is_names)
            add(text, " %llu", number(one->EndOfFile));
        if (!one->NextEntryOffset)
            break;
        place += one->NextEntryOffset;
    }
}

static void add_changes(Text *text, const uint8_t *from, size_t length)
{
    static const char *const actions[] = {"none", "added", "removed", "modified", "old name", "new name", "added stream", "removed stream", "modified stream"};
    for (size_t place = 0; place < length;) {
        const FILE_NOTIFY_INFORMATION *said = (const void *)(from + place);
        add(text, "%s%s ", place ? ", " : "", said->Action < sizeof actions / sizeof actions[0] ? actions[said->Action] : "another");
        add_wide(text, said->FileName, said->FileNameLength);
        if (!said->NextEntryOffset)
            break;
        place += said->NextEntryOffset;
    }
}

/* ---- Volumes. */
static void add_volume(Text *text, int class, const void *from)
{
    const FILE_FS_ATTRIBUTE_INFORMATION *attributes = from;
    const FILE_FS_FULL_SIZE_INFORMATION *full = from;
    const FILE_FS_VOLUME_INFORMATION *volume = from;
    const FILE_FS_DEVICE_INFORMATION *device = from;
    const FILE_FS_SIZE_INFORMATION *size = from;
    switch (class) {
    case FileFsVolumeInformation:
        add(text, "serial %u label ", volume->VolumeSerialNumber);
        add_wide(text, volume->VolumeLabel, volume->VolumeLabelLength);
        break;
    case FileFsSizeInformation:
        add(text, "units %llu free %llu unit %u", number(size->TotalAllocationUnits), number(size->AvailableAllocationUnits), size->SectorsPerAllocationUnit * size->BytesPerSector);
        break;
    case FileFsFullSizeInformation:
        add(text, "units %llu free %llu unit %u", number(full->TotalAllocationUnits), number(full->ActualAvailableAllocationUnits), full->SectorsPerAllocationUnit * full->BytesPerSector);
        break;
    case FileFsDeviceInformation:
        add(text, "device 0x%x characteristics 0x%x", device->DeviceType, device->Characteristics);
        break;
    case FileFsAttributeInformation:
        add_wide(text, attributes->FileSystemName, attributes->FileSystemNameLength);
        add(text, " attributes 0x%x", attributes->FileSystemAttributes);
        break;
    }
}

static void add_bypass(Text *text, const FS_BPIO_OUTPUT *said)
{
    if (said->Operation == FS_BPIO_OP_GET_INFO) {
        add(text, "files %u", said->GetInfo.ActiveBypassIoCount);
        return;
    }
    add(text, "bypass 0x%08x", (unsigned)said->Enable.OpStatus);
    add(text, said->Enable.FailingDriverNameLen ? " by " : "");
    add_wide(text, said->Enable.FailingDriverName, said->Enable.FailingDriverNameLen);
    add(text, said->Enable.FailureReasonLen ? ": " : "");
    add_wide(text, said->Enable.FailureReason, said->Enable.FailureReasonLen);
}

void kz_say_answer(const KzOpaque *opaque, size_t length)
{
    Text text = {kz_me->says, sizeof kz_me->says, 0};
    kz_me->says[0] = 0;
    if (!length)
        return;
    switch (opaque->major) {
    case IRP_MJ_QUERY_INFORMATION:
        add_file(&text, opaque->now.QueryFileInformation.FileInformationClass, opaque->output, length);
        break;
    case IRP_MJ_FILE_SYSTEM_CONTROL:
        if (opaque->now.FileSystemControl.Common.FsControlCode == FSCTL_MANAGE_BYPASS_IO && length >= sizeof(FS_BPIO_OUTPUT))
            add_bypass(&text, (const void *)opaque->output);
        break;
    case IRP_MJ_NETWORK_QUERY_OPEN:
        add_network(&text, (const void *)opaque->output);
        break;
    case IRP_MJ_QUERY_VOLUME_INFORMATION:
        add_volume(&text, (int)opaque->now.QueryVolumeInformation.FsInformationClass, opaque->output);
        break;
    case IRP_MJ_DIRECTORY_CONTROL:
        if (opaque->minor == IRP_MN_QUERY_DIRECTORY)
            add_entries(&text, (int)opaque->now.DirectoryControl.QueryDirectory.FileInformationClass, opaque->output, length);
        else
            add_changes(&text, opaque->output, length);
        break;
    }
}
