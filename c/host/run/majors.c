/* Requests for what the manager hasn't, in words: names, information, directories, volumes, what a file has beside its bytes, locks, control codes, sections, paging. */
#include "run/majors.h"

#include "core/client.h"
#include "core/op.h"
#include "core/status.h"
#include "lib/letters.h"
#include "filesystem/fileobject.h"
#include "oplock/oplock.h"
#include "manager/disposition.h"
#include "manager/paging.h"
#include "manager/perform.h"
#include "run/masks.h"
#include "run/read.h"
#include "run/reply.h"
#include "run/runfile.h"
#include "run/words.h"

#include <stdlib.h>

#define BUFFERED (IRP_BUFFERED_IO)

static KzReply on_handle(const char *word, const KzAsked *asked)
{
    uint64_t handle;
    return kz_read_handle(word, &handle) ? kz_ask_file(handle, asked) : kz_wrong();
}

/* ---- Directories are opened as files are. */
static KzReply open_directory(char **words, ULONG disposition)
{
    uint64_t volume;
    const char *name, *path = strcmp(words[2], "/") == 0 ? "" : words[2];
    KzCreate create = kz_usual_create(disposition, true);
    if (!kz_read_volume(words[1], &volume) || !kz_read_create(words + 3, &create, &name))
        return kz_wrong();
    return kz_ask_create((uint8_t)volume, path, &create, name);
}

static KzReply ask_mkdir(char **words)
{
    return open_directory(words, FILE_CREATE);
}

static KzReply ask_opendir(char **words)
{
    return open_directory(words, FILE_OPEN);
}

/* The volume itself. */
static KzReply ask_open_volume(char **words)
{
    uint64_t volume;
    const char *name;
    KzCreate create = kz_usual_create(FILE_OPEN, false);
    create.is_volume = true;
    create.options &= ~(ULONG)FILE_NON_DIRECTORY_FILE;
    if (!kz_read_volume(words[1], &volume) || !kz_read_create(words + 2, &create, &name))
        return kz_wrong();
    return kz_ask_create((uint8_t)volume, "", &create, name);
}

/* ---- Information of files, by the words for its classes. */
typedef struct {
    const char *word;
    ULONG class, room;
} Class;

static const Class *class_of(const Class *classes, const char *word)
{
    while (classes->word && strcmp(classes->word, word) != 0)
        classes++;
    return classes->word ? classes : NULL;
}

/* `query H CLASS [ROOM]` */
static KzReply ask_query(char **words)
{
    static const Class classes[] = {{"basic", FileBasicInformation, sizeof(FILE_BASIC_INFORMATION)},
                                    {"standard", FileStandardInformation, sizeof(FILE_STANDARD_INFORMATION)},
                                    {"internal", FileInternalInformation, sizeof(FILE_INTERNAL_INFORMATION)},
                                    {"ea", FileEaInformation, sizeof(FILE_EA_INFORMATION)},
                                    {"access", FileAccessInformation, sizeof(FILE_ACCESS_INFORMATION)},
                                    {"name", FileNameInformation, 1024},
                                    {"normalized", FileNormalizedNameInformation, 1024},
                                    {"all", FileAllInformation, 2048},
                                    {"network", FileNetworkOpenInformation, sizeof(FILE_NETWORK_OPEN_INFORMATION)},
                                    {"position", FilePositionInformation, sizeof(FILE_POSITION_INFORMATION)},
                                    {"mode", FileModeInformation, sizeof(FILE_MODE_INFORMATION)},
                                    {"alignment", FileAlignmentInformation, sizeof(FILE_ALIGNMENT_INFORMATION)},
                                    {"tag", FileAttributeTagInformation, sizeof(FILE_ATTRIBUTE_TAG_INFORMATION)},
                                    {"id", FileIdInformation, sizeof(FILE_ID_INFORMATION)},
                                    {"streams", FileStreamInformation, 4096},
                                    {NULL, 0, 0}};
    const Class *class = class_of(classes, words[2]);
    uint64_t room = class ? class->room : 0;
    if (!class || (words[3] && !kz_read_number(words[3], KZ_BYTES + 1, &room)))
        return kz_wrong();
    return on_handle(words[1], &(KzAsked){.major = IRP_MJ_QUERY_INFORMATION, .code = class->class, .room = room, .irp_flags = BUFFERED});
}

KzReply kz_set_file(uint64_t handle, ULONG class, const void *bytes, size_t length)
{
    return kz_ask_file(handle, &(KzAsked){.major = IRP_MJ_SET_INFORMATION, .code = class, .input = bytes, .input_size = length, .irp_flags = BUFFERED});
}

static KzReply set(const char *word, ULONG class, const void *bytes, size_t length)
{
    uint64_t handle;
    return kz_read_handle(word, &handle) ? kz_set_file(handle, class, bytes, length) : kz_wrong();
}

/* `set H WORD N`: a time is in the kit's units. */
static KzReply ask_set(char **words)
{
    static const Class sizes[] = {{"allocation", FileAllocationInformation, 0}, {"valid", FileValidDataLengthInformation, 0}, {"position", FilePositionInformation, 0}, {"end", FileEndOfFileInformation, 0}, {NULL, 0, 0}};
    uint64_t number;
    if (!kz_read_number(words[3], INT64_MAX, &number))
        return kz_wrong();
    LARGE_INTEGER size = {.QuadPart = (LONGLONG)number};
    FILE_BASIC_INFORMATION basic = {.FileAttributes = 0};
    const Class *class = class_of(sizes, words[2]);
    if (class)
        return set(words[1], class->class, &size, sizeof size);
    if (strcmp(words[2], "attributes") == 0)
        basic.FileAttributes = (ULONG)number;
    else if (strcmp(words[2], "created") == 0)
        basic.CreationTime = size;
    else if (strcmp(words[2], "written") == 0)
        basic.LastWriteTime = size;
    else
        return kz_wrong();
    return set(words[1], FileBasicInformation, &basic, sizeof basic);
}

/* `dispose H WORD..`: delete, keep; posix and force are of the extended class. */
static KzReply ask_dispose(char **words)
{
    FILE_DISPOSITION_INFORMATION_EX extended = {0};
    bool is_extended = false;
    for (char **word = words + 2; *word; word++) {
        if (strcmp(*word, "delete") == 0)
            extended.Flags |= FILE_DISPOSITION_DELETE;
        else if (strcmp(*word, "posix") == 0)
            is_extended = extended.Flags |= FILE_DISPOSITION_POSIX_SEMANTICS;
        else if (strcmp(*word, "force") == 0)
            is_extended = extended.Flags |= FILE_DISPOSITION_IGNORE_READONLY_ATTRIBUTE;
        else if (strcmp(*word, "onclose") == 0)
            is_extended = extended.Flags |= FILE_DISPOSITION_ON_CLOSE;
        else if (strcmp(*word, "ex") == 0)
            is_extended = true;
        else if (strcmp(*word, "keep") != 0)
            return kz_wrong();
    }
    const FILE_DISPOSITION_INFORMATION plain = {extended.Flags & FILE_DISPOSITION_DELETE};
    if (is_extended)
        return set(words[1], FileDispositionInformationEx, &extended, sizeof extended);
    return set(words[1], FileDispositionInformation, &plain, sizeof plain);
}

/* ---- `rename H NAME WORD..` and `link H NAME WORD..`: replace, posix, ex, in D. A NAME that begins with / is one from the volume's root, else it is in the file's own directory. */
typedef struct {
    FILE_RENAME_INFORMATION info;
    WCHAR rest[KZ_WHOLE_PATH];
} Renaming;

static bool read_flags(char **words, Renaming *asked, ULONG *flags, bool *is_extended)
{
    for (uint64_t directory; *words; words++) {
        if (strcmp(*words, "replace") == 0)
            *flags |= FILE_RENAME_REPLACE_IF_EXISTS;
        else if (strcmp(*words, "posix") == 0)
            *flags |= FILE_RENAME_POSIX_SEMANTICS | FILE_RENAME_REPLACE_IF_EXISTS;
        else if (strcmp(*words, "ex") == 0)
            *is_extended = true;
        else if (strcmp(*words, "in") == 0 && words[1] && kz_read_handle(*++words, &directory))
            asked->info.RootDirectory = kz_root_handle(directory);
        else
            return false;
    }
    *is_extended |= (*flags & FILE_RENAME_POSIX_SEMANTICS) != 0;
    return true;
}

static KzReply set_name(char **words, ULONG class, ULONG extended)
{
    Renaming asked = {0};
    char text[KZ_WHOLE_PATH];
    bool is_extended = false;
    ULONG flags = 0;
    uint64_t handle;
    if (!kz_read_handle(words[1], &handle) || strlen(words[2]) >= KZ_PATH || !read_flags(words + 3, &asked, &flags, &is_extended))
        return kz_wrong();
    const KzFile *file = kz_file_of(handle);
    bool is_whole = *words[2] == '/' && !asked.info.RootDirectory;
    snprintf(text, sizeof text, "%s%s%s", is_whole ? "/Device/" : "", is_whole ? file ? file->volume->name : "v0" : "", words[2]);
    if (is_extended)
        asked.info.Flags = flags;
    else
        asked.info.ReplaceIfExists = flags != 0;
    asked.info.FileNameLength = kz_widen(asked.info.FileName, text);
    size_t length = offsetof(FILE_RENAME_INFORMATION, FileName) + asked.info.FileNameLength;
    return kz_set_file(handle, is_extended ? extended : class, &asked, length < sizeof asked.info ? sizeof asked.info : length);
}

static KzReply ask_rename(char **words)
{
    return set_name(words, FileRenameInformation, FileRenameInformationEx);
}

static KzReply ask_link(char **words)
{
    return set_name(words, FileLinkInformation, FileLinkInformationEx);
}

/* ---- `dir H CLASS [PATTERN] [single] [restart] [room N]`, `watch H [tree]` */
static KzReply ask_dir(char **words)
{
    static const Class classes[] = {{"directory", FileDirectoryInformation, 4096}, {"full", FileFullDirectoryInformation, 4096},     {"both", FileBothDirectoryInformation, 4096},
                                    {"names", FileNamesInformation, 4096},         {"idboth", FileIdBothDirectoryInformation, 4096}, {"idfull", FileIdFullDirectoryInformation, 4096},
                                    {"idextd", FileIdExtdDirectoryInformation, 4096}, {NULL, 0, 0}};
    const Class *class = class_of(classes, words[2]);
    KzAsked asked = {.major = IRP_MJ_DIRECTORY_CONTROL, .minor = IRP_MN_QUERY_DIRECTORY, .code = class ? class->class : 0, .room = class ? class->room : 0};
    for (char **word = words + 3; class && *word; word++) {
        uint64_t room;
        if (strcmp(*word, "single") == 0)
            asked.flags |= SL_RETURN_SINGLE_ENTRY;
        else if (strcmp(*word, "restart") == 0)
            asked.flags |= SL_RESTART_SCAN;
        else if (strcmp(*word, "room") == 0 && word[1] && kz_read_number(word[1], KZ_BYTES + 1, &room))
            asked.room = room, word++;
        else
            asked.pattern = *word;
    }
    return class ? on_handle(words[1], &asked) : kz_wrong();
}

static KzReply ask_watch(char **words)
{
    bool is_tree = words[2] && strcmp(words[2], "tree") == 0;
    if (words[2] && !is_tree)
        return kz_wrong();
    return on_handle(words[1], &(KzAsked){.major = IRP_MJ_DIRECTORY_CONTROL,
                                          .minor = IRP_MN_NOTIFY_CHANGE_DIRECTORY,
                                          .code = FILE_NOTIFY_VALID_MASK,
                                          .room = 512,
                                          .flags = is_tree ? SL_WATCH_TREE : 0,
                                          .waits = true});
}

/* ---- Volumes: `queryvolume H CLASS`, `setlabel H NAME`. */
static KzReply ask_query_volume(char **words)
{
    static const Class classes[] = {{"volume", FileFsVolumeInformation, 512}, {"size", FileFsSizeInformation, 512},           {"fullsize", FileFsFullSizeInformation, 512},
                                    {"device", FileFsDeviceInformation, 512}, {"attributes", FileFsAttributeInformation, 512}, {NULL, 0, 0}};
    const Class *class = class_of(classes, words[2]);
    return class ? on_handle(words[1], &(KzAsked){.major = IRP_MJ_QUERY_VOLUME_INFORMATION, .code = class->class, .room = class->room, .irp_flags = BUFFERED}) : kz_wrong();
}

static KzReply ask_set_label(char **words)
{
    struct {
        FILE_FS_LABEL_INFORMATION info;
        WCHAR rest[100];
    } asked = {0};
    if (strlen(words[2]) > 90)
        return kz_wrong();
    asked.info.VolumeLabelLength = kz_widen(asked.info.VolumeLabel, words[2]);
    size_t length = offsetof(FILE_FS_LABEL_INFORMATION, VolumeLabel) + asked.info.VolumeLabelLength;
    return on_handle(words[1], &(KzAsked){.major = IRP_MJ_SET_VOLUME_INFORMATION, .code = FileFsLabelInformation, .input = &asked, .input_size = length, .irp_flags = BUFFERED});
}

/* ---- Beside the bytes: `queryea H [next] [one]`, `setea H NAME HEX|-`, `querysecurity H`, `setsecurity H HEX`, `queryquota H`, `setquota H HEX`. */
/* `next` goes on after the last one that the handle was answered, `one` takes no more than one of them. */
static KzReply ask_query_ea(char **words)
{
    UCHAR flags = SL_RESTART_SCAN;
    for (char **word = words + 2; *word; word++) {
        bool is_next = strcmp(*word, "next") == 0;
        if (!is_next && strcmp(*word, "one") != 0)
            return kz_wrong();
        flags = (UCHAR)(is_next ? flags & ~SL_RESTART_SCAN : flags | SL_RETURN_SINGLE_ENTRY);
    }
    return on_handle(words[1], &(KzAsked){.major = IRP_MJ_QUERY_EA, .flags = flags, .room = 2048, .irp_flags = BUFFERED});
}

static KzReply ask_set_ea(char **words)
{
    uint8_t *bytes = kz_me->bytes;
    const size_t head = offsetof(FILE_FULL_EA_INFORMATION, EaName), name = strlen(words[2]);
    size_t length = 0;
    bool is_none = strcmp(words[3], "-") == 0;
    if (name > 200 || (!is_none && !kz_read_hex(words[3], bytes + head + name + 1, &length)) || length > 1024)
        return kz_wrong();
    FILE_FULL_EA_INFORMATION one = {.EaNameLength = (UCHAR)name, .EaValueLength = (USHORT)length};
    memcpy(bytes, &one, head);
    memcpy(bytes + head, words[2], name + 1);
    return on_handle(words[1], &(KzAsked){.major = IRP_MJ_SET_EA, .input = bytes, .input_size = head + name + 1 + length, .irp_flags = BUFFERED});
}

static KzReply ask_query_security(char **words)
{
    return on_handle(words[1], &(KzAsked){.major = IRP_MJ_QUERY_SECURITY, .code = OWNER_SECURITY_INFORMATION | DACL_SECURITY_INFORMATION, .room = 512});
}

static KzReply set_bytes(char **words, UCHAR major, ULONG code)
{
    size_t length;
    if (!kz_read_hex(words[2], kz_me->bytes, &length))
        return kz_wrong();
    return on_handle(words[1], &(KzAsked){.major = major, .code = code, .input = kz_me->bytes, .input_size = length});
}

static KzReply ask_set_security(char **words)
{
    return set_bytes(words, IRP_MJ_SET_SECURITY, DACL_SECURITY_INFORMATION);
}

static KzReply ask_query_quota(char **words)
{
    return on_handle(words[1], &(KzAsked){.major = IRP_MJ_QUERY_QUOTA, .room = 512});
}

static KzReply ask_set_quota(char **words)
{
    return set_bytes(words, IRP_MJ_SET_QUOTA, 0);
}

/* ---- `lock H OFFSET LEN [shared]`, `unlock H OFFSET LEN`, `unlockall H` */
static KzReply on_range(char **words, UCHAR minor, UCHAR flags)
{
    KzAsked asked = {.major = IRP_MJ_LOCK_CONTROL, .minor = minor, .flags = flags, .waits = minor == IRP_MN_LOCK && !(flags & SL_FAIL_IMMEDIATELY)};
    if (!kz_read_number(words[2], UINT64_MAX, &asked.from) || !kz_read_number(words[3], UINT64_MAX, &asked.length))
        return kz_wrong();
    return on_handle(words[1], &asked);
}

static KzReply ask_lock(char **words)
{
    bool is_shared = words[4] && strcmp(words[4], "shared") == 0;
    char **last = words + (is_shared ? 5 : 4);
    bool waits = *last && strcmp(*last, "wait") == 0;
    if (*last && (!waits || last[1]))
        return kz_wrong();
    return on_range(words, IRP_MN_LOCK, (UCHAR)((waits ? 0 : SL_FAIL_IMMEDIATELY) | (is_shared ? 0 : SL_EXCLUSIVE_LOCK)));
}

static KzReply ask_unlock(char **words)
{
    return on_range(words, IRP_MN_UNLOCK_SINGLE, 0);
}

static KzReply ask_unlock_all(char **words)
{
    return on_handle(words[1], &(KzAsked){.major = IRP_MJ_LOCK_CONTROL, .minor = IRP_MN_UNLOCK_ALL});
}

/* ---- `fsctl H CODE [HEX|-] [ROOM]`, `ioctl ..` and `internal ..`: a code is a number, or 0x and so on. */
static KzReply control(char **words, UCHAR major)
{
    char *end;
    KzAsked asked = {.major = major, .code = (ULONG)strtoul(words[2], &end, 0)};
    uint64_t room = 0;
    bool has_bytes = words[3] && strcmp(words[3], "-") != 0;
    if (*end || (has_bytes && !kz_read_hex(words[3], kz_me->bytes, &asked.input_size)) || (words[3] && words[4] && !kz_read_number(words[4], KZ_BYTES + 1, &room)))
        return kz_wrong();
    asked.input = kz_me->bytes;
    asked.room = room;
    asked.irp_flags = asked.code & 3 ? 0 : BUFFERED;
    asked.waits = major == IRP_MJ_FILE_SYSTEM_CONTROL && kz_waits_for_oplock(asked.code);
    return on_handle(words[1], &asked);
}

static KzReply ask_fsctl(char **words)
{
    return control(words, IRP_MJ_FILE_SYSTEM_CONTROL);
}

/* ---- `bypass H enable`, also `disable`, `query`, `info` */
static KzReply ask_bypass(char **words)
{
    static const struct {
        const char *word;
        FS_BPIO_OPERATIONS operation;
    } rows[] = {{"enable", FS_BPIO_OP_ENABLE}, {"disable", FS_BPIO_OP_DISABLE}, {"query", FS_BPIO_OP_QUERY}, {"info", FS_BPIO_OP_GET_INFO}};
    for (size_t at = 0; at < sizeof rows / sizeof *rows; at++)
        if (strcmp(words[2], rows[at].word) == 0) {
            const FS_BPIO_INPUT asked = {.Operation = rows[at].operation};
            return on_handle(words[1], &(KzAsked){.major = IRP_MJ_FILE_SYSTEM_CONTROL, .code = FSCTL_MANAGE_BYPASS_IO, .input = &asked, .input_size = sizeof asked, .room = sizeof(FS_BPIO_OUTPUT)});
        }
    return kz_wrong();
}

static KzReply ask_ioctl(char **words)
{
    return control(words, IRP_MJ_DEVICE_CONTROL);
}

static KzReply ask_internal(char **words)
{
    return control(words, IRP_MJ_INTERNAL_DEVICE_CONTROL);
}

/* ---- Without a handle: `shutdown V`, `queryremove V`, `networkopen V NAME`. */
static PFLT_VOLUME volume_of(const char *word)
{
    uint64_t number;
    return kz_read_volume(word, &number) && number < kz.volumes_count ? kz.volumes[number] : NULL;
}

static KzReply on_volume(const char *word, const KzAsked *asked)
{
    PFLT_VOLUME volume = volume_of(word);
    return volume ? kz_ask_volume(volume, asked) : kz_wrong();
}

static KzReply ask_shutdown(char **words)
{
    return on_volume(words[1], &(KzAsked){.major = IRP_MJ_SHUTDOWN, .has_no_file = true});
}

static KzReply ask_query_remove(char **words)
{
    return on_volume(words[1], &(KzAsked){.major = IRP_MJ_PNP, .minor = IRP_MN_QUERY_REMOVE_DEVICE, .has_no_file = true});
}

static KzReply ask_network_open(char **words)
{
    PFLT_VOLUME volume = volume_of(words[1]);
    return volume ? kz_open_network(volume, words[2]) : kz_wrong();
}

/* ---- Sections: `map H [execute]` has the file system let one be made, which acquires its file for it and releases it. Then `pagein H OFFSET LEN` and `pageout H OFFSET HEX` touch a view of
 * it: what isn't in the cache is read, and what is written there is written to the file by the modified page writer. A file that has no cache is read and written in paging I/O each time. */
static KzReply ask_map(char **words)
{
    bool is_execute = words[2] && strcmp(words[2], "execute") == 0;
    uint64_t handle;
    KzAsked asked = {.major = IRP_MJ_ACQUIRE_FOR_SECTION_SYNCHRONIZATION, .code = is_execute ? PAGE_EXECUTE : PAGE_READWRITE, .data_flags = FLTFL_CALLBACK_DATA_FS_FILTER_OPERATION};
    if (!kz_read_handle(words[1], &handle) || (words[2] && !is_execute))
        return kz_wrong();
    KzAsked released = asked;
    released.major = IRP_MJ_RELEASE_FOR_SECTION_SYNCHRONIZATION;
    return kz_ask_file_twice(handle, &asked, &released);
}

/* False: it has no pages. */
static bool touch(uint64_t handle, uint64_t offset, uint8_t *bytes, size_t length, bool is_written, KzReply *reply)
{
    KzFile *file = kz_file_of(handle);
    NTSTATUS status;
    bool is_exact;
    if (!file || length > KZ_BYTES || !kz_touch(file, offset, bytes, &length, is_written, &status))
        return false;
    *reply = (KzReply){.status = NT_SUCCESS(status) ? KZS_OK : kz_number(status, &is_exact), .information = NT_SUCCESS(status) ? length : 0};
    kz_print_reply(*reply, NT_SUCCESS(status) ? STATUS_SUCCESS : status, bytes, NT_SUCCESS(status) && !is_written ? length : 0);
    kz_settle();
    return true;
}

static KzReply ask_page_in(char **words)
{
    uint64_t handle, offset, length;
    KzReply reply;
    if (!kz_read_handle(words[1], &handle) || !kz_read_number(words[2], UINT64_MAX, &offset) || !kz_read_number(words[3], KZ_BYTES + 1, &length))
        return kz_wrong();
    if (touch(handle, offset, kz_me->bytes, (size_t)length, false, &reply))
        return reply;
    return kz_perform_as(&(KzBegin){.event = {.event = KZE_READ, .handle = handle, .offset = offset, .len = (uint32_t)length}, .bytes = "", .irp_flags = IRP_PAGING_IO | IRP_NOCACHE | IRP_SYNCHRONOUS_PAGING_IO});
}

static KzReply ask_fast_read(char **words)
{
    uint64_t handle, offset, length;
    if (!kz_read_handle(words[1], &handle) || !kz_read_number(words[2], UINT64_MAX, &offset) || !kz_read_number(words[3], KZ_BYTES + 1, &length))
        return kz_wrong();
    return kz_perform_fast(&(KzBegin){.event = {.event = KZE_READ, .handle = handle, .offset = offset, .len = (uint32_t)length}, .bytes = ""});
}

static KzReply ask_fast_write(char **words)
{
    uint64_t handle, offset;
    size_t length;
    if (!kz_read_handle(words[1], &handle) || !kz_read_place(words[2], &offset) || !kz_read_hex(words[3], kz_me->bytes, &length))
        return kz_wrong();
    return kz_perform_fast(&(KzBegin){.event = {.event = KZE_WRITE, .handle = handle, .offset = offset}, .bytes = kz_me->bytes, .length = length});
}

static KzReply ask_page_out(char **words)
{
    uint64_t handle, offset;
    size_t length;
    KzReply reply;
    if (!kz_read_handle(words[1], &handle) || !kz_read_number(words[2], UINT64_MAX, &offset) || !kz_read_hex(words[3], kz_me->bytes, &length))
        return kz_wrong();
    if (touch(handle, offset, kz_me->bytes, length, true, &reply))
        return reply;
    return kz_perform_as(&(KzBegin){.event = {.event = KZE_WRITE, .handle = handle, .offset = offset}, .bytes = kz_me->bytes, .length = length, .irp_flags = IRP_PAGING_IO | IRP_NOCACHE});
}

const KzRequest kz_major_requests[] = {
    {"mkdir", 3, 15, ask_mkdir, false},
    {"opendir", 3, 15, ask_opendir, false},
    {"openvolume", 2, 12, ask_open_volume, false},
    {"query", 3, 4, ask_query, true},
    {"set", 4, 4, ask_set, true},
    {"dispose", 3, 6, ask_dispose, true},
    {"rename", 3, 8, ask_rename, true},
    {"link", 3, 8, ask_link, true},
    {"dir", 3, 8, ask_dir, true},
    {"watch", 2, 3, ask_watch, true},
    {"queryvolume", 3, 3, ask_query_volume, true},
    {"setlabel", 3, 3, ask_set_label, true},
    {"queryea", 2, 4, ask_query_ea, true},
    {"setea", 4, 4, ask_set_ea, true},
    {"querysecurity", 2, 2, ask_query_security, true},
    {"setsecurity", 3, 3, ask_set_security, true},
    {"queryquota", 2, 2, ask_query_quota, true},
    {"setquota", 3, 3, ask_set_quota, true},
    {"lock", 4, 6, ask_lock, true},
    {"unlock", 4, 4, ask_unlock, true},
    {"unlockall", 2, 2, ask_unlock_all, true},
    {"fsctl", 3, 5, ask_fsctl, true},
    {"bypass", 3, 3, ask_bypass, true},
    {"ioctl", 3, 5, ask_ioctl, true},
    {"internal", 3, 5, ask_internal, true},
    {"shutdown", 2, 2, ask_shutdown, false},
    {"queryremove", 2, 2, ask_query_remove, false},
    {"networkopen", 3, 3, ask_network_open, false},
    {"map", 2, 3, ask_map, true},
    {"fastread", 4, 4, ask_fast_read, true},
    {"fastwrite", 4, 4, ask_fast_write, true},
    {"pagein", 4, 4, ask_page_in, true},
    {"pageout", 4, 4, ask_page_out, true},
    {NULL, 0, 0, NULL, false},
};
