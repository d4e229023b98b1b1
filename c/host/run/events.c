/* Requests for what happens beside files: threads, images, handles of processes and threads, keys of the registry. */
#include "run/events.h"

#include "cache/image.h"
#include "core/client.h"
#include "core/op.h"
#include "core/process.h"
#include "core/status.h"
#include "lib/letters.h"
#include "manager/disposition.h"
#include "manager/perform.h"
#include "kit/handleevent.h"
#include "kit/notify.h"
#include "kit/registry.h"
#include "user/file.h"
#include "run/masks.h"
#include "run/read.h"
#include "run/reply.h"
#include "run/runfile.h"

#include <stdlib.h>

static KzReply answer(NTSTATUS status, uint64_t information, const void *bytes, size_t length)
{
    bool is_exact = true;
    KzReply reply = {.status = NT_SUCCESS(status) ? KZS_OK : kz_number(status, &is_exact)};
    reply.information = NT_SUCCESS(status) ? information : 0;
    kz_print_reply(reply, NT_SUCCESS(status) || is_exact ? STATUS_SUCCESS : status, bytes, length);
    kz_settle();
    return reply;
}

/* ---- Threads. One that begins is answered with its number: the next one of its process. */
static uint64_t next_thread(uint64_t process)
{
    uint64_t id = process + 8;
    while (kz_has_thread(process, id))
        id += 4;
    return id;
}

KzReply kz_ask_thread(char **words)
{
    uint64_t process, other = kz_me->process, own = kz_me->process, thread = kz_me->thread;
    bool is_start = strcmp(words[1], "start") == 0;
    if ((!is_start && strcmp(words[1], "end") != 0) || !kz_read_number(words[2], UINT32_MAX, &process))
        return kz_wrong();
    if (!is_start) {
        if (!words[3] || words[4] || !kz_read_number(words[3], UINT32_MAX, &other))
            return kz_wrong();
        if (!kz_has_thread(process, other))
            return answer(STATUS_INVALID_CID, 0, NULL, 0);
        kz_thread_ends(process, other);
        return answer(STATUS_SUCCESS, 0, NULL, 0);
    }
    if (words[3] && (strcmp(words[3], "from") != 0 || !words[4] || !kz_read_number(words[4], UINT32_MAX, &other)))
        return kz_wrong();
    uint64_t made = next_thread(process);
    if (words[3]) {
        kz_me->process = other;
        kz_me->thread = other + 4;
    }
    kz_thread_begins(process, made);
    kz_me->process = own;
    kz_me->thread = thread;
    return answer(STATUS_SUCCESS, made, NULL, 0);
}

/* ---- Images: the file is opened to be executed, and a section of it is made. */
static NTSTATUS ask_section(KzFile *file, UCHAR major)
{
    KzAnswer answered;
    const KzAsked asked = {.major = major, .code = PAGE_EXECUTE, .data_flags = FLTFL_CALLBACK_DATA_FS_FILTER_OPERATION};
    return kz_ask_opened(file, &asked, &answered);
}

static NTSTATUS load_image(uint64_t process, const char *path)
{
    char name[300];
    KzFile *file;
    KzCreate create = kz_usual_create(FILE_OPEN, false);
    create.access = FILE_EXECUTE | FILE_READ_ATTRIBUTES | SYNCHRONIZE;
    create.share = FILE_SHARE_READ | FILE_SHARE_DELETE;
    snprintf(name, sizeof name, "%s%.250s", *path == '/' ? "//?/GLOBALROOT" : "C:/", path);
    NTSTATUS status = kz_open_as(name, &create, &file);
    if (!NT_SUCCESS(status))
        return status;
    status = ask_section(file, IRP_MJ_ACQUIRE_FOR_SECTION_SYNCHRONIZATION);
    if (NT_SUCCESS(status)) {
        status = kz_map_image(file, process);
        ask_section(file, IRP_MJ_RELEASE_FOR_SECTION_SYNCHRONIZATION);
    }
    if (NT_SUCCESS(status))
        kz_image_loads(process, file);
    kz_close_opened(file);
    return status;
}

KzReply kz_ask_image(char **words)
{
    uint64_t process, own = kz_me->process, thread = kz_me->thread;
    if (strcmp(words[1], "load") != 0 || !kz_read_number(words[2], UINT32_MAX, &process))
        return kz_wrong();
    kz_me->process = process ? process : 4;
    kz_me->thread = kz_me->process + 4;
    NTSTATUS status = load_image(process, words[3]);
    kz_me->process = own;
    kz_me->thread = thread;
    return answer(status, 0, NULL, 0);
}

/* ---- Handles: the answer is what is granted. */
KzReply kz_ask_open(char **words)
{
    uint64_t process, thread = 0;
    ULONG access;
    bool is_thread = strcmp(words[1], "thread") == 0, is_duplicate = false, is_of_kernel = false;
    char **rest = words + (is_thread ? 4 : 3);
    if ((!is_thread && strcmp(words[1], "process") != 0) || !kz_read_number(words[2], UINT32_MAX, &process) || (is_thread && !kz_read_number(words[3], UINT32_MAX, &thread)))
        return kz_wrong();
    if (!rest[0] || !kz_read_process_access(rest[0], &access))
        return kz_wrong();
    if (rest[1])
        is_duplicate = strcmp(rest[1], "duplicate") == 0, is_of_kernel = strcmp(rest[1], "kernel") == 0;
    if (rest[1] && (!(is_duplicate || is_of_kernel) || rest[2]))
        return kz_wrong();
    if (kz_process(process)->is_over || (is_thread && !kz_has_thread(process, thread)))
        return answer(STATUS_INVALID_CID, 0, NULL, 0);
    PVOID object = is_thread ? (PVOID)kz_thread_object(process, thread) : (PVOID)kz_process(process);
    return answer(STATUS_SUCCESS, kz_grant_handle(object, is_thread ? *PsThreadType : *PsProcessType, access, is_duplicate, is_of_kernel), NULL, 0);
}

/* ---- Keys, by whoever asks: each is opened, touched and closed, as a program does it. */
typedef struct {
    WCHAR key[300], name[100];
    UNICODE_STRING key_text, name_text;
    OBJECT_ATTRIBUTES attributes;
} Asked;

static void read_key(Asked *asked, const char *key, const char *name)
{
    char whole[300];
    snprintf(whole, sizeof whole, "%s%.200s", *key == '/' ? "" : "/REGISTRY/MACHINE/SYSTEM/ControlSet001/Services/", key);
    USHORT length = (USHORT)kz_widen(asked->key, whole);
    asked->key_text = (UNICODE_STRING){length, length, asked->key};
    length = (USHORT)kz_widen(asked->name, name);
    asked->name_text = (UNICODE_STRING){length, length, asked->name};
    InitializeObjectAttributes(&asked->attributes, &asked->key_text, OBJ_CASE_INSENSITIVE, NULL, NULL);
}

/* A number, `hex:0102`, or a text. */
static NTSTATUS set_value(HANDLE key, PUNICODE_STRING name, const char *data)
{
    char *end;
    uint8_t *bytes = kz_me->bytes;
    size_t length;
    ULONG number = (ULONG)strtoul(data, &end, 0);
    if (!*end)
        return ZwSetValueKey(key, name, 0, REG_DWORD, &number, sizeof number);
    if (strncmp(data, "hex:", 4) == 0 && kz_read_hex(data + 4, bytes, &length))
        return ZwSetValueKey(key, name, 0, REG_BINARY, bytes, (ULONG)length);
    length = kz_widen((WCHAR *)bytes, data);
    memset(bytes + length, 0, sizeof(WCHAR));
    return ZwSetValueKey(key, name, 0, REG_SZ, bytes, (ULONG)(length + sizeof(WCHAR)));
}

static ULONG put_name(uint8_t *to, const WCHAR *name, ULONG length)
{
    memcpy(to, name, length);
    memset(to + length, 0, sizeof(WCHAR));
    return length + (ULONG)sizeof(WCHAR);
}

/* The names of the keys below it, and those of its values, each with a zero behind it. */
static NTSTATUS list(HANDLE key, ULONG *length)
{
    uint64_t room[128];
    PKEY_BASIC_INFORMATION below = (PVOID)room;
    PKEY_VALUE_BASIC_INFORMATION value = (PVOID)room;
    uint8_t *to = kz_me->bytes;
    ULONG needed;
    NTSTATUS status = STATUS_SUCCESS;
    for (ULONG at = 0; NT_SUCCESS(status = ZwEnumerateKey(key, at, KeyBasicInformation, below, sizeof room, &needed)) && *length < 4096; at++)
        *length += put_name(to + *length, below->Name, below->NameLength);
    for (ULONG at = 0; status == STATUS_NO_MORE_ENTRIES && *length < 4096; at++) {
        NTSTATUS other = ZwEnumerateValueKey(key, at, KeyValueBasicInformation, value, sizeof room, &needed);
        if (!NT_SUCCESS(other))
            return other == STATUS_NO_MORE_ENTRIES ? STATUS_SUCCESS : other;
        *length += put_name(to + *length, value->Name, value->NameLength);
    }
    return status;
}

static NTSTATUS touch(const char *verb, HANDLE key, Asked *asked, const char *data, ULONG *length)
{
    uint64_t room[128];
    PKEY_VALUE_PARTIAL_INFORMATION value = (PVOID)room;
    bool has_name = asked->name_text.Length > 0;
    *length = 0;
    if (strcmp(verb, "set") == 0)
        return set_value(key, &asked->name_text, data);
    if (strcmp(verb, "delete") == 0)
        return has_name ? ZwDeleteValueKey(key, &asked->name_text) : ZwDeleteKey(key);
    if (strcmp(verb, "rename") == 0)
        return ZwRenameKey(key, &asked->name_text);
    if (strcmp(verb, "list") == 0)
        return list(key, length);
    if (strcmp(verb, "query") != 0)
        return STATUS_SUCCESS;
    NTSTATUS status = ZwQueryValueKey(key, &asked->name_text, KeyValuePartialInformation, value, sizeof room, length);
    *length = NT_SUCCESS(status) ? value->DataLength : 0;
    memcpy(kz_me->bytes, value->Data, *length);
    return status;
}

/* How many words each verb has behind it. */
static bool is_verb(char **words)
{
    static const struct {
        const char *verb;
        size_t least, most;
    } verbs[] = {{"set", 3, 3}, {"query", 2, 2}, {"delete", 1, 2}, {"rename", 2, 2}, {"create", 1, 1}, {"open", 1, 1}, {"list", 1, 1}};
    size_t count = 0;
    while (words[2 + count])
        count++;
    for (size_t at = 0; at < sizeof verbs / sizeof verbs[0]; at++)
        if (strcmp(verbs[at].verb, words[1]) == 0)
            return count >= verbs[at].least && count <= verbs[at].most && (count < 2 || strlen(words[3]) < 100);
    return false;
}

KzReply kz_ask_key(char **words)
{
    Asked asked;
    HANDLE key;
    ULONG length = 0;
    if (!is_verb(words))
        return kz_wrong();
    read_key(&asked, words[2], words[3] ? words[3] : "");
    bool makes = strcmp(words[1], "set") == 0 || strcmp(words[1], "create") == 0;
    NTSTATUS status = makes ? kz_make_key(&key, KEY_ALL_ACCESS, &asked.attributes, NULL) : ZwOpenKey(&key, KEY_ALL_ACCESS, &asked.attributes);
    if (!NT_SUCCESS(status) || !key)
        return answer(status, 0, NULL, 0);
    status = touch(words[1], key, &asked, words[4], &length);
    ZwClose(key);
    return answer(status, length, kz_me->bytes, length);
}
