/* Calls of the client as requests. It stands behind the test, in one file with it. */
#include "run/seen.h"
#include "core/status.h"

static unsigned checks, wrong;
static const char *test = "";

void suite_checked(void)
{
    checks++;
}

void suite_wrong(int line)
{
    wrong++;
    printf("wrong %s %d %s\n", SUITE, line, test);
}

/* ---- Requests. A name has `/` here, and the exact status is beside the manager's. */
static NTSTATUS ask(const char *line, uint64_t *information)
{
    KzReply reply = kz_request(line);
    if (information)
        *information = reply.information;
    return kz_seen.other ? kz_seen.other : kz_ntstatus(reply.status);
}

static NTSTATUS open_name(const char *name, const struct smb2_create *io, struct smb2_handle *handle)
{
    static const char *const modes[] = {"supersede", "existing", "new", "always", "overwrite", "overwriteif"};
    char line[600];
    uint64_t number = 0;
    snprintf(line, sizeof line, "create 0 %s \"%s\" access %u share %u options %u attributes %u", modes[io->in.create_disposition], name, io->in.desired_access, io->in.share_access,
             io->in.create_options, io->in.file_attributes);
    NTSTATUS status = ask(line, &number);
    *handle = (struct smb2_handle){{number, NT_SUCCESS(status)}};
    return status;
}

/* All names that were made: a tree is taken away from its ends on. */
static char names[64][200];
static unsigned names_count;

static void note(const char *name)
{
    for (unsigned at = 0; at < names_count; at++)
        if (strcmp(names[at], name) == 0)
            return;
    if (names_count < sizeof names / sizeof names[0])
        snprintf(names[names_count++], sizeof names[0], "%s", name);
}

NTSTATUS smb2_create(struct smb2_tree *tree, TALLOC_CTX *memory, struct smb2_create *io)
{
    (void)tree, (void)memory;
    NTSTATUS status = open_name(io->in.fname, io, &io->out.file.handle);
    if (NT_SUCCESS(status))
        note(io->in.fname);
    return status;
}

NTSTATUS smb2_util_close(struct smb2_tree *tree, struct smb2_handle handle)
{
    char line[60];
    (void)tree;
    snprintf(line, sizeof line, "close %llu", (unsigned long long)handle.data[0]);
    return ask(line, NULL);
}

NTSTATUS smb2_close(struct smb2_tree *tree, struct smb2_close *io)
{
    return smb2_util_close(tree, io->in.file.handle);
}

NTSTATUS smb2_setinfo_file(struct smb2_tree *tree, union smb_setfileinfo *io)
{
    char line[400];
    (void)tree;
    unsigned long long handle = io->generic.in.file.handle.data[0];
    if (io->generic.level == RAW_SFILEINFO_RENAME_INFORMATION) {
        note(io->rename_information.in.new_name);
        snprintf(line, sizeof line, "rename %llu \"/%s\"%s", handle, io->rename_information.in.new_name, io->rename_information.in.overwrite ? " replace" : "");
    } else {
        snprintf(line, sizeof line, "dispose %llu %s", handle, io->disposition_info.in.delete_on_close ? "delete" : "keep");
    }
    return ask(line, NULL);
}

NTSTATUS smb2_getinfo_file(struct smb2_tree *tree, TALLOC_CTX *memory, union smb_fileinfo *io)
{
    char line[60];
    (void)tree, (void)memory;
    snprintf(line, sizeof line, "query %llu all", (unsigned long long)io->generic.in.file.handle.data[0]);
    return ask(line, NULL);
}

NTSTATUS smb2_find_level(struct smb2_tree *tree, TALLOC_CTX *memory, struct smb2_find *io, unsigned *count, union smb_search_data **data)
{
    char line[60];
    (void)tree, (void)memory, (void)data;
    *count = 0;
    snprintf(line, sizeof line, "dir %llu both %s", (unsigned long long)io->in.file.handle.data[0], io->in.pattern);
    return ask(line, NULL);
}

DATA_BLOB data_blob_const(const void *bytes, size_t length)
{
    return (DATA_BLOB){bytes, length};
}

NTSTATUS smb2_util_write(struct smb2_tree *tree, struct smb2_handle handle, const void *bytes, uint64_t offset, size_t length)
{
    char line[1000];
    (void)tree;
    int used = snprintf(line, sizeof line, "write %llu %llu ", (unsigned long long)handle.data[0], (unsigned long long)offset);
    for (size_t at = 0; at < length && at < 400; at++)
        used += snprintf(line + used, sizeof line - (size_t)used, "%02x", ((const uint8_t *)bytes)[at]);
    return ask(line, NULL);
}

NTSTATUS smb2_write(struct smb2_tree *tree, struct smb2_write *io)
{
    return smb2_util_write(tree, io->in.file.handle, io->in.data.data, io->in.offset, io->in.data.length);
}

NTSTATUS smb2_read(struct smb2_tree *tree, TALLOC_CTX *memory, struct smb2_read *io)
{
    char line[80];
    (void)tree, (void)memory;
    snprintf(line, sizeof line, "read %llu %llu %u", (unsigned long long)io->in.file.handle.data[0], (unsigned long long)io->in.offset, io->in.length);
    NTSTATUS status = ask(line, NULL);
    io->out.data.data = kz_reply_bytes(&io->out.data.length);
    return status;
}

static NTSTATUS unlock(struct smb2_handle handle, const struct smb2_lock_element *one)
{
    char line[80];
    snprintf(line, sizeof line, "unlock %llu %llu %llu", (unsigned long long)handle.data[0], (unsigned long long)one->offset, (unsigned long long)one->length);
    return ask(line, NULL);
}

/* All of a request's locks are had, or none; a request that unlocks does that alone. */
NTSTATUS smb2_lock(struct smb2_tree *tree, struct smb2_lock *io)
{
    char line[80];
    (void)tree;
    io->out.reserved = 0;
    for (unsigned at = 0; at < io->in.lock_count; at++) {
        const struct smb2_lock_element *one = &io->in.locks[at];
        bool unlocks = io->in.locks[0].flags & SMB2_LOCK_FLAG_UNLOCK, is_wrong = unlocks ? one->flags != SMB2_LOCK_FLAG_UNLOCK : one->flags & SMB2_LOCK_FLAG_UNLOCK;
        snprintf(line, sizeof line, "lock %llu %llu %llu%s", (unsigned long long)io->in.file.handle.data[0], (unsigned long long)one->offset, (unsigned long long)one->length,
                 one->flags & SMB2_LOCK_FLAG_SHARED ? " shared" : "");
        NTSTATUS status = is_wrong ? STATUS_INVALID_PARAMETER : unlocks ? unlock(io->in.file.handle, one) : ask(line, NULL);
        if (NT_SUCCESS(status))
            continue;
        for (unsigned had = 0; had < at && !unlocks; had++)
            unlock(io->in.file.handle, &io->in.locks[had]);
        return status;
    }
    return STATUS_SUCCESS;
}

/* ---- What the client's library makes of them. */
static NTSTATUS open_and_close(const char *name, uint32_t access, uint32_t disposition, uint32_t options, uint32_t attributes)
{
    struct smb2_handle handle;
    const struct smb2_create io = {.in = {.desired_access = access, .share_access = FILE_SHARE_VALID_FLAGS, .create_disposition = disposition, .create_options = options, .file_attributes = attributes}};
    NTSTATUS status = open_name(name, &io, &handle);
    if (!NT_SUCCESS(status))
        return status;
    note(name);
    return smb2_util_close(NULL, handle);
}

NTSTATUS smb2_util_mkdir(struct smb2_tree *tree, const char *name)
{
    (void)tree;
    return open_and_close(name, FILE_LIST_DIRECTORY, NTCREATEX_DISP_CREATE, FILE_DIRECTORY_FILE, FILE_ATTRIBUTE_DIRECTORY);
}

NTSTATUS smb2_util_rmdir(struct smb2_tree *tree, const char *name)
{
    (void)tree;
    return open_and_close(name, DELETE, NTCREATEX_DISP_OPEN, FILE_DIRECTORY_FILE | FILE_DELETE_ON_CLOSE, 0);
}

NTSTATUS smb2_util_unlink(struct smb2_tree *tree, const char *name)
{
    (void)tree;
    return open_and_close(name, DELETE, NTCREATEX_DISP_OPEN, FILE_DELETE_ON_CLOSE | FILE_NON_DIRECTORY_FILE, 0);
}

/* A file that may only be read loses that first. */
static void take_away(const char *name)
{
    char line[80];
    struct smb2_handle handle;
    const struct smb2_create io = {.in = {.desired_access = FILE_WRITE_ATTRIBUTES, .share_access = FILE_SHARE_VALID_FLAGS, .create_disposition = NTCREATEX_DISP_OPEN}};
    if (NT_SUCCESS(open_name(name, &io, &handle))) {
        snprintf(line, sizeof line, "set %llu attributes 128", (unsigned long long)handle.data[0]);
        ask(line, NULL);
        smb2_util_close(NULL, handle);
    }
    if (!NT_SUCCESS(smb2_util_unlink(NULL, name)))
        smb2_util_rmdir(NULL, name);
}

int smb2_deltree(struct smb2_tree *tree, const char *name)
{
    size_t length = strlen(name);
    (void)tree;
    for (unsigned at = names_count; at-- > 0;)
        if (strncmp(names[at], name, length) == 0 && names[at][length] == '\\')
            take_away(names[at]);
    take_away(name);
    return 0;
}

bool smb2_util_setup_dir(struct torture_context *context, struct smb2_tree *tree, const char *name)
{
    (void)context;
    smb2_deltree(tree, name);
    return NT_SUCCESS(smb2_util_mkdir(tree, name));
}

NTSTATUS torture_smb2_testdir(struct smb2_tree *tree, const char *name, struct smb2_handle *handle)
{
    (void)tree;
    note(name);
    const struct smb2_create io = {.in = {.desired_access = FILE_ALL_ACCESS, .share_access = FILE_SHARE_VALID_FLAGS, .create_disposition = NTCREATEX_DISP_OPEN_IF, .create_options = FILE_DIRECTORY_FILE}};
    return open_name(name, &io, handle);
}

NTSTATUS torture_smb2_testfile(struct smb2_tree *tree, const char *name, struct smb2_handle *handle)
{
    (void)tree;
    note(name);
    const struct smb2_create io = {.in = {.desired_access = FILE_ALL_ACCESS, .share_access = FILE_SHARE_VALID_FLAGS, .create_disposition = NTCREATEX_DISP_OPEN_IF, .file_attributes = FILE_ATTRIBUTE_NORMAL}};
    return open_name(name, &io, handle);
}

NTSTATUS smb2_create_complex_file(struct torture_context *context, struct smb2_tree *tree, const char *name, struct smb2_handle *handle)
{
    (void)context, (void)tree;
    note(name);
    const struct smb2_create io = {.in = {.desired_access = FILE_ALL_ACCESS, .share_access = FILE_SHARE_VALID_FLAGS, .create_disposition = NTCREATEX_DISP_OVERWRITE_IF, .file_attributes = FILE_ATTRIBUTE_NORMAL}};
    return open_name(name, &io, handle);
}

uint32_t smb2_util_share_access(const char *letters)
{
    return (strchr(letters, 'R') ? FILE_SHARE_READ : 0) | (strchr(letters, 'W') ? FILE_SHARE_WRITE : 0) | (strchr(letters, 'D') ? FILE_SHARE_DELETE : 0);
}

/* ---- The tests, each in a run of its own. */
#define SUITE_TEST(name, ...)                    \
    do {                                         \
        test = #name;                            \
        names_count = 0;                         \
        kz_open(kz_drivers, kz_drivers_count);   \
        name(NULL, __VA_ARGS__);                 \
        kz_close();                              \
    } while (0);

extern const KzDriver kz_drivers[];
extern const size_t kz_drivers_count;

int main(void)
{
    kz_is_quiet = true;
    SUITE_TESTS
    printf("met %u\n", checks - wrong);
    return 0;
}
