/* What Samba's tests of SMB2 name, for one that runs as a program on the host: a call of the client is a request here, and the server isn't there. */
#ifndef SUITE_H
#define SUITE_H

#include <kzflt.h>

#include <stdlib.h>
#include <string.h>
#include <unistd.h>

/* ---- Names of Samba's for the same. */
#define NT_STATUS_OK STATUS_SUCCESS
#define NT_STATUS_EQUAL(got, expected) (suite_checked(), (got) == (expected))
#define NT_STATUS_IS_OK(status) NT_SUCCESS(status)
#define SEC_FILE_READ_DATA FILE_READ_DATA
#define SEC_FILE_WRITE_DATA FILE_WRITE_DATA
#define SEC_FILE_APPEND_DATA FILE_APPEND_DATA
#define SEC_FILE_READ_EA FILE_READ_EA
#define SEC_FILE_WRITE_EA FILE_WRITE_EA
#define SEC_FILE_EXECUTE FILE_EXECUTE
#define SEC_FILE_READ_ATTRIBUTE FILE_READ_ATTRIBUTES
#define SEC_FILE_WRITE_ATTRIBUTE FILE_WRITE_ATTRIBUTES
#define SEC_FILE_ALL 0x1ff
#define SEC_DIR_LIST FILE_LIST_DIRECTORY
#define SEC_DIR_ADD_FILE FILE_ADD_FILE
#define SEC_DIR_ADD_SUBDIR FILE_ADD_SUBDIRECTORY
#define SEC_DIR_READ_EA FILE_READ_EA
#define SEC_DIR_WRITE_EA FILE_WRITE_EA
#define SEC_DIR_READ_ATTRIBUTE FILE_READ_ATTRIBUTES
#define SEC_DIR_WRITE_ATTRIBUTE FILE_WRITE_ATTRIBUTES
#define SEC_DIR_DELETE_CHILD FILE_DELETE_CHILD
#define SEC_DIR_TRAVERSE FILE_TRAVERSE
#define SEC_STD_DELETE DELETE
#define SEC_STD_READ_CONTROL READ_CONTROL
#define SEC_STD_WRITE_DAC WRITE_DAC
#define SEC_STD_WRITE_OWNER WRITE_OWNER
#define SEC_STD_SYNCHRONIZE SYNCHRONIZE
#define SEC_STD_ALL STANDARD_RIGHTS_ALL
#define SEC_RIGHTS_FILE_ALL FILE_ALL_ACCESS
#define SEC_RIGHTS_DIR_ALL FILE_ALL_ACCESS
#define SEC_RIGHTS_FILE_READ FILE_GENERIC_READ
#define NTCREATEX_SHARE_ACCESS_NONE 0
#define NTCREATEX_SHARE_ACCESS_READ FILE_SHARE_READ
#define NTCREATEX_SHARE_ACCESS_WRITE FILE_SHARE_WRITE
#define NTCREATEX_SHARE_ACCESS_DELETE FILE_SHARE_DELETE
#define NTCREATEX_SHARE_ACCESS_MASK FILE_SHARE_VALID_FLAGS
#define NTCREATEX_OPTIONS_DIRECTORY FILE_DIRECTORY_FILE
#define NTCREATEX_OPTIONS_NON_DIRECTORY_FILE FILE_NON_DIRECTORY_FILE
#define NTCREATEX_OPTIONS_DELETE_ON_CLOSE FILE_DELETE_ON_CLOSE
#define NTCREATEX_FLAGS_EXTENDED 0
enum { NTCREATEX_DISP_SUPERSEDE, NTCREATEX_DISP_OPEN, NTCREATEX_DISP_CREATE, NTCREATEX_DISP_OPEN_IF, NTCREATEX_DISP_OVERWRITE, NTCREATEX_DISP_OVERWRITE_IF };
enum { SMB2_IMPERSONATION_ANONYMOUS, SMB2_OPLOCK_LEVEL_NONE, SMB2_CONTINUE_FLAG_SINGLE, SMB2_FIND_BOTH_DIRECTORY_INFO };
enum { RAW_OPEN_SMB2, RAW_CLOSE_SMB2, RAW_FILEINFO_SMB2_ALL_INFORMATION, RAW_SFILEINFO_RENAME_INFORMATION, RAW_SFILEINFO_DISPOSITION_INFORMATION };

enum { SMB2_LOCK_FLAG_NONE = 0, SMB2_LOCK_FLAG_SHARED = 1, SMB2_LOCK_FLAG_EXCLUSIVE = 2, SMB2_LOCK_FLAG_UNLOCK = 4, SMB2_LOCK_FLAG_FAIL_IMMEDIATELY = 16 };

/* ---- Structures, as far as the tests fill them in or read them. */
typedef void TALLOC_CTX;
struct torture_context;
struct smb2_tree;
struct tevent_context;
struct tevent_req;
struct smb2_request;
union smb_search_data;
struct smb2_handle {
    uint64_t data[2];
};
struct suite_file {
    struct smb2_handle handle;
};
struct smb2_create {
    int level;
    struct {
        uint32_t security_flags, oplock_level, impersonation_level, create_flags, desired_access, file_attributes, share_access, create_disposition, create_options;
        uint64_t alloc_size;
        const char *fname;
    } in;
    struct {
        struct suite_file file;
        uint32_t file_attr;
    } out;
};
struct smb2_close {
    int level;
    struct {
        struct suite_file file;
        uint16_t flags;
    } in;
};
struct smb2_find {
    struct {
        struct suite_file file;
        const char *pattern;
        int continue_flags, max_response_size, level;
    } in;
};
struct smb2_lock_element {
    uint64_t offset, length;
    uint32_t flags, reserved;
};
struct smb2_lock {
    struct {
        struct suite_file file;
        uint16_t lock_count;
        uint32_t lock_sequence;
        struct smb2_lock_element *locks;
    } in;
    struct {
        uint16_t reserved;
    } out;
};
typedef struct {
    const uint8_t *data;
    size_t length;
} DATA_BLOB;
struct smb2_write {
    struct {
        struct suite_file file;
        uint64_t offset;
        DATA_BLOB data;
    } in;
};
struct smb2_read {
    struct {
        struct suite_file file;
        uint64_t offset;
        uint32_t length;
    } in;
    struct {
        DATA_BLOB data;
    } out;
};
union smb_open {
    struct {
        int level;
    } generic;
    struct smb2_create smb2;
};
union smb_close {
    struct smb2_close smb2;
};
union smb_setfileinfo {
    struct {
        int level;
        struct {
            struct suite_file file;
        } in;
    } generic;
    struct {
        int level;
        struct {
            struct suite_file file;
            uint8_t overwrite;
            uint64_t root_fid;
            const char *new_name;
        } in;
    } rename_information;
    struct {
        int level;
        struct {
            struct suite_file file;
            bool delete_on_close;
        } in;
    } disposition_info;
};
union smb_fileinfo {
    struct {
        int level;
        struct {
            struct suite_file file;
        } in;
    } generic;
};

/* ---- Checks. */
#define ZERO_STRUCT(it) memset(&(it), 0, sizeof(it))
#ifndef ARRAY_SIZE
#define ARRAY_SIZE(it) (sizeof(it) / sizeof(it)[0])
#endif
#define TORTURE_FAIL 0
#define __location__ ""
#define nt_errstr(status) ""
#define torture_comment(...) ((void)0)
#define torture_setting_bool(context, name, usual) (usual)
#define torture_result(context, kind, ...) suite_wrong(__LINE__)
#define torture_assert(context, is, ...)  \
    do {                                  \
        suite_checked();                  \
        if (!(is)) {                      \
            suite_wrong(__LINE__);        \
            return false;                 \
        }                                 \
    } while (0)
#define torture_assert_ntstatus_equal(context, got, expected, ...) torture_assert(context, (got) == (expected), "")
#define torture_assert_ntstatus_equal_goto(context, got, expected, result, label, ...) \
    do {                                                                               \
        suite_checked();                                                               \
        if ((got) != (expected)) {                                                     \
            suite_wrong(__LINE__);                                                     \
            result = false;                                                            \
            goto label;                                                                \
        }                                                                              \
    } while (0)
#define torture_assert_int_equal_goto(context, got, expected, result, label, ...) torture_assert_ntstatus_equal_goto(context, got, expected, result, label, "")
#define torture_warning(...) ((void)0)
#define torture_skip(...) return true
#define torture_assert_ntstatus_ok_goto(context, got, result, label, ...) torture_assert_ntstatus_equal_goto(context, got, STATUS_SUCCESS, result, label, "")

void suite_checked(void);
void suite_wrong(int line);

/* What is cut: descriptors of a folder that the tests make. */
#define set_dir_delete_perms(context, tree) ((void)0)
#define create_dir(context, tree) smb2_util_mkdir(tree, "test_dir")

/* ---- Calls of the client. */
NTSTATUS smb2_create(struct smb2_tree *tree, TALLOC_CTX *memory, struct smb2_create *io);
NTSTATUS smb2_close(struct smb2_tree *tree, struct smb2_close *io);
NTSTATUS smb2_setinfo_file(struct smb2_tree *tree, union smb_setfileinfo *io);
NTSTATUS smb2_getinfo_file(struct smb2_tree *tree, TALLOC_CTX *memory, union smb_fileinfo *io);
NTSTATUS smb2_find_level(struct smb2_tree *tree, TALLOC_CTX *memory, struct smb2_find *io, unsigned *count, union smb_search_data **data);
NTSTATUS smb2_util_close(struct smb2_tree *tree, struct smb2_handle handle);
NTSTATUS smb2_lock(struct smb2_tree *tree, struct smb2_lock *io);
NTSTATUS smb2_write(struct smb2_tree *tree, struct smb2_write *io);
NTSTATUS smb2_read(struct smb2_tree *tree, TALLOC_CTX *memory, struct smb2_read *io);
NTSTATUS smb2_util_write(struct smb2_tree *tree, struct smb2_handle handle, const void *bytes, uint64_t offset, size_t length);
NTSTATUS torture_smb2_testfile(struct smb2_tree *tree, const char *name, struct smb2_handle *handle);
DATA_BLOB data_blob_const(const void *bytes, size_t length);
NTSTATUS smb2_util_mkdir(struct smb2_tree *tree, const char *name);
NTSTATUS smb2_util_rmdir(struct smb2_tree *tree, const char *name);
NTSTATUS smb2_util_unlink(struct smb2_tree *tree, const char *name);
int smb2_deltree(struct smb2_tree *tree, const char *name);
bool smb2_util_setup_dir(struct torture_context *context, struct smb2_tree *tree, const char *name);
NTSTATUS torture_smb2_testdir(struct smb2_tree *tree, const char *name, struct smb2_handle *handle);
NTSTATUS smb2_create_complex_file(struct torture_context *context, struct smb2_tree *tree, const char *name, struct smb2_handle *handle);
uint32_t smb2_util_share_access(const char *letters);

#endif
