/* What a create asks for, in words. */
#include "run/masks.h"

#include "core/near.h"
#include "filesystem/version.h"
#include "run/read.h"

#include <stdlib.h>

typedef struct {
    const char *name;
    ULONG bits;
} Bits;

#define BITS(name) {#name, name}

static const Bits accesses[] = {BITS(GENERIC_READ), BITS(GENERIC_WRITE), BITS(GENERIC_EXECUTE), BITS(GENERIC_ALL), BITS(MAXIMUM_ALLOWED), BITS(DELETE), BITS(READ_CONTROL),
                                BITS(WRITE_DAC), BITS(WRITE_OWNER), BITS(SYNCHRONIZE), BITS(FILE_READ_DATA), BITS(FILE_LIST_DIRECTORY), BITS(FILE_WRITE_DATA), BITS(FILE_APPEND_DATA),
                                BITS(FILE_READ_EA), BITS(FILE_WRITE_EA), BITS(FILE_EXECUTE), BITS(FILE_TRAVERSE), BITS(FILE_DELETE_CHILD), BITS(FILE_READ_ATTRIBUTES),
                                BITS(FILE_WRITE_ATTRIBUTES), BITS(FILE_GENERIC_READ), BITS(FILE_GENERIC_WRITE), BITS(FILE_GENERIC_EXECUTE), BITS(FILE_ALL_ACCESS), {NULL, 0}};
static const Bits shares[] = {BITS(FILE_SHARE_READ), BITS(FILE_SHARE_WRITE), BITS(FILE_SHARE_DELETE), {NULL, 0}};
static const Bits options[] = {BITS(FILE_DIRECTORY_FILE), BITS(FILE_WRITE_THROUGH), BITS(FILE_SEQUENTIAL_ONLY), BITS(FILE_NO_INTERMEDIATE_BUFFERING), BITS(FILE_SYNCHRONOUS_IO_ALERT),
                               BITS(FILE_SYNCHRONOUS_IO_NONALERT), BITS(FILE_NON_DIRECTORY_FILE), BITS(FILE_COMPLETE_IF_OPLOCKED), BITS(FILE_NO_EA_KNOWLEDGE), BITS(FILE_RANDOM_ACCESS),
                               BITS(FILE_DELETE_ON_CLOSE), BITS(FILE_OPEN_BY_FILE_ID), BITS(FILE_OPEN_FOR_BACKUP_INTENT), BITS(FILE_NO_COMPRESSION), BITS(FILE_RESERVE_OPFILTER),
                               BITS(FILE_OPEN_REPARSE_POINT), BITS(FILE_OPEN_NO_RECALL), BITS(FILE_OPEN_FOR_FREE_SPACE_QUERY), BITS(FILE_OPEN_REQUIRING_OPLOCK), {NULL, 0}};
static const Bits attributes[] = {BITS(FILE_ATTRIBUTE_READONLY), BITS(FILE_ATTRIBUTE_HIDDEN), BITS(FILE_ATTRIBUTE_SYSTEM), BITS(FILE_ATTRIBUTE_ARCHIVE), BITS(FILE_ATTRIBUTE_NORMAL),
                                  BITS(FILE_ATTRIBUTE_TEMPORARY), BITS(FILE_ATTRIBUTE_OFFLINE), BITS(FILE_ATTRIBUTE_NOT_CONTENT_INDEXED), {NULL, 0}};

/* Of processes, and of threads. */
static const Bits process_accesses[] = {{"PROCESS_TERMINATE", 0x1}, {"PROCESS_CREATE_THREAD", 0x2}, {"PROCESS_VM_OPERATION", 0x8}, {"PROCESS_VM_READ", 0x10}, {"PROCESS_VM_WRITE", 0x20},
                                        {"PROCESS_DUP_HANDLE", 0x40}, {"PROCESS_CREATE_PROCESS", 0x80}, {"PROCESS_SET_INFORMATION", 0x200}, {"PROCESS_QUERY_INFORMATION", 0x400},
                                        {"PROCESS_SUSPEND_RESUME", 0x800}, {"PROCESS_QUERY_LIMITED_INFORMATION", 0x1000}, BITS(PROCESS_ALL_ACCESS), {"THREAD_TERMINATE", 0x1},
                                        {"THREAD_SUSPEND_RESUME", 0x2}, {"THREAD_GET_CONTEXT", 0x8}, {"THREAD_SET_CONTEXT", 0x10}, {"THREAD_QUERY_INFORMATION", 0x40}, BITS(THREAD_ALL_ACCESS), BITS(SYNCHRONIZE),
                                        BITS(DELETE), BITS(READ_CONTROL), {NULL, 0}};

/* None of the names: false, with the nearest of them. */
static bool is_near(const Bits *all, const char *word)
{
    KzNear near = kz_near(word);
    for (; all->name; all++)
        kz_try_near(&near, all->name);
    return kz_refuse_word("there is no `%.40s`%s%s", word, near.best ? "; the nearest is " : "", near.best ? near.best : "");
}

/* One of the names, or a number: decimal, or with 0x before it. */
static bool read_one(const Bits *all, const char *word, size_t length, ULONG *bits)
{
    char text[40], *end;
    if (length >= sizeof text)
        return kz_refuse_word("`%.40s` is too long for a name", word);
    memcpy(text, word, length);
    text[length] = 0;
    for (const Bits *one = all; one->name; one++)
        if (strcmp(one->name, text) == 0) {
            *bits |= one->bits;
            return true;
        }
    if (*text < '0' || *text > '9')
        return is_near(all, text);
    unsigned long number = strtoul(text, &end, text[1] == 'x' ? 16 : 10);
    *bits |= (ULONG)number;
    return (!*end && number <= UINT32_MAX) || kz_refuse_word("`%s` is no number of 32 bits", text);
}

static bool read_bits(const Bits *all, const char *word, ULONG *bits)
{
    for (*bits = 0;; word++) {
        size_t length = strcspn(word, "|");
        if (!read_one(all, word, length, bits))
            return false;
        word += length;
        if (!*word)
            return true;
    }
}

bool kz_read_process_access(const char *word, ULONG *access)
{
    return read_bits(process_accesses, word, access);
}

bool kz_read_mode(const char *word, ULONG *disposition)
{
    static const Bits all[] = {{"existing", FILE_OPEN}, {"new", FILE_CREATE}, {"always", FILE_OPEN_IF}, {"overwrite", FILE_OVERWRITE}, {"overwriteif", FILE_OVERWRITE_IF}, {"supersede", FILE_SUPERSEDE}, {NULL, 0}};
    for (const Bits *one = all; one->name; one++)
        if (strcmp(one->name, word) == 0) {
            *disposition = one->bits;
            return true;
        }
    return is_near(all, word);
}

enum { ACCESS = 1, SHARE = 2, OPTIONS = 4, ATTRIBUTES = 8, NAME = 16, TRANSACTION = 32 };

/* The pair, and which it is; 0 if it isn't understood. */
static int read_pair(char **pair, KzCreate *create, const char **name)
{
    ULONG said;
    if (!pair[1])
        return kz_refuse_word("nothing stands behind `%.40s`", pair[0]);
    if (strcmp(pair[0], "as") == 0) {
        *name = pair[1];
        return kz_is_name(pair[1]) || kz_refuse_word("`%.40s` is no name: it is too long, or begins with a digit", pair[1]) ? NAME : 0;
    }
    if (strcmp(pair[0], "access") == 0)
        return read_bits(accesses, pair[1], &create->access) ? ACCESS : 0;
    if (strcmp(pair[0], "share") == 0)
        return read_bits(shares, pair[1], &create->share) ? SHARE : 0;
    if (strcmp(pair[0], "in") == 0) {
        create->transaction = kz_transaction_named(pair[1]);
        return create->transaction || kz_refuse_word("no transaction is named %.40s", pair[1]) ? TRANSACTION : 0;
    }
    if (strcmp(pair[0], "attributes") == 0)
        return read_bits(attributes, pair[1], &create->attributes) ? ATTRIBUTES : 0;
    if (strcmp(pair[0], "options") != 0)
        return kz_refuse_word("`%.40s` is none of access, share, options, attributes, as, in", pair[0]);
    if (!read_bits(options, pair[1], &said))
        return 0;
    create->options = (create->options & ~(ULONG)FILE_VALID_OPTION_FLAGS) | (said & FILE_VALID_OPTION_FLAGS);
    create->beyond = said & ~(ULONG)FILE_VALID_OPTION_FLAGS;
    return OPTIONS;
}

/* A handle that can't be waited for isn't a synchronous one. */
bool kz_read_create(char **words, KzCreate *create, const char **name)
{
    int seen = 0;
    *name = NULL;
    for (; *words; words += 2) {
        int which = read_pair(words, create, name);
        if (!which)
            return false;
        if (seen & which)
            return kz_refuse_word("`%.40s` stands there twice", words[0]);
        seen |= which;
    }
    if (!(seen & OPTIONS) && !(create->access & SYNCHRONIZE))
        create->options &= ~(ULONG)FILE_SYNCHRONOUS_IO_NONALERT;
    return true;
}
