/* Names, and the files that they stand for. */
#include "filesystem/name.h"

#include "core/memory.h"
#include "core/module.h"
#include "core/told.h"
#include "lib/letters.h"
#include "lib/upcase.h"
#include "filesystem/disk.h"
#include "filesystem/folder.h"
#include "filesystem/record.h"
#include "filesystem/spelling.h"
#include "filesystem/stream.h"
#include "filesystem/tree.h"
#include "wire/frame.h"

#include <stdlib.h>

struct KzTreeState {
    KzName *first, *places[KZ_NAME_PLACES];
    bool is_sorted;
};

/* The first so many of a list in the order of their bytes, those that are alike as they stood; `rest` is what stands behind them. */
static KzName *sorted(KzName *list, size_t count, KzName **rest)
{
    if (count == 1) {
        *rest = list->next;
        list->next = NULL;
        return list;
    }
    KzName *first = sorted(list, count / 2, rest), *second = sorted(*rest, count - count / 2, rest), *whole = NULL, **end = &whole;
    while (first && second) {
        KzName **less = strcmp(first->text, second->text) <= 0 ? &first : &second;
        *end = *less;
        end = &(*less)->next;
        *less = *end;
    }
    *end = first ? first : second;
    return whole;
}

static void sort(void)
{
    size_t count = 0;
    for (const KzName *one = kz.tree->first; one; one = one->next)
        count++;
    KzName *rest;
    kz.tree->first = count ? sorted(kz.tree->first, count, &rest) : NULL;
    for (KzName *one = kz.tree->first, *before = NULL; one; before = one, one = one->next)
        one->before = before;
    kz.tree->is_sorted = true;
}

KzName *kz_all_names(void)
{
    return kz.tree->first;
}

KzName *kz_first_name(void)
{
    if (!kz.tree->is_sorted)
        sort();
    return kz.tree->first;
}

/* How many bytes of both are one letter that is the same; 0: they differ. */
static size_t same(PFLT_VOLUME volume, const char *a, const char *b)
{
    WCHAR one, other;
    size_t length = kz_take_letter(a, &one);
    bool is = length == kz_take_letter(b, &other) && (one == other || (!volume->is_case_sensitive && kz_upcase(one) == kz_upcase(other)));
    return is ? length : 0;
}

bool kz_is_same_name(PFLT_VOLUME volume, const char *a, const char *b, size_t length)
{
    size_t at = 0, more;
    while (at < length && a[at] && (more = same(volume, a + at, b + at)) > 0)
        at += more;
    return at >= length || (!a[at] && !b[at]);
}

KzName *kz_find_name(PFLT_VOLUME volume, const char *text)
{
    for (KzName *one = kz.tree->places[kz_name_place(volume, text)]; one; one = one->same)
        if (!one->is_gone && one->volume == volume && kz_is_same_name(volume, one->text, text, KZ_PATH))
            return one;
    return NULL;
}

static void put_in(KzName *name)
{
    KzName **place = &kz.tree->places[kz_name_place(name->volume, name->text)];
    name->same = *place;
    *place = name;
    name->before = NULL;
    name->next = kz.tree->first;
    if (kz.tree->first)
        kz.tree->first->before = name;
    kz.tree->first = name;
    kz.tree->is_sorted = false;
}

static void take_out(KzName *name)
{
    KzName **at = &kz.tree->places[kz_name_place(name->volume, name->text)];
    while (*at != name)
        at = &(*at)->same;
    *at = name->same;
    if (name->before)
        name->before->next = name->next;
    else
        kz.tree->first = name->next;
    if (name->next)
        name->next->before = name->before;
}

KzName *kz_add_name(const char *text, KzStream *stream)
{
    KzName *made = kz_memory(sizeof *made);
    made->volume = stream->file->volume;
    made->file = stream->file;
    made->stream = stream;
    made->text = kz_copy_of(text);
    made->file->names++;
    stream->names++;
    put_in(made);
    return made;
}

void kz_move_name(KzName *name, const char *text)
{
    char *fresh = kz_copy_of(text);
    take_out(name);
    free(name->text);
    name->text = fresh;
    name->cached = 0;
    put_in(name);
}

/* A file of the host machine is there before anybody spoke of it. */
static void look_below(KzName *name)
{
    KzFound found;
    KzRecord *record = name->file;
    if (!kz_look_in_folder(name->volume->id, name->text, &found))
        return;
    bool is_new = found.is_there && !record->id;
    if (is_new)
        kz_begin_record(record, found.is_directory);
    record->exists = record->streams->exists = found.is_there;
    record->is_directory = found.is_directory;
    record->streams->size = found.size;
    if (!record->streams->cache)
        record->streams->valid = found.size;
    if (is_new)
        record->created = record->accessed = record->written = record->changed = found.written;
}

bool kz_is_there(KzName *name)
{
    if (!*name->text && !name->file->exists)
        kz_begin_record(name->file, true); /* the root */
    if (name->base)
        kz_is_there(name->base);
    else if (!name->is_gone)
        look_below(name);
    return kz_exists(name);
}

void kz_tell_long_path(const char *text, const char *call)
{
    if (strlen(text) >= KZ_PATH)
        kz_tell(KZM_LONG_PATH, call, "a path that counts %zu letters, and %d are taken: it answers STATUS_OBJECT_NAME_INVALID", strlen(text), KZ_PATH - 1);
}

/* The name of a file with one of its streams keeps the file's own name. */
static KzName *add_stream_name(PFLT_VOLUME volume, const KzSpelling *read)
{
    char text[sizeof read->text];
    const char *name = read->text + read->file + 1;
    snprintf(text, sizeof text, "%.*s", (int)read->file, read->text);
    KzName *base = kz_take_name(volume, text);
    KzStream *stream = kz_stream_of(base->file, name);
    KzName *made = kz_add_name(read->text, stream ? stream : kz_add_stream(base->file, name, strlen(name)));
    made->base = base;
    return made;
}

KzName *kz_take_name(PFLT_VOLUME volume, const char *text)
{
    KzSpelling read;
    if (!NT_SUCCESS(kz_read_spelling(text, &read))) {
        kz_tell_long_path(text, "a create");
        return NULL;
    }
    KzName *found = kz_find_name(volume, read.text);
    if (!found)
        found = read.text[read.file] ? add_stream_name(volume, &read) : kz_add_name(read.text, kz_new_record(volume, read.text)->streams);
    kz_keep_name(found);
    kz_is_there(found);
    return found;
}

KzName *kz_take_any_name(PFLT_VOLUME volume, const char *text)
{
    KzName *name = kz_take_name(volume, text);
    if (name || strlen(text) >= KZ_PATH)
        return name;
    name = kz_add_name(text, kz_new_record(volume, text)->streams);
    name->is_gone = true;
    kz_keep_name(name);
    return name;
}

void kz_keep_name(KzName *name)
{
    name->users++;
}

static void free_name(KzName *name)
{
    KzRecord *record = name->file;
    KzStream *stream = name->stream;
    KzName *base = name->base;
    take_out(name);
    free(name->text);
    free(name);
    if (--stream->names == 0 && *stream->name && !stream->exists)
        kz_free_stream(stream);
    if (--record->names == 0)
        kz_free_record(record);
    kz_let_go_name(base);
}

/* One that nobody uses, and by which no file is found, is forgotten; so is one of a stream, which its file has. */
void kz_let_go_name(KzName *name)
{
    if (name && --name->users == 0 && (name->is_gone || name->base || !name->file->exists))
        free_name(name);
}

bool kz_is_below(const KzName *name, PFLT_VOLUME volume, const char *directory)
{
    size_t length = strlen(directory);
    if (name->is_gone || name->volume != volume || !*name->text)
        return false;
    return !length || (kz_is_same_name(volume, name->text, directory, length) && name->text[length] == '/');
}

const char *kz_name_now(const KzFile *file)
{
    return file->name ? file->name->text : file->path;
}

const char *kz_key_of(const KzFile *file)
{
    return file->name ? file->name->stream->key : file->path;
}

static void free_tree(void)
{
    while (kz.tree->first) {
        KzName *gone = kz.tree->first;
        kz.tree->first = gone->next;
        free(gone->text);
        free(gone);
    }
}

const KzModule kz_tree_module = {KZ_STATE(tree), .free = free_tree};
