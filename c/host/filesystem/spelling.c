/* A name of a file, as NTFS reads it. */
#include "filesystem/spelling.h"

#include "core/memory.h"
#include "core/spell.h"
#include "filesystem/disk.h"
#include "lib/letters.h"
#include "wire/frame.h"

enum { MOST_LETTERS = 255 };

/* What stands between two separators or colons. */
typedef struct {
    const char *text;
    size_t length;
} Piece;

static bool is_of_file(WCHAR letter)
{
    static const char refused[] = "\"*<>?|:\\";
    return letter >= ' ' && (letter > 127 || !strchr(refused, (char)letter));
}

static bool is_of_stream(WCHAR letter)
{
    return letter && letter != ':' && letter != '\\';
}

static bool has_letters(Piece piece, bool (*takes)(WCHAR letter))
{
    size_t letters = 0;
    WCHAR letter = 'a';
    for (size_t at = 0; at < piece.length && takes(letter); letters++)
        at += kz_take_letter(piece.text + at, &letter);
    return letters && letters <= MOST_LETTERS && takes(letter);
}

static bool is_of(Piece piece, const char *word)
{
    return piece.length == strlen(word) && kz_compare_texts(piece.text, word, piece.length) == 0;
}

static bool is_file(Piece piece)
{
    return !is_of(piece, ".") && !is_of(piece, "..") && has_letters(piece, is_of_file);
}

/* The next piece of that one, up to a colon, and what is left after it; the text is NULL if there is none. */
static Piece cut(Piece *rest)
{
    if (!rest->text)
        return (Piece){NULL, 0};
    const char *colon = memchr(rest->text, ':', rest->length);
    Piece piece = {rest->text, colon ? (size_t)(colon - rest->text) : rest->length};
    *rest = colon ? (Piece){colon + 1, rest->length - piece.length - 1} : (Piece){NULL, 0};
    return piece;
}

/* One part: `file`, `file:stream`, `file:stream:type`. Of the root only streams have a name. */
typedef struct {
    Piece file, stream; /* no text: the part has none */
    bool is_index, is_data;
} Part;

static bool read_part(Piece text, bool may_be_root, Part *part)
{
    Piece rest = text, file = cut(&rest), stream = cut(&rest), type = cut(&rest);
    bool is_data = type.text && is_of(type, "$DATA"), is_index = type.text && is_of(type, "$INDEX_ALLOCATION");
    bool is_named = stream.length && !(is_index && is_of(stream, "$I30"));
    *part = (Part){file, is_named ? stream : (Piece){NULL, 0}, is_index, is_data || is_named};
    if (rest.text || !(is_file(file) || (may_be_root && !file.length && stream.text)))
        return false;
    if (type.text ? !is_data && (!is_index || is_named) : stream.text && !stream.length)
        return false;
    return !is_named || has_letters(stream, is_of_stream);
}

static void add(KzSpelling *read, size_t *used, const char *before, Piece piece)
{
    int put = snprintf(read->text + *used, sizeof read->text - *used, "%s%.*s", before, (int)piece.length, piece.text);
    *used += (size_t)put;
}

/* A part that isn't the last one is a directory, and may say so by its type. */
static bool read_parts(const char *at, KzSpelling *read)
{
    size_t used = 0;
    for (bool is_last = false; !is_last;) {
        Piece text = {at, strcspn(at, "/\\")};
        Part part;
        read->has_end = text.text[text.length] && !text.text[text.length + 1];
        is_last = read->has_end || !text.text[text.length];
        if (!read_part(text, is_last && !used, &part) || (!is_last && part.is_data))
            return false;
        read->last = used + (used > 0);
        add(read, &used, used ? "/" : "", part.file);
        read->file = used;
        if (part.stream.text)
            add(read, &used, ":", part.stream);
        read->is_index = part.is_index;
        read->is_data = part.is_data;
        at += text.length + 1;
    }
    return !read->has_end || !read->is_data;
}

static bool is_separator(char letter)
{
    return letter == '/' || letter == '\\';
}

NTSTATUS kz_read_spelling(const char *text, KzSpelling *read)
{
    *read = (KzSpelling){.status = STATUS_OBJECT_NAME_INVALID};
    if (strlen(text) >= KZ_PATH)
        return read->status;
    text += is_separator(*text);
    if (!*text || read_parts(text, read))
        read->status = STATUS_SUCCESS;
    return read->status;
}

NTSTATUS kz_spelling_refuses(const KzFile *file, const KzCreate *create, bool is_there, bool is_directory)
{
    bool asks_directory = create->options & FILE_DIRECTORY_FILE;
    if (!NT_SUCCESS(file->spelt.status))
        return file->spelt.status;
    if (file->spelt.has_stream && kz_is_in_folder(file->volume->id))
        return STATUS_OBJECT_NAME_INVALID;
    if (file->spelt.is_data && asks_directory)
        return STATUS_NOT_A_DIRECTORY;
    if (file->spelt.is_data && is_there && is_directory)
        return STATUS_FILE_IS_A_DIRECTORY;
    return file->spelt.is_of_directory && !asks_directory && !(is_there && is_directory) ? STATUS_OBJECT_NAME_INVALID : STATUS_SUCCESS;
}

void kz_spell_file(KzFile *file, const char *path)
{
    KzSpelling read;
    kz_read_spelling(path, &read);
    char *kept = kz_copy_of(path);
    free(file->path);
    file->path = kept;
    file->spelt.status = read.status;
    file->spelt.is_of_directory = read.has_end || read.is_index;
    file->spelt.is_data = read.is_data;
    file->spelt.has_stream = read.text[read.file];
}
