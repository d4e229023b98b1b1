/* adapt ROOM FILE : what a driver's source has that only Microsoft's compiler takes, or takes otherwise, in words of ours. It prints the name of the file to compile: the file itself, or a copy in ROOM
 * where something of it, or of its own headers, had to be changed. The copy's lines are those of the file, and it says its name.
 *
 *   long                  int: it has 32 bits there (`long long` stays)
 *   5i64, 0x10ui64        5LL, 0x10ULL; i32, i16 and i8 have no word here
 *   __FUNCTION__ ": x"    "Name" ": x"; in a macro KZ_FUNCTION, which each function defines anew: outside of one it is the file. DriverEntry, which has another name in the program, says its own
 *   enum E : ULONG {      enum E {, for types of 32 bits
 *   static __forceinline  __forceinline, which is static here
 *   #pragma alloc_text(PAGE, F)   the section PAGE for F, in C: what is there may not run at DISPATCH_LEVEL
 *   __try, try            KZ_TRIES in front of its function, in C
 */
#include <ctype.h>
#include <libgen.h>
#include <limits.h>
#include <stdbool.h>
#include <stdio.h>
#include <stdlib.h>
#include <string.h>
#include <unistd.h>

enum { NAME = 128, DEEPEST = 32 };

/* A file that is read, and what comes out of it. */
typedef struct {
    const char *path, *at, *text;
    char *out;
    size_t used, room;
    char function[NAME], candidate[NAME], last[NAME];
    int braces, parentheses;
    size_t declared; /* where the declaration of that function begins in what comes out */
    bool is_directive, is_changed, has_try, is_defined; /* a macro of that directive names its function */
} Source;

static const char *room;
static bool is_any_changed, has_macro; /* of which some macro names its function */

static bool adapt(const char *path, const char *name, unsigned depth);

static void fail(const char *what, const char *path)
{
    fprintf(stderr, "adapt: %s: %s\n", path, what);
    exit(1);
}

static void put(Source *source, const char *text, size_t length)
{
    if (source->used + length + 1 > source->room) {
        source->room = 2 * (source->used + length + 1);
        source->out = realloc(source->out, source->room);
        if (!source->out)
            fail("no memory", source->path);
    }
    memcpy(source->out + source->used, text, length);
    source->used += length;
    source->out[source->used] = 0;
}

static void keep(Source *source, size_t length)
{
    put(source, source->at, length);
    source->at += length;
}

/* So many letters of the source are these words instead. */
static void change(Source *source, size_t length, const char *words)
{
    put(source, words, strlen(words));
    source->at += length;
    source->is_changed = true;
}

/* ---- Words. */
static size_t word_length(const char *text)
{
    size_t length = 0;
    while (isalnum((unsigned char)text[length]) || text[length] == '_')
        length++;
    return length;
}

static bool is_word(const char *text, size_t length, const char *word)
{
    return strlen(word) == length && strncmp(text, word, length) == 0;
}

static bool is_one_of(const char *text, size_t length, const char *const *words)
{
    while (*words && !is_word(text, length, *words))
        words++;
    return *words != NULL;
}

static const char *skip_blanks(const char *text)
{
    return text + strspn(text, " \t\r\n");
}

/* ---- What is changed. */
static void change_long(Source *source)
{
    static const char *const beside[] = {"int", "unsigned", "signed", "const", "volatile", NULL};
    const char *next = skip_blanks(source->at + 4);
    size_t length = word_length(next);
    if (is_word(next, length, "long") || is_word(next, length, "double")) {
        keep(source, (size_t)(next - source->at) + length);
        return;
    }
    bool has_int = false;
    for (; !has_int && is_one_of(next, length, beside); length = word_length(next)) {
        has_int = is_word(next, length, "int");
        next = skip_blanks(next + length);
    }
    change(source, 4, has_int ? "" : "int");
}

static char last_letter(const Source *source)
{
    size_t at = source->used;
    while (at > 0 && isspace((unsigned char)source->out[at - 1]))
        at--;
    return at ? source->out[at - 1] : 0;
}

static void change_function(Source *source, size_t length)
{
    char words[NAME + 8], name[PATH_MAX];
    bool is_wide = length == strlen("__FUNCTIONW__");
    bool is_entry = !source->is_directive && strcmp(source->function, "DriverEntry") == 0; /* it has another name in the program */
    bool is_joined = is_entry || *skip_blanks(source->at + length) == '"' || last_letter(source) == '"';
    snprintf(name, sizeof name, "%s", source->path);
    if (!is_wide && !is_joined) {
        keep(source, length);
        return;
    }
    if (source->is_directive)
        has_macro = source->is_defined = true;
    if (source->is_directive)
        snprintf(words, sizeof words, "KZ_FUNCTION%s", is_wide ? "W" : "");
    else
        snprintf(words, sizeof words, "%s\"%.120s\"", is_wide ? "L" : "", *source->function ? source->function : basename(name));
    change(source, length, words);
}

/* From here on macros say that function, or the file; the line that goes on is the same. */
static void define_function(Source *source)
{
    char words[4 * NAME], name[PATH_MAX];
    unsigned line = 1;
    if (!has_macro)
        return;
    for (const char *at = source->text; at < source->at; at++)
        line += *at == '\n';
    snprintf(name, sizeof name, "%s", source->path);
    const char *function = *source->function ? source->function : basename(name);
    snprintf(words, sizeof words, "\n#undef KZ_FUNCTION\n#undef KZ_FUNCTIONW\n#define KZ_FUNCTION \"%.100s\"\n#define KZ_FUNCTIONW L\"%.100s\"\n#line %u\n", function, function, line);
    put(source, words, strlen(words));
    source->is_changed = true;
}

static void change_static(Source *source)
{
    static const char *const inlines[] = {"__forceinline", "FORCEINLINE", "CFORCEINLINE", "INLINE", NULL};
    const char *next = skip_blanks(source->at + 6);
    if (is_one_of(next, word_length(next), inlines))
        change(source, 6, "");
    else
        keep(source, 6);
}

/* `enum E : ULONG {` is `enum E {`. */
static void change_enum(Source *source)
{
    static const char *const types[] = {"ULONG", "LONG", "UINT32", "INT32", "UINT", "INT", "DWORD", "int", "unsigned", NULL};
    const char *at = skip_blanks(source->at + 4);
    at = skip_blanks(at + word_length(at));
    const char *type = *at == ':' ? skip_blanks(at + 1) : at, *behind = skip_blanks(type + word_length(type));
    if (*at != ':' || *behind != '{' || !is_one_of(type, word_length(type), types)) {
        keep(source, 4);
        return;
    }
    keep(source, (size_t)(at - source->at));
    for (; source->at < behind; source->at++)
        if (*source->at == '\n')
            put(source, "\n", 1);
    source->is_changed = true;
}

/* Its function is compiled so that the block's ends find what its variables hold. */
static void note_try(Source *source)
{
    static const char words[] = " KZ_TRIES ";
    size_t length = sizeof words - 1, behind = source->used - source->declared;
    if (!*source->function || source->has_try || source->is_directive)
        return;
    put(source, words, length);
    memmove(source->out + source->declared + length, source->out + source->declared, behind);
    memcpy(source->out + source->declared, words, length);
    source->is_changed = source->has_try = true;
}

static void take_number(Source *source)
{
    size_t length = 0;
    while (isalnum((unsigned char)source->at[length]) || source->at[length] == '.' || source->at[length] == '_')
        length++;
    size_t suffix = length;
    while (suffix > 0 && isdigit((unsigned char)source->at[suffix - 1]))
        suffix--;
    long bits = strtol(source->at + suffix, NULL, 10);
    bool is_sized = suffix > 1 && strchr("iI", source->at[suffix - 1]) && (bits == 8 || bits == 16 || bits == 32 || bits == 64);
    if (!is_sized) {
        keep(source, length);
        return;
    }
    bool is_unsigned = strchr("uU", source->at[suffix - 2]) != NULL;
    put(source, source->at, suffix - 1 - is_unsigned);
    source->at += suffix - 1 - is_unsigned;
    change(source, length - (suffix - 1 - is_unsigned), bits < 64 ? (is_unsigned ? "U" : "") : is_unsigned ? "ULL" : "LL");
}

/* ---- What is passed by. */
static void take_text(Source *source)
{
    char quote = *source->at;
    size_t length = 1;
    while (source->at[length] && source->at[length] != quote && source->at[length] != '\n')
        length += source->at[length] == '\\' && source->at[length + 1] ? 2 : 1;
    keep(source, length + (source->at[length] == quote));
}

static void take_comment(Source *source)
{
    const char *end = source->at[1] == '/' ? strchr(source->at, '\n') : strstr(source->at + 2, "*/");
    keep(source, !end ? strlen(source->at) : (size_t)(end - source->at) + (source->at[1] == '*' ? 2 : 0));
}

/* A header of the driver's own is adapted too; one that isn't there is the compiler's to find. */
static void take_include(Source *source, unsigned depth)
{
    char name[PATH_MAX], path[2 * PATH_MAX], folder[PATH_MAX];
    const char *begin = source->at + strcspn(source->at, "\"<\n");
    const char *end = *begin == '"' ? strchr(begin + 1, '"') : NULL;
    if (!end || (size_t)(end - begin) >= sizeof name || depth == DEEPEST)
        return;
    snprintf(name, sizeof name, "%.*s", (int)(end - begin - 1), begin + 1);
    snprintf(folder, sizeof folder, "%s", source->path);
    snprintf(path, sizeof path, "%s/%s", dirname(folder), name);
    if (!strchr(name, '/') && !strchr(name, '\\') && access(path, R_OK) == 0)
        adapt(path, name, depth + 1);
}

/* `#pragma alloc_text(PAGE, F, G)`: words in its place that give each function its section. False for any other one. */
static bool change_alloc_text(Source *source, const char *word)
{
    const char *end = source->at + strcspn(source->at, "\n"), *at = skip_blanks(word + word_length(word));
    bool is_c = strlen(source->path) > 2 && strcmp(source->path + strlen(source->path) - 2, ".c") == 0;
    if (!is_c || !is_word(at, word_length(at), "alloc_text") || *skip_blanks(at + word_length(at)) != '(')
        return false;
    at = skip_blanks(skip_blanks(at + word_length(at)) + 1);
    at += *at == '"';
    if (strncmp(at, "PAGE", 4) != 0)
        return false;
    for (at = strchr(at, ','); at && at < end && *at == ','; at = skip_blanks(at)) {
        char text[3 * NAME];
        at = skip_blanks(at + 1);
        int length = (int)word_length(at);
        snprintf(text, sizeof text, "__typeof__(%.*s) %.*s __attribute__((noinline, section(\"PAGE\"))); ", length, at, length, at);
        put(source, text, strlen(text));
        at += length;
    }
    source->at = end;
    source->is_changed = true;
    return true;
}

static void take_directive(Source *source, unsigned depth)
{
    const char *word = source->at + 1 + strspn(source->at + 1, " \t");
    source->is_directive = true;
    if (is_word(word, word_length(word), "include")) {
        take_include(source, depth);
        keep(source, strcspn(source->at, "\n"));
    } else if (!is_word(word, word_length(word), "pragma") || !change_alloc_text(source, word)) {
        keep(source, 1);
    }
}

static void take_word(Source *source)
{
    static const char *const functions[] = {"__FUNCTION__", "__FUNCTIONW__", "__func__", NULL}, *const tries[] = {"__try", "try", NULL};
    size_t length = word_length(source->at);
    snprintf(source->last, sizeof source->last, "%.*s", (int)(length < NAME - 1 ? length : NAME - 1), source->at);
    if (is_one_of(source->at, length, tries))
        note_try(source);
    if (is_word(source->at, length, "long"))
        change_long(source);
    else if (is_one_of(source->at, length, functions))
        change_function(source, length);
    else if (is_word(source->at, length, "enum"))
        change_enum(source);
    else if (is_word(source->at, length, "static"))
        change_static(source);
    else
        keep(source, length);
}

/* The function whose body it is: the last word outside of all that a parenthesis stands behind. */
static void take_sign(Source *source)
{
    char sign = *source->at;
    if (sign == '(' && source->parentheses++ == 0 && source->braces == 0)
        strcpy(source->candidate, source->last);
    else if (sign == ')')
        source->parentheses -= source->parentheses > 0;
    else if (sign == '{' && source->braces++ == 0)
        strcpy(source->function, source->candidate);
    else if (sign == '}' && source->braces > 0 && --source->braces == 0)
        source->function[0] = source->candidate[0] = 0;
    else if (sign == ';' && source->braces == 0)
        source->candidate[0] = 0;
    bool is_line = sign == '\n' && last_letter(source) != '\\';
    bool is_end = source->braces == 0 && (sign == '}' || sign == ';' || (is_line && source->is_directive && !source->candidate[0]));
    bool is_defined = is_line && source->is_defined, is_edge = (sign == '{' && source->braces == 1) || (sign == '}' && source->braces == 0);
    if (is_line)
        source->is_directive = source->is_defined = false;
    keep(source, 1);
    if (is_defined || (is_edge && !source->is_directive))
        define_function(source);
    if (is_end) {
        source->declared = source->used;
        source->has_try = false;
    }
}

static bool begins_line(const Source *source)
{
    size_t at = source->used;
    while (at > 0 && (source->out[at - 1] == ' ' || source->out[at - 1] == '\t'))
        at--;
    return at == 0 || source->out[at - 1] == '\n';
}

static void take_next(Source *source, unsigned depth)
{
    if (source->at[0] == '/' && (source->at[1] == '/' || source->at[1] == '*'))
        take_comment(source);
    else if (*source->at == '"' || *source->at == '\'')
        take_text(source);
    else if (*source->at == '#' && begins_line(source))
        take_directive(source, depth);
    else if (isdigit((unsigned char)*source->at))
        take_number(source);
    else if (word_length(source->at))
        take_word(source);
    else
        take_sign(source);
}

/* ---- Files. */
static char *read_file(const char *path)
{
    FILE *file = fopen(path, "rb");
    size_t size = 0, used = 0;
    char *text = NULL;
    do {
        size = 2 * used + 65536;
        text = realloc(text, size);
        if (!text)
            fail("no memory", path);
        used += file ? fread(text + used, 1, size - used - 1, file) : 0;
    } while (used == size - 1);
    if (!file || ferror(file))
        fail("can't be read", path);
    fclose(file);
    text[used] = 0;
    return text;
}

static void write_file(const Source *source, const char *name)
{
    char path[2 * PATH_MAX];
    snprintf(path, sizeof path, "%s/%s", room, name);
    FILE *file = fopen(path, "wb");
    if (!file)
        fail("can't be written", path);
    fprintf(file, "# 1 \"%s\"\n", source->path);
    fwrite(source->out, 1, source->used, file);
    if (fclose(file) != 0)
        fail("can't be written", path);
}

/* Whether something was changed. What was adapted already is passed by. */
static bool adapt(const char *path, const char *name, unsigned depth)
{
    char copy[2 * PATH_MAX];
    snprintf(copy, sizeof copy, "%s/%s", room, name);
    if (access(copy, F_OK) == 0) {
        char *made = read_file(copy);
        has_macro |= strstr(made, "KZ_FUNCTION") != NULL;
        free(made);
        return false;
    }
    char *text = read_file(path);
    Source source = {.path = path, .at = text, .text = text};
    put(&source, "", 0);
    while (*source.at)
        take_next(&source, depth);
    is_any_changed |= source.is_changed;
    write_file(&source, name); /* also one that includes another that is changed */
    free(source.out);
    free(text);
    return source.is_changed;
}

int main(int count, char **words)
{
    char name[PATH_MAX];
    if (count != 3) {
        fprintf(stderr, "usage: adapt ROOM FILE\n");
        return 2;
    }
    room = words[1];
    snprintf(name, sizeof name, "%s", words[2]);
    const char *base = basename(name);
    adapt(words[2], base, 0);
    if (is_any_changed)
        printf("%s/%s\n", room, base);
    else
        printf("%s\n", words[2]);
    return 0;
}
