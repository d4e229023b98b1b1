/* The console of programs: what they print is said as a driver's lines are, and what is typed comes by requests. The compiler's names are changed to these by c/build.sh. */
#include "core/beside.h"
#include "core/client.h"
#include "core/said.h"
#include "lib/format.h"
#include "user/program.h"

typedef struct {
    size_t length;
    char text[512];
} Piece;

static void put_piece(Piece *piece)
{
    KZ_INSIDE();
    if (piece->length && !kz_is_quiet)
        kz_put(KZ_SAID_BY_DRIVER, piece->text);
    piece->length = 0;
}

static void put_out(void *sink, WCHAR letter)
{
    Piece *piece = sink;
    if (piece->length + 1 == sizeof piece->text)
        put_piece(piece);
    piece->text[piece->length++] = (char)(letter < 127 && letter != KZ_MARK[0] ? letter : '?');
    piece->text[piece->length] = 0;
}

static int print(const void *format, bool is_wide, va_list arguments)
{
    Piece piece = {0};
    va_list rest;
    va_copy(rest, arguments);
    kz_format(put_out, &piece, format, is_wide, &rest);
    va_end(rest);
    int length = (int)piece.length;
    put_piece(&piece);
    return length;
}

int KzUserPrintf(const char *format, ...);
int KzUserPrintf(const char *format, ...)
{
    va_list arguments;
    va_start(arguments, format);
    int length = print(format, false, arguments);
    va_end(arguments);
    return length;
}

int KzUserVprintf(const char *format, va_list arguments);
int KzUserVprintf(const char *format, va_list arguments)
{
    return print(format, false, arguments);
}

/* To any stream: a program has no other than its console. */
int KzUserFprintf(void *stream, const char *format, ...);
int KzUserFprintf(void *stream, const char *format, ...)
{
    (void)stream;
    va_list arguments;
    va_start(arguments, format);
    int length = print(format, false, arguments);
    va_end(arguments);
    return length;
}

int KzWprintf(const WCHAR *format, ...);
int KzWprintf(const WCHAR *format, ...)
{
    va_list arguments;
    va_start(arguments, format);
    int length = print(format, true, arguments);
    va_end(arguments);
    return length;
}

int KzUserPuts(const char *text);
int KzUserPuts(const char *text)
{
    return KzUserPrintf("%s\n", text);
}

int KzUserFputs(const char *text, void *stream);
int KzUserFputs(const char *text, void *stream)
{
    (void)stream;
    return KzUserPrintf("%s", text);
}

int KzUserPutchar(int letter);
int KzUserPutchar(int letter)
{
    KzUserPrintf("%c", letter);
    return letter;
}

int KzUserFputc(int letter, void *stream);
int KzUserFputc(int letter, void *stream)
{
    (void)stream;
    return KzUserPutchar(letter);
}

int KzUserFflush(void *stream);
int KzUserFflush(void *stream)
{
    (void)stream;
    return 0;
}

void *KzUserFopen(const char *name, const char *mode);
void *KzUserFopen(const char *name, const char *mode)
{
    (void)name, (void)mode;
    return NULL; /* files are opened by CreateFile: the C library's streams would be files of this machine */
}

void OutputDebugStringA(const char *text);
void OutputDebugStringA(const char *text)
{
    KzUserPrintf("%s", text);
}

void OutputDebugStringW(const WCHAR *text);
void OutputDebugStringW(const WCHAR *text)
{
    KzUserPrintf("%ws", text);
}

/* ---- What is typed. */
static bool has_line(void *process)
{
    return strchr(((KzProcess *)process)->typed, '\n') != NULL;
}

/* A line with its end, as far as there is room; false where the program ends. */
static bool read_line(char *room, size_t size)
{
    bool is_there;
    {
        KZ_CALL_OF("a line of the console");
        KzProcess *process = kz_user()->process;
        kz_user()->thread->wants_input = true;
        is_there = size > 1 && kz_user_waits(has_line, process, UINT32_MAX, "a line of the console");
        kz_user()->thread->wants_input = false;
        if (is_there) {
            size_t length = strcspn(process->typed, "\n") + 1, taken = length < size ? length : size - 1;
            memcpy(room, process->typed, taken);
            room[taken] = 0;
            memmove(process->typed, process->typed + taken, strlen(process->typed + taken) + 1);
        }
    }
    kz_go_on_or_end();
    return is_there;
}

char *KzUserFgets(char *room, int size, void *stream);
char *KzUserFgets(char *room, int size, void *stream)
{
    (void)stream;
    return read_line(room, (size_t)size) ? room : NULL;
}

char *gets_s(char *room, size_t size);
char *gets_s(char *room, size_t size)
{
    if (!read_line(room, size))
        return NULL;
    room[strcspn(room, "\n")] = 0;
    return room;
}

int KzUserGetchar(void);
int KzUserGetchar(void)
{
    char letter[2];
    return read_line(letter, sizeof letter) ? (unsigned char)letter[0] : EOF;
}

int KzUserFgetc(void *stream);
int KzUserFgetc(void *stream)
{
    (void)stream;
    return KzUserGetchar();
}

int SetConsoleCtrlHandler(int (*handler)(uint32_t), int is_added);
int SetConsoleCtrlHandler(int (*handler)(uint32_t), int is_added)
{
    (void)handler, (void)is_added;
    return 1;
}
