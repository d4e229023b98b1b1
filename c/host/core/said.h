/* What happens, as values: who decides by it asks for the kind and the number. The text beside them is for people. */
#ifndef KZ_SAID_H
#define KZ_SAID_H

#include <stdbool.h>
#include <stddef.h>
#include <stdint.h>

/* What a text is. A line may be said in several pieces, each of its own kind. */
typedef enum {
    KZ_SAID_REQUEST, /* a request's own words */
    KZ_SAID_REPLY,
    KZ_SAID_HANDLE, /* of a reply: the number of the handle that a create gave */
    KZ_SAID_BY_DRIVER,
    KZ_SAID_TOLD,
    KZ_SAID_LIMIT,
    KZ_SAID_AGAIN, /* how often what was told came up again, at the end of a run */
    KZ_SAID_COUNTS,
    KZ_SAID_UNMET, /* an expectation that isn't met */
    KZ_SAID_ELSE
} KzKind;

/* One of core/messages.h, which who tells something includes; 0 where nothing is told. */
typedef int KzMessage;

/* A mistake or a limit has its message, its place and the object that it is of, where there is one. */
typedef struct {
    KzKind kind;
    KzMessage message;
    const struct KzPlace *place;
    const void *object;
    const char *text;
} KzSaid;

/* In a text the number of an operation stands between two of these: it may be another in each order of the same requests. Who puts the text for people leaves them out. */
#define KZ_MARK "\x1f"
#define KZ_OPERATION "operation " KZ_MARK "%llu" KZ_MARK

/* Of what a call asks how it is answered. */
typedef enum { KZ_CHOICE_DEVICE, KZ_CHOICE_PAGING, KZ_CHOICE_POOL, KZ_CHOICE_CONTEXT, KZ_CHOICE_NAME, KZ_CHOICE_TIME, KZ_CHOICE_INSIDE } KzChoice;

extern bool kz_is_deaf; /* nobody reads what requests and drivers say */
void kz_say(KzKind kind, const char *format, ...) __attribute__((format(printf, 2, 3)));
void kz_put(KzKind kind, const char *text);
/* Puts a text for people on the standard output. */
void kz_print(const KzSaid *said);
/* A text without its marks. */
void kz_unmark(char *room, size_t size, const char *text);

#endif
