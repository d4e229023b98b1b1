/* What was seen of the last request: its reply, the callbacks that it called, and what was told. */
#ifndef KZ_RUN_SEEN_H
#define KZ_RUN_SEEN_H

#include "host.h"
#include "core/place.h"

typedef struct {
    const char *file; /* whose requests are played; NULL if it is none */
    unsigned line, request_line, unmet, expected, looked_for; /* of the expectations those of callbacks */
    uint32_t called; /* filters of which more was called than their loading and unloading, and the making and the end of their instances; a bit each */
    uint32_t set_up; /* those of which these callbacks of instances were called */
    char command[256], callbacks[2048]; /* those that were called, as text once it is asked for */
    struct {
        KzCallback callback;
        const char *driver;
    } calls[400];
    size_t calls_count;
    KzReply reply;
    NTSTATUS other; /* of the reply: the kit's own, where it is another one */
    char says[4096];
    uint8_t bytes[KZ_BYTES];
    size_t length;
    struct {
        KzMessage message;
        bool is_counted, is_expected;
    } told[64];
    size_t told_count;
    void (*on_told)(const char *id, const char *text);
} KzSeen;

extern KzSeen kz_seen;

/* One after the other. */
void kz_note_request(const char *words);
void kz_note_callback(KzCallback callback, PFLT_FILTER filter);
void kz_note_told(const KzSaid *said, bool is_counted);
/* One that is no line of its own. */
void kz_note_again(const KzSaid *said);
void kz_note_reply(KzReply reply, NTSTATUS other, const uint8_t *bytes, size_t length, const char *says);
void kz_forget_notes(void);
void kz_next_line(void);
unsigned kz_unmet(void);
unsigned kz_line(void);
/* That of the last request. */
unsigned kz_request_line(void);
const char *kz_command(void);
const char *kz_callbacks(void);
const char *kz_callback_word(KzCallback callback);

#endif
