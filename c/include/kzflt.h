/* The host: it loads drivers by their DriverEntry, and plays the requests of a program through them, above the proved manager. */
#ifndef KZFLT_H
#define KZFLT_H

#include <fltKernel.h>
#include <stdbool.h>
#include <stddef.h>
#include <stdio.h>

KZ_BEGIN

/* A driver, and the name by which it is loaded. */
typedef struct {
    const char *name;
    DRIVER_INITIALIZE *entry;
} KzDriver;

/* Runs requests, one a line, in the words of docs/C.md, and writes each with its reply to the standard output. Volume 0, `v0`, is there from the start. After the last
 * request every filter is unloaded, and the counts of contexts are written.
 *
 * A mistake is told in a line of its own that begins with TOLD, and what differs from Windows in one that begins with LIMIT. The answer is an exit status: 0, or 5 if a
 * mistake was told, or 1 if memory was refused. */
int kz_run(const KzDriver *drivers, size_t count, const char *const *requests, size_t length);

/* The same with the lines of a file, or of the one with that name. The answer is also 1 if an expectation isn't met, 2 if a line isn't understood, where it ends, or 3 if the
 * file can't be read. */
int kz_run_file(const KzDriver *drivers, size_t count, FILE *requests);
int kz_run_path(const KzDriver *drivers, size_t count, const char *path);
/* It is run under two fills of memory that nobody wrote: what differs is told, and then the answer is 5. */
int kz_run_filled(const KzDriver *drivers, size_t count, const char *path);

/* A load: so many threads carry out the clients of a scenario, each again and again, for so many seconds, and say what is told meanwhile. The answer is that of kz_run, or
 * 6 where nobody could go on any more. */
int kz_run_load(const KzDriver *drivers, size_t count, const char *scenario, unsigned threads, double seconds, uint64_t seed);

/* What a request was answered: status is its number; held says that a filter holds the operation of that number, which is answered later; is_handle that the information is the handle
 * of a file that was opened. */
typedef struct {
    uint32_t status;
    int held;
    uint64_t information, operation;
    int is_handle;
} KzReply;

/* The same step by step, for tests: kz_open, any number of kz_request, and kz_close, whose answer is that of kz_run. kz_is_quiet leaves out all lines but
 * what is told. */
int kz_open(const KzDriver *drivers, size_t count);
KzReply kz_request(const char *line);
int kz_close(void);
extern int kz_is_quiet;

/* What the last request brought about: the bytes of its reply, and the callbacks that it called, as "pre:ctx post:ctx". Both stay until the next one. */
const uint8_t *kz_reply_bytes(size_t *length);
const char *kz_reply_callbacks(void);

/* Is called with each line that is told, and its number as "KZ0101", from then on; NULL for nobody. */
void kz_on_told(void (*told)(const char *id, const char *line));

/* Reports of runs of a file: an object of JSON a line in place of text, and a file of JUnit. */
void kz_use_json(bool is);
void kz_use_junit(const char *path);
/* Volume 0 is that folder of the host machine from now on: 0 or an errno. */
int kz_use_folder(const char *path);
/* So many seconds of the processor's time a callback may take: then the program says where it stands, and ends with status 6. */
void kz_be_patient(unsigned seconds);

/* How many mistakes and limits were told so far, and how many contexts were born and cleaned up; of a run that was closed, at its end. */
typedef struct {
    uint64_t told, limits, born, cleaned, leaked;
} KzCounts;
KzCounts kz_counts(void);

/* A message that isn't told, by its number, as "KZ0107"; false if there is none. It holds for all runs from then on. Strict: what differs from Windows (LIMIT) counts as told. */
bool kz_allow(const char *id);
void kz_be_strict(bool is);
/* Each call of the kit by a driver that is refused is said on the standard error, once for its line: from then on. */
void kz_show_refusals(void);
/* Writes what a message says, what Windows does there, and how it is mended, to the standard output; of `all` the rows of docs/TOLD.md. False if there is none of that number. */
bool kz_explain(const char *id);

/* Which postoperations run at DISPATCH_LEVEL, as the kit may have them: none, those of reads and writes, or of all I/O but creates, cleanups and closes. */
enum { KZ_DISPATCH_NONE, KZ_DISPATCH_DATA, KZ_DISPATCH_ALL };
void kz_dispatch(int which);
/* The same by a word: none, data, all; false if it is another. */
bool kz_dispatch_as(const char *word);

KZ_END

#endif
