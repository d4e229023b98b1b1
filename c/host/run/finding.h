/* What a run found, for programs that read findings: a compiler's line, a command of a job of GitHub's, SARIF, a test case of JUnit. */
#ifndef KZ_RUN_FINDING_H
#define KZ_RUN_FINDING_H

#include "core/place.h"
#include "core/said.h"

typedef struct KzFinding {
    struct KzFinding *next;
    char rule[16];      /* KZ0151; `expect` of an expectation that isn't met */
    bool is_limit;
    char *text;
    char *path;         /* of the driver's source, or NULL: the requests' line says where */
    unsigned line;
    unsigned request;   /* the line of the requests; 0 if it is none of theirs */
} KzFinding;

typedef enum { KZ_NO_FORMAT, KZ_GCC, KZ_GITHUB, KZ_SARIF } KzFormat;

/* What was found and isn't written yet, and how it is written. */
typedef struct {
    KzFormat format;
    KzFinding *first, **last;
} KzFindings;

/* A format by its name: gcc, github or sarif; false if it is none of these. */
bool kz_read_format(const char *name, KzFormat *format);
/* A mistake or a limit that is reported. It is kept until the next request, since an expectation may still say that it was meant. */
void kz_find(KzFindings *all, const KzSaid *said);
void kz_find_unmet(KzFindings *all, const char *words, const char *instead);
/* The newest of that number was meant. */
void kz_find_meant(KzFindings *all, const char *id);
/* Writes what no expectation can speak of any more, and gives each to the report. */
void kz_put_findings(KzFindings *all, const char *file, void (*put)(const KzFinding *one));
/* Before the first run and after the last one: what stands around all findings. A run that ends by a signal is a finding too. The answer is the program's status. */
int kz_run_found(KzFormat format, int (*perform)(const void *asked), const void *asked);

#endif
