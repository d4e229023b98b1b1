/* Reports for other programs: an object of JSON a line, and a file of JUnit with a test case for each expectation. */
#ifndef KZ_RUN_REPORT_H
#define KZ_RUN_REPORT_H

#include "host.h"
#include "core/place.h"

bool kz_is_json(void);
/* From here on what is found is written as gcc, github or sarif has it, and nothing else is; false if it is none of these. */
bool kz_use_format(const char *name);
bool kz_has_format(void);
/* All runs of a program, with what stands around all that they find. */
int kz_run_reported(int (*perform)(const void *asked), const void *asked);
void kz_report_event(const char *event, const char *members);
/* What is told: its line, and beside it what stands there, member by member. */
void kz_report_told(const KzSaid *said);
void kz_report_expectation(const char *words, const char *unmet);
void kz_report_begin(const char *file);
/* The next request begins: what was found before it is written. */
void kz_report_requests(void);
/* The status; 3 in place of 0 where the file of JUnit can't be written. */
int kz_report_end(const char *file, int status);
const char *kz_callback_name(KzCallback callback);
void kz_json_text(char *room, size_t size, const char *text);

#endif
