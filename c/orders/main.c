/* explore SCENARIO [--first] : tries every order in which the threads of a scenario can meet, and writes what it finds as a script (docs/SCRIPT.md, "Every order of threads").
 *
 * Exit status: 0 nothing was found, 1 memory was refused, 2 a line or a word can't be read, or one of the set-up is refused, 3 the file can't be read or the output written, 4 the search
 * isn't whole, 5 something was found. */
#include "search.h"

#include <errno.h>
#include <signal.h>

static volatile int stop;

static void interrupt(int number)
{
    stop = number;
}

static _Noreturn void cant(const char *what)
{
    fprintf(stderr, "explore: %s: %s: %s\n", or_file, what, strerror(errno));
    exit(3);
}

static OrText text_of(const char *name)
{
    OR_LIST(char) text = {0};
    FILE *from = fopen(name, "r");
    int byte = 0;
    if (!from)
        cant("can't be opened");
    while ((byte = getc(from)) != EOF)
        *OR_ADD(text) = (char)byte;
    if (ferror(from))
        cant("can't be read");
    fclose(from);
    return (OrText){text.at, text.count};
}

static void read_words(OrSearch *search, int count, char **words)
{
    for (int at = 1; at < count; at++)
        if (!strcmp(words[at], "--first")) {
            search->is_first = true;
        } else if (*words[at] == '-' || *or_file) {
            fprintf(stderr, "explore: `%s` isn't understood: explore takes one scenario, and --first\n", words[at]);
            exit(2);
        } else {
            or_file = words[at];
        }
    if (!*or_file) {
        fputs("explore: which scenario?\n", stderr);
        exit(2);
    }
}

int main(int count, char **words)
{
    static OrScenario scenario;
    static OrSearch search = {.scenario = &scenario};
    read_words(&search, count, words);
    or_read_scenario(&scenario, text_of(or_file));
    signal(SIGINT, interrupt), signal(SIGTERM, interrupt);
    or_search(&search, &stop);
    signal(SIGINT, SIG_DFL), signal(SIGTERM, SIG_DFL);
    if (stop)
        fprintf(stderr, "explore: %s: interrupted\n", or_file);
    or_report(&search);
    if (fflush(stdout) || ferror(stdout))
        cant("the output can't be written");
    return search.count ? 5 : search.is_whole ? 0 : 4;
}
