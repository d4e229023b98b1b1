/* Runs the script on standard input by c/orders, and prints a line for each that isn't silent: what fltscript answers, and of a `go` the last line. */
#include "orders/script.h"

int main(void)
{
    static OrScript script;
    char *line = NULL;
    size_t room = 0;
    ssize_t length;
    or_file = "-";
    or_open(&script);
    while ((length = getline(&line, &room, stdin)) >= 0) {
        length -= length && line[length - 1] == '\n';
        if (!length || *line == '#')
            continue;
        OrText answer = or_run(&script, (OrText){line, (size_t)length});
        fwrite(answer.at, 1, answer.length, stdout);
        putchar('\n');
    }
    or_close(&script);
    free(line);
    return 0;
}
