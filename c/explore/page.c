/* A schedule as a page for a browser: a lane for each client, a row for each step, with the line of the driver's source, what the step touches, the locks that are held, and what was found. It has the colours of the
 * page of a script. */
#include "explore.h"
#include "core/said.h"

static const char style[] =
    ":root { color-scheme: light dark; --paper: #ffffff; --ink: #1c1e21; --quiet: #6b7178; --rule: #d7dade; --panel: #f5f6f8; --pick: #fff3c4; --bad: #c01818; --hold: #c25e00; --good: #23803c; --bar: #ffd98a; --edge: #a87b12; }\n"
    "@media (prefers-color-scheme: dark) { :root { --paper: #16181b; --ink: #e4e6e9; --quiet: #9aa1a9; --rule: #353a40; --panel: #1f2226; --pick: #4a4013; --bad: #ff6b6b; --hold: #ffa657; --good: #6fce85; --bar: #7a5c14; --edge: #d9ab3d; } }\n"
    "* { box-sizing: border-box; }\n"
    "body { margin: 0; background: var(--paper); color: var(--ink); font: 13px/1.4 system-ui, sans-serif; }\n"
    "header { padding: 6px 12px; border-bottom: 1px solid var(--rule); background: var(--panel); }\n"
    "header h1 { font-size: 14px; margin: 0 14px 0 0; display: inline; }\n"
    "#verdict { font-weight: 600; padding: 1px 8px; border-radius: 9px; border: 1px solid currentColor; color: var(--good); }\n"
    "#verdict.bad { color: var(--bad); }\n"
    "#schedule { color: var(--quiet); font: 12px ui-monospace, monospace; margin-left: 14px; }\n"
    "pre { margin: 6px 12px; white-space: pre-wrap; font: 12px ui-monospace, monospace; }\n"
    "pre.found { color: var(--bad); border-left: 3px solid var(--bad); padding-left: 8px; }\n"
    "table { border-collapse: collapse; width: 100%; }\n"
    "th { position: sticky; top: 0; background: var(--panel); text-align: left; border-bottom: 2px solid var(--rule); padding: 2px 8px; }\n"
    "td { vertical-align: top; border-bottom: 1px solid var(--rule); border-left: 1px solid var(--rule); padding: 1px 8px; }\n"
    "td.number { color: var(--quiet); border-left: 0; width: 3em; text-align: right; }\n"
    "td.on { background: var(--panel); border-left: 4px solid var(--edge); }\n"
    "td.held { border-left: 4px solid var(--hold); }\n"
    "tr.side td.on { background: var(--pick); border-left-color: var(--bad); }\n"
    ".at { font-weight: 600; } .place { color: var(--quiet); } code { font: 12px ui-monospace, monospace; white-space: pre-wrap; overflow-wrap: anywhere; }\n"
    ".touch, .said { color: var(--quiet); font-size: 12px; } .preempts { color: var(--hold); font-weight: 600; } .bad { color: var(--bad); font-weight: 600; }\n"
    ".lock { color: var(--hold); font-size: 12px; }\n";

/* ---- */
static void put_plain(FILE *to, const char *text)
{
    for (; *text; text++)
        switch (*text) {
        case '<':
            fputs("&lt;", to);
            break;
        case '>':
            fputs("&gt;", to);
            break;
        case '&':
            fputs("&amp;", to);
            break;
        default:
            putc(*text, to);
        }
}

/* With places and variables as the sources name them. */
static void put_text(FILE *to, const char *text)
{
    char *resolved = NULL;
    size_t size;
    FILE *room = open_memstream(&resolved, &size);
    if (!room)
        return;
    ex_put_sources(room, text);
    fclose(room);
    put_plain(to, resolved);
}

/* ---- Locks and objects that a client has taken and not let go. */
enum { HELD = 16 };
typedef struct {
    const Event *taken[RUNNERS + 1][HELD];
    unsigned counts[RUNNERS + 1];
} Holds;

static void note_hold(Holds *holds, const Event *one)
{
    unsigned *count = &holds->counts[one->client];
    const Event **taken = holds->taken[one->client];
    if (!one->is_lock)
        return;
    if (one->kind == EVENT_TAKES && *count < HELD) {
        taken[(*count)++] = one;
        return;
    }
    for (unsigned at = *count; one->kind == EVENT_GIVES && at-- > 0;)
        if (taken[at]->object == one->object) {
            memmove(taken + at, taken + at + 1, (--*count - at) * sizeof *taken);
            return;
        }
}

/* ---- Steps. */
/* Whether what was found names this place of the code. */
static bool is_side(const void *from)
{
    for (size_t at = 0; from && at < ex->found.count; at++)
        if (ex->found.all[at].sides[0] == (uintptr_t)from || ex->found.all[at].sides[1] == (uintptr_t)from)
            return true;
    return false;
}

/* Steps after this one, up to the next. */
static size_t end_of(size_t at)
{
    do
        at++;
    while (at < ex->trace.count && ex->trace.events[at].kind != EVENT_STEP);
    return at;
}

static bool has_side(size_t at)
{
    for (size_t next = at; next < end_of(at); next++)
        if (is_side(ex->trace.events[next].from))
            return true;
    return false;
}

/* A line may be said in several pieces. */
static bool goes_on(size_t at, size_t from)
{
    const char *before = at > from && ex->trace.events[at].kind == EVENT_SAID && ex->trace.events[at - 1].kind == EVENT_SAID ? ex->trace.events[at - 1].text : "";
    return *before && before[strlen(before) - 1] != '\n';
}

static void put_events(FILE *to, size_t from, size_t end)
{
    static const char *const classes[] = {"at", "said", "touch", "lock", "lock", "bad"};
    bool is_open = false;
    for (size_t at = from; at < end; at++) {
        const Event *one = &ex->trace.events[at];
        if ((one->kind == EVENT_TAKES || one->kind == EVENT_GIVES) && !one->is_lock)
            continue;
        if (!goes_on(at, from)) {
            fprintf(to, is_open ? "</div><div class=\"%s\">" : "<div class=\"%s\">", classes[one->kind]);
            is_open = true;
        }
        put_text(to, one->text);
    }
    if (is_open)
        fputs("</div>", to);
}

static void put_step(FILE *to, size_t at)
{
    const Event *one = &ex->trace.events[at];
    char place[128];
    if (one->is_preemption)
        fputs("<span class=\"preempts\">preempts</span> ", to);
    fputs("<span class=\"at\">", to);
    put_plain(to, one->text);
    fputs("</span>", to);
    if (one->from) {
        snprintf(place, sizeof place, " @%lx", (unsigned long)(uintptr_t)one->from);
        fputs("<span class=\"place\">", to);
        put_text(to, place);
        fputs("</span> <code>", to);
        put_plain(to, ex_source_text((unsigned long)(uintptr_t)one->from));
        fputs("</code>", to);
    }
    put_events(to, at + 1, end_of(at));
}

static bool has_lane(int client)
{
    for (size_t at = 0; at < ex->trace.count; at++)
        if ((int)ex->trace.events[at].client == client && ex->trace.events[at].kind == EVENT_STEP)
            return true;
    return false;
}

static void put_row(FILE *to, size_t at, Holds *holds)
{
    const Event *one = &ex->trace.events[at];
    fprintf(to, "<tr%s><td class=\"number\">%u</td>", has_side(at) ? " class=\"side\"" : "", one->step);
    for (size_t next = at; next < end_of(at); next++)
        note_hold(holds, &ex->trace.events[next]);
    for (int client = 1; client <= ex->run.runners_count; client++) {
        if (!has_lane(client))
            continue;
        bool is_on = (int)one->client == client;
        fprintf(to, "<td class=\"%s\">", is_on ? "on" : holds->counts[client] ? "held" : "");
        if (is_on)
            put_step(to, at);
        for (unsigned lock = 0; lock < holds->counts[client]; lock++) {
            fputs("<div class=\"lock\">holds ", to);
            put_text(to, holds->taken[client][lock]->name);
            fputs("</div>", to);
        }
        fputs("</td>", to);
    }
    fputs("</tr>\n", to);
}

static void put_head(FILE *to)
{
    bool is_bad = false;
    for (size_t at = 0; at < ex->found.count; at++)
        is_bad |= ex->found.all[at].of != END && ex->found.all[at].of != LIMITED;
    fprintf(to, "<!DOCTYPE html>\n<html lang=\"en\">\n<head>\n<meta charset=\"utf-8\">\n<meta name=\"viewport\" content=\"width=device-width, initial-scale=1\">\n"
                "<meta http-equiv=\"Content-Security-Policy\" content=\"default-src 'none'; style-src 'unsafe-inline'\">\n<title>Kazdrin: a schedule</title>\n<style>\n%s</style>\n</head>\n<body>\n",
            style);
    fprintf(to, "<header><h1>Kazdrin: a schedule</h1><span id=\"verdict\"%s>%s</span><span id=\"schedule\">--replay '", is_bad ? " class=\"bad\"" : "", is_bad ? "something was found" : "nothing was found");
    put_plain(to, ex_schedule_text(ex->schedule.length));
    fputs("'</span></header>\n", to);
    for (size_t at = 0; at < ex->found.count; at++) {
        char text[TEXT];
        kz_unmark(text, sizeof text, ex->found.all[at].text);
        fprintf(to, "<pre%s>", ex->found.all[at].of == END || ex->found.all[at].of == LIMITED ? "" : " class=\"found\"");
        put_text(to, text);
        fputs("</pre>\n", to);
    }
}

int ex_put_page(const char *path)
{
    FILE *to = fopen(path, "w");
    Holds *holds = ex_map(sizeof *holds);
    ex_put_touches();
    if (to) {
        put_head(to);
        fputs("<table>\n<thead><tr><th></th>", to);
        for (int client = 1; client <= ex->run.runners_count; client++)
            if (has_lane(client))
                fprintf(to, "<th>%s</th>", ex_runners[client].name);
        fputs("</tr></thead>\n<tbody>\n", to);
        for (size_t at = 0; at < ex->trace.count; at++)
            if (ex->trace.events[at].kind == EVENT_STEP)
                put_row(to, at, holds);
        fputs("</tbody>\n</table>\n</body>\n</html>\n", to);
    }
    return ex_end_file(to, path);
}
