/* Who looks on at a run: its expectations and its reports, and who has clients of his own. */
#include "run/observer.h"

#include "core/module.h"
#include "run/fails.h"
#include "run/refusal.h"
#include "run/reply.h"
#include "run/report.h"
#include "run/seen.h"

static void entered(KzCallback callback, PFLT_FILTER filter)
{
    kz_note_callback(callback, filter);
}

static bool told(const KzSaid *said, bool is_counted)
{
    if (!said->text) {
        kz_note_again(said);
        return false;
    }
    if (said->kind != KZ_SAID_AGAIN)
        kz_note_told(said, is_counted);
    kz_report_told(said);
    return !kz_is_json() && !kz_has_format();
}

const KzObserver kz_observer = {entered, told, kz_print_reply, kz_fails, kz_note_answer};
