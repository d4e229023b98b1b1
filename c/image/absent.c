/* Windows may page out a section whose name begins with PAGE, and gives back one that is discardable once DriverEntry has succeeded. Here they can't be touched at such times: the first touch is
 * told, and then all of the section is there until the next change. */
#include "image/absent.h"

#include "core/client.h"
#include "core/held.h"
#include "core/told.h"

#include <sched.h>
#include <stdatomic.h>

/* Whether those that can be paged out are closed: it is read and changed with their pages, by one thread at a time. No code that holds it touches them. */
static bool is_closed;
static _Thread_local bool is_changed; /* since the explorer put memory back; it isn't put back itself */
static atomic_flag is_held = ATOMIC_FLAG_INIT;
static _Thread_local bool is_told; /* it is told, until the IRQL falls */
static bool is_watched;

static bool can_be_out(const KzImage *image, const KzSection *section)
{
    return strncmp(section->name, "PAGE", 4) == 0 && !image->locks_pages;
}

/* The explorer has the pages that a driver writes under its own watch: there each access is looked at (kz_look_at_paged). */
static bool is_paged(const KzImage *image, const KzSection *section)
{
    return can_be_out(image, section) && !(section->is_written && kz_watches_copies);
}

static bool is_initial(const KzImage *image, const KzSection *section)
{
    (void)image;
    return section->is_discarded && strncmp(section->name, "INIT", 4) == 0;
}

static void set_rights(const KzImage *image, bool (*is_meant)(const KzImage *image, const KzSection *section), bool is_there)
{
    is_changed = true;
    for (unsigned at = 0; at < image->headers.sections_count; at++)
        if (is_meant(image, &image->headers.sections[at]))
            kz_protect_section(image, &image->headers.sections[at], is_there);
}

static void open_paged(const KzImage *image)
{
    set_rights(image, is_paged, true);
}

static void close_paged(const KzImage *image)
{
    set_rights(image, is_paged, false);
}

static void hold(void)
{
    while (atomic_flag_test_and_set(&is_held))
        sched_yield();
}

static void let_go(void)
{
    atomic_flag_clear(&is_held);
}

static void set_closed(bool closes)
{
    hold();
    if (closes != is_closed) {
        is_closed = closes;
        kz_each_image(closes ? close_paged : open_paged);
    }
    let_go();
}

/* The client's code of a driver goes on. */
static void run(void)
{
    bool is_high = kz_irql() >= DISPATCH_LEVEL, closes = is_high && !is_told;
    is_told &= is_high;
    set_closed(closes);
}

static void entered(const KzDriver *driver)
{
    KzImage *image = (KzImage *)(uintptr_t)kz_image_at((uintptr_t)driver->entry);
    if (!image)
        return;
    image->is_entered = true;
    set_rights(image, is_initial, false);
}

static void set_again(const KzImage *image)
{
    set_rights(image, is_paged, !is_closed);
    set_rights(image, is_initial, !image->is_entered);
}

void kz_close_absent(void)
{
    if (is_changed)
        kz_each_image(set_again);
    is_changed = false;
}

static void look_for_paged(const KzImage *image)
{
    for (unsigned at = 0; at < image->headers.sections_count; at++)
        is_watched |= is_paged(image, &image->headers.sections[at]);
}

void kz_watch_absent(void)
{
    kz_each_image(look_for_paged);
    if (is_watched)
        kz_binaries.run = run;
    kz_binaries.entered = entered;
    kz_binaries.put_back = kz_close_absent;
}

static const KzSection *section_of(uint64_t address, const KzImage **image)
{
    *image = kz_image_at(address);
    return *image ? kz_section_at(&(*image)->headers, (uint32_t)(address - (uintptr_t)(*image)->bytes.start)) : NULL;
}

bool kz_is_absent(uint64_t address)
{
    const KzImage *image;
    const KzSection *section = section_of(address, &image);
    hold();
    bool is_absent = section && ((is_closed && is_paged(image, section)) || (image->is_entered && is_initial(image, section)));
    let_go();
    return is_absent;
}

bool kz_is_back(uint64_t address, bool is_write, bool is_run)
{
    const KzImage *image;
    const KzSection *section = section_of(address, &image);
    return section && is_paged(image, section) && (section->is_written || !is_write) && (section->is_run || !is_run);
}

void kz_open_absent(uint64_t address)
{
    const KzImage *image;
    const KzSection *section = section_of(address, &image);
    if (is_initial(image, section)) {
        ((KzImage *)(uintptr_t)image)->is_entered = false;
        set_rights(image, is_initial, true);
    } else {
        set_closed(false);
    }
}

bool kz_may_read(const KzImage *image, const KzSection *section)
{
    if (is_paged(image, section))
        set_closed(false);
    return !(image->is_entered && is_initial(image, section));
}

static void tell_paged(const KzSection *section, bool is_run)
{
    kz_tell(KZM_IRQL, section->name, "%s at IRQL %u, and the section can be paged out", is_run ? "its code runs" : "it is touched", kz_irql());
}

void kz_tell_absent(uint64_t address, uint64_t rip)
{
    const KzImage *image;
    const KzSection *section = section_of(address, &image);
    bool is_run = address == rip, is_gone = is_initial(image, section);
    kz_open_absent(address);
    KZ_INSIDE_FROM(section->name, (const void *)(uintptr_t)(rip + 1));
    is_told = !is_gone;
    if (is_gone)
        kz_tell(KZM_GONE, section->name, "%s after DriverEntry, and the section is gone by then", is_run ? "its code runs" : "it is touched");
    else if (kz_irql() >= DISPATCH_LEVEL)
        tell_paged(section, is_run);
}

void kz_look_at_paged(const KzAccess *access)
{
    const KzImage *image;
    const KzSection *section = kz_is_binary(access->address) ? section_of((uintptr_t)access->address, &image) : NULL;
    if (!section || is_told || kz_irql() < DISPATCH_LEVEL || !section->is_written || !can_be_out(image, section))
        return;
    is_told = true;
    KZ_INSIDE_FROM(section->name, access->from);
    tell_paged(section, false);
}
