/* Files as far as contexts are set on them: a stream is there while a handle is open on it or a create of its path is under way. */
#include "script.h"

static uint64_t stream_of_path(const OrScript *script, uint8_t volume, OrText path)
{
    for (uint64_t at = 0; at < script->streams.count; at++) {
        const OrStream *stream = &script->streams.at[at];
        if (!stream->is_gone && stream->volume == volume && or_is(path, stream->path))
            return at;
    }
    return OR_NONE;
}

static uint64_t created(OrScript *script, uint8_t volume, OrText path)
{
    uint64_t number = stream_of_path(script, volume, path);
    if (number == OR_NONE) {
        OrStream *stream = OR_ADD(script->streams);
        *stream = (OrStream){.volume = volume};
        memcpy(stream->path, path.at, path.length);
        number = script->streams.count - 1;
    }
    script->streams.at[number].creates++;
    return number;
}

void or_begun(OrScript *script, const OrAsked *asked, uint64_t number)
{
    OrOperation operation = {.event = (uint8_t)asked->event.event, .volume = (uint8_t)asked->volume, .is_down = true, .born = script->births};
    operation.handle = asked->handle;
    operation.stream = OR_NONE;
    operation.last = asked->event.kind == KZB_BELOW ? asked->instance : OR_NONE;
    if (operation.handle != OR_NONE) {
        operation.stream = script->handles.at[operation.handle].stream;
        operation.volume = script->streams.at[operation.stream].volume;
    } else if (operation.event == KZE_CREATE) {
        operation.is_creating = true;
        operation.stream = created(script, operation.volume, asked->path);
    }
    while (script->operations.count <= number)
        *OR_ADD(script->operations) = operation;
}

static void left(OrScript *script, uint64_t number)
{
    OrStream *stream = &script->streams.at[number];
    stream->is_gone = !stream->handles && !stream->creates;
    or_swept(script);
}

void or_dropped(OrScript *script, uint64_t handle)
{
    OrHandle *row = &script->handles.at[handle];
    if (row->is_open)
        script->streams.at[row->stream].handles--;
    row->is_open = false;
    left(script, row->stream);
}

static void create_ended(OrScript *script, OrOperation *operation, bool is_success)
{
    OrStream *stream = &script->streams.at[operation->stream];
    operation->is_creating = false;
    stream->creates--;
    if (is_success) {
        operation->handle = script->handles.count;
        *OR_ADD(script->handles) = (OrHandle){operation->stream, true};
        stream->handles++;
    }
    left(script, operation->stream);
}

/* A filter ended it in the base's place. */
void or_completed(OrScript *script, uint64_t number)
{
    OrOperation *operation = &script->operations.at[number];
    operation->is_down = false;
    if (operation->is_creating)
        create_ended(script, operation, false);
}

/* The base, or the manager for it: a create that succeeded gives a handle, a close ends one whatever is answered. */
void or_answered(OrScript *script, uint64_t number, bool is_success)
{
    OrOperation *operation = &script->operations.at[number];
    operation->is_down = false;
    if (operation->is_creating)
        create_ended(script, operation, is_success);
    else if (operation->event == KZE_CLOSE)
        or_dropped(script, operation->handle);
}

/* A close that comes before the cleanup is refused otherwise than one of no handle. */
bool or_is_open(OrScript *script, uint64_t handle)
{
    OrAsked asked = {.event = {.event = KZE_CLOSE, .handle = handle}};
    KazdrinTold told;
    return or_step(script, &asked, &told) != KZS_NO_HANDLE;
}
