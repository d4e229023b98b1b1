/* A connection of a client: what is read of it, and what is written to it. */
#include "link.h"

#include <errno.h>
#include <string.h>
#include <sys/socket.h>
#include <unistd.h>

void link_begin(Link *link, int socket)
{
    link->socket = socket;
    link->is_ended = link->is_faulted = link->is_waiting = link->is_step_due = false;
    link->in_length = link->out_length = link->out_sent = link->handles_count = 0;
}

bool link_is_idle(const Link *link)
{
    return link->out_length == 0 && !link->is_waiting && !link->is_step_due && !link->is_faulted;
}

void link_receive(Link *link)
{
    ssize_t count = recv(link->socket, link->in + link->in_length, sizeof link->in - link->in_length, MSG_DONTWAIT);
    if (count > 0)
        link->in_length += (size_t)count;
    else if (count == 0 || (errno != EAGAIN && errno != EWOULDBLOCK && errno != EINTR))
        link->is_ended = true;
}

const uint8_t *link_frame(Link *link, size_t *length)
{
    if (link->in_length < 4)
        return NULL;
    uint64_t wanted = number_at(link->in, 4);
    if (!is_body_length(wanted)) {
        link->number = 0;
        link_reply(link, KZS_BAD_REQUEST, 0, NULL, 0);
        link->is_faulted = true;
        return NULL;
    }
    *length = (size_t)wanted;
    return link->in_length < 4 + *length ? NULL : link->in + 4;
}

void link_drop_frame(Link *link, size_t length)
{
    link->in_length -= 4 + length;
    memmove(link->in, link->in + 4 + length, link->in_length);
}

void link_reply(Link *link, uint8_t status, uint64_t information, const uint8_t *bytes, size_t length)
{
    link->out_length = frame_reply(link->out, link->number, status, information, bytes, length);
    link->out_sent = 0;
    link_send(link);
}

void link_send(Link *link)
{
    ssize_t count = send(link->socket, link->out + link->out_sent, link->out_length - link->out_sent, MSG_DONTWAIT | MSG_NOSIGNAL);
    if (count >= 0)
        link->out_sent += (size_t)count;
    else if (errno != EAGAIN && errno != EWOULDBLOCK && errno != EINTR)
        link->is_ended = link->is_faulted = true;
    if (link->out_sent == link->out_length || link->is_ended)
        link->out_length = link->out_sent = 0;
}

bool link_has(const Link *link, uint64_t handle)
{
    size_t at = 0;
    while (at < link->handles_count && link->handles[at] != handle)
        at++;
    return at < link->handles_count;
}

void link_add(Link *link, uint64_t handle)
{
    if (link->handles_count < HANDLES)
        link->handles[link->handles_count++] = handle;
}

void link_forget(Link *link, uint64_t handle)
{
    size_t at = 0;
    while (at < link->handles_count && link->handles[at] != handle)
        at++;
    if (at < link->handles_count)
        link->handles[at] = link->handles[--link->handles_count];
}

void link_end(Link *link)
{
    close(link->socket);
    link->socket = -1;
}
