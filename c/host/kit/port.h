/* Ports between a filter and its programs: the filter's calls are the kit's, the programs' are these. */
#ifndef KZ_KIT_PORT_H
#define KZ_KIT_PORT_H

#include "host.h"
#include "core/place.h"

/* What a filter sends, until its program has answered it, or has got it where no answer is wanted. It lies with the sender, who waits. */
typedef struct KzPortMessage {
    struct KzPortMessage *next;
    PFLT_PORT port;
    uint64_t id;
    const void *bytes;
    ULONG length;
    void *reply;
    ULONG room, answered; /* of the reply, and how much of it there is */
    NTSTATUS status;
    bool is_taken, is_over, is_endless, is_told;
    uint64_t process; /* whose request, or whose thread, the sender is in */
    KzPlace place;
    const KzClient *taker; /* the thread that waited for it, and has it; NULL if it came to none that waited */
} KzPortMessage;

extern const struct KzModule kz_port_module;
/* By its name, with a context for the filter's connect callback: what that answers, or why there is none. */
/* It says to `serve` that a message came, or that it is over. */
NTSTATUS kz_connect_port(const char *name, const void *context, USHORT size, void (*serve)(PFLT_PORT port), PFLT_PORT *port);
/* The program closes its end: the filter's disconnect callback is called, once. */
void kz_disconnect_port(PFLT_PORT port);
NTSTATUS kz_send_to_filter(PFLT_PORT port, void *in, ULONG in_length, void *out, ULONG out_length, PULONG returned);
/* The first message that nobody has got; NULL if there is none. */
KzPortMessage *kz_next_message(PFLT_PORT port);
void kz_take_message(KzPortMessage *message);
/* Nothing goes on until the next request: messages whose program waits for itself are told. */
void kz_tell_messages(void);
/* False: nobody waits for that answer. */
bool kz_reply_message(PFLT_PORT port, uint64_t id, NTSTATUS status, const void *bytes, ULONG length);
/* The filter has closed it, or was unloaded. */
bool kz_is_port_over(PFLT_PORT port);

#endif
