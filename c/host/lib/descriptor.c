/* Security descriptors, each in one piece: where its owner, its group and its two lists are, behind its first four bytes. */
#include "lib/descriptor.h"

#include "core/client.h"

typedef struct {
    UCHAR revision, sbz;
    USHORT control;
    ULONG owner, group, sacl, dacl;
} Descriptor;

/* Each part by the bit that asks for it, where its place stands, and what of the control is its own. */
static const struct {
    SECURITY_INFORMATION asked;
    size_t place;
    bool is_list;
    USHORT control;
} parts[] = {{OWNER_SECURITY_INFORMATION, offsetof(Descriptor, owner), false, SE_OWNER_DEFAULTED},
             {GROUP_SECURITY_INFORMATION, offsetof(Descriptor, group), false, SE_GROUP_DEFAULTED},
             {DACL_SECURITY_INFORMATION, offsetof(Descriptor, dacl), true, SE_DACL_PRESENT | SE_DACL_DEFAULTED | SE_DACL_AUTO_INHERIT_REQ | SE_DACL_AUTO_INHERITED | SE_DACL_PROTECTED},
             {SACL_SECURITY_INFORMATION | LABEL_SECURITY_INFORMATION, offsetof(Descriptor, sacl), true,
              SE_SACL_PRESENT | SE_SACL_DEFAULTED | SE_SACL_AUTO_INHERIT_REQ | SE_SACL_AUTO_INHERITED | SE_SACL_PROTECTED}};
#define PARTS (sizeof parts / sizeof parts[0])

static ULONG place_of(const Descriptor *head, size_t part)
{
    return *(const ULONG *)((const uint8_t *)head + parts[part].place);
}

/* How long a part is that begins there. */
static ULONG length_of(const uint8_t *part, bool is_list)
{
    USHORT size;
    if (!is_list)
        return 8u + 4u * part[1];
    memcpy(&size, part + 2, sizeof size);
    return size;
}

ULONG RtlLengthSecurityDescriptor(PSECURITY_DESCRIPTOR SecurityDescriptor)
{
    KZ_INSIDE_AS_DRIVER();
    Descriptor head;
    ULONG length = sizeof head;
    memcpy(&head, SecurityDescriptor, sizeof head);
    for (size_t at = 0; at < PARTS; at++) {
        ULONG place = place_of(&head, at), end = place ? place + length_of((const uint8_t *)SecurityDescriptor + place, parts[at].is_list) : 0;
        length = end > length ? end : length;
    }
    return length;
}

bool kz_is_descriptor(const void *bytes, size_t length)
{
    Descriptor head;
    if (length < sizeof head)
        return false;
    memcpy(&head, bytes, sizeof head);
    for (size_t at = 0; at < PARTS; at++) {
        size_t place = place_of(&head, at), least = parts[at].is_list ? sizeof(ACL) : 8;
        if (place && (place < sizeof head || place > length || length - place < least || length_of((const uint8_t *)bytes + place, parts[at].is_list) > length - place))
            return false;
    }
    return head.revision == 1 && head.control & SE_SELF_RELATIVE;
}

/* Copies a part behind what is written: how long it is. */
static size_t copy_part(const void *from, size_t part, void *to, size_t length)
{
    Descriptor head, *made = to;
    memcpy(&head, from, sizeof head);
    made->control |= head.control & parts[part].control;
    if (!place_of(&head, part))
        return 0;
    const uint8_t *bytes = (const uint8_t *)from + place_of(&head, part);
    size_t size = length_of(bytes, parts[part].is_list);
    *(ULONG *)((uint8_t *)to + parts[part].place) = (ULONG)length;
    memcpy((uint8_t *)to + length, bytes, size);
    return size;
}

size_t kz_join_descriptors(const void *one, SECURITY_INFORMATION of_one, const void *other, SECURITY_INFORMATION of_other, void *to)
{
    size_t length = sizeof(Descriptor);
    *(Descriptor *)to = (Descriptor){.revision = 1, .control = SE_SELF_RELATIVE};
    for (size_t at = 0; at < PARTS; at++) {
        const void *from = of_one & parts[at].asked ? one : of_other & parts[at].asked ? other : NULL;
        length += from ? copy_part(from, at, to, length) : 0;
    }
    return length;
}
