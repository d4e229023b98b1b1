/* In the kit it makes calls that no driver should make an error. Here they aren't declared, but for those of the C library. */
#ifndef KZ_DONTUSE_H
#define KZ_DONTUSE_H
#endif
