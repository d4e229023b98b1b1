/* The server's side of docs/FRAMES.md: requests are read, and replies are spelled. */
#ifndef KZ_WIRE_SERVER_H
#define KZ_WIRE_SERVER_H

#include "frame.h"

/* Reads a body: 0, or the status with which the frame is refused. The number is read in any case. */
uint8_t frame_read(const uint8_t *body, size_t length, Frame *frame);
/* Spells what a Look's reply has as bytes: how many they are. */
size_t looked_put(uint8_t *room, const Looked *looked);
/* Spells a reply into room for a longest frame: how many bytes it has. */
size_t frame_reply(uint8_t *room, uint32_t number, uint8_t status, uint64_t information, const uint8_t *bytes, size_t length);

#endif
