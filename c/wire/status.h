/* The manager's statuses, by the numbers that a reply carries (docs/SCRIPT.md has them in words). */
#ifndef KZ_WIRE_STATUS_H
#define KZ_WIRE_STATUS_H

enum {
    KZS_OK = 0,
    KZS_NO_MEMORY = 1,
    KZS_BAD_ALTITUDE = 2,
    KZS_BAD_NAME = 3,
    KZS_NAME_COLLISION = 4,
    KZS_ALTITUDE_COLLISION = 5,
    KZS_NO_FILTER = 6,
    KZS_NO_VOLUME = 7,
    KZS_NO_INSTANCE = 8,
    KZS_NOT_LOADED = 9,
    KZS_ALREADY_LOADED = 10,
    KZS_DO_NOT_ATTACH = 11,
    KZS_DO_NOT_DETACH = 12,
    KZS_DELETING_OBJECT = 13,
    KZS_NO_HANDLE = 14,
    KZS_BAD_PATH = 15,
    KZS_DELETE_PENDING = 16,
    KZS_ACCESS_DENIED = 17,
    KZS_DEVICE_FAULT = 18,
    KZS_FILE_NOT_FOUND = 19,
    KZS_ALREADY_EXISTS = 20,
    KZS_NOT_REGISTERED = 21,
    KZS_ALREADY_DEFINED = 22,
    KZS_ALREADY_LINKED = 23,
    KZS_NO_CONTEXT = 24,
    KZS_NOT_HELD = 25,
    KZS_HAND_FULL = 26,
    KZS_NO_OBJECT = 27,
    KZS_NOT_PENDED = 28,
    KZS_TOO_MANY = 29,
    KZS_WRONG_STEP = 30,
    KZS_END_OF_FILE = 31,
    KZS_BAD_REQUEST = 32,
    KZS_DISMOUNTING = 33,
    KZS_BUSY = 34,
    KZS_COUNT = 35 /* how many there are */
};

#endif
