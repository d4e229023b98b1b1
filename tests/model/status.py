"""The statuses by their names in docs/SCRIPT.md, and a refusal as an exception."""

NO_MEMORY = 1
BAD_ALTITUDE = 2
BAD_NAME = 3
NAME_COLLISION = 4
ALTITUDE_COLLISION = 5
NO_FILTER = 6
NO_VOLUME = 7
NO_INSTANCE = 8
NOT_LOADED = 9
ALREADY_LOADED = 10
DO_NOT_ATTACH = 11
DO_NOT_DETACH = 12
DELETING_OBJECT = 13
NO_HANDLE = 14
BAD_PATH = 15
DELETE_PENDING = 16
ACCESS_DENIED = 17
DEVICE_FAULT = 18
FILE_NOT_FOUND = 19
ALREADY_EXISTS = 20
NOT_REGISTERED = 21
ALREADY_DEFINED = 22
ALREADY_LINKED = 23
NO_CONTEXT = 24
NOT_HELD = 25
HAND_FULL = 26
NO_OBJECT = 27
NOT_PENDED = 28
TOO_MANY = 29
WRONG_STEP = 30
END_OF_FILE = 31
BAD_REQUEST = 32
DISMOUNTING = 33
BUSY = 34


class Refused(Exception):
    """An event's refusal. `number` is how many are in the way (34), `old` the context that a refused Keep hands out (22)."""

    def __init__(self, status, number=None, old=None):
        super().__init__(status)
        self.status, self.number, self.old = status, number, old


def refuse_if(wrong, status):
    """Refuses by this status if that is so."""
    if wrong:
        raise Refused(status)


def refuse_busy(number):
    """Refuses by 34 if something is in the way."""
    if number > 0:
        raise Refused(BUSY, number)
