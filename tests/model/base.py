"""The folders in memory that stand for the devices of a script's volumes, and the calls of them that fail."""
from status import ALREADY_EXISTS, BAD_REQUEST, DEVICE_FAULT, END_OF_FILE, FILE_NOT_FOUND, NO_MEMORY, TOO_MANY

MOST_BYTES = 32768


class File:
    """A file's size and what was written, the newest last; all else in it is zeros. So one of 2^40 bytes can be held."""

    def __init__(self):
        self.size, self.written = 0, []

    def read(self, offset, length):
        """The bytes there, fewer at the end."""
        out = bytearray(max(0, min(offset + length, self.size) - offset))
        for place, put in self.written:
            first, last = max(place, offset), min(place + len(put), offset + len(out))
            if first < last:
                out[first - offset : last - offset] = put[first - place : last - place]
        return bytes(out)

    def write(self, offset, put):
        """Puts bytes there."""
        self.written.append((offset, put))
        self.size = max(self.size, offset + len(put))

    def cut(self, size):
        """Cuts the file, or adds zeros."""
        self.written = [(place, put[: size - place]) for place, put in self.written if place < size]
        self.size = size


class Devices:
    """Counts the calls of all volumes' devices together, from 1, and knows which of them fail. While it `refuses`, there is no memory for what they answer or keep."""

    def __init__(self):
        self.calls, self.failures, self.failing, self.refuses = 0, 0, set(), False

    def fail(self, number):
        """That call will answer 18. One that was made already, and number 0, change nothing."""
        if number > self.calls:
            self.failing.add(number)

    def call(self, folder, kind, path, params):
        """Makes one call of a volume's folder. Answers its status, information and bytes."""
        self.calls += 1
        if self.calls in self.failing:
            self.failures += 1
            return DEVICE_FAULT, 0, b""
        if self.refuses:
            return NO_MEMORY, 0, b""
        status, information, out = CALLS[kind](folder, path, params)
        return (status, information, out) if status == 0 else (status, 0, b"")


def create(folder, path, params):
    """Makes an absent file empty; one that is there keeps its bytes."""
    mode = params[0]
    if mode == "existing" and path not in folder:
        return FILE_NOT_FOUND, 0, b""
    if mode == "new" and path in folder:
        return ALREADY_EXISTS, 0, b""
    folder.setdefault(path, File())
    return 0, 0, b""


def read(folder, path, params):
    """The bytes there, fewer at the end."""
    offset, length = params
    if path not in folder:
        return FILE_NOT_FOUND, 0, b""
    if length > 0 and offset >= folder[path].size:
        return END_OF_FILE, 0, b""
    out = folder[path].read(offset, length)
    return 0, len(out), out


def write(folder, path, params):
    """Puts the bytes there; a gap is filled with zeros. No bytes change nothing."""
    offset, put = params
    if path not in folder:
        return FILE_NOT_FOUND, 0, b""
    if put:
        folder[path].write(offset, put)
    return 0, len(put), b""


def size(folder, path, params):
    """The file's size."""
    if path not in folder:
        return FILE_NOT_FOUND, 0, b""
    return 0, folder[path].size, b""


def set_size(folder, path, params):
    """Cuts the file, or adds zeros."""
    if path not in folder:
        return FILE_NOT_FOUND, 0, b""
    folder[path].cut(params[0])
    return 0, 0, b""


def flush(folder, path, params):
    """Changes nothing."""
    return (0 if path in folder else FILE_NOT_FOUND), 0, b""


def listing(folder, path, params):
    """The names of the files directly in the folder, ascending by bytes, each with byte 0x0A after it."""
    out = b"".join(name.encode("latin-1") + b"\n" for name in sorted(folder) if "/" not in name)
    return (0, len(out), out) if len(out) <= MOST_BYTES else (TOO_MANY, 0, b"")


def unlink(folder, path, params):
    """Takes the file away."""
    return (FILE_NOT_FOUND if folder.pop(path, None) is None else 0), 0, b""


def other(folder, path, params):
    """A folder has no other major functions: the call is made, counted, and answered so."""
    return BAD_REQUEST, 0, b""


CALLS = {
    "create": create,
    "read": read,
    "write": write,
    "size": size,
    "setsize": set_size,
    "flush": flush,
    "list": listing,
    "close": unlink,
    "other": other,
}
