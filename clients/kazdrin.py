#!/usr/bin/env python3
"""A client of the server, written from docs/FRAMES.md alone.

    python3 clients/kazdrin.py SOCKET

shows one conversation: a file is created, written and read, and the folder is listed. It ends with status 0, with 2 if
its words are others, and with 3 if the server can't be reached or what it answers is no reply.

As a module:

    with Client("here.sock", timeout=5) as client:
        handle = client.create("notes").information
        print(client.write(handle, 0, b"hello").name)

Each request gives a Reply: its status, what it says beside it, its bytes, and the name of its status. A status other
than 0 is a reply as well, and no error. What can go wrong beside that is one of these:

    Unreachable   nobody takes connections at that path
    Lost          the server closed the connection
    TimedOut      no reply came in time: the connection is closed, for the reply may still come
    NoReply       the server sent something that is no reply to the request: the connection is closed
    NoRequest     the request can't be written as a frame, and nothing was sent
    Closed        the connection was closed before
"""
from __future__ import annotations

import socket
import struct
import sys
import time
from collections.abc import Sequence
from types import TracebackType
from typing import NamedTuple

CREATE, READ, WRITE, QUERY_SIZE, SET_SIZE, FLUSH, LIST, SET_DELETE, CLOSE, RESTORE, RENAME, LOOK = range(1, 13)
LOAD, ATTACH, DETACH, UNLOAD, DISMOUNT, STOP = range(16, 22)
REPLY, HELD_REPLY = 128, 129
EXISTING, NEW, ALWAYS = range(3)

SHORTEST, LONGEST = 5, 33_000
REPLY_HEAD = 14

NAMES = (
    "Success NoMemory BadAltitude BadName NameCollision AltitudeCollision NoFilter NoVolume NoInstance NotLoaded "
    "AlreadyLoaded DoNotAttach DoNotDetach DeletingObject NoHandle BadPath DeletePending AccessDenied DeviceFault "
    "FileNotFound AlreadyExists NotRegistered AlreadyDefined AlreadyLinked NoContext NotHeld HandFull NoObject NotPended "
    "TooMany WrongStep EndOfFile BadRequest Dismounting Busy"
).split()


class Error(Exception):
    """What can go wrong with a connection."""


class Unreachable(Error):
    """Nobody takes connections at that path."""


class Lost(Error):
    """The server closed the connection."""


class TimedOut(Error):
    """No reply came in time."""


class NoReply(Error):
    """The server sent something that is no reply to the request."""


class NoRequest(Error):
    """The request can't be written as a frame."""


class Closed(Error):
    """The connection was closed before."""


class Reply(NamedTuple):
    """A reply: its status, what it says beside it, and its bytes."""

    status: int
    information: int
    data: bytes

    @property
    def name(self) -> str:
        """The name of its status."""
        return NAMES[self.status]


def pack(form: str, *values: int) -> bytes:
    """The fields of a request, the highest byte of each number first."""
    try:
        return struct.pack(">" + form, *values)
    except struct.error as error:
        raise NoRequest(f"a number is too large for its field: {error}") from error


def text(words: str | bytes) -> bytes:
    """The bytes of a text."""
    if isinstance(words, bytes):
        return words
    try:
        return words.encode()
    except UnicodeEncodeError as error:
        raise NoRequest("the text isn't UTF-8") from error


class Client:
    """One connection. Each request is sent, and its reply is waited for: for ever, or as many seconds as timeout says."""

    def __init__(self, path: str, timeout: float | None = None) -> None:
        self.number = 0
        self.timeout = timeout
        made = socket.socket(socket.AF_UNIX)
        self.socket: socket.socket | None = made
        made.settimeout(timeout)
        try:
            made.connect(path)
        except (OSError, ValueError) as error:
            self.hang_up()
            raise Unreachable(f"{path}: {error}") from error

    def __enter__(self) -> Client:
        return self

    def __exit__(self, kind: type[BaseException] | None, error: BaseException | None, trace: TracebackType | None) -> None:
        self.hang_up()

    def hang_up(self) -> None:
        """Ends the connection, and with it its handles."""
        if self.socket is not None:
            self.socket.close()
            self.socket = None

    def ask(self, code: int, fields: bytes = b"") -> Reply:
        """Sends a request, and takes its reply."""
        self.send(code, fields)
        return self.take()

    def send(self, code: int, fields: bytes = b"") -> None:
        """Sends a request alone. Its reply is to be taken before the next one."""
        number = self.number % 0xFFFF_FFFF + 1
        body = pack("BI", code, number) + fields
        if len(body) > LONGEST:
            raise NoRequest(f"a frame has at most {LONGEST} bytes, and this one {len(body)}")
        self.number = number
        self.send_bytes(struct.pack(">I", len(body)) + body)

    def send_bytes(self, data: bytes) -> None:
        """Sends bytes, whatever they say."""
        if self.socket is None:
            raise Closed("the connection was closed before")
        try:
            self.socket.sendall(data)
        except TimeoutError as error:
            self.hang_up()
            raise TimedOut("the server didn't read the request in time") from error
        except OSError as error:
            self.hang_up()
            raise Lost(f"the server closed the connection: {error}") from error

    def take(self) -> Reply:
        """Takes the reply to the request that was sent last."""
        end = None if self.timeout is None else time.monotonic() + self.timeout
        (length,) = struct.unpack(">I", self.receive(4, end))
        if not SHORTEST <= length <= LONGEST:
            raise self.odd(f"a frame of {length} bytes, and none has so many")
        body = self.receive(length, end)
        code, number = struct.unpack(">BI", body[:5])
        if code == HELD_REPLY:
            raise self.odd("that an operation is held, where a server waits until it is done")
        if code != REPLY:
            raise self.odd(f"a frame of code {code}, which is no reply")
        if length < REPLY_HEAD:
            raise self.odd("a reply that ends too early")
        status, information = struct.unpack(">BQ", body[5:REPLY_HEAD])
        if status >= len(NAMES):
            raise self.odd(f"a reply of status {status}, which is none")
        if number == 0 and status == 32:
            raise self.odd("that it found a length which no frame has, and reads no more")
        if number != self.number:
            raise self.odd(f"a reply to request {number}, and this was request {self.number}")
        return Reply(status, information, body[REPLY_HEAD:])

    def odd(self, words: str) -> NoReply:
        """The error of an answer that is no reply. Nothing behind it can be trusted."""
        self.hang_up()
        return NoReply(f"the server said: {words}")

    def receive(self, count: int, end: float | None = None) -> bytes:
        """So many bytes, until that time."""
        received = b""
        while len(received) < count:
            piece = self.receive_some(count - len(received), end)
            if not piece:
                self.hang_up()
                raise Lost("the server closed the connection")
            received += piece
        return received

    def receive_some(self, most: int, end: float | None) -> bytes:
        """What comes next, and nothing at the connection's end."""
        if self.socket is None:
            raise Closed("the connection was closed before")
        try:
            if end is not None:
                self.socket.settimeout(max(end - time.monotonic(), 0.000_001))
            return self.socket.recv(most)
        except TimeoutError as error:
            self.hang_up()
            raise TimedOut("no reply came in time") from error
        except OSError as error:
            self.hang_up()
            raise Lost(f"the server closed the connection: {error}") from error
        finally:
            if self.socket is not None:
                self.socket.settimeout(self.timeout)

    def create(self, path: str | bytes, mode: int = ALWAYS, volume: int = 0) -> Reply:
        """Opens a file; the information of a success is its handle."""
        return self.ask(CREATE, pack("BB", volume, mode) + text(path))

    def read(self, handle: int, offset: int, length: int) -> Reply:
        """Reads so many bytes at most."""
        return self.ask(READ, pack("QQI", handle, offset, length))

    def write(self, handle: int, offset: int, data: bytes) -> Reply:
        """Writes bytes; the information of a success is how many."""
        return self.ask(WRITE, pack("QQ", handle, offset) + data)

    def query_size(self, handle: int) -> Reply:
        """Asks for the file's size; it is the information of a success."""
        return self.ask(QUERY_SIZE, pack("Q", handle))

    def set_size(self, handle: int, size: int) -> Reply:
        """Sets the file's size."""
        return self.ask(SET_SIZE, pack("QQ", handle, size))

    def flush(self, handle: int) -> Reply:
        """Flushes the file."""
        return self.ask(FLUSH, pack("Q", handle))

    def list(self, volume: int = 0) -> Reply:
        """Lists the files, each name before a line's end."""
        return self.ask(LIST, pack("B", volume))

    def set_delete(self, handle: int) -> Reply:
        """Marks the file: it goes with its last handle."""
        return self.ask(SET_DELETE, pack("Q", handle))

    def restore(self, handle: int) -> Reply:
        """Takes that mark back."""
        return self.ask(RESTORE, pack("Q", handle))

    def rename(self, handle: int, path: str | bytes, replace: bool = True) -> Reply:
        """Gives the file another name; what has that is replaced, unless that is refused."""
        return self.ask(RENAME, pack("QB", handle, replace) + text(path))

    def look(self, path: str | bytes, volume: int = 0) -> Reply:
        """Looks at what is there without a handle; the information of a success is its size."""
        return self.ask(LOOK, pack("B", volume) + text(path))

    def close(self, handle: int) -> Reply:
        """Closes a handle."""
        return self.ask(CLOSE, pack("Q", handle))

    def load(self, name: str | bytes) -> Reply:
        """Loads a filter; the information of a success is its number."""
        return self.ask(LOAD, text(name))

    def attach(self, filter: int, volume: int, name: str | bytes, altitude: str | bytes) -> Reply:
        """Attaches an instance of a filter; the information of a success is its number."""
        name = text(name)
        return self.ask(ATTACH, pack("BBB", filter, volume, len(name)) + name + text(altitude))

    def detach(self, instance: int) -> Reply:
        """Detaches an instance."""
        return self.ask(DETACH, pack("H", instance))

    def unload(self, filter: int) -> Reply:
        """Unloads a filter."""
        return self.ask(UNLOAD, pack("B", filter))

    def dismount(self, volume: int = 0) -> Reply:
        """Dismounts a volume."""
        return self.ask(DISMOUNT, pack("B", volume))

    def stop(self) -> Reply:
        """Ends the server."""
        return self.ask(STOP)


def show(path: str) -> None:
    """Shows one conversation."""
    with Client(path, timeout=10) as client:
        created = client.create("notes")
        print("create", created.status, "handle", created.information)
        handle = created.information
        print("write ", tuple(client.write(handle, 0, b"hello")))
        print("read  ", tuple(client.read(handle, 0, 100)))
        print("list  ", tuple(client.list()))
        print("close ", tuple(client.close(handle)))


def main(words: Sequence[str]) -> int:
    """The program: its exit status."""
    is_asked = list(words) in (["-h"], ["--help"])
    if len(words) != 1 or is_asked:
        print("usage: python3 clients/kazdrin.py SOCKET", file=sys.stdout if is_asked else sys.stderr)
        return 0 if is_asked else 2
    try:
        show(words[0])
    except Error as error:
        print(f"kazdrin.py: {error}", file=sys.stderr)
        return 3
    return 0


def run() -> None:
    """The program, with the words of its command line."""
    sys.exit(main(sys.argv[1:]))


if __name__ == "__main__":
    run()
