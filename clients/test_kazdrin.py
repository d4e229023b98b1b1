#!/usr/bin/env python3
"""Tests of the client, against a server and against one that answers oddly.

    FLTD=PROGRAM python3 clients/test_kazdrin.py

Without FLTD the server is crates/fltd/out/fltd; where that isn't there, the tests that need one are left out.
"""
import contextlib
import io
import os
import socket
import struct
import subprocess
import sys
import tempfile
import threading
import time
import unittest

HERE = os.path.dirname(os.path.abspath(__file__))
sys.path.insert(0, HERE)
import kazdrin  # noqa: E402

FLTD = os.environ.get("FLTD") or os.path.join(HERE, "..", "crates", "fltd", "out", "fltd")


class WithPlace(unittest.TestCase):
    """A folder of the test's own."""

    def setUp(self):
        place = tempfile.TemporaryDirectory()
        self.addCleanup(place.cleanup)
        self.path = os.path.join(place.name, "s")
        self.folder = os.path.join(place.name, "files")
        os.mkdir(self.folder)


@unittest.skipUnless(os.access(FLTD, os.X_OK), "there is no server here")
class Server(WithPlace):
    """A server in that folder."""

    def setUp(self):
        super().setUp()
        self.server = subprocess.Popen([FLTD, self.folder, self.path], stdout=subprocess.PIPE, text=True)
        self.addCleanup(self.end)
        self.assertEqual(self.server.stdout.readline(), "ready\n")

    def end(self):
        """Ends it, if it is still there."""
        self.server.kill()
        self.server.communicate()

    def check(self, reply, name="Success", information=0, data=b""):
        """A whole reply."""
        self.assertEqual((reply.name, reply.information, reply.data), (name, information, data))

    def test_files(self):
        with kazdrin.Client(self.path, 10) as client:
            self.check(client.create("a", kazdrin.EXISTING), "FileNotFound")
            self.check(client.create("a", kazdrin.NEW))
            self.check(client.create("a", kazdrin.NEW), "AlreadyExists")
            self.check(client.write(0, 2, b"hello"), information=5)
            self.check(client.query_size(0), information=7)
            self.check(client.read(0, 0, 100), information=7, data=b"\0\0hello")
            self.check(client.read(0, 7, 1), "EndOfFile")
            self.check(client.set_size(0, 3))
            self.check(client.flush(0))
            self.check(client.list(), information=2, data=b"a\n")
            self.check(client.set_delete(0))
            self.check(client.create(b"a"), "DeletePending")
            self.check(client.restore(0))
            self.check(client.create(b"a"), information=1)
            self.check(client.set_delete(1))
            self.check(client.close(1))
            self.check(client.close(0))
            self.check(client.list())
            self.check(client.close(0), "NoHandle")
            self.check(client.create("a//b"), "BadPath")
            self.check(client.list(5), "NoVolume")

    def test_filters(self):
        with kazdrin.Client(self.path, 10) as client:
            self.check(client.load("shift"))
            self.check(client.load("shift"), "AlreadyLoaded")
            self.check(client.load("nobody"), "NoFilter")
            self.check(client.attach(0, 0, "s", "100.50"))
            self.check(client.attach(0, 0, "s", "200"), "NameCollision")
            self.check(client.attach(0, 0, "t", "x"), "BadAltitude")
            self.check(client.create("a"))
            self.check(client.write(0, 0, b"ab"), information=2)
            self.check(client.detach(0))
            self.check(client.read(0, 0, 9), information=2, data=b"bc")
            self.check(client.unload(0))
            self.check(client.unload(0), "NotLoaded")
            self.check(client.dismount())
            self.check(client.list(), "Dismounting")
            self.check(client.stop())
        self.assertEqual(self.server.wait(10), 0)

    def test_handles_end_with_their_connection(self):
        with kazdrin.Client(self.path, 10) as client, kazdrin.Client(self.path, 10) as other:
            self.check(client.create("a"))
            self.check(other.close(0), "NoHandle")
            self.check(client.set_delete(0))
        with kazdrin.Client(self.path, 10) as client:
            end = time.monotonic() + 5
            while client.list().data and time.monotonic() < end:
                time.sleep(0.01)
            self.check(client.list())

    def test_a_held_read(self):
        with kazdrin.Client(self.path, 0.3) as client, kazdrin.Client(self.path, 10) as other:
            self.check(client.load("hold"))
            self.check(client.attach(0, 0, "h", "100"))
            self.check(client.create("a"))
            begun = time.monotonic()
            with self.assertRaises(kazdrin.TimedOut):
                client.read(0, 0, 1)
            self.assertLess(time.monotonic() - begun, 5)
            with self.assertRaises(kazdrin.Closed):
                client.list()
            self.check(other.list(), information=2, data=b"a\n")

    def test_the_numbers_go_on(self):
        with kazdrin.Client(self.path, 10) as client:
            client.number = 0xFFFF_FFFE
            self.check(client.list())
            self.check(client.list())
            self.assertEqual(client.number, 1)

    def test_a_server_that_dies(self):
        with kazdrin.Client(self.path, 10) as client:
            self.check(client.list())
            self.server.kill()
            self.server.wait()
            with self.assertRaises(kazdrin.Lost):
                client.list()
        with self.assertRaises(kazdrin.Unreachable):
            kazdrin.Client(self.path)

    def test_a_length_that_no_frame_has(self):
        with kazdrin.Client(self.path, 10) as client:
            client.send_bytes(b"\xff\xff\xff\xff")
            with self.assertRaisesRegex(kazdrin.NoReply, "no frame has"):
                client.take()

    def test_an_unknown_code(self):
        with kazdrin.Client(self.path, 10) as client:
            self.check(client.ask(99), "BadRequest")
            self.check(client.list())

    def test_the_program(self):
        said = io.StringIO()
        with contextlib.redirect_stdout(said):
            self.assertEqual(kazdrin.main([self.path]), 0)
        self.assertEqual(
            said.getvalue(),
            "create 0 handle 0\nwrite  (0, 5, b'')\nread   (0, 5, b'hello')\nlist   (0, 6, b'notes\\n')\nclose  (0, 0, b'')\n",
        )


def frame(body):
    """A body with its length in front."""
    return struct.pack(">I", len(body)) + body


def reply(number=1, status=0, code=128, data=b""):
    """The body of a reply."""
    return struct.pack(">BIBQ", code, number, status, 0) + data


class Odd(WithPlace):
    """What is no reply is refused in the client's own words, and ends the connection."""

    def answer(self, *pieces, is_to_end=False):
        """A client of one who answers the first request with these pieces, some of which may be waits."""
        listener = socket.socket(socket.AF_UNIX)
        listener.bind(self.path)
        listener.listen()
        self.addCleanup(listener.close)

        def work():
            connection, _ = listener.accept()
            with connection:
                connection.recv(100)
                for piece in pieces:
                    time.sleep(0.05)
                    with contextlib.suppress(OSError):
                        connection.sendall(piece)
                if not is_to_end:
                    connection.recv(1)

        thread = threading.Thread(target=work)
        thread.start()
        self.addCleanup(thread.join)
        client = kazdrin.Client(self.path, 1)
        self.addCleanup(client.hang_up)
        return client

    def refuses(self, error, words, client):
        """The next request fails so, and the one behind it finds no connection."""
        with self.assertRaisesRegex(error, words):
            client.list()
        with self.assertRaises(kazdrin.Closed):
            client.list()

    def test_pieces(self):
        body = frame(reply(data=b"a\n"))
        self.assertEqual(self.answer(body[:2], body[2:9], body[9:]).list().data, b"a\n")

    def test_held(self):
        self.refuses(kazdrin.NoReply, "is held", self.answer(frame(struct.pack(">BIQ", 129, 1, 5))))

    def test_a_request(self):
        self.refuses(kazdrin.NoReply, "code 7", self.answer(frame(struct.pack(">BIB", 7, 1, 0))))

    def test_another_number(self):
        self.refuses(kazdrin.NoReply, "request 2", self.answer(frame(reply(number=2))))

    def test_no_status(self):
        self.refuses(kazdrin.NoReply, "status 35", self.answer(frame(reply(status=35))))

    def test_too_short(self):
        self.refuses(kazdrin.NoReply, "too early", self.answer(frame(reply()[:-1])))

    def test_too_long(self):
        self.refuses(kazdrin.NoReply, "33001 bytes", self.answer(struct.pack(">I", 33_001)))

    def test_the_end(self):
        self.refuses(kazdrin.Lost, "closed", self.answer(frame(reply())[:7], is_to_end=True))

    def test_nothing(self):
        self.refuses(kazdrin.TimedOut, "in time", self.answer())

    def test_a_trickle(self):
        body = frame(reply(data=bytes(60)))
        begun = time.monotonic()
        self.refuses(kazdrin.TimedOut, "in time", self.answer(*(body[at : at + 1] for at in range(len(body)))))
        self.assertLess(time.monotonic() - begun, 3)


class Requests(WithPlace):
    """What can't be asked isn't sent."""

    def test_nobody(self):
        for path in (self.path, self.folder, "", "x" * 200, "a\0b"):
            with self.assertRaises(kazdrin.Unreachable):
                kazdrin.Client(path)

    def test_numbers_and_lengths(self):
        listener = socket.socket(socket.AF_UNIX)
        self.addCleanup(listener.close)
        listener.bind(self.path)
        listener.listen()
        with kazdrin.Client(self.path, 1) as client:
            for ask in (
                lambda: client.read(-1, 0, 1),
                lambda: client.read(0, 1 << 64, 1),
                lambda: client.read(0, 0, 1 << 32),
                lambda: client.list(256),
                lambda: client.detach(1 << 16),
                lambda: client.write(0, 0, bytes(33_000)),
                lambda: client.create("\ud800"),
                lambda: client.attach(0, 0, "n" * 256, "1"),
            ):
                with self.assertRaises(kazdrin.NoRequest):
                    ask()
            self.assertEqual(client.number, 0)

    def test_usage(self):
        for words, status, stream in (([], 2, "stderr"), (["a", "b"], 2, "stderr"), (["--help"], 0, "stdout"), (["-h"], 0, "stdout")):
            said = io.StringIO()
            with getattr(contextlib, f"redirect_{stream}")(said):
                self.assertEqual(kazdrin.main(words), status)
            self.assertIn("usage", said.getvalue())
        said = io.StringIO()
        with contextlib.redirect_stderr(said):
            self.assertEqual(kazdrin.main([self.path]), 3)
        self.assertIn("No such file", said.getvalue())


if __name__ == "__main__":
    unittest.main()
