#!/usr/bin/env python3
"""Lives of a server, in each of which all that may be asked races: operations, loads, attaches, detaches, unloads, a
dismount, connections that are cut, and at last a Stop. In some the server is halted now and then, as a busy machine
does it, for longer than its own patience.

    .ci/lives.py [LIVES] [--seed N] [--only LIFE] [--program FLTD]

Without LIVES there are 20. A life has to end in 30 seconds after its Stop, with status 0, no word on standard error,
and each context cleaned up. The seed is printed first; with it, --only tries one life again, as far as threads repeat.
Without --program the server is tools/unproved's. The exit status is 0 if all lives ended well, else 1.
"""
import argparse
import os
import random
import re
import shutil
import signal
import subprocess
import sys
import tempfile
import threading
import time

TOP = os.path.dirname(os.path.dirname(os.path.abspath(__file__)))
sys.path.insert(0, os.path.join(TOP, "clients"))
import kazdrin  # noqa: E402

SAMPLES = "guard meter shift hold carry stay".split()
FOLDERS = "d deny".split()
PATHS = "a b c d/e deny/e nowhere/e".split()
END = 30
READY = 30


class Life:
    """One server, and those who race."""

    def __init__(self, program, seed, number):
        self.random = random.Random(f"{seed}/{number}")
        self.number = number
        self.place = tempfile.mkdtemp(prefix="kazdrin-")
        self.folder = os.path.join(self.place, "files")
        self.socket = os.path.join(self.place, "s")
        for name in [""] + FOLDERS:
            os.mkdir(os.path.join(self.folder, name))
        self.workers = self.random.choice([1, 1, 2, 4, 16])
        self.over = threading.Event()
        self.asked = 0
        self.faults = []
        self.server = subprocess.Popen(
            [program, self.folder, self.socket, "--workers", str(self.workers)],
            stdout=subprocess.PIPE,
            stderr=subprocess.PIPE,
            text=True,
        )

    def connect(self, timeout=0.4):
        """A connection that waits a while for each reply."""
        return kazdrin.Client(self.socket, timeout)

    def race(self, act, seed):
        """Does one thing after the other, each time by a new connection, until the life is over."""
        own = random.Random(seed)
        while not self.over.is_set():
            try:
                with self.connect(own.choice([0.1, 0.4, 1.0])) as client:
                    act(client, own)
            except (kazdrin.Lost, kazdrin.TimedOut):
                pass
            except kazdrin.Unreachable:
                time.sleep(0.005)
            except Exception as error:  # what else happens is a fault, whatever it is
                self.faults.append(f"{type(error).__name__}: {error}")
                return

    def operate(self, client, own):
        """Some operations; sometimes the connection is cut in the middle of one."""
        handles = [0]
        for _ in range(own.randrange(1, 40)):
            if self.over.is_set():
                return
            self.operate_once(client, own, handles)
        if own.random() < 0.3:
            client.send(kazdrin.READ, kazdrin.pack("QQI", own.choice(handles), 0, 9))
        if own.random() < 0.2:
            client.send_bytes(own.choice([b"\0\0", b"\0\0\0\x0d\x09\0", b"\xff\xff\xff\xff"]))

    def operate_once(self, client, own, handles):
        """One operation."""
        self.asked += 1
        handle = own.choice(handles)
        which = own.randrange(11)
        if which <= 1:
            reply = client.create(own.choice(PATHS), own.randrange(3))
            if reply.status == 0:
                handles.append(reply.information)
        elif which <= 3:
            client.read(handle, own.randrange(20), own.choice([0, 1, 100, 32_768]))
        elif which <= 5:
            client.write(handle, own.randrange(20), own.randbytes(own.choice([0, 1, 100, 9_000])))
        elif which == 6:
            own.choice([client.query_size, client.flush, client.set_delete, client.restore])(handle)
        elif which == 7:
            client.set_size(handle, own.randrange(200))
        elif which == 8:
            client.flush(handle)
        elif which == 9:
            client.list(own.choice([0, 0, 0, 1]))
        elif client.close(handle).status == 0:
            handles.remove(handle)

    def manage(self, client, own):
        """Some loads, attaches, detaches and unloads."""
        for _ in range(own.randrange(1, 20)):
            if self.over.is_set():
                return
            self.asked += 1
            which = own.randrange(7)
            if which <= 1:
                client.load(own.choice(SAMPLES))
            elif which <= 3:
                client.attach(own.randrange(4), 0, f"n{own.randrange(9)}", str(own.randrange(1, 9)))
            elif which <= 5:
                client.detach(own.randrange(12))
            else:
                client.unload(own.randrange(4))

    def dismount(self, client, own):
        """The dismount, asked for again while it is refused."""
        if self.over.wait(own.random() * 0.4):
            return
        for _ in range(20):
            self.asked += 1
            if client.dismount(0).status != 34 or self.over.wait(0.01):
                return

    def halt(self, own):
        """Halts the server now and then, until it is gone."""
        while self.server.poll() is None:
            self.server.send_signal(signal.SIGSTOP)
            time.sleep(own.choice([0.01, 0.12, 0.25]))
            self.server.send_signal(signal.SIGCONT)
            time.sleep(own.random() * 0.05)

    def stop(self):
        """Stops the server: whether it said so. Where all places are taken the Stop is sent again."""
        until = time.monotonic() + END
        while time.monotonic() < until:
            try:
                with self.connect(END) as client:
                    if client.stop().status == 0:
                        return True
            except kazdrin.Lost:
                time.sleep(0.01)
        return False

    def run(self):
        """The life, from `ready` to its end: the sentence that says what is wrong, or none."""
        told = []
        reader = threading.Thread(target=lambda: told.append(self.server.stdout.readline()), daemon=True)
        reader.start()
        reader.join(READY)
        if told != ["ready\n"]:
            return f"said {told} in place of ready"
        acts = [self.operate] * self.random.randrange(2, 9) + [self.manage] * self.random.randrange(1, 4)
        if self.random.random() < 0.4:
            acts.append(self.dismount)
        racers = [threading.Thread(target=self.race, args=(act, self.random.random()), daemon=True) for act in acts]
        for racer in racers:
            racer.start()
        if self.random.random() < 0.3:
            threading.Thread(target=self.halt, args=(random.Random(self.random.random()),), daemon=True).start()
        time.sleep(self.random.choice([0, 0.02, 0.1, 0.3, 0.6, 1.0]))
        if self.random.random() < 0.2:
            return self.end(racers, self.cut_off())
        return self.end(racers, self.stop())

    def cut_off(self):
        """A Stop by a connection that is there already, once the socket's file is gone."""
        for _ in range(END * 100):
            try:
                with self.connect(END) as client:
                    client.list()
                    os.unlink(self.socket)
                    return client.stop().status == 0
            except kazdrin.Lost:
                time.sleep(0.01)
        return False

    def end(self, racers, was_stopped):
        """Waits for the end."""
        until = time.monotonic() + END
        if self.random.random() < 0.5:
            time.sleep(0.05)
        self.over.set()
        if not was_stopped:
            return "didn't answer a Stop"
        for racer in racers:
            racer.join(max(0, until - time.monotonic()))
        try:
            rest, words = self.server.communicate(timeout=max(1, until - time.monotonic()))
        except subprocess.TimeoutExpired:
            return f"didn't end in {END} seconds after its Stop"
        return self.judge(rest, words, any(racer.is_alive() for racer in racers))

    def judge(self, rest, words, is_somebody_left):
        """What is wrong with what it said at its end, or none."""
        tally = re.fullmatch(r"born (\d+) cleaned (\d+) leaks 0\n", rest)
        if self.server.returncode != 0 or words:
            return f"ended with status {self.server.returncode}, said {rest!r} and {words!r}"
        if not tally or tally.group(1) != tally.group(2):
            return f"said {rest!r}"
        if self.faults:
            return "answered wrongly: " + "; ".join(self.faults)
        return "left a client without an answer" if is_somebody_left else None

    def close(self):
        """Ends the server, if it is there, and takes its place away."""
        self.over.set()
        if self.server.poll() is None:
            self.server.kill()
            self.server.wait()
        shutil.rmtree(self.place, ignore_errors=True)


def words_of(arguments):
    """The words of the program."""
    parser = argparse.ArgumentParser(description="Lives of a server in which all races.")
    parser.add_argument("lives", nargs="?", type=int, default=20)
    parser.add_argument("--seed", type=int, default=random.SystemRandom().randrange(1_000_000))
    parser.add_argument("--only", type=int)
    parser.add_argument("--program")
    return parser.parse_args(arguments)


def main(arguments):
    """Tries all lives: the exit status."""
    asked = words_of(arguments)
    program = asked.program
    if program is None:
        built = subprocess.run([os.path.join(TOP, "tools", "unproved"), "fltd"], stdout=subprocess.PIPE, text=True)
        if built.returncode != 0:
            return 1
        program = built.stdout.strip()
    print(f"seed {asked.seed}", flush=True)
    lives = range(asked.lives) if asked.only is None else [asked.only]
    requests = failed = 0
    for number in lives:
        life = Life(program, asked.seed, number)
        try:
            wrong = life.run()
        finally:
            life.close()
        requests += life.asked
        if wrong:
            failed += 1
            print(f"life {number}, {life.workers} workers: the server {wrong}", flush=True)
    print(f"{failed} lives of {len(lives)} ended wrong, after {requests} requests")
    return 1 if failed else 0


if __name__ == "__main__":
    sys.exit(main(sys.argv[1:]))
