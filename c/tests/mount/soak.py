#!/usr/bin/env python3
"""A soak: soak.py --server SERVER --mount FLTMOUNT [--seconds N] [--seed N] [--filters NAME@ALTITUDE,..]

Programs work in folders of a mount, each beside a model of its own that is written down before and after each call. Meanwhile programs, the mount and the server are killed or
halted, filters come and go, and, as root, the disk below is full now and then. Each program that is started again looks whether what was acknowledged is there, and what was under
way is there as before, or as after it. The last line has the counts; the exit status is 0 where nothing was lost, wrong or hung."""
import argparse
import errno
import json
import os
import random
import shlex
import shutil
import signal
import subprocess
import sys
import time

from ground import Ground, Tally

PROGRAMS = 5
NAMES = "abcd"
LARGEST = 20_000
# A program that an error of these ended has its call in doubt, and is started again.
IN_DOUBT = {errno.EIO, errno.ENOTCONN, errno.ENOSPC, errno.ESTALE, errno.EINTR, errno.ECONNABORTED, errno.ENXIO, errno.ETIMEDOUT}
DOUBT, WRONG = 75, 76


class Model:
    """What a program knows to be in its folder, and what it is about to do; both outlive it."""

    def __init__(self, path):
        self.path = path
        self.files = {}
        self.doing = None
        if os.path.exists(path):
            with open(path, encoding="ascii") as file:
                kept = json.load(file)
            self.files = {name: bytes.fromhex(text) for name, text in kept["files"].items()}
            self.doing = kept["doing"]

    def write(self, doing):
        """Writes it down, whole or not at all."""
        self.doing = doing
        with open(self.path + ".new", "w", encoding="ascii") as file:
            json.dump({"files": {name: data.hex() for name, data in self.files.items()}, "doing": doing}, file)
        os.replace(self.path + ".new", self.path)


def found(folder):
    """All files of a folder, with their bytes."""
    files = {}
    for name in os.listdir(folder):
        with open(os.path.join(folder, name), "rb", buffering=0) as file:
            files[name] = file.readall()
    return files


def may_be(old, got, doing):
    """Whether a file that was written to may be so: each byte of the written part is the old one or the new one, and no other has changed."""
    data, at = bytes.fromhex(doing["data"]), doing["at"]
    new = old[:at] + data + old[at + len(data):]
    return len(got) >= len(old) and len(got) <= len(new) and all(byte in (old[place:place + 1], new[place:place + 1]) for place, byte in ((n, got[n:n + 1]) for n in range(len(got))))


def in_doubt(model, got, copies):
    """What is to be taken as there, where a call was under way: None where it can't be so. Of a rename by a copy a part may be there."""
    doing, wanted = model.doing, dict(model.files)
    name = doing["name"]
    old, is_now = wanted.get(name), got.get(name)
    if doing["call"] == "write" and is_now is not None and may_be(old or b"", is_now, doing):
        wanted[name] = is_now
    if doing["call"] == "cut" and is_now is not None and is_now in (old, old[: doing["size"]]):
        wanted[name] = is_now
    if doing["call"] == "unlink" and is_now is None:
        wanted.pop(name, None)
    if doing["call"] == "rename":
        to, moved = doing["to"], got.get(doing["to"])
        if is_now is None and moved == old:
            wanted.pop(name)
            wanted[to] = moved
        elif copies and is_now == old and moved is not None and (old.startswith(moved) or moved == wanted.get(to)):
            wanted[to] = moved
    return wanted if wanted == got else None


def settle(model, folder, copies):
    """Looks at the folder after an end: what was acknowledged has to be there."""
    got = found(folder)
    wanted = in_doubt(model, got, copies) if model.doing else model.files
    if got != wanted and not (model.doing and got == model.files):
        sizes = {name: (len(model.files.get(name, b"")), len(got.get(name, b""))) for name in {*model.files, *got}}
        print(f"{folder}: {model.doing and {**model.doing, 'data': '..'}} {sizes}", flush=True)
        return False
    model.files = got
    model.write(None)
    return True


def rename(model, folder, chance, name):
    """A rename, while one of both names is open or none: whether who has that open reads the same after it."""
    to = chance.choice([other for other in NAMES if other != name])
    held, opened = chance.choice((None, name, to)), None
    wanted = model.files.get(held)
    model.write({"call": "rename", "name": name, "to": to})
    if wanted is not None:
        opened = os.open(os.path.join(folder, held), os.O_RDONLY)
    try:
        os.rename(os.path.join(folder, name), os.path.join(folder, to))
        model.files[to] = model.files.pop(name)
    except PermissionError:  # what was copied stays
        model.files[to] = model.files[name]
    except OSError as error:
        if error.errno not in (errno.EXDEV, errno.EBUSY):
            raise
    finally:
        is_right = opened is None or os.pread(opened, LARGEST * 2, 0) == wanted
        if opened is not None:
            os.close(opened)
    return is_right


def step(model, folder, chance):
    """One random call, and its check: whether that came out."""
    name = chance.choice(NAMES)
    path, old = os.path.join(folder, name), model.files.get(name)
    call = chance.choice(["write"] * 4 + ["read"] * 3 + ["cut", "unlink", "rename", "sync"])
    if call == "write" or old is None:
        data, at = chance.randbytes(chance.randrange(1, 4000)), chance.randrange(len(old or b"") + 1)
        at = min(at, LARGEST)
        model.write({"call": "write", "name": name, "at": at, "data": data.hex()})
        file = os.open(path, os.O_CREAT | os.O_RDWR, 0o644)
        done = os.pwrite(file, data, at)
        os.close(file)
        model.files[name] = (old or b"")[:at] + data[:done] + (old or b"")[at + done:]
    elif call == "cut":
        size = chance.randrange(len(old) + 1)
        model.write({"call": "cut", "name": name, "size": size})
        os.truncate(path, size)
        model.files[name] = old[:size]
    elif call == "unlink":
        model.write({"call": "unlink", "name": name})
        try:
            os.unlink(path)
            del model.files[name]
        except PermissionError:  # a filter denies deletions
            pass
    elif call == "rename":
        if not rename(model, folder, chance, name):
            return False
    else:
        with open(path, "rb", buffering=0) as file:
            if call == "sync":
                os.fsync(file.fileno())
            if file.readall() != old:
                return False
    model.write(None)
    return True


def program(folder, kept, seed, copies):
    """A program: its exit status."""
    chance, model, steps = random.Random(seed), Model(kept), 0
    try:
        try:
            os.mkdir(folder)
        except FileExistsError:
            pass
        if not settle(model, folder, copies):
            return WRONG
        while True:
            if not step(model, folder, chance):
                print(f"{folder}: another content", flush=True)
                return WRONG
            steps += 1
            with open(kept + ".count", "a", encoding="ascii") as file:
                file.write(".")
    except OSError as error:
        if error.errno in IN_DOUBT:
            return DOUBT
        print(f"{folder}: {error}", flush=True)
        return WRONG


class Soak:
    """A mount with its programs."""

    def __init__(self, ground, words):
        self.ground = ground
        self.words = words
        self.chance = random.Random(words.seed)
        self.running = [None] * PROGRAMS
        self.seeds = 0
        self.passing = None
        self.counts = dict.fromkeys(("killed", "mounts", "servers", "halts", "filters", "full", "doubt", "wrong", "hung"), 0)

    def start(self, number):
        """Starts a program anew."""
        self.seeds += 1
        words = [sys.executable, __file__, "--program", self.ground.at(f"p{number}"), os.path.join(self.ground.room, f"kept{number}"), str(self.words.seed * 1000 + self.seeds), self.words.renames]
        self.running[number] = subprocess.Popen(words)

    def reap(self, number):
        """Starts a program again that has ended."""
        status = self.running[number].poll()
        if status is None:
            return
        self.counts["doubt"] += status == DOUBT
        self.counts["wrong"] += status not in (DOUBT, -signal.SIGKILL)
        self.start(number)

    def end(self):
        """Kills the programs. One that can't be killed hangs."""
        for one in self.running:
            one.kill()
        for one in self.running:
            try:
                one.wait(60)
            except subprocess.TimeoutExpired:
                self.counts["hung"] += 1

    def attach(self):
        """The filters of the words, which a new server has to have before a mount, and one that is only loaded."""
        names = dict(word.split("@") for word in self.words.filters.split(",") if word)
        self.ground.attach(**names)
        if self.words.passing:
            self.passing = self.ground.ask("load", self.words.passing)[1]

    def replace_mount(self, is_server):
        """Kills the mount, or the server and the mount, and starts them again."""
        ground = self.ground
        self.counts["servers" if is_server else "mounts"] += 1
        if is_server:
            ground.kill_server()
        ground.mounted.kill()
        ground.mounted.wait()
        self.end()
        subprocess.run(["fusermount3", "-u", "-z", ground.mount], capture_output=True, check=False)
        if is_server:
            ground.start_server()
            self.attach()
        ground.start_mount()
        for number in range(PROGRAMS):
            self.start(number)

    def halt(self, process):
        """Halts a process for a while."""
        self.counts["halts"] += 1
        process.send_signal(signal.SIGSTOP)
        time.sleep(self.chance.random())
        process.send_signal(signal.SIGCONT)

    def fill(self):
        """Fills the disk below for a while."""
        self.counts["full"] += 1
        filler = self.ground.below(".full")
        with open(filler, "wb", buffering=0) as file:
            try:
                while True:
                    file.write(bytes(65536))
            except OSError:
                pass
        time.sleep(self.chance.random())
        os.unlink(filler)

    def come_and_go(self):
        """A filter is attached beside the others, and goes again."""
        self.counts["filters"] += 1
        status, instance = self.ground.ask("attach", self.passing, 0, self.words.passing, "7")
        assert status == 0, status
        time.sleep(self.chance.random())
        while self.ground.ask("detach", instance)[0] == 34:
            time.sleep(0.05)

    def disturb(self):
        """One of these."""
        draw = self.chance.randrange(20)
        if draw < 8:
            self.counts["killed"] += 1
            self.running[self.chance.randrange(PROGRAMS)].kill()
        elif draw < 13:
            self.halt(self.chance.choice([self.ground.server, self.ground.mounted, self.chance.choice(self.running)]))
        elif draw < 15 and self.words.is_small:
            self.fill()
        elif draw < 17 and self.words.passing:
            self.come_and_go()
        elif draw < 19:
            self.replace_mount(False)
        else:
            self.replace_mount(True)

    def run(self):
        """All of it: the counts."""
        self.attach()
        end = time.monotonic() + self.words.seconds
        for number in range(PROGRAMS):
            self.start(number)
        while time.monotonic() < end:
            time.sleep(self.chance.random() * 2)
            self.disturb()
            for number in range(PROGRAMS):
                self.reap(number)
        self.end()
        steps = sum(os.path.getsize(path) for path in (os.path.join(self.ground.room, f"kept{number}.count") for number in range(PROGRAMS)) if os.path.exists(path))
        return {"steps": steps, **self.counts}


def main():
    """The program: its exit status."""
    if sys.argv[1:2] == ["--program"]:
        return program(sys.argv[2], sys.argv[3], int(sys.argv[4]), sys.argv[5] == "copied")
    parser = argparse.ArgumentParser(description=__doc__)
    parser.add_argument("--server", required=True)
    parser.add_argument("--mount", required=True, type=shlex.split)
    parser.add_argument("--seconds", type=int, default=900)
    parser.add_argument("--seed", type=int, default=int(time.time()) % 100_000)
    parser.add_argument("--filters", default="shift@100,carry@200")
    parser.add_argument("--passing", default="meter", help="a filter that comes and goes; empty: none")
    parser.add_argument("--renames", choices=("copied", "closed", "all"), default="copied", help="what the server's frame renames")
    words = parser.parse_args()
    place = "/dev/shm/kazdrin-soak"
    words.is_small = os.geteuid() == 0 and not os.path.exists(place) and os.makedirs(place) is None
    if words.is_small:
        words.is_small = subprocess.run(["mount", "-t", "tmpfs", "-o", "size=16m", "none", place], check=False).returncode == 0
    tally = Tally()
    try:
        with Ground(tally, words, "below={host}", patience=words.seconds + 300, place=place if words.is_small else None, alone=True) as ground:
            counts = Soak(ground, words).run()
    finally:
        subprocess.run(["umount", "-l", place], capture_output=True, check=False)
        shutil.rmtree(place, ignore_errors=True)
    print(f"soak: seed {words.seed}: " + " ".join(f"{name} {count}" for name, count in counts.items()))
    return 1 if counts["wrong"] or counts["hung"] or tally.failed else 0


if __name__ == "__main__":
    sys.exit(main())
