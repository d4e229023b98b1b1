#!/usr/bin/env python3
"""paging.py PROGRAM FIRST COUNT : random requests above a cached volume, each read compared with a plain list of the file's bytes, and at the end the bytes of the disk.

PROGRAM has the driver layer (c/build.sh PROGRAM c/tests/drivers/layer.c). A session has 120 requests: cached, uncached and write-through handles write and read three files, cut them and make them
larger; pages are flushed, written by time and by the lazy writer. In every second session the layer is attached, and the disk has what it makes of the bytes. The first session that differs is
printed with its requests. The exit status says whether one did."""
import random
import subprocess
import sys
import tempfile

SPAN, STEPS, SECTOR, PIECE = 40_000, 120, 512, 400
KINDS = {
    "cached": "",
    "uncached": " access FILE_READ_DATA|FILE_WRITE_DATA|SYNCHRONIZE options FILE_NO_INTERMEDIATE_BUFFERING|FILE_NON_DIRECTORY_FILE|FILE_SYNCHRONOUS_IO_NONALERT",
    "through": " options FILE_WRITE_THROUGH|FILE_NON_DIRECTORY_FILE|FILE_SYNCHRONOUS_IO_NONALERT",
}


class Session:
    def __init__(self, seed):
        self.random = random.Random(seed)
        self.has_layer = seed % 2 == 0
        self.lines, self.files, self.open, self.made = ["volume 0 cached"], {}, {}, 0
        if self.has_layer:
            self.lines += ["load layer", "attach layer v0 140000 as layer"]

    def say(self, line, *expected):
        self.lines += [line] + ["expect " + one for one in expected]

    def make(self):
        name, kind = self.random.choice("abc"), self.random.choice(["cached", "cached", "uncached", "through"])
        handle = f"h{self.made}"
        self.made += 1
        self.files.setdefault(name, bytearray())
        self.open[handle] = (name, kind)
        self.say(f"create v0 always {name} as {handle}{KINDS[kind]}", "status 0")

    def place(self, kind):
        """Where, and how many bytes: whole sectors where nothing is cached."""
        pick = self.random
        if kind == "uncached":
            return pick.randrange(SPAN // SECTOR) * SECTOR, pick.randrange(1, 13) * SECTOR
        return pick.choice([pick.randrange(SPAN), pick.randrange(SPAN // 4096) * 4096]), pick.choice([1, 7, 100, 4096, 9000])

    def write(self, handle, data, kind):
        at, length = self.place(kind)
        body = bytes(self.random.randrange(256) for _ in range(length))
        self.say(f"write {handle} {at} {body.hex()}", "status 0", f"info {length}")
        data.extend(bytes(max(at + length - len(data), 0)))
        data[at:at + length] = body

    def read(self, handle, data, kind):
        at, length = self.place(kind)
        there = bytes(data[at:at + length])
        if not there:
            self.say(f"read {handle} {at} {length}", "status 31")
            return
        self.say(f"read {handle} {at} {length}", f"info {len(there)}")
        step = SECTOR if kind == "uncached" else PIECE      # an expectation has room for so many
        part = self.random.randrange(0, len(there), step)
        self.say(f"read {handle} {at + part} {step}", "bytes " + bytes(data[at + part:at + part + step]).hex())

    def size(self, handle, data, _):
        size = self.random.randrange(SPAN) if self.random.random() < 0.4 else self.random.randrange(len(data) + 1)
        self.say(f"setsize {handle} {size}", "status 0")
        data.extend(bytes(max(size - len(data), 0)))
        del data[size:]

    def close(self, handle, _data, _kind):
        self.say(f"close {handle}", "status 0")
        del self.open[handle]

    def step(self):
        if not self.open or (len(self.open) < 6 and self.random.random() < 0.08):
            return self.make()
        handle = self.random.choice(sorted(self.open))
        name, kind = self.open[handle]
        others = {"flush": lambda h, *_: self.say(f"flush {h}", "status 0"), "lazy": lambda *_: self.say("lazy", "status 0"),
                  "time": lambda *_: self.say(f"time {self.random.randrange(100, 2000)}"),
                  "asked": lambda h, data, _: self.say(f"querysize {h}", f"info {len(data)}")}
        what = self.random.choices(["write", "read", "size", "flush", "lazy", "time", "asked", "close"], [35, 34, 6, 5, 4, 4, 4, 8])[0]
        return (others.get(what) or getattr(self, what))(handle, self.files[name], kind)

    def disk(self, data):
        """What the layer makes of a file."""
        if not self.has_layer:
            return bytes(data)
        return bytes(byte ^ 0xA5 ^ at * 7 & 0xFF for at, byte in enumerate(data))

    def requests(self):
        for _ in range(STEPS):
            self.step()
        for handle in sorted(self.open):
            self.close(handle, None, None)
        self.say("lazy", "status 0")
        if self.has_layer:
            self.say("detach layer", "status 0")
        for name, data in sorted(self.files.items()):
            self.say(f"create v0 existing {name} as d{name}{KINDS['uncached']}", "status 0")
            self.say(f"querysize d{name}", f"info {len(data)}")
            there = self.disk(data)
            for at in range(0, len(there), SECTOR):
                if self.has_layer and not any(data[at:at + SECTOR]):
                    continue                                # zeros may have been written, or not
                self.say(f"read d{name} {at} {SECTOR}", "bytes " + there[at:at + SECTOR].hex())
        self.say("volume 0 cached", "told nothing")
        return "\n".join(self.lines) + "\n"


def main():
    program, first, count = sys.argv[1], int(sys.argv[2]), int(sys.argv[3])
    for seed in range(first, first + count):
        with tempfile.NamedTemporaryFile("w", suffix=".txt") as file:
            file.write(Session(seed).requests())
            file.flush()
            ran = subprocess.run([program, "--quiet", file.name], capture_output=True, text=True)
            if ran.returncode != 0:
                print(f"session {seed} ends with {ran.returncode}:\n{ran.stdout[-2000:]}{ran.stderr[-2000:]}")
                print(open(file.name, encoding="utf-8").read()[:200_000] if "-v" in sys.argv else "")
                return 1
    return 0


sys.exit(main())
