#!/usr/bin/env python3
"""bars.py RUN FOLDER: files that can't run, each of which RUN has to refuse with a sentence and status 3."""
import pathlib
import struct
import subprocess
import sys

RUN, FOLDER = sys.argv[1], pathlib.Path(sys.argv[2])
PE, OPTIONAL, SECTIONS = 0x80, 0x98, 0x98 + 240


def driver():
    """A driver of one section, whose code returns at once."""
    file = bytearray(0x400)
    file[0:2] = b"MZ"
    struct.pack_into("<I", file, 60, PE)
    file[PE:PE + 4] = b"PE\0\0"
    struct.pack_into("<HHIIIHH", file, PE + 4, 0x8664, 1, 0, 0, 0, 240, 0x22)
    struct.pack_into("<H", file, OPTIONAL, 0x20B)
    struct.pack_into("<I", file, OPTIONAL + 16, 0x1000)
    struct.pack_into("<QII", file, OPTIONAL + 24, 0x140000000, 0x1000, 0x200)
    struct.pack_into("<II", file, OPTIONAL + 56, 0x2000, 0x200)
    struct.pack_into("<H", file, OPTIONAL + 68, 1)
    struct.pack_into("<I", file, OPTIONAL + 108, 16)
    struct.pack_into("<8sIIIIIIHHI", file, SECTIONS, b".text", 0x10, 0x1000, 0x200, 0x200, 0, 0, 0, 0, 0x60000020)
    file[0x200:0x203] = b"\x31\xc0\xc3"  # xor eax, eax; ret
    return file


def directory(which, at=0x1000, size=8):
    return OPTIONAL + 112 + 8 * which, struct.pack("<II", at, size)


# A name, the changes (where, which bytes), how much of the file is left, and what the sentence has to name.
BARS = [
    ("32-bit", [(PE + 4, b"\x4c\x01")], None, "32-bit x86"),
    ("arm64", [(PE + 4, b"\x64\xaa")], None, "ARM64"),
    ("arm", [(PE + 4, b"\xc4\x01")], None, "32-bit ARM"),
    ("machine", [(PE + 4, b"\x00\x02")], None, "machine 0x0200"),
    ("pe32", [(OPTIONAL, b"\x0b\x01")], None, "PE32+"),
    ("program", [(OPTIONAL + 68, b"\x03\x00")], None, "user mode"),
    ("efi", [(OPTIONAL + 68, b"\x0a\x00")], None, "subsystem is 10"),
    ("managed", [directory(14)], None, ".NET"),
    ("tls", [directory(9)], None, "thread-local"),
    ("delayed", [directory(13)], None, "delays the loading"),
    ("unfinished", [(PE + 22, b"\x20\x00")], None, "marked as executable"),
    ("packed", [(SECTIONS, b"UPX0\0")], None, "packer"),
    ("written", [(SECTIONS + 36, b"\x20\x00\x00\xe0")], None, "written and run"),
    ("cut", [], 0x208, "cut off"),
    ("header", [], 0x82, "cut off"),
    ("empty", [], 0, "MZ"),
    ("text", [(0, b"hello")], None, "MZ"),
    ("elf", [(0, b"\x7fELF")], None, "Linux"),
    ("dos", [(PE, b"NE")], None, "DOS"),
    ("entry", [(OPTIONAL + 16, b"\x00\x03\x00\x00")], None, "entry point 0x300"),
    ("library", [(OPTIONAL + 16, b"\x00\x00\x00\x00")], None, "no entry point"),
    ("fixed", [(PE + 22, b"\x23\x00")], None, "/DYNAMICBASE"),
    ("alignment", [(OPTIONAL + 32, b"\x10\x00\x00\x00")], None, "multiples of 16"),
    ("huge", [(OPTIONAL + 56, b"\xff\xff\xff\x7f")], None, "256 MB"),
    ("overlap", [(SECTIONS + 12, b"\x00\x00\x00\x00")], None, "lies over"),
    ("numbers", [directory(1, 0x1040, 40), (SECTIONS + 8, b"\x00\x02\x00\x00"), (0x240, struct.pack("<IIIII", 0x1080, 0, 0, 0x10A0, 0x1080)), (0x280, struct.pack("<Q", 1 << 63 | 7)),
                 (0x2A0, b"hal.dll\0")], None, "number 7 of hal.dll"),
]


# A test signature, as Visual Studio's Debug builds have, is behind the sections: it is in nobody's way.
SIGNED = ("signed", [directory(4, 0x400, 16)], None)


def said(name, changes, left):
    file = driver()
    for at, content in changes:
        file[at:at + len(content)] = content
    path = FOLDER / f"{name}.sys"
    path.write_bytes(file[:left] if left is not None else file)
    done = subprocess.run([RUN, path, "/dev/null"], capture_output=True, text=True, check=False)
    return done.returncode, done.stderr.strip()


FOLDER.mkdir(parents=True, exist_ok=True)
failed = 0
for name, changes, left, wanted in BARS:
    status, text = said(name, changes, left)
    if status != 3 or wanted not in text or "\n" in text:
        print(f"bars: {name}: status {status}: {text}")
        failed += 1
status, text = said(*SIGNED)
if status == 3 or "can't be loaded" in text:
    print(f"bars: signed: status {status}: {text}")
    failed += 1
missing = subprocess.run([RUN, FOLDER / "none.sys", "/dev/null"], capture_output=True, text=True, check=False)
if missing.returncode != 3 or "No such file" not in missing.stderr:
    print(f"bars: a file that isn't there: {missing.stderr}")
    failed += 1
sys.exit(failed != 0)
