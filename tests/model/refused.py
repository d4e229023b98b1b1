"""Scripts in which memory is refused: one allocation after the other, while the program plays them.

An event that is refused memory prints `no 1`, changes nothing, and that comes last of its refusals; a device's call answers 1; a growth of the script's own ends the program with 1.
"""
import copy
import os
import pathlib
import subprocess
import tempfile

import moves
import playing
from script import Script
from words import REQUESTS

SOURCE = """#include <errno.h>
#include <stddef.h>
#include <stdio.h>
#include <stdlib.h>

void *__libc_malloc(size_t);
void *__libc_calloc(size_t, size_t);
void *__libc_realloc(void *, size_t);
static long left;

static __attribute__((constructor)) void read_number(void)
{
    left = atol(getenv("KAZDRIN_REFUSED"));
}

static __attribute__((destructor)) void say_left(void)
{
    if (left > 0)
        fputs("left", stderr);
}

static int is_refused(void)
{
    return left > 0 && --left == 0;
}

void *malloc(size_t size)
{
    return is_refused() ? (errno = ENOMEM, NULL) : __libc_malloc(size);
}

void *calloc(size_t count, size_t size)
{
    return is_refused() ? (errno = ENOMEM, NULL) : __libc_calloc(count, size);
}

void *realloc(void *old, size_t size)
{
    return is_refused() ? (errno = ENOMEM, NULL) : __libc_realloc(old, size);
}
"""
# The commands whose events take memory.
GROWING = {"load", "mount", "attach", "setup", "create", "write", "below", "atbase", "attop", "alloc", "body", *REQUESTS}
SCRIPT_LINES = 80


def is_refused_call(said):
    """Whether a `go` that prints these lines has a call of the device that was refused memory."""
    for line in said:
        if line == "base 1" or line.split(" ")[0] in ("held", "reply", "no"):
            return line == "base 1"
    return False


def answer(script, line, said):
    """What the model says, if the program is refused memory just there."""
    command = line.split(b" ")[0].decode("latin-1")
    if said[:1] == ["no 1"] and command in GROWING:
        others = copy.deepcopy(script).answer(line)
        return others if others[0].startswith("no ") else ["no 1"]
    script.world.devices.refuses = command == "go" and is_refused_call(said)
    return script.answer(line)


def difference(lines, said, status):
    """Where the two part, or None. The program may end anywhere with 1."""
    script, played = Script(), playing.Played(said)
    script.world.choose = played.choose
    for line in lines:
        wanted = answer(script, line, said[played.at :])
        got = said[played.at : played.at + len(wanted)]
        if status == 1 and len(got) < len(wanted) and got == wanted[: len(got)]:
            return None
        if got != wanted:
            return f"{line.decode('latin-1')}: the model says {wanted}, the program {got}"
        played.at += len(wanted)
    return None if status in (0, 1) and played.next() is None else f"it ends with {status}"


def runs(program, seed, lines):
    """Plays scripts until so many lines were compared: for each run its name, the difference or None, and its lines."""
    with tempfile.TemporaryDirectory() as room:
        pathlib.Path(room, "refused.c").write_text(SOURCE, encoding="utf-8")
        library = f"{room}/refused.so"
        subprocess.run([os.environ.get("CC", "cc"), "-shared", "-fPIC", "-O1", "-o", library, f"{room}/refused.c"], check=True)
        made, number = 0, 0
        while made < lines:
            maker = moves.make("plain" if number % 2 else "teardown", f"refused {seed}.{number}", SCRIPT_LINES)
            text = [line for line in maker.lines if not line.startswith(b"base ")]
            for refused, found in runs_of(program, library, text):
                made += len(text)
                yield f"refused {seed}.{number}, allocation {refused}", found, len(text)
            number += 1


def runs_of(program, library, lines):
    """Plays one script with each fourth of its allocations refused, until none is."""
    there = {**os.environ, "LD_PRELOAD": f"{os.environ.get('LD_PRELOAD', '')} {library}".strip()}
    refused, is_left = 1, False
    while not is_left:
        ended = playing.play(program, lines, {**there, "KAZDRIN_REFUSED": str(refused)})
        is_left = ended.stderr.endswith(b"left")
        yield refused, difference(lines, playing.lines_of(ended), ended.returncode)
        refused += 4
