#!/usr/bin/env python3
"""names.py PROGRAM FIRST COUNT : random requests about names, each answer beside that of a model of names of its own.

PROGRAM has the drivers passthrough and ctx (c/build.sh PROGRAM c/samples/passthrough.c c/samples/ctx.c). A session has 80 requests: files and directories are made, opened, renamed, linked,
replaced, marked, deleted by POSIX semantics, written, cut and listed, with names in either case. The model knows files, and the names that lead to them; nothing of it is the host's.
The first session that differs is printed up to where it does. The exit status says whether one did."""
import random
import subprocess
import sys

OK, MARKED, DENIED, DEVICE, MISSING, THERE, END, INVALID = 0, 16, 17, 18, 19, 20, 31, 32
IS_DIRECTORY, NOT_DIRECTORY, NOT_EMPTY, NO_PATH, SHARING = "0xc00000ba", "0xc0000103", "0xc0000101", "0xc000003a", "0xc0000043"
FILES = ["a", "B", "b", "c", "d/a", "d/B", "D/c", "e", "g/a"]
FOLDERS = ["d", "D", "g", "g/h", "k"]
SLOTS = 12


class File:
    def __init__(self, is_directory):
        self.is_directory = is_directory
        self.data = b""
        self.links = 0
        self.handles = 0
        self.mark = None            # the name that is to go

    def is_pending(self):
        return self.mark is not None


class Name:
    def __init__(self, text, file):
        self.text, self.file, self.is_gone = text, file, False
        file.links += 1


class Handle:
    def __init__(self, name):
        self.name, self.file, self.is_posix = name, name.file, False
        self.file.handles += 1


class Model:
    """Answers as (status, kit's status or None, what the answer says or None)."""

    def __init__(self, makes_folders):
        self.makes_folders = makes_folders
        self.names = {}
        self.handles = {}
        self.root = File(True)
        self.root_name = Name("", self.root)

    def find(self, text):
        return self.names.get(text.upper()) if text else self.root_name

    def add(self, text, file):
        self.names[text.upper()] = made = Name(text, file)
        return made

    def below(self, text):
        return [name for key, name in self.names.items() if key.startswith(text.upper() + "/")]

    def make_above(self, text):
        parts = text.split("/")[:-1]
        for count in range(1, len(parts) + 1):
            above = "/".join(parts[:count])
            if not self.find(above):
                self.add(above, File(True))

    def has_file_above(self, text):
        parts = text.split("/")[:-1]
        return any((found := self.find("/".join(parts[:count]))) and not found.file.is_directory for count in range(1, len(parts) + 1))

    def above(self, text, makes=True):
        """Why no name is made there; None if one may be: what it would be in is a folder, and stays one, or is made."""
        folder = self.find(text[: text.rindex("/")]) if "/" in text else None
        if "/" not in text or (folder and folder.file.is_directory):
            return (MARKED, None, None) if folder and folder.file.is_pending() else None
        return None if makes and self.makes_folders and not self.has_file_above(text) else (DEVICE, NO_PATH, None)

    def remove(self, name):
        name.is_gone = True
        del self.names[name.text.upper()]
        name.file.links -= 1

    # ---- Opening and closing.
    def create(self, slot, mode, text, is_directory):
        found = self.find(text)
        if found and found.file.is_pending():
            return MARKED, None, None
        if self.above(text, mode != "existing"):
            return self.above(text, mode != "existing")
        if found and found.file.is_directory and not is_directory:
            return DEVICE, IS_DIRECTORY, None
        if found and mode == "new":
            return THERE, None, None
        if found and found.file.is_directory != is_directory:
            return DEVICE, NOT_DIRECTORY if is_directory else IS_DIRECTORY, None
        if not found and mode == "existing":
            return MISSING, None, None
        if not found:
            self.make_above(text)
            found = self.add(text, File(is_directory))
        self.handles[slot] = Handle(found)
        return OK, None, None

    def close(self, slot):
        handle = self.handles.pop(slot)
        file = handle.file
        file.handles -= 1
        is_last = file.handles == 0
        if file.mark and (is_last or handle.is_posix):
            if not file.mark.is_gone:
                self.remove(file.mark)
            file.mark = None
        return OK, None, None

    # ---- Marks.
    def dispose(self, slot, is_gone, is_posix):
        handle = self.handles[slot]
        file = handle.file
        if not handle.name.text:
            return DEVICE, "0xc0000121", None
        if handle.name.is_gone:
            return DEVICE, "0xc0000123", None
        if not is_gone:
            file.mark, handle.is_posix = None, False
            return OK, None, None
        if file.is_directory and self.below(handle.name.text):
            return DEVICE, NOT_EMPTY, None
        file.mark = handle.name
        handle.is_posix = handle.is_posix or is_posix
        return OK, None, None

    # ---- Renames and links.
    def rename(self, slot, text, is_replace, is_posix, is_link):
        source = self.handles[slot].name
        file = source.file
        target = self.find(text)
        folder = self.find("/".join(text.split("/")[:-1])) if "/" in text else None
        if folder and folder.file.is_directory:
            if folder.file.is_pending():
                return MARKED, None, None
            if folder.file.handles:  # each has DELETE, which the folder's opening doesn't share
                return DEVICE, SHARING, None
            text = folder.text + "/" + text.split("/")[-1]
        elif "/" in text and not self.makes_folders:
            return (MARKED, None, None) if folder and folder.file.is_pending() else (DEVICE, NO_PATH, None)
        if source.is_gone or file.is_pending():
            return DENIED, None, None
        if not source.text:
            return INVALID, None, None
        if is_link and file.is_directory:
            return DEVICE, IS_DIRECTORY, None
        if file.is_directory and any(name.file.handles for name in self.below(source.text)):
            return DENIED, None, None
        if file.is_directory and text.upper().startswith(source.text.upper() + "/"):
            return DENIED, None, None
        if self.above(text):
            return self.above(text)
        if target and (is_link or target is not source):
            if not is_replace:
                return THERE, None, None
            if target.file.is_directory:
                return DENIED, None, None
            if target.file is not file:
                if target.file.is_pending():
                    return MARKED, None, None
                if target.file.handles and (is_link or not is_posix):
                    return DENIED, None, None
        if target is source and (is_link or text == source.text):
            return OK, None, None
        self.make_above(text)
        if target and target is not source:
            self.remove(target)
        if is_link:
            self.add(text, file)
            return OK, None, None
        old = source.text
        moved = [(source, text)] + [(name, text + name.text[len(old):]) for name in self.below(old)]
        for name, _ in moved:
            del self.names[name.text.upper()]
        for name, fresh in moved:
            name.text = fresh
            self.names[fresh.upper()] = name
        return OK, None, None

    # ---- Bytes and questions.
    def write(self, slot, offset, data):
        file = self.handles[slot].file
        if file.is_directory:
            return DEVICE, "0xc0000010", None
        file.data = file.data.ljust(offset, b"\0")
        file.data = file.data[:offset] + data + file.data[offset + len(data):]
        return OK, None, None

    def read(self, slot):
        file = self.handles[slot].file
        if file.is_directory:
            return DEVICE, "0xc0000010", None
        return (OK, None, file.data.hex()) if file.data else (END, None, None)

    def set_end(self, slot, size):
        file = self.handles[slot].file
        if file.is_directory:
            return INVALID, None, None
        file.data = file.data.ljust(size, b"\0")[:size]
        return OK, None, None

    def standard(self, slot):
        file = self.handles[slot].file
        size = len(file.data)
        links = file.links - (1 if file.is_pending() and file.links else 0)
        text = f"size {size} allocation {(size + 511) // 512 * 512} links {links}"
        return OK, None, text + (" deleted" if file.is_pending() or not file.links else "") + (" directory" if file.is_directory else "")

    def name(self, slot):
        handle = self.handles[slot]
        return OK, None, None if handle.name.is_gone else "name /" + handle.name.text

    def list(self):
        found = sorted(name.text for name in self.names.values() if not name.file.is_directory and "/" not in name.text)
        return OK, None, "".join(text + "\n" for text in found).encode().hex()

    def directory(self, slot):
        handle = self.handles[slot]
        begin = handle.name.text.upper() + "/" if handle.name.text else ""
        found = [name for key, name in self.names.items() if key.startswith(begin) and "/" not in key[len(begin):] and key != begin]
        found.sort(key=lambda name: (name.text.upper(), name.text))
        parts = ["./", "../"] if begin else []
        parts += [name.text[len(begin):] + ("/" if name.file.is_directory else f" {len(name.file.data)}") for name in found]
        return OK, None, ", ".join(parts)


def sign(answer):
    return {"status": answer[0], "kit": answer[1], "says": answer[2]}


def session(seed):
    """The lines of a session, and what each is to be answered; None where nothing is looked at."""
    draw = random.Random(seed)
    model = Model(seed % 2 == 1)
    lines = ["load passthrough", "load ctx", "attach passthrough 0 top 200", "attach ctx 0 low 100"] + ["volume 0 makesfolders"] * (seed % 2 == 1)
    wanted = [None] * len(lines)

    def ask(line, answer):
        lines.append(line)
        wanted.append(sign(answer))

    for _ in range(80):
        slot, kind = draw.randrange(SLOTS), draw.randrange(100)
        if kind < 34 and slot not in model.handles:
            is_directory = draw.random() < 0.3
            mode = draw.choice(["existing", "new"] if is_directory else ["existing", "new", "always", "always"])
            text = draw.choice(FOLDERS if is_directory else FILES + ["d"])
            word = f"create 0 {mode} {text}" if not is_directory else f"{'mkdir' if mode == 'new' else 'opendir'} 0 {text}"
            ask(f"{word} as h{slot}", model.create(slot, mode, text, is_directory))
            continue
        if kind < 38:
            ask("list 0", model.list())
            continue
        if not model.handles:
            continue
        slot = draw.choice(sorted(model.handles))
        on_handle(draw, model, slot, kind, ask)
    for slot in sorted(model.handles):
        ask(f"close h{slot}", model.close(slot))
    ask("list 0", model.list())
    return lines, wanted


def on_handle(draw, model, slot, kind, ask):
    handle = f"h{slot}"
    if kind < 52:
        is_link = draw.random() < 0.3
        is_replace = draw.random() < 0.6
        is_posix = is_replace and draw.random() < 0.5
        is_extended = draw.random() < 0.3
        text = draw.choice(FOLDERS if model.handles[slot].file.is_directory and draw.random() < 0.8 else FILES)
        words = (" posix" if is_posix else " replace" if is_replace else "") + (" ex" if is_extended else "")
        ask(f"{'link' if is_link else 'rename'} {handle} /{text}{words}", model.rename(slot, text, is_replace, is_posix, is_link))
    elif kind < 60:
        offset, data = draw.randrange(6), bytes(draw.randrange(256) for _ in range(draw.randrange(1, 5)))
        ask(f"write {handle} {offset} {data.hex()}", model.write(slot, offset, data))
    elif kind < 66:
        ask(f"read {handle} 0 100", model.read(slot))
    elif kind < 69:
        size = draw.randrange(9)
        ask(f"set {handle} end {size}", model.set_end(slot, size))
    elif kind < 76:
        is_gone, is_posix = draw.random() < 0.7, draw.random() < 0.4
        words = "delete posix" if is_gone and is_posix else "delete" if is_gone else "keep"
        ask(f"dispose {handle} {words}", model.dispose(slot, is_gone, is_posix))
    elif kind < 79:
        ask(f"setdelete {handle}", model.dispose(slot, True, False))
    elif kind < 84:
        ask(f"query {handle} standard", model.standard(slot))
    elif kind < 88:
        ask(f"query {handle} name", model.name(slot))
    elif kind < 91 and model.handles[slot].file.is_directory and not model.handles[slot].name.is_gone:
        ask(f"dir {handle} both restart", model.directory(slot))
    else:
        ask(f"close {handle}", model.close(slot))


def replies_of(output):
    """For each request its reply's line, and what it says."""
    replies = []
    for line in output.split("\n"):
        if line.startswith("> "):
            replies.append([None, None])
        elif replies and line.startswith("status ") and replies[-1][0] is None:
            replies[-1][0] = line
        elif replies and line.startswith("says "):
            replies[-1][1] = line[5:]
    return replies


def is_as_wanted(reply, wanted):
    words = reply[0].split()
    if int(words[1]) != wanted["status"]:
        return False
    if wanted["kit"] and words[2] != f"({wanted['kit']})":
        return False
    if wanted["says"] is None:
        return True
    said = reply[1] if reply[1] is not None else "" if words[-1] == "-" else words[-1]
    return said == wanted["says"]


def run(program, seed):
    lines, wanted = session(seed)
    try:
        done = subprocess.run([program], input="\n".join(lines) + "\n", capture_output=True, text=True, timeout=20)
    except subprocess.TimeoutExpired:
        return f"seed {seed} doesn't end\n" + "\n".join(lines)
    replies = replies_of(done.stdout)
    for at, want in enumerate(wanted):
        if want and (at >= len(replies) or not replies[at][0] or not is_as_wanted(replies[at], want)):
            was = replies[at] if at < len(replies) else "nothing"
            return f"seed {seed}, `{lines[at]}`: {was}, and the model has {want}\n" + "\n".join(lines[: at + 1])
    if done.returncode != 0 or "told 0" not in done.stdout:
        return f"seed {seed}: exit status {done.returncode}\n{done.stdout[-600:]}{done.stderr[-600:]}"
    return None


def main():
    program, first, count = sys.argv[1], int(sys.argv[2]), int(sys.argv[3])
    different = 0
    for seed in range(first, first + count):
        found = run(program, seed)
        different += found is not None
        if found and different == 1:
            print(found)
    print(f"{count} sessions from seed {first} on: {different} differ")
    return 1 if different else 0


if __name__ == "__main__":
    sys.exit(main())
