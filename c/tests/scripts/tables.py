#!/usr/bin/env python3
"""tables.py TABLES FOLDER : the tables of that folder, a request file each, and `sharing`, which is made of its rule.

A row becomes a few requests with what each is answered. It has a folder of its own, so that no row meets another one. Where a line of the table says nothing that can be read this ends with status 1."""
import pathlib
import re
import shlex
import sys

ALL = "GENERIC_READ|GENERIC_WRITE|DELETE|SYNCHRONIZE"
READ = "GENERIC_READ|SYNCHRONIZE"
FILE = f"create 0 new D/f access {ALL} options 0 as z; write z 0 6162; close z; create 0 new D/f:alt access {ALL} options 0 as y; close y"


def rows_of(path):
    """Each line, but for comments: (what stands behind the last `=`, the line)."""
    begun = ""
    for line in path.read_text().splitlines():
        if line.startswith("= "):
            begun = line[2:]
        elif line and not line.startswith("#"):
            yield begun, line


def requests_in(text, folder):
    return [part.strip().replace("D/", folder + "/") for part in text.replace("FILE", FILE, 1).split(";") if part.strip()] if text else []


def left_open(requests):
    """Handles that these requests name, and don't close."""
    opened = [found for request in requests for found in re.findall(r" as (\w+)$", request)]
    return [f"close {name}" for name in opened if f"close {name}" not in requests]


def begun(folder):
    return [f"mkdir 0 {folder} as folder", "close folder"]


# ---- Creates.
def creates(path):
    for number, (state, line) in enumerate(rows_of(path)):
        folder = f"r{number}"
        what, _, rest = state.partition(": ")
        target, _, setup = rest.partition(";")
        mode, options, access, attributes, status, *then = line.split()
        is_folder = "FILE_DIRECTORY_FILE" in options.split("|")
        named = target.replace("D/", folder + "/")
        before = requests_in(setup, folder)
        asked = f"create 0 {mode} {named} access {READ if access == '-' else access} options {0 if options == '-' else options}"
        asked += f" attributes {(0 if is_folder else 128) if attributes == '-' else int(attributes, 0)} as h"
        yield [f"# {what}: {line}"] + begun(folder) + before + [asked, f"expect status {status}"]
        if then:
            file = named.split(":")[0]
            yield [f"create 0 existing {file} access FILE_READ_ATTRIBUTES options 0 as q", "query q tag"]
            yield [f"expect bytes {int(then[0], 0).to_bytes(4, 'little').hex()}00000000", "close q"]
        yield (["close h"] if status == "0" else []) + left_open(before)


# ---- Names.
def names(path):
    for number, (_, line) in enumerate(rows_of(path)):
        folder = f"r{number}"
        mode, name, status, *then = shlex.split(line.replace("\\", "\\\\")) if "\\" in line else shlex.split(line)
        name = re.sub(r"\\x([0-9a-f]{2})", lambda found: chr(int(found.group(1), 16)), name)
        name = re.sub(r"\{(.)\*([0-9]+)\}", lambda found: found.group(1) * int(found.group(2)), name)
        setup = [f"create 0 new {folder}/f as z", "write z 0 01", "close z", f"create 0 new {folder}/f:s as z", "write z 0 02", "close z", f"mkdir 0 {folder}/d as z", "close z"]
        setup += [f"create 0 new {folder}/d/f as z", "write z 0 03", "close z", f"create 0 new {folder}/d:t as z", "write z 0 04", "close z"]
        word = f"{mode} 0" if mode in ("mkdir", "opendir") else f"create 0 {mode}"
        ways = "" if mode in ("mkdir", "opendir") else " options 0"
        yield [f"# {line}"] + begun(folder) + setup + [f'{word} "{folder}/{name.lstrip("/")}" access {READ}{ways} as h', f"expect status {status}"]
        if then == ["folder"]:
            yield ["query h standard", "expect status 0", "read h 0 1", "expect status STATUS_INVALID_DEVICE_REQUEST"]
        elif then:
            yield ["read h 0 9", f"expect bytes {then[0]}"]
        yield ["close h"] if status == "0" else []


# ---- Access.
def opened(kind, folder, access):
    setup = [f"create 0 new {folder}/f as z", "write z 0 6162", "close z"] if kind == "f" else [f"mkdir 0 {folder}/d as z", "close z", f"create 0 new {folder}/d/f as z", "close z"]
    word = "create 0 existing" if kind == "f" else "opendir 0"
    return begun(folder) + setup + [f"{word} {folder}/{kind} access {access}{' options 0' if kind == 'f' else ''} as h"]


def access(path):
    for number, (kind, line) in enumerate(rows_of(path)):
        request, needs, status = (part.strip() for part in line.split(";"))
        request = request.replace(" H", " h", 1)
        bits = [] if needs == "-" else needs.split()
        is_all = bits[:1] == ["all"]
        granted = ["|".join(bits[1:])] if is_all else bits or [""]
        refused = bits[1:] if is_all else [""] if bits else []
        for at, one in enumerate(refused):
            yield [f"# {line}"] + opened(kind, f"r{number}n{at}", "SYNCHRONIZE" + (f"|{one}" if one else "")) + [request, "expect status STATUS_ACCESS_DENIED", "expect callbacks none", "close h"]
        for at, one in enumerate(granted):
            answer = ["expect held", "cancel held"] if status == "held" else [f"expect status {status}"]
            yield [f"# {line}"] + opened(kind, f"r{number}y{at}", "SYNCHRONIZE" + (f"|{one}" if one else "")) + [request, *answer, "close h"]


# ---- Sharing: who opens a file for what, and shares it in which way, beside the same of another one.
WAYS = {"r": "FILE_READ_DATA", "w": "FILE_WRITE_DATA", "rw": "FILE_READ_DATA|FILE_WRITE_DATA"}
SHARED = {"": "0", "r": "FILE_SHARE_READ", "w": "FILE_SHARE_WRITE", "rw": "FILE_SHARE_READ|FILE_SHARE_WRITE"}


def sharing():
    yield ["create 0 new f as z", "write z 0 6162", "close z"]
    for first in WAYS:
        for shares in SHARED:
            for second in WAYS:
                for others in SHARED:
                    yield sharing_row(first, shares, second, others)


def sharing_row(first, shares, second, others):
    """Each has to share what the other one is opened for. What the second handle may do is what it was opened for."""
    may = set(second) <= set(shares) and set(first) <= set(others)
    lines = [f"# {first} sharing {shares or 'nothing'}, then {second} sharing {others or 'nothing'}"]
    for name, ways, shared in (("a", first, shares), ("b", second, others)):
        lines += [f"create 0 existing f access SYNCHRONIZE|{WAYS[ways]} share {SHARED[shared]} options 0 as {name}"]
    lines += [f"expect status {0 if may else 'STATUS_SHARING_VIOLATION'}"]
    if may:
        lines += ["read b 0 1", f"expect status {0 if 'r' in second else 'STATUS_ACCESS_DENIED'}", "write b 0 61", f"expect status {0 if 'w' in second else 'STATUS_ACCESS_DENIED'}", "close b"]
    return lines + ["close a"]


# ---- Oplocks. What a holds is asked for by a handle that doesn't wait; processes from 1000 on have a key each, by the driver `leases`.
CODES = {"L1": "0x90000", "L2": "0x90004", "B": "0x90008", "F": "0x9005c", "ack": "0x9000c", "no2": "0x90050", "closing": "0x90010", "notify": "0x90014"}
LEVELS = {"none": 0, "R": 1, "H": 2, "RH": 3, "W": 4, "RW": 5, "HW": 6, "RWH": 7}
DATA = "FILE_READ_DATA|FILE_WRITE_DATA|FILE_READ_ATTRIBUTES|FILE_WRITE_ATTRIBUTES|DELETE|SYNCHRONIZE"
KEYS = {"a": 1001, "c": 1001, "b": 1002, "x": 1002}
BROKEN = {"L2": 7, "none": 8}
MODES = {"open": "existing", "alone": "existing", "stream": "existing", "own": "existing", "openif": "always"}


def word(value):
    return value.to_bytes(4, "little").hex()


def by_levels(level, flags):
    return f"01000c00{word(LEVELS[level])}{word(flags)} 24"


def asks(handle, kind):
    """A request, or an acknowledgement: `ack:R` and its kin are by levels."""
    first, _, level = kind.partition(":")
    if level or kind not in CODES:
        return f"fsctl {handle} 0x90240 {by_levels(level or kind, 1 if not level else 2 if first == 'ack' else 6)}"
    return f"fsctl {handle} {CODES[kind]}"


def opens(handle, path, access=DATA, share="FILE_SHARE_READ|FILE_SHARE_WRITE|FILE_SHARE_DELETE", options="0", mode="existing"):
    return [f"as process {KEYS[handle]}", f"create 0 {mode} {path} access {access} share {share} options {options} as {handle}"]


ACCESSES = {"FILE_READ_DATA": 1, "FILE_WRITE_DATA": 2, "FILE_READ_EA": 8, "FILE_WRITE_EA": 16, "FILE_EXECUTE": 32, "DELETE": 0x10000}


def broken(kind, left, by=None):
    """How the request of that kind ends that is broken; by a create of that access, which shares all, it says so."""
    if kind in CODES:
        return [f"expect info {BROKEN[left]}"]
    modes = f"{word(sum(ACCESSES[bit] for bit in by.split('|')))}0700" if by else "000000000000"
    return [f"expect bytes 01001800{word(LEVELS[kind])}{word(LEVELS[left])}{word((kind != 'R') | (2 if by else 0))}{modes}0000"]


def grant(number, held, asked, answer, then):
    path = f"r{number}/f"
    before, first = [], None
    options = "FILE_SYNCHRONOUS_IO_NONALERT" if held == "sync" else "FILE_DIRECTORY_FILE" if held == "folder" else "0"
    for one in [] if held in ("-", "sync", "folder") else held.split("+"):
        who, _, kind = one.partition(":")
        who, kind = ("b", "lock") if one == "lock" else (who, kind)
        before += opens(who, path)
        before += [f"lock {who} 0 1"] if kind == "lock" else [asks(who, kind), "expect held"] if kind else []
        first = first or kind
    opened = [] if held.startswith("a:") else opens("a", f"r{number}" if held == "folder" else path, "FILE_READ_ATTRIBUTES|SYNCHRONIZE", options=options)
    asked_for = [asks("a", asked)] + ([f"expect {'held' if answer == 'held' else 'status ' + answer}"] if not then else [f"expect {'info' if then[0] == '8' else 'status'} {then[0]}"])
    holds = ["cancel held", "expect status STATUS_CANCELLED"] if then else []
    return before + opened + asked_for + holds + [f"close {who}" for who in "abc" if f" as {who}" in " ".join(before + opened)]


def done(what, path):
    """Handles that are open before, what is done, and by which access."""
    verb, by = what.split()
    if verb in MODES or verb in ("overwrite", "overwriteif", "supersede"):
        handle = "c" if verb == "own" else "x"
        made = opens(handle, path + ":alt" if verb == "stream" else path, by, share="FILE_SHARE_WRITE" if verb == "alone" else "FILE_SHARE_READ|FILE_SHARE_WRITE|FILE_SHARE_DELETE",
                     mode=MODES.get(verb, verb))
        return [], made, handle
    handle = {"own-": "a"}.get(by, by)
    before = [] if handle == "a" else opens(handle, path)
    request = {"read": "read H 0 1", "write": "write H 0 61", "set": "set H end 1", "zero": "fsctl H 0x980c8 00000000000000000100000000000000", "lock": "lock H 0 1", "rename": "rename H g",
               "link": "link H g", "dispose": "dispose H delete", "query": "query H basic"}[verb]
    return before, [request.replace("H", handle, 1)], None if handle == "a" else handle


def breaks(number, held, what, left, answer):
    """Whoever waits is cancelled by `cancel held`; where nobody does, that is the request of what isn't broken, or there is nothing to cancel."""
    path = f"r{number}/f"
    kind, _, deny = held.partition("/")
    before, request, other = done(what, path)
    lines = opens("a", path, share="0" if deny else "FILE_SHARE_READ|FILE_SHARE_WRITE|FILE_SHARE_DELETE") + before + [asks("a", kind), "expect held"] + request
    if left == "-":
        lines += [f"expect status {answer}", "cancel held", "expect status STATUS_CANCELLED"]
    else:
        lines += broken(kind, left, what.split()[1] if other == "x" else None) + ["cancel held", f"expect status {'STATUS_CANCELLED' if answer == 'waits' else 28}"]
    opened = {"a"} | ({other} if other and (before or (left == "-" and answer == "0") or answer == "0") else set())
    return lines + [f"close {who}" for who in sorted(opened)]


def acknowledgement(number, held, by, how, answer):
    path = f"r{number}/f"
    mode = "overwrite" if by == "overwrite" else "existing"
    begun = [] if by == "-" else opens("x", path, "FILE_READ_DATA|SYNCHRONIZE", options="FILE_COMPLETE_IF_OPLOCKED", mode=mode)
    lines = opens("a", path) + [asks("a", held), "expect held"] + begun + [asks("a", how), "expect held" if answer == "held" else f"expect status {answer}"]
    return lines + ["close a"] + (["close x"] if begun else [])


def oplocks(path):
    makers = {"grant": grant, "break": breaks, "acknowledge": acknowledgement}
    number = 0
    for kind, line in rows_of(path):
        first, second, *rest = (part.strip() for part in line.split(";"))
        seconds = second.split() if kind == "grant" else [second]
        for one in first.split():
            for other in seconds:
                number += 1
                row = [f"# {one} ; {other} ; {' ; '.join(rest)}", "as process 1001", *begun(f"r{number}"), f"create 0 new r{number}/f as z", "write z 0 6162", "close z", f"create 0 new r{number}/f:alt as z", "close z"]
                yield row + (grant(number, one, other, rest[0], rest[1:]) if kind == "grant" else makers[kind](number, one, other, *rest))


def main():
    tables, folder = pathlib.Path(sys.argv[1]), pathlib.Path(sys.argv[2])
    for name, made in (("creates", creates), ("names", names), ("access", access), ("oplocks", oplocks), ("sharing", lambda _: sharing())):
        try:
            lines = [line for part in made(tables / f"{name}.txt") for line in part]
        except (ValueError, IndexError) as error:
            print(f"{name}.txt: {error}")
            return 1
        driver = "leases" if name == "oplocks" else "passthrough"
        (folder / f"{name}.txt").write_text("\n".join([f"load {driver}", f"attach {driver} 0 p 100"] + lines) + "\n")
        print(f"{name}: {sum(line.startswith('# ') for line in lines)} rows, {sum(line.startswith('expect ') for line in lines)} expectations")
    return 0


if __name__ == "__main__":
    sys.exit(main())
