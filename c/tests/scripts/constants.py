#!/usr/bin/env python3
"""Lists the calls of the kit whose body only answers a constant, or does nothing, with the reason beside each: the comment in front of it, or the LIMIT that the tables of c/include name.
It ends with 1 if one has no reason. The last line is 'constants: N passed, M failed'."""
import pathlib
import re
import sys

if sys.argv[1:2] in (["-h"], ["--help"]):
    print(__doc__.strip())
    sys.exit(0)

ROOT = pathlib.Path(__file__).resolve().parent.parent.parent.parent
PREFIXES = "Aux|BCrypt|Cc|Cm|Dbg|Etw|Ex|Flt|FsRtl|Hal|Io|Ke|Mm|Ob|Po|Ps|Rtl|Se|Tm|Zw|Nt"
FUNCTION = re.compile(rf"^(?:[A-Za-z_][\w *]*[ *])((?:{PREFIXES})[A-Z]\w*)\(([^;{{}}]*)\)\n\{{\n(.*?)^\}}\n", re.M | re.S)
# What doesn't count as doing something: entering the kit, and arguments that aren't looked at.
IDLE = re.compile(r"^(?:KZ_\w+\(\)|\(void\)\w+|UNREFERENCED_PARAMETER\(\w+\))$")
CONSTANT = re.compile(r"^(?:return(?: \(?[A-Z_0-9a-fx]+\)?)?|return (?:NULL|TRUE|FALSE|true|false|\d+)|\*\w+ = (?:NULL|0|FALSE|TRUE))$")
LIMIT = re.compile(r"^KZ_ROUTINE\((.*?), (.*?), ([A-Z_]+)(?: \| WAITS)?, (\w+)", re.M)


def is_constant(body):
    """Whether all that it does is to answer."""
    parts = [part.strip() for part in re.sub(r"/\*.*?\*/", "", body, flags=re.S).replace("\n", " ").split(";") if part.strip()]
    parts = [piece.strip() for part in parts for piece in re.split(r", (?=\(void\))", part)]
    return all(IDLE.match(part) or CONSTANT.match(part) for part in parts)


def reason_of(text, at, body):
    """The comment that ends in front of a function, or that stands in it."""
    found = re.search(r"/\*(.*?)\*/", body, re.S) or re.search(r"/\*((?:(?!\*/).)*)\*/\n$", text[:at], re.S)
    return " ".join(found.group(1).split()) if found and not found.group(1).startswith(" ----") else ""


def main():
    """Prints them, in the order of their names."""
    rows = {}
    for path in sorted((ROOT / "c/host").glob("*/*.c")):
        text = path.read_text(encoding="utf-8")
        for found in FUNCTION.finditer(text):
            if is_constant(found.group(3)):
                rows[found.group(1)] = reason_of(text, found.start(), found.group(3))
    for path in sorted((ROOT / "c/include").glob("kz*routines.h")):
        for found in LIMIT.finditer(path.read_text(encoding="utf-8")):
            rows[found.group(4)] = f"LIMIT {found.group(3)}: it answers {found.group(2) or 'nothing'}"
    for name in sorted(rows):
        print(f"{name}: {rows[name] or 'NO REASON'}")
    gone = sum(not reason for reason in rows.values())
    print(f"constants: {len(rows) - gone} passed, {gone} failed")
    return 1 if gone else 0


sys.exit(main())
