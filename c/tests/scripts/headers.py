#!/usr/bin/env python3
"""The headers of c/include beside Debian's mingw-w64 headers (mingw-w64-x86-64-dev), by the compilers themselves: headers.py [FILE]. What both have must be the same: the values of constants and
enumerators, the sizes of structures and where their fields are (with clang), and how many parameters a routine has, and of which size each is (with clang). FILE (c/tests/headers.txt) lists what differs,
with the reason. Of their constants and structures nearly all are ours, but for those that c/tests/undeclared.txt leaves out by reason. `headers.py --can` ends with 1 where the package or a compiler isn't there. The last line is 'headers: N passed, M failed'.
"""
import os
import re
import subprocess
import sys

MINGW = "/usr/share/mingw-w64/include"
DEFINED = ["-D_WIN64=1", "-D_M_AMD64=100", "-D_AMD64_=1", "-DNTDDI_VERSION=0x0A000002", "-DKZ_DRIVER=1"]
OURS = ["cc", "-fshort-wchar", "-fms-extensions"] + DEFINED + ["-Ic/include", "-include", "fltKernel.h"]
THEIR_WORDS = ["-w", f"-I{MINGW}/ddk", "-D_WIN32_WINNT=0x0A00", "-DNTDDI_VERSION=0x0A000000"]
THEIRS = ["x86_64-w64-mingw32-gcc"] + THEIR_WORDS
THEIR_TEXT = "".join(f"#include <{name}.h>\n" for name in "ntifs ntddk dpfilter bcrypt ntimage ntdddisk ntddstor mountdev mountmgr".split())
OUR_TEXT = "#include <bcrypt.h>\n#include <ntimage.h>\n"
CLANG = ["clang", "-w", "-fsyntax-only"]
OUR_CLANG = CLANG + ["-fshort-wchar", "-fms-extensions", "-mms-bitfields"] + DEFINED + ["-Ic/include", "-include", "fltKernel.h"]
THEIR_CLANG = CLANG + ["--target=x86_64-w64-mingw32", "-isystem", MINGW] + THEIR_WORDS


def is_there(program):
    """Whether that program can be called."""
    return any(os.access(os.path.join(place, program), os.X_OK) for place in os.environ["PATH"].split(":"))


def run(command, text):
    """What the compiler prints, and what it says, of a text."""
    ran = subprocess.run(command + ["-x", "c", "-"], input=text, capture_output=True, text=True, check=False)
    return ran.stdout, ran.stderr


def names(command, text):
    """The macros that stand for something without arguments, and the enumerators."""
    macros = re.findall(r"^#define (\w+) (.+)$", run(command + ["-dM", "-E"], text)[0], re.M)
    found = {name for name, value in macros if not name.startswith("_") and value.strip()}
    for body in re.findall(r"\benum\b[^{;]*\{([^}]*)\}", run(command + ["-E", "-P"], text)[0]):
        found |= set(re.findall(r"(?:^|,)\s*(\w+)", body))
    return found


def values(command, text, wanted):
    """The values of the names that are numbers."""
    wanted = sorted(wanted)
    while wanted:
        lines = "".join(f"const long long kz_value_{name} = (long long)(\n{name});\n" for name in wanted)
        out, said = run(command + ["-S", "-o", "-", "-fmax-errors=0"], text + lines)
        begin = text.count("\n")
        bad = {(int(at) - 1 - begin) // 2 for at in re.findall(r"^<stdin>:(\d+):\d+: (?:error|note)", said, re.M)} if " error: " in said else set()
        if not bad:
            return parsed(out)
        wanted = [name for at, name in enumerate(wanted) if at not in bad]
    return {}


def parsed(assembly):
    """The values of an assembler's text."""
    found = {}
    for name, value in re.findall(r"^kz_value_(\w+):\n\s+\.(?:quad\s+(-?\d+)|(?:zero|space)\s+8)", assembly, re.M):
        found[name] = int(value) if value else 0
    return found


def records(command, text):
    """The structures and unions with a name: the size, and where each field is, by its path."""
    found = {}
    for block in run(command + ["-Xclang", "-fdump-record-layouts-complete"], text)[0].split("*** Dumping AST Record Layout")[1:]:
        rows = re.findall(r"^ *([\d:\-]+) \| ( *)(\S.*)$", block, re.M)
        size = re.search(r"\[sizeof=(\d+)", block)
        if not rows or not size or "unnamed" in rows[0][2] or "anonymous" in rows[0][2]:
            continue
        fields, path = {}, []
        for offset, indent, words in rows[1:]:
            depth = len(indent) // 2
            name = re.search(r"(?<![\w)])(\w+)$", words)
            is_unnamed = re.search(r"\(anonymous [^)]*\)$|\(unnamed [^)]*\)$", words)
            path = path[: depth - 1] + ([None] if is_unnamed or not name else [name.group(1)])
            if path[-1]:
                fields[".".join(part for part in path if part)] = offset
        found[rows[0][2].split(" ")[1]] = (int(size.group(1)), fields)
    return found


def kind_of(text, typedefs, long):
    """A type as what is passed: a pointer, a whole number of so many bytes, or a structure."""
    text = re.sub(r"\b(const|volatile|enum|struct|union|restrict)\b", "", text).strip()
    for _ in range(20):
        if text.endswith(("*", "]", ")")):
            return "pointer"
        if text not in typedefs:
            break
        text = re.sub(r"\b(const|volatile|struct|union|restrict)\b", "", typedefs[text]).strip()
    if text.startswith("enum "):
        return "4 bytes"
    sizes = {"void": 0, "char": 1, "signed char": 1, "unsigned char": 1, "short": 2, "unsigned short": 2, "wchar_t": 2, "int": 4, "unsigned int": 4, "long": long, "unsigned long": long,
             "long long": 8, "unsigned long long": 8, "_Bool": 1}
    return f"{sizes[text]} bytes" if text in sizes else text.lstrip("_")


def routines(command, text, long):
    """Each routine's answer and parameters, as kinds."""
    dumped = run(command + ["-Xclang", "-ast-dump"], text)[0]
    typedefs = {}
    for name, first, second in re.findall(r"TypedefDecl 0x\w+ .*? (\w+) '([^']*)'(?::'([^']*)')?$", dumped, re.M):
        typedefs.setdefault(name, second or first)
    enums = set(re.findall(r"EnumDecl 0x\w+ .*? (\w+)$", dumped, re.M))
    typedefs.update({name: "int" for name in enums})
    found, last = {}, None
    for line in dumped.split("\n"):
        function = re.match(r"^\|-FunctionDecl 0x\w+ .*? (\w+) '(.*?) ?\(.*'", line)
        parameter = re.match(r"^\| [|`]-ParmVarDecl 0x\w+ .*?'([^']*)'(?::'([^']*)')?$", line)
        if function:
            last = function.group(1)
            found.setdefault(last, [])
            found[last] = [kind_of(function.group(2), typedefs, long)]
        elif parameter and last:
            found[last].append(kind_of(parameter.group(2) or parameter.group(1), typedefs, long))
        elif line.startswith("|-") or line.startswith("`-"):
            last = None
    return found


class Check:
    """What was compared, and what differs and isn't listed."""

    def __init__(self, listed):
        self.listed, self.compared, self.failed, self.used = listed, 0, 0, set()

    def same(self, name, ours, theirs):
        """Both are the same, or the name is listed."""
        self.compared += 1
        if ours == theirs:
            return
        self.used.add(name)
        if name not in self.listed:
            self.failed += 1
            print(f"headers: {name} is {ours}, and {theirs} there")

    def structures(self):
        """Sizes, and fields of both."""
        ours, theirs = records(OUR_CLANG, OUR_TEXT), records(THEIR_CLANG, THEIR_TEXT)
        for name in sorted(set(ours) & set(theirs)):
            self.same(name, ours[name][0], theirs[name][0])
            for field in sorted(set(ours[name][1]) & set(theirs[name][1])):
                self.same(f"{name}.{field}", ours[name][1][field], theirs[name][1][field])

    def prototypes(self):
        """Answers and parameters."""
        ours, theirs = routines(OUR_CLANG, OUR_TEXT, 8), routines(THEIR_CLANG, THEIR_TEXT, 4)
        for name in sorted(set(ours) & set(theirs)):
            self.same(f"{name}()", ", ".join(ours[name]), ", ".join(theirs[name]))

    def constants(self):
        """Macros and enumerators."""
        theirs = THEIRS if is_there(THEIRS[0]) else [word for word in THEIR_CLANG if word != "-fsyntax-only"]
        both = names(OURS, OUR_TEXT) & names(theirs, THEIR_TEXT)
        ours, there = values(OURS, OUR_TEXT, both), values(theirs, THEIR_TEXT, both)
        mask = (1 << 32) - 1
        for name in sorted(set(ours) & set(there)):
            self.same(name, hex(ours[name] & mask), hex(there[name] & mask))


    def declared(self, reasons):
        """Of their constants and structures at most one in twenty isn't ours, but for those that have a reason."""
        theirs = names(THEIRS, THEIR_TEXT)
        there = set(values(THEIRS, THEIR_TEXT, theirs - names(OURS, OUR_TEXT)))
        there |= {name.lstrip("_") for name in set(records(THEIR_CLANG, THEIR_TEXT)) - set(records(OUR_CLANG, OUR_TEXT))}
        known = identifiers(OURS, OUR_TEXT)
        gone = sorted(name for name in there - known if not any(re.match(pattern, name) for pattern in reasons))
        self.compared += 1
        print(f"headers: {len(theirs)} constants there, {len(gone)} of those that a minifilter may use aren't declared here")
        if len(gone) * 20 > len(theirs):
            self.failed += 1
            print("headers: undeclared: " + " ".join(gone))


def identifiers(command, text):
    """All names that a text brings: macros, and words of declarations."""
    macros = re.findall(r"^#define (\w+)", run(command + ["-dM", "-E"], text)[0], re.M)
    return set(macros) | set(re.findall(r"[A-Za-z_]\w*", run(command + ["-E", "-P"], text)[0]))


def main():
    """Compares: 0, or 1 if something differs that isn't listed."""
    os.chdir(os.path.join(os.path.dirname(os.path.abspath(__file__)), "../../.."))
    if sys.argv[1:] == ["--can"]:
        return 0 if os.path.isdir(f"{MINGW}/ddk") and (is_there(THEIRS[0]) or is_there("clang")) else 1
    path = sys.argv[1] if len(sys.argv) > 1 else "c/tests/headers.txt"
    listed = dict(re.findall(r"^([\w.()]+) +(.+)$", open(path, encoding="utf-8").read(), re.M)) if os.path.exists(path) else {}
    check = Check(listed)
    check.constants()
    if is_there("clang"):
        check.structures()
        check.prototypes()
        if is_there(THEIRS[0]):
            check.declared([line.split(" ")[0] for line in open("c/tests/undeclared.txt", encoding="utf-8") if not line.startswith("#")])
        for name in sorted(set(listed) - check.used):
            check.failed += 1
            print(f"headers: {name} is listed, and doesn't differ")
    print(f"headers: {check.compared - check.failed} passed, {check.failed} failed")
    return 1 if check.failed else 0


if __name__ == "__main__":
    sys.exit(main())
