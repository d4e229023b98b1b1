#!/usr/bin/env python3
"""Checks the JSON of scripts against the tables of docs/JSON.md, and each run's objects against what the run printed.

    .ci/objects.py --program FLTVIEW [--trial PROGRAM] [--random COUNT [SEED]] [SCRIPT ..]     of these scripts; else of all stored ones
    .ci/objects.py --schema     reads the tables of the page alone
    .ci/objects.py --objects FILE [--objects FILE ..]     the objects that drivers' programs in C wrote to these files

With --random it checks so many random scripts too (.ci/scripts.py), from that seed on or from 1.
With --trial it checks trials too, of the program test_trial: its stored scenarios, and two of what those lack. The lines that a trial prints say the same, and
what its end counts is what its objects say.
It ends with status 1 if an object isn't as the tables say, if an event of a table never came, or if the page has other objects.
"""
import json
import pathlib
import re
import subprocess
import sys
import tempfile

import scripts as maker

if sys.argv[1:2] in (["-h"], ["--help"]):
    print(__doc__.strip())
    sys.exit(0)

# A script that isn't as it expects, with bytes that are no text: none is stored, since stored scripts are tests that pass.
OWN = b"load f\n#! expect status x\n#! expect ok f0\nload f\n#! expect ok f1\n# \\ and \xff\n\xff\\\n"

# A scenario of what the stored one lacks: refusals, an end of filters, and at last a line that says nothing.
OWN_TRIAL = """load mistakes
load nobody
expect 6
attach 0 0 m 100
attach 0 0 n 100
attach 7 0 n 101
  # <a remark> & caf\u00e9
create 0 new f
create 0 existing nothing
write 0 0 6162
list 0
querysize 0
setsize 0 1
read 9 0 1
close 0
close 0
dismount 0
\texpect  status\t32
expect told KZ0101
stop
detach 0
detach 0
unload 0
read what
""".encode()

# A scenario at whose end two operations are held.
OWN_HELD = b"load mistakes\nattach 0 0 m 100\ncreate 0 new x\nwrite 0 0 61\nread 0 6 1\nexpect held\nread 0 8 1\nread 0 4 1\nexpect told KZ0113\n\n"

# What is told of one that gives back, or lets go, what it hasn't got; and of one that is held to the end.
MISUSES, HELD = ("KZ0102", "KZ0113"), "KZ0111"

# What a trial can't do without: where it is refused and no line expects that, it counts as unmet.
SET_UPS = ("load", "attach")

# The verdict of a run that ended with that status; of another it is Unexpected.
VERDICTS = {0: "Well", 2: "WrongLine", 5: "Left"}

# The word of a step in a trial's lines, for each event that tells one.
STEPS = {"Pre": "pre", "Base": "base", "Post": "post", "PostHeld": "post", "Drained": "drain", "Replied": "reply"}

TOP = pathlib.Path(__file__).resolve().parent.parent
DATA = TOP / "crates" / "examples" / "data"
TRIALS = sorted((TOP / "crates" / "test_trial" / "data").glob("*.txt"))
MOST = 2**64 - 1


def tables(text):
    """The tables of a page: for each the rows below its head, as lists of cells."""
    found, rows = [], None
    for line in text.splitlines():
        if line.startswith("|"):
            rows = [] if rows is None else rows
            rows.append([cell.strip() for cell in line.strip("|").split("|")])
        elif rows is not None:
            found.append(rows[2:])
            rows = None
    return found + ([] if rows is None else [rows[2:]])


def words_of(cell):
    return re.findall(r"`([^`]*)`", cell)


def schema():
    """What each member is; for each event what it has and may have, and whether a printed line is told by it; and the events that come in trials alone."""
    members, upper, lower, trial, driver = tables((TOP / "docs" / "JSON.md").read_text())
    named = [(name, row[1]) for row in members for name in words_of(row[0])]
    kinds = dict(named)
    twice = sorted({name for name, _ in named if [other for other, _ in named].count(name) > 1})
    if twice:
        sys.exit(f"docs/JSON.md says twice what is a member {', '.join(twice)}")
    events = {}
    for rows, more, is_printed in ((upper, ["command", "words"], True), (lower + trial, [], False)):
        for names, has, may, _ in rows:
            events.update({name: (set(words_of(has)) | {"line", "event", *more}, set(words_of(may)), is_printed) for name in words_of(names)})
    drivers = {name: (set(words_of(has)) | {"line", "event"}, set(words_of(may)), False) for names, has, may, _ in driver for name in words_of(names)}
    return kinds, events, {name for row in trial for name in words_of(row[0])}, drivers


def is_text(value, may_end=False):
    return isinstance(value, str) and all(" " <= letter <= "~" or (may_end and letter == "\n") for letter in value)


def fits(kind, value):
    if kind == "number":
        return type(value) is int and 0 <= value <= MOST
    if kind == "hex":
        return isinstance(value, str) and re.fullmatch(r"([0-9a-f]{2})*", value) is not None
    if kind == "texts":
        return isinstance(value, list) and all(is_text(each) for each in value)
    if kind in ("text", "words"):
        return is_text(value, kind == "words")
    if kind.startswith("one of "):
        return value in kind[len("one of ") :].split(", ")
    return isinstance(value, str) and re.fullmatch(kind + r"[0-9]+", value) is not None


def faults_of(told, kinds, events):
    """What is wrong with an object."""
    if told.get("event") not in events:
        return [f"no event {told.get('event')}"]
    has, may, _ = events[told["event"]]
    missing = [f"no member {name}" for name in sorted(has - set(told))]
    strange = [f"a member {name}" for name in sorted(set(told) - has - may)]
    wrong = [f"{name} is {value!r}" for name, value in told.items() if name not in kinds or not fits(kinds[name], value)]
    return missing + strange + wrong


def run(program, word, script):
    with open(script, "rb") as it:
        return subprocess.run([program, *([word] if word else [])], stdin=it, capture_output=True, timeout=120).stdout.decode("ascii")


def frame_faults(all_told):
    """What is wrong with the beginning, the order and the end of a run."""
    faults = []
    names = [told["event"] for told in all_told]
    if names[:1] != ["Run"] or names[-1:] != ["End"] or names.count("Run") + names.count("End") != 2:
        faults.append("it doesn't begin with Run and end with End")
        return faults
    lines = [told["line"] for told in all_told]
    if lines != sorted(lines):
        faults.append("lines go back")
    end = all_told[-1]
    if end["refused"] != names.count("Refused") or end["leaks"] != names.count("Leaked"):
        faults.append("End counts other refusals or leaks")
    if end["verdict"] != VERDICTS.get(end["status"], "Unexpected"):
        faults.append(f"End says {end['verdict']} of a run that ended with {end['status']}")
    return faults


def handle_faults(all_told):
    """Which operations are told of another volume than that of the create that opened their handle."""
    faults, creates, closes, volumes = [], {}, {}, {}
    for told in all_told:
        if told["event"] == "Began" and told["request"] == "create":
            creates[told["operation"]] = told["volume"]
        elif told["event"] == "Began" and "handle" in told:
            if told.get("volume") != volumes.get(told["handle"]):
                faults.append(f"line {told['line']} is told of {told.get('volume')}, and its handle is of {volumes.get(told['handle'])}")
            if told["request"] == "close":
                closes[told["operation"]] = told["handle"]
        elif told["event"] == "Replied" and told["status"] == 0:
            if told["operation"] in creates:
                volumes[told["handle"]] = creates[told["operation"]]
            volumes.pop(closes.get(told["operation"]), None)
    return faults


def script_faults(program, all_told, events, script):
    """What is wrong with the run of a script as a whole."""
    faults = frame_faults(all_told) + handle_faults(all_told)
    held = sum(line.startswith("  HELD ") for line in all_told[-1]["words"].splitlines())
    if all_told[-1]["held"] != held:
        faults.append(f"End counts {all_told[-1]['held']} operations as held, and its words {held}")
    names = [told["event"] for told in all_told]
    if any("kind" not in told or "owner" not in told for told in all_told if told["event"] == "Leaked"):
        faults.append("a leak without kind or owner")
    shown = script.with_suffix(".txt")
    if shown.exists() and run(program, None, script) != shown.read_text():
        faults.append(f"it is shown otherwise than {shown.name} has it")
    printed = script.with_suffix(".out")
    if printed.exists():
        told = sum(events[told["event"]][2] and not told["command"].startswith("#! expect") for told in all_told)
        if told != len(printed.read_bytes().split(b"\n")) - 1:
            faults.append(f"{told} objects of printed lines, and another number of lines")
    comments = [line for line in script.read_bytes().split(b"\n") if line.startswith(b"#") and len(line) <= 4096]
    refused = sum(told["event"] == "Refused" and told["command"].startswith("#! expect") for told in all_told)
    if names.count("Comment") + names.count("Met") + names.count("Unmet") + refused != len(comments):
        faults.append("another number of comments")
    return faults


def line_of(told, texts):
    """The line that an object of a trial is of. A set-up that was refused is told as unmet before the next request, so remarks may stand between."""
    if told["event"] != "Unmet" or not told["command"].startswith(SET_UPS):
        return told["line"]
    return max(number for number, text in enumerate(texts, 1) if number <= told["line"] and text.split()[:1] and text.split()[0] in SET_UPS)


def trial_faults(program, all_told, scenario):
    """What is wrong with a trial as a whole: whether its lines say the same."""
    faults = frame_faults(all_told)
    with open(scenario, "rb") as it:
        done = subprocess.run([program], stdin=it, capture_output=True, timeout=120)
    lines = done.stdout.decode().splitlines()
    steps = [tuple(line.split()[:2]) for line in lines if re.match(r"  o[0-9]+ ", line)]
    if steps != [(told["operation"], STEPS[told["event"]]) for told in all_told if told["event"] in STEPS]:
        faults.append("its lines have other steps")
    told_lines = [line for line in lines if line.startswith(("TOLD ", "LIMIT ")) and f" {HELD} " not in line]
    if told_lines != [told["words"] for told in all_told if told["event"] == "Told" and told["id"] != HELD]:
        faults.append("its lines tell something else")
    unmet = [int(line.split()[1]) for line in lines if re.match(r"line [0-9]+ failed", line)]
    texts = scenario.read_text().split("\n")
    if unmet != [line_of(told, texts) for told in all_told if told["event"] == "Unmet"]:
        faults.append("its lines have other expectations that weren't met")
    heads = {"mistake": "TOLD", "limit": "LIMIT"}
    if any(told["words"].split()[:2] != [heads[told["telling"]], told["id"]] for told in all_told if told["event"] == "Told"):
        faults.append("what is told has another number or kind in its words")
    faults += answered_faults(all_told, texts)
    if all_told[-1].get("status") != done.returncode:
        faults.append("another exit status")
    return faults + line_faults(all_told, scenario) + (end_faults(all_told, texts) if done.returncode != 2 else [])


def answered_faults(all_told, texts):
    """Whether an expectation that isn't met says what was told of the last request, and of no other."""
    asked = [number for number, text in enumerate(texts, 1) if text.split() and not text.split()[0].startswith(("#", "expect"))]
    faults = []
    for unmet in (told for told in all_told if told["event"] == "Unmet" and told["command"].startswith("expect")):
        last = max((number for number in asked if number < unmet["line"]), default=0)
        wanted = [f"told {told['id']}" for told in all_told if told["event"] == "Told" and told["line"] == last]
        if [line for line in unmet["answered"] if line.startswith("told ")] != wanted:
            faults.append(f"line {unmet['line']} has {unmet['answered']}, and {wanted} was told of line {last}")
    return faults


def end_faults(all_told, texts):
    """What the end of a trial counts otherwise than its objects do. That operations are held is one mistake, of however many it is told."""
    told = [it for it in all_told if it["event"] == "Told"]
    held = [it["operation"] for it in told if it["id"] == HELD]
    expected = sum(it["event"] == "Met" and it["expected"].startswith("told ") for it in all_told)
    # A limit is none that counts, so a line that expects one takes none away.
    limits = sum(it["event"] == "Met" and it["expected"].split()[1:] in [[other["id"]] for other in told if other["telling"] == "limit"] for it in all_told)
    wanted = {
        "held": len(held),
        "misuses": sum(it["id"] in MISUSES for it in told),
        "unmet": sum(it["event"] == "Unmet" for it in all_told),
        "line": max([number for number, text in enumerate(texts, 1) if text.strip("\r")], default=0),
        "told": sum(it["telling"] == "mistake" and it["id"] != HELD for it in told) + (1 if held else 0) - (expected - limits),
        "leaks": sum(it["id"] == "KZ0101" for it in told),
        "dropped": 0,
    }
    faults = [f"its end has {name} {all_told[-1].get(name)}, and its objects {count}" for name, count in wanted.items() if all_told[-1].get(name) != count]
    last = {it["operation"]: it for it in all_told if it["event"] in STEPS and "operation" in it}
    held_last = [operation for operation, it in last.items() if it["event"] == "PostHeld" or it.get("verdict") == "pend"]
    if sorted(held) != sorted(held_last):
        faults.append(f"{sorted(held)} are told as held, and {sorted(held_last)} were held last")
    places = {it["operation"]: it["callback"] for it in told if it["id"] == HELD}
    if any(("postoperation" if last[operation]["event"] == "PostHeld" else "preoperation") != place for operation, place in places.items() if operation in last):
        faults.append("one that is held is told of another callback")
    return faults


def line_faults(all_told, scenario):
    """Whether each line of a scenario has the objects of its kind."""
    faults = []
    wanted = {"#": {"Comment"}, "expect": {"Met", "Unmet"}}
    texts = scenario.read_text().split("\n")
    for number, line in enumerate(texts, 1):
        words = line.split()
        kind = "" if not words else "#" if words[0].startswith("#") else words[0]
        # That nothing was asked is told of all lines, on the last one.
        is_last = not any(later.strip() for later in texts[number:])
        here = {told["event"] for told in all_told if line_of(told, texts) == number and not (is_last and told.get("expected") == "a request")} - {"Told", "End"}
        right = wanted.get(kind)
        if (not words and here) or (right and (len(here) != 1 or not here <= right)) or (words and not right and not here):
            faults.append(f"line {number} has the objects {sorted(here)}")
    return faults


def page_faults(program, script, text):
    """Whether the page has the same objects, and nothing else that could end their element."""
    page = run(program, "--page", script)
    match = re.fullmatch(r'(.*)<script type="application/json" id="run">\n([^<>&]*)</script>(.*)', page, re.S)
    if not match:
        return ["the page's objects don't stand in one element"]
    return [] if [json.loads(line) for line in match[2].splitlines()] == [json.loads(line) for line in text.splitlines()] else ["the page has other objects"]


def check(script, program, kinds, events, rest):
    """Checks one run: prints what is wrong with it. Its objects, and whether all is right. `rest` has what is wrong with it as a whole."""
    text = run(program, "--json", script)
    all_told = [json.loads(line) for line in text.splitlines()]
    faults = [f"object {at}: {fault}" for at, told in enumerate(all_told) for fault in faults_of(told, kinds, events)]
    faults += rest(all_told) + page_faults(program, script, text)
    for fault in faults[:5]:
        print(f"{script}: {fault}")
    return all_told, not faults


def words_behind(words, name):
    """The program behind an option, as a path, and the words without both. A link isn't followed: some programs do what they are called by."""
    if name not in words:
        return None, words
    at = words.index(name)
    if at + 1 == len(words):
        sys.exit(__doc__)
    return str(pathlib.Path(words[at + 1]).absolute()), words[:at] + words[at + 2 :]


def random_of(words):
    """How many random scripts are asked for, the first seed, and the words without these."""
    if "--random" not in words:
        return 0, 1, words
    at = words.index("--random")
    numbers = []
    for word in words[at + 1 : at + 3]:
        if not word.isdigit():
            break
        numbers.append(int(word))
    if not numbers:
        sys.exit(__doc__)
    return numbers[0], (numbers + [1])[1], words[:at] + words[at + 1 + len(numbers) :]


def random_scripts(program, room, count, seed):
    """So many random scripts, each in a file under its seed."""
    made = []
    for number in range(seed, seed + count):
        path = pathlib.Path(room) / f"random{number}.flt"
        path.write_bytes(maker.script(program, number))
        made.append(path)
    return made


def driver_faults(path, kinds, events):
    """What is wrong with the objects that a driver's program wrote."""
    all_told = [json.loads(line) for line in pathlib.Path(path).read_text(encoding="ascii").splitlines()]
    faults = [f"object {at}: {fault}" for at, told in enumerate(all_told) for fault in faults_of(told, kinds, events)]
    names = [told["event"] for told in all_told]
    if names[:1] != ["Run"] or names[-1:] != ["End"] or names.count("Run") != names.count("End"):
        faults.append("a run doesn't begin with Run and end with End")
    return faults


def check_drivers(paths):
    """Checks files of objects of drivers' programs: prints what is wrong."""
    kinds, _, _, drivers = schema()
    faults = [f"{path}: {fault}" for path in paths for fault in driver_faults(path, kinds, drivers)]
    print("\n".join(faults[:10]), end="\n" if faults else "")
    sys.exit(1 if faults else 0)


def main():
    if sys.argv[1:] == ["--schema"]:
        schema()
        sys.exit(0)
    if sys.argv[1:2] == ["--objects"]:
        if sys.argv[1::2] != ["--objects"] * (len(sys.argv) // 2) or len(sys.argv) % 2 == 0:
            sys.exit(__doc__)
        check_drivers(sys.argv[2::2])
    program, words = words_behind(sys.argv[1:], "--program")
    trial, words = words_behind(words, "--trial")
    count, seed, words = random_of(words)
    if program is None:
        sys.exit(__doc__)
    room = tempfile.TemporaryDirectory()
    own, own_trial, own_held = (pathlib.Path(room.name) / name for name in ("own.flt", "own.trial", "held.trial"))
    own.write_bytes(OWN)
    own_trial.write_bytes(OWN_TRIAL)
    own_held.write_bytes(OWN_HELD)
    scripts = [pathlib.Path(word) for word in words] or [*sorted(DATA.rglob("*.flt")), own]
    scripts += random_scripts(program, room.name, count, seed)
    kinds, events, trial_events, _ = schema()
    runs = [check(script, program, kinds, events, lambda told, script=script: script_faults(program, told, events, script)) for script in scripts]
    if trial:
        runs += [check(it, trial, kinds, events, lambda told, it=it: trial_faults(trial, told, it)) for it in (*TRIALS, own_trial, own_held)]
    seen = {told["event"] for all_told, _ in runs for told in all_told}
    bad = sum(not is_right for _, is_right in runs)
    absent = sorted(set(events) - seen - (set() if trial else trial_events)) if not words else []
    for name in absent:
        print(f"no stored script has the event {name}")
    count = sum(len(all_told) for all_told, _ in runs)
    print(f"{len(scripts)} scripts, {len(runs) - len(scripts)} trials, {count} objects: {bad} not as docs/JSON.md says")
    sys.exit(1 if bad or absent else 0)


main()
