"""The commands of a script: their forms, and how the words of a line are read. What the words say is for script.py."""
import re

from names import read_altitude, read_name, read_path
from status import BAD_REQUEST, NO_FILTER, NO_HANDLE, NO_INSTANCE, NO_VOLUME, NOT_HELD, WRONG_STEP, Refused, refuse_if

MOST_LINE = 4096
# Requests on a handle or a volume, which also begin below an instance, at the base and at the top. Capitals stand for what is read, the rest for itself.
REQUESTS = {
    "read": ["H N N"],
    "size": ["H"],
    "querysize": ["H"],
    "setsize": ["H N"],
    "flush": ["H"],
    "delete": ["H"],
    "setdelete": ["H"],
    "restore": ["H"],
    "cleanup": ["H"],
    "close": ["H"],
    "list": ["V"],
    "other": ["H MAJOR N"],
    "otherv": ["V MAJOR N"],
}
ALL_OR_NOT = "yes|no"
KINDS = "volume|instance|stream|handle|file"
FORMS = {
    **REQUESTS,
    "load": ["NAME", "NAME only-pre|only-post|bare"],
    "mount": ["NAME"],
    "attach": ["F V NAME ALTITUDE"],
    "setup": ["W F V NAME ALTITUDE"],
    "setdone": ["W " + ALL_OR_NOT],
    "phase": ["I"],
    "flight": ["I"],
    "query": ["W I"],
    "queried": ["W " + ALL_OR_NOT],
    "start": ["W I"],
    "started": ["W"],
    "drain": ["W I"],
    "drained": ["W"],
    "complete": ["W I"],
    "completed": ["W"],
    "enter": ["W I", "W I H"],
    "left": ["W"],
    "finish": ["I"],
    "unload": ["W F"],
    "unloaded": ["W " + ALL_OR_NOT],
    "emptyf": ["F"],
    "finishf": ["F"],
    "dismount": ["V"],
    "drop": ["V"],
    "emptyv": ["V"],
    "finishv": ["V"],
    "create": ["V PATH existing|new|always"],
    "write": ["H N HEX"],
    "below": [f"I {name} {form}" for name, forms in REQUESTS.items() for form in forms],
    "atbase": [f"{asks}{name} {form}" for name, forms in REQUESTS.items() for form in forms for asks in ("I ", "")],
    "attop": [f"{name} {form}" for name, forms in REQUESTS.items() for form in forms],
    "next": ["W O"],
    "pre": ["W with|none|sync|pend", "W with C", "W complete S"],
    "base": ["W"],
    "post": ["W done|more"],
    "resume": ["W O with|none", "W O complete S"],
    "change_held": ["W O read N N", "W O setsize N", "W O other MAJOR N"],
    "respost": ["W O"],
    "plan": ["I with|none|sync|pend", "I complete S"],
    "go": ["W O"],
    "collect": ["O"],
    "alloc": [f"W {KINDS} HEX"],
    "set": ["W C keep|replace", "W C keep|replace old"],
    "get": [f"W {KINDS}"],
    "del": [f"W {KINDS}", f"W {KINDS} old"],
    "ref": ["W C"],
    "rel": ["W C"],
    "body": ["W C"],
    "wbody": ["W C HEX"],
    "bump": ["W C N N"],
    "due": ["W"],
    "cleaned": ["W"],
    "count": ["C"],
    "leaks": [""],
    "fail": ["N"],
    "failures": [""],
}
READERS = {"NAME": read_name, "ALTITUDE": read_altitude, "PATH": read_path}
# Which status says that an id was never printed.
MISSING = {"F": NO_FILTER, "V": NO_VOLUME, "I": NO_INSTANCE, "H": NO_HANDLE, "O": WRONG_STEP, "C": NOT_HELD}
# Major functions that commands of their own begin are no MAJOR: create, close, read, write, flush, cleanup. The kit's last one is 27.
OWN_MAJORS, LAST_MAJOR = (0, 2, 3, 4, 9, 18), 27


def read_number(word):
    """Decimal digits, up to 2^64 - 1; else None."""
    return int(word) if re.fullmatch(r"[0-9]+", word) and int(word) < 2**64 else None


def read_bytes(word):
    """Lower-case hexadecimal, `-` for none; else None."""
    if word == "-":
        return b""
    return bytes.fromhex(word) if re.fullmatch(r"([0-9a-f]{2})+", word) else None


def read_word(slot, word):
    """What a word says in that slot of a form; None if it can't be read. Names, altitudes and paths are read afterwards, as they have refusals of their own."""
    if slot in READERS:
        return word
    if slot == "HEX":
        return read_bytes(word)
    if slot in MISSING or slot == "W":
        return read_number(word[1:]) if word[:1] == slot.lower() else None
    if slot in ("N", "S", "MAJOR"):
        number = read_number(word)
        is_past = number is not None and (slot == "S" and number > 33 or slot == "MAJOR" and (number > LAST_MAJOR or number in OWN_MAJORS))
        return None if is_past else number
    return word if word in slot.split("|") else None


def read_form(form, words):
    """The values of the words by one form, with its slots; None if they can't be read so."""
    slots = form.split()
    if len(slots) != len(words):
        return None
    values = [read_word(slot, word) for slot, word in zip(slots, words)]
    return None if None in values else list(zip(slots, values))


def read_line(line):
    """The command of a line and its words, each with its slot: 32 if it can't be read, else 3, 2 or 15 for the first name, altitude or path that isn't one."""
    refuse_if(len(line) > MOST_LINE, BAD_REQUEST)
    name, *words = line.decode("latin-1").split(" ")
    read = next((it for it in (read_form(form, words) for form in FORMS.get(name, [])) if it is not None), None)
    refuse_if(read is None, BAD_REQUEST)
    return name, [(slot, READERS[slot](value) if slot in READERS else value) for slot, value in read]


def find_ids(command, read, found):
    """Puts what is found in place of the ids, from the left but the instance of `below`, `atbase` and `enter` last, and then looks at the workers."""
    order = sorted(range(len(read)), key=lambda place: command in ("below", "atbase", "enter") and read[place][0] == "I")
    for place in order:
        slot, number = read[place]
        if slot in MISSING:
            thing = found(slot, number)
            if thing is None:
                raise Refused(MISSING[slot])
            read[place] = slot, thing
    refuse_if(any(slot == "W" and number > 15 for slot, number in read), WRONG_STEP)
    return [value for _, value in read]
