"""Which refusals each command has, by the tables of docs/SCRIPT.md, and which of them no script of a run reached."""
from status import BAD_ALTITUDE, BAD_NAME, BAD_PATH, BAD_REQUEST, WRONG_STEP
from words import FORMS, MISSING, REQUESTS

# Those of the command's own rows. A word that isn't there, or can't be read, is refused by its kind: that is added below.
USES = (14, 29, 33)
BEGINS = {
    "read": (32, *USES),
    "size": USES,
    "querysize": USES,
    "setsize": (32, *USES),
    "flush": USES,
    "delete": USES,
    "setdelete": USES,
    "restore": USES,
    "cleanup": (30, *USES),
    "close": (30, *USES),
    "list": (29, 33),
    "other": USES,
    "otherv": (29, 33),
}
OWN = {
    **BEGINS,
    "load": (10, 29),
    "mount": (4, 29),
    "attach": (4, 5, 9, 29, 30, 33),
    "setup": (4, 5, 9, 29, 30, 33),
    "setdone": (11, 13, 30),
    "query": (8, 12, 13, 30),
    "queried": (12, 13, 30),
    "start": (8, 30),
    "started": (30,),
    "drain": (8, 30),
    "drained": (30,),
    "complete": (8, 30, 34),
    "completed": (30,),
    "enter": (8, 13, 14, 30, 32),
    "left": (30,),
    "finish": (8, 30, 34),
    "unload": (9, 12, 13, 30),
    "unloaded": (12, 30),
    "emptyf": (30, 34),
    "finishf": (30, 34),
    "dismount": (33, 34),
    "drop": (30,),
    "emptyv": (30, 34),
    "finishv": (30, 34),
    "create": (29, 33),
    "write": (32, *USES),
    "next": (30,),
    "pre": (30,),
    "base": (30,),
    "post": (30,),
    "resume": (28, 30),
    "respost": (28, 30),
    "go": (30,),
    "collect": (30,),
    "alloc": (21, 26, 29, 30),
    "set": (13, 22, 23, 25, 26, 27, 30),
    "get": (13, 21, 24, 26, 27, 30),
    "del": (21, 24, 26, 27, 30),
    "ref": (25, 26, 30),
    "rel": (25, 30),
    "body": (25, 30),
    "wbody": (25, 30, 32),
    "bump": (25, 30, 32),
    "due": (30,),
    "cleaned": (30,),
}


def of_words(form):
    """The refusals of a form's words."""
    slots = set(form.split())
    read = {"NAME": BAD_NAME, "ALTITUDE": BAD_ALTITUDE, "PATH": BAD_PATH, **MISSING, "W": WRONG_STEP}
    return {BAD_REQUEST} | {status for slot, status in read.items() if slot in slots}


def all_refusals():
    """Each command, requests below, at the base, at the top and changes each by their own word, with its refusals."""
    found = {}
    for command, forms in FORMS.items():
        if command not in ("below", "atbase", "attop", "change_held"):
            found[command] = set(OWN.get(command, ())).union(*map(of_words, forms))
    for word, forms in REQUESTS.items():
        own = set(BEGINS[word]).union(*map(of_words, forms))
        found[f"below {word}"] = found[f"atbase {word}"] = own | {8, 13, 32}
        found[f"attop {word}"] = own
    for word in ("read", "setsize", "other"):
        found[f"change_held {word}"] = {28, 30, 32}
    return found


def missed(reached):
    """A line for each command that never succeeded, and for each refusal that wasn't reached."""
    for command, statuses in sorted(all_refusals().items()):
        row = reached.get(command, {})
        for status in sorted({0, *statuses} - set(row)):
            yield f"{command}: {'success' if status == 0 else status}"
