"""Scripts that reach the limits: loads, volumes, instances, operations, handles, contexts, bytes and lines; and each word of each command that isn't one, in turn."""
from words import FORMS, REQUESTS

# A request in each of its forms, for handle 0 and volume 0.
SPELLED = {"H": "h0", "V": "v0", "N": "0", "MAJOR": "17"}
# A client's request, and those that begin elsewhere.
WAYS = ("", "below i0 ", "atbase i0 ", "atbase ", "attop ")
BUILT = ["load f", "mount v", "attach f0 v0 a 100", "create v0 x always", "go w0 o0"]


def requests():
    """Each request once."""
    return [" ".join([word, *(SPELLED[slot] for slot in form.split())]) for word, forms in REQUESTS.items() for form in forms]


def many_loads():
    """16 loads, 8 volumes, and one more of each; a name may be loaded again, and counts."""
    loads = [f"load n{it}" for it in range(15)] + ["unload w0 f3", "unloaded w0 yes", "emptyf f3", "finishf f3", "load n3", "load n3", "load more"]
    return loads + [f"mount n{it}" for it in range(8)] + ["mount n1", "mount more"]


def many_instances():
    """32 on a volume, and 4,096 attaches."""
    made = ["load f", "mount v", "mount u"] + [f"attach f0 v0 a{it} {it}" for it in range(33)]
    refused = [f"setup w1 f0 v1 b {it}\nsetdone w1 no\nfinish i{it + 32}" for it in range(4096 - 32)]
    return made + "\n".join(refused).split("\n") + ["setup w1 f0 v1 c 1", "attach f0 v1 c 1", "attach f0 v1 c x"]


def many_operations():
    """256 that weren't collected; then each beginning, a client's, below, at the base and at the top."""
    ready = BUILT + ["create v0 y always", "go w0 o1", "cleanup h1", "go w0 o2"]
    begun = [f"read h0 {it} 1" for it in range(255)] + ["flush h0", "flush h0", "write h0 0 00", "create v0 z new", "close h1"]
    ways = [way + it for it in requests() for way in WAYS]
    return ready + begun + ways + ["below i0 close h1", "atbase close h1", "go w0 o3", "atbase flush h0", "atbase flush h0"]


def many_handles():
    """4,096 at once, with those that creates under way will have."""
    opened = [f"create v0 f{it % 50} always\ngo w0 o{it}" for it in range(4094)]
    last = ["create v0 x new", "create v0 y existing", "create v0 z always", "go w0 o4095", "create v0 z always", "create v0 z always", "go w0 o4094"]
    return ["load f only-pre", "mount v", *"\n".join(opened).split("\n"), *last]


def many_contexts():
    """65,536 that aren't cleaned up, 16 at a time from routines; then one is, and one more may be."""
    one = ["enter w1 i0"] + ["alloc w1 instance -"] * 16 + ["left w1"]
    return BUILT[:3] + one * 4096 + ["enter w1 i0", "alloc w1 instance 00", "due w2", "cleaned w2", "alloc w1 volume 00", "alloc w1 volume 00", "leaks"]


def many_lines():
    """100,000 lines, empty ones and comments too; lines above 4,096 bytes."""
    long = ["x" * 4097, "#" + "x" * 4096, "#" + "x" * 4095, "load f" + " " * 4096, "mount " + "v" * 4090, "write h0 0 " + "00" * 2042, "write h0 0 " + "00" * 2043]
    return BUILT + long + ["", "# nothing", "leaks"] * 33300


def big_numbers():
    """Ends of files and lengths on both sides of their limits."""
    ends = [2**40 - 1, 2**40, 2**40 + 1, 2**64 - 1, 2**64]
    lines = [f"{way}{it}" for end in ends for way in WAYS for it in (f"read h0 {end} 0", f"read h0 {end} 1", f"setsize h0 {end}", f"setsize h0 0{end}")]
    lines += [f"write h0 {end} {body}" for end in ends for body in ("-", "00")]
    lines += [f"read h0 0 {length}" for length in (32767, 32768, 32769, 2**64 - 1)]
    return BUILT + lines + [f"go w0 o{it}" for it in range(1, 60)]


def long_listing():
    """A listing of more than 32,768 bytes, and one of as many."""
    names = [f"{it:03d}" + "n" * 252 for it in range(128)]
    made = [f"create v0 {name} new\ngo w0 o{2 * it}\nlist v0\ngo w0 o{2 * it + 1}" if it > 125 else f"create v0 {name} new\ngo w0 o{2 * it}\nflush h0\ngo w0 o{2 * it + 1}" for it, name in enumerate(names)]
    return ["mount v", *"\n".join(made).split("\n"), "create v0 more new", "go w0 o256", "list v0", "go w0 o257"]


def wrong_words():
    """Each form of each command, with one word after the other that can't be read, or names what isn't there."""
    right = {**SPELLED, "F": "f0", "I": "i0", "O": "o0", "C": "c0", "W": "w0", "S": "0", "HEX": "00", "NAME": "n", "ALTITUDE": "7", "PATH": "p"}
    wrong = {**{letter: letter.lower() + "99" for letter in "FVIHOC"}, "W": "w16", "NAME": "a b".replace(" ", "."), "ALTITUDE": "1.2.3", "PATH": "a//b"}
    lines = ["setup w1 f0 v0 s 3", "alloc w1 instance 00", "setdone w1 yes"]
    for command, forms in FORMS.items():
        for slots in (form.split() for form in forms):
            words = [right.get(slot, slot.split("|")[0]) for slot in slots]
            for place, slot in enumerate(slots):
                lines += [" ".join([command, *words[:place], other, *words[place + 1 :]]) for other in (wrong.get(slot, "?"), "?", "")]
            lines.append(" ".join([command, *(wrong.get(slot, word) for slot, word in zip(slots, words))]))
            lines += [" ".join([command, *words, "more"]), " ".join([command, *words[:-1]])]
    return BUILT + lines


def gone():
    """Each request on a handle in its cleanup and on a closed one, below a detached instance, and on a volume that is dismounted."""
    torn = ["query w0 i1", "queried w0 yes", "start w0 i1", "started w0", "complete w0 i1", "completed w0", "finish i1"]
    opened = ["create v0 x always", "go w0 o1", "create v0 x always", "go w0 o2", "cleanup h1", "go w0 o3", "cleanup h2", "go w0 o4", "close h2", "go w0 o5"]
    lines = [way + it.replace("h0", handle) for it in requests() for handle in ("h0", "h1", "h2") for way in ("below i1 ", "atbase i1 ", *WAYS)]
    late = [it for it in lines if not it.endswith("close h1")]
    dismounted = [f"go w0 o{it}" for it in range(6, 60)] + ["dismount v0", *lines]
    return BUILT + ["attach f0 v0 b 50", *torn, *opened, *(it for it in late if "h0" not in it), *dismounted]


def last_contexts():
    """A filter and a volume that can't end before their volume contexts are cleaned up."""
    made = ["enter w1 i0", "alloc w1 volume 00", "set w1 c0 keep", "alloc w1 volume 01", "left w1"]
    torn = ["start w0 i0", "started w0", "complete w0 i0", "completed w0", "finish i0", "emptyf f0", "finishf f0", "emptyv v0", "finishv v0"]
    ends = ["due w0", "due w1", "finishf f0", "finishv v0", "cleaned w0", "cleaned w1", "finishf f0", "finishv v0", "finishv v0"]
    return BUILT[:3] + made + ["unload w0 f0", "unloaded w0 yes", "dismount v0", *torn, *ends]


def changed():
    """What is held asks something else then: of its own kind and major, within the limits."""
    begun = ["plan i0 pend", "read h0 0 1", "go w0 o1", "setsize h0 1", "go w0 o2", "other h0 17 1", "go w0 o3", "enter w1 i0"]
    changes = [f"change_held w1 o{it} {change}" for it in (1, 2, 3, 0) for change in ("read 0 9", f"read {2**40} 1", "setsize 5", f"setsize {2**40 + 1}", "other 17 5", "other 5 17")]
    return BUILT + begun + changes + ["resume w1 o2 none", "go w0 o2", "resume w1 o1 none", "go w0 o1", "resume w1 o3 with", "go w0 o3"]


LIMITS = [wrong_words, gone, last_contexts, changed, many_loads, many_instances, many_operations, many_handles, many_contexts, many_lines, big_numbers, long_listing]
