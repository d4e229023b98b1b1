"""What crates.txt says, and tests/uses.txt of tests without a proof: which crate of this repository stands on which."""
import pathlib

TOP = pathlib.Path(__file__).resolve().parent.parent


def stands_on(*files):
    """Of each crate those of this repository that it names, in the order of crates.txt and of other such files."""
    named = {}
    for line in "\n".join((TOP / file).read_text(encoding="utf-8") for file in ("crates.txt", *files)).splitlines():
        name, colon, rest = line.partition("#")[0].partition(":")
        if colon:
            named[name.split()[0]] = rest.split()
    return {name: [it for it in rest if it in named] for name, rest in named.items()}


def above(crate):
    """A crate with those that stand on it, directly or not."""
    stands, found = stands_on("tests/uses.txt"), {crate}
    while True:
        more = {name for name, below in stands.items() if found & set(below)} - found
        if not more:
            return found
        found |= more


def below(crate):
    """A crate with those that it stands on, directly or not."""
    stands, found = stands_on("tests/uses.txt"), set()
    more = {crate}
    while more:
        found |= more
        more = {lower for name in more for lower in stands[name]} - found
    return found
