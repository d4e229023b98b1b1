"""Plays a script through a program and through the model, and cuts one at which they part to the shortest that still does."""
import re
import subprocess

from script import Script


class Played:
    """What a program printed for a script, read from the front."""

    def __init__(self, said):
        self.said, self.at = said, 0

    def next(self):
        """The line that it printed next, or none."""
        return self.said[self.at] if self.at < len(self.said) else None

    def choose(self, contexts):
        """Of several contexts that became due in one event any may come first: the one that the program took, if it is one of them."""
        return next((it for it in contexts if self.next() == f"cleanup c{it.number}"), contexts[0])


def play(program, lines, environment=None):
    """A run of the program over a script, that has ended."""
    return subprocess.run([program], input=b"".join(line + b"\n" for line in lines), capture_output=True, env=environment, check=False)


def lines_of(ended):
    """The lines that it printed."""
    return ended.stdout.decode("latin-1").split("\n")[:-1]


def run(program, lines):
    """The lines that the program prints, and its status."""
    ended = play(program, lines)
    return lines_of(ended), ended.returncode


def parts(lines, said, status=0):
    """Where the model and the program part: the line's place, what the model says, what the program said. None if they don't."""
    script, played = Script(), Played(said)
    script.world.choose = played.choose
    for place, line in enumerate(lines):
        answer = script.answer(line)
        got = said[played.at : played.at + len(answer)]
        if got != answer:
            return place, answer, got
        played.at += len(answer)
    if played.next() is not None or status != 0:
        return len(lines) - 1, ["the end, with status 0"], [played.next() or f"the end, with status {status}"]
    return None


def is_met(answers, said, status):
    """Whether the program said what the model had said already, when the script was made."""
    return status == 0 and [line for answer in answers for line in answer] == said


def without(lines, at):
    """The lines without one, the id of which goes to the next that is given."""
    script = Script()
    given = [script.answer(line) for line in lines[: at + 1]][-1]
    found = re.fullmatch(r"ok ([fviohc])(\d+)", given[0]) if given else None
    if not found:
        return lines[:at] + lines[at + 1 :]
    letter, number = found[1].encode(), int(found[2])

    def renumber(word):
        return letter + b"%d" % (int(word[1]) - (int(word[1]) > number))

    return lines[:at] + [re.sub(rb"\b" + letter + rb"(\d+)\b", renumber, line) for line in lines[at + 1 :]]


def shortest(lines, differs):
    """The lines without each piece that isn't needed, from halves down to single lines, for a difference to stay."""
    size = len(lines)
    while size > 0:
        at = len(lines) - size
        while at >= 0:
            fewer = without(lines, at) if size == 1 else lines[:at] + lines[at + size :]
            if fewer and differs(fewer):
                lines = fewer
            at -= size
        size //= 2
    return lines


def tell(name, program, lines):
    """Prints the shortest script at which the two part, with what each of them says at its end."""
    found = parts(lines, *run(program, lines))
    lines = shortest(lines[: found[0] + 1], lambda fewer: parts(fewer, *run(program, fewer)) is not None)
    place, answer, got = parts(lines, *run(program, lines))
    print(f"{name}: the model and the program part at the last line of:")
    for line in lines[: place + 1]:
        print("    " + line.decode("latin-1"))
    print(f"  the model:   {' | '.join(answer)}")
    print(f"  the program: {' | '.join(got)}")
