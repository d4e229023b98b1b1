"""Creates and closes that a driver holds: programs can be killed meanwhile, hold nobody, and leave nothing behind. The server has the driver `late` (c/tests/serve/drivers).

The kernel has no other look into a folder while a create or a deletion in it is under way: only files that are open go on."""
import os
import signal
import subprocess
import sys
import time

from ground import Ground, put, until, whole

SOON = 20
# Each name has more programs that are killed while its create is held than the mount has connections, and both together more than the server has.
KILLS = (signal.SIGKILL, signal.SIGINT, signal.SIGTERM) * 6
OTHERS = 20


def program(words):
    """A program in Python of those words."""
    return subprocess.Popen([sys.executable, "-c", f"import os; {words}"], stdout=subprocess.PIPE, stderr=subprocess.PIPE)


def wait(tally, what, process):
    """It is held."""
    time.sleep(0.4)
    tally.note(f"{what} is held", process.poll(), None)


def ended(process):
    """Whether it ends soon, and how."""
    is_over = until(lambda: process.poll() is not None, SOON)
    process.stdout.close()
    process.stderr.close()
    return is_over, process.returncode


def free(tally, ground, what, condition):
    """Flushes let all go, one after the other, until it is so."""
    tally.note(what, until(lambda: ground.flush("x") == 0 and condition()), True)


def creates(tally, ground, file):
    """A create is held: its program is let go, or killed."""
    path = ground.at("late")
    maker = program(f"os.open({path!r}, os.O_CREAT | os.O_RDWR)")
    wait(tally, "a create", maker)
    tally.call("what is open goes on", b"hello", os.pread, file, 9, 0)
    free(tally, ground, "it goes on", lambda: maker.poll() is not None)
    tally.note("and ends well", ended(maker), (True, 0))
    for signal_number in KILLS:
        kill(tally, path, signal_number)
    beside(tally, ground, file, "one name")
    for number in range(OTHERS):
        kill(tally, f"{path}{number}", signal.SIGKILL)
    beside(tally, ground, file, "many names")
    tally.note("a list beside those that are left", sorted(os.listdir(ground.mount)), ["late", "x", "y"])


def kill(tally, path, signal_number):
    """A program is ended by a signal while its create is held."""
    maker = program(f"print(flush=True); os.open({path!r}, os.O_CREAT | os.O_RDWR)")
    maker.stdout.readline()
    time.sleep(0.2)
    maker.send_signal(signal_number)
    tally.note(f"one is ended by {signal_number}", ended(maker)[0], True)


def soon(tally, what, function, *words):
    """A call by a program of its own comes back soon, and well."""
    child = os.fork()
    if child == 0:
        try:
            function(*words)
            os._exit(0)
        finally:
            os._exit(1)
    done = []
    is_over = until(lambda: done.append(os.waitpid(child, os.WNOHANG)) or done[-1][0] != 0, SOON)
    if not is_over:
        os.kill(child, signal.SIGKILL)
        os.waitpid(child, 0)
    tally.note(what, (is_over, done[-1][1]), (True, 0))


def beside(tally, ground, file, when):
    """All others go on."""
    soon(tally, f"a read of what is open beside {when}", os.pread, file, 9, 0)
    soon(tally, f"a look beside {when}", os.stat, ground.at("x"))
    soon(tally, f"a read of what is opened beside {when}", whole, ground.at("x"))
    soon(tally, f"a new file beside {when}", put, ground.at("y"), b"new")
    soon(tally, f"a list beside {when}", os.listdir, ground.mount)
    tally.call(f"what the new file has beside {when}", b"new", whole, ground.below("y"))


def deletion(tally, ground, file):
    """A deletion is held, and killed: the file goes all the same."""
    path = ground.at("late")
    remover = program(f"os.unlink({path!r})")
    wait(tally, "a deletion", remover)
    remover.kill()
    tally.note("its program ends", ended(remover)[0], True)
    tally.call("what is open goes on", b"hello", os.pread, file, 9, 0)
    remover = program(f"os.unlink({path!r})")
    free(tally, ground, "a deletion goes on", lambda: remover.poll() is not None)
    remover.stdout.close()
    remover.stderr.close()
    free(tally, ground, "it is gone", lambda: not os.path.exists(ground.below("late")))


def closes(tally, tools):
    """More closes are held than there are homes."""
    with Ground(tally, tools, patience=200) as ground:
        put(ground.at("x"), b"hello")
        file = os.open(ground.at("x"), os.O_RDWR)
        files = [os.open(ground.at(f"late{number}"), os.O_CREAT | os.O_RDWR) for number in range(OTHERS)]
        instance = ground.attach(late=100)["late"]
        for each in files:
            os.close(each)
        time.sleep(1)
        beside(tally, ground, file, "held closes")
        os.close(file)
        tally.note("a detach lets them go", until(lambda: ground.ask("detach", instance)[0] == 0), True)


def run(tally, tools):
    """Closes, then creates, and then deletions."""
    closes(tally, tools)
    with Ground(tally, tools, patience=600) as ground:
        put(ground.at("x"), b"hello")
        ground.attach(late=100)
        file = os.open(ground.at("x"), os.O_RDWR)
        creates(tally, ground, file)
        deletion(tally, ground, file)
        os.close(file)
        free(tally, ground, "the last ones go on", lambda: True)
        time.sleep(0.5)
        free(tally, ground, "and their closes", lambda: True)
