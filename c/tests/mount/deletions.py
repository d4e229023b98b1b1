"""Deletions of a name, while others look at it: none may be lost, and no old bytes come back."""
import errno
import os
import threading
import time

from ground import Ground, until

COUNT = 1000
SECONDS = 15
LOOKERS = 3
CREATE = os.O_RDWR | os.O_CREAT | os.O_EXCL


def look(path, over, seen):
    """Looks at the name, and opens it, until it is over."""
    while not over.is_set():
        try:
            os.stat(path)
            os.close(os.open(path, os.O_RDONLY))
            seen.append(1)
        except OSError:
            pass


def delete(path, number):
    """Makes the file, writes it, and deletes it while it is open: the errno of what failed, or 0."""
    try:
        file = os.open(path, CREATE)
    except OSError as error:
        return error.errno
    try:
        os.write(file, b"%d" % number)
        os.unlink(path)
    except OSError as error:
        return error.errno
    finally:
        os.close(file)
    return 0


def run(tally, tools):
    """Many deletions beside three who look: as many as come about in that time."""
    with Ground(tally, tools) as ground:
        path = ground.at("victim")
        over = threading.Event()
        seen = []
        lookers = [threading.Thread(target=look, args=(path, over, seen)) for _ in range(LOOKERS)]
        for looker in lookers:
            looker.start()
        end = time.monotonic() + SECONDS
        outcomes = [delete(path, number) for number in range(COUNT) if time.monotonic() < end]
        over.set()
        for looker in lookers:
            looker.join()
        bad = {errno.errorcode[outcome]: outcomes.count(outcome) for outcome in set(outcomes) if outcome}
        tally.note("deletions that failed or came back", bad, {})
        tally.note("nothing is left at the end", until(lambda: (os.listdir(ground.mount), os.listdir(ground.host)) == ([], [])), True)
