#!/usr/bin/env python3
"""What a server tells of a driver that touches memory which isn't its own: touches.py SERVER, which has the filter `touches`. With --guard it tells of each touch at its line, else of writes at the next
check. The last line is 'N passed, M failed'."""
import os
import re
import subprocess
import sys
import tempfile

TOP = os.path.dirname(os.path.dirname(os.path.dirname(os.path.dirname(os.path.abspath(__file__)))))
sys.path.insert(0, os.path.join(TOP, "clients"))
import kazdrin  # noqa: E402

WRITTEN_PAST, READ_FREED = "KZ0144", "KZ0150"
ROWS = {(): [WRITTEN_PAST], ("--guard",): [WRITTEN_PAST, READ_FREED], ("--cached", "--guard"): [WRITTEN_PAST, READ_FREED]}


def told(server, words):
    """The numbers of what it tells, and its exit status."""
    with tempfile.TemporaryDirectory() as place:
        path = os.path.join(place, "s")
        os.mkdir(os.path.join(place, "files"))
        process = subprocess.Popen([server, *words, os.path.join(place, "files"), path], stdout=subprocess.PIPE, stderr=subprocess.STDOUT, text=True)
        process.stdout.readline()
        with kazdrin.Client(path, 20) as client:
            client.attach(client.load("touches").information, 0, "t", "100")
            handle = client.create("f").information
            client.write(handle, 0, b"0123456789")
            client.read(handle, 0, 1)
            client.read(handle, 0, 2)
            client.stop()
        said, _ = process.communicate(timeout=20)
        return re.findall(r"^TOLD (KZ\d+)", said, re.M), process.returncode


def main(words):
    """The program: its exit status."""
    results = []
    for given, wanted in ROWS.items():
        got = told(words[1], given)
        results.append(got == (wanted, 5))
        if not results[-1]:
            print(f"serve: touches {' '.join(given)}: {got}, and not {(wanted, 5)}")
    print(f"serve: {sum(results)} passed, {len(results) - sum(results)} failed")
    return 0 if all(results) else 1


if __name__ == "__main__":
    sys.exit(main(sys.argv))
