#!/usr/bin/env python3
"""Tests of the mount: check.py --server FLTD --mount FLTMOUNT [PART ..]. Each part is a process with mounts of its own, and two go at once. The last line is 'N passed, M failed'."""
import argparse
import importlib
import multiprocessing
import shlex
import signal
import sys
import time
import traceback

from ground import Tally

PARTS = "client calls cases modes folders model deletions held ends safe programs".split()


def tried(part, tools):
    """One part: what passed, and what failed."""
    # Who runs this in the background may have interrupts ignored, and readers here are ended by one.
    signal.signal(signal.SIGINT, signal.default_int_handler)
    tally = Tally()
    begun = time.monotonic()
    try:
        importlib.import_module(part).run(tally, tools)
    except Exception as error:  # a part that breaks off has failed, and the others go on
        traceback.print_exc()
        tally.note(f"{part} broke off", error, None)
    print(f"mount: {part}: {time.monotonic() - begun:.0f} s", flush=True)
    return tally.passed, tally.failed


def main():
    """The program: its exit status."""
    parser = argparse.ArgumentParser(description=__doc__)
    parser.add_argument("--server", required=True)
    parser.add_argument("--mount", required=True, type=shlex.split)
    parser.add_argument("--count", type=int, default=900, help="random operations")
    parser.add_argument("--seed", type=int)
    parser.add_argument("--renames", choices=("copied", "closed", "all"), default="copied", help="what the server's frame renames: nothing, all but onto what is open, all")
    parser.add_argument("--wide", action="store_true", help="its paths have letters beyond ASCII, and up to 1,024 bytes")
    parser.add_argument("--kills", type=int, default=8, help="how often the mount and the server are killed in a safe write")
    parser.add_argument("parts", nargs="*")
    tools = parser.parse_args()
    with multiprocessing.Pool(2, maxtasksperchild=1) as pool:
        counts = pool.starmap(tried, [(part, tools) for part in tools.parts or PARTS], chunksize=1)
    failed = sum(count[1] for count in counts)
    print(f"mount: {sum(count[0] for count in counts)} passed, {failed} failed")
    return 1 if failed else 0


if __name__ == "__main__":
    sys.exit(main())
