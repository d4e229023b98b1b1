"""The tests of the client that these tests stand on: clients/test_kazdrin.py."""
import os
import sys
import unittest

from ground import TOP


def run(tally, tools):
    """Each test counts as one check."""
    os.environ["FLTD"] = tools.server
    sys.path.insert(0, os.path.join(TOP, "clients"))
    import test_kazdrin

    result = unittest.TextTestRunner(stream=open(os.devnull, "w")).run(unittest.defaultTestLoader.loadTestsFromModule(test_kazdrin))
    bad = result.failures + result.errors
    for test, words in bad:
        print(f"{test}: {words}")
    tally.passed += result.testsRun - len(bad) - len(result.skipped)
    tally.failed += len(bad) + len(result.skipped)
