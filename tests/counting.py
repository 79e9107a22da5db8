"""The way in which every test of this folder ends: 'N passed, M failed', and an exit status that is 0 exactly when M is 0."""

import sys
import unittest


def report(passed, faults):
    """Prints the faults, each on a line, and the counts; gives the exit status."""
    for fault in faults:
        print(fault)
    print(f"{passed} passed, {len(faults)} failed")
    return 1 if faults else 0


def run_tests(name):
    """Runs the unit tests of a module that is loaded, prints the counts, and gives the exit status."""
    suite = unittest.defaultTestLoader.loadTestsFromModule(sys.modules[name])
    result = unittest.TextTestRunner(stream=sys.stdout).run(suite)
    faults = [f"failed: {test}" for test, _ in result.failures + result.errors]
    return report(result.testsRun - len(faults), faults)
