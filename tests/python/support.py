"""What the tests of the package share: the sample sheet, an old one, and how they are run and told."""

import os
import re
import sys
import unittest
from pathlib import Path

TREE = Path(__file__).resolve().parent.parent.parent
SAMPLE = bytes(int(byte, 16) for byte in re.findall(r"0x(..)", (TREE / "hosts/sample_sheet.inc").read_text()))
OLD = b"\1" + SAMPLE[1:]


def run_tests(what):
    """Runs the tests of the file that calls it; a fault is shown, and a line tells how many there were. With FIRST in the environment
    the first fault is enough."""
    tests = unittest.defaultTestLoader.loadTestsFromModule(sys.modules["__main__"])
    result = unittest.TextTestRunner(verbosity=0, stream=open(os.devnull, "w"), failfast="FIRST" in os.environ).run(tests)
    for _, text in (result.errors + result.failures)[:10]:
        print(f"python: {what}: {text}")
    faults = len(result.errors) + len(result.failures)
    print(f"python: {what}: {result.testsRun} tests, {faults} faults")
    sys.exit(faults > 0 or result.testsRun == 0)
