"""Runs the tests of the companion tools and ends with a line that counts them: `python3 -m tests` in the folder tools."""

import sys
import unittest
from pathlib import Path


def main():
    here = Path(__file__).resolve().parent
    tests = unittest.defaultTestLoader.discover(str(here), top_level_dir=str(here.parent))
    result = unittest.TextTestRunner(stream=sys.stdout).run(tests)
    faults = [test for test, _ in [*result.failures, *result.errors]] + result.unexpectedSuccesses
    failed = len({getattr(test, "test_case", test).id() for test in faults})
    skipped = len(result.skipped)
    for reason in sorted({reason for _, reason in result.skipped}):
        print(f"skipped: {reason}")
    counts = f"tools: {result.testsRun - failed - skipped} passed, {failed} failed"
    print(counts + (f", {skipped} skipped" if skipped else ""))
    return 0 if result.wasSuccessful() else 1


if __name__ == "__main__":
    sys.exit(main())
