"""Runs the tests of hosts/python/tests, or those of the files that are named: checks.py [NAME...], as in checks.py waiting."""

import faulthandler
import sys
import unittest
from pathlib import Path

# A test that hangs is shown where it hangs, before those who wait for all of them lose patience.
LONGEST = 240


def collected(paths: list[Path]) -> unittest.TestSuite:
    """The tests of these files; a file without a test, or no file, is a mistake."""
    suite = unittest.TestSuite()
    for path in paths:
        tests = unittest.defaultTestLoader.loadTestsFromName(f"tests.{path.stem}")
        if tests.countTestCases() == 0:
            sys.exit(f"{path} has no tests")
        suite.addTests(tests)
    if suite.countTestCases() == 0:
        sys.exit("there are no tests to run in hosts/python/tests")
    return suite


def main(names: list[str]) -> None:
    folder = Path(__file__).resolve().parent / "tests"
    suite = collected([folder / f"test_{name}.py" for name in names] or sorted(folder.glob("test_*.py")))
    wanted = suite.countTestCases()
    faulthandler.dump_traceback_later(LONGEST, exit=True)
    result = unittest.TextTestRunner().run(suite)
    if not result.wasSuccessful() or result.skipped or result.testsRun != wanted:
        sys.exit(1)


if __name__ == "__main__":
    main(sys.argv[1:])
