"""Tests of the kit: a file or a test of it by unittest, or by pytest. The last line is 'N passed, M failed'.

    suite.py [--portal "CMD .."] --unit TESTS
    suite.py [--portal "CMD .."] NAME ..
    suite.py --lacks KIND

TESTS is a file of test/ that needs no root, or a test in it: test_front, browser_test::Shown::test_a_day. Of
pytest a NAME is a file below the kit's folder, or a test in it: test/e2e.py, test/e2e.py::test_captured. With
--seed N e2e_fuzz.py sends other requests. --lacks says why tests of a kind of needs.py cannot run here, and
nothing where they can. ./test runs all of them.
"""

from __future__ import annotations

import argparse
import os
import pathlib
import sys
import unittest
from collections.abc import Sequence

from needs import NEEDS, lacks

FIELD = pathlib.Path(__file__).resolve().parent.parent
SKIPPED = "passed over: "


class Result(unittest.TextTestResult):
    good = 0

    def addSuccess(self, test: unittest.TestCase) -> None:
        super().addSuccess(test)
        self.good += 1


def name_of(test: unittest.TestCase) -> str:
    """That of the class where all of it is passed over."""
    return test.id().rpartition(".")[0] if hasattr(type(test), "__unittest_skip__") else test.id()


def pass_over(what: str, why: str) -> int:
    print(f"{SKIPPED}{what}: {why}\n0 passed, 0 failed")
    return 0


def run_by_pytest(names: Sequence[str], portal: str, more: Sequence[str]) -> int:
    """In this process's place, in the kit's folder, where pytest finds its settings and conftest.py."""
    if why := lacks("python3-pytest"):
        return pass_over(" ".join(names), why)
    os.environ |= {"PYTEST_DISABLE_PLUGIN_AUTOLOAD": "1", "PYTHONDONTWRITEBYTECODE": "1"}
    os.chdir(FIELD)
    os.execv(sys.executable, [
        sys.executable, "-m", "pytest", "-qq", "--no-header", "--capture=no", "--durations=10",
        "--durations-min=1", f"--portal={portal}", *more, *names])


def main() -> int:
    words = argparse.ArgumentParser(description="Tests of the field kit.")
    words.add_argument("--portal", default="", help="the program, as a command line; else the stand-in")
    words.add_argument("names", nargs="*", metavar="NAME",
                       help="a file below the kit's folder, or a test in it")
    words.add_argument("--lacks", choices=NEEDS, help="say why tests of this kind cannot run here")
    words.add_argument("--unit", metavar="TESTS", help="a file of test/ or a test of it, by unittest")
    args, more = words.parse_known_args()
    if args.lacks:
        print(lacks(*NEEDS[args.lacks]))
        return 0
    if args.portal:
        os.environ["FIELD_PORTAL"] = args.portal
    else:
        os.environ.pop("FIELD_PORTAL", None)
    if args.unit:
        return run_unit(args.unit.replace("::", "."))
    return run_by_pytest(args.names, args.portal, more) if args.names else words.error("there is no NAME")


def run_unit(what: str) -> int:
    """Runs the tests of a file, or one of them, by unittest."""
    if why := lacks(*NEEDS["quick"]):
        return pass_over(what, why)
    sys.dont_write_bytecode = True
    tests = unittest.TestLoader().loadTestsFromName(what)
    quiet = unittest.TextTestRunner(sys.stdout, verbosity=0, resultclass=Result, buffer=True)
    result = quiet.run(tests)
    skipped = dict.fromkeys(f"{SKIPPED}{name_of(test)}: {why}" for test, why in result.skipped)
    bad = len(result.failures) + len(result.errors)
    print(*skipped, f"{result.good if isinstance(result, Result) else 0} passed, {bad} failed", sep="\n")
    return int(bad > 0)


if __name__ == "__main__":
    sys.exit(main())
