"""How the tests of the kit are run, over a small folder of tests."""

from __future__ import annotations

import os
import pathlib
import shutil
import subprocess
import sys
import tempfile
import unittest

from needs import NEEDS, needs

HERE = pathlib.Path(__file__).resolve().parent
GOOD = '''
import unittest

class One(unittest.TestCase):
    def test_a(self): pass
    @unittest.skip("not installed: nothing")
    def test_b(self): pass
'''
BAD = '''
import unittest

class One(unittest.TestCase):
    def test_a(self): self.fail("it is wrong")
'''
DIES = '''
import os, unittest

class One(unittest.TestCase):
    def test_a(self): os._exit(0)
'''


@needs(*NEEDS["quick"])
class Runs(unittest.TestCase):
    def run_file(self, text: str, test: str = "") -> tuple[int, list[str]]:
        """The status and what is printed of a file of tests, or of a test in it."""
        with tempfile.TemporaryDirectory() as folder:
            tests = pathlib.Path(folder) / "test"
            tests.mkdir()
            for name in ("suite.py", "needs.py"):
                shutil.copy(HERE / name, tests)
            (tests / "test_one.py").write_text(text)
            done = subprocess.run([sys.executable, str(tests / "suite.py"), "--unit", f"test_one{test}"], stdout=subprocess.PIPE, text=True,
                                  env={**os.environ, "PYTHONPATH": str(tests)})
        return done.returncode, done.stdout.splitlines()

    def test_what_passed_and_what_was_skipped(self) -> None:
        status, said = self.run_file(GOOD)
        self.assertEqual((status, said[-2:]), (0, ["passed over: test_one.One.test_b: not installed: nothing", "1 passed, 0 failed"]))

    def test_one_test(self) -> None:
        self.assertEqual(self.run_file(GOOD + BAD.replace("One", "Two"), "::One::test_a")[1][-1], "1 passed, 0 failed")

    def test_what_fails(self) -> None:
        status, said = self.run_file(BAD)
        self.assertEqual((status, said[-1]), (1, "0 passed, 1 failed"), said)
        self.assertIn("AssertionError: it is wrong", said)

    def test_a_process_that_ends_early_says_no_counts(self) -> None:
        self.assertEqual(self.run_file(DIES), (0, []))

    def test_nothing_is_named(self) -> None:
        done = subprocess.run([sys.executable, str(HERE / "suite.py")], stderr=subprocess.PIPE, text=True)
        self.assertEqual((done.returncode, "there is no NAME" in done.stderr), (2, True))


if __name__ == "__main__":
    unittest.main()
