"""What pytest's plugin of the kit's tests prints, over small files of tests."""

from __future__ import annotations

import os
import pathlib
import signal
import subprocess
import sys
import tempfile
import unittest

from needs import needs
from steady import wait_until

HERE = pathlib.Path(__file__).resolve().parent
OUTCOMES = '''
import pytest

pytestmark = pytest.mark.quick

@pytest.fixture
def broken():
    raise OSError("no room")

@pytest.fixture
def leaves():
    yield
    raise OSError("left behind")

def test_good():
    assert True

def test_bad():
    seen = 3
    assert seen == 2, f"two are there  [{seen} of 4]"
    assert False, "not looked at"

def test_fault():
    raise TimeoutError("waited in vain for a page\\nand more")

def test_broken(broken):
    pass

def test_leaves(leaves):
    pass

def test_bad_and_leaves(leaves):
    assert False, "the first failure"

def test_skipped():
    pytest.skip("it needs root")
'''
ALL_SKIPPED = '''
import pytest

pytestmark = [pytest.mark.quick, pytest.mark.skip(reason="not installed: nothing")]

def test_one():
    pass

def test_two():
    pass
'''
WAITS = '''
import pathlib, time, pytest

pytestmark = pytest.mark.quick

@pytest.fixture
def made():
    pathlib.Path("made").touch()
    yield
    pathlib.Path("made").rename("removed")

def test_waits(made):
    time.sleep(60)
'''
KEPT = '''
import contextlib, pytest

pytestmark = pytest.mark.quick
MADE = []

class One:
    def faults_in_logs(self, *words):
        return {"a.log": "Traceback"}

@contextlib.contextmanager
def make():
    MADE.append(len(MADE))
    yield One()
    print("closed")

@pytest.fixture
def one(request, lender):
    yield from lender.lend(request.node, "one", make)

@pytest.fixture
def other(request, lender):
    yield from lender.lend(request.node, "other", make)

def test_first(one):
    assert len(MADE) == 1

def test_second(one):
    assert len(MADE) == 1

def test_bad(one):
    assert False, "bad"

def test_anew(one):
    assert len(MADE) == 2

def test_other(other):
    assert len(MADE) == 3
'''
PRINTS = ("-p", "report", "-p", "lender", "-p", "no:cacheprovider", "-c", os.devnull, "-qq", "--no-header", "--capture=no", "--tb=no", "-rN")


@needs("python3-pytest", "python3-flask", "python3-babel", "python3-waitress", "python3-qrencode", "python3-pil", "python3-markdown-it")
class Lines(unittest.TestCase):
    def setUp(self) -> None:
        self.folder = pathlib.Path(self.enterContext(tempfile.TemporaryDirectory()))
        env = {**os.environ, "PYTHONPATH": str(HERE), "PYTEST_DISABLE_PLUGIN_AUTOLOAD": "1", "PYTHONDONTWRITEBYTECODE": "1"}
        self.more: dict[str, object] = {"cwd": self.folder, "env": env, "stdout": subprocess.PIPE, "text": True}

    def start(self, **files: str) -> subprocess.Popen[str]:
        for name, text in files.items():
            (self.folder / f"{name}.py").write_text(text)
        words = [sys.executable, "-m", "pytest", f"--rootdir={self.folder}", *PRINTS, *(f"{name}.py" for name in files)]
        return subprocess.Popen(words, **self.more)     # type: ignore[call-overload,no-any-return]

    def run_tests(self, **files: str) -> tuple[list[str], int]:
        """The lines, with no seconds and no empty ones, and the status."""
        job = self.start(**files)
        lines = [line.partition("  [0.")[0] for line in job.communicate(timeout=60)[0].splitlines()]
        return [line for line in lines if line], job.returncode

    def test_a_line_for_each_test_and_the_counts(self) -> None:
        lines, status = self.run_tests(test_a=OUTCOMES)
        self.assertEqual(lines, ["ok   test_a.py::test_good",
                                 "FAIL test_a.py::test_bad: two are there  [3 of 4]",
                                 "FAIL test_a.py::test_fault: TimeoutError: waited in vain for a page",
                                 "FAIL test_a.py::test_broken: OSError: no room",
                                 "FAIL test_a.py::test_leaves: OSError: left behind",
                                 "FAIL test_a.py::test_bad_and_leaves: the first failure",
                                 "passed over: test_a.py::test_skipped: it needs root", "1 passed, 5 failed"])
        self.assertEqual(status, 1)

    def test_a_file_that_is_skipped_is_one_line(self) -> None:
        lines, status = self.run_tests(test_b=ALL_SKIPPED)
        self.assertEqual((lines, status), (["passed over: test_b.py: not installed: nothing", "0 passed, 0 failed"], 0))

    def test_a_file_that_cannot_be_read_has_failed(self) -> None:
        lines, status = self.run_tests(test_c="import nothing_of_that_name\n")
        self.assertEqual((lines[0], lines[-1]), (
            "FAIL test_c.py: E   ModuleNotFoundError: No module named 'nothing_of_that_name'", "0 passed, 1 failed"))
        self.assertNotEqual(status, 0)

    def test_a_lab_stands_until_a_test_fails_or_another_one_is_wanted(self) -> None:
        lines, status = self.run_tests(test_e=KEPT)
        self.assertEqual(lines, ["ok   test_e.py::test_first", "ok   test_e.py::test_second", "FAIL test_e.py::test_bad: bad",
                                 "note a.log: Traceback", "closed", "ok   test_e.py::test_anew", "closed",
                                 "closed", "ok   test_e.py::test_other", "4 passed, 1 failed"])
        self.assertEqual(status, 1)

    def test_what_was_made_is_removed_where_the_run_is_ended(self) -> None:
        job = self.start(test_d=WAITS)
        self.assertTrue(wait_until((self.folder / "made").exists, 30))
        job.send_signal(signal.SIGTERM)
        output, _ = job.communicate(timeout=30)
        self.assertTrue((self.folder / "removed").exists(), output)
        self.assertNotEqual(job.returncode, 0)


if __name__ == "__main__":
    unittest.main()
