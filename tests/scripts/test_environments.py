"""Tries tests/environments with a table of its own, with stand-ins for the Debians, for ./test in them, and for what needs root."""

from __future__ import annotations

import os
import re
import subprocess
import tempfile
import unittest
from pathlib import Path

from small_tree import TOP, put

TABLE = 'expected() { if [[ $1 == user ]]; then echo "one: it needs root"; else echo "one: not installed: two"; fi; }\n'
# It runs ./test, below the folder that follows the word 'enter'.
UNSHARE = """#!/usr/bin/env bash
while [[ $1 != */portal/test && $1 != /bin/true ]]; do
  [[ $1 != enter ]] || root=$2
  shift
done
[[ $1 == /bin/true ]] || exec "${root-}$1" "${@:2}"
"""
TEST = """#!/usr/bin/env bash
name=${0%/portal/test} name=${name%/srv} name=${name##*/}
echo "test in $name: $*" >>'TREE/ran'
source 'TREE/did/'$name
"""
MKROOT = """#!/usr/bin/env bash
mkdir -p "$1/dev"
echo "mkroot ${1##*/} ${*:2}" >>'TREE/ran'
"""
SKIPPED = "test: skipped: one: not installed: two"


class Environments(unittest.TestCase):
    """After a call there are `status`, `said`, its lines, and `ran`, the stand-ins that ran with their words."""

    def setUp(self) -> None:
        folder = tempfile.TemporaryDirectory(prefix="scripts-")
        self.addCleanup(folder.cleanup)
        self.room = Path(folder.name)
        self.tree, self.bin = self.room / "a tree", self.room / "bin"
        (self.tree / "did").mkdir(parents=True)
        tree, bases = str(self.tree), str(self.room / "bases")
        text, number = re.subn(r"(?ms)^expected\(\) \{\n.*?^\}\n", lambda _: TABLE, (TOP / "tests/environments").read_text())
        self.assertEqual(number, 1)
        put(self.tree / "tests/environments", text.replace("bases=/var/tmp", f"bases='{bases}'"))
        put(self.tree / "deb/test/mkroot", MKROOT.replace("TREE", tree))
        put(self.tree / "test", TEST.replace("TREE", tree))
        put(self.bin / "unshare", UNSHARE)
        put(self.bin / "chown", "#!/bin/sh\n")
        self.env = os.environ | {"PATH": f"{self.bin}:{os.environ['PATH']}"}
        self.says("bare", SKIPPED, "3 passed, 0 failed")
        self.says("python3", SKIPPED, "4 passed, 0 failed")
        self.says("user", "test: skipped: two: not installed: three", "test: skipped: one: it needs root", "5 passed, 0 failed")

    def does(self, name: str, *lines: str) -> None:
        (self.tree / "did" / name).write_text("\n".join(lines) + "\n")

    def says(self, name: str, *lines: str) -> None:
        self.does(name, *(f"echo '{it}'" for it in lines))

    def call(self, *words: str) -> None:
        ran = subprocess.run([self.tree / "tests/environments", *words], env=self.env, stdin=subprocess.DEVNULL, stdout=subprocess.PIPE,
                             stderr=subprocess.STDOUT, text=True)
        self.status, self.said, self.ran = ran.returncode, ran.stdout.splitlines(), (self.tree / "ran").read_text().splitlines()

    def assert_ended(self, status: int, last: str) -> None:
        self.assertEqual((self.status, self.said[-1]), (status, last), "\n".join(self.said))

    def assert_said(self, pattern: str) -> None:
        self.assertRegex("\n".join(self.said), f"(?m)^{pattern}$")

    def test_all_is_as_expected(self) -> None:
        self.call()
        self.assert_ended(0, "environments: 11 passed, 0 failed")
        self.assert_said(r"ok   bare: nothing fails  \[3 passed, 0 failed, .*")
        self.assert_said("ok   user: what is skipped is .*")
        for line in ("mkroot portal-test-bare --bare", "mkroot portal-test-python3 --bare python3", "test in bare: ",
                     "test in python3: ", "test in user: field", "test in user: slow"):
            self.assertIn(line, self.ran)

    def test_something_fails(self) -> None:
        self.says("python3", "this is wrong", SKIPPED, "4 passed, 1 failed")
        self.call()
        self.assert_ended(1, "environments: 10 passed, 1 failed")
        self.assert_said("FAIL python3: nothing fails .*")
        self.assert_said("python3: this is wrong")
        self.assert_said("ok   user: nothing .*")

    def test_a_status(self) -> None:
        self.does("python3", f"echo '{SKIPPED}'; echo '4 passed, 0 failed'; exit 1")
        self.call("python3")
        self.assert_ended(1, "environments: 3 passed, 1 failed")

    def test_no_counts(self) -> None:
        self.says("python3", SKIPPED)
        self.call("python3")
        self.assert_ended(1, "environments: 3 passed, 1 failed")
        self.assert_said("FAIL python3: nothing fails .*")
        self.assertNotIn("test in user: field", self.ran)

    def test_something_more_is_skipped(self) -> None:
        self.says("python3", SKIPPED, "test: skipped: a new test: not installed: four", "4 passed, 0 failed")
        self.call()
        self.assert_ended(1, "environments: 10 passed, 1 failed")
        self.assert_said("FAIL python3: what is skipped .*")
        self.assert_said(r"\+a new test: not installed: four")

    def test_the_checkout_is_changed(self) -> None:
        self.does("python3", "touch \"${0%/test}/new\"", f"echo '{SKIPPED}'", "echo '4 passed, 0 failed'")
        self.call("python3")
        self.assert_ended(1, "environments: 3 passed, 1 failed")
        self.assert_said("FAIL python3: the checkout is as it was .*")

    def test_it_takes_too_long(self) -> None:
        text = (self.tree / "tests/environments").read_text()
        self.assertIn(" most=75 ", text)
        put(self.tree / "tests/environments", text.replace(" most=75 ", " most=0 "))
        self.does("python3", "python3 -c 'import time\nwhile time.process_time() < 1: pass'", f"echo '{SKIPPED}'", "echo '4 passed, 0 failed'")
        self.call("python3")
        self.assert_ended(1, "environments: 3 passed, 1 failed")
        self.assert_said("FAIL python3: ./test takes at most 0 s of the processor .*")

    def test_the_debians_alone(self) -> None:
        self.call("--only-bases")
        self.assertEqual((self.status, self.ran), (0, ["mkroot portal-test-bare --bare", "mkroot portal-test-python3 --bare python3"]))


if __name__ == "__main__":
    unittest.main()
