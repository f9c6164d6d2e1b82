"""Tries tests/prove with a stand-in for rt and for what it runs, and ./test where there is no Python."""

from __future__ import annotations

import gzip
import os
import shutil
import subprocess
import tempfile
import unittest
from pathlib import Path

from small_tree import TOP, put

RT = """#!/usr/bin/env bash
[[ $1 != version ]] || { echo 'kit one' && exit; }
mkdir -p crates/portal/out crates/portal_tests_storage/out
echo 'the program' >crates/portal/out/portal
echo 'rt: portal proved'
[[ ! -f does ]] || source does
echo '4 passed, 0 failed'
"""
# What ran is written down with the program that it got; it fails where it says so.
PART = """#!/usr/bin/env bash
cd "$(dirname "$0")/../.."
echo "NAME ${1%/*}" >>ran
[[ ! -f does-NAME ]] || source does-NAME
echo 'NAME: 2 passed, 0 failed'
"""


class Small(unittest.TestCase):
    """After a call there are `status`, `said`, its lines, and `ran`, what ran."""

    def setUp(self) -> None:
        folder = tempfile.TemporaryDirectory(prefix="scripts-")
        self.addCleanup(folder.cleanup)
        self.room = Path(folder.name)
        self.tree, self.bin = self.room / "a tree", self.room / "bin"
        self.dist = self.tree / "dist/x86_64-linux"
        self.dist.mkdir(parents=True)
        for name in ("outside", "cases", "memory"):
            put(self.tree / f"tests/{name}/run", PART.replace("NAME", name))
        put(self.bin / "rt", RT)
        shutil.copy(TOP / "tests/prove", self.tree / "tests")
        self.put_shipped("the program\n")
        self.env = os.environ | {"PATH": f"{self.bin}:{os.environ['PATH']}", "TMPDIR": str(self.room)}

    def put_shipped(self, text: str, kit: str = "kit one") -> None:
        (self.dist / "portal.gz").write_bytes(gzip.compress(text.encode()))
        (self.dist / "portal.txt").write_text(f"sha256: any\nkit: {kit}\n")

    def does(self, name: str, text: str) -> None:
        (self.tree / name).write_text(f"{text}\n")

    def call(self, script: str, *words: str) -> None:
        (self.tree / "ran").write_text("")
        ran = subprocess.run([self.tree / script, *words], env=self.env, stdin=subprocess.DEVNULL, stdout=subprocess.PIPE,
                             stderr=subprocess.STDOUT, text=True)
        self.status, self.said, self.ran = ran.returncode, ran.stdout.splitlines(), (self.tree / "ran").read_text().splitlines()

    def assert_ended(self, status: int, last: str) -> None:
        self.assertEqual((self.status, self.said[-1]), (status, last), "\n".join(self.said))


class Prove(Small):
    def test_the_crates(self) -> None:
        self.call("tests/prove")
        self.assert_ended(0, "4 passed, 0 failed")
        self.assertIn("rt: portal proved", self.said)

    def test_they_are_not_proved(self) -> None:
        for text, last in (("echo '3 passed, 1 failed'; exit 1", "3 passed, 1 failed"), ("exit 2", "0 passed, 1 failed"),
                           ("echo '4 passed, 0 failed'; exit 1", "4 passed, 1 failed"), ("echo all is well; exit", "0 passed, 1 failed")):
            self.does("does", text)
            for words in ((), ("--program",), ("--adopting",)):
                self.call("tests/prove", *words)
                self.assert_ended(1, last)
                self.assertEqual(self.ran, [])

    def test_the_shipped_program_is_the_one_that_was_built(self) -> None:
        self.call("tests/prove", "--program")
        self.assert_ended(0, "5 passed, 0 failed")
        self.assertEqual(self.ran, [])
        self.put_shipped("another program\n")
        self.call("tests/prove", "--program")
        self.assert_ended(1, "4 passed, 1 failed")
        self.assertIn("they differ, though the same kit built them: run tools/ship", self.said)

    def test_another_kit_built_it(self) -> None:
        """Then both are tried from outside."""
        self.put_shipped("another program\n", "kit zero")
        self.call("tests/prove", "--program")
        self.assert_ended(0, "5 passed, 0 failed")
        self.assertEqual([it.split()[0] for it in self.ran], ["outside", "cases", "outside", "cases"])
        self.assertEqual([it.split()[1] == "crates/portal/out" for it in self.ran], [True, True, False, False])
        for name in ("outside", "cases"):
            self.does(f"does-{name}", "exit 1")
            self.call("tests/prove", "--program")
            self.assert_ended(1, "4 passed, 1 failed")

    @unittest.skipUnless(os.geteuid() == 0 and Path("/proc/self/autogroup").exists(), "root alone, and where Linux knows them")
    def test_they_take_more_of_the_processors(self) -> None:
        """In a session of their own; a shell's, where somebody types the command, stays as it is."""
        self.does("does", "cat /proc/self/autogroup >>ran")
        for is_own, last in ((True, "nice -5"), (False, "nice 0")):
            script = f"setsid -w bash -c '{'exec ' * is_own}tests/prove; true'"
            subprocess.run(["bash", "-c", script], cwd=self.tree, env=self.env, stdout=subprocess.DEVNULL, check=True)
            said = (self.tree / "ran").read_text().splitlines()[-1]
            self.assertTrue(said.endswith(last), said)

    def test_adopting(self) -> None:
        self.call("tests/prove", "--adopting")
        self.assert_ended(0, "5 passed, 0 failed")
        self.assertEqual(self.ran, ["memory --adopting"])
        self.does("does-memory", "echo 'FAIL a store'; exit 1")
        self.call("tests/prove", "--adopting")
        self.assert_ended(1, "4 passed, 1 failed")
        self.assertIn("FAIL a store", self.said)
        line = "passed over: memory, adopting: not installed: gcc"
        self.does("does-memory", f"echo '{line}'; echo '0 passed, 0 failed'; exit")
        self.call("tests/prove", "--adopting")
        self.assert_ended(0, "4 passed, 0 failed")
        self.assertEqual(self.said[-2], line)


class WithoutPython(Small):
    """./test runs what needs none."""

    def setUp(self) -> None:
        super().setUp()
        for file in Path("/usr/bin").iterdir():
            if not file.name.startswith("python") and not (self.bin / file.name).exists():
                (self.bin / file.name).symlink_to(file)
        # (it looks for Debian's own Python too)
        text = (TOP / "test").read_text()
        self.assertIn(" /usr/bin/python3 python3; do", text)
        put(self.tree / "test", text.replace(" /usr/bin/python3 python3; do", " python3; do"))
        for name in ("shipped", "openapi"):
            put(self.tree / "tests" / name, PART.replace("NAME", name).replace("/../..", "/.."))
        shutil.copy(TOP / "tests/usage.txt", self.tree / "tests")
        self.env["PATH"] = str(self.bin)

    def test_it_passes(self) -> None:
        for words in ((), ("first",)):
            self.call("test", *words)
            self.assert_ended(0, "6 passed, 0 failed")
            self.assertEqual([it.split()[0] for it in self.ran], ["openapi", "shipped", "outside"])
            self.assertTrue(self.said[-2].startswith("test: not run, as python3 is not on the path: cases, documents, "), self.said)
        self.assertEqual(list(self.tree.glob("out")), [])

    def test_something_fails(self) -> None:
        for name, text, last in (("openapi", "echo wrong; echo '1 passed, 1 failed'; exit 1", "5 passed, 1 failed"),
                                 ("openapi", "echo all is well; exit", "4 passed, 1 failed"), ("outside", "exit 1", "4 passed, 1 failed"),
                                 ("outside", "echo '2 passed, 0 failed'; exit 1", "6 passed, 1 failed"),
                                 ("shipped", "echo '1 passed, 1 failed'; exit 1", "3 passed, 1 failed")):
            self.does(f"does-{name}", text)
            self.call("test")
            self.assert_ended(1, last)
            self.assertEqual("outside" in "".join(self.ran), name != "shipped")
            (self.tree / f"does-{name}").unlink()

    def test_what_is_skipped(self) -> None:
        self.does("does-outside", "echo 'passed over: outside, some: not installed: python3'; echo '1 passed, 0 failed'; exit")
        self.call("test")
        self.assert_ended(0, "5 passed, 0 failed")
        self.assertIn("test: skipped: outside, some: not installed: python3", self.said)

    def test_words(self) -> None:
        self.call("test", "all")
        self.assert_ended(3, "test: python3, which all but ./test itself needs, is not on the path")
        self.call("test", "--help")
        self.assertEqual((self.status, self.said[0][:14]), (0, "usage: ./test "))

    def test_an_old_python(self) -> None:
        put(self.bin / "python3", "#!/bin/sh\n[ $1 = -c ] || echo it ran an old Python\n[ \"${2#*'3, 11'}\" = \"$2\" ]\n")
        self.call("test")
        self.assert_ended(0, "6 passed, 0 failed")
        self.assertTrue(self.said[-2].startswith("test: not run, as python3.11 is not"), self.said)


if __name__ == "__main__":
    unittest.main()
