"""Tries tests/cases/run with a stand-in for the program: a case that holds, cases with one value changed, a program that errs in one
field, and files that break the format."""

from __future__ import annotations

import os
import shutil
import subprocess
import tempfile
import unittest
from pathlib import Path

from small_tree import TOP, put

# It answers each request with the captive state, changed as the environment says; `check` prints ok.
PROGRAM = r"""#!/usr/bin/env python3
import os, sys
sys.stdin.buffer.read()
if sys.argv[1] == "check":
    print("ok")
    open("touched", "a").write("x")
    sys.exit(0)
text = '''HTTP/1.1 200 OK
Date: Mon, 02 Mar 2020 05:08:13 GMT
Content-Type: application/captive+json
Content-Length: 64
Cache-Control: no-store
Connection: close

{"captive":true,"user-portal-url":"https://wifi.example/portal"}'''
old, _, new = os.environ.get("CHANGE", "").partition("=>")
sys.stdout.write(text.replace(old, new, 1).replace("\n", "\r\n") if old else text.replace("\n", "\r\n"))
sys.exit(int(os.environ.get("CODE", "0")))
"""

GOOD = """What the stand-in does.

no plans

# A remark.
at 1583125693 guest 1 GET /captive
-> 200 {"captive":true,"user-portal-url":"https://wifi.example/portal"}

$ portal check --db portal.db
-> exit 0
    ok

sql
    CREATE TABLE t (a INTEGER, b TEXT);
    INSERT INTO t VALUES (1, NULL), (2, 'x');

sql SELECT a, b FROM t ORDER BY a
->
    1|null
    2|x

sql SELECT a FROM t WHERE a = 3
-> no rows
"""

# What is changed in the case, and what is then printed, the number of the line included.
CHANGES = [
    ('{"captive":true,', '{"captive":false,', ["good.txt:6", '-{"captive":false,"user', '+{"captive":true,"user']),
    ("/captive\n", "/captivity\n", ["good.txt:6", "-Content-Type: application/json", "guest 1 GET /captivity"]),
    ("-> 200 {", "-> 404 {", ["good.txt:6", "-HTTP/1.1 404 Not Found", "+HTTP/1.1 200 OK"]),
    ("at 1583125693", "at 1583125694", ["good.txt:6", "-Date: Mon, 02 Mar 2020 05:08:14 GMT"]),
    ("-> exit 0", "-> exit 1", ["good.txt:9", "-exit 1", "+exit 0"]),
    ("    ok", "    differs", ["good.txt:9", "-differs", "+ok"]),
    ("    ok", "    ok\n! portal: file", ["good.txt:9", "-! portal: file"]),
    ("2|x", "2|y", ["good.txt:17", "-2|y", "+2|x"]),
    ("a = 3", "a = 2", ["good.txt:22", "+2"]),
    ("    ok", "    ok\n= touched", ["good.txt:9", "+touched has changed"]),
    ("    ok", "    ... okay", ["good.txt:9", "-... okay", "+ok"]),
    ("    ok", "    ... ok\n    ok", ["good.txt:9", "-... ok", " ok"]),
    ("    ok", "    ok\n! ...", ["good.txt:9", "-! ..."]),
]

# What else may be written in the place of the output.
COVERED = ["    ...", "    ... o", "    ... ok\n    ... k", "    ok\n= portal.db"]

# What the program gets wrong.
ERRORS = [
    ("no-store=>no-cache", "0", "+Cache-Control: no-cache"),
    ("Connection: close=>Connection: close\nServer: x", "0", "+Server: x"),
    ("Content-Length: 64=>Content-Length: 65", "0", "+Content-Length: 65"),
    ("captive+json=>json", "0", "+Content-Type: application/json"),
    ("05:08:13=>05:08:14", "0", "+Date: Mon, 02 Mar 2020 05:08:14 GMT"),
    ("", "1", "+exit 1"),
]

# Files that break the format, the line and a part of what is said.
BAD = [
    ("at 0 desk GET /\n-> 200 x\n", 1, "a sentence"),
    ("A case.\n\n", 3, "no step"),
    ("A case.\n\nat 0 somebody GET /\n-> 200 x\n", 3, "no request"),
    ("A case.\n\nat 0 desk GET /\n", 3, "what is expected is missing"),
    ("A case.\n\nat 0 desk GET /\n-> 2000\n", 3, "a response is expected"),
    ("A case.\n\n    x\n", 3, "none above it"),
    ("A case.\n\n-> 200 x\n", 3, "none above it"),
    ("A case.\n\n$ portal check\n", 3, "what is expected is missing"),
    ("A case.\n\nat 0 desk GET /\n-> 200 x\n= portal.db\n", 3, "belong to a subcommand"),
    ("A case.\n\nserve\nsell\n", 4, "no step begins so: sell"),
    ("A case.\n\nat 0 send\n    \\q\n-> 200 x\n", 3, "no escape: \\q"),
    ("A case.\n\nat 0 seed 0 desk GET /\n-> 200 x\n", 3, "a seed is"),
    ("A case.\n\n$ portal check\n-> 0\n", 3, "a subcommand is"),
    ("A case.\n\nserve\nserve\n", 4, "runs already"),
    ("A case.\n\nserve\nstop\nstop\n", 5, "no server runs"),
    ("A case.\n\ndesk GET /\n-> 200 x\n", 3, "and none runs"),
    ("A case.\n\nserve\n-> 200 x\n", 3, "nothing comes of this step"),
    ("A case.\n\nserve\nno plans\n", 4, "before the first step"),
    ("A case.\n\nsql SELECT 1\n->\n", 3, "rows are expected"),
    ("A case.\n\nat 0 desk POST / x\n    y\n-> 200 x\n", 3, "not both"),
]


PASSES, FAILS = "cases: 1 passed, 0 failed\n", "cases: 0 passed, 1 failed\n"


class Cases(unittest.TestCase):
    """A folder with the runner, the stand-in and one case."""

    def setUp(self) -> None:
        folder = tempfile.TemporaryDirectory(prefix="scripts-")
        self.addCleanup(folder.cleanup)
        self.folder = Path(folder.name)
        for name in ("run", "reader.py", "runner.py"):
            shutil.copy(TOP / "tests/cases" / name, self.folder / name)
        self.program = put(self.folder / "program", PROGRAM)

    def expect(self, what: str, text: str, code: int, parts: list[str], *words: str, **changes: str) -> None:
        (self.folder / "good.txt").write_text(text, encoding="utf-8")
        call = [str(self.folder / "run"), str(self.program), *words]
        ran = subprocess.run(call, capture_output=True, text=True, env=os.environ | changes)
        said = ran.stdout + ran.stderr
        with self.subTest(what):
            self.assertEqual((ran.returncode, [it for it in parts if it not in said]), (code, []), said)

    def test_a_case_that_holds(self) -> None:
        self.expect("a case that holds", GOOD, 0, [PASSES])
        for lines in COVERED:
            self.expect(f"the output {lines!r}", GOOD.replace("    ok", lines), 0, [PASSES])

    def test_only(self) -> None:
        self.expect("--only", GOOD, 0, [PASSES], "--only", "good")
        self.expect("--only of no case", GOOD, 2, ["no case: bad"], "--only", "bad")

    def test_changes(self) -> None:
        for old, new, parts in CHANGES:
            self.expect(f"{old} changed to {new}", GOOD.replace(old, new, 1), 1, [*parts, FAILS])

    def test_errors_of_the_program(self) -> None:
        for change, code, part in ERRORS:
            self.expect(f"{change} and {code}", GOOD, 1, ["good.txt:6", part, FAILS], CHANGE=change, CODE=code)

    def test_bad_files(self) -> None:
        for text, line, part in BAD:
            self.expect(f"the file {text!r}", text, 1, [f"good.txt:{line}\n", part, FAILS])
