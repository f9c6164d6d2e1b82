"""Tries tools/count on a small repository, of which each figure was counted by hand."""

from __future__ import annotations

import subprocess
import tempfile
import unittest
from pathlib import Path

from small_tree import TOP

# 111 characters; 110 characters in 216 bytes; 135 characters
LONG, AT_THE_LIMIT, LONG_USE = f"//! {'a' * 107}\n", f"//! {'ö' * 106}\n", f"ghost use Low.{'a' * 120};\n"
# 24 lines with these three. Clauses: 10 + 20 + 3 + 1 characters. Other code: 14, 1, 11, 17, 24, 24, 17, 13, 20, 1 and 1.
LIB = f"""{LONG}{AT_THE_LIMIT}{LONG_USE}ghost use Low.{{
    one, two
}};

/// ensures {{ a comment }}
fn one() -> u8
    ensures {{}}
    requires x {{ a {{ b }}
        + c
    }}
{{
    match two {{
        Err(r) => Err(r),
        Err(r) => return Err(r),
        Err(r) => Err(r).more(),
        Err(r) => Err(s),
        None => None,
        None => return None,
        // Err(r) => Err(r),
    }}
}}
"""
FILES = {
    "low/src/lib.rt": LIB,
    "low/src/below/more.rt": "requires_more();\n",      # 16 characters of other code
    "low/src/notes.txt": "one\n",
    "low/specs/Low.antt": "one\n\n",
    "low/specs/Private/More.antt": "one\n",
    "low/proofs/one/Answers.antt": "one\n-- two\n",
    "low/must-fail/one.edit": "file: src/lib.rt\n",
    "low/out/src/lib.rt": "built\n",
    "high/src/main.rt": "// nothing\n",
    "high/data/none.py": "1\n",
}
# beside the crates
SCRIPTS = {
    "field/portal_field/one.py": "1\n2\n",
    "field/test/run": "#!/bin/sh\n2\n3\n",
    "field/setup": "#!/usr/bin/python3 -P\n",
    "field/page.html": "#!none\n",
    "tools/out/built.py": "1\n",
    ".hidden/one.py": "1\n",
    "tools/part.bash": "1\n2\n",
    "test": "#!/usr/bin/env bash\n",
}
# Lines of 111 characters in a clause, a spec and a proof; in the last file one of 110 characters, and a text that stands alone.
LONG_LINES = {
    "long/src/lib.rt": f"// {'a' * 108}\nfn one()\n    ensures one {{\n        {'a' * 101} }}\n",
    "long/specs/One.antt": f"one\n{'ö' * 111}\n",
    "long/proofs/one/Answers.antt": f"{'a' * 111}\n",
    "long/proofs/Two.antt": f"{'ö' * 110}\ntwo =\n    codes\n    \"{'a' * 111}\\\"\"\n",
    "long/proofs/Three.antt": f"    codes \"{'a' * 100}\"\n",
    "long/out/specs/One.antt": f"{'a' * 111}\n",
}
LONG_WANTED = """\
crates/long/src/lib.rt:4: 111 characters, and not 110 at most
crates/long/specs/One.antt:2: 111 characters, and not 110 at most
crates/long/proofs/Three.antt:1: 112 characters, and not 110 at most
crates/long/proofs/one/Answers.antt:1: 111 characters, and not 110 at most
"""
WANTED = """\
| crate | src | specs | proofs | Err | None | long | clauses | code | ratio |
|---|---|---|---|---|---|---|---|---|---|
| high | 1 | 0 | 0 | 0 | 0 | 0 | 0 | 0 | - |
| low | 25 | 3 | 2 | 2 | 2 | 1 | 34 | 159 | 0.21 |
| all | 26 | 3 | 2 | 2 | 2 | 1 | 34 | 159 | 0.21 |

| folder | Python files | lines | bash files | lines |
|---|---|---|---|---|
| field/portal_field | 1 | 2 | 0 | 0 |
| field | 1 | 1 | 1 | 3 |
| tools | 0 | 0 | 1 | 2 |
| . | 0 | 0 | 1 | 1 |
| all | 2 | 3 | 3 | 6 |
"""


class Count(unittest.TestCase):
    def setUp(self) -> None:
        folder = tempfile.TemporaryDirectory(prefix="scripts-")
        self.addCleanup(folder.cleanup)
        self.folder, self.tree = Path(folder.name), Path(folder.name) / "tree"
        self.put({f"crates/{name}": text for name, text in FILES.items()} | SCRIPTS)

    def put(self, files: dict[str, str]) -> None:
        for name, text in files.items():
            file = self.tree / name
            file.parent.mkdir(parents=True, exist_ok=True)
            file.write_text(text, encoding="utf-8")

    def count(self, folder: Path, *words: str) -> tuple[int, str]:
        """The status, and what it prints, in a folder."""
        ran = subprocess.run([TOP / "tools/count", *words], cwd=folder, capture_output=True, text=True)
        return ran.returncode, ran.stdout

    def test_figures(self) -> None:
        self.assertEqual(self.count(Path("/"), str(self.tree)), (0, WANTED), "a folder that is named")
        self.assertEqual(self.count(self.tree), (0, WANTED), "the folder that it is called in")
        self.assertEqual(self.count(self.tree / "crates/low/src"), (0, WANTED), "a folder further down")

    def test_no_crates(self) -> None:
        self.assertEqual(self.count(self.tree, str(self.folder)), (2, ""))
        self.assertEqual(self.count(self.folder), (2, ""))
        self.assertEqual(self.count(self.tree, "--all"), (2, ""), "an unknown option")

    def test_long_lines(self) -> None:
        self.assertEqual(self.count(self.tree, "--long"), (0, ""))
        self.put({f"crates/{name}": text for name, text in LONG_LINES.items()})
        self.assertEqual(self.count(Path("/"), "--long", str(self.tree)), (1, LONG_WANTED))
