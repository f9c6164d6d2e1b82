"""A small repository to try ./portal, tools/build, tools/ship and tests/shipped on, with a stand-in for rt and for the program."""

from __future__ import annotations

import gzip
import hashlib
import os
import shutil
import subprocess
import tempfile
import time
import unittest
from pathlib import Path

TOP = Path(__file__).resolve().parent.parent.parent
SMALL = ["# lowest first", "base:", "aside: base", "middle: base std", "portal: middle, clap"]
WIDE = ["low:", "left: low", "right: low", "one: sqlite", "two: sqlite low", "three: sqlite", "four: sqlite", "high: left right one",
        "portal: high two three four sqlite"]

# It writes each build to calls, with its start, its end and its jobs to spans, each question for the kit to versions, what was left on
# standard input to eaten, and to wrong what the real one would lose time by: another one in the same folder, and a library below that is
# not there. `during` is run in the repository, `refuses` names a crate that fails, `slow` says how long the others take, `waits` for which
# lines of spans each waits.
RT = r"""#!/usr/bin/env bash
[[ $1 != version ]] || { echo asked >>"$FAKE/versions"; cat "$FAKE/kit"; exit; }
name=${PWD##*/}
echo "$1 $name" >>"$FAKE/calls"
[[ $* =~ --jobs\ ([0-9]+) ]]
jobs=${BASH_REMATCH[1]-}
echo "start $name $jobs" >>"$FAKE/spans"
cat >>"$FAKE/eaten"
exec {lock}<../..
flock -n "$lock" || echo "$name: another one in $PWD" >>"$FAKE/wrong"
for lower in $(sed -n "s/^$name://p" ../../crates.txt); do
  [[ ! -d ../$lower || -e ../$lower/out/rlib/lib ]] || echo "$name: no $lower" >>"$FAKE/wrong"
done
[[ ! -f $FAKE/during ]] || (cd ../.. && bash "$FAKE/during")
echo "rt says this of $name"
[[ ! -f $FAKE/refuses || $(<"$FAKE/refuses") != "$name" ]] || exit 1
[[ ! -f $FAKE/slow ]] || sleep "$(<"$FAKE/slow")"
[[ ! -e out/incremental/own ]] || echo "kept $(<out/incremental/own)" >>"$FAKE/spans"
mkdir -p out/rlib out/incremental
touch out/incremental/work out/rlib/lib
[[ $1 != run ]] || {
  { echo '#!/usr/bin/env bash'; echo "echo '$(cat src/main.rt)'" '"$@"'; echo 'cat'; echo 'exit 7'; } >out/portal
  chmod +x out/portal
}
echo "end $name $jobs" >>"$FAKE/spans"
"""

PROGRAM = """#!/usr/bin/env bash
echo ran >>"$FAKE/ran"
[[ $* != --version ]] || { echo 'portal 1.0.0 (database schema version 4)'; exit; }
echo 'SAYS' "$@"
cat
exit 5
"""
# What the scripts need without a build, and nothing else: neither rt nor Python.
NEEDED = "bash basename cat chmod cmp cp cut dirname env find flock getconf gzip mkdir mktemp mv readlink rm sha256sum sleep tail uname"


def put(path: Path, text: str) -> Path:
    """A script."""
    path.parent.mkdir(parents=True, exist_ok=True)
    path.write_text(text, encoding="utf-8")
    path.chmod(0o755)
    return path


def sha256(path: Path) -> str:
    return hashlib.sha256(path.read_bytes()).hexdigest()


class SmallTree(unittest.TestCase):
    """A test has `tree`, the repository, `fake`, what the stand-ins read and write, `bin`, commands alone that need no prover, and after a
    call `status`, `output` and `errors`."""

    lines = SMALL

    def setUp(self) -> None:
        folder = tempfile.TemporaryDirectory(prefix="scripts-")
        self.addCleanup(folder.cleanup)
        self.room = Path(folder.name)
        self.tree, self.fake, self.bin, self.cache = (self.room / it for it in ("a tree", "fake", "bin", "cache"))
        self.temporary = self.room / "tmp"
        for it in (self.temporary, self.bin):
            it.mkdir()
        put(self.fake / "rt", RT)
        (self.fake / "kit").write_text("kit one\n")
        for name in NEEDED.split():
            os.symlink(shutil.which(name) or name, self.bin / name)
        self.env = {it: text for it, text in os.environ.items() if it not in ("PORTAL_KEEP", "PORTAL_JOBS", "PORTAL")}
        self.env |= {"FAKE": str(self.fake), "TMPDIR": str(self.temporary), "XDG_CACHE_HOME": str(self.cache)}
        self.path = f"{self.fake}:{os.environ['PATH']}"
        self.make_tree()

    def make_tree(self) -> None:
        self.tree.mkdir()
        shutil.copy(TOP / "portal", self.tree)
        shutil.copytree(TOP / "tools", self.tree / "tools", ignore=shutil.ignore_patterns("__pycache__"))
        (self.tree / "tests").mkdir()
        shutil.copy(TOP / "tests/shipped", self.tree / "tests")
        (self.tree / "VERSION").write_text("1.0.0\n")
        (self.tree / "crates.txt").write_text("".join(f"{it}\n" for it in self.lines))
        for line in self.lines:
            name = line.partition(":")[0]
            if not name.startswith("#"):
                crate = self.tree / "crates" / name
                for file in ("specs/Lib.antt", "proofs/a/b/Answers.antt", "must-fail/one.edit", "src/lib.rt"):
                    (crate / file).parent.mkdir(parents=True)
                    (crate / file).write_text(f"text of {name}\n")
        self.write("crates/portal/src/main.rt", "the program\n")

    def write(self, name: str, text: str) -> None:
        """Puts a file, or more of it, into the repository."""
        with (self.tree / name).open("a") as file:
            file.write(text)

    def call(self, *words: str, script: str = "portal", path: str = "", cwd: str = "/", **env: str) -> None:
        """Runs a script of the repository on the input 'request'."""
        env = self.env | {"PATH": path or self.path} | env
        ran = subprocess.run(
            [str(self.tree / script), *words], cwd=cwd, env=env, input="request", capture_output=True, text=True
        )
        self.status, self.output, self.errors = ran.returncode, ran.stdout, ran.stderr

    def said(self, name: str) -> list[str]:
        """What the stand-ins have written down, and forgets it."""
        file = self.fake / name
        text = file.read_text() if file.exists() else ""
        file.unlink(missing_ok=True)
        return text.splitlines()

    def wait_for(self, name: str) -> None:
        """Until a stand-in has written this down, but not for ever."""
        for _ in range(600):
            if (self.fake / name).exists() and (self.fake / name).read_text():
                return
            time.sleep(0.05)
        self.fail(f"nothing was written to {name}")

    def builds(self) -> int:
        """How often the program was built since the last time that this was asked."""
        return self.said("calls").count("run portal")

    def names(self, pattern: str, folder: Path | None = None) -> list[str]:
        folder = folder or self.tree
        return sorted(str(it.relative_to(folder)) for it in folder.glob(pattern))

    def sum_of_tree(self) -> str:
        from portal_runner import crates

        return crates.sum_of_sources(self.tree)

    def make_shipped(self, says: str = "the shipped program") -> None:
        """Puts a stand-in for the shipped program into dist/, built from the repository's sources as they are."""
        dist = self.tree / "dist/x86_64-linux"
        dist.mkdir(parents=True, exist_ok=True)
        self.shipped = put(self.room / "shipped", PROGRAM.replace("SAYS", says))
        (dist / "portal.gz").write_bytes(gzip.compress(self.shipped.read_bytes(), mtime=0))
        rows = f"sha256: {sha256(self.shipped)}\nsources: {self.sum_of_tree()}\nkit: kit zero\n"
        (dist / "portal.txt").write_text(rows)

    def hide_edit(self, name: str, letter: str = "x") -> None:
        """Changes the first letter in the file itself, so that its name, length and date stay."""
        path = self.tree / name
        before = path.stat()
        with path.open("r+") as file:
            file.write(letter)
        os.utime(path, ns=(before.st_atime_ns, before.st_mtime_ns))
