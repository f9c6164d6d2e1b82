"""Tries ./portal: which program it runs, when it builds one, what it leaves, and what it does with its streams."""

from __future__ import annotations

import os
import shutil
import subprocess
from concurrent.futures import ThreadPoolExecutor
from pathlib import Path

from small_tree import SmallTree, put, sha256

SUM = '#!/bin/sh\necho sum >>"$FAKE/sums"\nexec REAL "$@"\n'


class Portal(SmallTree):
    def looks(self) -> list[str]:
        """A line for each sum that a call takes, and for each question for the kit."""
        self.said("sums"), self.said("versions")
        put(self.fake / "sha256sum", SUM.replace("REAL", shutil.which("sha256sum") or ""))
        self.call()
        (self.fake / "sha256sum").unlink()
        return self.said("sums") + self.said("versions")

    def assert_runs(self, what: str, status: int, program: str) -> None:
        self.assertEqual((self.status, self.output), (status, f"{program}\nrequest"), what)

    def assert_refused(self, what: str, pattern: str, path: str = "") -> None:
        self.call(path=path or str(self.bin))
        self.assertEqual((self.status, self.output), (3, ""), what)
        self.assertRegex(self.errors, pattern)
        self.assertEqual(self.errors.count("\n"), 1, f"one line says why: {self.errors}")


class Building(Portal):
    def test_the_first_call_builds(self) -> None:
        self.call("answer", "--now", "1")
        self.assertEqual(self.said("calls"), ["lib base", "lib middle", "run portal"])
        self.assert_runs("the program has the words and the whole input", 7, "the program answer --now 1")
        self.assertEqual(self.said("eaten"), [], "the build reads nothing")
        lines = self.errors.splitlines()
        self.assertEqual(sum(" is done (" in it for it in lines), 3, "each crate is reported")
        self.assertEqual(sum("min left" in it for it in lines), 2, "with what is left")
        self.assertNotIn("rt says", self.errors)
        self.assertEqual(list(self.temporary.iterdir()), [], "no log is left")
        self.assertEqual(self.names("crates/*/out"), [], "what rt kept is removed")
        left = ["portal", "portal.from", "portal.lock", "portal.state"]
        self.assertEqual(self.names("*", self.tree / "out"), left)
        self.call()
        self.assert_runs("the second call", 7, "the program")
        self.assertEqual((self.errors, self.builds()), ("", 0), "it is silent, and builds nothing")
        self.assertEqual(self.looks(), [], "it takes no sum and asks for no kit")

    def after(self, what: str, builds: int) -> None:
        self.call()
        self.assertEqual((self.status, self.builds()), (7, builds), what)

    def test_what_counts(self) -> None:
        self.after("the first call", 1)
        (self.tree / "crates/portal/src/main.rt").write_text("another program\n")
        self.after("an edit of the code counts", 1)
        self.assert_runs("the new program runs", 7, "another program")
        for name in ("crates/base/specs/Lib.antt", "crates/middle/proofs/a/b/Answers.antt", "crates/base/src/new.rt"):
            self.write(name, "more\n")
            self.after(f"more in {name} counts", 1)
        new, renamed = self.tree / "crates/base/src/new.rt", self.tree / "crates/base/src/renamed.rt"
        new.rename(renamed)
        self.after("a new name counts", 1)
        renamed.unlink()
        self.after("a deleted file counts", 1)
        self.write("crates/aside/src/lib.rt", "more\n")
        self.after("a crate that it does not stand on does not count", 0)
        self.write("crates/base/src/.lib.rt.swp", "swap\n")
        self.after("a hidden file does not count", 0)
        self.assertEqual(self.looks(), [], "nor is a sum taken for it")
        self.write("crates/base/must-fail/one.edit", "more\n")
        self.after("a mutant does not count", 0)
        self.write("crates.txt", "later: base\n")
        self.after("another line of crates.txt does not count", 0)

    def test_what_else_counts(self) -> None:
        self.after("the first call", 1)
        lines = (self.tree / "crates.txt").read_text()
        (self.tree / "crates.txt").write_text(lines.replace("middle: base std", "middle: base"))
        self.after("a line of its own counts", 1)
        (self.fake / "kit").write_text("kit two\n")
        os.utime(self.fake / "rt")
        self.after("another kit counts", 1)
        source = self.tree / "crates/base/src/lib.rt"
        os.utime(source, (4e9, 4e9))
        self.after("a date in the future does not count", 0)
        self.write("crates/base/src/lib.rt", "old\n")
        os.utime(source, (1e9, 1e9))
        self.after("an old date hides no edit", 1)
        self.hide_edit("crates/base/src/lib.rt")
        self.after("nor does the same date with the same length", 1)
        (self.tree / "out/portal").unlink()
        self.after("a missing program is built", 1)
        self.assertEqual(self.looks(), [], "then a call takes no sum")

    def test_without_rt(self) -> None:
        self.call()
        self.call("x", path=str(self.bin))
        self.assert_runs("a good program runs without rt", 7, "the program x")
        self.write("crates/base/src/lib.rt", "more\n")
        self.assert_refused("a stale one does not", "not on the path")

    def test_it_is_interrupted(self) -> None:
        (self.fake / "slow").write_text("30")
        env = self.env | {"PATH": self.path}
        process = subprocess.Popen([self.tree / "portal"], env=env, stdin=subprocess.DEVNULL, stderr=subprocess.DEVNULL)
        self.wait_for("spans")
        process.terminate()
        self.assertEqual(process.wait(20), 130)
        self.assertEqual((list(self.temporary.iterdir()), self.names("out/lanes")), ([], []), "no log and no copy is left")

    def test_built_from(self) -> None:
        self.make_shipped()
        total = self.sum_of_tree()
        self.call("--built-from", path=str(self.bin))
        here = f"sources of this checkout: {total}\nversion of this checkout: 1.0.0\n"
        self.assertEqual(self.output, f"program: shipped\npath: {self.tree}/out/portal-shipped\nsha256: {sha256(self.shipped)}\n"
                         f"sources of the program: {total}\n{here}kit: kit zero\n")
        self.assertEqual((self.status, self.said("ran")), (0, []), "it does not run the program")
        self.write("crates/base/src/lib.rt", "more\n")
        changed = self.sum_of_tree()
        here = f"sources of this checkout: {changed}\nversion of this checkout: 1.0.0\n"
        self.call("--built-from", path=str(self.bin))
        self.assertEqual((self.status, self.output), (0, f"program: none yet; the next call builds one\n{here}"))
        self.call()
        self.call("--built-from")
        self.assertEqual(self.output, f"program: built here\npath: {self.tree}/out/portal\nsha256: {sha256(self.tree / 'out/portal')}\n"
                         f"sources of the program: {changed}\n{here}kit: kit one\n")
        self.call("--built-from", "x")
        self.assertEqual((self.status, self.output), (2, ""), "it takes no other word")


class AtOnce(Portal):
    def call_at_once(self) -> list[str]:
        def one(number: int) -> str:
            words = [str(self.tree / "portal"), str(number)]
            return subprocess.run(
                words, env=self.env | {"PATH": self.path}, input="request", capture_output=True, text=True
            ).stdout

        (self.fake / "during").write_text("sleep 0.2\n")
        with ThreadPoolExecutor(4) as pool:
            return list(pool.map(one, range(4)))

    def test_one_build(self) -> None:
        self.assertEqual(self.call_at_once(), [f"the program {it}\nrequest" for it in range(4)])
        self.assertEqual(self.builds(), 1)

    def test_the_shipped_program(self) -> None:
        self.make_shipped()
        self.assertEqual(self.call_at_once(), [f"the shipped program {it}\nrequest" for it in range(4)])
        self.assertEqual(self.builds(), 0)
        self.call()
        self.assertEqual(self.names("*", self.tree / "out"), ["portal-shipped", "portal.state"], "nothing else is left")


class Shipped(Portal):
    def setUp(self) -> None:
        super().setUp()
        self.make_shipped()

    def test_it_runs(self) -> None:
        self.call("answer", "--now", "1", path=str(self.bin))
        self.assert_runs("with neither rt nor Python", 5, "the shipped program answer --now 1")
        self.assertEqual(self.errors, "")
        self.assertEqual(self.names("*", self.tree / "out"), ["portal-shipped", "portal.state"])
        self.call()
        self.assert_runs("with rt of another kit", 5, "the shipped program")
        self.assertEqual(self.looks(), [], "a further call takes no sum and asks for no kit")
        unpacked = self.tree / "out/portal-shipped"
        with unpacked.open("a") as file:
            file.write("x")
        self.call()
        self.assertEqual((self.status, sha256(unpacked)), (5, sha256(self.shipped)), "a damaged one is unpacked again")
        unpacked.unlink()
        self.call()
        self.assert_runs("a missing one too", 5, "the shipped program")
        self.assertEqual(self.builds(), 0)

    def test_other_sources(self) -> None:
        self.call(path=str(self.bin))
        self.hide_edit("crates/base/src/lib.rt")
        self.assert_refused("sources with another character are not its own", "not on the path")
        self.call()
        self.assert_runs("they are built where there is rt", 7, "the program")
        self.hide_edit("crates/base/src/lib.rt", "t")
        self.call()
        self.assert_runs("the old sources have the shipped program again", 5, "the shipped program")
        self.make_shipped("the next program")
        self.call()
        self.assert_runs("when another program is shipped it is used", 5, "the next program")

    def test_from_elsewhere(self) -> None:
        links = self.room / "links"
        links.mkdir()
        os.symlink(self.tree / "portal", links / "desk")
        os.symlink("desk", links / "twice")

        def say(words: list[str], cwd: Path, **env: str) -> str:
            return subprocess.run(words, cwd=cwd, env=self.env | env, input="", capture_output=True, text=True).stdout.strip()

        self.assertEqual(say(["./twice", "y  z"], links), "the shipped program y  z", "through symbolic links")
        self.assertEqual(say(["desk", "y"], Path("/"), PATH=f"{links}:{self.path}"), "the shipped program y", "on the path")
        self.assertEqual(say(["../a tree/portal", "y"], links, CDPATH=str(self.room)), "the shipped program y")
        self.assertEqual(say(["bash", "portal", "y"], self.tree), "the shipped program y", "in its folder")
        shutil.rmtree(self.tree / "out")
        self.assertEqual(say([f"{self.tree}/portal", "y"], links, LC_ALL="C.UTF-8"), "the shipped program y", "its sum depends on no locale")
        moved = self.room / "moved"
        self.tree.rename(moved)
        self.assertEqual(say([f"{moved}/portal", "y"], links), "the shipped program y", "the folder can be moved")
        shutil.copytree(moved, self.tree)
        self.assertEqual(say([f"{self.tree}/portal", "y"], links), "the shipped program y", "and copied")

    def test_damaged(self) -> None:
        packed = self.tree / "dist/x86_64-linux/portal.gz"
        good = packed.read_bytes()
        self.make_shipped("another program")
        other = packed.read_bytes()
        self.make_shipped()
        packed.write_bytes(other)
        self.assert_refused("another program", "its SHA-256 is [0-9a-f]{64}, and portal.txt says [0-9a-f]{64}")
        self.assertEqual(self.names("*", self.tree / "out"), [], "it is not kept")
        packed.write_bytes(good[:60])
        self.assert_refused("a damaged file", "portal.gz cannot be unpacked: .*unexpected end of file")
        packed.unlink()
        self.assert_refused("a missing file", "portal.gz cannot be unpacked: .*No such file")
        packed.write_bytes(good)
        self.call(path=str(self.bin))
        self.assertEqual(self.status, 5, "put back, it runs")

    def test_other_machines(self) -> None:
        other = self.room / "other"
        uname = "#!/bin/sh\ncase $1 in -s) echo {0} ;; -m) echo {1} ;; *) echo {0} {1} ;; esac\n"
        put(other / "uname", uname.format("Linux", "aarch64"))
        path = f"{other}:{self.bin}"
        needs = "for Linux on x86-64 with glibc 2.34 or newer"
        self.assert_refused("another processor", f"{needs}, and this is Linux aarch64", path)
        self.call(script="tools/build")
        self.assertEqual((self.output, self.said("eaten")), ("", []), "tools/build prints and reads nothing")
        self.call(path=path)
        self.assert_runs("a program that was built there runs", 7, "the program")
        shutil.rmtree(self.tree / "out")
        put(other / "uname", uname.format("Darwin", "arm64"))
        self.assert_refused("another system", "for Linux on x86-64, and this is Darwin arm64", path)
        (other / "uname").unlink()
        put(other / "getconf", "#!/bin/sh\necho glibc 2.31\n")
        self.assert_refused("an old C library", "with glibc 2.34 or newer, and this has glibc 2.31", path)
        put(other / "getconf", "#!/bin/sh\necho getconf: unknown >&2\nexit 1\n")
        self.assert_refused("no glibc", "with glibc 2.34 or newer, and this has another C library", path)
        for version in ("2.34", "2.100", "3.0"):
            shutil.rmtree(self.tree / "out", ignore_errors=True)
            put(other / "getconf", f"#!/bin/sh\necho glibc {version}\n")
            self.call(path=path)
            self.assertEqual(self.status, 5, f"glibc {version} will do")

    def test_read_only(self) -> None:
        (self.tree / "out").touch()
        self.call("x", path=str(self.bin))
        self.assert_runs("where out/ cannot be written the cache holds the program", 5, "the shipped program x")
        found = [Path(it).name for it in self.names("portal/*/*", self.cache)]
        self.assertEqual(found, ["portal-shipped", "portal.state"], "in a folder of its own")
        self.call()
        self.assertEqual(self.looks(), ["sum"], "there too a further call takes no sum but that of its path")
        env = {name: text for name, text in self.env.items() if name not in ("HOME", "XDG_CACHE_HOME")}
        ran = subprocess.run([self.tree / "portal"], env=env, input="", capture_output=True, text=True)
        self.assertEqual((ran.returncode, ran.stderr.count("\n")), (3, 1), "without a cache it cannot be unpacked")

    def test_of_another_user(self) -> None:
        """If this user may take another's place."""
        reader = ["setpriv", "--reuid=65534", "--regid=65534", "--clear-groups"]
        self.room.chmod(0o755)
        self.cache.mkdir()
        self.cache.chmod(0o1777)
        (self.fake / "ran").touch()
        (self.fake / "ran").chmod(0o666)

        def read(*words: str) -> str:
            ran = subprocess.run([*reader, *words], env=self.env, input="", capture_output=True, text=True)
            return ran.stdout.strip()

        program = str(self.tree / "portal")
        if subprocess.run([*reader, "test", "-x", program], capture_output=True).returncode:
            return
        self.assertEqual(read(program, "x"), "the shipped program x")
        self.assertEqual((self.names("*", self.cache), (self.tree / "out").exists()), (["portal"], False), "by the cache")
        self.call()
        shutil.rmtree(self.cache)
        self.assertEqual(read(program, "x"), "the shipped program x", "or by what that user has unpacked")
        self.assertEqual(read("env", f"PATH={self.bin}", program, "x"), "the shipped program x", "on another path too")
        self.assertFalse(self.cache.exists(), "which needs no cache")
