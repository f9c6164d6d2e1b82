"""Tries tests/shipped and tools/ship: what they let through and what they refuse."""

from __future__ import annotations

import gzip

from small_tree import SmallTree, put, sha256

RIGHT = "the SHA-256 of the unpacked program is that of portal.txt"
SOURCES = "the sources are those of the shipped program"
VERSION = "portal --version prints what the file VERSION holds"
THERE = "dist/x86_64-linux holds portal.gz, and portal.txt with three lines"


class Shipped(SmallTree):
    def setUp(self) -> None:
        super().setUp()
        self.make_shipped()
        self.dist = self.tree / "dist/x86_64-linux"

    def look(self) -> None:
        self.call(script="tests/shipped")

    def finds(self, what: str, faults: int = 1) -> None:
        self.look()
        self.assertEqual((self.status, self.output.splitlines()[-1]), (1, f"shipped: {5 - faults} passed, {faults} failed"))
        self.assertEqual(self.output.splitlines()[0], f"shipped: {what}")
        self.assertEqual(sum("  to do:  " in it and "tools/ship" in it for it in self.output.splitlines()), faults, "and what to do")

    def test_a_good_program(self) -> None:
        self.look()
        self.assertEqual((self.status, self.output), (0, "shipped: 5 passed, 0 failed\n"))
        self.assertEqual((self.said("versions"), self.said("calls")), ([], []), "without rt")
        self.assertEqual((list(self.temporary.iterdir()), (self.tree / "out").exists()), ([], False), "nothing is left")

    def test_one_byte(self) -> None:
        other = self.shipped.read_text().replace("exit 5", "exit 6").encode()
        (self.dist / "portal.gz").write_bytes(gzip.compress(other))
        self.finds(RIGHT)

    def test_another_source(self) -> None:
        self.write("crates/base/src/lib.rt", "more\n")
        self.finds(SOURCES)

    def test_another_sum(self) -> None:
        text = (self.dist / "portal.txt").read_text()
        (self.dist / "portal.txt").write_text(text.replace(self.sum_of_tree(), "0" * 64))
        self.finds(SOURCES)

    def test_a_stale_version(self) -> None:
        (self.tree / "VERSION").write_text("1.0.1\n")
        self.finds(VERSION)

    def test_no_version(self) -> None:
        (self.tree / "VERSION").unlink()
        self.finds(VERSION)

    def test_no_kit(self) -> None:
        text = (self.dist / "portal.txt").read_text()
        (self.dist / "portal.txt").write_text(text.replace("kit: kit zero\n", ""))
        self.finds(THERE)

    def test_a_damaged_file(self) -> None:
        (self.dist / "portal.gz").write_bytes((self.dist / "portal.gz").read_bytes()[:60])
        self.finds("portal.gz can be unpacked", 3)

    def test_no_shipped_program(self) -> None:
        for name in ("portal.gz", "portal.txt"):
            (self.dist / name).unlink()
        self.finds(THERE, 5)


class Ship(SmallTree):
    def setUp(self) -> None:
        super().setUp()
        (self.tree / "crates/portal/src/main.rt").write_text("portal 1.0.0 (database schema version 4)\n")
        self.call(script="tools/build")
        self.built, self.record = self.tree / "out/portal", self.tree / "out/portal.from"
        # (the stand-in's program repeats its words)
        self.built.write_text(self.built.read_text().replace(' "$@"', "").replace("exit 7", "exit 0"))
        self.note_built()

    def note_built(self) -> None:
        """Has the record say that the program, as it is now, is the one that was built."""
        rows = self.record.read_text().splitlines()
        self.record.write_text("\n".join([*rows[:2], f"sha256: {sha256(self.built)}"]) + "\n")

    def ship(self, *words: str, **env: str) -> None:
        self.call(*words, script="tools/ship", **env)

    def is_refused(self, why: str) -> None:
        self.ship()
        self.assertEqual((self.status, self.output), (1, ""))
        self.assertIn(why, self.errors)
        self.assertFalse((self.tree / "dist").exists(), "dist/ stays")

    def test_it_ships(self) -> None:
        self.ship()
        rows = f"sha256: {sha256(self.built)}\nsources: {self.sum_of_tree()}\nkit: kit one\n"
        self.assertEqual((self.status, self.output), (0, rows))
        self.assertEqual(self.names("dist/*/*"), [f"dist/x86_64-linux/portal.{it}" for it in ("gz", "txt")])
        self.assertEqual(list(self.temporary.iterdir()), [])
        self.call(script="tests/shipped")
        self.assertEqual((self.status, self.output), (0, "shipped: 5 passed, 0 failed\n"))
        for it in (self.tree / "out").iterdir():
            it.unlink()
        self.call(path=str(self.bin))
        self.assertEqual(self.output, "portal 1.0.0 (database schema version 4)\nrequest", "and portal runs it")
        self.assertEqual(self.names("*", self.tree / "out"), ["portal-shipped", "portal.state"])
        self.ship("x")
        self.assertEqual(self.status, 2, "it takes no words")

    def test_no_program(self) -> None:
        self.built.unlink()
        self.is_refused("no program was built here")

    def test_other_sources(self) -> None:
        self.write("crates/base/src/lib.rt", "more\n")
        self.is_refused("the sources are not those")

    def test_no_kit(self) -> None:
        rows = self.record.read_text().splitlines()
        self.record.write_text(f"{rows[0]}\n{rows[2]}\n")
        self.is_refused("names no kit")

    def test_another_program(self) -> None:
        self.built.write_text(self.built.read_text() + "# more\n")
        self.is_refused("is not the program that was built")

    def test_an_unfinished_build(self) -> None:
        self.record.unlink()
        self.is_refused("no program was built here")

    def test_another_version(self) -> None:
        (self.tree / "VERSION").write_text("1.0.1\n")
        self.is_refused("version is not that of the file VERSION")

    def test_another_processor(self) -> None:
        put(self.fake / "uname", "#!/bin/sh\necho Linux aarch64\n")
        self.is_refused("this is Linux aarch64")

    def test_a_later_glibc(self) -> None:
        self.built.write_text(self.built.read_text() + "# GLIBC_2.3.4 GLIBC_2.41\n")
        self.note_built()
        self.is_refused("the program needs glibc 2.41")
