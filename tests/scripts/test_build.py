"""Tries tools/build, which ./portal calls: the order of the crates, the jobs, what is kept, and how it is stopped."""

from __future__ import annotations

import subprocess
import time
import unittest

from portal_runner.build import Plan, Stop, jobs_of
from small_tree import WIDE, SmallTree

OVER_SQLITE = "one two three four".split()


class Small(SmallTree):
    def build(self, *words: str, **env: str) -> None:
        self.call(*words, script="tools/build", **env)

    def test_an_edit_during_the_build(self) -> None:
        (self.fake / "during").write_text(f"echo late >crates/base/src/late.rt; rm -f '{self.fake}/during'")
        self.build()
        self.assertEqual((self.status, self.builds()), (0, 1))
        self.assertIn("the sources changed during the build: the next call builds again", self.errors)
        self.build("--if-stale")
        self.assertEqual((self.status, self.builds()), (0, 1), "the next call builds again")
        self.build("--if-stale")
        self.assertEqual((self.status, self.builds()), (0, 0), "and then no more")
        (self.fake / "during").write_text(f"echo other >crates/base/src/late.rt; rm -f '{self.fake}/during'")
        self.write("crates/base/src/lib.rt", "more\n")
        self.build()
        (self.tree / "crates/base/src/late.rt").write_text("late\n")
        self.build("--if-stale")
        self.assertEqual(self.builds(), 2, "also when the edit was undone")

    def test_if_stale(self) -> None:
        self.build()
        self.build()
        self.assertEqual(self.builds(), 2, "without the word it builds each time")
        self.build("--if-stale")
        (self.tree / "out/portal.from").write_text("\n")
        self.build("--if-stale")
        self.assertEqual(self.builds(), 1, "a record that says nothing is none")
        self.build("--what")
        self.assertEqual((self.status, self.builds()), (2, 0))

    def test_its_record(self) -> None:
        self.build()
        total, kit, whole = (self.tree / "out/portal.from").read_text().splitlines()
        self.assertEqual((total, kit, whole[:8]), (self.sum_of_tree(), "kit one", "sha256: "))
        self.call("--built-from")
        self.assertIn(whole, self.output.splitlines())

    def test_a_crate_fails(self) -> None:
        (self.fake / "refuses").write_text("base")
        self.build()
        self.assertEqual((self.status, self.output), (3, ""))
        logs = list(self.temporary.glob("*/*"))
        self.assertEqual([it.name for it in logs], ["base.log"], "its log is kept, and no other")
        self.assertEqual(logs[0].read_text(), "rt says this of base\n")
        self.assertEqual(self.errors.splitlines()[-2:], ["rt says this of base", f"portal: base could not be built; the whole log is {logs[0]}"])
        (self.fake / "refuses").unlink()
        self.build()
        self.assertEqual((self.status, self.names("crates/*/out")), (0, []), "what the first build left is removed too")

    def test_what_is_kept(self) -> None:
        (self.tree / "crates/middle/out/kept").mkdir(parents=True)
        self.build()
        left = [f"crates/middle/out/{it}" for it in ("incremental", "kept", "rlib")]
        self.assertEqual(self.names("crates/*/out/*"), left, "what was kept before stays")
        self.build(PORTAL_KEEP="1")
        self.assertEqual(self.names("crates/*/out"), [f"crates/{it}/out" for it in ("base", "middle", "portal")])

    def test_what_it_needs(self) -> None:
        self.build(PORTAL_JOBS="none")
        self.assertEqual((self.status, self.errors), (2, "portal: PORTAL_JOBS is a number from 1 to 9999, and not 'none'\n"))
        (self.fake / "kit").write_text("")
        self.build()
        self.assertEqual((self.status, "not on the path" in self.errors), (3, True))
        (self.fake / "kit").write_text("kit one")
        (self.tree / "out").write_text("")
        self.build()
        self.assertEqual((self.status, "cannot be written" in self.errors), (3, True))

    def test_a_circle(self) -> None:
        text = (self.tree / "crates.txt").read_text()
        (self.tree / "crates.txt").write_text(text.replace("base:", "base: middle"))
        self.build()
        self.assertEqual((self.status, self.errors.splitlines()[-1]), (3, "portal: crates.txt has a circle"))
        self.assertEqual(list(self.temporary.iterdir()), [], "no log is left")


class Wide(SmallTree):
    lines = WIDE

    def build(self, jobs: int, keep: str = "") -> None:
        self.call(script="tools/build", PORTAL_JOBS=str(jobs), PORTAL_KEEP=keep)

    def look_at_spans(self) -> tuple[int, int, int]:
        """The most jobs, the most crates and the most over sqlite at a time. No crate began before one below it was done."""
        below = {name: lower.split() for name, _, lower in (it.partition(":") for it in self.lines)}
        running: dict[str, int] = {}
        ended: set[str] = set()
        most = 0, 0, 0
        for what, name, *jobs in (it.split() for it in self.said("spans")):
            if what == "start":
                self.assertLessEqual(set(below[name]) - {"sqlite"}, ended, f"{name} began after those below it")
                running[name] = int(jobs[0])
            elif what == "end":
                del running[name]
                ended.add(name)
            heavy = sum(it in OVER_SQLITE for it in running)
            most = max(most[0], sum(running.values())), max(most[1], len(running)), max(most[2], heavy)
        self.assertEqual(ended, set(below), "each crate is built")
        return most

    def test_side_by_side(self) -> None:
        (self.fake / "slow").write_text("0.6")
        self.build(8)
        self.assertEqual(sorted(it.split()[1] for it in self.said("calls")), sorted(it.partition(":")[0] for it in WIDE), "each once")
        self.assertEqual((self.fake / "spans").read_text().splitlines()[-1], "end portal 8")
        jobs, crates, heavy = self.look_at_spans()
        self.assertEqual((jobs, heavy, crates > 2), (8, 2, True), "two at a time over sqlite, and others beside them")
        self.assertEqual(self.said("wrong"), [], "no two in one folder, each with the libraries below it")
        self.assertEqual(self.names("*", self.tree / "out"), ["portal", "portal.from", "portal.lock"], "the copies are removed")
        self.assertEqual(self.names("crates/*/out"), [])
        self.assertRegex(self.errors, r"low is done \(. of 9\); now .*(left|right)")

    def test_what_rt_keeps(self) -> None:
        """It goes into the copy that a crate is built in, and back."""
        self.build(8, keep="1")
        self.assertEqual(len(self.names("crates/*/out/rlib/lib") + self.names("crates/*/out/incremental/work")), 18)
        crates = "left right one two".split()
        for name in crates:
            (self.tree / f"crates/{name}/out/incremental/own").write_text(name)
        self.said("spans")
        self.build(8, keep="1")
        self.assertEqual(len(self.names("crates/*/out/incremental/own")), 4, "it stays there")
        self.assertEqual(sorted(it.split()[1] for it in self.said("spans") if it.startswith("kept ")), sorted(crates))

    def test_one_at_a_time(self) -> None:
        self.build(1)
        self.assertEqual((self.status, self.look_at_spans()), (0, (1, 1, 1)))

    def test_a_crate_fails(self) -> None:
        (self.fake / "slow").write_text("60")
        (self.fake / "refuses").write_text("low")
        begin = time.monotonic()
        self.build(3)
        self.assertEqual((self.status, "low could not be built" in self.errors), (3, True))
        self.assertLess(time.monotonic() - begin, 40, "it stops the others")
        self.assertFalse(any(it.startswith("end") for it in self.said("spans")))
        self.assertEqual(self.names("*", self.tree / "out"), ["portal.lock", "portal.made"], "no copy is left")
        self.assertEqual([it.name for it in self.temporary.glob("*/*")], ["low.log"], "one log is left")

    def test_it_is_interrupted(self) -> None:
        (self.fake / "slow").write_text("60")
        env = self.env | {"PATH": self.path, "PORTAL_JOBS": "3"}
        process = subprocess.Popen([self.tree / "tools/build"], env=env, stderr=subprocess.DEVNULL)
        self.wait_for("spans")
        process.terminate()
        self.assertEqual(process.wait(40), 130)
        self.assertEqual(self.names("*", self.tree / "out"), ["portal.lock", "portal.made"], "no copy is left")
        self.assertEqual(list(self.temporary.iterdir()), [], "no log is left")
        (self.fake / "slow").unlink()
        self.build(3)
        self.assertEqual(self.status, 0, "and can be made again")


class Order(unittest.TestCase):
    """The plan of a build, without one."""

    def plan(self, jobs: int, **costs: int) -> Plan:
        uses = {name: lower.split() for name, _, lower in (it.partition(":") for it in WIDE)}
        return Plan(uses, {f"prove:{name}": float(cost) for name, cost in costs.items()}, jobs)

    def test_the_longest_chain_first(self) -> None:
        plan = self.plan(4, right=500)
        self.assertEqual(plan.next(), "low")
        self.assertEqual(self.plan(4, four=5000).next(), "four")
        self.assertEqual(plan.chain, {"portal": 15, "high": 75, "left": 135, "right": 575, "low": 635, "one": 105,
                                      "two": 45, "three": 45, "four": 45})

    def test_jobs_of_each(self) -> None:
        self.assertEqual(self.plan(4).width, {it.partition(":")[0]: 1 for it in WIDE} | dict.fromkeys(OVER_SQLITE, 2) | {"portal": 4})
        self.assertEqual(set(self.plan(1).width.values()), {1})
        plan = self.plan(3)
        plan.start("one")
        plan.start("three")
        self.assertEqual((plan.width["three"], plan.used, plan.next()), (1, 3, None), "what is left of the jobs")

    def test_two_over_sqlite(self) -> None:
        plan = self.plan(9, one=500, three=500, four=500)
        begun = []
        while name := plan.next():
            plan.start(name)
            begun.append(name)
        self.assertEqual(begun, ["one", "three", "low"])

    def test_what_is_left(self) -> None:
        plan = self.plan(1)
        plan.start("low")
        plan.finish("low", 59)
        self.assertEqual(plan.report("low"), "low is done (1 of 9); about 9 min left")
        plan = self.plan(9, high=6000)
        plan.start("low")
        plan.finish("low", 59)
        plan.start("one")
        self.assertEqual(plan.report("low"), "low is done (1 of 9); now one; about 102 min left", "the longest chain is more")

    def test_how_many_jobs(self) -> None:
        self.assertEqual(jobs_of("7", "", "", 4), 7)
        self.assertEqual(jobs_of("", "MemAvailable:   16000000 kB\n", "max", 8), 3, "5 GB for each")
        self.assertEqual(jobs_of("", "MemAvailable:   16000000 kB\n", str(11_000_000 * 1024), 8), 2, "the limit is lower")
        self.assertEqual(jobs_of("", "MemAvailable:   99000000 kB\n", "", 4), 4, "one for each core")
        self.assertEqual(jobs_of("", "MemAvailable:   1 kB\n", "", 4), 1)
        for wrong in ("0", "none", "12345", "-1", "1.5"):
            with self.assertRaises(Stop):
                jobs_of(wrong, "", "", 4)
