"""Tries how ./test runs steps: what is kept and what is taken from there, side by side, once more, and over a budget."""

from __future__ import annotations

import dataclasses
import os
import re
import shutil
import subprocess
import unittest
from unittest import mock

from portal_runner import report
from portal_runner.budgets import read_budgets, write_budgets
from portal_runner.kept import DAYS, Kept, Store
from portal_runner.machine import Machine
from portal_runner.run import Options
from portal_runner.steps import Step
from small_steps import STEPS, SmallRun, SmallSteps
from small_tree import put


class Remembered(SmallSteps):
    def test_what_passed_does_not_run_again(self) -> None:
        self.call()
        self.assert_ended(0, "2 passed, 0 failed")
        self.assert_ran("quick ")
        self.call()
        self.assert_ended(0, "2 passed, 0 failed")
        self.assert_ran()
        self.assertIn("test: quick: 2 passed (cached)", self.said)

    def test_it_runs_again_where_an_input_has_changed(self) -> None:
        self.call("all")
        self.assert_ran("each test_other", "each test_page", "last ", "quick ")
        self.write("kit/words.py", "x = 1\n")
        self.call("all")
        self.assert_ran("each test_page")
        self.assert_ended(0, "8 passed, 0 failed")

    def test_what_failed_is_not_kept(self) -> None:
        self.does("quick", "echo 'FAIL this is wrong'; echo '1 passed, 1 failed'; exit 1")
        for _ in range(2):
            self.call()
            self.assert_ended(1, "1 passed, 1 failed")
            self.assert_ran("quick ")
            self.assertIn("test: failed: quick: FAIL this is wrong", self.said)

    def test_what_failed_makes_a_pass_with_other_things_carried_void(self) -> None:
        self.call("last")
        self.write("three", "another\n")
        self.call("last")
        self.assert_ran()
        self.does("last", "echo '1 passed, 1 failed'; exit 1")
        self.call("whole")
        self.assertEqual(self.status, 1)
        self.call("last")
        self.assert_ran("last ")

    def test_skips_are_kept(self) -> None:
        self.does("quick", "echo 'passed over: a page: not installed: no-such-package'; echo '1 passed, 0 failed'; exit")
        self.call()
        self.assertIn("test: skipped: a page: not installed: no-such-package", self.said)
        self.call()
        self.assert_ran()
        self.assertIn("test: skipped: a page: not installed: no-such-package (cached)", self.said)

    def test_a_skip_for_no_reason_fails(self) -> None:
        self.does("quick", "echo 'passed over: a page: for no reason'; echo '1 passed, 0 failed'; exit")
        for _ in range(2):
            self.call()
            self.assert_ended(1, "1 passed, 1 failed")
            self.assertIn("test: failed: quick skips for no reason that holds: a page: for no reason", self.said)

    def test_anew(self) -> None:
        self.call()
        self.call("--anew")
        self.assert_ran("quick ")
        self.assert_ended(0, "2 passed, 0 failed")
        self.call()
        self.assert_ran()

    def test_anew_fails_where_it_contradicts_what_was_kept(self) -> None:
        for line in ("echo 'FAIL now'; echo '1 passed, 1 failed'; exit 1", "echo '3 passed, 0 failed'; exit",
                     "echo 'passed over: a page: not installed: no-such-package'; echo '2 passed, 0 failed'; exit"):
            shutil.rmtree(self.cache, ignore_errors=True)
            self.does("quick")
            self.call()
            self.does("quick", line)
            self.call("--anew")
            self.assertEqual(self.status, 1)
            self.assertTrue(any("quick passed before with 2 checks over the same inputs" in it for it in self.said), self.said)
            self.call()
            self.assert_ran("quick ")

    def test_one_test_is_not_kept(self) -> None:
        for _ in range(2):
            self.call("test_page::One::test_a")
            self.assert_ran("each test_page::One::test_a")

    def test_another_clone_and_two_runs_at_a_time(self) -> None:
        others = [self.begin("all"), self.begin("all")]
        self.assertEqual([it.wait(60) for it in others if it.communicate()], [0, 0])
        self.call("all")
        self.assert_ran()
        self.tree = self.tree.rename(self.room / "another tree")
        self.call("all")
        self.assert_ran()

    def test_a_file_that_is_changed_meanwhile(self) -> None:
        """Its step fails, and nothing is kept of it."""
        self.write("tests/steps.toml", STEPS.replace('run = "tests/each {name}"', 'run = "tests/each {name}"\nafter = ["quick"]'))
        self.does("quick", f"echo '# more' >>'{self.tree}/kit/page.py'")
        self.call("field")
        self.assertEqual(self.status, 1)
        self.assertIn("test: failed: each:test_page: FAILED kit/page.py was changed while the tests ran", self.said)

    def test_no_place_to_keep_results(self) -> None:
        self.cache.write_text("no folder")
        self.call()
        self.assert_ended(0, "2 passed, 0 failed")

    def test_the_store(self) -> None:
        store = Store(self.cache)
        store.keep("abc", "a step", Kept(3, ["a line"], 1.5))
        self.assertEqual(store.get("abc"), Kept(3, ["a line"], 1.5))
        store.prune()
        os.utime(self.cache / "abc", (0, os.stat(self.cache / "abc").st_mtime - DAYS * 86_400 + 60))
        store.prune()
        self.assertIsNotNone(store.get("abc"), "that it is used is written down")
        os.utime(self.cache / "abc", (0, 0))
        store.prune()
        self.assertIsNone(store.get("abc"))
        (self.cache / "bad").write_text("{")
        self.assertIsNone(store.get("bad"))
        self.assertEqual([it.name for it in self.cache.iterdir()], ["bad"])


class Folder(SmallSteps):
    def test_only_its_inputs_are_there(self) -> None:
        self.call("all")
        seen = {name: (self.room / f"seen-{name}").read_text().split() for name in ("quick", "last")}
        self.assertEqual(seen, {"quick": ["./one", "./tests/quick", "./two"], "last": ["./one", "./tests/last", "./three"]})

    def test_what_is_not_declared_fails(self) -> None:
        self.does("quick", "cat three || { echo '0 passed, 1 failed'; exit 1; }")
        self.call()
        self.assert_ended(1, "0 passed, 1 failed")

    def test_the_clone_stays_as_it_was(self) -> None:
        def files() -> list[str]:
            return sorted(str(it) for it in self.tree.rglob("*"))

        self.does("quick", "echo more >>one; echo new >new; mkdir -p out; touch out/portal")
        before, text = files(), (self.tree / "one").read_text()
        self.call()
        self.assert_ended(0, "2 passed, 0 failed")
        self.assertEqual((files(), (self.tree / "one").read_text(), self.left()), (before, text, []))

    def test_what_nobody_may_write_is_removed_and_what_is_left_running_is_ended(self) -> None:
        self.does("quick", "mkdir -p \"$TMPDIR/a/b\"; touch \"$TMPDIR/a/b/c\"; chmod 500 \"$TMPDIR/a/b\" \"$TMPDIR/a\"",
                  f"(trap '' TERM; sleep 100) & echo $! >'{self.room}/process'")
        mode = self.room.stat().st_mode
        self.call()
        self.assert_ended(0, "2 passed, 0 failed")
        self.assertEqual((self.left(), self.room.stat().st_mode), ([], mode))
        self.assertFalse(self.is_running("process"))

    def test_the_environment_is_always_the_same(self) -> None:
        self.does("quick", f"env >'{self.room}/env'; umask >>'{self.room}/env'")
        self.env |= {"PORTAL": "/bin/true", "LC_ALL": "C", "SOMETHING": "x"}
        self.call()
        found = dict(it.partition("=")[::2] for it in (self.room / "env").read_text().splitlines())
        self.assertEqual(set(found) - {"_", "PWD", "SHLVL", "0022"}, {"PATH", "HOME", "TMPDIR", "LANG", "PYTHONDONTWRITEBYTECODE"})
        self.assertTrue(found["TMPDIR"].startswith(f"{self.room}/portal-test."))

    def test_a_step_has_a_session_of_its_own(self) -> None:
        self.does("quick", f"read -r process _ _ _ group session _ </proc/$$/stat; echo $process $group $session >'{self.room}/numbers'")
        self.call()
        self.assertEqual(len(set((self.room / "numbers").read_text().split())), 1)

    def test_machines_that_cannot_be_started(self) -> None:
        def why(*lines: str) -> str:
            put(self.tree / "tests/base", "\n".join(["#!/bin/sh", *lines]))
            return Machine(self.table().repository, {"container": ["tests/base", "--only-base"]}).probe("container")

        self.assertEqual(why('[ "$1" = --only-base ]'), "")
        self.assertEqual(why("echo one", "echo no room", "exit 1"), "no container can be started: no room")
        self.assertEqual(why("echo 'E: Failed to fetch a list'", "echo all is over", "exit 1"),
                         "no container can be started, mmdebstrap has no network: E: Failed to fetch a list")
        with mock.patch("portal_runner.machine.PROBE_SECONDS", 0.2):
            self.assertEqual(why("sleep 5"), "no container can be started: not within 0 minutes")
        self.assertEqual(Machine(self.table().repository, {}).probe("container"), "")

    def test_what_belongs_to_the_machine(self) -> None:
        table = self.table()
        machine = Machine(table.repository, {})
        step = dataclasses.replace(table.by_name["quick"], needs=("rt", "program", "bash"), uses=("browser",))
        before = machine.facts(step)
        self.assertTrue({f"bash {machine.versions.get('bash', True)}", machine.kit, "none"} <= set(before), before)
        self.assertTrue(any(it.startswith("chromium ") for it in before))
        self.assertEqual([machine.has(it) for it in ("bash", "no-such-package")], [True, False])
        machine.program_sum = "another"
        self.assertNotEqual(before, machine.facts(step))
        self.assertEqual(machine.facts(step, has_program=False), [it for it in before if it != "none"])


class Words(SmallSteps):
    def test_groups(self) -> None:
        self.call()
        self.assertIn("test: not run: each (./test field)", self.said)
        self.assertIn("test: not run: last (./test all)", self.said)
        self.call("field")
        self.assert_ran("each test_other", "each test_page")
        self.call("all")
        self.assert_ran("last ")
        self.assertFalse(any("not run" in it for it in self.said))

    def test_names(self) -> None:
        self.call("last", "test_page")
        self.assert_ran("each test_page", "last ")
        self.call("last::a")
        self.assert_ran("last --only a")
        for words, said in ((("nothing",), "no part is called nothing"), (("each::test_a",), "each has several steps"),
                            (("quick::test_a",), "quick has no tests that can be named")):
            self.call(*words)
            self.assertEqual((self.status, self.said[-1].startswith(f"test: {said}")), (2, True), self.said)

    def test_what_is_wrong(self) -> None:
        for words in (("--anwe",), ("first", "last"), ("--changed", "last"), ("whole", "field")):
            self.call(*words)
            self.assertEqual((self.status, self.said[-1], self.ran()), (2, "usage: ./test", []))
            self.assertEqual(len(self.said), 2)
        self.call("--anwe")
        self.assertIn("unknown option: --anwe (did you mean --anew?)", self.said[0])
        self.call("--help")
        self.assertEqual((self.status, self.said), (0, ["usage: ./test"]))

    def test_changed(self) -> None:
        def git(*words: str) -> None:
            subprocess.run(["git", "-C", str(self.tree), "-c", "user.name=x", "-c", "user.email=x@example.com", *words], check=True,
                           stdout=subprocess.DEVNULL)

        self.call("--changed")
        self.assertEqual(self.status, 2)
        git("init", "-q")
        git("add", "-A")
        git("commit", "-q", "-m", "all")
        self.write("two", "another\n")
        (self.tree / "kit/data.txt").unlink()
        self.call("--changed")
        self.assert_ran("quick ")
        git("commit", "-q", "-a", "-m", "more")
        self.write("kit/new.py", "")
        self.call("--changed")
        self.assertEqual((self.status, self.said[-1]), (0, "0 passed, 0 failed"))
        self.call("--changed=HEAD~1", "--anew")
        self.assert_ran("quick ")

    def test_budgets_are_written(self) -> None:
        self.call("first", "--budgets")
        lines = (self.tree / "tests/budgets.txt").read_text().splitlines()
        self.assertEqual((lines[0], lines[2:]), ("# what each takes", ["quick 1"]))
        self.assertRegex(lines[1], r"machine 0\.\d+")
        write_budgets(self.tree, {"prove:low": 40.0, "quick": 30.0, "new": 0.1})
        write_budgets(self.tree, {"prove:low": 2.0, "quick": 20.0})
        found = read_budgets(self.tree)
        self.assertEqual({name: found[name] for name in ("prove:low", "quick", "new")}, {"prove:low": 40.0, "quick": 20.0, "new": 1.0})

    def test_interrupted(self) -> None:
        for name in ("quick", "last"):
            self.does(name, f"echo $$ >'{self.room}/process'; sleep 100")
            self.interrupt(self.begin(name), "process")
            self.assertEqual((self.status, self.left()), (130, []))
            self.assertEqual(self.said[-1], "test: interrupted; what passed before is kept")
            self.assertFalse(self.is_running("process"))
            (self.room / "process").unlink()


class SideBySide(SmallRun):
    def step(self, name: str, line: str = "", **more: object) -> Step:
        """A step whose script writes down when it begins and when it ends."""
        begin, end = (f"echo {word} {name} >>'{self.room}/order'" for word in ("begin", "end"))
        text = f"#!/usr/bin/env bash\n{begin}\n{line}\nsleep 0.3\n{end}\necho '1 passed, 0 failed'\n"
        self.write(f"tests/{name}", text)
        (self.tree / "tests" / name).chmod(0o755)
        values = {"part": name, "name": name, "group": "all", "run": (f"tests/{name}",), "inputs": (f"tests/{name}",), "budget": 1.0}
        return Step(**(values | more))  # type: ignore[arg-type]

    def order(self) -> list[str]:
        return (self.room / "order").read_text().splitlines()

    def most(self) -> int:
        """How many ran at a time."""
        found, now = 0, 0
        for line in self.order():
            now += 1 if line.startswith("begin") else -1
            found = max(found, now)
        return found

    def test_as_many_as_there_are_processors(self) -> None:
        for processors, wanted in ((1, 1), (2, 2), (4, 4)):
            (self.room / "order").unlink(missing_ok=True)
            self.run_steps([self.step(f"s{it}-{processors}") for it in range(5)], processors)
            self.assertEqual((self.most(), self.status), (wanted, 0), self.printed)

    def test_seats_memory_and_lanes(self) -> None:
        self.run_steps([self.step(f"s{it}", seats=2.0) for it in range(4)])
        self.assertEqual(self.most(), 2)
        (self.room / "order").unlink()
        self.run_steps([self.step(f"m{it}", memory=10_000.0) for it in range(3)])
        self.assertEqual(self.most(), 1, "one at a time runs always")
        (self.room / "order").unlink()
        self.run_steps([self.step(f"l{it}", lane="packets") for it in range(3)])
        self.assertEqual(self.most(), 1)
        (self.room / "order").unlink()
        self.run_steps([self.step(f"w{it}", seats=0.0) for it in range(3)], 1)
        self.assertEqual(self.most(), 3, "they wait")

    def test_the_longest_way_first_and_each_after_those_before_it(self) -> None:
        steps = [self.step("short"), self.step("low", budget=5.0), self.step("high", after=("low",), budget=50.0), self.step("long", budget=20.0)]
        self.run_steps(steps, 1)
        self.assertEqual([it for it in self.order() if it.startswith("begin")], ["begin low", "begin high", "begin long", "begin short"])

    def test_what_waits_for_one_that_failed_does_not_run(self) -> None:
        steps = [self.step("low", "echo '0 passed, 1 failed'; exit 1"), self.step("high", after=("low",)), self.step("top", after=("high",))]
        self.run_steps(steps)
        self.assertEqual((self.order(), self.status), (["begin low"], 1))
        self.assertIn("test: failed: high did not run, as low failed", self.printed)
        self.assertEqual(self.printed[-1], "0 passed, 3 failed")

    def test_what_looks_at_times_runs_once_more_alone(self) -> None:
        late = f"[[ -e '{self.room}/again' ]] || {{ touch '{self.room}/again'; echo '0 passed, 1 failed'; exit 1; }}"
        run = self.run_steps([self.step("timed", late, is_timed=True), self.step("other", "sleep 1")])
        self.assertEqual((self.status, self.printed[-1]), (0, "2 passed, 0 failed"), self.printed)
        self.assertEqual(self.order()[2:], ["end other", "begin timed", "end timed"])
        self.assertIsNotNone(run.store.get(run.digests["timed"]))
        self.run_steps([self.step("never", "echo '0 passed, 1 failed'; exit 1", is_timed=True)])
        self.assertEqual((self.status, self.printed[-1], self.order().count("begin never")), (1, "0 passed, 1 failed", 3))
        self.run_steps([self.step("other_one", "echo '0 passed, 1 failed'; exit 1")])
        self.assertEqual(self.order().count("begin other_one"), 1, "it looks at no times")

    def test_a_step_that_dies_or_says_no_counts(self) -> None:
        for name, line in (("dies", "kill -9 $$"), ("silent", "echo all is well; exit"), ("status", "echo '1 passed, 0 failed'; exit 1")):
            self.run_steps([self.step(name, line)])
            self.assertEqual(self.status, 1, name)

    def test_what_cannot_run_here(self) -> None:
        self.run_steps([self.step("a", needs=("program",)), self.step("b", needs=("quick",)), self.step("c")])
        self.assertIn("test: skipped: a: no program was built from these sources (./portal --help builds it)", self.printed)
        self.assertEqual(self.printed[-1], "2 passed, 0 failed" if "begin b" in self.order() else "1 passed, 0 failed")

    def test_the_program_alone_has_changed(self) -> None:
        """A step that is no sample then runs in ./test whole."""
        steps = [self.step("sample", needs=("program",)), self.step("other", needs=("program",), is_sampled=False)]

        def run(text: str, **options: bool) -> list[str]:
            def why_not(machine: Machine, step: Step) -> str:
                machine.program, machine.program_sum = self.tree / "one", text
                return ""

            (self.room / "order").write_text("")
            with mock.patch.object(Machine, "why_not", why_not):
                self.run_steps(steps, options=Options(**options))  # type: ignore[arg-type]
            return sorted(it.removeprefix("begin ") for it in self.order() if it.startswith("begin"))

        self.assertEqual(run("one"), ["other", "sample"])
        self.assertEqual(run("two"), ["sample"], self.printed)
        self.assertIn("test: not run, as little of theirs has changed: other (1) (./test whole)", self.printed)
        self.assertEqual(run("two", is_whole=True), ["other"])
        self.assertEqual(run("two", is_whole=True), [])

    def test_over_its_budget(self) -> None:
        """At one and a half times it is named, and at three times it fails, by a fixed work that is timed in the same run."""
        work = "python3 -c 'import time\nwhile time.process_time() < 1: pass'"
        report.LEAST = 0.2
        self.addCleanup(setattr, report, "LEAST", 10.0)
        for budget, machine, status, words in ((0.5, 1000, 0, "over its budget: slow-0.5-1000 took"), (0.1, 1000, 1, "failed: slow-0.1-1000 took"),
                                               (2.0, 1000, 0, ""), (0.1, 0.00001, 0, "")):
            name = f"slow-{budget}-{machine}"
            self.write("tests/budgets.txt", f"machine {machine}\n{name} {budget}\n")
            run = self.run_steps([self.step(name, work, budget=budget)])
            self.assertEqual(self.status, status, self.printed)
            self.assertEqual(any(words in it for it in self.printed) if words else not any("budget of" in it for it in self.printed), True, self.printed)
            self.assertEqual(run.store.get(run.digests[name]) is None, status == 1)

    def test_over_its_budget_holds_up_no_other(self) -> None:
        self.write("tests/budgets.txt", "machine 1000\nlow 0.1\n")
        report.LEAST = 0.2
        self.addCleanup(setattr, report, "LEAST", 10.0)
        low = self.step("low", "python3 -c 'import time\nwhile time.process_time() < 1: pass'", budget=0.1)
        self.run_steps([low, self.step("high", after=("low",))])
        self.assertEqual((self.status, self.printed[-1]), (1, "2 passed, 1 failed"), self.printed)
        self.assertEqual(sum("test: failed: low took" in it for it in self.printed), 2, self.printed)
        self.run_steps([low], options=Options(has_budgets=True))
        self.assertEqual((self.status, self.printed[-1]), (0, "1 passed, 0 failed"), self.printed)

    def test_how_much_is_left(self) -> None:
        self.run_steps([self.step(f"s{it}") for it in range(3)], 1)
        self.assertIn("test: 3 steps to run, 3 s of processor time by tests/budgets.txt", self.printed)
        self.assertTrue(any(re.search(r"\(1 of 3, about \d+ s left\)", it) for it in self.printed), self.printed)


if __name__ == "__main__":
    unittest.main()
