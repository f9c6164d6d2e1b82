"""Tries tests/edits with a stand-in for the prover, which refuses each function that has the word 'wrong' in it: what is refused, what
is let through, what is tried by itself, and when each crate is tried."""

from __future__ import annotations

import importlib.machinery
import importlib.util
import os
import subprocess
import sys
import tempfile
import unittest
from pathlib import Path
from typing import Any

from small_tree import TOP, put

SOURCE = """const LIMIT: u32 = 3;

/// One.
pub fn one(a: u32) -> u32 {
    a + 1
}

impl Pair {
    pub fn two(&self) -> u32 {
        self.a + 2
    }

    fn three(&self) -> u32 {
        self.a + 3
    }
}

pub struct Pair {
    a: u32,
}
"""

# It says of each function with the word in it as rattle does, and takes down what it was asked.
PROVER = r"""#!/usr/bin/env python3
import os, pathlib, re, sys
text = pathlib.Path("src/lib.rt").read_text()
holes = sorted(str(it.parent.relative_to("proofs")) for it in pathlib.Path("proofs").rglob("Proof.antt"))
with open(os.environ["ASKED"], "a") as asked:
    asked.write(" ".join([*sys.argv[1:4], str(text.count("wrong")), *holes]) + "\n")
refused = False
if "fn one(b" in text and "fn one_2" in text:
    print("src/lib.rt:4:1: error: one takes 2 arguments but 1 were supplied")
    sys.exit(1)
if "no_hole_here" in holes:
    print("./proofs/no_hole_here/Proof.antt:2:5: error: `no_hole_here_spec`: it takes no hole")
    print("note: src/lib.rt:4:5: it is not proved that what the function ensures holds when it returns (`returns`)")
for name, start, body in (("Pair::" * bool(m[1]) + m[2], m.start(2), m[0]) for m in re.finditer(r"(?ms)^( *)(?:pub )?fn (\w+).*?^\1}$", text)):
    if "wrong" in body:
        line = text[:start].count("\n") + 1
        print(f"note: src/lib.rt:{line}:5: it is not proved that what the function ensures holds when it returns (`returns`)")
        print(f"fn low::{name}: no proof: `search` did not prove `returns`")
        refused = True
    elif "unfound" in body:
        line = text[:start].count("\n") + 1
        print(f"note: src/lib.rt:{line}:5: `search` found no proof (`invariant_of-result`)")
        refused = True
    elif "renamed" in body:
        print(f"./proofs/{name.replace('::', '/')}/Answers.antt:7:13: error: `returns`: record `Rattle.low.proofs.Lts.Start` has no field `a`")
        print(f"fn low::{name}: not proved; it stands on `Rattle.low.proofs.Answers.returns`, which antt refuses")
        refused = True
    elif "absent" in body:
        print("src/lib.rt:4:1: error: there is no such name")
        sys.exit(1)
    else:
        print(f"fn low::{name}: proved")
if "const LIMIT: u32 = 4" in text:
    print("note: src/lib.rt:4:1: it is not proved that what the function ensures holds when it returns (`returns`)")
    print("fn low::one: no proof: it calls `low::zero`, which is not proved")
    refused = True
if "const LIMIT: u32 = 5" in text:
    print("./proofs/one/Answers.antt:7:13: error: `returns`: `LIMIT` is not in scope")
    refused = True
print("logic=not-proved" if refused else "logic=proved")
sys.exit(refused)
"""

# The name of an edit, its pairs of texts, and what is to be said of it.
EDITS = [
    ("one_wrong", [("a + 1", "a + wrong")], "refused"),
    ("two_wrong", [("self.a + 2", "self.a + wrong")], "refused"),
    ("two_wrong_again", [("self.a + 2", "wrong")], "refused"),
    ("three_right", [("self.a + 3", "3 + self.a")], "FAILED"),
    ("no_such_text", [("a + 7", "wrong")], "FAILED"),
    ("twice_there", [("self.a", "wrong")], "FAILED"),
    ("does_not_compile", [("a + 1", "absent")], "FAILED"),
    ("limit_more", [("LIMIT: u32 = 3", "LIMIT: u32 = 4")], "refused"),
    ("limit_same", [("LIMIT: u32 = 3", "LIMIT: u32 = 1 + 2")], "FAILED"),
    ("in_two_places", [("self.a + 3", "3 + self.a"), ("a + 1", "wrong")], "refused"),
    ("one_unfound", [("a + 1", "a + unfound")], "refused"),
    ("one_renamed", [("a + 1", "renamed + 1")], "LOST A NAME"),
    ("one_wrong_and_two_renamed", [("a + 1", "a + wrong"), ("self.a + 2", "renamed + 2")], "refused"),
    ("limit_renamed", [("LIMIT: u32 = 3", "LIMIT: u32 = 5")], "LOST A NAME"),
]

# What the prover says of the function Pair::two, in its words: lines, whether the first of them refuses it, and whether it lost a name.
ANSWER = "./proofs/Pair/two/Answers.antt:7:13: error: `returns`: "
OPEN = "note: src/lib.rt:10:9: it is not proved that what the function ensures holds when it returns (`returns-then-a-gt0`)"
NO_GOAL = ANSWER + ("`goal.returns-then-a-ne0`: module `Rattle.low.proofs.Pair.two.Goals`\n  has no `returns-then-a-ne0` that can be named from here "
                    "(names in it that begin alike: `returns-clause-found`, `returns-clause-ok`)")
NO_FIELD = ANSWER + "record `Rattle.low.proofs.Pair.two.Lts.View.In-Then-a-ne0` has no field `sum-rest` (nearest: .sum-a, .if-a-ne0)"
OTHER_VALUE = ANSWER + "as printed, the two types differ only where one has `30` (expected), right after `c.args.a %`, and the other has `31`"
SAID = [
    ([OPEN], True, False),
    ([OTHER_VALUE], True, False),
    ([ANSWER + "expected type `IsOdd c.x`, but this has type `IsOdd (f x)`; `x` is not in scope here, so what is shown does not paste back as it "
      "stands"], True, False),
    ([NO_FIELD], False, True),
    ([ANSWER + "record `Rattle.low.proofs.Pair.two.Lts.After-all` (nearest: .all-are_made)\n  has no field `has_ours-are_made`"], False, True),
    ([ANSWER + "record `Rattle.low.proofs.Pair.two.Lts.Start` has no field `sum-rest` — the fields that can be named here are `args`, `ranges`"],
     False, True),
    ([ANSWER + "`sum_is` is not in scope: not a local variable, nor a definition admitted earlier"], False, True),
    ([ANSWER + "`Rattle.low.proofs.Sums.sum_is` was not admitted"], False, True),
    ([NO_FIELD, ANSWER + "2 declarations that depend on `is_sum`, which was rejected, were not checked: returns-clause-ok, invariant_of-i"],
     False, True),
    ([NO_FIELD, ANSWER + "1 declaration that depends on `is_sum`, which was rejected, was not checked: returns-clause-ok"], False, True),
    ([NO_GOAL, OPEN], False, True),
    ([OPEN, NO_FIELD], True, True),
    ([OTHER_VALUE, NO_GOAL, OPEN], True, True),
    ([OPEN.replace("10:9", "5:5"), NO_FIELD.replace("Pair/two", "one")], False, False),
]


# Files of edits, each with what --texts says of it.
NO_LINE = "before a line 'new:' there is no line 'file:' or 'old:'"
TEXTS = {
    "must-fail/good": ("A sentence.\nfile: src/lib.rt\nold: a + 1\nnew: a + 2\nold: self.a + 3\nnew:\n", ""),
    "must-fail-tests/good": ("test: low one\nfile: src/lib.rt\nold: a + 1\nnew: a + 2\n", ""),
    "must-fail-more/gone": (
        "file: src/lib.rt\nold: a + 1\nnew: a + 2\nold: a + 7\nnew: a\n",
        "src/lib.rt has 0 times, and not once: a + 7",
    ),
    "must-fail-tests/twice": (
        "test: low one\nfile: src/lib.rt\nold: self.a\nnew: a\n",
        "src/lib.rt has 2 times, and not once: self.a",
    ),
    "must-fail/replaced": (
        "file: src/lib.rt\nold: a + 1\nnew: a + 2\nnew: a + 3\n",
        "src/lib.rt has 0 times, and not once: a + 1",
    ),
    "must-fail/no_file": ("file: src/gone.rt\nold: a + 1\nnew: a\n", "there is no file src/gone.rt"),
    "must-fail/no_file_line": ("old: a + 1\nnew: a\n", NO_LINE),
    "must-fail/no_old_line": ("file: src/lib.rt\nnew: a\n", NO_LINE),
    "must-fail/no_new_line": ("file: src/lib.rt\nold: a + 1\n", "there is no line 'new:'"),
    "must-fail/with_control": ("file: src/lib.rt\nold: a + 1\nnew: let b = a; b\ncontrol: let b = a; b + 1\n", ""),
    "must-fail/without_control": (
        "file: src/lib.rt\nold: a + 1\nnew: let b = a; b\n",
        "it adds a function or a binding, and has no control",
    ),
    "must-fail-tests/without_control": ("test: low one\nfile: src/lib.rt\nold: a + 1\nnew: let b = a; b\n", ""),
}

# A function whose proof cannot have a hole.
NO_HOLE = """
fn no_hole_here(a: u32) -> u32 {
    a
}
"""


HEADS = {
    "impl Word": "Word",
    "impl<'b, F> Fields<'b, F>": "Fields",
    "impl Entry<Listed> for Word": "WordEntryListed",
    "impl Entry<Option<Listed>> for Word": "WordEntryOptionListed",
    "impl<'h> Plain for &'h Word": "RefWordPlain",
    "impl<'n, N: Entry<Item = Listed>> Entry<u8> for &'n N": "RefEntryU8",
    "impl<'a> Lent<'a> for &'a Word": "RefWordLent",
    "impl<T> Plain for Option<T>": "OptionPlain",
    "impl Entry<u8> for Option<Word>": "OptionWordEntryU8",
    "impl<T: Drop> From<AllocFailed<T>> for Fault": "FaultFromAllocFailed",
    "impl fmt::Display for Fault": "FaultDisplay",
}

BLANKET = """impl<S: Start> Of for S {
    fn one() -> u8 {
        1
    }
}

impl<'a, S: Start> Of for Pair<'a, S> {
    fn one() -> u8 {
        1
    }
}
"""


NAMESAKE = """impl Pair {
    fn one() -> u8 {
        Other::one(Self::one(), Pair::one(), other.one(), one())
    }
}
"""


Pairs = list[Any]
MEMORY = "= 4_000_000, 2_500_000"


def module_of_edits() -> Any:
    """The script as a module."""
    loader = importlib.machinery.SourceFileLoader("edits", str(TOP / "tests/edits"))
    spec = importlib.util.spec_from_loader("edits", loader)
    assert spec
    edits = importlib.util.module_from_spec(spec)
    loader.exec_module(edits)
    return edits


class WithProver(unittest.TestCase):
    def setUp(self) -> None:
        folder = tempfile.TemporaryDirectory(prefix="scripts-")
        self.addCleanup(folder.cleanup)
        self.folder = Path(folder.name)
        self.number = 0

    def make_tree(self, edits: list[tuple[str, Pairs]], source: str = SOURCE) -> None:
        """A repository of one crate with these edits, and a kit."""
        self.number += 1
        self.room = self.folder / str(self.number)
        self.tree, kit = self.room / "tree", self.room / "kit"
        crate = self.tree / "crates/low"
        for it in (crate / "src", crate / "must-fail", self.tree / "tests"):
            it.mkdir(parents=True)
        (self.tree / "crates.txt").write_text("# lowest first\nlow: sqlite\n")
        (crate / "src/lib.rt").write_text(source)
        for name, pairs in edits:
            lines = ["file: src/lib.rt"]
            for old, new, *control in pairs:
                lines += [f"old: {old}", f"new: {new}", *(f"control: {it}" for it in control)]
            (crate / f"must-fail/{name}.edit").write_text("\n".join(lines) + "\n")
        text = (TOP / "tests/edits").read_text()
        self.assertIn(MEMORY, text)
        put(self.tree / "tests/edits", text.replace(MEMORY, "= 0, 0"))    # (whatever this machine has)
        put(kit / "bin/rt", f"#!/bin/sh\ncat >/dev/null\necho {kit}/START-HERE.md\n")
        self.prover = put(kit / "bin/rattle", PROVER)
        (self.room / "asked").touch()
        self.env = os.environ | {"PATH": f"{kit}/bin:{os.environ['PATH']}", "ASKED": f"{self.room}/asked"}

    def asked_lines(self) -> list[str]:
        return (self.room / "asked").read_text().splitlines()

    def try_edits(self, edits: list[Any], source: str = SOURCE, *words: str) -> dict[str, str]:
        """What the script says of each edit, asked with these words; `last` is its last line, with its status, `lost` the one above it on
        lost names, and `asked` what it asked the prover."""
        self.make_tree([it[:2] for it in edits], source)
        ran = subprocess.run([self.tree / "tests/edits", *words], env=self.env, capture_output=True, text=True)
        *lines, last = ran.stdout.strip().split("\n")
        self.last, self.asked = (last, ran.returncode), self.asked_lines()
        self.lost = [lines.pop()] if lines and lines[-1].endswith("lost a name") else []
        return {name.removeprefix("low/"): rest.split(":")[0] for name, _, rest in (it.partition(": ") for it in lines)}


class Edits(WithProver):
    def test_all(self) -> None:
        self.assertEqual(self.try_edits(EDITS), {name: wanted for name, _, wanted in EDITS})
        self.assertEqual((self.lost, self.last), (["2 of them lost a name"], ("7 passed, 7 failed", 1)))

    def test_what_is_refused(self) -> None:
        edits = module_of_edits()
        for lines, is_refused, has_lost in SAID:
            check = object.__new__(edits.Check)
            check.texts, check.lines = {"src/lib.rt": SOURCE}, edits.messages_in("\n".join(["fn low::one: proved", *lines]))
            said = check.said_of("src/lib.rt", 1)
            self.assertEqual((said.refusal, bool(said.lost)), (lines[0] if is_refused else None, has_lost), lines)

    def test_lost_names(self) -> None:
        said = self.try_edits([("one_renamed", [("a + 1", "renamed + 1")]), EDITS[1]])
        self.assertEqual(said, {"one_renamed": "LOST A NAME", "two_wrong": "refused"})
        self.assertEqual((self.lost, self.last), (["1 of them lost a name"], ("1 passed, 1 failed", 1)))
        said = self.try_edits([("one_wrong", [("a + 1", "let b = a; b + wrong", "let b = a; renamed + 1")])])
        self.assertEqual(said, {"one_wrong": "refused", "one_wrong, its control": "FAILED"}, "a control that has lost a name is not proved")

    def test_two_at_once(self) -> None:
        self.try_edits(EDITS[:2])
        self.assertEqual(self.last, ("2 passed, 0 failed", 0))
        self.assertEqual([it.split(" ", 3)[3] for it in self.asked], ["2 Pair/three"])

    def test_two_of_one_function(self) -> None:
        self.try_edits(EDITS[1:3])
        self.assertEqual(self.last, ("2 passed, 0 failed", 0))
        self.assertEqual([it.split(" ", 3)[3] for it in self.asked], ["2 Pair/three one"], "the function and its copy")
        said = self.try_edits([EDITS[1], ("two_wrong_not", [("self.a + 2", "2 + self.a")])])
        self.assertEqual((said, len(self.asked)), ({"two_wrong": "refused", "two_wrong_not": "FAILED"}, 2), "a copy that is not wrong")

    def test_what_changes_a_head(self) -> None:
        head = ("a_head", [("one(a: u32)", "one(b: u32, a: u32)"), ("a + 1", "b + wrong")])
        self.try_edits([head, EDITS[0]])
        self.assertEqual((self.last, len(self.asked)), (("2 passed, 0 failed", 0), 1))
        self.try_edits([head])
        self.assertEqual((self.last, len(self.asked)), (("1 passed, 0 failed", 0), 1))

    def test_a_function_left_alone(self) -> None:
        self.try_edits([EDITS[0]], SOURCE.replace("self.a + 3", "self.a + 3 - wrong"))
        self.assertEqual([it.split(" ", 3)[3] for it in self.asked], ["1 Pair/three Pair/two"], "it keeps its body")

    def test_a_hole_that_is_refused(self) -> None:
        said = self.try_edits([("one_right", [("a + 1", "1 + a")])], SOURCE + NO_HOLE)
        self.assertEqual((said, self.last), ({"one_right": "FAILED"}, ("0 passed, 1 failed", 1)))
        self.assertEqual((len(self.asked), self.asked[-1][-2:]), (2, " 0"), "it is tried once more, with no hole")

    def test_controls(self) -> None:
        said = self.try_edits([("one_wrong", [("a + 1", "let b = a; b + wrong", "let b = a; b + 1")]), EDITS[1]])
        self.assertEqual((self.last, said["one_wrong, its control"]), (("3 passed, 0 failed", 0), "proved"))
        self.assertEqual([it.split(" ", 3)[3] for it in self.asked], ["2 Pair/three"], "it is tried in a copy")
        said = self.try_edits([("one_wrong", [("a + 1", "wrong + 1", "1 + wrong")])])
        self.assertEqual((said, self.last[1]), ({"one_wrong": "refused", "one_wrong, its control": "FAILED"}, 1))
        self.assertEqual((len(self.asked), self.asked[-1][-2:]), (2, " 1"), "it is tried once more, with no hole")
        said = self.try_edits([("two_wrong", [("self.a + 2", "self.a + wrong"), ("a + 1", "a + wrong", "1 + a")])])
        self.assertEqual(said["two_wrong, its control"], "FAILED", "it has the texts that it does not name")

    def test_no_edit_is_made(self) -> None:
        self.try_edits(EDITS[:2], SOURCE, "--control")
        self.assertEqual(self.last, ("2 passed, 0 failed", 0))
        self.assertEqual([it.split(" ", 3)[3] for it in self.asked], ["0 Pair/three"])
        said = self.try_edits(EDITS[:2], SOURCE.replace("a + 1", "a + 1 - wrong"), "--control")
        self.assertEqual((said, self.last[1]), ({"one_wrong": "FAILED", "two_wrong": "proved"}, 1))

    def test_none(self) -> None:
        self.try_edits([])
        self.assertEqual((self.last, self.asked), (("0 passed, 0 failed", 0), []))

    def look_at_texts(self, names: list[str]) -> tuple[str, int]:
        """What --texts prints of these edits, where neither the prover nor rt is on the path, and the status."""
        self.make_tree([])
        for name in names:
            file = self.tree / f"crates/low/{name}.edit"
            file.parent.mkdir(exist_ok=True)
            file.write_text(TEXTS[name][0])
        words = [sys.executable, str(self.tree / "tests/edits"), "--texts"]
        ran = subprocess.run(words, env={"PATH": "/usr/bin:/bin"}, capture_output=True, text=True)
        return ran.stdout, ran.returncode

    def test_texts(self) -> None:
        faults = [(f"crates/low/{name}.edit", TEXTS[name][1]) for name in sorted(TEXTS, key=Path) if TEXTS[name][1]]
        lines = [f"{name}: FAILED: {fault}\n" for name, fault in faults]
        self.assertEqual(self.look_at_texts(list(TEXTS)), ("".join(lines) + f"4 passed, {len(faults)} failed\n", 1))
        good = [name for name, (_, fault) in TEXTS.items() if not fault]
        self.assertEqual(self.look_at_texts(good), ("4 passed, 0 failed\n", 0))

    def test_names(self) -> None:
        """Functions of implementations, as a check with the prover named them."""
        names = [it.path_in("src/lib.rt") for it in module_of_edits().functions_of(BLANKET)]
        self.assertEqual(names, ["AnyOf::one", "PairOf::one"])
        for head, name in HEADS.items():
            text = f"{head} {{\n    fn put(&self) -> u8 {{\n        1\n    }}\n}}\n"
            (found,) = module_of_edits().functions_of(text)
            self.assertEqual((found.path_in("src/lib.rt"), found.is_alone), (f"{name}::put", " for " not in head))

    def test_what_checks_keep(self) -> None:
        """The checks of a crate have one folder, which is gone once another crate is tried."""
        kept = module_of_edits().Kept()
        low = Path(kept.of("low"))
        (low / "proved").touch()
        self.assertEqual(kept.of("low"), str(low))
        self.assertTrue((low / "proved").exists())
        self.assertNotEqual(kept.of("high"), str(low))
        self.assertFalse(low.exists())

    def test_namesakes(self) -> None:
        """A copy of a function calls the copy of itself, and as before a function of another type that has its name."""
        edits = module_of_edits()
        (self.folder / "src").mkdir()
        (self.folder / "src/lib.rt").write_text(NAMESAKE)
        one = edits.Round(self.folder, True)
        one.copy("src/lib.rt", NAMESAKE, edits.functions_of(NAMESAKE)[0], {"one": "one_2"})
        copied = one.texts["src/lib.rt"].removeprefix(NAMESAKE).strip()
        self.assertIn("fn one_2() -> u8 {\n        Other::one(Self::one_2(), Pair::one_2(), other.one(), one_2())\n", copied)


class Proved(WithProver):
    """With --prove the libraries are those that rt ci builds in a copy without the edits."""

    def call(self, *lines: str) -> tuple[int, list[str]]:
        """The status and what is said, with an rt whose `rt ci` has these lines."""
        self.make_tree([EDITS[0][:2]])
        (self.tree / "HANDLES").write_text("Handles allowed: Net.\n")
        doc = f'[ "$1" != doc ] || {{ echo "{self.room}/kit/START"; exit; }}'
        put(self.room / "kit/bin/rt", "\n".join(["#!/bin/sh", doc, *lines]) + "\n")
        ran = subprocess.run([self.tree / "tests/edits", "--prove", "--jobs", "1", "low"], env=self.env, stdin=subprocess.DEVNULL,
                             stdout=subprocess.PIPE, text=True)
        return ran.returncode, ran.stdout.splitlines()

    def test_they_are_built_first(self) -> None:
        status, said = self.call(f"ls -d crates/* crates/*/* >'{self.folder}/copy'")
        self.assertEqual((status, said[-1]), (0, "1 passed, 0 failed"), said)
        self.assertEqual((self.folder / "copy").read_text().split(), ["crates/low", "crates/low/src"])

    def test_they_are_not_proved(self) -> None:
        self.assertEqual(self.call("echo this is not proved; exit 1"), (1, ["this is not proved", "0 passed, 1 failed"]))
        self.assertEqual(self.asked_lines(), [])


class Divided(WithProver):
    """Of a crate with many edits each is in one of several trials, together with its control."""

    def test_each_is_in_one(self) -> None:
        named = [(f"edit_{at:02}", [("a + 1", "let b = a; b", "let b = a; b + 1")]) for at in range(41)]
        self.make_tree(named)
        edits = module_of_edits()
        edits.HERE = self.tree
        crates = edits.Crates(self.tree)
        parts = [[(it.name, it.is_control) for it in trial.edits] for trial in edits.trials_of(crates, "low", "must-fail")]
        self.assertEqual([len(it) for it in parts], [28, 28, 26])
        self.assertEqual(sorted(sum(parts, [])), sorted((name, is_control) for name, _ in named for is_control in (False, True)))
        self.assertTrue(all((name, not is_control) in it for it in parts for name, is_control in it), "a control is with its edit")
        self.assertEqual(edits.trials_of(crates, "low", "must-fail-more"), [], "a crate without edits has no trial")


class Trial:
    def __init__(self, size: int, kilobytes: int) -> None:
        self.size, self.kilobytes = size, kilobytes

    def memory(self) -> int:
        return self.kilobytes


class Lanes(unittest.TestCase):
    """What is begun, with 20 GB free and five checks at once: the largest crates first."""

    def setUp(self) -> None:
        self.edits = module_of_edits()
        self.have(20_000_000, 0)

    def have(self, free: int, held: int) -> None:
        self.edits.memory_available, self.edits.memory_held = lambda: free, lambda: held

    def lanes(self) -> Any:
        return self.edits.Lanes([Trial(size, 5_500_000 if size % 2 else 2_500_000) for size in range(1, 8)], 5)

    def begin(self, lanes: Any) -> list[int]:
        begun = []
        while lanes.waiting and (trial := lanes.choose()):
            begun.append(trial.size)
            lanes.running[trial] = trial
        return begun

    def test_as_many_as_may_be(self) -> None:
        lanes = self.lanes()
        self.assertEqual(self.begin(lanes), [7, 6, 5, 4, 2])
        self.assertEqual(self.begin(lanes), [], "that is all")

    def test_what_runs_needs_its_memory(self) -> None:
        self.have(14_000_000, 0)
        lanes = self.lanes()
        self.assertEqual(self.begin(lanes), [7, 6, 5])
        self.have(6_000_000, 8_000_000)
        self.assertEqual(self.begin(lanes), [], "the checks hold 8 GB of 13.5")
        self.have(6_000_000, 13_500_000)
        self.assertEqual(self.begin(lanes), [4, 2], "they hold all")

    def test_no_memory(self) -> None:
        self.have(1_000_000, 0)
        self.assertEqual(self.begin(self.lanes()), [7], "one is tried always")

    def test_what_a_crate_needs(self) -> None:
        with tempfile.TemporaryDirectory() as folder:
            (Path(folder) / "crates.txt").write_text("low: sqlite sqlite_tied\nhigh: low jiff # no sqlite\n")
            crates = self.edits.Crates(Path(folder))
        self.assertGreater(crates.memory("low"), crates.memory("high"))

    def test_memory(self) -> None:
        edits = module_of_edits()
        self.assertGreater(edits.memory_available(), 0)
        before = edits.memory_held()
        process = subprocess.Popen([sys.executable, "-c", "x = bytearray(10 ** 8); print(1, flush=True); input()"],
                                   stdin=subprocess.PIPE, stdout=subprocess.PIPE)
        assert process.stdout
        process.stdout.readline()
        self.assertGreater(edits.memory_held(), before + 90_000)
        process.communicate(b"\n")
