"""Which tests each machine of deb/test/run has, boot by boot.

    boots.py [NAME ..]      prints the machines that have these tests; status 2 for a NAME that none has, and
                            where a file of tests is in no boot

A NAME is a machine, a file of tests, or a test, as upgrade_test.py::test_rollback.
"""

from __future__ import annotations

import ast
import pathlib
import sys

HERE = pathlib.Path(__file__).resolve().parent
# The first file of each boot but a machine's first one needs what the last file of the boot before leaves.
BOOTS = {
    "venue": (("set_up_test.py", "guest_test.py", "killed_test.py", "networks_test.py", "copies_test.py",
               "attacks_test.py",
               "half_requests_test.py", "doctor_test.py", "plans_test.py", "restore_test.py", "logs_test.py",
               "before_reboot_test.py"),
              ("reboot_test.py", "upgrade_test.py", "migration_test.py", "removal_test.py", "by_hand_test.py")),
    "faults": (("before_clock_test.py",), ("wrong_clock_test.py", "healing_test.py", "before_reset_test.py"),
               ("reset_test.py",)),
    "beside": (("quick_way_test.py", "first_release_test.py", "venues_test.py", "chain_test.py", "parts_test.py", "many_vouchers_test.py", "shop_test.py"),),
    "again": (("before_loss_test.py",), ("new_machine_test.py",))}     # between them the machine is lost
RESET = "before_reset_test.py"      # after it the machine is reset, and not shut down


def tests_of(file: str) -> list[str]:
    """The names of a file's tests, in their order."""
    body = ast.parse((HERE / file).read_text(encoding="utf-8")).body
    return [it.name for it in body if isinstance(it, ast.FunctionDef) and it.name.startswith("test_")]


def test_of(name: str) -> str:
    """The name of a test without its file and its parameters."""
    return name.partition("::")[2].partition("[")[0]


def named(machine: str, file: str, names: list[str]) -> list[str]:
    """What of a file is to run: the file, some of its tests in their order, or nothing."""
    if not names or machine in names or file in names:
        return [file]
    tests = [name for name in names if name.partition("::")[0] == file]
    return sorted(tests, key=lambda name: tests_of(file).index(test_of(name)))


def plan(machine: str, names: list[str]) -> list[list[str]]:
    """What runs in each boot of a machine. Where nothing needs the boot, the tests of two are run in one."""
    boots: list[list[str]] = [[]]
    for number, files in enumerate(BOOTS[machine]):
        wanted = [name for file in files for name in named(machine, file, names)]
        if number and wanted and wanted[0].partition("::")[0] == files[0]:
            before = BOOTS[machine][number - 1][-1]
            boots[-1] += [before] if before not in boots[-1] else []
            boots.append([])
        boots[-1] += wanted
    return boots


def has(machine: str, name: str) -> bool:
    """Whether a machine has such tests."""
    file = name.partition("::")[0]
    if name == machine:
        return True
    is_here = any(file in files for files in BOOTS[machine])
    return is_here and (name == file or test_of(name) in tests_of(file))


def misplaced() -> set[str]:
    """The files of tests that no boot has, and those of boots that are not there."""
    return {path.name for path in HERE.glob("*_test.py")} ^ {
        file for boots in BOOTS.values() for files in boots for file in files}


def main() -> int:
    """Runs the machines that were named, or all. 0: every test passed, 1: one failed, 2: a wrong command line."""
    names = sys.argv[1:]
    if odd := misplaced():
        print(f"deb/test/run: boots.py and this folder differ by {', '.join(sorted(odd))}", file=sys.stderr)
        return 2
    machines = [machine for machine in BOOTS if not names or any(has(machine, name) for name in names)]
    unknown = [name for name in names if not any(has(machine, name) for machine in BOOTS)]
    if unknown:
        print(f"deb/test/run: no machine has {', '.join(unknown)}", file=sys.stderr)
        return 2
    print(*machines)
    return 0


if __name__ == "__main__":
    sys.exit(main())
