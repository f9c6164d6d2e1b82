"""A store of schema version 1 that is adopted while memory is wanting, in one process. One test of portal_tests_storage adopts it, again
and again over the connection that is returned, and looks at what stands there in the end. Some of its requests for memory are refused
alone; then some of those that are made while the store is adopted, each with some of those that the next try makes.

usage: adopting.py TESTS LIBRARY

The last line is 'memory: N passed, M failed', in runs of the test."""

import concurrent.futures
import os
import re
import subprocess
import sys
import tempfile
import typing

from refusing import LIBRARY, environment

TEST = "attaching::attached_after_out_of_memory"
SAID = re.compile(r"handed back (\d), given up (\d)\n")
# Every so many requests for memory are refused alone; every so many of these are refused with others, which are so far apart.
STEP, FIRST_STEP, SECOND_STEP = 13, 40, 331
# After so many in a row that leave no trace, the first store is done.
BLOCK = 16


class Came(typing.NamedTuple):
    """How often the store was returned, and given up, before it was adopted; and whether the test passed."""

    handed_back: int
    given_up: int
    is_right: bool


def came(program, *numbers):
    """What comes of the test with the requests for memory of these numbers refused."""
    with tempfile.TemporaryDirectory() as room:
        what = environment(" ".join(map(str, numbers)), os.path.join(room, "said"))
        done = subprocess.run([program, TEST], env=what, capture_output=True, text=True, check=False, timeout=60)
    said = SAID.search(done.stdout)
    if not said:
        return Came(0, 0, False)
    return Came(int(said[1]), int(said[2]), done.returncode == 0)


class Trial:
    """The runs of the test, and how many of them passed."""

    def __init__(self, program, pool):
        self.program, self.pool, self.passed, self.failed = program, pool, 0, 0

    def refuse(self, most, several):
        """What comes of the test with each of these lists of requests refused. The store is returned or given up so often at most."""
        ends = list(self.pool.map(lambda numbers: came(self.program, *numbers), several))
        for numbers, end in zip(several, ends):
            is_right = end.is_right and end.handed_back + end.given_up <= most
            self.passed, self.failed = self.passed + is_right, self.failed + (not is_right)
            if not is_right:
                print(f"memory: requests {numbers} refused: FAILED: {end}", flush=True)
        return ends

    def adopting(self):
        """The numbers of the requests that are refused alone and have the store returned: those of the first try."""
        found, start = [], 1
        while True:
            several = [[number] for number in range(start, start + STEP * BLOCK, STEP)]
            ends = self.refuse(1, several)
            found += [number for [number], end in zip(several, ends) if end.handed_back]
            if not any(end.handed_back or end.given_up for end in ends):
                return found
            start += STEP * BLOCK

    def refuse_twice(self, found):
        """Refuses requests of the first try, each with some of the next, which makes as many as the first. Answers how often the store
        was returned twice, and how often that was tried."""
        many, several = found[-1] - found[0] if found else 0, []
        for place in range(0, len(found), FIRST_STEP):
            several += [[found[place], found[place] + after] for after in range(1 + 7 * place % SECOND_STEP, many, SECOND_STEP)]
        ends = self.refuse(2, several)
        return sum(end.handed_back == 2 for end in ends), len(ends)


def main():
    program, LIBRARY["path"] = sys.argv[1:3]
    with concurrent.futures.ThreadPoolExecutor(os.cpu_count() or 2) as pool:
        trial = Trial(program, pool)
        found = trial.adopting()
        twice, pairs = trial.refuse_twice(found)
    print(f"memory: adopting: {len(found)} requests refused alone at the first try; of {pairs} pairs {twice} at the first try and at the next")
    if not found or 2 * twice < pairs:
        print("memory: adopting: FAILED: the next try was hardly reached")
        trial.failed += 1
    print(f"memory: {trial.passed} passed, {trial.failed} failed")
    return 1 if trial.failed else 0


if __name__ == "__main__":
    sys.exit(main())
