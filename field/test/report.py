"""What pytest does with all tests of the kit and of the package: options, markers, skips, and what is printed.

A line for each test as it ends: `ok   NAME  [SECONDS s]`, or `FAIL NAME: WHAT`, where WHAT is the first line of what its
first failed assert says. In the end `passed over: NAME: REASON` for what was skipped, and 'N passed, M failed'.
"""

from __future__ import annotations

import signal
from collections.abc import Generator
from typing import Any

import pytest
from needs import NEEDS, lacks

FAILED = pytest.StashKey[bool]()        # of a test, for its fixtures
MARKERS = {
    "quick": "needs no root, and python3 with the kit's libraries alone",
    "browser": "needs chromium",
    "packets": "needs root: network namespaces with nftables",
    "radius": "needs root: FreeRADIUS on loopback",
    "package": "needs lintian and other tools of Debian's packages",
    "container": "in a Debian 12 that deb/test/run has booted",
    "chromium(*options)": "what the browser of the test's file has on its command line",
    "lab(kind=CLASS, **settings)": "the class of the test's lab, and its lines of field.toml",
    "venue(*parts)": "what stands in the test's venue beside the server, FreeRADIUS and the agent: page, metrics"}


def first_line(fault: BaseException) -> str:
    """The first line of what a test that failed says."""
    text = str(fault) if isinstance(fault, AssertionError) else f"{type(fault).__name__}: {fault}"
    return (text.splitlines() or [type(fault).__name__])[0]


class Lines:
    """Prints what tests did, and counts it."""

    def __init__(self) -> None:
        self.took: dict[str, float] = {}
        self.failed: set[str] = set()
        self.skipped: dict[str, str] = {}

    def fails(self, name: str, words: str) -> None:
        """Prints a line for a test that failed, once."""
        if name not in self.failed:
            print(f"FAIL {name}: {words}", flush=True)
        self.failed.add(name)

    def pytest_runtest_logreport(self, report: pytest.TestReport) -> None:
        """Takes down how long a test took, and that it failed or was skipped."""
        name = report.nodeid
        self.took[name] = self.took.get(name, 0.0) + report.duration
        if report.failed:
            self.fails(name, getattr(report, "said", ""))
        elif report.skipped and isinstance(report.longrepr, tuple):
            self.skipped[name] = report.longrepr[2].removeprefix("Skipped: ")
        elif report.when == "teardown" and name not in self.failed and name not in self.skipped:
            print(f"ok   {name}  [{self.took[name]:.1f} s]", flush=True)

    def pytest_collectreport(self, report: pytest.CollectReport) -> None:
        """Counts a file that cannot be read as failed."""
        if report.failed:
            self.fails(report.nodeid, (str(report.longrepr).splitlines() or [""])[-1])

    def passed_over(self) -> list[str]:
        """A line for each test that was skipped; one for a file where that was so of all its tests."""
        files: dict[str, set[str]] = {}
        for name in self.took:
            files.setdefault(name.partition("::")[0], set()).add(self.skipped.get(name, ""))
        whole = {file: reasons.pop() for file, reasons in files.items() if len(reasons) == 1 and "" not in reasons}
        each = {name: why for name, why in self.skipped.items() if name.partition("::")[0] not in whole}
        return [f"passed over: {name}: {why}" for name, why in {**whole, **each}.items()]

    def pytest_unconfigure(self) -> None:
        """Prints what was passed over, and the counts."""
        passed = len(self.took.keys() - self.failed - self.skipped.keys())
        print(*self.passed_over(), f"{passed} passed, {len(self.failed)} failed", sep="\n", flush=True)


def pytest_addoption(parser: pytest.Parser) -> None:
    """Adds the options --portal and --seed."""
    parser.addoption("--portal", default="", metavar="'CMD ..'", help="the program, as a command line; else the stand-in")
    parser.addoption("--seed", type=int, default=20_202, help="of the requests of e2e_fuzz.py")


def interrupt(*_: object) -> None:
    """Ends the tests at SIGTERM, as Ctrl-C does."""
    raise KeyboardInterrupt     # so that all that tests made is removed then, too


def pytest_configure(config: pytest.Config) -> None:
    """Names the markers, and adds the plugin that prints a line for each failure."""
    for name, words in MARKERS.items():
        config.addinivalue_line("markers", f"{name}: {words}")
    config.pluginmanager.register(Lines(), "lines")
    signal.signal(signal.SIGTERM, interrupt)


def kind_of(item: pytest.Item) -> str:
    """The marker that says what a test needs; `quick` and `browser` are those of unit tests, by the names of their files."""
    marked = next((mark.name for mark in item.iter_markers() if mark.name in NEEDS), "")
    return marked or ("browser" if item.path.name.startswith("browser") else "quick")


def pytest_collection_modifyitems(items: list[pytest.Item]) -> None:
    """Gives each test the marker of its kind, and skips it where what this kind needs is missing."""
    for item in items:
        kind = kind_of(item)
        item.add_marker(kind)
        if why := lacks(*NEEDS[kind]):
            item.add_marker(pytest.mark.skip(reason=why))


@pytest.hookimpl(hookwrapper=True)
def pytest_runtest_makereport(item: pytest.Item, call: pytest.CallInfo[None]) -> Generator[None, Any, None]:
    """Puts the first line of what failed into the report; the test's node has whether it failed, for its
    fixtures."""
    made = yield
    report = made.get_result()
    if report.failed and call.excinfo:
        report.said = first_line(call.excinfo.value)
        item.stash[FAILED] = True


def pytest_report_teststatus(report: pytest.TestReport) -> tuple[str, str, str]:
    """Has pytest print no letters, as Lines prints a line. What was made before and removed after a test is
    counted where it failed."""
    return (report.outcome if report.when == "call" or not report.passed else ""), "", ""


@pytest.fixture(scope="session")
def portal(request: pytest.FixtureRequest) -> str:
    """The program's command line, or nothing: then the desk is the stand-in, and a test says nothing of the program."""
    line = str(request.config.getoption("--portal"))
    if not line:
        print("note the desk is the stand-in for tests, not the program")
    return line
