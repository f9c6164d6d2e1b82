"""portal-setup checks all before it changes anything: up to where it would write the venue's files, in a folder of its
own."""

from __future__ import annotations

import io
import os
import pathlib
import sys

import pytest
from portal_deb import setup
from portal_field.doctor.certificates import certificate
from portal_field.doctor.findings import Finding, Look, warning, wrong
from portal_field.settings.accounts import of_venue
from tree import TOP

SAMPLE = (TOP / "field/settings/field.toml").read_text()
GOOD, SHORT = "a-long-password\n", "short\n"


class SetUp:
    """`found`: what the checks find; `but`: those that are left out; `written`: what was wanted where files were made."""

    def __init__(self, folder: pathlib.Path, monkeypatch: pytest.MonkeyPatch) -> None:
        self.etc, self.patch = folder, monkeypatch
        self.found, self.but, self.written = list[tuple[str, Finding]](), tuple[Look, ...](), list[setup.Wanted]()
        self.refusal = ""
        (folder / "field.toml").write_text(SAMPLE.replace("/etc/portal", str(folder)))
        places: dict[str, object] = {
            "ETC": folder, "FIELD": folder / "field.toml", "PLANS": folder / "plans.toml", "examine": self.examine,
            "write_files": self.write_files, "refusal": lambda: self.refusal, "open_venue": lambda *_: 0, "replace": self.replace}
        for name, value in places.items():
            monkeypatch.setattr(setup, name, value)
        monkeypatch.setattr(os, "geteuid", lambda: 0)

    def examine(self, _: object, machine: object, __: object, ___: object = False, but: tuple[Look, ...] = ()) -> list[tuple[str, Finding]]:
        self.but = but
        return self.found if machine else []

    def write_files(self, wanted: setup.Wanted, _: object) -> SetUp:
        self.written.append(wanted)
        return self

    def put_back(self) -> None:
        self.written.pop()

    @staticmethod
    def replace(path: pathlib.Path, text: str, *_: object) -> None:
        path.write_text(text)

    def run(self, *words: str, typed: str = "") -> object:
        """Its status, or why it exits."""
        self.patch.setattr(sys, "argv", ["portal-setup", *words])
        self.patch.setattr(sys, "stdin", io.StringIO(typed))
        try:
            return setup.set_up()
        except SystemExit as end:
            return end.code

    def changed(self) -> list[str]:
        """The files that there are beside field.toml, and whether those of the venue were made."""
        return sorted({path.name for path in self.etc.iterdir()} - {"field.toml"}) + ["all"] * len(self.written)


@pytest.fixture
def set_up(tmp_path: pathlib.Path, monkeypatch: pytest.MonkeyPatch) -> SetUp:
    return SetUp(tmp_path, monkeypatch)


def test_what_is_refused(set_up: SetUp, capsys: pytest.CaptureFixture[str]) -> None:
    set_up.found = [("clock", wrong("it is not synchronised", "set it"))]
    status = set_up.run("--clerk", "ann", typed=GOOD)
    assert (status, set_up.changed(), *capsys.readouterr()) == (
        1, [], "", f"setup: {set_up.etc}/field.toml: it is not synchronised\n    do: set it\n"), (
        "a check that fails changes nothing, and a clerk is not said to be made")
    set_up.found = []
    for name, typed, why in (("ann", SHORT, "at least 10 characters"), ("a:b", GOOD, "portal-setup: ")):
        said = str(set_up.run("--clerk", name, typed=typed))
        assert why in said and set_up.changed() == [] and capsys.readouterr() == ("", ""), (
            f"a clerk that is refused changes nothing, and nothing more is said  [{said}]")
    assert set_up.run() == 1 and set_up.changed() == [] and "do: `portal-setup --clerk NAME`" in capsys.readouterr().err, (
        "nor does anything change where nobody could log in")


def test_what_nginx_refuses(set_up: SetUp, capsys: pytest.CaptureFixture[str]) -> None:
    set_up.refusal = "nginx refuses: x"
    assert (set_up.run("--clerk", "ann", typed=GOOD), set_up.changed(), capsys.readouterr().out) == (1, [], ""), (
        "where nginx refuses the files no clerk is made")


def test_what_is_made(set_up: SetUp, capsys: pytest.CaptureFixture[str]) -> None:
    set_up.found = [("addresses", warning("there is no default route", "set it"))]
    status = set_up.run("--clerk", "ann", typed=GOOD)
    shown = capsys.readouterr()
    assert (status, set_up.changed(), list(of_venue(set_up.etc))) == (0, ["clerks.toml", "all"], ["ann"]), (
        f"with all checked the files and the clerk are made  [{shown}]")
    assert "ann is a manager, with a new password" in shown.out and "there is no default route" in shown.err, "and it is said"
    assert set_up.but == () and not set_up.written[0].first_look, "the certificate is looked at"


def test_first_look(set_up: SetUp) -> None:
    assert set_up.run("--first-look", "--clerk", "ann", typed=GOOD) == 0 and set_up.written[0].first_look, "a certificate is made"
    assert set_up.but == (certificate,), "and is not looked for before"
    for name in ("cert", "key"):
        (set_up.etc / "tls").mkdir(exist_ok=True)
        (set_up.etc / f"tls/{name}.pem").touch()
    set_up.run("--first-look", typed=GOOD)
    assert set_up.but == () and not set_up.written[1].first_look, "where there is one it is looked at, and stays"


def test_on_a_terminal(set_up: SetUp, monkeypatch: pytest.MonkeyPatch) -> None:
    """The questions are in package_test.py: here they are not asked."""
    asked, answers = list[object](), iter(["ann", "yes"])
    monkeypatch.setattr(setup, "asks", lambda _: True)
    monkeypatch.setattr(setup, "ask", asked.append)
    monkeypatch.setattr(setup, "ask_prices", lambda: asked.append("prices"))
    monkeypatch.setattr("builtins.input", lambda _: next(answers))
    assert set_up.run(typed=GOOD) == 0 and asked == [False, "prices"], "it asks for lines and prices"
    assert set_up.written == [setup.Wanted(set_up.written[0].field, set_up.etc / "field.toml", "ann", True)], (
        "and for a clerk, and whether a first look is wanted")


def test_settings_that_cannot_be_read(set_up: SetUp, capsys: pytest.CaptureFixture[str]) -> None:
    path = set_up.etc / "field.toml"
    path.write_text(path.read_text().replace("grace_seconds", "grace_second"))
    assert set_up.run("--clerk", "ann", typed=GOOD) == 1 and set_up.changed() == [], "nothing is changed"
    place = next(number for number, line in enumerate(SAMPLE.splitlines(), 1) if line.startswith("grace_seconds"))
    said = capsys.readouterr().err.splitlines()[0]
    assert said == f"portal-setup: {path}, line {place}: unknown: grace_second (did you mean grace_seconds?)", (
        f"the line is named, and which key may be meant  [{said}]")
    path.unlink()
    assert set_up.run() == 1 and f"portal-setup: {path}: there is no such file\n    do: `cp " in capsys.readouterr().err, (
        "a file that is not there is named, and where to take one")
