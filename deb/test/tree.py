"""The tree that packages and releases are made of, and commands over it."""

from __future__ import annotations

import pathlib
import shutil
import subprocess
import tempfile
from collections.abc import Iterator
from typing import Any

import pytest

Done = subprocess.CompletedProcess[str]
DEB = pathlib.Path(__file__).resolve().parent.parent
TOP = DEB.parent


def run(*words: object, ok: bool = False, **more: Any) -> Done:
    """Runs a command, and keeps what it prints; with `ok` it must not fail."""
    return subprocess.run([str(word) for word in words], check=ok, capture_output=True, text=True, **more)


def output(done: Done) -> str:
    """The last 300 signs of what a command said, in one line."""
    return (done.stdout + done.stderr).strip().replace("\n", "; ")[-300:]


def copy_tree(goal: pathlib.Path) -> pathlib.Path:
    """Copies what the package and a release are made of; the crates' sources are not."""
    goal.mkdir()
    for name in ("deb", "field", "docs", "examples", "dist"):
        shutil.copytree(TOP / name, goal / name, symlinks=True, ignore=shutil.ignore_patterns("out", "__pycache__"))
    for name in ("VERSION", "CHANGELOG.md", "crates.txt"):
        shutil.copy(TOP / name, goal / name)
    (goal / "tools").mkdir()
    for name in ("current", "release", "verify", "version"):
        shutil.copy(TOP / "tools" / name, goal / "tools" / name)
    return goal


@pytest.fixture(scope="module")
def room() -> Iterator[pathlib.Path]:
    """An empty folder, removed at the end."""
    with tempfile.TemporaryDirectory() as folder:
        yield pathlib.Path(folder)
