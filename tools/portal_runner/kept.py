"""The results of ./test that are kept on this machine: what passed, by the digest of all that it read."""

from __future__ import annotations

import json
import os
import tempfile
import time
from pathlib import Path
from typing import NamedTuple

DAYS = 60


class Kept(NamedTuple):
    """A pass: how many checks, what was skipped and why, and the seconds of the processor."""

    passed: int
    skipped: list[str]
    seconds: float


def folder_of_user() -> Path | None:
    """Where this user's results are, or nothing where there is no such place."""
    cache = os.environ.get("XDG_CACHE_HOME") or (
        os.environ.get("HOME") and os.path.join(os.environ["HOME"], ".cache")
    )
    return Path(cache) / "portal-tests" if cache else None


class Store:
    """A file for each digest, written whole or not at all: several runs may use the folder at a time."""

    def __init__(self, folder: Path | None) -> None:
        self.folder = folder
        if folder:
            try:
                folder.mkdir(mode=0o700, parents=True, exist_ok=True)
            except OSError:
                self.folder = None

    def path_of(self, digest: str) -> Path | None:
        return self.folder / digest if self.folder else None

    def get(self, digest: str) -> Kept | None:
        path = self.path_of(digest)
        try:
            row = json.loads(path.read_text(encoding="utf-8")) if path else None
            found = (
                Kept(int(row["passed"]), [str(it) for it in row["skipped"]], float(row["seconds"]))
                if row
                else None
            )
            if path and found:
                os.utime(path)
            return found
        except (OSError, ValueError, KeyError, TypeError):
            return None

    def keep(self, digest: str, step: str, kept: Kept) -> None:
        path = self.path_of(digest)
        if not path:
            return
        try:
            with tempfile.NamedTemporaryFile("w", dir=path.parent, delete=False, encoding="utf-8") as file:
                json.dump({"step": step, **kept._asdict()}, file)
            os.replace(file.name, path)
        except OSError:
            pass  # (it is tried again by the next run)

    def forget(self, digest: str) -> None:
        path = self.path_of(digest)
        if path:
            path.unlink(missing_ok=True)

    def prune(self, now: float | None = None) -> None:
        """Removes what no run has used for DAYS."""
        for path in self.folder.iterdir() if self.folder else ():
            try:
                if path.stat().st_mtime < (now or time.time()) - DAYS * 86_400:
                    path.unlink()
            except OSError:
                pass
