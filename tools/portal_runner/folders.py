"""The folder of a run of ./test: it has a short name, as sockets are made below it, and is removed whole."""

from __future__ import annotations

import contextlib
import os
import shutil
import tempfile
from pathlib import Path


def make_folder() -> Path:
    return Path(tempfile.mkdtemp(prefix="portal-test.", dir=os.environ.get("TMPDIR") or "/tmp"))


def remove(folder: Path) -> None:
    """Removes a folder, also what nobody may write there, and while another thread removes a part of it."""

    def mend(_call: object, path: str, _fault: object) -> None:
        parent = Path(path).parent
        if parent == folder or folder in parent.parents:
            with contextlib.suppress(OSError):
                parent.chmod(0o700)
                shutil.rmtree(path, ignore_errors=True)
                Path(path).unlink(missing_ok=True)

    shutil.rmtree(folder, onerror=mend)
    shutil.rmtree(folder, ignore_errors=True)
