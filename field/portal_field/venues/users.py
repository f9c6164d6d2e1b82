"""The user of each venue by name, which its server has for itself: made by systemd-sysusers, at a boot too.

    python3 -m portal_field.venues.users    makes those of this machine, for a script of the package
"""

from __future__ import annotations

import pathlib
import subprocess
import sys

from portal_field.venues.files import Files
from portal_field.venues.places import NAME

FILE = "etc/sysusers.d/portal-venues.conf"
HEAD = "# Made by portal-venues: a user of each venue by name, also of one that was retired.\n"


def text_for(root: pathlib.Path) -> str:
    """The lines for systemd-sysusers of all venues that have settings below a root, or had."""
    names = {path.parent.name for path in (root / "etc/portal/venues").glob("*/field.toml*")}
    return HEAD + "".join(f'u portal_{name} - "server of the venue {name}"\n'
                          for name in sorted(names) if NAME.fullmatch(name))


def make(root: pathlib.Path) -> None:
    """Makes the users that are not there yet. OSError, subprocess.SubprocessError: they are not made."""
    Files(None, root, "").write(root / FILE, text_for(root))    # type: ignore[arg-type]
    subprocess.run(["systemd-sysusers", root / FILE], check=True, capture_output=True, text=True)


if __name__ == "__main__":
    make(pathlib.Path("/"))
    sys.exit(0)
