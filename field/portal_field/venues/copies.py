"""portal-venues-backup.service: copies the databases of all venues by name, one after another. What fails at
one hinders no other.

    python3 -m portal_field.venues.copies [NAME ..]
"""

from __future__ import annotations

import pathlib
import subprocess
import sys

from portal_field import KIT
from portal_field.venues.places import Places, venues_in

KEPT = "60"     # copies of each venue


def copy(places: Places) -> bool:
    """Copies the database and the counter's journal of a venue; whether that went well. One that has sold
    nothing yet has no database, and needs no copy."""
    if not places.database.exists():
        print(f"{places.name}: no database yet", flush=True)
        return True
    places.copies.mkdir(parents=True, exist_ok=True, mode=0o700)
    words = [str(KIT / "portal-backup"), "--unit", places.unit, "--check",
             str(places.settings / "portal.toml"), "--keep", KEPT, "--journal",
             str(places.counter_state / "journal.db"), str(places.database), str(places.copies)]
    done = subprocess.run(words, capture_output=True, text=True)
    word = done.stdout.strip() if done.returncode == 0 else f"FAILED: {done.stderr.strip()}"
    print(f"{places.name}: {word}", flush=True)
    if done.returncode == 0:
        (places.copies / "copied").touch()
    return done.returncode == 0


def main(names: list[str]) -> int:
    """Copies the venues of these names, or all; 0 where each copy is good."""
    root = pathlib.Path("/")
    results = [copy(Places(name, root)) for name in names or venues_in(root)]
    return 0 if all(results) else 1


if __name__ == "__main__":
    sys.exit(main(sys.argv[1:]))
