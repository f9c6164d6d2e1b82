"""`portal-venues collect` as a process, below a folder: collect_process.py ROOT DATABASE PROGRAM ..

The numbers of the servers' processes are in ROOT/run/desks, where a machine has units.
"""

from __future__ import annotations

import contextlib
import pathlib
import sys

from portal_field.backup.backup import held_still, state_of
from portal_field.venues import collect, table
from portal_field.venues.places import BadVenue, Machine, Places


def hold(places: Places) -> contextlib.AbstractContextManager[None]:
    """Holds the server of a venue still; one that does not run needs nothing."""
    pid = int((places.root / "run/desks" / places.name).read_text())
    runs = bool(set(state_of(pid)) - {"Z"})
    return held_still(pid if runs else None, not runs, places.database)


def main() -> int:
    """The status of the command."""
    root, database, program = pathlib.Path(sys.argv[1]), sys.argv[2], sys.argv[3:]
    try:
        results = collect.Collector(Machine("127.0.0.1", database=database, machine="one"), root, hold, program).run()
    except (BadVenue, table.Away, OSError) as fault:
        print(f"the view is as it was: {fault}")
        return 1
    for result in results:
        print(*result.lines, sep="\n")
    return collect.SILENT if any(result.fault for result in results) else 0


if __name__ == "__main__":
    sys.exit(main())
