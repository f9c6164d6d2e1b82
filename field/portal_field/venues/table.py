"""The table of venues in PostgreSQL, of all machines of a chain. Each machine writes the settings of its
venues from it into files, and works with these while PostgreSQL is away."""

from __future__ import annotations

import contextlib
import json
import pathlib
import tomllib
from collections.abc import Iterator
from typing import Any

from portal_field import KIT
from portal_field.venues.files import SECRET, Files
from portal_field.venues.places import BadVenue, Machine, Places, venues_in
from portal_field.venues.venue_settings import read_venue

PATIENCE = 5        # seconds for a connection
EXPORTER = 9100     # the port of prometheus-node-exporter
HEAD = "# Written by portal-venues from the table of venues: a change belongs there.\n"
ROWS = "SELECT name, settings, retired IS NOT NULL FROM portal.venue WHERE machine = %s ORDER BY name"
ADD = "INSERT INTO portal.venue (name, machine, settings) VALUES (%s, %s, %s)"
AGAIN = "UPDATE portal.venue SET retired = NULL, settings = %s WHERE name = %s AND machine = %s"
MACHINES = "SELECT DISTINCT machine FROM portal.venue WHERE retired IS NULL ORDER BY machine"
RETIRE = "UPDATE portal.venue SET retired = now() WHERE name = %s AND machine = %s AND retired IS NULL"


class Away(Exception):
    """PostgreSQL does not answer, or its library is not installed."""


@contextlib.contextmanager
def opened(machine: Machine) -> Iterator[Any]:
    """A connection in one transaction, with the table made. Away: it cannot be had. BadVenue: PostgreSQL
    refuses what is asked, and nothing is changed there."""
    try:
        import psycopg
    except ImportError as fault:
        raise Away("the Debian package python3-psycopg is not installed") from fault
    try:
        with psycopg.connect(machine.database, connect_timeout=PATIENCE) as link:
            if link.execute("SELECT to_regclass('portal.venue')").fetchone() == (None,):
                link.execute((KIT / "venues/table.sql").read_bytes())
            yield link
    except psycopg.OperationalError as fault:
        raise Away(f"{machine.database}: {str(fault).strip()}") from fault
    except psycopg.Error as fault:
        raise BadVenue(f"the table of venues: {str(fault).strip().splitlines()[0]}") from fault


def toml_text(values: dict[str, Any], path: str = "") -> str:
    """Values as a TOML file: lines first, and then the tables within."""
    lines = [f"{key} = {json.dumps(value, ensure_ascii=False)}\n" for key, value in values.items()
             if not isinstance(value, dict)]
    tables = [f"\n[{path}{key}]\n{toml_text(value, f'{path}{key}.')}" for key, value in values.items()
              if isinstance(value, dict)]
    return "".join([*lines, *tables])


def rows(machine: Machine) -> list[tuple[str, dict[str, Any], bool]]:
    """The venues of this machine: name, lines, whether it is retired. Away, BadVenue: as `opened` has it."""
    with opened(machine) as link:
        return list(link.execute(ROWS, (machine.own_name,)))


def ports(machine: Machine) -> set[int]:
    """The ports of this machine's venues, also of those that are retired."""
    return {int(settings["desk_port"]) for _, settings, _ in rows(machine)}


def add(machine: Machine, name: str, text: str) -> None:
    """Puts a venue of this machine into the table, or one that was retired again. BadVenue: the table has a
    venue of this name, or of another one its name of the counter's page or its port."""
    values = json.dumps(tomllib.loads(text))
    with opened(machine) as link:
        row = link.execute("SELECT machine, retired IS NULL FROM portal.venue WHERE name = %s",
                           (name,)).fetchone()
        if row is None:
            link.execute(ADD, (name, machine.own_name, values))
        elif row == (machine.own_name, False):
            link.execute(AGAIN, (values, name, machine.own_name))
        else:
            raise BadVenue(f"the table has a venue {name} already, on the machine {row[0]}")


def retire(machine: Machine, name: str) -> None:
    """Marks a venue as retired; one that is so already, or that the table has not, stays as it is."""
    with opened(machine) as link:
        link.execute(RETIRE, (name, machine.own_name))


def lines_of(path: pathlib.Path) -> dict[str, Any] | None:
    """The lines of a file; None where it is not there, or is no TOML."""
    try:
        return tomllib.loads(path.read_text(encoding="utf-8"))
    except (OSError, ValueError):
        return None


def export(machine: Machine, root: pathlib.Path) -> list[str]:
    """Writes the settings of this machine's venues into their files, where they differ; the names of those.
    One whose settings are not valid keeps its file, and that is said. Away: nothing is changed."""
    changed = []
    writer = Files(None, root, "")      # type: ignore[arg-type]
    for name, settings, is_retired in rows(machine):
        path = Places(name, root).field
        if is_retired or lines_of(path) == settings:
            continue
        text = HEAD + toml_text(settings)
        try:
            read_venue(text)
        except BadVenue as fault:
            print(f"{name}: the table's settings are not taken: {fault}", flush=True)
            continue
        writer.write(path, text, SECRET)
        changed.append(name)
        print(f"{name}: settings of the table are new", flush=True)
    return changed


def differences(machine: Machine, root: pathlib.Path) -> list[str]:
    """In what the files of this machine differ from the table, in words; that it is away is one."""
    try:
        found = {name: (settings, is_retired) for name, settings, is_retired in rows(machine)}
    except (Away, BadVenue) as fault:
        return [str(fault)]
    here = set(venues_in(root))
    lines = [f"{name} is not in the table: portal-venues add {name}" for name in sorted(here - found.keys())]
    for name, (settings, is_retired) in found.items():
        if is_retired and name in here:
            lines.append(f"{name} is retired in the table: portal-venues retire {name}")
        elif not is_retired and lines_of(Places(name, root).field) != settings:
            lines.append(f"the settings of {name} differ: portal-venues apply {name}")
    return lines


def targets(machine: Machine, port: int, domain: str) -> str:
    """The machines that have venues in the table, as Prometheus' file_sd has them. `domain` is put after
    their names. Away, BadVenue: as `opened` has it."""
    with opened(machine) as link:
        rows: list[tuple[str]] = list(link.execute(MACHINES))
    found: list[dict[str, Any]] = [
        {"targets": [f"{name}{f'.{domain}' if domain else ''}:{port}"], "labels": {"machine": name}}
        for name, in rows]
    return json.dumps(found, indent=1) + "\n"
