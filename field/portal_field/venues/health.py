"""What Prometheus reads of the venues by name: a file of metrics that portal-venues-clock writes at each
look, for the textfile collector of Debian's prometheus-node-exporter."""

from __future__ import annotations

import contextlib
import pathlib
from collections.abc import Mapping

from portal_field.venues.places import Places

FILE = "run/portal-venues/venues.prom"
HEADS = {
    "portal_venue_up": "1 while the server of the venue answers",
    "portal_venue_silent_seconds": "for how long the server has given no answer; 0: it answers",
    "portal_venue_copy_timestamp_seconds": "when the last good copy of the database was made"}


def copied_at(places: Places) -> float | None:
    """When the last good copy of a venue was made; None where there is none."""
    with contextlib.suppress(OSError):
        return (places.copies / "copied").stat().st_mtime
    return None


def metrics_text(root: pathlib.Path, silent: Mapping[str, float]) -> str:
    """The metrics of the venues in Prometheus' text format. `silent`: for how many seconds each of them has
    given no answer; 0: it answers."""
    values: dict[str, dict[str, float]] = {head: {} for head in HEADS}
    for name, seconds in sorted(silent.items()):
        values["portal_venue_up"][name] = float(not seconds)
        values["portal_venue_silent_seconds"][name] = round(seconds, 1)
        if (copied := copied_at(Places(name, root))) is not None:
            values["portal_venue_copy_timestamp_seconds"][name] = round(copied)
    return "".join(f"# HELP {head} {HEADS[head]}\n# TYPE {head} gauge\n"
                   + "".join(f'{head}{{venue="{name}"}} {value:.15g}\n' for name, value in found.items())
                   for head, found in values.items())


def write_metrics(root: pathlib.Path, silent: Mapping[str, float]) -> None:
    """Writes the file of metrics as a whole; without room for it Prometheus sees that it is old."""
    path = root / FILE
    part = path.with_name(f".{path.name}.part")
    with contextlib.suppress(OSError):
        part.write_text(metrics_text(root, silent))
        part.chmod(0o644)
        part.replace(path)
