"""Parts that not every venue has: whether what they need is installed, where field.toml turns them on."""

from __future__ import annotations

from collections.abc import Iterator

from portal_field.doctor.findings import Finding, Machine, good, wrong
from portal_field.settings import venue_file

RADIUS = {"/usr/sbin/freeradius": "freeradius", "/usr/lib/freeradius/rlm_python3.so": "freeradius-python3",
          "/usr/bin/radclient": "freeradius-utils"}
BARS = {"/usr/bin/zint": "zint"}
SEALED = {"/usr/bin/age": "age"}
METRICS = {"/usr/lib/python3/dist-packages/prometheus_client": "python3-prometheus-client"}


def optional(machine: Machine) -> Iterator[Finding]:
    """Whether parts that the settings turn on have what they need."""
    field = machine.field
    parts = (("[radius]", field.radius, RADIUS), ("metrics", field.metrics, METRICS),
             ("voucher_barcode", field.voucher_barcode, BARS), ("backup_key", field.backup_key, SEALED))
    for name, is_on, needed in parts:
        if not is_on:
            continue
        missing = [package for path, package in needed.items() if not machine.path(path).exists()]
        if missing:
            yield wrong(f"{name} is set, and {', '.join(missing)} is not installed: nothing of it runs",
                        f"`apt install {' '.join(missing)}`, then `portal-setup`")
        else:
            yield good(f"{name} is set, and what it needs is installed")


def venue_lines(machine: Machine) -> Iterator[Finding]:
    """Whether the counter takes the lines that a manager wrote; of a file with a mistake it takes none."""
    path = f"/etc/portal/{venue_file.FILE}"
    if not machine.path(path).exists():
        return
    try:
        venue_file.read(machine.read(path))
    except venue_file.BadVenueFile as fault:
        yield wrong(f"{path}: {fault}; those of field.toml count, or what it said before",
                    "save the page *Payment and receipts* of the counter again, or take the file away")
    else:
        yield good(f"{path} is whole")
