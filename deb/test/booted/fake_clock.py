"""The clock of the server and of the counter's page is that of /etc/fake-clock (libfaketime), an offset such
as +3650d."""

from __future__ import annotations

import json
import pathlib

from machine import last_entry, passes, serves, sh, until

OFFSET, BEFORE = pathlib.Path("/etc/fake-clock"), pathlib.Path("/var/lib/venue-clock.json")
LIBRARY = "/usr/lib/x86_64-linux-gnu/faketime/libfaketime.so.1"
FAKE = "\n".join(("[Service]",
                  f"Environment=LD_PRELOAD={LIBRARY} FAKETIME_TIMESTAMP_FILE={OFFSET} FAKETIME_NO_CACHE=1",
                  "Environment=FAKETIME_DONT_FAKE_MONOTONIC=1 DONT_FAKE_MONOTONIC=1 NO_FAKE_STAT=1", ""))
UNITS = ("portal", "portal-counter")
AHEAD, BACK, RIGHT = "+3650d", "-3650d", "+0"


def folder(unit: str) -> pathlib.Path:
    """The folder of drop-ins of a unit."""
    return pathlib.Path(f"/etc/systemd/system/{unit}.service.d")


def set_clock(offset: str) -> None:
    """Sets by how much the services' clock differs from the machine's, as faketime writes it."""
    OFFSET.write_text(offset + "\n")


def begin_with_a_fake_clock(code: str) -> None:
    """Gives the services a clock of their own from the next start of the server; this code, and the moment of
    the last entry, are kept."""
    for unit in UNITS:
        folder(unit).mkdir(exist_ok=True)
        (folder(unit) / "fake.conf").write_text(FAKE)
    BEFORE.write_text(json.dumps({"code": code, "last": last_entry()}))


def entry_of_before() -> int:
    """The moment of the database's last entry when the fake clock began."""
    return int(json.loads(BEFORE.read_text())["last"])


def code_of_before() -> str:
    """The code that was made when the fake clock began."""
    return str(json.loads(BEFORE.read_text())["code"])


def end_the_fake_clock() -> None:
    """Gives the services the machine's clock again, and waits until the venue serves."""
    for unit in UNITS:
        (folder(unit) / "fake.conf").unlink(missing_ok=True)
    sh("systemctl daemon-reload; systemctl restart portal portal-counter")
    until(lambda: serves() and passes(), 20)
