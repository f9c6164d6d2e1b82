"""What the venue stands on: zone, clock, disk, last backup, versions."""

from __future__ import annotations

import os
import pathlib
import platform
import re
import secrets
import shlex
import shutil
import subprocess
import tempfile
import time
from collections.abc import Iterator

from portal_field import KIT
from portal_field.backup.copies import sum_of
from portal_field.backup.venue_copy import copies_in
from portal_field.doctor.findings import (
    WITHOUT_SETTINGS, CannotTell, Finding, Machine, good, passed_over, warning, wrong)
from portal_field.lib.owned_files import read
from portal_field.server.accepted_steps import FILE, MOST, read_record
from portal_field.server.right_time import Unreadable, last_moment
from portal_field.settings.venue import Field, toml_lines

DAY, MIB = 86400, 1 << 20
CLOCK_SLACK = 60                # seconds
OLD_COPY = 36 * 3600            # the timer makes one each night
NIGHTLY = "nightly copies"      # what a finding is about that has no copy of last night
LARGE = 256 * MIB               # a database that is not copied to be looked at
LARGEST = "du -xh --max-depth=2 / | sort -h | tail"
ROOM = 2048 * MIB               # more than a tenth of a disk need not be free, nor more than this
LOGS, LARGE_LOG = "/var/log/portal", 100 * MIB
OLDEST_KERNEL = (5, 16)         # the first with nftables at a device's egress
# which changes nothing
REQUEST = "GET /captive HTTP/1.1\r\nHost: portal\r\nPortal-Device: 02:00:00:00:00:00\r\n\r\n"
LIBRARIES = {"python3-nftables": "portal_field/gateway/kernel_gate.py",
             "python3-qrencode": "portal_field/counter/pictures.py",
             "python3-pil": "portal_field/counter/pictures.py",
             "python3-pyroute2": "portal_field/gateway/leases.py",
             "python3-flask": "portal_field/guests/page.py",
             # and the part of the kit that needs it
             "python3-babel": "portal_field/lib/languages.py", "python3-waitress": "portal_field/lib/web.py",
             "python3-markdown-it": "portal_field/guests/texts.py"}


def answer_to(portal: str, zone: str, url: str) -> str:
    """What the program says against settings, or nothing: with them it answers a request over a database in
    memory."""
    with tempfile.TemporaryDirectory() as folder:
        path = pathlib.Path(folder) / "portal.toml"
        path.write_text(toml_lines({"zone": zone, "portal_url": url, "desk_token": secrets.token_urlsafe(32),
                                    "gateway_token": secrets.token_urlsafe(32)}))
        words = [*shlex.split(portal), "answer", "--settings", str(path), "--now", "0", "--seed", "0" * 64]
        done = subprocess.run(words, input=REQUEST, capture_output=True, text=True, timeout=60)
    return "" if done.returncode == 0 else " ".join(done.stderr.split()) or f"status {done.returncode}"


def faults_of_settings(field: Field, portal: str) -> Iterator[Finding]:
    """The program's own word on the zone, and on the portal's address."""
    try:
        error = answer_to(portal, field.zone, field.url)
        if error and not answer_to(portal, "UTC0", field.url):
            yield wrong(f"zone = {field.zone!r}: the program takes a POSIX rule, such as UTC0 or "
                        "CET-1CEST,M3.5.0,M10.5.0/3", "change the line in field.toml")
            return
    except (OSError, subprocess.TimeoutExpired) as fault:
        error = str(fault)
    if error:
        yield wrong(f"{portal} does not take these settings: {error}",
                    "install the program, or look at field.toml")


def zone(machine: Machine) -> Iterator[Finding]:
    """Whether the program takes the time zone and the portal's address."""
    faults = list(faults_of_settings(machine.field, machine.portal))
    yield from faults or [good(f"the program takes {machine.field.zone}")]


def clock(machine: Machine) -> Iterator[Finding]:
    """Whether a time service keeps the clock, and whether it agrees with the database."""
    yield from against_the_database(machine)
    now = f"{moment(machine.now)} by this machine"
    believed = machine.field_or_none.clock if machine.field_or_none else "kernel"
    if believed == "host":
        yield good(f"the settings say that this machine's host keeps it: {now}")
        return
    yield from steps(machine)
    output = machine.output_of("timedatectl", "show", "--property=NTPSynchronized", "--value").strip()
    if output == "yes":
        yield good(f"a time service keeps it: {now}")
    elif not machine.field_or_none:
        yield passed_over(f"no time service keeps it: {now}. Whether one must is in the settings, which "
                          f"{machine.unread}", WITHOUT_SETTINGS)
    elif believed == "clerk":
        yield warning(f"no time service keeps it: {now}",
                      "compare the time and the year with another clock; a clerk "
                      "confirms on the counter's page that it is right")
    else:
        yield wrong(f"it is not synchronised: {now}. Each command at a wrong time stays in the database for "
                    f"good",
                    "`timedatectl timesync-status`; is there a time service (`apt install "
                    "systemd-timesyncd`), and does "
                    "it reach its servers? Where there is none: clock = \"clerk\" in field.toml")


def steps(machine: Machine) -> Iterator[Finding]:
    """How far services moved the clock forward, as the server's parent counts it."""
    path = machine.path(machine.DATABASE).with_name(FILE)
    moved = read_record(path).sum_of_moves() if readable(path) else 0.0
    if moved >= DAY:
        yield warning(f"a time service moved it forward by {moved / DAY:.1f} days within 30 days; at more "
                      f"than {MOST // DAY} the server waits for the word of a clerk",
                      "compare the time and the year with another clock; `timedatectl timesync-status` or "
                      "`chronyc sources` names the servers; take some that prove who they are "
                      "(docs/INSTALL.md, step 1)")


def moment(time_of: float) -> str:
    """A time of UTC, as the doctor writes it."""
    return time.strftime("%Y-%m-%d %H:%M:%S UTC", time.gmtime(time_of))


def against_the_database(machine: Machine) -> Iterator[Finding]:
    """Whether the clock agrees with the time of the database's last command, from a copy: the server has the
    database locked."""
    path = machine.path(machine.DATABASE)
    try:
        if readable(path) and path.stat().st_size > LARGE:
            raise CannotTell("the database is too large to look at its last time beside the server")
        last = last_moment(path)
    except (Unreadable, OSError):
        yield passed_over("the database's last time cannot be read: only root can, and not while it is "
                          "being written")
        return
    if last and last > machine.now + CLOCK_SLACK:
        yield wrong(f"the last command in the database is of {moment(last)}, which is later than now: until "
                    "then all commands count as of that time",
                    "set the clock; where it is right, that command came at a wrong "
                    "time: restore a copy of before it (README.md, \"Day by day\")")


def disk(machine: Machine) -> Iterator[Finding]:
    """Whether there is room for what a backup needs: the copy, and a second one that the program checks; and
    whether a disk fills, before it is full."""
    database = machine.path(machine.DATABASE)
    size = sum(path.stat().st_size for path in (database, pathlib.Path(f"{database}-wal")) if readable(path))
    need, disks = 3 * size + 64 * MIB, dict[int, dict[str, pathlib.Path]]()
    for what, name in (("the database", machine.DATABASE), ("the copies", machine.COPIES + "/copy"),
                       ("the logs", LOGS + "/log")):
        folder = there(machine.path(name).parent)
        disks.setdefault(folder.stat().st_dev, {})[what] = folder
    for folders in disks.values():
        folder = next(iter(folders.values()))
        usage, files = shutil.disk_usage(folder), os.statvfs(folder)
        room = f"{folder}: {usage.free // MIB} MiB are free for {', '.join(folders)}"
        if usage.free < need or (files.f_files and files.f_favail < 100):
            yield wrong(room if usage.free < need else f"{folder}: no more files can be made",
                        f"{need // MIB} MiB are the least: delete what is not needed (`{LARGEST}`), old "
                        "copies after they were carried to another machine")
        elif usage.free < max(8 * need, min(usage.total // 10, ROOM)):
            yield warning(room, f"make room before it is needed: `{LARGEST}`, `journalctl --disk-usage`")
        else:
            yield good(room)
    yield from large_logs(machine)


def large_logs(machine: Machine) -> Iterator[Finding]:
    """The logs of nginx that are larger than their rotation leaves them."""
    for path in sorted(machine.path(LOGS).glob("*.log")):
        if (size := path.stat().st_size) > LARGE_LOG:
            yield warning(f"{path} has {size // MIB} MiB, and is rotated once it has 50",
                          f"what fills it? (`tail {path}`) Is it rotated each hour? (`systemctl list-timers "
                          "logrotate.timer`) By hand: `systemctl start logrotate`")


def there(folder: pathlib.Path) -> pathlib.Path:
    """A folder, or else the nearest one above it that is there."""
    while not readable(folder):
        folder = folder.parent
    return folder


def readable(path: pathlib.Path) -> bool:
    """Whether a file is there, as far as this user can see."""
    try:
        return path.exists()
    except PermissionError:
        return False


def backup(machine: Machine) -> Iterator[Finding]:
    """The newest copy of the database: its age, its SHA-256 and the journal's copy."""
    folder = machine.path(machine.COPIES)
    try:
        is_read = folder.is_dir() and list(folder.iterdir()) is not None
        copies = sorted(folder.glob("[0-9]*Z.db")) if is_read else []
    except PermissionError:
        raise CannotTell(f"{machine.COPIES} only root can read") from None
    make = "`systemctl start portal-backup`, and `journalctl -u portal-backup` where that fails"
    if not copies:
        level = warning if is_new(machine) else wrong
        yield level(f"there is no copy of the database in {machine.COPIES}", make, NIGHTLY)
        return
    newest = copies[-1]
    age = int(machine.now - newest.stat().st_mtime)
    if age > OLD_COPY:
        yield wrong(f"the last copy, {newest.name}, is {age // 3600} hours old", make, NIGHTLY)
    else:
        yield good(f"the last copy, {newest.name}, is {max(age, 0) // 3600} hours old")
    yield from sums(newest, make)
    yield from venue_copies(machine, make)


def venue_copies(machine: Machine, make: str) -> Iterator[Finding]:
    """The newest copy of the whole venue: its age, and its SHA-256. Before the first one nothing is said: an
    earlier version made none."""
    copies = copies_in(machine.path(machine.VENUES))
    if not copies:
        return
    age = int(machine.now - copies[-1].stat().st_mtime)
    if age > OLD_COPY:
        yield wrong(f"the last copy of the whole venue, {copies[-1].name}, is {age // 3600} hours old", make,
                    NIGHTLY)
    yield from sums(copies[-1], make)


def is_new(machine: Machine) -> bool:
    """Whether the first night has not come yet: tokens are drawn once."""
    path = machine.path("/etc/portal/credentials/desk_token")
    return not path.exists() or machine.now - path.stat().st_mtime < OLD_COPY


def sums(copy: pathlib.Path, make: str) -> Iterator[Finding]:
    """Whether a copy is what its SHA-256 says."""
    beside = pathlib.Path(f"{copy}.sha256")
    if not beside.exists():
        yield warning(f"{copy.name} has no SHA-256 beside it", make)
    elif sum_of(copy) != beside.read_text().partition(" ")[0]:
        yield wrong(f"{copy.name} is not what its SHA-256 says: it was changed or damaged",
                    f"do not restore it; look at the disk; {make}")
    else:
        yield good("its SHA-256 is right")


def logo(machine: Machine) -> Iterator[Finding]:
    """Whether the counter's page can read the vouchers' logo. Without it a venue that runs prints vouchers as
    before: a warning."""
    name, level = machine.field.logo, warning if machine.is_installed else wrong
    path = machine.path(name) if name else None
    if path is None:
        yield good("vouchers have no logo")
    elif not path.is_file():
        yield level(f"logo = {name!r}: there is no such file",
                    "put it there, or empty the line in field.toml")
    elif not path.stat().st_mode & 0o004:
        yield level(f"logo = {name!r}: the counter's page cannot read it", f"`chmod 0644 {name}`")
    else:
        yield good(f"vouchers have the logo {name}")


def versions(machine: Machine) -> Iterator[Finding]:
    """The versions of the program, of the libraries, of other programs and of the kernel."""
    yield from program(machine)
    process = machine.run("dpkg-query", "-W", "-f", "${Package} ${Version} ${db:Status-Status}\n", "portal",
                          *LIBRARIES)
    packages = {row[0]: row[1] for row in map(str.split, process.stdout.splitlines())
                if row[2:] == ["installed"]}
    yield good(f"package portal {packages['portal']}" if "portal" in packages
               else "installed by hand: no package")
    for name, part in LIBRARIES.items():
        if name in packages:
            yield good(f"{name} {packages[name]}")
        elif (KIT / part).exists():
            yield wrong(f"{name} is not installed: {part} needs it", f"`apt install {name}`", "libraries")
    yield good(f"Python {platform.python_version()}")
    yield kernel(machine)
    for words in (("nft", "--version"), ("nginx", "-v"), ("dnsmasq", "--version")):
        yield tool(machine, *words)


def program(machine: Machine) -> Iterator[Finding]:
    """The program's version, and the schema version of the database."""
    try:
        output = machine.output_of(*shlex.split(machine.portal), "--version")
    except CannotTell as why:
        yield wrong(str(why), "install the program again", "program")
        return
    yield good(output.strip())
    yield from schema(machine, output)


def schema(machine: Machine, output: str) -> Iterator[Finding]:
    """Whether the program knows the schema version of the database, which the package keeps beside it."""
    mark, version = machine.path("/var/lib/portal/schema"), re.search(r"schema version (\d+)", output)
    held = int(read(mark)) if readable(mark) else 0
    if version and held > int(version[1]):
        yield wrong(f"the database has schema version {held}, and this program knows "
                    f"none after "
                    f"{version[1]}", "install the later program, or restore the copy of before the upgrade")


def tool(machine: Machine, *words: str) -> Finding:
    """The version of another program, by the first line that it prints."""
    try:
        done = machine.run(*words)
    except CannotTell as why:
        return wrong(str(why), f"`apt install {words[0].replace('nft', 'nftables')}`", f"{words[0]} package")
    return good((done.stdout + done.stderr).strip().partition("\n")[0].partition("  Copyright")[0])


def kernel(machine: Machine) -> Finding:
    """Whether the kernel can do what the rules need."""
    release = machine.output_of("uname", "-r").strip()
    match = re.match(r"(\d+)\.(\d+)", release)
    if match and (int(match[1]), int(match[2])) < OLDEST_KERNEL:
        return wrong(f"Linux {release} has no rules at a device's egress",
                     "install Debian 12's kernel, or a later one")
    return good(f"Linux {release}")
