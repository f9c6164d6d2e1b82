"""Has systemd run probe.py in the sandbox of a unit, in place of the unit's program, and compares what that can use with the table of
parts, field/units/parts.toml."""

from __future__ import annotations

import fnmatch
import json
import pathlib
import pwd
import re
import stat
import tomllib
from collections.abc import Iterable
from typing import Any

from machine import HERE, LOG, active, output, sh

TABLE = tomllib.loads((HERE / "field/units/parts.toml").read_text())
PROBE, RUN, DROP_INS = HERE / "probe.py", pathlib.Path("/run/probe"), pathlib.Path("/run/systemd/system")
BY_TEST = (f"{RUN}/*", f"{DROP_INS}/*zz-probe.conf", str(LOG), "/run/venue-watch")     # what the tests put on the machine
PLACES = re.compile(r"/(etc|var/lib|run|var/log)/portal|/var/backups/")
# Whatever else a unit starts, and when it is started again, is left out; users, groups, credentials, namespaces and the filter of
# system calls are those of the unit.
INSTEAD = """[Unit]
OnFailure=
ConditionPathExists=
StartLimitIntervalSec=0
[Service]
Type=oneshot
ExecStart=
ExecStart=/usr/bin/python3 -B -P {probe} {user}
ExecStartPre=
ExecStartPost=
ExecStop=
ExecStopPost=
ExecReload=
PIDFile=
NotifyAccess=none
WatchdogSec=0
Restart=no
RuntimeMaxSec=infinity
RemainAfterExit=no
MemoryMax=infinity
StandardInput=file:{given}
StandardOutput=truncate:{made}
{more}
"""
Found = dict[str, Any]


def processes() -> dict[str, list[int]]:
    """The numbers of the processes of each unit; those of no unit are the kernel's or this test's."""
    found = dict[str, list[int]]()
    for path in pathlib.Path("/proc").glob("[0-9]*/cgroup"):
        try:
            unit = re.findall(r"/([^/]+\.(?:service|scope))$", path.read_text().strip())
        except OSError:
            continue
        if unit and "venue-test" not in unit[0]:
            found.setdefault(unit[0], []).append(int(path.parent.name))
    return found


def is_socket(name: str) -> bool:
    """Whether there is a socket of this path."""
    try:
        return stat.S_ISSOCK(pathlib.Path(name).stat().st_mode)
    except OSError:
        return False


def sockets() -> list[str]:
    """The sockets that are listened at, in the file system and by an abstract name."""
    lines = pathlib.Path("/proc/net/unix").read_text().splitlines()[1:]
    names = {words[7] for line in lines if len(words := line.split()) == 8}
    return sorted(name for name in names if name.startswith("@") or is_socket(name))


def ports() -> list[str]:
    """The ports at which something listens by TCP, each with an address of this machine."""
    lines = sh("ss -Hltn4").stdout.splitlines()
    return sorted(line.split()[3].replace("0.0.0.0", "127.0.0.1").replace("*", "127.0.0.1") for line in lines)


def probe(unit: str, more: str = "") -> Found:
    """What a process of this unit can use. `more`: lines of its section [Service] that are planted."""
    RUN.mkdir(exist_ok=True)
    given, made, was = RUN / "given.json", RUN / f"{unit}.json", active(unit)
    given.write_text(json.dumps({"sockets": sockets(), "ports": ports(), "processes": processes()}))
    user = row_of(unit)["user"] if "nginx" in unit else ""      # of the worker, which the program of root becomes
    drop_in = DROP_INS / f"{unit}.d/zz-probe.conf"
    drop_in.parent.mkdir(parents=True, exist_ok=True)
    drop_in.write_text(INSTEAD.format(probe=PROBE, user=user, given=given, made=made, more=more))
    sh("systemctl", "daemon-reload")
    sh("systemctl", "stop", unit)
    done = sh("systemctl", "start", unit)
    drop_in.unlink()
    sh("systemctl", "daemon-reload")
    if was == "active":
        sh("systemctl", "start", unit)
    assert done.returncode == 0 and made.stat().st_size, (
        f"the probe runs as {unit}  [{output(done)} {output(sh('journalctl', '-o', 'cat', '-u', unit, '-n', '9'), 900)}]")
    return dict(json.loads(made.read_text()))


def template(unit: str) -> str:
    """The name of a unit without that of the instance."""
    return re.sub(r"@[^.]*\.", "@.", unit)


def row_of(unit: str) -> Found:
    """The row of a unit, with its instance."""
    rows = [part for part in TABLE["part"] if part["unit"] == template(unit)]
    if not rows:
        return {"user": "nobody", "groups": []}
    instance = unit.partition("@")[2].partition(".")[0]
    return {key: json.loads(json.dumps(value).replace("%i", "*" if key == "connects" else instance)) for key, value in rows[0].items()}


def is_any(text: str, patterns: Iterable[str]) -> bool:
    """Whether a text is one of these patterns."""
    return any(fnmatch.fnmatchcase(text, pattern) for pattern in patterns)


def differs(found: Iterable[str], patterns: list[str]) -> list[str]:
    """What is found and in no pattern, with +, and the patterns of which nothing is found, with -."""
    texts = list(found)
    return [f"+{text}" for text in texts if not is_any(text, patterns)] + [
        f"-{pattern}" for pattern in patterns if not any(fnmatch.fnmatchcase(text, pattern) for text in texts)]


def server_at(port: str) -> str:
    """The words of the table for a port; others as they are."""
    number = int(port.rpartition(":")[2])
    return "the server" if number == 8080 else "servers of venues" if 20001 <= number <= 29999 else port


def of_everybody(found: Found) -> dict[str, list[str]]:
    """Where what a user can use who is no part's differs from the table."""
    row = TABLE["everybody"]
    reads = [f"+{path}" for path in found["reads"] if PLACES.match(path) and not is_any(path, (*row["reads"], *BY_TEST))]
    faults = {"reads": reads, "writes": differs(found["writes"], row["writes"]),
              "connects": differs([*found["connects"], *(port for port in map(server_at, found["reaches"]) if "server" in port)], row["connects"]),
              "signals": found["signals"] + found["reads_memory"]}
    return {key: lines for key, lines in faults.items() if lines}


def own(found: Found, everybody: Found, key: str) -> list[str]:
    """What a part can use and everybody cannot, and, of root, what is not Debian's own."""
    more = TABLE["root"].get(key, []) if found["user"] == 0 else []
    return [text for text in found[key] if text not in everybody[key] and not is_any(text, (*more, *BY_TEST))]


def names_of(found: Found, row: Found) -> list[str]:
    """Where user and groups differ."""
    if row["user"] == "dynamic":
        return []
    name = pwd.getpwuid(found["user"]).pw_name
    group = "nogroup" if name == "nobody" else name
    return [] if (name, found["groups"]) == (row["user"], sorted({group, *row["groups"]})) else [f"{name}: {found['groups']}"]


def of_part(unit: str, found: Found, everybody: Found) -> dict[str, list[str]]:
    """Where what a process of a unit can use differs from the unit's row of the table."""
    row = row_of(unit)
    writes, secrets = row.get("writes", []), [f"/run/credentials/{unit}/{name}*" for name in row.get("secrets", [])]
    reads = [path for path in own(found, everybody, "reads") if not is_any(path, writes) and (found["user"] or PLACES.match(path))]
    connects = own(found, everybody, "connects") + sorted(set(map(server_at, own(found, everybody, "reaches"))))
    served = [name for name in row.get("connects", []) if name != row.get("listens")]
    signals = sorted({template(other) for other in found["signals"]})
    hidden = [path for path in (*found["writes"], *found["reads"], *found["connects"])
              if any(f"{path}/".startswith(f"{name}/") for name in row.get("hidden", []))]
    faults = {"user": names_of(found, row), "writes": differs(own(found, everybody, "writes"), writes),
              "reads": differs(reads, row.get("reads", []) + (secrets if found["user"] else [])), "connects": differs(connects, served),
              "signals": [] if row.get("signals") == ["root"] else differs(signals, row.get("signals", [])),
              "memory": [] if row.get("signals") == ["root"] else [other for other in found["reads_memory"] if template(other) not in row.get("signals", [])],
              "hidden": hidden}
    return {key: lines for key, lines in faults.items() if lines}
