"""Venues by name beside the venue without one: made by a command, each with its own counter, and none acts for
another."""

from __future__ import annotations

import contextlib
import pathlib
import re
from collections.abc import Iterator

import machine
import pytest
from machine import PASSWORD, active, all_run, code, log_in, output, send_as_clerk, sh, until
from plans_test import fields_of_plan

pytestmark = pytest.mark.container
SHARED = pathlib.Path("/etc/portal/venues.toml")
TLS = pathlib.Path("/etc/portal/tls/venues.pem")
ZONES = {"north": "Europe/Berlin", "south": "America/New_York"}
UNITS = ("portal@north", "portal@south", "portal-settings@north.socket", "portal-venues-clock",
         "portal-venues-counter", "portal-venues-rules", "portal-venues-backup.timer", "portal-counter-nginx")


def add(name: str, *more: str) -> machine.Done:
    """Makes a venue by the command."""
    return sh("portal-venues", "add", name, "--house", f"House {name}", "--name", "wifi.example",
              "--counter-name", f"{name}.example", "--zone", ZONES[name], *more)


def ready() -> bool:
    """Whether both venues run, with a clerk each."""
    return all(active(unit) == "active" for unit in UNITS) and sh("portal-venues status").returncode == 0


def put_shared(*more: str) -> None:
    """Makes the file of what all venues share, and the certificate of their counters where it is not there."""
    if not TLS.exists():
        sh("openssl", "req", "-x509", "-newkey", "ec", "-pkeyopt", "ec_paramgen_curve:P-256", "-nodes", "-days", "2",
           "-subj", "/CN=north.example", "-addext", "subjectAltName=DNS:north.example,DNS:south.example", "-keyout",
           "/etc/portal/tls/venues.key", "-out", TLS)
        print(f"note {output(sh('nginx -t -c /etc/portal/counter-nginx/nginx.conf; ls -l /etc/portal/tls'), 800)}")
    SHARED.write_text("".join(('listen = "10.88.0.1"\nclerks = ["10.88.0.0/24"]\nclock = "host"\n'
                               f'cert = "{TLS}"\nkey = "/etc/portal/tls/venues.key"\n', *more)))


@pytest.fixture(scope="module")
def venues(levels: object) -> None:
    """Both venues, made where they are not there, and a manager of each."""
    getattr(levels, "reach")("set_up")
    put_shared()
    for name in ZONES:
        if not pathlib.Path("/etc/portal/venues", name, "field.toml").exists():
            done = add(name, "--prices-as-shipped")
            print(f"note add {name}: {output(done, 600)}")
        sh("portal-venues", "clerk", name, f"{name}-boss", input=f"{PASSWORD}\n")
    if until(ready, 20) is None:
        for unit in ("portal@north", "portal-venues-clock", "portal-venues-counter", "portal-counter-nginx"):
            print(f"note {unit}: {machine.journal(unit)[-6:]}")
        pytest.fail(f"both venues run  [{output(sh('portal-venues status'), 900)}]", pytrace=False)


@contextlib.contextmanager
def at(name: str) -> Iterator[None]:
    """Has the clerk of this machine's tests use the counter of that venue inside."""
    before = machine.COUNTER, dict(machine.LOGIN)
    machine.COUNTER = f"{name}.example"
    machine.LOGIN.update(cookie="", token="")
    machine.AUTHORITY.append(TLS)
    try:
        log_in(f"{name}-boss")
        yield
    finally:
        machine.AUTHORITY.remove(TLS)
        machine.COUNTER = before[0]
        machine.LOGIN.update(before[1])


def test_without_settings(set_up: None) -> None:
    if not SHARED.exists():
        done = sh("portal-venues status")
        assert done.returncode == 1 and "settings/venues.toml" in done.stderr, (
            f"without the file of all venues the command says which one to copy  [{output(done)}]")


def test_prices_first(set_up: None) -> None:
    """Nothing of a venue starts before somebody has chosen its prices."""
    if SHARED.exists():
        return
    SHARED.write_text('listen = "10.88.0.1"\nclerks = ["10.88.0.0/24"]\nclock = "host"\n')
    done = add("north")
    assert done.returncode == 1 and "nobody has chosen the prices" in done.stdout, (
        f"it says that nobody has chosen the prices  [{output(done)}]")
    assert "done: files; not done: prices, units" in done.stdout and active("portal@north") != "active", (
        f"and what was done, and what was not  [{output(done)}]")
    again = sh("portal-venues apply north --prices-as-shipped")
    assert again.returncode == 0, f"the same again, with the prices chosen, does the rest  [{output(again, 900)}]"


def test_both_run(venues: None) -> None:
    states = {unit: active(unit) for unit in UNITS}
    assert set(states.values()) == {"active"}, f"every unit of both venues is active  [{states}]"
    assert until(all_run, 20) is not None, "the venue without a name goes on"


def test_nothing_is_written_again(venues: None) -> None:
    before = sh("find /etc/portal -type f -printf '%p %T@ %i\\n' | sort").stdout
    started = machine.show("portal@north", "ActiveEnterTimestampMonotonic")
    done = sh("portal-venues apply")
    assert done.returncode == 0 and "north: ready, 0 files new" in done.stdout, (
        f"what is as it should be is done again without a change  [{output(done)}]")
    assert sh("find /etc/portal -type f -printf '%p %T@ %i\\n' | sort").stdout == before, "no file is written"
    assert machine.show("portal@north", "ActiveEnterTimestampMonotonic") == started, "and no desk is started anew"


def test_a_voucher_is_of_one_venue(venues: None) -> None:
    with at("north"):
        text = code()
        assert text, "a voucher is issued and sold at the counter of a venue by name"
        assert "House north" in machine.counter("")[1], "its pages have that venue's name"
    with at("south"):
        body = send_as_clerk("voucher", code=text)[1]
        assert "House south" in machine.counter("")[1] and "not_found" not in body, "the other one has its own"
        answer = send_as_clerk("sell", code=text)
        assert answer[0] != 200, f"the other venue's counter does not know the code  [{answer[0]}]"


def test_a_log_in_is_of_one_venue(venues: None) -> None:
    with at("north"):
        cookie = dict(machine.LOGIN)
    with at("south"):
        machine.LOGIN.update(cookie)
        answer = machine.curl("clerk", "https://south.example/takings", *machine.as_clerk())
        assert machine.is_shut(answer), f"a log-in at one venue opens no page of another  [{answer[0]}]"
        machine.LOGIN.update(cookie="", token="")


def test_a_manager_changes_a_price(venues: None) -> None:
    """The writer of that venue's files, and of no other's, has them written."""
    path, other = (pathlib.Path("/etc/portal/venues", name, "plans.toml") for name in ZONES)
    before = other.read_bytes(), machine.PLANS.read_bytes()
    with at("north"):
        looked = send_as_clerk("plan", plan="day", price="9,50")[1]
        told = send_as_clerk("plan", **{**fields_of_plan(looked), "password": PASSWORD, "do": "save"})[1]
        assert "day-2: 1 day, 9.50" in machine.counter("")[1], (
            f"a manager changes a price of that venue  [{re.findall(r'id=.told.[^>]*>(.*?)</p>', told)}]")
    assert 'id = "day-2"' in path.read_text(), "its file has the plan"
    assert (other.read_bytes(), machine.PLANS.read_bytes()) == before, "those of the other venues are as they were"


def test_unknown_name(venues: None) -> None:
    answer = machine.curl("clerk", "https://east.example/login", "-k", "--resolve", "east.example:443:10.88.0.1",
                          "-H", "X-Venue: north")
    assert "House north" not in answer[1], f"a name that no venue has reaches none  [{answer[0]}]"


def test_who_may_connect(venues: None) -> None:
    port = re.search(r"desk_port = (\d+)", pathlib.Path("/etc/portal/venues/north/field.toml").read_text())
    assert port, "a venue has a port of its own"
    words = f"curl -s -o /dev/null -w '%{{http_code}}' -H 'Portal-Device: 02:00:00:00:00:01' http://127.0.0.1:{port[1]}/captive"
    assert sh(words).stdout == "200", "root may ask a desk"
    other = sh(f"setpriv --reuid=nobody --clear-groups {words}").stdout
    assert other == "000", f"another user of the machine may not  [{other}]"


def test_a_desk_that_is_killed(venues: None) -> None:
    sh("systemctl kill -s KILL portal@north")
    assert until(ready, 20) is not None, "a desk that is killed is started again"


def test_a_desk_that_hangs(venues: None) -> None:
    before = machine.show("portal@south", "MainPID")
    sh("kill", "-STOP", before)
    assert until(lambda: machine.show("portal@south", "MainPID") not in ("0", before), 90) is not None, (
        "a desk that hangs is started anew")
    assert until(ready, 20) is not None, "and both run"


def test_copies(venues: None) -> None:
    done = sh("systemctl start portal-venues-backup")
    found = sorted(path.parent.name for path in pathlib.Path("/var/backups/portal-venues").glob("*/2*.db"))
    assert done.returncode == 0 and set(found) == set(ZONES), (
        f"the databases of all venues are copied  [{found}; {machine.journal('portal-venues-backup')[-3:]}]")
    drill = sh("portal-restore --drill --venue north")
    assert drill.returncode == 0, f"and a copy restores  [{output(drill)}]"


def test_upgrade(venues: None) -> None:
    done = sh("portal-venues upgrade")
    assert done.returncode == 0 and "[2/2] south: answers" in done.stdout, (
        f"one venue after another is started with the program that is installed  [{output(done, 600)}]")
    assert until(ready, 20) is not None, "and both run"


def test_upgrade_to_a_program_that_does_not_start(venues: None) -> None:
    """The first venue goes back, the other one is left alone; the next upgrade does both."""
    before = {name: machine.show(f"portal@{name}", "MainPID") for name in ZONES}
    sh("install -D -m 0755 /usr/bin/portal /var/lib/portal-programs/before")
    sh("printf '#!/bin/sh\\nexit 1\\n' > /usr/bin/portal-new && chmod 755 /usr/bin/portal-new && mv /usr/bin/portal-new /usr/bin/portal")
    try:
        done = sh("portal-venues upgrade")
        assert done.returncode == 1 and "[1/2] north: FAILED: " in done.stderr, (
            f"the first venue that is not well stops an upgrade  [{output(done, 900)}]")
        assert "it went back: it answers with the program of before" in done.stderr, f"and goes back  [{output(done, 900)}]"
        assert machine.show("portal@south", "MainPID") == before["south"], "the other one goes on"
        sh("systemctl restart portal@south")
        assert until(ready, 30) is not None, "also where it is started anew, and both run"
    finally:
        sh("install -m 0755 /var/lib/portal-programs/before /usr/bin/portal-new && mv /usr/bin/portal-new /usr/bin/portal")
    again = sh("portal-venues upgrade")
    left = sh("ls /var/lib/portal-programs /etc/systemd/system/portal@*.service.d").stdout
    assert again.returncode == 0 and "program-before" not in left and until(ready, 20) is not None, (
        f"the next upgrade does both, and nothing of the program of before is left  [{output(again, 600)} {left}]")


def test_retired(venues: None) -> None:
    done = sh("portal-venues retire south")
    assert done.returncode == 0 and active("portal@south") != "active", f"a venue is retired  [{output(done, 600)}]"
    assert pathlib.Path("/var/lib/portal-venues/south/book.db").exists(), "its database stays"
    assert active("portal@north") == "active", "the others go on"
    again = add("south")
    assert again.returncode == 0 and until(ready, 20) is not None, (
        f"and it can be made again as it was  [{output(again, 600)}]")
    for name in ZONES:
        sh("portal-venues", "retire", name)
    assert active("portal-venues-clock") != "active" and until(all_run, 20) is not None, (
        "without venues by name nothing of them runs, and the venue without a name goes on")
