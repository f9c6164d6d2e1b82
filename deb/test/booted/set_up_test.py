"""The package is installed, and one settings file and one command open the venue; what set-up refuses
before."""

from __future__ import annotations

import grp
import os
import pathlib
import re
from collections.abc import Iterator

import pytest
from machine import (
    ACCOUNTS, COUNTER, FIELD, GATEWAY, PARTS, PASSWORD, PLANS, SESSIONS, active, all_run, as_clerk,
    ask_for_a_lease, changed, counter, curl, failed_units, forward, inactive_units, install, is_shut, journal, log_in,
    output, say_the_time_is_right, send_as_clerk, serves, sh, show, until, versions, waits)

pytestmark = pytest.mark.container
SET_UP = ("portal-setup", "--clerk", "clerk", "--prices-as-shipped")


def test_one_command_installs_all(quiet: None) -> None:
    print(f"note {sh('systemctl --version').stdout.splitlines()[0]}, kernel {os.uname().release}")
    done = install(versions()[0])
    assert done.returncode == 0, (
        f"one command installs all: apt install ./portal_VERSION_amd64.deb  [{output(done, 100)}]")


def test_nothing_runs_before_it_is_set_up(installed: None) -> None:
    states = [active(unit) for unit in PARTS]
    assert set(states) == {"inactive"} and forward() == "0", (
        f"nothing of it runs, and nothing is forwarded, before it is set up  [{states}]")


def test_one_cause(installed: None) -> None:
    done = sh("portal-doctor")
    lines = [line for line in done.stdout.splitlines() if line.startswith(("WRONG", "warning"))]
    print(f"note the doctor before set-up: {output(done, 400)}")
    assert (done.returncode == 1 and len(lines) == 1 and "set up: set-up has not run" in lines[0]
            and "more follow from this" in done.stdout), (
        f"before it is set up the doctor names that alone, and counts what follows  [{output(done, 600)}]")


def test_what_is_missing(installed: None) -> None:
    done = sh("portal-setup")
    assert done.returncode == 1 and "clerk" in done.stderr and "cert" in done.stderr, (
        f"set-up says what is missing  [{output(done)}]")
    assert "are a sample's: hour 3.00" in done.stderr and "--prices-as-shipped" in done.stderr, (
        f"and that nobody has chosen the prices  [{output(done, 500)}]")


def test_short_password(prepared: None) -> None:
    done = sh(*SET_UP, input="nine-sign\n")
    assert (done.returncode == 1 and "at least 10 characters, and this one has 9" in done.stderr
            and not ACCOUNTS.exists()), (
        f"set-up refuses a clerk's password of nine characters, and says how many it takes  [{output(done)}]")


def test_odd_zone(prepared: None) -> None:
    with changed(FIELD, FIELD.read_text().replace('zone = "UTC0"', 'zone = "CET-1CEST,M13.5.0"')):
        done = sh(*SET_UP, input=f"{PASSWORD}\n")
    assert done.returncode == 1 and "POSIX rule" in done.stderr, (
        f"set-up refuses a zone that the program does not take  [{output(done)}]")


def test_port_of_nginx(prepared: None) -> None:
    with changed(FIELD, FIELD.read_text().replace("desk_port = 8080", "desk_port = 443")):
        done = sh("portal-setup", "--prices-as-shipped")
    assert (done.returncode == 1 and "desk_port = 443: this is the port of nginx" in done.stderr
            and not GATEWAY.exists()), (
        "set-up refuses a port of the server that nginx has, by its name, before anything is changed  "
        f"[{output(done)}]")


def test_prices_that_nobody_chose(prepared: None) -> None:
    done = sh("portal-setup")
    assert done.returncode == 1 and "are a sample's" in done.stderr and not GATEWAY.exists(), (
        f"set-up refuses prices that nobody chose, and changes nothing  [{output(done)}]")


def test_one_command_opens_the_venue(prepared: None) -> None:
    words = () if ACCOUNTS.exists() else SET_UP[1:3]       # (the clerk of the test of a zone)
    done = sh("portal-setup", "--prices-as-shipped", *words, input=f"{PASSWORD}\n")
    assert done.returncode == 0, f"one settings file and one command open the venue  [{output(done)}]"
    assert inactive_units() == {}, "every unit is active"
    took = until(lambda: waits() and "The server waits" in counter("")[1], 10)
    is_in_the_journal = any("waits, as the time" in line for line in journal("portal"))
    is_said = "the server waits" in done.stderr and is_in_the_journal
    assert is_said and took is not None, (
        f"a new database waits for the time: set-up, journal and counter's page say so  [{output(done)}]")


@pytest.fixture
def plans() -> Iterator[str]:
    """The text of the plans file, which it has again afterwards."""
    text = PLANS.read_text()
    yield text
    PLANS.write_text(text)


def test_plans_that_do_not_read(set_up: None, plans: str) -> None:
    """While a new server waits for a clerk's word on the time: nobody has asked it about plans yet."""
    PLANS.write_text(plans.replace("price = 300", "price = 3.00"))
    done = sh("portal-setup")
    assert (done.returncode == 1 and "plan 'hour': price is a number" in done.stderr
            and "Next:" in done.stdout
            and until(all_run, 20) is not None), (
        "a plans file that cannot be accepted, while the server waits: set-up does all, says the line and "
        f"ends with 1  [{output(done)}]")
    PLANS.write_text(plans)
    done = sh("portal-setup")
    assert done.returncode == 0, f"once it is mended set-up ends with 0  [{output(done)}]"


def test_no_alarm_while_it_waits(set_up: None) -> None:
    assert "portal-gateway" not in counter("")[1], (
        "while it waits the counter raises no alarm about the gateway")


def test_clerk_says_the_time_is_right(set_up: None) -> None:
    ask_for_a_lease()
    notice = say_the_time_is_right()
    assert until(serves, 10) is not None and "starts now" in notice, (
        f"a clerk says on the counter's page that the time is right, and the server starts  [{notice}]")


def test_password_of_before(served: None) -> None:
    """The password file of an earlier version, at an upgrade."""
    made, before = ACCOUNTS.read_bytes(), ACCOUNTS.with_name("counter.passwords")
    ACCOUNTS.unlink()
    before.write_text("of-before:" + sh("openssl", "passwd", "-6", "short").stdout)
    done = sh("portal-setup", "--renew")
    assert "Who had a password is a manager: of-before." in done.stderr, (
        f"set-up says who is a manager now  [{output(done)}]")
    mode = sh("stat", "-c", "%U:%G:%a", ACCOUNTS).stdout.strip()
    assert mode == "root:portal-counter:640" and log_in("of-before", "short")[0] == 303, (
        f"a shorter password that a clerk has goes on  [{mode}]")
    assert counter("cash-up")[0] == 200, "and its owner is a manager"
    before.unlink()
    ACCOUNTS.write_bytes(made)
    assert is_shut(curl("clerk", f"https://{COUNTER}/", *as_clerk())), "who has no account any more is out"


def test_own_pin(served: None) -> None:
    """Written by the unit of root, for the counter's page, which cannot write there."""
    answer = send_as_clerk("pin", password=PASSWORD, pin="2468", pin2="2468")
    assert answer[0] == 200 and "Your PIN is changed." in answer[1], f"a clerk chooses a PIN  [{answer[1][:300]}]"
    made = sh("stat", "-c", "%U:%G:%a", ACCOUNTS, ACCOUNTS.with_name("clerks.toml.before")).stdout.split()
    assert made == ["root:portal-counter:640"] * 2, f"the file of before is kept  [{made}]"
    assert send_as_clerk("lock")[0] == 303 and is_shut(curl("clerk", f"https://{COUNTER}/", *as_clerk())), (
        "and locks the counter")
    assert send_as_clerk("pin", password="wrong", pin="1357", pin2="1357")[0] == 401, "a wrong password writes nothing"


def test_files_with_the_wifis_password(served: None) -> None:
    modes = {name: sh("stat", "-c", "%U:%G:%a", f"/etc/portal/{name}.toml").stdout.strip()
             for name in ("field", "counter")}
    assert modes == {"field": "root:root:640", "counter": "root:portal-counter:640"}, (
        "what may have the password of the Wi-Fi is for root and the counter's group alone")


def test_vouchers_font(served: None) -> None:
    font = f"https://{COUNTER}/fonts/DejaVuSansCondensed.ttf"
    heads = [curl(space, font, "--head")[0] for space in ("clerk", "guest")]
    assert heads == [200, 0], "the vouchers' font comes with the package, for the counter's network"


def test_units_go_on(served: None) -> None:
    assert failed_units() == [], "no unit failed"
    assert until(SESSIONS.exists) is not None, "the agent polls"


def note_exposure() -> None:
    for unit in (PARTS[0], *PARTS[2:], "portal-backup"):
        done = sh("systemd-analyze", "security", "--no-pager", unit + ".service")
        match = re.search(r"exposure level for \S+: ([0-9.]+) (\w+)", done.stdout)
        print(f"note systemd-analyze security {unit}: {match[1]} {match[2]}" if match
              else f"note {unit}: {output(done)}")


def test_parts_are_apart(served: None) -> None:
    note_exposure()
    off = pathlib.Path("/proc/sys/net/ipv6/conf/lan0/disable_ipv6").read_text().strip()
    assert off == "1", "IPv6 is off on the guests' device"
    sockets = {name: pathlib.Path(f"/run/portal-{name}/socket") for name in ("front", "counter")}
    groups = {name: f"{path.owner()}:{path.group()}" for name, path in sockets.items()}
    assert groups == {"front": "portal-front:www-data", "counter": "portal-counter:portal-counter-nginx"}, (
        f"each page's socket belongs to the page and to its nginx  [{groups}]")
    open_it = "import socket; socket.socket(socket.AF_UNIX).connect('/run/portal-counter/socket')"
    done = sh("setpriv", "--reuid=portal-front", "--regid=portal-front", "--groups=portal-gateway", "python3",
              "-c", open_it)
    status = pathlib.Path(f"/proc/{show('portal-front', 'MainPID')}/status").read_text()
    names = sorted(grp.getgrgid(int(number)).gr_name
                   for number in status.split("Groups:")[1].split("\n")[0].split())
    assert "PermissionError" in done.stderr and names == ["portal-front", "portal-gateway"], (
        f"the guests' helper cannot open the counter's socket  [{names} {done.stderr.strip()[-60:]}]")
