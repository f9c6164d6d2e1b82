"""A chain of two venues by name, with their table in PostgreSQL: the page of the office, the plans that another machine
put there, and the sign-in, each by a unit of its own."""

from __future__ import annotations

import pathlib
import re
import urllib.error
import urllib.request
from typing import Any

import machine
import pytest
from machine import PASSWORD, active, apt, code, journal, log_in, output, sh, until
from venues_test import ZONES, add, at, put_shared

pytestmark = pytest.mark.container
DATABASE = "host=/run/postgresql dbname=portal"
PACKAGES = "postgresql", "python3-psycopg", "python3-authlib", "python3-requests"
TIMERS = "portal-venues-collect.timer", "portal-venues-plans.timer"
SIGN_IN = pathlib.Path("/etc/portal/sign-in.toml")
NIGHT = '[[plan]]\nid = "night"\nprice = 700\nuses = 1\nseconds = 36000\nbytes = 0\nshelf_days = 30\nextend = true\n'


def psql(words: str, *more: str) -> machine.Done:
    """What PostgreSQL answers to its own superuser."""
    return sh("setpriv", "--reuid=postgres", "--regid=postgres", "--clear-groups", "psql", "-v", "ON_ERROR_STOP=1", "-At", *more,
              "-c", words, cwd="/")


def put_postgresql() -> None:
    """Installs PostgreSQL, with a database of the chain and its two roles."""
    done = apt("-o", "Dpkg::Options::=--force-unsafe-io", "install", *PACKAGES)
    assert done.returncode == 0, f"the packages of a chain are installed  [{output(done)}]"
    assert until(lambda: psql("SELECT 1").returncode == 0, 30) is not None, (
        f"PostgreSQL answers  [{output(psql('SELECT 1'))}]")
    for words in ("CREATE ROLE root LOGIN", "CREATE DATABASE portal OWNER root", 'CREATE ROLE "portal-office" LOGIN'):
        assert (done := psql(words)).returncode == 0, f"{words}  [{output(done)}]"


@pytest.fixture(scope="module")
def chain(levels: object) -> None:
    """Both venues in a table of PostgreSQL, with a manager each and an account of the office."""
    getattr(levels, "reach")("set_up")
    if sh("which psql").returncode != 0:
        put_postgresql()
    put_shared(f'database = "{DATABASE}"\nmachine = "one"\n')
    for name in ZONES:
        done = add(name, "--prices-as-shipped")
        assert done.returncode == 0, f"a venue is made, in the table too  [{output(done, 900)}]"
        sh("portal-venues", "clerk", name, f"{name}-boss", input=f"{PASSWORD}\n")
    done = sh("portal-venues", "clerk", "north", "olga", "--role", "office", input=f"{PASSWORD}\n")
    assert done.returncode == 0, f"root makes an account of the office  [{output(done)}]"
    # the first run makes the view, of which the role is then a reader
    done = sh("systemctl start portal-venues-collect && portal-venues reader portal-office --office")
    assert done.returncode == 0, f"the unit of the collector fills the view  [{output(done)} {journal('portal-venues-collect')[-4:]}]"


def faults_of(unit: str) -> list[str]:
    """What the services of a socket wrote, each for one connection."""
    return sh("journalctl", "-b", "-o", "cat", "--no-pager", "-u", f"{unit}@*").stdout.splitlines()


def office_page() -> machine.Answer:
    """The page of all venues, for an account of the office at the counter of north."""
    with at("north"):
        assert log_in("olga")[0] == 303, "an account of the office logs in"
        return machine.counter("office")


def test_units_of_the_table(chain: None) -> None:
    assert {unit: active(unit) for unit in (*TIMERS, "portal-office.socket")} == dict.fromkeys(
        (*TIMERS, "portal-office.socket"), "active"), "with a table of venues its timers and the office's socket are on"
    assert active("portal-sign-in.socket") == "inactive", "the sign-in is off until it is set up"
    assert not pathlib.Path("/run/portal-sign-in/socket").exists(), "and it has no socket then"


def test_page_of_the_office(chain: None) -> None:
    with at("south"):
        assert code(), "a voucher is sold at one of the venues"
    done = sh("systemctl start portal-venues-collect")
    status, body, _ = office_page()
    assert status == 200 and "House north" in body and "House south" in body, (
        f"the office sees both venues by nginx, counter and PostgreSQL  [{status}: {faults_of('portal-office')[-3:]} {output(done)}]")
    row = re.search(r"House south.*?</tr>", body, re.S)
    assert row and re.search(r"\b3[.,]00\b", row[0]), f"with what was sold there  [{row and row[0]}]"
    assert not [line for line in faults_of("portal-office") if line.startswith("office:")], "its unit has no fault"


def test_who_may_ask(chain: None) -> None:
    for user in ("www-data", "portal-front", "nobody"):
        line = f"setpriv --reuid={user} --regid=$(id -g {user}) --init-groups python3 -c \"import socket; socket.socket(1).connect('/run/portal-office/socket')\""
        assert "PermissionError" in sh(line).stderr, f"the counters' pages alone open the socket of the office: {user} does not"


def test_postgresql_away(chain: None) -> None:
    sh("systemctl stop postgresql")
    try:
        status, body, _ = office_page()
        assert status == 503 and "The view of all venues cannot be read." in body, f"the page says that it cannot be read  [{status}]"
        with at("north"):
            assert code(), "and the counter goes on"
        for name in ("collect", "plans"):
            sh(f"systemctl start portal-venues-{name}")
        assert active("portal-venues-plans") != "failed", "the unit that fetches plans does not fail of it"
        assert active("portal-venues-collect") == "failed", "the collector does, once"
    finally:
        sh("systemctl start postgresql")
    assert until(lambda: psql("SELECT 1").returncode == 0, 30) is not None, "PostgreSQL is back"
    assert office_page()[0] == 200, "and so is the page"


def test_plans_of_another_machine(chain: None) -> None:
    """Plans are put into the table as by another machine; the timer's unit brings them to the venues of this one."""
    assert sh("portal-venues report").returncode == 0, "the report of the office makes the tables of plans"
    done = psql(f"INSERT INTO portal.plan_file (venue, plans, offers) VALUES ('north', '{NIGHT}', '')", "-d", "portal")
    assert done.returncode == 0 and "north has not got the plans of the chain yet" in sh("portal-venues report").stdout, (
        f"which names the venue that has not got them  [{output(done)}]")
    plans, other = (pathlib.Path("/etc/portal/venues", name, "plans.toml") for name in ZONES)
    before = other.read_bytes()
    started = machine.show("portal-venues-counter", "ExecMainStartTimestampMonotonic")
    sh("systemctl start portal-venues-plans")
    said = journal("portal-venues-plans")[-4:]
    assert 'id = "night"' in plans.read_text(), f"the unit writes the plans of that venue  [{said}]"
    assert plans.stat().st_mode & 0o777 == 0o644 and other.read_bytes() == before, f"and of no other one  [{said}]"
    assert machine.show("portal-venues-counter", "ExecMainStartTimestampMonotonic") != started, f"the counters are started anew  [{said}]"
    with at("north"):
        assert until(lambda: bool(code("night")), 20) is not None, "and sell vouchers of the new plan"


def provider() -> Any:
    """A provider on loopback, at which whoever comes is Olga of the office."""
    from oidc_provider import Provider      # (its library came with the packages of a chain)
    made = Provider()
    made.claims = {"email": "olga@chain.example", "email_verified": True, "groups": ["office"]}
    return made


class NoRedirect(urllib.request.HTTPRedirectHandler):
    """Leaves a redirect as the answer."""

    def redirect_request(self, *_: object) -> None:
        return None


def at_the_provider(url: str) -> str:
    """Where the provider sends a browser back to."""
    try:
        urllib.request.build_opener(NoRedirect).open(url)
    except urllib.error.HTTPError as answer:
        return str(answer.headers["Location"])
    return ""


def test_sign_in(chain: None) -> None:
    made = provider()
    SIGN_IN.write_text(f'issuer = "{made.issuer}"\nclient_id = "portal"\nclient_secret = "the secret of the client"\n'
                       '[[role]]\nclaim = "groups"\nvalue = "office"\nrole = "office"\nvenues = ["*"]\n')
    done = sh("portal-venues apply")
    assert done.returncode == 0 and active("portal-sign-in.socket") == "active", f"once it is set up its socket is on  [{output(done, 600)}]"
    assert SIGN_IN.stat().st_mode & 0o777 == 0o600, "and root alone reads the client's secret"
    with at("north"):
        machine.LOGIN.update(cookie="", token="")
        status, body, head = machine.curl("clerk", "https://north.example/sign-in")
        place, cookie = (re.search(rf"(?mi)^{name}: ([^;\n]*)", head) for name in ("location", "set-cookie"))
        assert status == 303 and place and cookie and place[1].startswith(made.issuer), (
            f"the browser is led to the provider  [{status}: {faults_of('portal-sign-in')[-3:]} {output(done)}]")
        answer = machine.curl("clerk", at_the_provider(place[1]), "-H", f"Cookie: {cookie[1]}")
        login = re.search(r"(?mi)^set-cookie: (__Host-counter=[^;\n]+)", answer[2])
        assert answer[0] == 200 and login, f"and comes back with a log-in  [{answer[0]}: {faults_of('portal-sign-in')[-3:]}]"
        page = machine.curl("clerk", "https://north.example/office", "-H", f"Cookie: {login[1]}")
        assert page[0] == 200 and "olga@chain.example" in page[1], f"which opens the page of the office  [{page[0]}]"
    made.shutdown()


def test_sign_in_off(chain: None) -> None:
    SIGN_IN.unlink(missing_ok=True)
    done = sh("portal-venues apply")
    assert done.returncode == 0 and active("portal-sign-in.socket") == "inactive", f"without its file the sign-in is off  [{output(done, 600)}]"
    with at("north"):
        status = machine.curl("clerk", "https://north.example/sign-in")[0]
        assert status in (303, 404), f"and leads nowhere  [{status}]"


def test_retired(chain: None) -> None:
    for name in ZONES:
        done = sh("portal-venues", "retire", name)
        assert done.returncode == 0, f"a venue of the table is retired  [{output(done, 600)}]"
    left = [unit for unit in (*TIMERS, "portal-office.socket", "portal-sign-in.socket") if active(unit) == "active"]
    assert not left, f"without venues nothing of the chain runs  [{left}]"
    sh("systemctl disable --now postgresql; systemctl reset-failed")
    assert until(machine.all_run, 20) is not None, "the venue without a name goes on"
