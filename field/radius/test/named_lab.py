"""Venues by name on loopback, two or more, each with a server, FreeRADIUS, the agent and an access server of its own; one process
of counters' pages behind the counter's nginx. All files are made by the kit from each venue's field.toml."""

from __future__ import annotations

import contextlib
import functools
import hashlib
import http.client
import os
import pathlib
import re
import shlex
import shutil
import socket
import sqlite3
import ssl
import subprocess
import time
from collections.abc import Iterator, Sequence

from at_entrance import ClerksBrowser, quick_hash
from counter_nginx import certificate
from desk_process import free_port
from programs import Programs, accepts
from scripted_nas import Nas
from venue_lab import KIT, PYTHON, STAND_IN, free_network, plan

from portal_field.lib.desk_client import Desk, Routes
from portal_field.lib.machine_time import Notes
from portal_field.settings.accounts import CLERK, FILE, MANAGER, Account, Accounts
from portal_field.venues.counters import open_counter
from portal_field.venues.files import SOCKET, VenueFiles, make_shared
from portal_field.venues.places import Machine, Places
from portal_field.venues.venue_settings import all_venues, read_venue

NAMES = ("north", "south")
BOTH, WORD_OF_BOTH = "carla", "the long word of both"    # who has one name and one password in both venues
TRUST = ssl._create_unverified_context()        # made once, as each reads all certificates of the machine
PLANS = plan("hour") + plan("both", octets=10_000_000) + plan("sorry").replace("price = 300", "price = 0")
FIELD = """house = "House {name}"
name = "wifi.example"
counter_name = "{name}.example"
zone = "UTC0"
desk_port = {port}
quiet_seconds = 1.0
"""
RADIUS = """[radius]
listen = "{host}"
auth_port = {auth}
acct_port = {acct}
[radius.nas.lobby]
address = "{nas}"
"""


class Door(http.client.HTTPSConnection):
    """A connection to the counter's nginx, which asks by TLS for a name."""

    def __init__(self, address: str, name: str) -> None:
        super().__init__(address, 443, timeout=20, context=TRUST)
        self.name = name

    def connect(self) -> None:
        """Connects, and names the site (RFC 6066 section 3)."""
        self.sock = TRUST.wrap_socket(socket.create_connection((self.host, 443), 20), server_hostname=self.name)


class Named:
    """One of the venues: its files, its server, its access server, and what was sold there."""
    lines, plans = FIELD + RADIUS, PLANS

    def __init__(self, name: str, number: int, root: pathlib.Path, host: str, nas: str, port: int) -> None:
        self.name, self.number, self.places, self.host, self.nas_address = name, number, Places(name, root), host, nas
        self.ports = (1810 + 2 * number, 1811 + 2 * number)
        self.port, self.batches, self.devices = port, 0, 0
        self.word = f"the long word of {name}"
        self.places.settings.mkdir(parents=True)
        self.places.field.write_text(self.lines.format(name=name, port=self.port, host=host, nas=nas, auth=self.ports[0],
                                                       acct=self.ports[1]))
        (self.places.settings / "plans.toml").write_text(self.plans)
        VenueFiles(read_venue(self.places.field.read_text()), self.places, str(KIT)).make()
        accounts = Accounts()
        for clerk, role in (("anna", MANAGER), ("ben", CLERK), (f"only-{name}", MANAGER)):
            accounts = accounts.having(Account(clerk, role, quick_hash(self.word)))
        accounts = accounts.having(Account(BOTH, MANAGER, quick_hash(WORD_OF_BOTH)))
        (self.places.settings / FILE).write_text(accounts.text)
        self.desk_token = self.places.desk_token.read_text().strip()
        self.gateway_token = (self.places.settings / "credentials/gateway_token").read_text().strip()
        self.desk, self.gateway = Desk(self.port, self.desk_token), Desk(self.port, self.gateway_token)
        self.radacct = root / "var/lib/portal-venues-radius" / name / "radacct.db"
        secret = self.places.settings / "credentials/radius/lobby"
        self.secret = secret.read_text().strip() if secret.exists() else ""
        self.codes: list[str] = []

    def new_codes(self, plan_id: str, count: int, sell: bool = True) -> list[str]:
        """Codes of a new batch, which are sold unless `sell` is false."""
        self.batches += 1
        batch = f"{self.name}-{self.batches}"
        self.desk.request_json(Routes.ISSUE, body={"batch": batch, "plan": plan_id, "count": count})
        lines = self.desk.request(Routes.PRINT, batch).decode().splitlines()[1:]
        found = [line.partition(",")[0] for line in lines]
        for code in found if sell else ():
            self.desk.request_json(Routes.SELL, body={"code": code})
        self.codes += found
        return found

    def device(self) -> str:
        """The MAC address of a device that was not seen before."""
        self.devices += 1
        return f"02:00:00:{self.number:02x}:{self.devices >> 8:02x}:{self.devices & 255:02x}"

    def sessions(self) -> dict[str, tuple[int, int]]:
        """The open sessions by device: the number, and the bytes that are left, or -1."""
        return {row["device"]: (row["session"], row.get("bytes-remaining", -1))
                for row in self.gateway.request_json(Routes.SESSIONS)["sessions"]}

    def uses_of(self, code: str) -> int:
        """How often a code was redeemed here."""
        return int(self.desk.request_json(Routes.VOUCHER, code)["redeemed"])

    def rows(self, path: pathlib.Path, query: str) -> list[tuple[object, ...]]:
        """The rows of a query of one of its databases."""
        with contextlib.closing(sqlite3.connect(path, timeout=5)) as link:
            return link.execute(query).fetchall()

    def state(self) -> dict[str, object]:
        """All that anybody could change here: vouchers, sessions, money, files, journal, accounting."""
        takings = self.desk.request(Routes.TAKINGS, query={"from": "2026-01-01", "to": "2026-12-31"})
        files = {str(path.relative_to(self.places.settings)): hashlib.sha256(path.read_bytes()).hexdigest()
                 for path in sorted(self.places.settings.rglob("*")) if path.is_file()}
        journal = self.places.counter_state / "journal.db"
        return {"takings": takings, "sessions": self.sessions(), "files": files,
                "vouchers": [self.desk.request_json(Routes.VOUCHER, code) for code in self.codes],
                "acts": self.rows(journal, "SELECT clerk, act, batch, answer FROM acts WHERE answer <> 'wrong_word'"),
                "begun": self.rows(journal, "SELECT * FROM begun"), "reasons": self.rows(journal, "SELECT * FROM reasons"),
                "accounting": self.rows(self.radacct, "SELECT acctsessionid, acctinputoctets, acctstoptime FROM radacct"),
                "logins": self.rows(self.radacct.with_name("logins.db"), "SELECT session, device, server FROM portal_logins")}


class Lab(Programs):
    """The venues and what they share. `clock`: what gives a program another clock in its environment."""

    def __init__(self, portal: str, names: Sequence[str] = NAMES, clock: dict[str, str] | None = None) -> None:
        super().__init__("portal-named.")
        self.root.chmod(0o755)
        self.portal, self.network, self.clock = shlex.split(portal or STAND_IN), free_network(), clock or {}
        self.host, self.made, self.ports = f"{self.network}.1", self.root / "made", set[int]()
        self.venues = {name: self.venue(name, number) for number, name in enumerate(names, 1)}
        certificate(self.root, "north.example")
        self.machine = Machine(self.host, str(self.root / "cert.pem"), str(self.root / "key.pem"), ["127.0.0.0/8"])
        make_shared(all_venues(self.made)[0], self.machine, self.made, str(KIT))
        self.nas = {name: Nas(venue.nas_address, venue.secret, (self.host, *venue.ports))
                    for name, venue in self.venues.items() if venue.secret}

    def venue(self, name: str, number: int) -> Named:
        """Makes a venue, with its files."""
        return Named(name, number, self.made, self.host, f"{self.network}.{1 + number}", self.new_port())

    def new_port(self) -> int:
        """A port of loopback that nothing has now, and no other venue of the lab."""
        while (port := free_port()) in self.ports:
            pass
        self.ports.add(port)
        return port

    @property
    def north(self) -> Named:
        """The venue of this name."""
        return self.venues["north"]

    @property
    def south(self) -> Named:
        """The venue of this name."""
        return self.venues["south"]

    @functools.cached_property
    def routes(self) -> list[tuple[str, str]]:
        """The addresses of the counter's pages, with their methods."""
        rules = open_counter(self.south.places, "").app.url_map.iter_rules()        # type: ignore[attr-defined]
        return sorted((rule.rule, method) for rule in rules for method in rule.methods & {"GET", "POST"})

    def credentials(self, unit: str, name: str) -> pathlib.Path:
        """Makes the folder that a unit of a venue gets by LoadCredential=: files, and each file of a folder. Its path."""
        folder = self.root / f"credentials-{unit}{name}"
        shutil.rmtree(folder, ignore_errors=True)
        folder.mkdir(mode=0o700)
        text = (KIT / f"units/{unit}.service").read_text().replace("%i", name)
        for word, path in re.findall(r"(?m)^LoadCredential=([a-z_]+):/(\S+)$", text):
            source = self.made / path
            for file in source.iterdir() if source.is_dir() else (source,):
                shutil.copy(file, folder / (f"{word}_{file.name}" if source.is_dir() else word))
        return folder

    def environment(self, unit: str, venue: Named) -> dict[str, str]:
        """The environment of a venue's unit: radius.env, and its credentials."""
        lines = (venue.places.settings / "radius.env").read_text().splitlines()
        return {**os.environ, "PATH": os.environ.get("PATH", "") + ":/usr/sbin", **dict(line.split("=", 1) for line in lines),
                "RADIUS_REJECT_DELAY": "0", "CREDENTIALS_DIRECTORY": str(self.credentials(unit, venue.name))}

    def start_venue(self, venue: Named) -> None:
        """Starts the server, FreeRADIUS and the agent of a venue; those of RADIUS where it has access servers."""
        self.start_desk(venue)
        venue.desk.request_json(Routes.PLANS, body=venue.plans.encode())
        if venue.secret:
            self.start_radius(venue)
            self.start_agent(venue)

    def start_desk(self, venue: Named) -> None:
        """Starts the server of a venue, and writes the note that its unit writes."""
        venue.places.database.parent.mkdir(parents=True, exist_ok=True)
        self.start_program(f"desk-{venue.name}", [*self.portal, "serve", "--db", venue.places.database, "--settings",
                                                  venue.places.settings / "portal.toml", "--port", venue.port],
                           env={**os.environ, **self.clock})
        self.until(lambda: accepts_at(venue.port), what=f"the server of {venue.name}")
        notes = Notes(str(venue.places.notes))
        notes.folder.mkdir(parents=True, exist_ok=True)
        notes.write("state", **{"is": "serves", "since": time.time_ns()})

    def start_radius(self, venue: Named) -> None:
        """Starts FreeRADIUS of a venue, and waits until it is ready."""
        name, env = venue.name, self.environment("portal-radius@", venue)
        for folder in (pathlib.Path(env["RADIUS_RUN"]), venue.radacct.parent):
            folder.mkdir(parents=True, exist_ok=True)
        subprocess.run([PYTHON, "-m", "portal_field.radius.prepare", env["RADIUS_RUN"], env["RADIUS_RADACCT"]], check=True, env=env)
        log = self.root / f"radius-{name}.log"
        log.write_text("")
        self.start_program(f"radius-{name}", ["freeradius", "-f", "-l", "stdout", "-d", env["RADIUS_CONFIG"]], env=env)
        self.until(lambda: "Ready to process" in log.read_text(), what=f"FreeRADIUS of {name}")

    def start_agent(self, venue: Named) -> None:
        """Starts the agent of a venue, which ends sessions at its access server."""
        self.start_program(f"agent-{venue.name}", [PYTHON, "-B", "-m", "portal_field.radius.agent"],
                           env=self.environment("portal-radius-agent@", venue))

    def start_counters(self) -> None:
        """Starts the counters' pages of all venues in one process."""
        path = self.made / f"run{SOCKET}"
        path.parent.mkdir(parents=True, exist_ok=True)
        env = {**os.environ, **self.clock, "CREDENTIALS_DIRECTORY": str(self.credentials("portal-venues-counter", ""))}
        self.start_program("counters", [PYTHON, "-B", pathlib.Path(__file__).with_name("counters_process.py"), self.made, path], env=env)
        self.until(lambda: accepts(path), what="the counters' pages")

    def start_nginx(self) -> None:
        """Starts the counters' nginx."""
        (self.made / "run/portal-counter-nginx").mkdir(exist_ok=True)
        for conf in (self.made / "etc/portal/counter-nginx").glob("*.conf"):
            conf.write_text(conf.read_text().replace("/var/log/portal", str(self.root)).replace("user portal-counter-nginx;", "user root;"))
        conf = self.made / "etc/portal/counter-nginx/nginx.conf"
        self.start_program("nginx", ["nginx", "-e", self.root / "nginx-error.log", "-p", self.root, "-c", conf, "-g", "daemon off;"],
                           env={**os.environ, "PATH": os.environ.get("PATH", "") + ":/usr/sbin"})
        self.until(lambda: accepts_at(443, self.host), what="nginx")

    def browser(self, name: str, tls: str = "") -> ClerksBrowser:
        """A browser at the counter of a venue; by TLS it may ask for another name."""
        host = f"{name}.example"
        return ClerksBrowser(lambda: Door(self.host, tls or host), place="", host=host)

    def clerk(self, name: str, clerk: str = "anna") -> ClerksBrowser:
        """The browser of somebody who is logged in at the counter of a venue."""
        one = self.browser(name)
        answer = one.log_in(clerk, WORD_OF_BOTH if clerk == BOTH else self.venues[name].word)
        assert answer.status == 303 and one.token, f"{clerk} logs in at the {name}  [{answer.status}]"
        return one

    def close(self) -> None:
        """Ends nginx, with its workers; kills all others, and removes the folder."""
        self.stop("nginx")
        self.stop_all(kill=True)
        for nas in self.nas.values():
            nas.close()
        self.remove_folder()


def accepts_at(port: int, address: str = "127.0.0.1") -> bool:
    """Whether a program listens at a port."""
    with socket.socket() as link:
        return link.connect_ex((address, port)) == 0


@contextlib.contextmanager
def open_lab(portal: str) -> Iterator[Lab]:
    """Both venues, with all that they need."""
    lab = Lab(portal)
    try:
        for venue in lab.venues.values():
            lab.start_venue(venue)
        lab.start_counters()
        lab.start_nginx()
        yield lab
    finally:
        lab.close()
