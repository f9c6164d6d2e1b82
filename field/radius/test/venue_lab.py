"""A venue with RADIUS on loopback: the server, FreeRADIUS, the agent, the guests' page, the metrics, and access servers.

Each lab has 256 addresses of 127.0.0.0/8 for itself, so several run side by side with the ports of the RFCs. All files
are made by the kit's `setup` from a field.toml, and each part is started with what its unit gives it.
"""

from __future__ import annotations

import contextlib
import hmac
import http.client
import os
import pathlib
import random
import re
import shlex
import shutil
import signal
import socket
import sqlite3
import subprocess
import threading
import urllib.parse
from collections.abc import Callable, Iterator
from typing import Any

from desk_process import free_port
from programs import Programs, accepts
from scripted_nas import MAKERS, PLAIN, Maker, Nas, Reply
from steady import BUSY, MOST_TIMES, Span

from portal_field.lib.desk_client import Desk, NoAnswer, Routes, new_number

HERE = pathlib.Path(__file__).resolve().parent
KIT = HERE.parent.parent
PYTHON = "/usr/bin/python3"
STAND_IN = f"{PYTHON} {KIT / 'test/desk_stand_in.py'}"
FIELD = """house = "A Venue"
help = "Ask."
name = "wifi.example"
zone = "UTC0"
lan = "lan0"
guests = "10.77.0.1/22"
leases = ["10.77.0.50", "10.77.3.250", "1h"]
wan = "wan0"
counter = "10.88.0.1/24"
counter_name = "counter.example"
cert = "/etc/portal/tls/cert.pem"
key = "/etc/portal/tls/key.pem"
quiet_seconds = 1.0
"""


def free_network() -> str:
    """The first three octets of addresses that no other lab has."""
    while True:
        network = f"127.{random.randint(2, 250)}.{random.randint(0, 255)}"
        try:
            with socket.socket(socket.AF_INET, socket.SOCK_DGRAM) as door:
                door.bind((f"{network}.1", 1812))
            return network
        except OSError:
            continue


def listens(port: int) -> bool:
    """Whether something listens on this port of loopback."""
    with socket.socket() as link:
        return link.connect_ex(("127.0.0.1", port)) == 0


def plan(name: str, uses: int = 1, seconds: int = 3600, octets: int = 0, extend: bool = True) -> str:
    """A plan's lines of a plans file."""
    return (f'[[plan]]\nid = "{name}"\nprice = 300\nuses = {uses}\nseconds = {seconds}\nbytes = {octets}\n'
            f'shelf_days = 30\nextend = {str(extend).lower()}\n')


class PageLink(http.client.HTTPConnection):
    """The page's socket in the file system, as nginx opens it."""

    def __init__(self, path: pathlib.Path) -> None:
        super().__init__("front", timeout=15)
        self.path = path

    def connect(self) -> None:
        """Connects to the page's Unix socket."""
        self.sock = socket.socket(socket.AF_UNIX)
        self.sock.settimeout(self.timeout)
        self.sock.connect(str(self.path))


class Page:
    """A guest's browser at the venue's own page: the form that it shows, and pressing it."""

    def __init__(self, path: pathlib.Path, device: str) -> None:
        self.path, self.device = path, device
        self.fields: dict[str, str] = {}
        self.status, self.text, self.where = 0, "", ""

    def ask(self, form: dict[str, str] | None = None) -> None:
        """Asks for the guests' page, or sends it a form; status, text and address of the answer are kept."""
        link = PageLink(self.path)
        body = urllib.parse.urlencode(form) if form is not None else None
        link.request("POST" if body is not None else "GET", "/portal" if body is not None else "/portal?add=1", body, {"X-Real-IP": self.device})
        answer = link.getresponse()
        self.status, self.text = answer.status, answer.read().decode()
        self.where = answer.getheader("Location", "")
        link.close()

    def read(self) -> None:
        """Reads the hidden fields of the page that was shown last."""
        self.fields = dict(re.findall(r'<input type="hidden" name="([a-z]+)" value="([^"]*)"', self.text))

    def show(self) -> None:
        """Asks for the page as a browser does, and reads its hidden fields."""
        self.ask()
        self.read()

    def press(self, code: str) -> int:
        """Sends the form that is shown; a page that comes back is shown from then on."""
        self.ask({**self.fields, "code": code})
        if self.status != 303:
            self.read()
        return self.status

    def type(self, code: str) -> int:
        """Shows the page, types the code and presses the button; the status of the answer."""
        self.show()
        return self.press(code)


class Venue(Programs):
    def __init__(self, portal: str = "", kit: pathlib.Path = KIT, lines: str = "", reject_delay: int = 0) -> None:
        super().__init__("portal-radius.")
        self.span = Span()
        self.command, self.kit, self.reject_delay = portal, kit, reject_delay
        self.portal = shlex.split(portal or STAND_IN)
        self.desk_port, self.metrics_port = free_port(), free_port()
        self.network = free_network()
        self.host = f"{self.network}.1"
        self.made_root = self.root / "made"
        self.nas_at: dict[str, Nas] = {}
        self.devices, self.batches = 0, 0
        self.all_codes: list[str] = []
        self.settings(lines)

    def is_no_fault(self, line: str) -> bool:
        """That requests had to wait is none where the machine was held up."""
        return WAITED in line and self.span.held_up() >= BUSY / MOST_TIMES

    # Files

    def address(self, maker: Maker) -> str:
        """The address of the access server of this maker."""
        return f"{self.network}.{10 + ([PLAIN, *MAKERS].index(maker))}"

    def settings(self, lines: str = "") -> None:
        """Writes field.toml, and has the kit's set-up make all else."""
        text = FIELD + f"desk_port = {self.desk_port}\nmetrics = \"127.0.0.1:{self.metrics_port}\"\n{lines}"
        text += f'[radius]\nlisten = "{self.host}"\n'
        for maker in (PLAIN, *MAKERS):
            text += (f'[radius.nas.{maker.name}]\naddress = "{self.address(maker)}"\ndisconnect_port = {maker.coa_port}\n'
                     f"message_authenticator = {str(maker.signs).lower()}\n"
                     f"extend_by_coa = {str(maker is PLAIN).lower()}\n")
        (self.root / "field.toml").write_text(text)
        done = subprocess.run([PYTHON, str(self.kit / "setup"), "--root", str(self.made_root), "--field", str(self.kit),
                               str(self.root / "field.toml")], capture_output=True, text=True, check=False)
        if done.returncode:
            raise OSError(done.stderr)
        self.etc = self.made_root / "etc/portal"
        self.run, self.state = self.made_root / "run/portal-radius", self.made_root / "var/lib/portal-radius"
        for folder in (self.run, self.state, self.made_root / "run/portal-page", self.made_root / "run/portal-front",
                       self.made_root / "run/portal-gateway"):
            folder.mkdir(parents=True, exist_ok=True)

    def credentials(self, unit: str) -> pathlib.Path:
        """Makes the folder that a unit gets by LoadCredential=: files, and each file of a folder. Its
        path."""
        folder = self.root / f"credentials-{unit}"
        shutil.rmtree(folder, ignore_errors=True)
        folder.mkdir(mode=0o700)
        text = (self.kit / f"units/{unit}.service").read_text()
        for name, path in re.findall(r"(?m)^LoadCredential=([a-z_]+):/etc/portal/(\S+)$", text):
            source = self.etc / path
            for file in source.iterdir() if source.is_dir() else (source,):
                goal = folder / (f"{name}_{file.name}" if source.is_dir() else name)
                shutil.copy(file, goal)
        return folder

    def environment(self, unit: str) -> dict[str, str]:
        """The environment of a unit: radius.env, and its credentials."""
        words = dict(line.split("=", 1) for line in (self.etc / "radius.env").read_text().splitlines())
        return {**os.environ, "PATH": os.environ.get("PATH", "") + ":/usr/sbin", **words,
                "RADIUS_REJECT_DELAY": str(self.reject_delay), "CREDENTIALS_DIRECTORY": str(self.credentials(unit))}

    # Parts

    def start(self, name: str, *words: object, env: dict[str, str] | None = None) -> None:
        """Starts a program of the venue; its log has its name."""
        self.start_program(name, words, env=env)

    def start_desk(self) -> None:
        """Starts the server, and waits until it answers."""
        self.start("desk", *self.portal, "serve", "--db", self.root / "book.db", "--settings", self.etc / "portal.toml",
                   "--port", self.desk_port)
        tokens = [(self.etc / "credentials" / name).read_text().strip() for name in ("desk_token", "gateway_token")]
        self.counter, self.gateway = (Desk(self.desk_port, token) for token in tokens)
        self.until(lambda: self.gateway.request_json(Routes.SESSIONS) is not None, what="the server answers")

    def start_radius(self) -> None:
        """Starts FreeRADIUS with the kit's settings, and waits until it is ready."""
        env = self.environment("portal-radius")
        subprocess.run([PYTHON, "-m", "portal_field.radius.prepare", env["RADIUS_RUN"], env["RADIUS_RADACCT"]],
                       check=True, env=env)
        (self.root / "radius.log").write_text("")
        self.start("radius", "freeradius", "-f", "-l", "stdout", "-d", env["RADIUS_CONFIG"], env=env)
        self.until(lambda: self.jobs["radius"].poll() is not None
                   or "Ready to process" in (self.root / "radius.log").read_text(), what="FreeRADIUS is ready")
        if self.jobs["radius"].poll() is not None:
            raise OSError("FreeRADIUS does not start: " + (self.root / "radius.log").read_text()[-1000:])

    def start_agent(self) -> None:
        """Starts the agent, which ends sessions at access servers."""
        env = {**self.environment("portal-radius-agent"), "FIELD_SETTINGS": str(self.etc / "radius.toml")}
        self.start("agent", PYTHON, "-B", "-m", "portal_field.radius.agent", env=env)

    def start_page(self) -> None:
        """Starts the guests' page behind a stand-in for nginx and for the leases: an address is its device
        here."""
        path = self.made_root / "run/portal-front/socket"
        path.unlink(missing_ok=True)
        env = {**self.environment("portal-front"), "FIELD_SETTINGS": str(self.etc / "front.toml")}
        self.start("page", PYTHON, "-B", HERE / "page_process.py", env=env)
        self.until(lambda: accepts(path), what="the page listens")

    def start_metrics(self) -> None:
        """Starts the metrics, and waits until they listen."""
        env = {**self.environment("portal-metrics"), "FIELD_SETTINGS": str(self.etc / "metrics.toml")}
        self.start("metrics", PYTHON, "-B", "-m", "portal_field.metrics.exporter", env=env)
        self.until(lambda: listens(self.metrics_port), what="the metrics")

    def start_all(self) -> None:
        """Starts the server, FreeRADIUS and the agent."""
        self.start_desk()
        self.start_radius()
        self.start_agent()

    def close(self) -> None:
        """Kills all programs, and removes the folder."""
        self.stop_all(kill=True)
        for nas in self.nas_at.values():
            nas.close()
        self.remove_folder()

    def comes(self, true: Callable[[], object], seconds: float = 4.0) -> bool:
        """Waits until it is so. Whether it came about. While the server does not answer it is not so."""
        def try_it() -> object:
            """What the condition says; False where nothing answers yet."""
            try:
                return true()
            except (OSError, NoAnswer):
                return False
        return super().comes(try_it, seconds)

    # The counter

    def load(self, *plans: str) -> None:
        """Loads plans into the server."""
        self.counter.request(Routes.PLANS, body="".join(plans).encode())

    def codes(self, plan_id: str, count: int, sell: bool = True) -> list[str]:
        """Codes of a new batch, which are sold unless `sell` is false."""
        self.batches += 1
        batch = f"batch-{self.batches}"
        self.counter.request(Routes.ISSUE, body={"batch": batch, "plan": plan_id, "count": count})
        lines = self.counter.request(Routes.PRINT, batch).decode().splitlines()[1:]
        found = [text.split(",")[0] for text in lines]
        self.all_codes += found
        for code in found if sell else ():
            self.counter.request(Routes.SELL, body={"code": code})
        return found

    def uses_of(self, code: str) -> int:
        """How often a code was redeemed."""
        return int(self.counter.request_json(Routes.VOUCHER, code)["redeemed"])

    def sessions(self) -> dict[str, dict[str, Any]]:
        """The open sessions by their devices."""
        return {row["device"]: row for row in self.gateway.request_json(Routes.SESSIONS)["sessions"]}

    def close_session(self, device: str) -> None:
        """Closes the open session of a device, as a clerk does."""
        self.counter.request(Routes.CLOSE, body={"session": self.sessions()[device]["session"]})

    def refund(self, code: str) -> None:
        """Refunds a voucher, as a clerk does."""
        self.counter.request(Routes.REFUND, body={"code": code})

    def bytes_left(self, device: str) -> int | None:
        """Bytes that the server says are left."""
        return self.sessions().get(device, {}).get("bytes-remaining")

    # Accounting

    def rows(self, query: str, *values: object) -> list[tuple[Any, ...]]:
        """The rows of a query of radacct.db."""
        book = sqlite3.connect(self.state / "radacct.db", timeout=5)
        try:
            return book.execute(query, values).fetchall()
        finally:
            book.close()

    def sessions_of(self, *names: str) -> set[str]:
        """Those of these accounting sessions that have rows in radacct."""
        return {name for name, in self.rows("SELECT acctsessionid FROM radacct") if name in names}

    def class_of(self, session: int, device: str, nas: Nas) -> bytes:
        """What the access server is given with a login: an HMAC-SHA256 (RFC 2104), of which 128 bits are kept."""
        key = (self.etc / "credentials/class_key").read_bytes().strip()
        tag = hmac.digest(key, f"{session} {device} {nas.maker.name}".encode(), "sha256").hex()[:32]
        return f"portal-{session}-{device.replace(':', '')}-{tag}".encode()

    # Guests

    def device(self) -> str:
        """The MAC address of a device that no test had before."""
        self.devices += 1
        return f"02:00:00:00:{self.devices >> 8:02x}:{self.devices & 255:02x}"

    @staticmethod
    def number(reply: Reply, name: str) -> int:
        """An attribute of a reply that is a number; -1 where it is another value, and 0 where it is
        missing."""
        found = reply.values.get(name, 0)
        return found if isinstance(found, int) else -1

    def redeem(self, code: str, device: str) -> None:
        """Redeems a code by a program of the guest's, with a number of its own."""
        Desk(self.desk_port).request_json(Routes.REDEEM, body={"code": code}, device=device, number=new_number())

    @staticmethod
    def beside(call: Callable[[], object]) -> threading.Thread:
        """Runs a call in a thread beside the test."""
        thread = threading.Thread(target=call, daemon=True)
        thread.start()
        return thread

    @contextlib.contextmanager
    def held_still(self) -> Iterator[None]:
        """Holds the server still; what was sent to it meanwhile is carried out afterwards."""
        desk = self.jobs["desk"].pid
        os.kill(desk, signal.SIGSTOP)
        try:
            yield
        finally:
            os.kill(desk, signal.SIGCONT)

    def has_asked(self, part: str) -> bool:
        """Whether a request of a part waits at the server, which is held still."""
        rows = [line.split() for line in pathlib.Path("/proc/net/tcp").read_text().splitlines()[1:]]
        asking = {row[2] for row in rows
                  if row[1].endswith(f":{self.desk_port:04X}") and not row[4].endswith(":00000000")}
        files = pathlib.Path(f"/proc/{self.jobs[part].pid}/fd").iterdir()
        sockets = {os.readlink(path) for path in files}
        return any(row[1] in asking and f"socket:[{row[9]}]" in sockets for row in rows)

    def kill_radius_at_login(self, nas: Nas, code: str, device: str) -> None:
        """Kills FreeRADIUS while it redeems a code; the server carries that out afterwards."""
        with self.held_still():
            self.beside(lambda: nas.login(code, device, wait=1.0))
            self.until(lambda: self.has_asked("radius"), what="FreeRADIUS asks the server")
            self.stop("radius", kill=True)
        self.until(lambda: self.uses_of(code) == 1, what="the server carries out what was asked")

    def nas(self, maker: Maker = PLAIN) -> Nas:
        """The access server of this maker, which is made when a test first wants it."""
        if maker.name not in self.nas_at:
            secret = (self.etc / "credentials/radius" / maker.name).read_text().strip()
            self.nas_at[maker.name] = Nas(self.address(maker), secret, (self.host, 1812, 1813), maker)
        return self.nas_at[maker.name]

    def page(self, device: str) -> Page:
        """The guests' page as this device sees it."""
        return Page(self.made_root / "run/portal-front/socket", device)


PLANS = (plan("hour"), plan("three", uses=3), plan("stiff", extend=False), plan("both", octets=10_000_000),
         plan("gig", seconds=0, octets=6 * 2**30), plan("blink", uses=3, seconds=3), plan("many", uses=20))
MADE_UP = "2222-2222-223N"          # a code that is well-formed
FAULTS = ("Traceback", "Segmentation", "ASSERT", "Error: ")     # in a log
WAITED = "requests have been waiting in the processing queue"   # (FreeRADIUS counts it as an error)


@contextlib.contextmanager
def open_venue(portal: str, *parts: str, lines: str = "") -> Iterator[Venue]:
    """Opens a venue with the server, FreeRADIUS and the agent, and of `page` and `metrics` those that are
    named. `lines`: of field.toml."""
    venue = Venue(portal, lines=lines)
    try:
        venue.start_all()
        if "page" in parts:
            venue.start_page()
        if "metrics" in parts:
            venue.start_metrics()
        venue.load(*PLANS)
        yield venue
    finally:
        venue.close()


__all__ = ["FAULTS", "HERE", "KIT", "MADE_UP", "MAKERS", "PLAIN", "PLANS", "PYTHON", "STAND_IN", "Maker", "Nas", "Page", "Venue",
           "open_venue", "plan"]
