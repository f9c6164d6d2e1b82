"""What the booted test does on its machine, and what it sees there: services, a guest, a clerk, packets."""

from __future__ import annotations

import contextlib
import glob
import hashlib
import http.client
import json
import os
import pathlib
import re
import sqlite3
import subprocess
import sys
import tempfile
import threading
import time
from collections.abc import Callable, Iterator
from typing import Any

import steady

HERE = pathlib.Path("/srv/venue")
LOG = pathlib.Path("/var/log/venue-test.log")
# A virtual machine without KVM is slow, and does not know that it is: it takes the time of a piece of work,
# of which this many seconds are those of a calm machine with four cores.
PIECE, CALM = "import asyncio, http.server, json, sqlite3, unittest, urllib.request, xml.dom.minidom", 0.25
IS_SLOW = (HERE / "slow-processor").exists()
GUEST = "02:aa:00:00:00:01"
FIELD, GATEWAY, PLANS = (pathlib.Path("/etc/portal", name)
                         for name in ("field.toml", "gateway.toml", "plans.toml"))
ACCOUNTS = pathlib.Path("/etc/portal/clerks.toml")
DATABASE, COPIES = pathlib.Path("/var/lib/portal/book.db"), pathlib.Path("/var/backups/portal")
SLOW = HERE / "slow"        # a folder with a `cp` that takes its time
SESSIONS = pathlib.Path("/run/portal-gateway/sessions.json")
AUTHORITY = [HERE / "ca.pem"]       # what guest and clerk believe: the last of these
COUNTER, NAME, OUTSIDE = "counter.example", "wifi.example", "203.0.113.2"
PASSWORD = "ten-letters"
LOGIN = {"cookie": "", "token": ""}     # of the clerk, once logged in
PARTS = ("portal", "portal-rules@lan0", "portal-gateway", "portal-leases", "portal-front", "portal-counter",
         "portal-counter-nginx")
UNITS = (*PARTS, "portal-settings.socket", "portal-give.socket", "portal-lookup@1", "portal-lookup@2", "nginx", "dnsmasq", "portal-backup.timer", "portal-restarts.timer")
WITNESS = ("add table inet w; delete table inet w; add table inet w; "
           "add chain inet w i { type filter hook input priority 0; }; "
           "add rule inet w i udp dport 9 counter; add rule inet w i udp dport 9 drop")
SALES: list[tuple[str, str]] = []       # plan and day of each code that was sold in this boot
Answer = tuple[int, str, str]       # status, body, head
Done = subprocess.CompletedProcess[str]


def pace() -> float:
    """How many times as long as a calm machine this one takes just now."""
    if not IS_SLOW:
        return 1.0
    start = time.monotonic()
    subprocess.run([sys.executable, "-c", PIECE], check=True)
    return max(1.0, (time.monotonic() - start) / CALM)


PATIENCE = pace()


def sh(*words: object, **more: Any) -> Done:
    """Runs a command; one word alone is a line for the shell."""
    line = ["sh", "-c", str(words[0])] if len(words) == 1 else [str(word) for word in words]
    return subprocess.run(line, capture_output=True, text=True, **more)


def output(done: Done, length: int = 300) -> str:
    """The end of what a command wrote, in one line."""
    return (done.stdout + done.stderr).strip().replace("\n", "; ")[-length:]


def until(true: Callable[[], object], seconds: float = 10.0) -> float | None:
    """Waits until it is so. Seconds until then, or None; on a machine that other work holds up, or without
    KVM, it waits longer."""
    span, times = steady.Span(), PATIENCE
    while not span.over(seconds * times) or not span.over(seconds * (times := pace())):
        if true():
            return round(span.seconds(), 2)
        time.sleep(0.05)
    return None


# Services

def active(unit: str) -> str:
    """What systemd says of a unit: active, inactive, failed .."""
    return sh("systemctl", "is-active", unit).stdout.strip()


def show(unit: str, key: str) -> str:
    """The value of a property of a unit."""
    return sh("systemctl", "show", "-p", key, "--value", unit).stdout.strip()


def journal(unit: str) -> list[str]:
    """The lines that a unit wrote in this boot."""
    return sh("journalctl", "-b", "-u", unit, "-o", "cat", "--no-pager").stdout.splitlines()


def says_since(unit: str, count: int, words: str) -> bool:
    """Whether a unit writes these words after its first so many lines of this boot."""
    return until(lambda: any(words in line for line in journal(unit)[count:]), 5) is not None


def as_worker(unit: str, *words: str) -> Done:
    """Runs a command as the user of this nginx's worker, with the groups that the process has."""
    worker = sh("pgrep", "-n", "-x", "-P", show(unit, "MainPID"), "nginx").stdout.strip()
    status = pathlib.Path("/proc", worker, "status").read_text()
    user, group = (re.findall(rf"(?m)^{key}:\t\d+\t(\d+)", status)[0] for key in ("Uid", "Gid"))
    groups = ",".join(re.findall("(?m)^Groups:(.*)", status)[0].split())
    return sh("setpriv", f"--reuid={user}", f"--regid={group}", f"--groups={groups}" if groups else "--clear-groups", *words)


def share_the_counters_door() -> None:
    """Opens the socket of the counter's page to the guests' nginx too, as earlier versions do."""
    sh("gpasswd --add www-data portal-counter; chgrp portal-counter /run/portal-counter/socket")


def all_run() -> bool:
    """Whether every unit of the venue is active."""
    return all(active(unit) == "active" for unit in UNITS)


def inactive_units() -> dict[str, str]:
    """The units that do not become active, each with its state."""
    until(all_run, 20)
    return {unit: state for unit in UNITS if (state := active(unit)) != "active"}


def failed_units() -> list[str]:
    """What systemd lists as failed."""
    return sh("systemctl --failed --no-legend --plain").stdout.split()


def run_doctor(*before: str) -> tuple[int, dict[str, Any]]:
    """The doctor's status, and its report. Other words before its name run it in another way."""
    done = sh(*before, "portal-doctor", "--json") if before else sh("portal-doctor --json")
    return done.returncode, json.loads(done.stdout)


def findings(report: dict[str, Any], state: str) -> list[str]:
    """The doctor's lines of a state."""
    return [f"{row['check']}: {row['what']}" for row in report["findings"] if row["state"] == state]


def forward() -> str:
    """Whether the kernel forwards packets: 1 or 0."""
    return pathlib.Path("/proc/sys/net/ipv4/ip_forward").read_text().strip()


# Packages

def versions() -> tuple[str, str]:
    """The versions of the packages of this test: this one, and a later one."""
    names = " ".join(path.name for path in HERE.glob("*.deb"))
    numbers = sorted(re.findall(r"portal_([0-9.]+)_", names),
                     key=lambda version: [int(part) for part in version.split(".")])
    return numbers[0], numbers[-1]


def apt(*words: str) -> Done:
    """Runs apt-get, without questions."""
    return sh("apt-get", "-y", "--no-install-recommends", "-o", "Dpkg::Use-Pty=0", *words,
              env={**os.environ, "DEBIAN_FRONTEND": "noninteractive"})


def install(version: str, *more: str) -> Done:
    """Installs this version of the package from its file, with more options of apt-get."""
    return apt(*more, "install", f"{HERE}/portal_{version}_amd64.deb")


def installed() -> str:
    """The installed version and its state, as dpkg writes them."""
    return sh("dpkg-query", "-W", "-f", "${Version} ${Status}", "portal").stdout


def has_package() -> bool:
    """Whether the package is installed."""
    return "install ok installed" in installed()


def put_certificate() -> None:
    """Puts the test's certificate and key where field.toml names them."""
    os.makedirs("/etc/portal/tls", exist_ok=True)
    for name in ("cert.pem", "key.pem"):
        path = pathlib.Path("/etc/portal/tls", name)
        path.touch(mode=0o600)
        path.write_bytes((HERE / name).read_bytes())


def edit_settings(**lines: str) -> None:
    """Writes these values into field.toml, as an owner edits it."""
    text = FIELD.read_text()
    for key, value in {"clock": "clerk", **lines}.items():      # clerk: whatever this machine's kernel says
        text = re.sub(rf'(?m)^{key} = "[^"]*"', f'{key} = "{value}"', text)
    FIELD.write_text(text)


@contextlib.contextmanager
def changed(path: pathlib.Path, text: str) -> Iterator[None]:
    """Gives a file another text for the time of the block."""
    before = path.read_bytes()
    path.write_text(text)
    try:
        yield
    finally:
        path.write_bytes(before)


def tokens() -> list[str]:
    """The SHA-256 of each secret that set-up draws."""
    folder = pathlib.Path("/etc/portal/credentials")
    return [hashlib.sha256((folder / name).read_bytes()).hexdigest()
            for name in ("desk_token", "gateway_token", "form_key")]


# A guest and a clerk

def within(space: str, *words: object, **more: Any) -> Done:
    """Runs a command in the network namespace of the guest, the clerk or the outside."""
    return sh("nsenter", f"--net=/run/netns/{space}", *words, **more)


def curl(space: str, url: str, *words: object) -> Answer:
    """Status, body and header of an answer to curl in a network namespace; status 0 where there was none."""
    done = within(space, "curl", "-s", "-i", "--max-time", f"{12 * PATIENCE:.0f}", "--cacert", AUTHORITY[-1],
                  "--resolve", NAME + ":443:10.77.0.1", "--resolve", COUNTER + ":443:10.88.0.1", *words, url)
    head, _, body = done.stdout.replace("\r\n", "\n").partition("\n\n")
    parts = head.split(None, 2)
    return (int(parts[1]) if len(parts) > 1 else 0), body, head


def answered(ask: Callable[[], Answer]) -> Answer:
    """The answer of a request. On a slow machine nginx may give up before a page is made: it is asked again,
    as nginx's answer says; a form takes effect once."""
    answer = ask()
    for _ in range(4 if IS_SLOW else 0):
        if answer[0] not in (502, 504):
            break
        answer = ask()
    return answer


def look_up(text: str) -> Answer:
    """The page of a code that is typed on the counter's page."""
    place = re.search(r"(?mi)^location: /(\S+)$", send_as_clerk("voucher", code=text)[2])
    return counter(place[1]) if place else (0, "", "")


def log_in(name: str = "clerk", password: str = PASSWORD) -> Answer:
    """The answer to a log-in at the counter. Where it is good, that clerk is the one of what follows."""
    form = {"request": f"t-{time.monotonic_ns()}", "name": name, "password": password}
    words = [word for key, value in form.items() for word in ("--data-urlencode", f"{key}={value}")]
    answer = answered(lambda: curl("clerk", f"https://{COUNTER}/login", "-H", f"Origin: https://{COUNTER}",
                                   *words))
    if found := re.search(r"(?mi)^set-cookie: ([^;\n]*)", answer[2]):
        LOGIN["cookie"] = found[1]
        page = answered(lambda: curl("clerk", f"https://{COUNTER}/account", *as_clerk()))[1]
        LOGIN["token"] = "".join(re.findall('name="token" value="([0-9a-f]+)"', page)[:1])
    return answer


def as_clerk() -> tuple[str, ...]:
    """The words of curl of a clerk who is logged in."""
    return ("-H", f"Cookie: {LOGIN['cookie']}") if LOGIN["cookie"] else ()


def is_shut(answer: Answer) -> bool:
    """Whether the counter asks who is there: nobody is logged in, any more, or it is locked."""
    status, body, head = answer
    return status == 303 and re.search(r"(?mi)^location: /(login|lock)\b", head) is not None or (
        status == 403 and re.search('action="/(login|unlock)"', body) is not None)


def counter(page: str) -> Answer:
    """A page of the counter, as the clerk gets it, who logs in where that is needed."""
    def ask() -> Answer:
        """The page once."""
        return answered(lambda: curl("clerk", f"https://{COUNTER}/{page}", *as_clerk()))

    answer = ask()
    return ask() if is_shut(answer) and log_in()[0] == 303 else answer


def send_as_clerk(page: str, **form: object) -> Answer:
    """The answer to a form that the clerk sends to a page of the counter."""
    form = {"request": f"t-{time.monotonic_ns()}", **form}

    def send() -> Answer:
        """The form once, with the token of the log-in."""
        fields = form | {"token": LOGIN["token"]}
        words = [word for key, value in fields.items() for word in ("--data-urlencode", f"{key}={value}")]
        return answered(lambda: curl("clerk", f"https://{COUNTER}/{page}", *as_clerk(), "-H",
                                     f"Origin: https://{COUNTER}", *words))

    answer = send()
    return send() if is_shut(answer) and log_in()[0] == 303 else answer


def say_the_time_is_right() -> str:
    """What the counter's page says once a clerk has sent its form on the time; nothing where it has none."""
    form: dict[str, str] = {}

    def shows_it() -> bool:
        """Whether the page has the form; its fields are kept."""
        page = counter("")[1].partition("The time is right</button>")[0].rpartition('action="/time"')[2]
        form.update(re.findall(r'name="(shown|booted)" value="([^"]*)"', page))
        return bool(form)

    until(shows_it, 10)
    return " ".join(re.findall(r'<p id="told"[^>]*>(.*?)</p>', send_as_clerk("time", **form)[1])) if form else ""


def one_code(plan: str) -> str:
    """A new code of this plan, issued and sold at the counter; empty where that failed."""
    batch = f"{plan}-{time.monotonic_ns() % 10**9}"
    send_as_clerk("issue", plan=plan, batch=batch, count=1)
    codes = re.findall(r"<b>([0-9A-Z-]{14,19})</b>", counter(f"sheet?batch={batch}")[1])
    if codes and send_as_clerk("sell", code=codes[0])[0] in (200, 303):
        SALES.append((plan, time.strftime("%Y-%m-%d", time.gmtime())))
    return str(codes[0]) if codes else ""


def code(plan: str = "hour") -> str:
    """A code that was issued, printed and sold; a server that is just starting is asked again."""
    for _ in range(6):
        text = one_code(plan)
        if text:
            return text
        time.sleep(0.5)
    return ""


@contextlib.contextmanager
def connection_to_the_server() -> Iterator[http.client.HTTPConnection]:
    """A connection to the server's port, closed at the end."""
    connection = http.client.HTTPConnection("127.0.0.1", 8080, timeout=20 * PATIENCE)
    try:
        yield connection
    finally:
        connection.close()


def secret(name: str) -> str:
    """A token out of the venue's credentials."""
    return pathlib.Path("/etc/portal/credentials", name).read_text().strip()


def request_json(path: str, body: object, token: str = "", device: str = "") -> int:
    """The server's status for a body; as a device, or with the token of this name."""
    head = {"Portal-Token": secret(token)} if token else {"Portal-Device": device}
    with connection_to_the_server() as connection:
        connection.request("POST", path, json.dumps(body), head)
        return connection.getresponse().status


def request_text(path: str, token: str) -> str:
    """What the server answers to one that has the token of this name."""
    with connection_to_the_server() as connection:
        connection.request("GET", path, headers={"Portal-Token": secret(token)})
        return connection.getresponse().read().decode()


def server_note() -> dict[str, Any]:
    """What the server says that it does."""
    try:
        return dict(json.loads(pathlib.Path("/run/portal-clock/state").read_text()))
    except (OSError, ValueError):
        return {}


def serves() -> bool:
    """Whether the server's note says so, and the guest gets an answer of the captive API."""
    return server_note().get("is") == "serves" and captive().get("captive") is not None


def waits() -> bool:
    """Whether the server's note says that it waits for the clock."""
    return server_note().get("is") == "waits"


def last_entry() -> int:
    """The moment of the database's last entry, by a copy of both files."""
    with tempfile.TemporaryDirectory() as folder:
        sh(f"cp {DATABASE}* {folder}/")
        with contextlib.closing(sqlite3.connect(f"{folder}/{DATABASE.name}")) as base:
            return int(base.execute("SELECT last_moment FROM portal_head").fetchone()[0])


def redeem(text: str) -> int:
    """The status of the answer to a code that the guest sends by the form."""
    page = answered(lambda: curl("guest", f"https://{NAME}/portal?add=1"))[1]
    fields = {"code": text, **dict(re.findall(r'type="hidden" name="(\w+)" value="([^"]*)"', page))}
    words = [word for key, value in fields.items() for word in ("--data-urlencode", f"{key}={value}")]
    return answered(lambda: curl("guest", f"https://{NAME}/portal", *words))[0]


def captive() -> dict[str, Any]:
    """The guest's answer of the captive API (RFC 8908); its status alone where that is not 200."""
    status, body, _ = curl("guest", f"https://{NAME}/captive")
    return dict(json.loads(body)) if status == 200 else {"status": status}


def sessions() -> list[int]:
    """The numbers of the open sessions, from the gateway's list."""
    return [row["session"] for row in json.loads(SESSIONS.read_text())["sessions"]]


def lease(*more: str) -> Done:
    """Gives the guest an address by DHCP."""
    return within("guest", "busybox", "udhcpc", "-i", "eth0", "-f", "-q", "-n", "-t", "5", *more, "-s",
                  HERE / "udhcpc")


def ask_for_a_lease() -> bool:
    """Gives the guest a lease, the first step wherever it comes anew: a page knows the device of a leased
    address alone."""
    return until(lambda: lease().returncode == 0, 20) is not None and until(is_bound, 10) is not None


def leased() -> str:
    """The guest's address by dnsmasq's file."""
    path = pathlib.Path("/var/lib/misc/dnsmasq.leases")
    rows = [line.split() for line in (path.read_text() if path.exists() else "").splitlines()]
    return next((row[2] for row in rows if row[1] == GUEST), "")


def neighbour() -> str:
    """What the kernel holds of the guest's leased address."""
    return sh("ip", "neigh", "show", "to", leased() or "0.0.0.0", "dev", "lan0").stdout.strip()


def is_bound() -> bool:
    """Whether the kernel has the guest's device as a permanent neighbour."""
    return f"lladdr {GUEST} " in neighbour() and "PERMANENT" in neighbour()


def copies() -> list[str]:
    """The nightly copies, the oldest first."""
    return sorted(glob.glob(str(COPIES / "[0-9]*Z.db")))


def parts() -> list[str]:
    """What a backup that was killed leaves behind."""
    return glob.glob(str(COPIES / ".part-*"))


def make_slow_cp(seconds: int) -> str:
    """Makes a `cp` that takes so long; the path of commands that has it."""
    SLOW.mkdir(exist_ok=True)
    (SLOW / "cp").write_text(f'#!/bin/sh\nsleep {seconds}\nexec /bin/cp "$@"\n')
    (SLOW / "cp").chmod(0o755)
    return f"{SLOW}:/usr/sbin:/usr/bin"


def begin_to_serve() -> bool:
    """Waits until the server serves; where a new server waits for a clerk's word on the time, a clerk says
    it."""
    until(lambda: serves() or waits(), 10)
    if waits():
        say_the_time_is_right()
    return until(serves, 15) is not None


class Away:
    """The longest time in which the counter's page was not there, while something is done."""
    seconds = 0.0

    def __enter__(self) -> Away:
        self.done = threading.Event()
        self.thread = threading.Thread(target=self.look)
        self.thread.start()
        return self

    def look(self) -> None:
        """Asks for the page again and again, and keeps the longest time without it."""
        last = time.monotonic()
        while not self.done.is_set():
            is_there = curl("clerk", f"https://{COUNTER}/login", "--max-time", "1")[0] == 200
            now = time.monotonic()
            self.seconds = max(self.seconds, now - last)
            last = now if is_there else last
            time.sleep(0.05)

    def __exit__(self, *_: object) -> None:
        self.done.set()
        self.thread.join()


# Packets

def is_online() -> bool:
    """Whether the captive API says that the guest has a session."""
    return until(lambda: captive().get("captive") is False, 3) is not None


def count_outside() -> None:
    """Loads the rules outside that count what arrives there."""
    within("outside", "nft", WITNESS)


def arrived() -> int:
    """How many packets have arrived outside; -1 before they are counted."""
    match = re.search(r"counter packets (\d+)", within("outside", "nft", "list", "table", "inet", "w").stdout)
    return int(match[1]) if match else -1


def passes() -> bool:
    """Whether packets of the guest arrive outside now."""
    before = arrived()
    send = f"import socket;s=socket.socket(2,2);[s.sendto(b'x',('{OUTSIDE}',9)) for _ in range(3)]"
    within("guest", "python3", "-c", send)
    time.sleep(0.05)
    return arrived() > before


class Gap:
    """The longest gap between packets that arrive outside, while something is done; how many of those sent
    did not arrive, and how many of those that arrived were sent back in vain."""
    HEAR = """
import signal, socket, time
s = socket.socket(2, 2); s.bind(('', 19)); s.settimeout(0.1)
gap, last, stop, numbers = 0.0, time.monotonic(), [], set()
signal.signal(signal.SIGTERM, lambda *_: stop.append(1))
while not stop:
    try: data, who = s.recvfrom(99)
    except TimeoutError: continue
    now = time.monotonic(); gap = max(gap, now - last); last = now
    numbers.add(int(data)); s.sendto(data, who)
gap = max(gap, time.monotonic() - last)
print(f'{gap:.2f}', len(numbers), max(numbers) - min(numbers) + 1 if numbers else 0)
"""
    SEND = f"""
import signal, socket, time
s, number, stop, back = socket.socket(2, 2), 0, [], set()
signal.signal(signal.SIGTERM, lambda *_: stop.append(1))
while not stop:
    try: s.sendto(b'%019d' % number, ('{OUTSIDE}', 19)); number += 1
    except OSError: pass
    time.sleep(.01)
    try:
        while True: back.add(s.recv(99, socket.MSG_DONTWAIT))
    except OSError: pass
print(len(back))
"""
    seconds, heard, lost, unanswered = 0.0, 0, 0, 0

    def __enter__(self) -> Gap:
        self.send = subprocess.Popen(["nsenter", "--net=/run/netns/guest", "python3", "-c", self.SEND],
                                     stdout=subprocess.PIPE, text=True)
        time.sleep(0.3)
        self.hear = subprocess.Popen(["nsenter", "--net=/run/netns/outside", "python3", "-c", self.HEAR],
                                     stdout=subprocess.PIPE, text=True)
        time.sleep(0.3)
        return self

    def __exit__(self, *_: object) -> None:
        time.sleep(1.5)
        self.hear.terminate()
        words = self.hear.communicate()[0].split()
        self.seconds, self.heard, self.lost = float(words[0]), int(words[1]), int(words[2]) - int(words[1])
        time.sleep(0.3)
        self.send.terminate()
        self.unanswered = self.heard - int(self.send.communicate()[0])
