"""What guests and clerks do in the lab, and what can be seen of it."""

from __future__ import annotations

import contextlib
import json
import re
import sqlite3
import subprocess
import time
from typing import Any

from network import COUNTER, FIELD, MACS, NAME, OUTSIDE, PYTHON, Network

PEER = FIELD / "test/peer.py"
PORTAL = f"https://{NAME}/portal"
API = f"https://{NAME}/captive"
ORIGIN = ("-H", f"Origin: https://{COUNTER}")
WITNESS = ("add table inet w; add chain inet w i { type filter hook input priority 0; }; "
           "add rule inet w i ip saddr { 203.0.113.1, 10.77.0.0/22 } counter; "
           "add rule inet w i ip6 saddr { 2001:db8:77::/64, 2001:db8:1::1 } icmpv6 type echo-request counter")
Answer = tuple[int, str, str]       # status, body, head


class Lab(Network):
    def __enter__(self) -> Lab:
        super().__enter__()
        self.sheets = 0
        self.cookie = self.token = ""       # of the clerk, once logged in
        self.shown: dict[str, dict[str, str]] = {}      # by guest: hidden fields of the last page
        self.within("outside", "nft", WITNESS)
        return self

    def curl(self, space: str, url: str, *words: object) -> Answer:
        """Status, body and header of an answer to curl as a guest, or in another namespace; status 0 where
        there was none."""
        done = self.within(space, "curl", "-s", "-i", "--max-time", "12", "--cacert", self.root / "ca.pem",
                           "--resolve", NAME + ":443:10.77.0.1", "--resolve", COUNTER + ":443:10.88.0.1",
                           "--resolve", "outside.example:80:" + OUTSIDE, *words, url, check=False)
        head, _, body = done.stdout.replace("\r\n", "\n").partition("\n\n")
        parts = head.split(None, 2)
        return (int(parts[1]) if len(parts) > 1 else 0), body, head

    # The desk, asked from the gateway itself

    def ask_desk(self, token: str | None, method: str, path: str, *words: object) -> dict[str, Any]:
        """What the server answers to a request, with the token of this name."""
        if token:
            secret = (self.root / "etc/portal/credentials" / token).read_text().strip()
            words = ("-H", "Portal-Token: " + secret, *words)
        done = self.within("gw", "curl", "-s", "--max-time", "5", "-X", method, *words, "http://127.0.0.1:8080" + path)
        return dict(json.loads(done.stdout))

    def desk_bytes(self, session: int) -> int:
        """The bytes that the desk holds for a session."""
        question = json.dumps({"session": session, "bytes": 0})
        return int(self.ask_desk("gateway_token", "POST", "/gateway/reports", "-d", question)["used"])

    def session_of(self, guest: str) -> int | None:
        """The number of a guest's open session; None where it has none."""
        rows = self.ask_desk("gateway_token", "GET", "/gateway/sessions")["sessions"]
        return next((row["session"] for row in rows if row["device"] == MACS[guest]), None)

    # A clerk

    def log_in(self, name: str, password: str, *words: object) -> tuple[Answer, str]:
        """The answer to a log-in at the counter's page, and the cookie that it sets, or nothing."""
        form = [f"request=t-{time.monotonic_ns()}", f"name={name}", f"password={password}"]
        sent = [word for field in form for word in ("--data-urlencode", field)]
        answer = self.curl("clerk", f"https://{COUNTER}/login", *ORIGIN, *sent, *words)
        found = re.search(r"(?mi)^set-cookie: ([^;\n]*)", answer[2])
        return answer, found[1] if found else ""

    def as_clerk(self) -> tuple[str, ...]:
        """The words of curl of a clerk who is logged in."""
        if not self.cookie:
            self.cookie = self.log_in("clerk", "clerk")[1]
            page = self.curl("clerk", f"https://{COUNTER}/account", "-H", f"Cookie: {self.cookie}")[1]
            self.token = re.findall('name="token" value="([0-9a-f]+)"', page)[0]
        return ("-H", f"Cookie: {self.cookie}", *ORIGIN)

    def send_as_clerk(self, page: str, **form: object) -> Answer:
        """Sends a form of the counter's page; without a number given it carries a new one."""
        clerk = self.as_clerk()
        form = {"request": f"t-{time.monotonic_ns()}", "token": self.token, **form}
        words = [word for name, value in form.items() for word in ("--data-urlencode", f"{name}={value}")]
        return self.curl("clerk", f"https://{COUNTER}/{page}", *clerk, *words)

    def look_up(self, code: str) -> Answer:
        """Types a code on the counter's page; the page that comes."""
        head = self.send_as_clerk("voucher", code=code)[2]
        place = re.search(r"^location: (/\S+)$", head, re.M | re.I)
        return self.curl("clerk", f"https://{COUNTER}{place[1] if place else '/nowhere'}", *self.as_clerk())

    def codes(self, plan: str, count: int) -> list[str]:
        """Issues, prints and sells codes as a clerk does it; the codes of the sheet."""
        self.sheets += 1
        batch = f"{plan}-{self.sheets}"
        self.send_as_clerk("issue", plan=plan, batch=batch, count=count)
        body = self.curl("clerk", f"https://{COUNTER}/sheet?batch={batch}", *self.as_clerk())[1]
        codes = re.findall(r"<b>([0-9A-Z-]{14,19})</b>", body)
        for code in codes:
            self.send_as_clerk("sell", code=code)
        return codes

    def journal(self) -> list[tuple[object, ...]]:
        """The acts that the counter's journal has."""
        with contextlib.closing(sqlite3.connect(self.root / "run/portal-counter/journal.db")) as link:
            return link.execute("SELECT clerk, place, act, batch, plan, price, answer FROM acts ORDER BY number").fetchall()

    # A guest

    def lease(self, guest: str) -> tuple[str, dict[str, str]]:
        """Asks for an address by DHCP as a guest: the address, and the options that it got, by udhcpc's
        names."""
        self.within(guest, "busybox", "udhcpc", "-i", "eth0", "-f", "-q", "-n", "-t", "5", "-O", "114",
                    "-s", self.root / "udhcpc.sh")
        address = self.address(guest)
        lines = (self.root / f"lease-eth0-{address}").read_text().splitlines()
        return address, dict(line.split("=", 1) for line in lines if "=" in line)

    def give_leases(self) -> None:
        """Gives both guests their leases."""
        for guest in ("guest1", "guest2"):
            self.lease(guest)

    def address(self, guest: str) -> str:
        """The IPv4 address that a guest has."""
        shown = json.loads(self.within(guest, "ip", "-j", "-4", "addr", "show", "eth0").stdout)
        return str(shown[0]["addr_info"][0]["local"])

    def number(self, guest: str) -> str:
        """The idempotency key in the form for a code, also of a guest that is online. Its other hidden fields are kept for
        `send_form`."""
        fields = dict(re.findall(r'type="hidden" name="(\w+)" value="([^"]+)"', self.curl(guest, PORTAL + "?add=1")[1]))
        fields.pop("act", "")       # of another form of the page
        number = str(fields.pop("request", ""))
        self.shown[guest] = fields
        return number

    def send_form(self, guest: str, code: str, number: str, *words: object) -> Answer:
        """Sends the portal page's form; a guest that has to be slower waits and tries again."""
        if guest not in self.shown:
            self.number(guest)
        fields = {"code": code, "request": number, **self.shown[guest]}
        form = [word for name, value in fields.items() for word in ("--data-urlencode", f"{name}={value}")]
        for _ in range(8):
            answer = self.curl(guest, PORTAL, *form, *words)
            if answer[0] != 429:
                break
            time.sleep(5)
        return answer

    def redeem(self, guest: str, code: str) -> Answer:
        """Redeems a code by the page's form; the page's answer."""
        return self.send_form(guest, code, self.number(guest))

    def online(self, guest: str, plan: str = "hour") -> int:
        """Gives a guest a session of its own, and waits until its packets pass; the session's number."""
        session = self.session_of(guest)
        if session is None:
            self.redeem(guest, self.codes(plan, 1)[0])
            session = self.session_of(guest)
        self.until(lambda: self.reaches(guest), 6, f"packets of {guest}")
        assert session is not None
        return session

    def captive(self, guest: str, *words: object) -> dict[str, Any]:
        """A guest's answer of the captive API (RFC 8908); with another status than 200 status and body."""
        status, body, _ = self.curl(guest, API, *words)
        return dict(json.loads(body)) if status == 200 else {"status": status, "body": body}

    # Packets

    def reaches(self, guest: str, seconds: float = 0.3, host: str = OUTSIDE) -> bool:
        """Whether a guest's packet comes back from outside within so many seconds."""
        return self.within(guest, PYTHON, PEER, "first", host, seconds, check=False).returncode == 0

    def packets_outside(self, family: str = "ip") -> int:
        """Packets that left the venue so far: what a guest sends must not get out even unanswered."""
        text = self.within("outside", "nft", "list", "table", "inet", "w").stdout
        found = re.search(rf"{family} saddr [^\n]* counter packets (\d+)", text)
        assert found, text
        return int(found[1])

    def tcp(self, guest: str, verb: str, count: int) -> float | None:
        """Seconds that so many bytes of payload took; None where they did not pass."""
        done = self.within(guest, PYTHON, PEER, "tcp", OUTSIDE, verb, count, check=False)
        return float(done.stdout) if done.returncode == 0 else None

    def first(self, guest: str, seconds: float) -> subprocess.Popen[str]:
        """Starts to send packets of a guest until the first one comes back from outside."""
        return self.begin(guest, PYTHON, PEER, "first", OUTSIDE, seconds)

    def stream(self, guest: str, seconds: float) -> subprocess.Popen[str]:
        """Starts a stream of a guest's packets, and prints when each comes back from outside."""
        return self.begin(guest, PYTHON, PEER, "stream", OUTSIDE, seconds)

    def shut_after(self, guest: str, limit: float) -> float | None:
        """Seconds until nothing passes any more."""
        start = time.time()
        while time.time() - start < limit:
            if not self.reaches(guest, 0.1):
                return time.time() - start
        return None

    def frames(self, guest: str) -> int:
        """IP-layer bytes that a guest's device has sent and received, by its own statistics: each frame less
        its head. ARP is in it, 28 bytes each."""
        def read(name: str) -> int:
            """A counter of the guest's device."""
            return int(self.within(guest, "cat", "/sys/class/net/eth0/statistics/" + name).stdout)
        return sum(read(way + "_bytes") - 14 * read(way + "_packets") for way in ("tx", "rx"))

    def neighbours(self, state: str) -> None:
        """Has the gateway and the first guest know each other: `permanent`, so that neither asks, or
        `reachable`."""
        hard = self.within("gw", "cat", "/sys/class/net/lan0/address").stdout.strip()
        for space, device, address, mac in (("gw", "lan0", self.address("guest1"), MACS["guest1"]),
                                            ("guest1", "eth0", "10.77.0.1", hard)):
            self.within(space, "ip", "neigh", "replace", address, "lladdr", mac, "dev", device, "nud", state)

    def gateway_list(self) -> list[dict[str, Any]]:
        """The gateway's own list after one more poll."""
        path = self.root / "run/portal-gateway/sessions.json"
        before = path.stat().st_mtime_ns
        self.until(lambda: path.stat().st_mtime_ns != before, 5, "a poll")
        return list(json.loads(path.read_text())["sessions"])

    def gateway_bytes(self, guest: str) -> int:
        """The gateway's own count after one more poll."""
        return int(next(row["used"] for row in self.gateway_list() if row["device"] == MACS[guest]))
