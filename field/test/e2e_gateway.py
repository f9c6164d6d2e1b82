"""The gateway under attack and after faults."""

from __future__ import annotations

import configparser
import contextlib
import os
import pathlib
import re
import shutil
import signal
import threading
import time
import tomllib
from collections.abc import Callable, Iterator
from typing import Any

import pytest
from crowd import NO_LEASES, open_sessions, packets, share
from e2e import forward_ipv6, names
from lab import PEER, Lab
from network import COUNTER, FIELD, MACS, NAME, OUTSIDE, PYTHON, USERS, run
from steady import assert_measured, wait_until

IDS = {"portal-gateway": 7001, "portal-front": 7002, "portal-counter": 7003, "portal-clock": 7005, "portal-counter-nginx": 7008,
       "www-data": 33}
PRINTER = "02:aa:00:00:00:03"
CROWDED = 600       # sessions
ASKED = 65535       # as many addresses as the set `asked` holds
ONE_COUNT = """
import sys
from portal_field.gateway.kernel_gate import KernelGate
gate, mac = KernelGate("lan0", 5, "/nowhere"), sys.argv[1]
whole, asked = gate.passing(), gate.ask([mac, "02:00:00:00:00:99"])
print(int(asked == {mac: whole[mac]}), whole[mac].count, whole[mac].session)
"""
OPEN = "import socket, sys; s = socket.socket(socket.AF_UNIX); s.connect(sys.argv[1]); print('open')"


def groups_of(service: str) -> tuple[int, str]:
    """A service's group, and its other groups, as its unit gives them."""
    unit = configparser.ConfigParser(strict=False, interpolation=None)
    unit.optionxform = str      # type: ignore[assignment]
    unit.read(FIELD / f"units/{service}.service")
    more = unit["Service"].get("SupplementaryGroups", "").split()
    return IDS[unit["Service"].get("Group", service)], ",".join(str(IDS[name]) for name in more)


def socket_owners(name: str) -> list[str]:
    """Owner and group of a service's socket, by its unit."""
    unit = (FIELD / f"units/{name}.socket").read_text()
    return [re.findall(f"(?m)^{key}=(.*)", unit)[0] for key in ("SocketUser", "SocketGroup")]


class GatewayLab(Lab):
    """A lab whose services have the groups of their units, and either nginx its user with the groups of sysusers.conf."""
    COUNTER_NGINX = "portal-counter-nginx"

    def __init__(self, portal: str = "", changed: dict[str, Any] | None = None) -> None:
        super().__init__(portal, changed)
        self.users = dict(USERS)
        for name in ("front", "counter"):
            group, more = groups_of("portal-" + name)
            USERS[name] = (IDS["portal-" + name], group, more)
        self.etc = pathlib.Path("/etc/netns") / self.ns("gw")   # `ip netns exec` puts it over /etc
        self.etc.mkdir(parents=True)
        members: dict[str, list[str]] = {}
        for line in (FIELD / "units/sysusers.conf").read_text().splitlines():
            if line.startswith("m "):
                members.setdefault(line.split()[2], []).append(line.split()[1])
        lines = [f"{name}:x:{IDS[name]}:{','.join(members.get(name, []))}\n"
                 for name in ("portal-front", "portal-counter", self.COUNTER_NGINX)]
        (self.etc / "group").write_text(pathlib.Path("/etc/group").read_text() + "".join(lines))
        user = f"{self.COUNTER_NGINX}:x:{IDS[self.COUNTER_NGINX]}:{IDS[self.COUNTER_NGINX]}::/:/usr/sbin/nologin\n"
        (self.etc / "passwd").write_text(pathlib.Path("/etc/passwd").read_text() + user)

    def __enter__(self) -> GatewayLab:
        super().__enter__()
        return self

    def __exit__(self, *_: object) -> None:
        super().__exit__(*_)
        USERS.update(self.users)
        shutil.rmtree(self.etc, ignore_errors=True)

    def service(self, name: str) -> None:
        """Starts a service; its socket is then that of its unit, as systemd makes it."""
        super().service(name)
        if name in ("front", "counter"):
            path = self.root / f"run/portal-{name}/socket"
            os.chown(path, *(IDS[owner] for owner in socket_owners(f"portal-{name}")))
            path.parent.chmod(0o755)

    def worker(self, name: str) -> tuple[int, int, str]:
        """User, group and other groups of a worker of nginx, as the process has them."""
        master = self.jobs[name].pid
        child = run("pgrep", "-P", master, "-x", "nginx").stdout.split()[0]
        status = pathlib.Path("/proc", child, "status").read_text()
        user, group = (int(re.findall(rf"(?m)^{key}:\t\d+\t(\d+)", status)[0]) for key in ("Uid", "Gid"))
        return user, group, ",".join(re.findall("(?m)^Groups:(.*)", status)[0].split())

    def opens(self, who: tuple[int, int, str], path: pathlib.Path) -> bool:
        """Whether a process with this user, group and other groups opens a socket."""
        user, group, more = who
        groups = f"--groups={more}" if more else "--clear-groups"
        done = self.within("gw", "setpriv", f"--reuid={user}", f"--regid={group}", groups, PYTHON, "-c", OPEN, path,
                           check=False)
        return done.stdout == "open\n"


pytestmark = [pytest.mark.packets, pytest.mark.lab(kind=GatewayLab, without_browser=[PRINTER])]


def test_one_count(lab: GatewayLab) -> None:
    session = lab.online("guest1")
    lab.tcp("guest1", "send", 300_000)
    same, count, number = map(int, lab.within("gw", PYTHON, "-c", ONE_COUNT, MACS["guest1"]).stdout.split())
    assert same and number == session, "a count that is asked for alone is that of the whole list"
    assert count > 300_000, f"both have the bytes  [{count}]"


def test_sockets(lab: GatewayLab) -> None:
    run = lab.root / "run"
    assert not lab.opens(USERS["front"], run / "portal-counter/socket"), (
        "the guests' helper does not open the counter's socket")
    assert not lab.opens(USERS["counter"], run / "portal-front/socket"), (
        "nor the counter's page the guests' socket")
    assert (lab.opens(USERS["front"], run / "portal-front/socket")
            and lab.opens(USERS["counter"], run / "portal-counter/socket")), (
        "each opens its own")
    guests, counter = lab.worker("nginx"), lab.worker("counter-nginx")
    assert guests[0] != counter[0], f"neither is the user of the other, whose memory it could read  [{guests} {counter}]"
    assert not lab.opens(guests, run / "portal-counter/socket"), (
        f"the nginx of the guests' page does not open the counter's socket  [{guests}]")
    assert not lab.opens(counter, run / "portal-front/socket"), (
        f"nor the counter's nginx the guests' socket  [{counter}]")
    codes = lab.codes("hour", 1)
    assert len(codes) == 1 and lab.redeem("guest1", codes[0])[0] == 303, "either nginx opens its own"


def elements(lab: GatewayLab, verb: str, mac: str, comment: str = "") -> None:
    """What an administrator does by hand to both sets."""
    suffix = f' comment "{comment}"' if comment else ""
    lab.within("gw", "nft", f"{verb} element inet portal up {{ {mac}{suffix} }}; "
               f"{verb} element netdev portal down {{ {mac} }}")


def goes_on(lab: GatewayLab, act: Callable[[], None]) -> tuple[bool, str]:
    """Whether the first guest's packets pass all the time, while something is done and for some polls after it."""
    flow = lab.begin("guest1", PYTHON, PEER, "gap", OUTSIDE, grace_of(lab) + 3)
    time.sleep(0.5)
    act()
    came, longest = map(float, flow.communicate()[0].split())
    return longest < 0.8 and came > 1000, f"longest gap {longest:.2f} s of {came:.0f} packets"


def test_names(lab: GatewayLab) -> None:
    """A name server outside that answers nothing, as where the line is down; and tunnels through names."""
    lab.within("gw", "nft", "flush", "set", "inet", "portal", "asked")
    done = lab.within("guest1", PYTHON, "-c", QUESTIONS, "10.77.0.1", NAME, 1, 28, 65).stdout
    assert done.splitlines() == ["1 0 1", "28 0 0", "65 0 0"], (
        "the portal's name has an address, and for AAAA and HTTPS an empty answer")
    assert_measured("of 500 names asked in a second at most 60 are answered",
                    lambda: names(lab, "guest2", 20, 60))
    assert_measured("with as many addresses as the set holds another one gets no answer",
                    lambda: answered_when_full(lab))
    lab.within("gw", "nft", "flush", "set", "inet", "portal", "asked")


def test_foreign(lab: GatewayLab) -> None:
    """An administrator's hand in the agent's sets."""
    lab.online("guest1")

    def add() -> None:
        elements(lab, "add", "02:aa:00:00:00:77", "printer")
        elements(lab, "add", "02:aa:00:00:00:78")
        elements(lab, "add", MACS["guest2"], "a tablet")

    assert_measured("with an administrator's elements in the sets sessions go on", lambda: goes_on(lab, add))
    text = lab.within("gw", "nft", "list", "set", "inet", "portal", "up").stdout
    assert "02:aa:00:00:00:77" in text and "02:aa:00:00:00:78" in text, "and the elements stay"
    lab.until(lambda: lab.reaches("guest2"), 3, "guest2")
    session = lab.online("guest2")
    assert [row["session"] for row in lab.gateway_list() if row["device"] == MACS["guest2"]] == [session], (
        "a session takes such an element over")
    lab.send_as_clerk("close", session=session)
    took = lab.shut_after("guest2", 4)
    assert took is not None, "and ends it"

    def take_and_close() -> None:
        session = lab.online("guest2")
        lab.within("gw", "nft", f"delete element netdev portal down {{ {MACS['guest2']} }}")
        lab.send_as_clerk("close", session=session)

    def acts() -> tuple[bool, str]:
        good, note = goes_on(lab, take_and_close)
        return good and not lab.reaches("guest2"), note

    assert_measured("and a close acts where somebody took its element away", acts)
    for mac in ("02:aa:00:00:00:77", "02:aa:00:00:00:78"):
        elements(lab, "delete", mac)


def stand(lab: GatewayLab, address: str) -> None:
    """The second guest's device has another address."""
    lab.within("guest2", "ip", "addr", "flush", "dev", "eth0")
    lab.within("guest2", "ip", "addr", "add", address + "/22", "dev", "eth0")
    lab.within("guest2", "ip", "route", "replace", "default", "via", "10.77.0.1")


def test_listed(lab: GatewayLab) -> None:
    """A printer in the list of field.toml: the second guest's device takes its MAC address."""
    assert not lab.reaches("guest2"), "another device does not pass"
    own = lab.address("guest2")
    lab.within("guest2", "ip", "link", "set", "eth0", "address", PRINTER)
    stand(lab, "10.77.0.9")       # by hand, beside the leases
    seen = lab.reaches("guest2", 2.0), lab.tcp("guest2", "send", 100_000)
    assert seen[0] and seen[1] is not None, "a device of the list passes without a code"
    counts = [lab.within("gw", "nft", "list", "set", family, "portal", "listed").stdout
              for family in ("inet", "netdev")]
    found = [re.search(rf"{PRINTER} counter packets (\d+) bytes (\d+)", text) for text in counts]
    numbers = [int(m[2]) if m else 0 for m in found]
    assert numbers[0] > 0 and numbers[1] > 100_000, "what it sends and gets is counted"
    status = lab.curl("guest2", "http://outside.example:80/", "--max-time", "2")[0]
    assert status != 302, "its port 80 does not lead to the portal"
    got = int(lab.within("guest2", PYTHON, PEER, "names", "10.77.0.1", 300).stdout)
    assert got > 150, "and it asks for names as one with a session"
    lab.stop("gateway", kill=True)
    time.sleep(grace_of(lab) + 1.0)
    assert lab.reaches("guest2", 1.0) and not lab.reaches("guest1"), "with the agent away it passes on"
    lab.service("gateway")
    lab.within("guest2", "ip", "link", "set", "eth0", "address", MACS["guest2"])
    stand(lab, own)


QUESTIONS = """import socket, sys
name = b"".join(bytes([len(part)]) + part.encode() for part in sys.argv[2].split(".")) + bytes(1)
for kind in map(int, sys.argv[3:]):
    with socket.socket(socket.AF_INET, socket.SOCK_DGRAM) as s:
        s.settimeout(1.5)
        s.connect((sys.argv[1], 53))
        s.send(bytes([7, kind, 1, 0, 0, 1, 0, 0, 0, 0, 0, 0]) + name + kind.to_bytes(2, "big") + bytes([0, 1]))
        try:
            answer = s.recv(512)
            print(kind, answer[3] & 15, int.from_bytes(answer[6:8], "big"))
        except OSError:
            print(kind, "none", 0)
"""


def answered_when_full(lab: GatewayLab) -> tuple[bool, object]:
    """Whether the set is full and another guest's questions are not answered. It is emptied and filled in one
    transaction, so that no other question comes in between."""
    made_up = ", ".join(f"10.99.{i >> 8}.{i & 255} limit rate 5/second burst 40 packets timeout 1h"
                        for i in range(ASKED))
    # A list begins anew when the agent changes a set meanwhile, which on a busy machine goes on and on.
    os.kill(lab.jobs["gateway"].pid, signal.SIGSTOP)
    try:
        done = lab.within("gw", "nft", "-f", "-", check=False,
                          input=f"flush set inet portal asked\nadd element inet portal asked {{ {made_up} }}")
        count = lab.within("gw", "nft", "list", "set", "inet", "portal", "asked").stdout.count("10.99.")
    finally:
        os.kill(lab.jobs["gateway"].pid, signal.SIGCONT)
    got = int(lab.within("guest2", PYTHON, PEER, "names", "10.77.0.1", 100).stdout)
    return (count, got) == (ASKED, 0), f"{count} addresses, {got} answers; {done.stderr.strip()[-80:]}"


def sysctl(lab: GatewayLab, path: str) -> str:
    return lab.within("gw", "cat", "/proc/sys/net/" + path).stdout.strip()


def ping6(lab: GatewayLab) -> bool:
    return lab.within("guest1", "ping", "-6", "-c3", "-i0.1", "-W1", "2001:db8:1::2", check=False).returncode == 0


def nothing_comes(lab: GatewayLab) -> bool:
    """For a second. A guest with a session answers what is left of an earlier stream."""
    before = lab.packets_outside()
    time.sleep(1)
    return lab.packets_outside() == before


def test_flushed(lab: GatewayLab) -> None:
    """Somebody's `nft flush ruleset`, where guests' packets would find their way back, by both families."""
    lab.online("guest1")
    off = "ipv6/conf/lan0/disable_ipv6"
    assert sysctl(lab, off) == "1", "IPv6 is off on the guests' device"
    lab.within("outside", "ip", "route", "replace", "10.77.0.0/22", "via", "203.0.113.1")
    lab.until(lambda: nothing_comes(lab), 60, "an end of what the first guest sends")
    out = lab.packets_outside()
    knocks = lab.begin("guest2", PYTHON, PEER, "first", OUTSIDE, 2.5)      # a packet each 5 ms, without a session
    lab.gateway_list()    # so that the next poll is a whole one away
    lab.within("gw", "nft", "flush", "ruleset")
    knocks.wait()
    assert lab.packets_outside() == out, (
        f"not one packet comes out between a flush and the next poll  [{lab.packets_outside() - out}]")
    lab.until(lambda: lab.reaches("guest1"), 6, "packets")
    assert not lab.reaches("guest2"), "the agent loads the rules again, and lets through who has a session"
    assert sysctl(lab, "ipv4/ip_forward") == "1", "and forwarding is on again"
    forward_ipv6(lab)         # as a venue has it that turned IPv6 on again
    path, out = lab.root / "etc/portal/rules.nft", lab.packets_outside("ip6")
    path.rename(path.with_suffix(".away"))      # which the agent cannot load
    lab.within("gw", "nft", "flush", "ruleset")
    lab.until(lambda: sysctl(lab, "ipv4/ip_forward") == "0", 2.5, "a poll")
    time.sleep(0.2)
    assert sysctl(lab, off) == "1", "after a flush IPv6 is off on the guests' device again"
    assert not ping6(lab) and lab.packets_outside("ip6") == out, (
        f"with a flush no packet goes out by IPv6  [{lab.packets_outside('ip6') - out}]")
    lab.stop("gateway", kill=True)            # in the middle: what it did must not stay so
    path.with_suffix(".away").rename(path)
    lab.service("gateway")
    lab.until(lambda: lab.reaches("guest1"), 9, "packets")
    assert sysctl(lab, "ipv4/ip_forward") == "1", "an agent that was killed meanwhile opens again"


def test_reloaded(lab: GatewayLab) -> None:
    """Killed after it loaded the rules, before a good poll: the kernel keeps that the agent turned forwarding off."""
    lab.online("guest1")
    os.kill(lab.jobs["desk"].pid, signal.SIGSTOP)
    try:
        lab.within("gw", "nft", "flush", "ruleset")
        lab.until(lambda: "portal" in lab.within("gw", "nft", "list", "tables", "netdev").stdout, 6, "the rules")
        lab.stop("gateway", kill=True)
        assert sysctl(lab, "ipv4/ip_forward") == "0", "the rules are back, and nothing is forwarded yet"
    finally:
        os.kill(lab.jobs["desk"].pid, signal.SIGCONT)
    lab.service("gateway")
    try:
        lab.until(lambda: lab.reaches("guest1"), 8, "packets")
    except TimeoutError:
        pass
    assert sysctl(lab, "ipv4/ip_forward") == "1", "the next agent turns forwarding on"


ASKS = """import socket, sys
with socket.socket(socket.AF_UNIX) as link:
    link.settimeout(5)
    link.connect(sys.argv[1])
    link.sendall(sys.argv[2].encode())
    try:
        print(link.recv(1).decode())
    except ConnectionResetError:
        print()
"""


def stop_in_order(lab: GatewayLab) -> str:
    """Stops the server as its parent does, which asks the agent first; what the agent answers."""
    answer = lab.within("gw", PYTHON, "-c", ASKS, lab.root / "run/portal-gateway/stops", "stop").stdout.strip()
    lab.stop("desk", kill=True)
    return answer


def connects(lab: GatewayLab, user: int) -> bool:
    """Whether a process of this user comes to the desk's port."""
    words = (PYTHON, PEER, "knock", "127.0.0.1", 8080)
    return lab.within("gw", "setpriv", f"--reuid={user}", "--clear-groups", *words, check=False).returncode == 0


def test_started_again(lab: GatewayLab) -> None:
    """The server is stopped in order, and takes longer to start than the grace."""
    for guest, plan in (("guest1", "hour"), ("guest2", "small")):
        if lab.session_of(guest) is None:
            lab.redeem(guest, lab.codes(plan, 1)[0])
        lab.until(lambda: lab.reaches(guest), 6, "packets")
    strangers = lab.within("gw", "setpriv", f"--reuid={USERS['front'][0]}", "--regid=7001", "--clear-groups", PYTHON, "-c", ASKS,
                           lab.root / "run/portal-gateway/stops", "stop").stdout.strip()
    assert strangers == "" and connects(lab, 0), "another part of the venue, as the guests' page, closes nothing"
    silent = lab.within("gw", PYTHON, "-c", ASKS, lab.root / "run/portal-gateway/stops", "").stdout.strip()
    assert silent == "" and connects(lab, 0), "nor does one that only connects, as whoever looks at what it can open"
    assert stop_in_order(lab) == "k", "the agent takes its last list"
    load = ("python3", "-P", "-m", "portal_field.gateway.rules", "lan0", lab.root / "etc/portal/rules.nft")
    lab.within("gw", "env", f"PYTHONPATH={FIELD}", "PYTHONDONTWRITEBYTECODE=1", *load)      # as a reload meanwhile
    lab.start("door", PYTHON, PEER, "door", "127.0.0.1", 8080)
    lab.until(lambda: lab.listening(8080), what="port 8080")
    assert [connects(lab, user) for user in (0, USERS["counter"][0], USERS["gateway"][0])] == [False, False, True], (
        "after that none of the other parts comes to the desk")
    time.sleep(grace_of(lab) + 3.0)
    assert lab.reaches("guest1") and lab.reaches("guest2"), "guests go on while the server is away for longer than the grace"
    lab.tcp("guest2", "take", 4_000_000)
    lab.until(lambda: not lab.reaches("guest2"), 4, "the end of its bytes")
    assert lab.reaches("guest1"), "a session ends at its own byte, and others go on"
    lab.stop("door")
    lab.desk()
    lab.until(lambda: connects(lab, 0), 5, "the desk")
    assert lab.session_of("guest2") is None and lab.reaches("guest1") and not lab.reaches("guest2"), (
        "the server gets the count of the session that ended meanwhile")
    lab.send_as_clerk("close", session=lab.session_of("guest1"))
    assert stop_in_order(lab) == "k" and not lab.reaches("guest1"), "a session that is closed just before a stop stays out"
    lab.desk()
    lab.until(lambda: connects(lab, 0), 5, "the desk")


def grace_of(lab: GatewayLab) -> float:
    return float(tomllib.loads((lab.root / "field.toml").read_text())["grace_seconds"])


def test_logins(lab: GatewayLab) -> None:
    """Wrong passwords of the clerk's name, from another address."""
    lab.within("clerk", "ip", "addr", "replace", "10.88.0.3/24", "dev", "eth0")
    guesses = [lab.log_in("clerk", str(i), "--interface", "10.88.0.3")[0][0] for i in range(12)]
    assert guesses == [401] * 5 + [429] * 7, "of 12 wrong passwords five are tried and the rest have to wait"
    (status, body, head), cookie = lab.log_in("clerk", "clerk", "--interface", "10.88.0.3")
    assert status == 429 and cookie == "" and "Sell" not in body and "Retry-After" in head, (
        "the right one does not help then")
    (status, _, _), cookie = lab.log_in("clerk", "clerk")
    body = lab.curl("clerk", f"https://{COUNTER}/", "-H", f"Cookie: {cookie}")[1]
    assert status == 303 and "Sell" in body, "from another address it does"
    answers = [lab.curl("clerk", f"https://{COUNTER}/", "--interface", "10.88.0.3") for _ in range(9)]
    assert ([a[0] for a in answers] == [303] * 9
            and answers[0][2].lower().count("location: /login") == 1), (
        "a browser where nobody is logged in is led to the log-in")
    lab.stop("counter")       # which forgets
    (lab.root / "run/portal-counter/socket").unlink(missing_ok=True)
    lab.service("counter")
    code, = lab.codes("hour", 1)
    journal = (lab.root / "counter.log").read_text()
    sold = re.search(r"^counter: clerk at 10\.88\.0\.2: sell \S+, hour: done$", journal, re.M)
    assert sold is not None and code not in journal, (
        "the journal names who sold of which batch and plan, and no code")


def test_no_fault_in_a_log(lab: GatewayLab) -> None:
    assert lab.faults_in_logs("Traceback") == {}, "no fault in a log"


# With many sessions, in labs of their own

@contextlib.contextmanager
def slow_desk(lab: GatewayLab) -> Iterator[None]:
    """The desk as on a slow disk, so that it takes fewer reports a second than are due: it runs for a fortieth of the
    time. On a machine that is held up it runs for longer than it should, and is then held still for longer."""
    pid, done = lab.jobs["desk"].pid, threading.Event()

    def drag() -> None:
        ran = 0.005
        while not done.is_set():
            os.kill(pid, signal.SIGSTOP)
            time.sleep(min(39 * ran, 0.4))
            os.kill(pid, signal.SIGCONT)
            start = time.monotonic()
            time.sleep(0.005)
            ran = time.monotonic() - start

    thread = threading.Thread(target=drag)
    thread.start()
    try:
        yield
    finally:
        done.set()
        thread.join()


def stream(lab: GatewayLab) -> tuple[bool, str]:
    """The second guest's stream, while the desk is slow: whether it went on all the time."""
    with slow_desk(lab):
        arrivals = [float(word) for word in lab.stream("guest2", 25).communicate()[0].split()]
    gap = max((later - sooner for sooner, later in zip(arrivals, arrivals[1:])), default=99.0)
    used = [row["used"] for row in lab.gateway_list() if row["device"].startswith("02:00:00:00:")]
    return gap < 0.8 and len(arrivals) > 10_000, (
        f"longest gap {gap:.2f} s of {len(arrivals)} packets; {min(used)} to {max(used)} bytes of each were counted")


@pytest.mark.lab(kind=GatewayLab, grace_seconds=2, quiet_seconds=5.0)
def test_busy(lab: GatewayLab) -> None:
    """Many sessions with a byte limit that all pass packets, each of which is to be reported each few seconds."""
    lab.online("guest2")
    open_sessions(lab, CROWDED, "gigabyte")
    with packets(lab, CROWDED, "many", NO_LEASES):
        time.sleep(5)
        assert_measured(f"with {CROWDED} busy sessions the gate is not shut by its own work", lambda: stream(lab))
    some = [row["session"] for row in lab.gateway_list()[1:CROWDED:50]]
    wait_until(lambda: min(map(lab.desk_bytes, some)) > 128, 20)        # more than their first packet
    counts = [lab.desk_bytes(session) for session in some]
    assert min(counts) > 128, "and each is reported to the desk"
    assert lab.faults_in_logs("Traceback") == {}, "no fault in a log"


@pytest.mark.lab(kind=GatewayLab)
def test_cheap(lab: GatewayLab) -> None:
    """Sessions with a byte limit that all pass packets, with the settings that a venue has."""
    open_sessions(lab, CROWDED, "gigabyte")

    def measure() -> tuple[bool, str]:
        took = share(lab, "gateway", 10)
        return took <= 10, f"{took:.1f} % of one"

    with packets(lab, CROWDED, "many", NO_LEASES):
        time.sleep(3)
        assert_measured(f"with {CROWDED} busy sessions the agent takes at most a tenth of a processor", measure)
    assert lab.faults_in_logs("Traceback") == {}, "no fault in a log"
