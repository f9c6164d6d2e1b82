"""From nothing to a redeemed voucher and back, with real packets.

Without --portal the desk is the stand-in, and then nothing here says anything of the program.
"""

from __future__ import annotations

import json
import os
import signal
import time
from collections.abc import Callable

import pytest
from lab import API, PEER, PORTAL, Lab
from network import COUNTER, MACS, NAME, OUTSIDE, PYTHON
from steady import Span, assert_measured

REDEEM = f"https://{NAME}/portal/redeem"
INSIDE = "192.168.9.9"      # an address that is no guest's business
CANNOT_CONNECT = 7          # curl's status
# Tests wait for the gateway's reports, which come each time_quiet_seconds.
pytestmark = [pytest.mark.packets, pytest.mark.lab(kind=Lab, time_quiet_seconds=20.0)]


def test_network(lab: Lab) -> None:
    for guest in ("guest1", "guest2"):
        address, result = lab.lease(guest)
        option = result.get("opt114", "")
        text = bytes.fromhex(option).decode() if option.isalnum() else option
        assert text == API, f"{guest} gets the API by DHCP option 114  [{address} {text}]"
    answer = lab.within("guest1", "busybox", "nslookup", NAME, "8.8.8.8", check=False).stdout
    assert "10.77.0.1" in answer, "a name server that the guest names is answered by the gateway"


def names(lab: Lab, guest: str, least: int, most: int) -> tuple[bool, int]:
    """Has a guest ask for 500 names that asked for none before. Whether as many are answered as may be, and
    how many."""
    lab.within("gw", "nft", "flush", "set", "inet", "portal", "asked")
    got = int(lab.within(guest, PYTHON, PEER, "names", "10.77.0.1", 500).stdout)
    return least <= got <= most, got


def test_captured(lab: Lab) -> None:
    guest, out = "guest1", lab.packets_outside()
    assert not lab.reaches(guest) and lab.tcp(guest, "send", 10) is None, "nothing passes before a code"
    hosts = ("10.77.0.1", OUTSIDE)
    pings = [lab.within(guest, "ping", "-c1", "-W1", host, check=False).returncode for host in hosts]
    assert pings == [0, 1], "no ping either, but to the gateway"
    assert lab.packets_outside() == out, f"no packet left the venue  [{lab.packets_outside() - out}]"
    status, _, head = lab.curl(guest, "http://outside.example/x")
    assert status == 302 and PORTAL in head, "plain HTTP to anywhere leads to the portal"
    lab.start("shell", PYTHON, PEER, "door", "0.0.0.0", 22)     # as one who looks after the machine would have it
    lab.until(lambda: lab.listening(22), what="port 22")
    for host, port in (("10.77.0.1", 8080), ("10.77.0.1", 22), ("10.88.0.1", 443), ("10.88.0.2", 443),
                       ("127.0.0.1", 8080), ("203.0.113.1", 443)):
        url = f"http{'s' * (port == 443)}://{host}:{port}/"
        done = lab.within(guest, "curl", "-sk", "--max-time", "2", "-o", "/dev/null", url, check=False)
        assert done.returncode == CANNOT_CONNECT, f"a guest does not reach {host}:{port}"
    lab.stop("shell")
    assert_measured("of 500 names asked in a second few are answered", lambda: names(lab, guest, 20, 120))
    done = lab.within(guest, PYTHON, PEER, "knock", "10.77.0.1", 53, check=False)
    assert done.returncode == 1, "nor is a name answered by TCP"
    status, body, head = lab.curl(guest, API)
    assert status == 200 and json.loads(body)["captive"] and "application/captive+json" in head, (
        "GET /captive over TLS says captive")
    assert lab.curl(guest, API, "-I")[0] == 200, "HEAD /captive is no fault"
    pages = lab.curl(guest, PORTAL), lab.curl("clerk", f"https://{COUNTER}/", *lab.as_clerk())
    good = all("content-security-policy: default-src 'none'; style-src 'self';" in head.lower() and status == 200
               and "<script" not in body for status, body, head in pages)
    assert good, "the pages have no script, and forbid any"


def first_packet(lab: Lab, code: str) -> tuple[int, float, float]:
    """Sends a form at the worst moment, where without a knock at the agent a whole poll goes by: its status,
    and the milliseconds to its answer and to the first packet."""
    number, watch = lab.number("guest1"), lab.first("guest1", 5)
    time.sleep(0.3)
    lab.gateway_list()
    start = time.time()
    status = lab.send_form("guest1", code, number)[0]
    result = (time.time() - start) * 1e3
    return status, result, (float(watch.communicate()[0] or "nan") - start) * 1e3


def test_first_voucher(lab: Lab) -> None:
    assert lab.curl("clerk", f"https://{COUNTER}/")[0] == 303, "without a log-in the counter's page is not shown"
    status, body, _ = lab.curl("clerk", f"https://{COUNTER}/", *lab.as_clerk())
    assert status == 200 and '<option value="hour">' in body, "with one it stands, with the plans"
    evil = (*lab.as_clerk()[:2], "-H", "Origin: https://evil.example", "-d", f"code=x&request=a&token={lab.token}")
    status = lab.curl("clerk", f"https://{COUNTER}/sell", *evil)[0]
    assert status == 403, "a form of another site is refused"
    codes = lab.codes("hour", 3)
    assert [len(code) for code in codes] == [19] * 3, (
        f"a sheet of codes of 16 signs is printed  [{codes[:1]}]")
    status, body, _ = lab.send_as_clerk("sell", code=codes[0])
    assert status == 409 and "Do not take money twice" in body, "a second sale is refused, with what to do"
    status, body, _ = lab.look_up(codes[0])
    assert status == 200 and f"<title>{codes[0]} " in body, "a voucher is looked up"
    acts = lab.journal()
    assert acts[-3:] == [("clerk", "10.88.0.2", "sell", "hour-1", "hour", 300, "done"),
                         ("clerk", "10.88.0.2", "sell", "hour-1", "hour", 0, "sold_already"),
                         ("clerk", "10.88.0.2", "look", "hour-1", "hour", 0, "done")], (
        "the counter's journal has who did what, of which batch, and what was answered")
    log = (lab.root / "log/counter.log").read_text()
    assert ("clerk [" in log and "POST /sell 200" in log and "POST /voucher 303" in log
            and "GET /voucher 200" in log and codes[0] not in log), (
        "the counter's log has who did what, and no code")
    status, body, _ = lab.redeem("guest1", "2222-2222-2222-2222")
    assert status == 404 and "We do not know this code" in body, "an unknown code is refused in plain words"
    statuses: list[int] = []

    def at_once() -> tuple[bool, str]:
        code = codes[0].lower().replace("-", " ")
        if statuses:
            lab.send_as_clerk("close", session=lab.session_of("guest1"))
            lab.until(lambda: not lab.reaches("guest1"), 5, "the close")
            code, = lab.codes("hour", 1)
        status, result, first = first_packet(lab, code)
        statuses.append(status)
        return first < 600, f"{first:.0f} ms after the form was sent, its answer took {result:.0f} ms"

    assert_measured("packets pass at once", at_once)
    assert statuses[0] == 303, "a code typed in lower case with spaces is redeemed"
    now = lab.captive("guest1")
    assert now.get("captive") is False and 3590 <= now["seconds-remaining"] <= 3600, (
        "the API says so, with the time that is left")
    page = lab.curl("guest1", PORTAL)[1]
    assert "You are online" in page and ("59 minutes" in page or "1 hour" in page), "and the page in words"
    assert "text/css" in lab.curl("guest1", f"https://{NAME}/style.css")[2], (
        "its style is one that browsers take")


def test_numbered(lab: Lab) -> None:
    """A form sent twice takes effect once; the page then shows the session, without a cookie."""
    code, other = lab.codes("gigabyte", 2)
    number = lab.number("guest2")
    heads = [lab.send_form("guest2", code, number)[2] for _ in range(2)]
    page = lab.curl("guest2", PORTAL, "-H", "Accept-Language: ar, en;q=0.5")[1]
    assert ('<html lang="ar" dir="rtl">' in page
            and f"<dt>رقم الجلسة</dt><dd>{lab.session_of('guest2')}</dd>" in page), (
        "the page is in the browser's language, and shows the number of the session")
    chosen = lab.curl("guest2", PORTAL, "-H", "Cookie: other=x; portal_lang=ar")[1]
    assert '<html lang="ar"' in chosen and "set-cookie" not in "".join(heads).lower(), (
        "a language that was chosen before comes to the page, and no other cookie is set")
    places = [line for head in heads for line in head.splitlines() if line.lower().startswith("location")]
    assert len(places) == 2 and places[0] == places[1], "a form sent twice has one answer"
    voucher = lab.ask_desk("desk_token", "GET", "/desk/vouchers/" + code)
    assert voucher["redeemed"] == 1, "and one use"
    status, body, _ = lab.send_form("guest2", other, number)
    assert status == 409 and "press the button once more" in body, (
        "the same form with another code is not acted upon")
    status = lab.send_form("guest2", other, "")[0]
    assert status == 400, "nor is a form without a number"
    voucher = lab.ask_desk("desk_token", "GET", "/desk/vouchers/" + other)
    assert voucher["redeemed"] == 0, "the other code has all its uses"
    words = ("-H", "Portal-Request: p1", "-d", json.dumps({"code": other}))
    bodies = [lab.curl("guest2", REDEEM, *words)[1] for _ in range(2)]
    voucher = lab.ask_desk("desk_token", "GET", "/desk/vouchers/" + other)
    assert bodies[0] == bodies[1] and voucher["redeemed"] == 1, "a program's request with a key takes effect once too"
    status = lab.curl("guest2", REDEEM, "-H", "Portal-Request: a_1", "-d", json.dumps({"code": other}))[0]
    assert status == 400, "a number of other signs is refused"
    pages = [lab.send_as_clerk("refund", code=other, request="counter-1")[1] for _ in range(2)]
    assert "Give back 3.33" in pages[0] and "It is not a new one. Give nothing back." in pages[1], (
        f"a refund sent twice is given once, and said to be no new one  [{pages[1][-300:]}]")
    lab.send_as_clerk("close", session=lab.session_of("guest2"))


def test_in_doubt(lab: Lab) -> None:
    """The desk is held still while a form is sent, so that no answer comes in time."""
    code, = lab.codes("gigabyte", 1)
    number, desk = lab.number("guest2"), lab.jobs["desk"].pid

    def uses() -> int:
        return int(lab.ask_desk("desk_token", "GET", "/desk/vouchers/" + code)["redeemed"])

    os.kill(desk, signal.SIGSTOP)
    try:
        status, body, _ = lab.send_form("guest2", code, number)
    finally:
        os.kill(desk, signal.SIGCONT)
    same = f'value="{number}"' in body
    assert status == 504 and same, "without an answer the form comes back with its number"
    assert uses() == 1, "the desk carries out what was asked all the same"
    status = lab.send_form("guest2", code, number)[0]
    assert (status, uses()) == (303, 1), "the form sent again takes effect once"
    lab.send_as_clerk("close", session=lab.session_of("guest2"))


def test_bytes_are_counted(lab: Lab) -> None:
    """The guest's own device counts the frames that it sends and gets; the desk's number is held against it."""
    guest, session = "guest1", lab.online("guest1")
    lab.neighbours("permanent")       # frames that are no IP's would be in the device's count
    lab.tcp(guest, "send", 100)
    start, notes = lab.gateway_bytes(guest), []
    for _ in range(4):      # a busy machine drops frames between the gateway's count and the guest's device
        before, first = lab.gateway_bytes(guest), lab.frames(guest)
        took = lab.tcp(guest, "take", 20_000_000), lab.tcp(guest, "send", 30_000_000)
        lab.within(guest, "ping", "-q", "-c", "20", "-i", "0.01", "-s", "1000", OUTSIDE)
        time.sleep(0.5)
        mine = lab.frames(guest) - first
        theirs = lab.gateway_bytes(guest) - before
        notes.append(f"gateway {theirs}, guest {mine}, difference {theirs - mine}; {took} s")
        if theirs == mine > 50_000_000:
            break
    lab.neighbours("reachable")
    assert theirs == mine > 50_000_000, (
        f"bytes of both directions are counted as the guest's device counts them  [{'; then '.join(notes)}]")
    count = lab.gateway_bytes(guest) - start
    lab.until(lambda: lab.desk_bytes(session) >= start + count, 35, "the report")
    assert lab.desk_bytes(session) == start + count, "and reported to the desk"


def test_forged(lab: Lab) -> None:
    lab.online("guest1")
    fields = ("-H", "Portal-Device: " + MACS["guest1"], "-H", "portal_device: " + MACS["guest1"],
              "-H", f"X-Real-IP: {lab.address('guest1')}")
    assert lab.captive("guest2", *fields).get("captive") is True, (
        "a guest with a forged device gets its own state")
    code, = lab.codes("hour", 1)
    lab.curl("guest2", REDEEM, "-d", json.dumps({"code": code}), *fields)
    assert lab.session_of("guest2") is not None, "and redeems for itself"
    lab.send_as_clerk("close", session=lab.session_of("guest2"))
    lab.until(lambda: not lab.reaches("guest2"), 5, "the close")
    out = lab.packets_outside()
    assert not lab.reaches("guest2") and lab.packets_outside() == out, "and sends nothing after its close"
    chunked = ("-H", "Transfer-Encoding: chunked", "-H", "Content-Type: application/json",
               "-d", '{"code":"2222-2222-2222"}')
    status, body, _ = lab.curl("guest2", REDEEM, *chunked)
    assert status == 404 and "unknown_code" in body, "a chunked request comes to the desk as any other"
    query, long = ("-G", "-d", "from=a%0d%0aPortal-Device:x"), ("-G", "-d", "from=" + "a" * 8140)
    many = [word for i in range(40) for word in ("-H", f"A{i}: x")]
    for what, words in (("a query", query), ("a query of 8,140 signs", long), ("40 fields", many),
                        ("the desk's field", ("-H", "Portal-Token: x"))):
        status = lab.curl("guest2", API, *words)[0]
        assert status == 200, f"a request with {what} comes to the desk as any other"
    raw = (f"POST /portal/redeem HTTP/1.1\r\nHost: {NAME}\r\nContent-Length: 4\r\nTransfer-Encoding: chunked\r\n\r\n"
           "0\r\n\r\nGET /gateway/sessions HTTP/1.1\r\n\r\n")
    done = lab.within("guest2", "openssl", "s_client", "-quiet", "-connect", "10.77.0.1:443", "-servername", NAME,
                      input=raw, check=False, timeout=20)
    assert "HTTP/1.1 400" in done.stdout and "sessions" not in done.stdout, (
        f"a request of two lengths is refused by nginx  [{done.stdout.splitlines()[:1]}]")
    for path in ("/desk/vouchers/" + code, "/desk/sessions/1", "/gateway/sessions", "/gateway/sessions/details", "/device", "/portal/../gateway/sessions",
                 "/captive/%2e%2e/gateway/sessions"):
        status = lab.curl("guest2", f"https://{NAME}{path}", "--path-as-is")[0]
        assert status in (302, 400, 403, 404), f"a guest does not reach {path.replace(code, 'CODE')}"


def test_own_networks(lab: Lab) -> None:
    """A guest with a session reaches the outside, and no network of the venue's own behind it."""
    lab.online("guest1")
    lab.within("outside", "ip", "addr", "replace", INSIDE + "/32", "dev", "lo")
    lab.within("gw", "ip", "route", "replace", INSIDE, "via", OUTSIDE)
    assert lab.reaches("gw", host=INSIDE), "the gateway itself reaches a network of the venue's own"
    out = lab.packets_outside()
    assert not lab.reaches("guest1", host=INSIDE) and lab.packets_outside() == out, (
        f"a guest with a session sends nothing there  [{lab.packets_outside() - out}]")


def test_closed(lab: Lab) -> None:
    """A download in which the guest sends nothing stops too."""
    def stops() -> tuple[bool, str]:
        session = lab.online("guest1")
        flow = lab.stream("guest1", 5)
        time.sleep(1.0)
        lab.send_as_clerk("close", session=session)
        at = time.time()
        arrivals = [float(word) for word in flow.communicate()[0].split()]
        before, last = len([a for a in arrivals if a < at]), max(arrivals, default=at) - at
        return before > 100 and last < 1.3, f"{last:.2f} s, {before} packets before"

    assert_measured("the stream ran, and stops within a poll of the close", stops)
    out = lab.packets_outside()
    assert not lab.reaches("guest1") and lab.packets_outside() == out, "nothing passes after it, nor comes out"
    assert lab.captive("guest1").get("captive") is True, "the API says captive"


def test_volume(lab: Lab) -> None:
    arrivals: list[float] = []

    def ends() -> tuple[bool, str]:
        if (session := lab.session_of("guest1")) is not None:
            lab.send_as_clerk("close", session=session)
        lab.redeem("guest1", lab.codes("small", 1)[0])
        session = lab.session_of("guest1")
        arrivals[:] = [float(word) for word in lab.stream("guest1", 8).communicate()[0].split()]
        took = arrivals[-1] - arrivals[0] if arrivals else 0
        return (lab.session_of("guest1") is None and not lab.reaches("guest1"),
                f"after {took:.1f} s; {len(arrivals)} packets of 1,000 came, the desk holds {lab.desk_bytes(session or 0)}")

    assert_measured("a session of 3,000,000 bytes ends", ends)
    assert len(arrivals) >= 2900, "and was not cut short"


def shuts(lab: Lab, what: str, limit: float, harm: Callable[[], object],
          mend: Callable[[], object]) -> None:
    """Asserts that the gate shuts within so many seconds of the harm."""
    turns: list[float | None] = []

    def measure() -> tuple[bool, float | None]:
        """Does the harm while the guest passes. Whether the gate shuts in time, and after how long."""
        if turns:
            mend()
            lab.online("guest1")
        harm()
        turns.append(lab.shut_after("guest1", limit + 5))
        return turns[-1] is not None and turns[-1] <= limit, turns[-1]

    assert_measured(what, measure)


def test_agent_dies(lab: Lab) -> None:
    lab.online("guest1")
    lab.tcp("guest1", "send", 500_000)
    count = lab.gateway_bytes("guest1")
    shuts(lab, "with the agent killed the gate shuts by itself", 6,
          lambda: lab.stop("gateway", kill=True), lambda: lab.service("gateway"))
    lab.service("gateway")
    lab.until(lambda: lab.reaches("guest1"), 4, "packets")
    lab.tcp("guest1", "send", 500_000)
    again = lab.gateway_bytes("guest1") - count
    assert 500_000 <= again < 700_000, "started again it opens and counts on"


def test_desk_dies(lab: Lab) -> None:
    session = lab.online("guest1")
    shuts(lab, "with the desk killed the gate shuts by itself", 6,
          lambda: lab.stop("desk", kill=True), lab.desk)
    lab.desk()
    lab.until(lambda: lab.reaches("guest1"), 4, "packets")
    assert lab.session_of("guest1") == session, "the desk started again over its file, packets pass"

    def signals(number: int) -> None:
        os.kill(lab.jobs["desk"].pid, number)

    shuts(lab, "with a silent desk the gate shuts by itself", 6,
          lambda: signals(signal.SIGSTOP), lambda: signals(signal.SIGCONT))
    signals(signal.SIGCONT)
    lab.until(lambda: lab.reaches("guest1"), 4, "packets")

    def stop() -> None:
        lab.stop("desk")
        lab.start("stopped", PYTHON, PEER, "stopped")

    def start() -> None:
        lab.stop("stopped")
        lab.desk()

    shuts(lab, "a desk that says stopped shuts the gate within a poll", 2.5, stop, start)
    start()


def test_rules_vanish(lab: Lab) -> None:
    """A flushed firewall, on a network where guests' packets would find their way back untranslated."""
    lab.online("guest1")
    lab.within("outside", "ip", "route", "replace", "10.77.0.0/22", "via", "203.0.113.1")
    path = lab.root / "etc/portal/rules.nft"

    def flush() -> None:
        path.rename(path.with_suffix(".away"))      # which the agent cannot load again
        lab.within("gw", "nft", "flush", "ruleset")

    shuts(lab, "with the rules flushed nothing is forwarded", 2.5, flush,
          lambda: path.with_suffix(".away").rename(path))
    time.sleep(1.2)
    out = lab.packets_outside()
    assert not lab.reaches("guest1") and not lab.reaches("guest2") and lab.packets_outside() == out, (
        f"and not one packet comes out  [{lab.packets_outside() - out}]")
    path.with_suffix(".away").rename(path)
    lab.until(lambda: lab.reaches("guest1"), 6, "packets")
    assert not lab.reaches("guest2"), "with the rules back it opens again, to those with a session"


def test_counts_are_lost(lab: Lab) -> None:
    session = lab.online("guest1")
    lab.tcp("guest1", "send", 500_000)
    lab.until(lambda: lab.desk_bytes(session) >= 500_000, 35, "the report")
    count, desk_count = lab.gateway_bytes("guest1"), lab.desk_bytes(session)
    lab.rules()       # as after a restart of the gateway
    lab.until(lambda: lab.reaches("guest1"), 4, "packets")
    lab.tcp("guest1", "send", 500_000)
    again = lab.gateway_bytes("guest1")
    assert again - desk_count >= 500_000, (
        f"with all counts lost it counts on from what the desk holds  [lost {count - desk_count} bytes not "
        "yet reported]")


def twelve_a_minute(span: Span) -> int:
    """How many guesses nginx lets through in a time, beyond the seven at once."""
    return int(span.seconds() / 5) + 1


def test_guessed(lab: Lab) -> None:
    lab.number("guest2")
    fields = {"code": "2222-2222-2222-2222", **lab.shown["guest2"]}
    form = [word for name, value in fields.items() for word in ("--data-urlencode", f"{name}={value}")]
    forms = [(*form, "--data-urlencode", f"request=g{i}") for i in range(20)]
    span = Span()
    answers = [lab.curl("guest2", PORTAL, *form, "-H", "Accept-Language: de-AT,de;q=0.9") for form in forms]
    statuses = [answer[0] for answer in answers]
    assert set(statuses) == {404, 429} and statuses.count(404) <= 7 + twelve_a_minute(span), (
        f"of 20 guesses at once most have to wait  [{sorted(statuses)}, {span.seconds():.0f} s]")
    bodies = {body for status, body, _ in answers if status == 429}
    assert len(bodies) == 1 and "Bitte warten Sie eine Minute" in bodies.pop(), (
        "in the guest's language, on a page of ours")
    span = Span()
    page = lab.curl("guest2", PORTAL)
    assert page[0] == 200, "and the page is shown all the same"
    body = ("-d", json.dumps({"code": "2222-2222-2222-2222"}))
    statuses = [lab.curl("guest2", REDEEM, *body)[0] for _ in range(8)]
    assert len(statuses) - statuses.count(429) <= twelve_a_minute(span), "a program's guesses are counted with them"
    names = (lab.root / "nginx-error.log", lab.root / "log/guests.log")
    logs = "".join(log.read_text() for log in names if log.exists())
    assert lab.address("guest2") not in logs, f"no guest's address stands in nginx's logs  [{logs[:200]}]"


def test_slow(lab: Lab) -> None:
    """Guests that send half a request and wait, and a user of the machine who would hold the desk's port."""
    def is_answered() -> tuple[bool, str]:
        reader = lab.begin("guest1", PYTHON, PEER, "slow", "10.77.0.1", 14, 6)
        assert reader.stdout
        waiting = int(reader.stdout.readline())
        start = time.time()
        result = lab.captive("guest2")
        took = (time.time() - start) * 1e3
        reader.kill()
        reader.communicate()
        return "captive" in result and took < 1000 and waiting >= 9, f"{waiting} wait, {took:.0f} ms"

    assert_measured("slow guests delay nobody", is_answered)
    done = lab.within("gw", "setpriv", "--reuid=65534", "--clear-groups", "curl", "-s", "--max-time", "2",
                      "http://127.0.0.1:8080/captive", check=False)
    good = done.returncode == CANNOT_CONNECT
    assert good, f"another user of the machine cannot connect to the desk  [{done.returncode}]"


def forward_ipv6(lab: Lab) -> None:
    """Makes addresses, routes and forwarding as a venue has them that wants IPv6, by mistake or on
    purpose."""
    lab.within("gw", "sysctl", "-q", "-w", "net.ipv6.conf.lan0.disable_ipv6=0")    # the agent had turned it off
    for space, device, address in (("gw", "lan0", "2001:db8:77::1"), ("guest1", "eth0", "2001:db8:77::2"),
                                   ("gw", "wan0", "2001:db8:1::1"), ("outside", "eth0", "2001:db8:1::2")):
        lab.within(space, "ip", "-6", "addr", "replace", address + "/64", "dev", device, "nodad")
    lab.within("gw", "sysctl", "-q", "-w", "net.ipv6.conf.all.forwarding=1")
    lab.within("guest1", "ip", "-6", "route", "replace", "default", "via", "2001:db8:77::1")
    lab.within("outside", "ip", "-6", "route", "replace", "2001:db8:77::/64", "via", "2001:db8:1::1")
    # what the rules keep the gateway from learning, so that a refusal is the rules' and not a missing neighbour
    hard = lab.within("gw", "cat", "/sys/class/net/lan0/address").stdout.strip()
    for space, device, address, mac in (("gw", "lan0", "2001:db8:77::2", MACS["guest1"]),
                                        ("guest1", "eth0", "2001:db8:77::1", hard)):
        lab.within(space, "ip", "-6", "neigh", "replace", address, "lladdr", mac, "dev", device, "nud", "permanent")


def test_ipv6(lab: Lab) -> None:
    """Nothing of a guest's passes by IPv6, with a session or without."""
    lab.online("guest1")
    forward_ipv6(lab)

    def ping(space: str, address: str) -> int:
        return lab.within(space, "ping", "-6", "-c2", "-i0.2", "-W1", address, check=False).returncode

    def knocks(space: str) -> int:
        return lab.within(space, PYTHON, PEER, "knock", "2001:db8:77::1", check=False).returncode

    assert ping("gw", "2001:db8:1::2") == 0, "the gateway itself reaches the outside by IPv6"
    out = lab.packets_outside("ip6")
    assert ping("guest1", "2001:db8:1::2") != 0 and lab.reaches("guest1"), (
        "a guest with a session does not by IPv6")
    assert lab.packets_outside("ip6") == out, (
        f"no IPv6 packet left the venue  [{lab.packets_outside('ip6') - out}]")
    lab.within("guest1", "nft", "add table ip6 w; add chain ip6 w i { type filter hook input priority 0; }; "
               "add rule ip6 w i ip6 saddr 2001:db8:1::2 counter")
    lab.within("outside", "ping", "-6", "-c2", "-i0.2", "-W1", "2001:db8:77::2", check=False)
    text = lab.within("guest1", "nft", "list", "table", "ip6", "w").stdout
    assert "counter packets 0 " in text, "nor one into it"
    lab.start("door", PYTHON, PEER, "door", "::")     # as a web server that listens everywhere would
    lab.until(lambda: knocks("gw") == 0, what="the door")
    assert knocks("guest1") == 1, "the gateway's own ports are shut to guests by IPv6"
    lab.stop("door")


def test_spoofed(lab: Lab) -> None:
    """What a stolen MAC address gains: said, not prevented (RFC 8952 section 3.2 leaves that to the network)."""
    lab.online("guest1")
    own = lab.address("guest2")
    address = lab.address("guest1") + "/22"
    for what, where in (("", "10.77.0.9/22"), (" and IP address", address)):
        lab.within("guest2", "ip", "link", "set", "eth0", "address", MACS["guest1"])
        lab.within("guest2", "ip", "addr", "add", where, "dev", "eth0")
        lab.within("guest2", "ip", "route", "replace", "default", "via", "10.77.0.1", "src", where.partition("/")[0])
        print(f"note a guest with the first guest's MAC address{what} passes:", lab.reaches("guest2", 1.0))
        lab.within("guest2", "ip", "link", "set", "eth0", "address", MACS["guest2"])
        lab.within("guest2", "ip", "addr", "del", where, "dev", "eth0")
    lab.within("guest2", "ip", "route", "replace", "default", "via", "10.77.0.1", "src", own)
    lab.within("guest1", "ping", "-c1", "-W1", "10.77.0.1", check=False)
    hard = lab.within("gw", "cat", "/sys/class/net/lan0/address").stdout.strip()
    # it knows the gateway, which does not answer its ARP from that address
    lab.within("guest2", "ip", "neigh", "replace", "10.77.0.1", "lladdr", hard, "dev", "eth0", "nud", "permanent")
    lab.within("guest2", "ip", "addr", "add", address, "dev", "eth0")
    lab.within("guest2", "ip", "route", "replace", "default", "via", "10.77.0.1", "src", address.partition("/")[0])
    out = lab.packets_outside()
    assert not lab.reaches("guest2", 1.0) and lab.packets_outside() == out, (
        f"a guest with the first guest's IP address sends nothing  [{lab.packets_outside() - out}]")
    result = lab.captive("guest2")
    assert result.get("captive") is not False, "and is not taken for it"
    lab.within("guest2", "ip", "addr", "del", address, "dev", "eth0")
    lab.within("guest2", "ip", "neigh", "del", "10.77.0.1", "dev", "eth0")


def test_no_fault_in_a_log(lab: Lab) -> None:
    assert lab.faults_in_logs("Traceback") == {}, "no fault in a log"
