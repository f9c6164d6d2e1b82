"""An attack from one venue on another: what a clerk, a guest and an access server of the north try at the south.

Each `tries` is one try, with what is tried in words. After each of them the south is as it was before: its vouchers, sessions
and money, its settings and accounts, its journal and its accounting. Last, the south's own people do what was refused.
"""

from __future__ import annotations

import contextlib
import hmac
import http.client
import socket
import ssl
import struct
from collections.abc import Callable, Iterator

import pytest
from at_entrance import Answer
from lender import Lender
from named_lab import BOTH, Lab, open_lab
from scripted_nas import ACCEPT, ACCOUNTING, DISCONNECT, REJECT, Nas, encode

from portal_field.lib.desk_client import Desk, Refused, Routes, new_number
from portal_field.lib.one_use import number_of

TRIES: list[tuple[str, str, Callable[[Scene], None]]] = []

pytestmark = pytest.mark.radius


class Scene:
    """Both venues, and what the attackers know of the south: codes, a batch, a session, and a packet that they heard."""

    def __init__(self, lab: Lab) -> None:
        self.lab, self.north, self.south = lab, lab.north, lab.south
        self.sold, self.used = self.south.new_codes("hour", 2)
        self.batch = f"south-{self.south.batches}"
        self.unsold, = self.south.new_codes("hour", 1, sell=False)
        self.guest = self.south.device()
        self.code, = self.south.new_codes("both", 1)
        reply = lab.nas["south"].login(self.code, self.guest)
        assert reply.code == ACCEPT, "a guest is online at the south"
        self.klass = reply.values["Class"]
        lab.nas["south"].account("Start", "south-1", self.code, self.guest, self.klass)
        self.session = self.south.sessions()[self.guest][0]
        self.own = self.north.new_codes("both", 1)[0]
        # who may do the same in both venues has to log in at each of them
        self.clerk, self.theirs = lab.clerk("north", BOTH), lab.clerk("south")
        self.visitor = self.north.device()

    def faults_in_logs(self, *words: str) -> dict[str, str]:
        """The ends of the logs that have one of these words."""
        return self.lab.faults_in_logs(*words)

    def form(self, token: str) -> dict[str, str]:
        """Fields for any form of the counter, about what the south has."""
        code = self.unsold
        return {"code": code, "codes": f"{code} {self.sold}", "request": new_number(), "batch": self.batch, "plan": "hour", "count": "1",
                "token": token, "name": "anna", "session": str(self.session), "from": "2026-01-01", "to": "2026-12-31", "text": "x",
                "reason": "x", "password": self.north.word, "pin": "2468", "role": "manager", "amount": "1.00", "drawer": "", "price": "1"}

    def routes(self, method: str) -> list[str]:
        """The addresses of the counter's pages, or of its forms, but those of the log-in."""
        return [path for path, way in self.lab.routes if way == method and path != "/login"]

    def walk(self, cookie: str, token: str | None, refused: Callable[[Answer], bool], **head: str) -> None:
        """Asks for every page of the south, or with a token sends every form; each answer must be a refusal."""
        for path in self.routes("GET" if token is None else "POST"):
            browser = self.lab.browser("south")
            browser.cookie = cookie
            answer = browser.send(path, None if token is None else self.form(token), **head)
            assert refused(answer), f"it is refused: {path}  [{answer.status} {answer.place} {answer.text[:200]!r}]"

    def raw(self, request: str, tls: str = "north.example") -> tuple[int, str]:
        """Status and text of the answer to a request as it is written here."""
        trust = ssl._create_unverified_context()
        with socket.create_connection((self.lab.host, 443), 20) as bare, trust.wrap_socket(bare, server_hostname=tls) as link:
            link.sendall(request.replace("\n", "\r\n").encode())
            answer = http.client.HTTPResponse(link)
            answer.begin()
            return answer.status, answer.read().decode("utf-8", "replace") + answer.getheader("Location", "")

    @contextlib.contextmanager
    def access_server(self, address: str, secret: str) -> Iterator[Nas]:
        """An access server that asks the south, with this address and this secret."""
        nas = Nas(address, secret, (self.lab.host, *self.south.ports), port=0)
        try:
            yield nas
        finally:
            nas.close()


def tries(who: str, what: str) -> Callable[[Callable[[Scene], None]], Callable[[Scene], None]]:
    """Puts a try into the list."""
    def put(attack: Callable[[Scene], None]) -> Callable[[Scene], None]:
        TRIES.append((who, what, attack))
        return attack
    return put


def asks_for_log_in(answer: Answer) -> bool:
    """Whether a page or a form is refused as a stranger's is."""
    return answer.status == 303 and answer.place.startswith("/login") or answer.status == 403 and 'action="/login"' in answer.text


def is_of_another(answer: Answer) -> bool:
    """Whether a form is refused as one of another log-in, or of another site."""
    return answer.status == 403 and ("before the log-in that holds now" in answer.text or "not sent from" in answer.text)


# A clerk

@tries("clerk", "opens every page of the south with the log-in of the north")
def _(scene: Scene) -> None:
    scene.walk(scene.clerk.cookie, None, asks_for_log_in)


@tries("clerk", "sends every form of the south with the log-in and the token of the north")
def _(scene: Scene) -> None:
    scene.walk(scene.clerk.cookie, scene.clerk.token, asks_for_log_in)


@tries("clerk", "sends every form of the south with the log-in of the north and a token of the south")
def _(scene: Scene) -> None:
    scene.walk(scene.clerk.cookie, scene.theirs.token, asks_for_log_in)


@tries("clerk", "has a clerk of the south send every form with a token of the north")
def _(scene: Scene) -> None:
    scene.walk(scene.theirs.cookie, scene.clerk.token, is_of_another)


@tries("clerk", "has a clerk of the south send every form from a page of the north")
def _(scene: Scene) -> None:
    scene.walk(scene.theirs.cookie, scene.theirs.token, is_of_another, Origin="https://north.example")


@tries("clerk", "sends every form of the south without a log-in, with a token of the south")
def _(scene: Scene) -> None:
    scene.walk("", scene.theirs.token, asks_for_log_in)


@tries("clerk", "names the south by the header of nginx at every page of the north")
def _(scene: Scene) -> None:
    for path in scene.routes("GET"):
        answer = scene.clerk.send(path, None, **{"X-Venue": "south"})
        assert "House south" not in answer.text and scene.unsold not in answer.text, f"{path} is the north's"
    assert "House north" in scene.clerk.send("/", None, **{"X-Venue": "south"}).text, "and the pages are there"


@tries("clerk", "names the south by the header of nginx in a sale at the north")
def _(scene: Scene) -> None:
    answer = scene.clerk.send("/sell", scene.form(scene.clerk.token), **{"X-Venue": "south"})
    assert "never issued here" in answer.text, f"the north does not know the code  [{answer.status}]"


@tries("clerk", "writes the name of the south in capitals, with a port and with a full stop")
def _(scene: Scene) -> None:
    for host in ("SOUTH.example", "south.example:443", "south.example."):
        browser = scene.lab.browser("north")
        browser.cookie = scene.clerk.cookie
        answer = browser.send("/money", None, Host=host)
        assert asks_for_log_in(answer), f"{host}: the log-in of the north is none  [{answer.status}]"


@tries("clerk", "names the south in the line of the request, and the north as the host")
def _(scene: Scene) -> None:
    status, text = scene.raw(f"GET https://south.example/money HTTP/1.1\nHost: north.example\nConnection: close\nCookie: {scene.clerk.cookie}\n\n")
    assert status in (303, 400) and "House south" not in text, f"refused  [{status}]"


@tries("clerk", "names two hosts in one request")
def _(scene: Scene) -> None:
    for names in (("north", "south"), ("south", "north")):
        hosts = "".join(f"Host: {name}.example\n" for name in names)
        status, _ = scene.raw(f"GET /money HTTP/1.1\n{hosts}Connection: close\nCookie: {scene.clerk.cookie}\n\n")
        assert status == 400, f"two hosts are no request  [{status}]"


@tries("clerk", "asks for the south over a connection that TLS made for the north")
def _(scene: Scene) -> None:
    browser = scene.lab.browser("south", tls="north.example")
    browser.cookie = scene.clerk.cookie
    assert asks_for_log_in(browser.ask("/money")), "the name in the request counts"


@tries("clerk", "asks by names that no venue has")
def _(scene: Scene) -> None:
    for name in ("east.example", "", "south", "south.example.north.example"):
        status, text = scene.raw(f"GET /money HTTP/1.1\nHost: {name}\nConnection: close\nCookie: {scene.clerk.cookie}\n\n")
        assert status in (400, 404, 421) and "House" not in text, f"{name!r} is nobody's  [{status}]"
    with pytest.raises(OSError):
        scene.raw("GET /money HTTP/1.1\nHost: south.example\nConnection: close\n\n", tls="east.example")


@tries("clerk", "logs in at the south with the name and the password of the north")
def _(scene: Scene) -> None:
    for name in ("anna", "only-north"):
        answer = scene.lab.browser("south").log_in(name, scene.north.word)
        assert answer.status == 401, f"nobody there has this name and this password: {name}  [{answer.status}]"


@tries("clerk", "looks up, sells, refunds and replaces codes of the south at the north")
def _(scene: Scene) -> None:
    for path in ("/voucher", "/sell", "/sell-several", "/refund", "/replace", "/next"):
        for code in (scene.unsold, scene.sold, scene.code):
            answer = scene.clerk.send(path, {**scene.form(scene.clerk.token), "code": code, "codes": code})
            page = scene.clerk.ask(answer.place) if answer.place else answer
            assert "Take 3.00" not in page.text and "Give 3.00" not in page.text, f"{path}: nothing is done  [{page.status}]"


@tries("clerk", "prints, sells, refunds and marks as lost a batch of the south at the north")
def _(scene: Scene) -> None:
    for path in ("/batch", "/sheet", "/sheet.pdf", "/vouchers", "/sell-batch", "/lost"):
        text = scene.clerk.ask(f"{path}?batch={scene.batch}").text
        assert scene.unsold not in text and scene.sold not in text, f"{path} shows no code"
    for path in ("/sell-batch", "/refund-batch", "/lost", "/found"):
        scene.clerk.send(path, scene.form(scene.clerk.token))


@tries("clerk", "closes and replaces at the north the session of the south by its number")
def _(scene: Scene) -> None:
    for path in ("/close", "/replace-session"):
        scene.clerk.send(path, scene.form(scene.clerk.token))
    assert scene.guest in scene.south.sessions(), "it goes on"


@tries("clerk", "makes, changes and takes away at the north accounts that have the names of the south's")
def _(scene: Scene) -> None:
    for path in ("/clerk", "/clerk-gone"):
        for name in ("ben", "only-south"):
            scene.clerk.send(path, {**scene.form(scene.clerk.token), "name": name, "clerk": name, "new": "another long word"})


@tries("clerk", "looks for sales and sessions of the south in the lists of the north")
def _(scene: Scene) -> None:
    for path in ("/money", "/takings", "/takings.csv", "/cash-up", "/cash-up.csv", "/receipts", "/receipt?number=1", "/sessions", "/batches",
                 f"/session?device={scene.guest}", "/session?number=1", "/venue", "/settings", "/plans", "/clerks", "/texts"):
        text = scene.clerk.ask(path).text
        assert scene.batch not in text and scene.guest not in text and "only-south" not in text and "House south" not in text, path


# Tokens

@tries("token", "sends every request of a counter to the south with the token of the north's")
def _(scene: Scene) -> None:
    at_every_route(scene, "desk", scene.north.desk_token)


@tries("token", "sends every request of a gateway to the south with the token of the north's")
def _(scene: Scene) -> None:
    at_every_route(scene, "gateway", scene.north.gateway_token)


@tries("token", "sends every request of a counter to the south with the south's token of a gateway")
def _(scene: Scene) -> None:
    at_every_route(scene, "desk", scene.south.gateway_token)


def at_every_route(scene: Scene, caller: str, token: str) -> None:
    """Sends each request of this caller to the south; none may be taken."""
    body = {"code": scene.unsold, "batch": "b9", "plan": "hour", "count": 1, "session": scene.session, "bytes": 10_000_000}
    for route in Routes:
        if route.caller == caller:
            part = (scene.unsold,) if "{}" in route.path else ()
            try:
                Desk(scene.south.port, token).request(route, *part, body=body if route.method == "POST" else None, number=new_number())
                status = 200
            except Refused as refusal:
                status = refusal.status
            assert status in (401, 403), f"the request is refused: {route.path}  [{status}]"


# A guest

@tries("guest", "types codes of the south at the access server of the north")
def _(scene: Scene) -> None:
    for code in (scene.sold, scene.unsold, scene.code):
        reply = scene.lab.nas["north"].login(code, scene.visitor)
        assert reply.code == REJECT and "do not know this code" in reply.words, f"unknown there  [{reply}]"


@tries("guest", "types a code of the south at the north in other spellings, and as an address")
def _(scene: Scene) -> None:
    for text in (scene.sold.lower(), scene.sold.replace("-", " "), f"https://south.example/portal?code={scene.sold}", f"south/{scene.sold}",
                 f"{scene.sold}@south", f"south\\{scene.sold}"):
        assert scene.lab.nas["north"].login(text, scene.visitor).code == REJECT, f"unknown there: {text}"


@tries("guest", "sends a code of the south to the server of the north as a program does")
def _(scene: Scene) -> None:
    with pytest.raises(Refused) as caught:
        Desk(scene.north.port).request_json(Routes.REDEEM, body={"code": scene.sold}, device=scene.visitor, number=new_number())
    assert caught.value.word == "unknown_code", f"unknown there  [{caught.value.word}]"


@tries("guest", "uses at the north the idempotency key of a log-in at the south")
def _(scene: Scene) -> None:
    with pytest.raises(Refused):
        Desk(scene.north.port).request_json(Routes.REDEEM, body={"code": scene.code}, device=scene.guest,
                                            number=number_of(scene.guest, scene.code, 0))


@tries("guest", "comes to the north by the address of a device that is online at the south")
def _(scene: Scene) -> None:
    for name in (scene.guest, scene.guest.replace(":", "-")):
        assert scene.lab.nas["north"].login(name, scene.guest).code == REJECT, "its session is the south's"


@tries("guest", "comes to the north with the code and the device of a session that is open at the south")
def _(scene: Scene) -> None:
    assert scene.lab.nas["north"].login(scene.code, scene.guest).code == REJECT, "its session is the south's"


@tries("guest", "asks the north what a device of the south has left")
def _(scene: Scene) -> None:
    reply = Desk(scene.north.port).request_json(Routes.CAPTIVE, device=scene.guest)
    assert reply["captive"] is True and "bytes-remaining" not in reply, f"nothing there  [{reply}]"


@tries("guest", "guesses the tokens of the south with the codes that it has")
def _(scene: Scene) -> None:
    for token in (scene.own, scene.sold, scene.session, "desk-token", "change-me-desk"):
        at_every_route(scene, "desk", str(token))


# An access server

@tries("access server", "logs a guest in at the south, from its own address with its own secret")
def _(scene: Scene) -> None:
    with scene.access_server(scene.north.nas_address, scene.north.secret) as nas:
        assert nas.login(scene.sold, scene.visitor, wait=1.0).code == 0, "there is no answer"


@tries("access server", "logs a guest in at the south, from the address of the south's with its own secret")
def _(scene: Scene) -> None:
    with scene.access_server(scene.south.nas_address, scene.north.secret) as nas:
        for signs in (True, False):
            assert nas.login(scene.sold, scene.visitor, sign=signs, wait=1.0).code == 0, "there is no answer"


@tries("access server", "logs in at the south a device that is online there, by its address")
def _(scene: Scene) -> None:
    with scene.access_server(scene.south.nas_address, scene.north.secret) as nas:
        assert nas.login(scene.guest.replace(":", "-").upper(), scene.guest, wait=1.0).code == 0, "there is no answer"


@tries("access server", "ends a session of the south by accounting with its own secret")
def _(scene: Scene) -> None:
    for address in (scene.north.nas_address, scene.south.nas_address):
        with scene.access_server(address, scene.north.secret) as nas:
            assert not sent(nas, "Stop", scene, (20_000_000, 0)), "there is no answer"


@tries("access server", "says to the south that it has started, which would end all its sessions there")
def _(scene: Scene) -> None:
    with scene.access_server(scene.south.nas_address, scene.north.secret) as nas:
        assert not nas.account("Accounting-On", "on", "", ""), "there is no answer"
    scene.lab.nas["north"].account("Accounting-On", "on", "", "", more={"NAS-IP-Address": scene.south.nas_address})


@tries("access server", "sends to the north accounting with the Class of a session of the south")
def _(scene: Scene) -> None:
    nas = scene.lab.nas["north"]
    for status in ("Start", "Interim-Update", "Stop"):
        assert nas.account(status, "north-1", scene.code, scene.guest, scene.klass, (20_000_000, 0)), "answered, and not counted"


@tries("access server", "uses at the north the accounting session of the south by its name")
def _(scene: Scene) -> None:
    assert scene.lab.nas["north"].account("Stop", "south-1", scene.code, scene.guest, scene.klass, (20_000_000, 0)), "answered, not counted"


@tries("access server", "sends to the south a Class that is made with the key of the north")
def _(scene: Scene) -> None:
    key = (scene.north.places.settings / "credentials/class_key").read_bytes().strip()
    tag = hmac.digest(key, f"{scene.session} {scene.guest} lobby".encode(), "sha256").hex()[:32]
    klass = f"portal-{scene.session}-{scene.guest.replace(':', '')}-{tag}".encode()
    with scene.access_server(scene.south.nas_address, scene.north.secret) as nas:
        assert not sent(nas, "Interim-Update", scene, (20_000_000, 0), klass), "there is no answer"
    scene.lab.nas["north"].account("Interim-Update", "north-2", scene.code, scene.guest, klass, (20_000_000, 0))


def nobody_answers(scene: Scene, packet: bytes, address: str, port: int, seconds: float) -> None:
    """Sends a packet from an address to a port of the host. No answer may come for so many seconds."""
    with socket.socket(socket.AF_INET, socket.SOCK_DGRAM) as link:
        link.bind((address, 0))
        link.settimeout(seconds)
        link.sendto(packet, (scene.lab.host, port))
        with pytest.raises(TimeoutError):
            link.recv(4096)


@tries("access server", "sends again to the north a packet that the south's access server sent")
def _(scene: Scene) -> None:
    theirs = scene.lab.nas["south"]
    packet = theirs.access_request(9, {"User-Name": scene.sold, "Calling-Station-Id": "02-00-00-00-09-09"}, scene.sold.encode(), True)
    for address in (scene.north.nas_address, scene.south.nas_address):
        nobody_answers(scene, packet, address, scene.north.ports[0], 1.0)


@tries("access server", "sends to the south half packets and packets that are no RADIUS")
def _(scene: Scene) -> None:
    for packet in (b"", b"\x01", struct.pack("!BBH", ACCOUNTING, 1, 4000) + bytes(16), bytes(4000)):
        nobody_answers(scene, packet, scene.south.nas_address, scene.south.ports[0], 0.5)


@tries("access server", "waits for the requests to end sessions of the south")
def _(scene: Scene) -> None:
    assert not [one for one in scene.lab.nas["north"].requests if one.values.get("Acct-Session-Id") == "south-1"], "it hears of none"
    assert not scene.lab.nas["north"].requests_for(DISCONNECT, "south-1"), "and ends none"


def sent(nas: Nas, status: str, scene: Scene, octets: tuple[int, int], klass: object = None) -> bool:
    """Whether accounting of the south's session is answered within a second."""
    values = {"Acct-Status-Type": {"Stop": 2, "Interim-Update": 3}[status], "Acct-Session-Id": "south-1", "User-Name": scene.code,
              "NAS-IP-Address": nas.address, "Calling-Station-Id": nas.maker.device(scene.guest), "Acct-Session-Time": 10,
              "Acct-Input-Octets": octets[0], "Acct-Output-Octets": octets[1], "Class": klass or scene.klass}
    return nas.exchange(nas.accounting_packet(nas.next_ident(), encode(values)), nas.acct_port, 1.0) is not None


@pytest.fixture
def scene(request: pytest.FixtureRequest, lender: Lender, portal: str) -> Iterator[Scene]:
    """Both venues, with what the attackers know."""
    @contextlib.contextmanager
    def made() -> Iterator[Scene]:
        with open_lab(portal) as lab:
            yield Scene(lab)
    for one in lender.lend(request.node, "between", made):
        yield one


@pytest.mark.parametrize("who, what, attack", TRIES, ids=[f"{who} {what}" for who, what, _ in TRIES])
def test_refused(scene: Scene, who: str, what: str, attack: Callable[[Scene], None]) -> None:
    before = scene.south.state()
    attack(scene)
    after = scene.south.state()
    changed = {name: (before[name], after[name]) for name in before if before[name] != after[name]}
    assert not changed, f"nothing of the south is changed  [{changed}]"


def test_the_list() -> None:
    assert len(TRIES) >= 40, f"forty tries are in the list  [{len(TRIES)}]"


def test_no_fault_in_a_log(scene: Scene) -> None:
    assert scene.faults_in_logs("Traceback", "Segmentation", "ASSERT") == {}, "no fault in a log"


def test_own_people(scene: Scene) -> None:
    """What was refused is done for the south's own, so the refusals above are no broken parts."""
    south, before = scene.south, scene.south.state()
    clerk = scene.lab.clerk("south")
    assert clerk.post("/sell", code=scene.unsold, request=new_number()).status in (200, 303), "its clerk sells"
    assert scene.unsold in clerk.ask("/sheet?batch=south-2").text, "and prints"
    nas = scene.lab.nas["south"]
    assert nas.login(scene.sold, south.device()).code == ACCEPT and south.uses_of(scene.sold) == 1, "its access server logs in"
    assert nas.account("Interim-Update", "south-1", scene.code, scene.guest, scene.klass, (3_000_000, 0)), "and counts"
    assert scene.lab.comes(lambda: south.sessions()[scene.guest][1] == 7_000_000), f"its bytes  [{south.sessions()}]"
    changed = {name for name, value in south.state().items() if value != before[name]}
    assert {"takings", "sessions", "vouchers", "acts", "accounting"} <= changed, f"and the state shows each of these  [{changed}]"
