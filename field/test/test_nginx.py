"""nginx before both pages, on loopback and without root: what stands on every answer, and what stands in its logs."""

from __future__ import annotations

import contextlib
import http.client
import io
import json
import pathlib
import re
import socket
import ssl
import subprocess
import sys
import tempfile
import threading
import time
import unittest
import urllib.parse
from concurrent import futures
from typing import Any

import counter_nginx
from at_entrance import WORDS, ClerksBrowser, logins_in, put_accounts
from browser import policy
from desk_process import FIELD, Desk, DeskProcess, Relay, Routes, free_port
from fake_machine import SAMPLE
from needs import needs
from steady import wait_until
from test_front import serve_during_test

from portal_field.counter.clerk import Counter
from portal_field.counter.journal import Journal
from portal_field.counter.page import pages
from portal_field.guests import lookup, page as guest_page
from portal_field.lib import web

CONTEXT = ssl._create_unverified_context()
WRONG = "DUX8-A3EQ-UBN7"     # a code where a password is asked for
Answer = tuple[int, http.client.HTTPMessage, str]


class BehindNginx(unittest.TestCase):
    """A page's application, a desk of its own, and nginx before it."""

    def setUp(self) -> None:
        self.desk = self.enterContext(DeskProcess())
        self.relay = Relay(self.desk.port)
        self.addCleanup(self.relay.close)
        self.folder = pathlib.Path(self.enterContext(tempfile.TemporaryDirectory()))
        self.log = io.StringIO()
        self.enterContext(contextlib.redirect_stderr(self.log))
        self.port, self.host = 0, ""

    def serves(self, app: web.Application, door: socket.socket) -> None:
        self.server = web.server(app, door, threads=4)
        threading.Thread(target=self.server.run, daemon=True).start()
        self.addCleanup(self.stops)

    def stops(self) -> None:
        """The page's helper, whose socket is gone then."""
        self.server.task_dispatcher.shutdown()
        self.server.close()

    def ask(self, path: str, head: dict[str, str] | None = None, body: str | None = None, plain: int = 0) -> Answer:
        link = (http.client.HTTPConnection("127.0.0.1", plain, timeout=30) if plain else
                http.client.HTTPSConnection("127.0.0.1", self.port, context=CONTEXT, timeout=30))
        with contextlib.closing(link):
            link.request("POST" if body is not None else "GET", path, body, {"Host": self.host, **(head or {})})
            answer = link.getresponse()
            return answer.status, answer.headers, answer.read().decode("utf-8", "replace")

    def raw(self, request: bytes) -> tuple[int, http.client.HTTPMessage]:
        """The answer to bytes that are no whole request."""
        with socket.create_connection(("127.0.0.1", self.port), timeout=30) as bare, CONTEXT.wrap_socket(bare) as link:
            link.sendall(request)
            answer = http.client.HTTPResponse(link)
            answer.begin()
            return answer.status, answer.headers

    def assert_headers(self, head: http.client.HTTPMessage, wanted: dict[str, str], what: object) -> None:
        for name, value in wanted.items():
            self.assertEqual(head.get_all(name), [value] if value else None, (what, name))


@needs("nginx", "openssl")
class CounterPage(BehindNginx):
    HEAD = {"Strict-Transport-Security": "max-age=31536000", "Content-Security-Policy": policy() + "; font-src 'self'",
            "Referrer-Policy": "same-origin", "X-Content-Type-Options": "nosniff"}

    def setUp(self) -> None:
        super().setUp()
        (self.folder / "notes").mkdir()
        conf: dict[str, Any] = {
            "house": "House", "plans": str(FIELD / "settings/plans.toml"), "portal_url": "https://wifi.example/portal",
            "snapshot": str(self.folder / "sessions.json"), "notes": str(self.folder / "notes")}
        self.counter = Counter(Desk(self.relay.port, "desk-token"), conf, Journal(self.folder / "journal.db"))
        self.counter.load_plans()
        self.nginx = nginx = counter_nginx.CounterNginx(self.folder, policy())
        put_accounts(self.folder)
        self.logins = logins_in(self.folder)
        self.serves(pages(self.counter, self.logins), nginx.door())
        nginx.start()
        self.addCleanup(nginx.close)
        self.port, self.host = nginx.port, f"{counter_nginx.NAME}:{nginx.port}"
        self.anna = self.browser()
        self.assertEqual(self.anna.log_in("anna").status, 303)

    def browser(self) -> ClerksBrowser:
        """A browser at the counter, where nobody is logged in."""
        return ClerksBrowser(lambda: http.client.HTTPSConnection("127.0.0.1", self.port, context=CONTEXT, timeout=30), host=self.host)

    def clerk(self, path: str, head: dict[str, str] | None = None, **form: object) -> Answer:
        fields = {"Cookie": self.anna.cookie, "Origin": f"https://{self.host}", **(head or {})}
        return self.ask(path, fields, urllib.parse.urlencode({"token": self.anna.token, **form}) if form else None)

    def test_a_text_and_a_picture_may_be_larger_than_other_forms(self) -> None:
        for path, size, status in (("/text", 60_000, 200), ("/text", 70_000, 413), ("/picture", 300_000, 400), ("/picture", 4_200_000, 413),
                                   ("/plan", 5_000, 413), ("/sell", 5_000, 413)):
            self.assertEqual(self.clerk(path, text="x" * size)[0], status, (path, size))

    def test_who_asks_too_often_is_asked_to_wait_and_fills_no_log(self) -> None:
        self.nginx.close()
        conf = self.folder / "counter-nginx/page.conf"
        text = conf.read_text()
        self.assertIn("rate=50r/s", text)
        conf.write_text(text.replace("rate=50r/s", "rate=1r/m"))
        self.nginx.start()
        self.assertEqual({self.ask("/login")[0] for _ in range(201)}, {200}, "so many at once")
        status, head, page = self.ask("/login")
        self.assertEqual(status, 429)
        self.assert_headers(head, self.HEAD, status)
        self.assertIn("There were too many requests from this computer or its network.", page)
        for path in ("/style.css", "/counter.css", "/sheet.css", "/away.css"):
            self.assertEqual(self.ask(path)[0], 200, "which the page needs")
        for path in ("/fonts/none.ttf", "/busy", "/away"):
            self.assertEqual(self.ask(path)[0], 404)
        log = self.folder / "counter.log"
        self.assertTrue(wait_until(lambda: "GET /away 404" in log.read_text(), 30))
        lines = log.read_text().splitlines()
        self.assertEqual([line for line in lines if line.endswith(" 429") or ".css" in line or "fonts" in line], [])
        self.assertEqual(sum(line.endswith("GET /login 200") for line in lines), 202)

    def test_one_address_has_sixteen_requests_in_work(self) -> None:
        self.stops()
        (self.folder / "counter.socket").unlink(missing_ok=True)
        request = f"GET /login HTTP/1.1\r\nHost: {self.host}\r\n\r\n".encode()
        with self.nginx.door() as door, contextlib.ExitStack() as held:
            door.settimeout(30)
            for _ in range(16):
                bare = held.enter_context(socket.create_connection(("127.0.0.1", self.port), timeout=30))
                held.enter_context(CONTEXT.wrap_socket(bare)).sendall(request)
                held.enter_context(door.accept()[0])
            self.assertEqual(self.ask("/login")[0], 429)

    def guess(self, word: str) -> Answer:
        """The answer to a log-in of Ben's with a wrong password."""
        form = urllib.parse.urlencode({"request": "g1", "name": "ben", "password": word})
        return self.ask("/login", {"Origin": f"https://{self.host}"}, form)

    def test_each_answer_has_its_headers(self) -> None:
        code, = self.desk.sell_codes("hour", "b1")
        sale: dict[str, Any] = {"code": code, "request": "s1"}
        http_form = {"Origin": f"http://{self.host}"}
        answers = [(200, self.clerk("/")), (200, self.clerk("/style.css")), (404, self.clerk("/fonts/none.ttf")),
                   (200, self.clerk("/sheet?batch=b1")), (303, self.clerk("/voucher", code=code)), (400, self.clerk("/sell", x="1")),
                   (303, self.ask("/")), (200, self.ask("/style.css")), (200, self.ask("/login")),
                   (403, self.clerk("/sell", http_form, **sale)), (404, self.clerk("/nothing")), (404, self.clerk("/wrong")),
                   (409, self.clerk("/sell", **sale)), (413, self.clerk("/sell", code="2" * 5000)),
                   *((401, self.guess(WRONG)) for _ in range(5)), (429, self.guess(WRONG))]
        self.logins.guesses.tries.wrong.clear()
        self.relay.drops = True
        answers.append((504, self.clerk("/sell", **sale)))
        self.stops()
        answers += [(502, self.clerk("/")), (502, self.clerk("/sell", **sale)), (502, self.ask("/"))]
        for _, (_, _, text) in answers[-3:]:     # a page of its own, with a style that needs no password
            for words in ("The counter&#39;s page is away", "Whom to call: Maria, 030 1234567.", 'href="/away.css"'):
                self.assertIn(words, text)
        answers += [(200, self.ask("/away.css")), (404, self.clerk("/away"))]
        for wanted, (status, head, text) in answers:
            self.assertEqual(status, wanted, text[:300])
            self.assert_headers(head, self.HEAD, status)
        for request in (b"GET /%00 HTTP/1.1\r\nHost: x\r\n\r\n", b"GET / HTTP/1.1\r\nHost: x\r\nX: " + b"x" * 40_000 + b"\r\n\r\n"):
            status, head = self.raw(request)
            self.assertEqual(status, 400)
            self.assert_headers(head, self.HEAD, request[:9])

    def a_day(self) -> list[str]:
        """At the counter, with each kind of failure; the codes of its vouchers."""
        self.clerk("/issue", batch="b1", plan="hour", count="6", request="i1")
        codes = re.findall("<b>([0-9A-Z-]{19})</b>", self.clerk("/sheet?batch=b1")[2])
        for i, code in enumerate(codes[:3]):
            place = self.clerk("/voucher", code=code)[1]["Location"]
            self.clerk(place)
            for number in (f"s{i}", f"s{i}", f"again{i}"):
                self.clerk("/sell", code=code, next="", request=number)
            self.clerk("/next", code=f"https://wifi.example/portal?code={code}")
            self.clerk(place.replace("voucher", "refund"))
            self.clerk("/refund", code=code, amount="1" if i else "300", request=f"r{i}")
            for path in (f"/voucher?code={code}", f"/refund?code={code}", f"/next?code={code}", f"/nothing/{i}"):
                self.clerk(path)
            for text in (code, code.lower(), code.replace("-", "").lower()):
                self.clerk(f"/{text}")
            self.guess(WRONG)
            self.ask("/sell", {"Origin": f"https://{self.host}"}, urllib.parse.urlencode({"code": code}))
            self.browser().log_in(code, code)       # a scan into the fields of the log-in
            self.logins.guesses.tries.wrong.clear()
            self.clerk("/sell", {"Origin": "https://evil.example"}, code=code, request="e1")
        self.clerk("/issue", batch=codes[0].lower(), plan="hour", count="6", request="i2")
        return codes

    def failures(self, code: str) -> None:
        for self.relay.cuts, self.relay.drops in ((True, False), (False, True)):
            for path in ("/sell", "/refund"):
                self.clerk(path, code=code, request=f"{path[1:]}-{self.relay.drops}")
            self.clerk(self.clerk("/voucher", code=code)[1]["Location"])
        pathlib.Path(self.counter.journal.path).unlink()
        pathlib.Path(self.counter.journal.path).mkdir()
        self.relay.drops = False
        self.clerk("/sell", code=code, request="last")
        for request in ("GET /voucher?code={} HTTP/1.1\r\nHost: x\r\nCookie: x\r\n\r\n", "GET /voucher?code={} HTTP/9\r\n\r\n",
                        "POST /voucher HTTP/1.1\r\nHost: x\r\nContent-Length: 99\r\n\r\ncode={}"):
            with contextlib.suppress(OSError, http.client.HTTPException):
                self.raw(request.format(code).encode())
        self.stops()
        for path in ("/", f"/voucher?code={code}"):
            self.clerk(path)
        self.clerk("/sell", code=code, request="s9")

    def test_no_log_has_a_code_after_a_day_with_every_failure(self) -> None:
        codes = self.a_day()
        self.assertEqual(len(codes), 6)
        self.failures(codes[5])
        (self.folder / "counter.socket").unlink(missing_ok=True)       # nginx says more of a socket that is not there
        self.clerk(f"/voucher?code={codes[5]}")
        self.clerk("/sell", code=codes[5], request="s10")
        time.sleep(0.5)
        logs = {path.name: path.read_text() for path in self.folder.rglob("*.log")} | {"the page": self.log.getvalue()}
        self.assertEqual(logs.keys(), {"counter.log", "counter-error.log", "nginx.log", "the page"})
        self.assertIn("POST /sell 502", logs["counter.log"])
        self.assertIn("anna at 127.0.0.1: sell b1, hour: done", logs["the page"])
        self.assertRegex(logs["counter.log"], r"(?m)^127\.0\.0\.1 anna \[.*\] POST /sell 200$")
        self.assertRegex(logs["counter.log"], r"(?m)^127\.0\.0\.1 - \[.*\] POST /login 401$")
        self.assertIn("the journal could not be written", logs["the page"])
        for name, text in logs.items():
            plain = re.sub("[^0-9A-Z]", "", urllib.parse.unquote(text).upper())
            for secret in (self.anna.cookie.partition("=")[2], self.anna.token, WORDS["anna"]):
                self.assertNotIn(secret, text, name)
            for code in [*codes, WRONG]:
                self.assertNotIn(code.replace("-", ""), plain, name)


@needs("nginx", "openssl")
class GuestsPage(BehindNginx):
    HEAD = {"Strict-Transport-Security": "max-age=86400", "Content-Security-Policy": policy(), "Referrer-Policy": "no-referrer",
            "X-Content-Type-Options": "nosniff"}

    def setUp(self) -> None:
        super().setUp()
        self.port, self.plain, self.host = free_port(), free_port(), "wifi.example"
        counter_nginx.certificate(self.folder, self.host)
        text = re.sub("(?m)^(cert|key) = .*$", lambda line: f'{line[1]} = "{self.folder}/{line[1]}.pem"', SAMPLE)
        text = re.sub("(?m)^logo = .*$", lambda _: f'logo = "{self.folder}/logo.svg"', text)
        (self.folder / "logo.svg").write_text("<svg/>")
        (self.folder / "field.toml").write_text(text.replace("8080", str(self.relay.port)))
        words = [sys.executable, FIELD / "setup", "--root", self.folder, "--field", FIELD, self.folder / "field.toml"]
        subprocess.run([str(word) for word in words], check=True, stdout=subprocess.DEVNULL)
        socket_path = self.folder / "run/portal-front/socket"
        socket_path.parent.mkdir(parents=True)
        self.device: str | None = "02:00:00:00:00:01"
        self.front = guest_page.Front(Desk(self.relay.port), {"house": "House", "help": "", "knock": str(self.folder / "knock")},
                                      lambda _: self.device, "a key")
        (self.folder / "run/portal-lookup").mkdir()
        for number in "12":
            door = web.listening(str(self.folder / "run/portal-lookup" / number))
            serve_during_test(self, lookup.lookup(lambda _: self.device), door)
        self.serves(guest_page.pages(self.front), web.listening(str(socket_path)))
        self.nginx = counter_nginx.Nginx(self.folder, self.conf(), self.port)
        self.nginx.start()
        self.addCleanup(self.nginx.close)

    def conf(self) -> str:
        """What set-up made, on ports of loopback."""
        text = (self.folder / "etc/nginx/conf.d/portal-guests.conf").read_text()
        for old, new in (("10.77.0.1:443", f"127.0.0.1:{self.port}"), ("10.77.0.1:80", f"127.0.0.1:{self.plain}"),
                         ("/var/log/portal", str(self.folder))):
            assert old in text, old
            text = text.replace(old, new)
        return text

    def test_each_answer_has_its_headers(self) -> None:
        form = "code=2222-2222-2222&request=a1"
        answers = [(200, self.ask("/portal")), (302, self.ask("/")), (200, self.ask("/captive")), (200, self.ask("/style.css")),
                   (404, self.ask("/portal/session")),
                   (400, self.ask("/portal", body=form)), (413, self.ask("/portal", body="x" * 5000)),
                   (404, self.ask("/portal/redeem", body='{"code": "2222-2222-2222-2222"}')),
                   (400, self.ask("/portal/redeem", {"Portal-Request": "a_1"}, '{"code": "x"}')), (404, self.ask("/device"))]
        self.device = None
        answers += [(403, self.ask("/captive")), (403, self.ask("/portal/session")), (200, self.ask("/portal"))]
        many = [self.ask("/portal/redeem", body="{}") for _ in range(12)]
        answers += [(429, next(answer for answer in many if answer[0] == 429))]
        self.stops()
        answers += [(502, self.ask("/portal"))]
        for wanted, (status, head, text) in answers:
            self.assertEqual(status, wanted, text[:300])
            self.assert_headers(head, self.HEAD, status)
        status, head, _ = self.ask("/anything", plain=self.plain)
        self.assertEqual((status, head["Location"]), (302, "https://wifi.example/portal"))
        self.assert_headers(head, {**self.HEAD, "Strict-Transport-Security": ""}, "by plain HTTP (RFC 6797 section 7.2)")
        status, head = self.raw(b"GET / HTTP/1.1\r\nHost: x\r\nX: " + b"x" * 40_000 + b"\r\n\r\n")
        self.assertEqual(status, 400)
        self.assert_headers(head, self.HEAD, "a head of 40 kB")

    def test_a_device_gets_the_details_of_its_own_session(self) -> None:
        self.desk.load()
        for number, device in enumerate(("02:00:00:00:00:01", "02:00:00:00:00:02"), 1):
            code, = self.desk.sell_codes("gigabyte", f"b{number}")
            self.desk.desk.request_json(Routes.REDEEM, body={"code": code}, device=device)
        self.device = "02:00:00:00:00:02"
        for answer in (self.ask("/portal/session"), self.ask("/portal/session", {"Portal-Device": "02:00:00:00:00:01"}),
                       self.ask("/portal/session?device=02:00:00:00:00:01"), self.ask("/portal/session", body="device=02:00:00:00:00:01")):
            status, _, text = answer
            self.assertEqual(status, 200, text)
            found = json.loads(text)
            self.assertEqual(found, {"bytes-remaining": 10**9, "ended": None, "opened": found["opened"], "plan": "gigabyte", "session": 2, "used": 0})
        link = http.client.HTTPSConnection("127.0.0.1", self.port, context=CONTEXT, timeout=30)
        with contextlib.closing(link):
            link.request("HEAD", "/portal/session", None, {"Host": self.host})
            self.assertEqual(link.getresponse().status, 200)
        self.assertEqual([self.ask(path)[0] for path in ("/desk/sessions/1", "/gateway/sessions/details", "/portal/session/1")], [302] * 3)

    def test_questions_about_the_own_session_have_a_limit(self) -> None:
        with futures.ThreadPoolExecutor(8) as pool:
            answers = list(pool.map(self.ask, ["/portal/session"] * 60))
        self.assertIn(429, [status for status, _, _ in answers])

    def fetch(self, path: str, **head: str) -> tuple[http.client.HTTPMessage, bytes]:
        """An answer's head, and its body as it came."""
        link = http.client.HTTPSConnection("127.0.0.1", self.port, context=CONTEXT, timeout=30)
        with contextlib.closing(link):
            link.request("GET", path, None, {"Host": self.host, **head})
            answer = link.getresponse()
            return answer.headers, answer.read()

    def test_a_page_is_small(self) -> None:
        """At most four requests and 12 kB; no page is compressed, as it repeats what a guest typed beside a secret."""
        gzip = {"Accept-Encoding": "gzip, deflate, br"}
        head, page = self.fetch("/portal", **gzip)
        self.assertIsNone(head["Content-Encoding"])
        parts = re.findall(rb'<(?:link|img|script|source)[^>]* (?:href|src)="([^"]+)"', page)
        self.assertLessEqual(len(parts), 3)
        head, style = self.fetch("/style.css", **gzip)
        self.assertEqual(head["Content-Encoding"], "gzip")
        self.assertLess(len(style) + len(page), 12_000)
        self.assertLess(len(self.fetch("/style.css")[1]), 4_000)
        status, head, text = self.ask("/favicon.ico")
        self.assertEqual((status, text), (204, ""))
        self.assert_headers(head, self.HEAD, "favicon.ico")

    def test_the_venues_pages_and_its_logo(self) -> None:
        texts = pathlib.Path(self.enterContext(tempfile.TemporaryDirectory()))
        self.front.conf.update(texts=str(texts), logo=True)
        (texts / "terms.md").write_text("# Rules")
        (texts / "terms.de.md").write_text("# Regeln")
        answers = [(200, self.ask("/portal/terms")), (200, self.ask("/portal/terms?lang=de")), (302, self.ask("/portal/privacy")),
                   (302, self.ask("/portal/anything")), (404, self.ask("/portal/redeem", body='{"code": "2222-2222-2222"}')), (200, self.ask("/logo"))]
        for wanted, (status, head, text) in answers:
            self.assertEqual(status, wanted, text[:300])
            self.assert_headers(head, self.HEAD, status)
        self.assertIn("<h2>Rules</h2>", answers[0][1][2])
        self.assertIn("<h2>Regeln</h2>", answers[1][1][2])
        self.assertIn("<h2>Regeln</h2>", self.ask("/portal/terms", {"Cookie": "portal_lang=de", "Accept-Language": "en"})[2])
        self.assertEqual((answers[5][1][1]["Content-Type"], answers[5][1][2]), ("image/svg+xml", "<svg/>"))
        (self.folder / "etc/portal/picture.png").write_text("a picture")
        status, head, text = self.ask("/logo")
        self.assertEqual((status, head["Content-Type"], text), (200, "image/png", "a picture"), "that which a manager chose")
        self.assert_headers(head, self.HEAD, status)

    def test_nginxs_own_answers_are_in_the_language_of_the_page(self) -> None:
        self.stops()
        for accepted, chosen, tag in (("de-AT", "", "de"), ("de", "ja", "ja"), ("zh-TW,zh;q=0.9", "", "zh-Hant"), ("zh-CN", "", "zh-Hans"),
                                      ("de", "zh-Hant", "zh-Hant"), ("qaa", "", "en"), ("de", "qaa", "en"), ("nlx", "", "en")):
            cookie = {"Cookie": f"x=y; portal_lang={chosen}"} if chosen else {}
            status, _, text = self.ask("/portal", {"Accept-Language": accepted, **cookie})
            self.assertEqual((status, re.findall('<html lang="([^"]*)"', text)), (502, [tag]), (accepted, chosen))


if __name__ == "__main__":
    unittest.main()
