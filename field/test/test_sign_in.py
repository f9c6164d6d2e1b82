"""The chain's sign-in by OpenID Connect, with a provider on loopback: who comes in, and what is refused."""

from __future__ import annotations

import contextlib
import http.client
import importlib.util
import io
import json
import pathlib
import sqlite3
import tempfile
import time
import unittest
import urllib.parse
from typing import Any
from unittest import mock

from at_entrance import Answer, ClerksBrowser, answer_each_in_test
from needs import NEEDS, needs
from test_front import UnixLink, serve_during_test
from test_logins import AtEntrance

from portal_field.counter import roles, sign_in_pages
from portal_field.counter.journal import Journal
from portal_field.counter.page import pages
from portal_field.counter.sign_in_people import AnotherPerson, Person, name_here
from portal_field.counter.sign_in_pages import SignIns
from portal_field.lib import web
from portal_field.venues import one_question, sign_in
from portal_field.venues.sign_in import BadSignIn, SignIn

if importlib.util.find_spec("authlib"):
    from authlib.jose import JsonWebKey
    from oidc_provider import CLIENT, SECRET, Provider

RULE = '[[role]]\nclaim = "{}"\nvalue = "{}"\nrole = "{}"\nvenues = {}\n'
RULES = (RULE.format("groups", "office", "office", '["*"]') + RULE.format("groups", "north-managers", "manager", '["north"]')
         + RULE.format("job", "boss", "manager", '["south", "north"]'))
OLGA: dict[str, Any] = {"sub": "o7", "email": "olga@chain.example", "email_verified": True, "groups": ["staff", "office"]}
NORA: dict[str, Any] = {"sub": "n8", "email": "nora@chain.example", "groups": ["north-managers"]}


class Settings(unittest.TestCase):
    def read(self, more: str = "", issuer: str = "https://login.example", rules: str = RULES) -> SignIn:
        return SignIn.read(f'issuer = "{issuer}"\nclient_id = "portal"\n{more}\n{rules}')

    def test_the_sample_is_good(self) -> None:
        path = pathlib.Path(sign_in.__file__).parents[2] / "settings/sign-in.toml"
        self.assertEqual(SignIn.read(path.read_text()).role[0].role, "office")

    def test_which_claim_gives_which_role_at_which_venue(self) -> None:
        conf = self.read()
        self.assertEqual(conf.person(OLGA, "north"), {"name": "olga@chain.example", "role": "office", "sub": "o7", "claim": "", "value": "",
                                                      "provider": "https://login.example portal"})
        self.assertEqual(conf.person({**OLGA, "groups": "office"}, "south")["role"], "office", "a value alone, as in a list")
        self.assertEqual(conf.person(NORA, "north")["role"], "manager")
        self.assertEqual(conf.person({**NORA, "groups": ["north-managers", "office"]}, "north")["role"], "office", "the first that fits")
        self.assertEqual(conf.person({"sub": "b9", "email": "b@x.example", "job": "boss"}, "south")["role"], "manager")
        for claims, venue in ((NORA, "south"), ({"email": "x@x.example"}, "north"), ({**OLGA, "groups": "office2"}, "north"), ({**OLGA, "groups": {"office": 1}}, "north"),
                              ({**OLGA, "groups": "xofficex"}, "north"), ({**OLGA, "groups": None}, "north"), ({**OLGA, "email": ""}, "north"),
                              ({**OLGA, "email": "a:b"}, "north"), ({**OLGA, "email": 7}, "north"), ({**OLGA, "email_verified": False}, "north"),
                              ({"sub": "7", "groups": ["office"]}, "north")):
            self.assertRaises(sign_in.Fault, conf.person, claims, venue)

    def test_a_person_is_the_sub_alone(self) -> None:
        """`sub`: at most 255 characters of ASCII (OpenID Connect Core 1.0 section 2); an address and a user name are one person's and can
        be another's tomorrow (section 5.7)."""
        self.read().person({**OLGA, "sub": "s" * 255}, "north")
        for sub in (None, "", "s" * 256, "ä", 7, ["o7"]):
            self.assertRaises(sign_in.Fault, self.read().person, {**OLGA, "sub": sub}, "north")
        for claim, is_personal in (("email", True), ("preferred_username", True), ("upn", True), ("sub", False), ("department", False)):
            conf = self.read(rules=RULE.format(claim, "x7", "manager", '["*"]'))
            found = conf.person({"sub": "o7", "email": "x@x.example", claim: "x7"}, "north") if claim != "sub" else conf.person(
                {"sub": "x7", "email": "x@x.example"}, "north")
            self.assertEqual((found["claim"], found["value"]), (claim, "x7") if is_personal else ("", ""), claim)

    def test_an_address_that_the_provider_has_not_verified_gives_no_role(self) -> None:
        conf = self.read('name_claim = "nickname"', rules=RULE.format("email", "b@x.example", "manager", '["*"]'))
        claims: dict[str, Any] = {"sub": "b9", "nickname": "b", "email": "b@x.example"}
        self.assertEqual(conf.person({**claims, "email_verified": True}, "north")["role"], "manager")
        self.assertRaises(sign_in.Fault, conf.person, {**claims, "email_verified": False}, "north")

    def test_what_comes_from_outside_is_one_line_of_ascii(self) -> None:
        """A line of standard error that begins with <0> is an emergency to systemd's journal (sd-daemon(3))."""
        log = io.StringIO()
        with contextlib.redirect_stderr(log), contextlib.redirect_stdout(io.StringIO()), mock.patch("sys.stdin") as given:
            given.buffer = io.BytesIO(b"{}")
            one_question.run("sign-in", 9, lambda data: {"fault": "no\n<0>counter: anna: login: done\r\x1b[2J\u202e"})
        self.assertEqual(log.getvalue(), "sign-in: 'no\\n<0>counter: anna: login: done\\r\\x1b[2J\\u202e'\n")

    def test_a_line_that_is_not_valid_is_named(self) -> None:
        for more, word in (("odd = 1", "odd"), ("label = 1", "label is a text"), ('scopes = "email"', "openid in its scopes")):
            with self.assertRaises(BadSignIn) as caught:
                self.read(more)
            self.assertIn(word, str(caught.exception))
        for issuer in ("http://login.example", "login.example", "http://10.0.0.1", "ftp://127.0.0.1"):
            self.assertRaises(BadSignIn, self.read, "", issuer)
        self.read("", "http://127.0.0.1:9")
        for rules in ("", RULE.format("a", "b", "clerk", '["x"]'), RULE.format("a", "b", "office", '"x"'), RULE.format("", "b", "office", '["x"]'),
                      '[[role]]\nclaim = "a"\n', 'role = 1', RULE.format("a", "b", "office", "[1]")):
            self.assertRaises(BadSignIn, self.read, "", "https://x.example", rules)
        self.assertRaises(BadSignIn, SignIn.read, "issuer =")

    def test_a_machine_without_the_file_has_none(self) -> None:
        with tempfile.TemporaryDirectory() as folder:
            root = pathlib.Path(folder)
            self.assertIsNone(sign_in.settings_in(root))
            (root / "etc/portal").mkdir(parents=True)
            (root / sign_in.FILE).write_text("issuer =")
            with self.assertRaises(BadSignIn) as caught:
                sign_in.settings_in(root)
            self.assertIn("sign-in.toml", str(caught.exception))


class People(unittest.TestCase):
    """Who is who at a counter, by what the part that asks the provider says."""

    def setUp(self) -> None:
        self.journal = Journal(pathlib.Path(self.enterContext(tempfile.TemporaryDirectory())) / "journal.db")

    def name(self, sub: str, name: str = "olga@chain.example", claim: str = "", provider: str = "p", accounts: tuple[str, ...] = ()) -> str:
        return name_here(self.journal, Person(name, "office", provider, sub, claim, name if claim else ""), accounts)

    def test_a_name_is_of_the_sub_that_first_came_with_it(self) -> None:
        self.assertEqual(self.name("o7"), "olga@chain.example")
        for number, same in enumerate(("olga@chain.example", "OLGA@chain.example", "olga@ｃｈａｉｎ.example"), 2):
            self.assertEqual(self.name(f"x{number}", same), f"{same} ({number})", "another one has a number")
        self.assertEqual(self.name("o7", "olga.new@chain.example"), "olga@chain.example", "and who it is keeps the name, also with another address")
        self.assertEqual(self.name("x9", "olga@chain.example (2)"), "olga@chain.example (2) (2)")
        self.assertEqual(self.name("x9", "nora"), "olga@chain.example (2) (2)")
        self.assertEqual(self.name("y", "n" * 64), "n" * 64)
        self.assertEqual(self.name("z", "n" * 64), "n" * 58 + " (2)", "which is as long as a name may be")

    def names(self) -> list[str]:
        return [str(name) for name, in self.journal.asked("SELECT value FROM people WHERE claim = ''")]

    def test_a_role_by_an_address_is_of_the_sub_that_first_came_with_it(self) -> None:
        self.assertEqual(self.name("o7", claim="email"), "olga@chain.example")
        with self.assertRaises(AnotherPerson) as caught:
            self.name("x9", claim="email")
        self.assertIn('claim = "sub" and value = "x9"', str(caught.exception))
        self.assertEqual(self.names(), ["olga@chain.example"], "and nothing is kept of who is refused")
        self.assertEqual(self.name("o7", claim="email"), "olga@chain.example")
        self.assertEqual(self.name("x9"), "olga@chain.example (2)", "a role by a group is for everybody in it")

    def test_another_provider_begins_anew(self) -> None:
        self.assertEqual([self.name("o7"), self.name("a1", provider="q")], ["olga@chain.example"] * 2)

    def test_a_name_that_looks_like_that_of_an_account_is_none(self) -> None:
        for name in ("anna", "Anna", "ａnna"):
            with self.assertRaises(AnotherPerson):
                self.name("a1", name, accounts=("anna",))
        self.assertEqual(self.name("a2", "anna"), "anna", "and nothing is kept of who is refused")
        self.name("a1", "anna")
        self.assertRaises(AnotherPerson, self.name, "a2", "anna", accounts=("Anna",))

    def test_what_is_kept_only_grows(self) -> None:
        self.name("o7")
        with self.journal.opened() as link:
            for change in ("UPDATE people SET sub = 'x9'", "DELETE FROM people"):
                self.assertRaises(sqlite3.IntegrityError, link.execute, change)


@needs("python3-authlib", "python3-requests", *NEEDS["quick"])
class SignedIn(AtEntrance):
    """The counter of the venue north, whose page asks the provider by the part that systemd starts."""

    def setUp(self) -> None:
        super().setUp()
        self.provider = Provider()
        self.addCleanup(self.provider.server_close)
        self.addCleanup(self.provider.shutdown)
        self.provider.claims = dict(OLGA)
        self.text = f'issuer = "{self.provider.issuer}"\nclient_id = "{CLIENT}"\nclient_secret = "{SECRET}"\nlabel = "Chain"\n{RULES}'
        mark = SignIn.read(self.text).mark
        self.conf |= {"sign_in": str(self.folder / "sign"), "sign_in_label": "Chain", "sign_in_mark": mark, "venue": "north"}
        self.logins.sign_in = f"sign-in {mark}"
        self.asked: list[dict[str, Any]] = []
        answer_each_in_test(self, self.conf["sign_in"], self.answer_of_unit)
        self.app, self.door = pages(self.counter, self.logins), self.folder / "signs"
        serve_during_test(self, self.app, web.listening(str(self.door)))

    def answer_of_unit(self, data: bytes) -> bytes:
        """The answer of the unit to a question, which is kept."""
        self.asked.append(json.loads(data))
        return json.dumps(sign_in.answer(data, self.text)).encode()

    def go(self, browser: ClerksBrowser, to: str = "") -> str:
        """Goes to the provider; the address that it leads back to."""
        away = browser.ask(f"/sign-in?{urllib.parse.urlencode({'to': to})}" if to else "/sign-in")
        self.assertEqual(away.status, 303, away.told)
        self.browsers_cookie = browser.cookie
        parts = urllib.parse.urlsplit(away.place)
        link = http.client.HTTPConnection(parts.netloc)
        link.request("GET", f"{parts.path}?{parts.query}")
        back = str(link.getresponse().headers["Location"])
        link.close()
        self.assertTrue(back.startswith("https://counter.example/signed-in?"), back)
        return back.removeprefix("https://counter.example")

    def come(self, to: str = "") -> tuple[ClerksBrowser, Answer]:
        """Goes to the provider and comes back."""
        browser = ClerksBrowser(lambda: UnixLink(self.door))
        return browser, browser.ask(self.go(browser, to))

    def test_the_office_comes_in_and_goes(self) -> None:
        browser, page = self.come("/office")
        self.assertEqual((page.status, page.head["Refresh"]), (200, "0; url=/office"))
        self.assertIn("You are signed in as olga@chain.example.", page.told)
        self.assertEqual([row for row in self.rows("login")], [("olga@chain.example", "login", "done")])
        lines = [line for line in browser.cookies if line.startswith("__Host-counter=")]
        self.assertEqual(set(lines[0].split("; ")[1:]), {"Secure", "HttpOnly", "SameSite=Strict", "Path=/"})
        browser.cookie = lines[0].partition(";")[0]
        self.assertEqual(browser.ask("/").place, "/office")
        self.assertEqual(browser.ask("/vouchers").status, 403)
        text = browser.ask("/account").text
        self.assertIn("You are signed in by the chain", text)
        self.assertNotIn('action="/password"', text)
        self.assertEqual(browser.post("/logout").status, 200)
        self.assertTrue(browser.ask("/office").place.startswith("/login"))

    def test_what_goes_to_the_provider(self) -> None:
        browser = ClerksBrowser(lambda: UnixLink(self.door))
        away = browser.ask("/sign-in")
        query = dict(urllib.parse.parse_qsl(urllib.parse.urlsplit(away.place).query))
        self.assertEqual({name: query[name] for name in ("response_type", "client_id", "redirect_uri", "scope", "code_challenge_method")}, {
            "response_type": "code", "client_id": CLIENT, "redirect_uri": "https://counter.example/signed-in", "scope": "openid email profile",
            "code_challenge_method": "S256"})
        self.assertNotIn(SECRET, away.place)
        self.assertEqual((query["prompt"], query["max_age"]), ("login", "60"))
        again = dict(urllib.parse.parse_qsl(urllib.parse.urlsplit(browser.ask("/sign-in").place).query))
        for name in ("state", "nonce", "code_challenge"):
            self.assertGreaterEqual(len(query[name]), 32)
            self.assertNotEqual(query[name], again[name])
        line, = [line for line in browser.cookies[:1]]
        self.assertEqual(set(line.split("; ")[1:]) & {"Secure", "HttpOnly", "SameSite=Lax", "Path=/", "Max-Age=600"},
                         {"Secure", "HttpOnly", "SameSite=Lax", "Path=/", "Max-Age=600"})

    def test_a_manager_does_what_needs_no_password_of_the_counter(self) -> None:
        self.provider.claims = dict(NORA)
        browser, page = self.come()
        browser.cookie = next(line for line in browser.cookies if line.startswith("__Host-counter=")).partition(";")[0]
        for name in ("", "takings?from=2026-01-01&to=2026-01-02&by=day", "cash-up"):
            self.assertEqual(browser.ask(f"/{name}").status, 200, name)
        for name in sorted(roles.WITH_PASSWORD - {"picture.png"}):
            for answer in (browser.ask(f"/{name}"), browser.post(f"/{name}", name="x")):
                self.assertIn(answer.status, (403, 404), name)
                if answer.status == 403:
                    self.assertIn("Only an account with a password of this counter may do this.", answer.told)
        self.assertNotIn('href="/clerks"', browser.ask("/venue").text)
        self.assertEqual(browser.ask("/office").status, 403)

    def test_it_is_locked_and_comes_back_by_the_provider(self) -> None:
        browser, _ = self.come()
        browser.cookie = next(line for line in browser.cookies if line.startswith("__Host-counter=")).partition(";")[0]
        browser.ask("/account")
        self.assertEqual(browser.post("/lock").place, "/lock")
        page = browser.ask("/lock")
        self.assertIn('href="/sign-in"', page.text)
        self.assertNotIn('action="/unlock"', page.text)
        for word in ("", "1234", "olga@chain.example"):
            self.assertEqual(browser.post("/unlock", pin=word).status, 401, word)
        self.assertTrue(browser.ask("/office").place.startswith("/lock"))
        self.assertEqual(self.come()[1].status, 200)

    def test_the_provider_asks_for_the_password_at_each_log_in_and_at_a_lock(self) -> None:
        """As whoever sits at the counter may have the browser in which somebody logged in at the provider."""
        browser, _ = self.come()
        self.assertEqual(self.provider.asked, 1)
        browser.cookie = next(line for line in browser.cookies if line.startswith("__Host-counter=")).partition(";")[0]
        browser.ask("/account")
        self.assertEqual(browser.post("/lock").place, "/lock")
        self.go(browser)
        self.assertEqual(self.provider.asked, 2)
        self.provider.changed = {"auth_time": int(time.time()) - 3600}
        self.refused("did not ask for the password anew", self.go(browser := ClerksBrowser(lambda: UnixLink(self.door))), browser, done=1)

    def test_it_ends_with_the_time_and_with_other_settings(self) -> None:
        for change in ("time", "settings", "account"):
            browser, _ = self.come()
            browser.cookie = next(line for line in browser.cookies if line.startswith("__Host-counter=")).partition(";")[0]
            self.assertEqual(browser.ask("/account").status, 200)
            before = self.clock[0], self.logins.sign_in
            if change == "time":
                self.clock[0] += 16 * 3600
            elif change == "settings":
                self.logins.sign_in = "sign-in other"
            else:
                browser.ask("/account")
                self.logins.sign_in = ""
            self.assertTrue(browser.ask("/account").place.startswith("/login"), change)
            self.clock[0], self.logins.sign_in = before

    def refused(self, why: str, back: str = "", browser: ClerksBrowser | None = None, done: int = 0) -> None:
        """Comes back, and is not let in."""
        browser = browser or ClerksBrowser(lambda: UnixLink(self.door))
        answer = browser.ask(back or self.go(browser))
        self.assertIn(answer.status, (400, 403), why)
        self.assertIn(why, answer.told)
        self.assertFalse([line for line in browser.cookies if line.startswith("__Host-counter=")], why)
        self.assertEqual([row[2] for row in self.rows("login")].count("done"), done)

    def test_tokens_that_are_refused(self) -> None:
        now = int(time.time())
        other = JsonWebKey.generate_key("RSA", 2048, {"kid": "one"}, is_private=True)
        changes: list[tuple[str, dict[str, Any]]] = [
            ("nonce", {"nonce": "another"}), ("nonce", {"nonce": None}), ("aud", {"aud": "another"}), ("aud", {"aud": None}),
            ("azp", {"aud": [CLIENT, "x"], "azp": "x"}), ("expired", {"exp": now - 61 - 60}), ("exp", {"exp": None}),
            ("iss", {"iss": "https://evil.example"}), ("iss", {"iss": None}), ("sub", {"sub": None}),
            ("gives no role", {"groups": ["staff"]}), ("gives no role", {"groups": None}), ("has not verified", {"email_verified": False}),
            ("has no name", {"email": None}),
            *(("does not say when", {"auth_time": moment}) for moment in (None, True)), ("auth_time", {"auth_time": str(now)}),
            *(("password anew", {"auth_time": moment}) for moment in (1, now - 90, now + 180, float("inf")))]
        for why, changed in changes:
            with self.subTest(changed):
                self.provider.changed = changed
                self.refused(why)
        self.provider.changed = {}
        with self.subTest("another key"):
            self.provider.key = other
            self.refused("bad_signature")
        self.provider.key = self.provider.published
        for header in ({"alg": "none"}, {"alg": "HS256", "kid": "one"}):
            with self.subTest(header), mock.patch.object(self.provider, "header", header), \
                    mock.patch.object(self.provider, "key", "" if header["alg"] == "none" else SECRET):
                self.refused("Why:")
        self.assertEqual(self.come()[1].status, 200, "and as it should be it is taken")

    def test_a_provider_that_is_another_one_or_away(self) -> None:
        browser = ClerksBrowser(lambda: UnixLink(self.door))
        self.provider.about = {"issuer": "https://evil.example"}
        answer = browser.ask("/sign-in")
        self.assertEqual(answer.status, 503)
        self.assertIn("names another issuer", answer.told)
        self.provider.about = {}
        back = self.go(browser)
        self.provider.about = {"issuer": "https://evil.example"}
        self.refused("names another issuer", back, browser)
        self.text = self.text.replace(self.provider.issuer, "http://127.0.0.1:9")
        answer = browser.ask("/sign-in")
        self.assertEqual(answer.status, 503)
        self.assertIn('action="/login"', answer.text)

    def test_a_code_and_a_state_are_good_once(self) -> None:
        browser = ClerksBrowser(lambda: UnixLink(self.door))
        back = self.go(browser)
        cookie = browser.cookie
        self.assertEqual(browser.ask(back).status, 200)
        browser.cookie = cookie
        self.assertEqual(browser.ask(back).status, 400, "the state is used up, as by Back")
        self.assertEqual(len(self.provider.used), 1, "and the provider is not asked again")
        code = dict(urllib.parse.parse_qsl(back.partition("?")[2]))["code"]
        other = ClerksBrowser(lambda: UnixLink(self.door))
        query = dict(urllib.parse.parse_qsl(self.go(other).partition("?")[2]))
        answer = other.ask(f"/signed-in?{urllib.parse.urlencode({**query, 'code': code})}")
        self.assertEqual(answer.status, 403)
        self.assertIn("invalid_grant", answer.told)

    def test_a_sign_in_that_another_browser_began_is_refused(self) -> None:
        """Who is led to the address of somebody else's sign-in does not come in as that person (RFC 6749 section 10.12)."""
        back = self.go(ClerksBrowser(lambda: UnixLink(self.door)))
        for has_begun in (False, True):
            browser = ClerksBrowser(lambda: UnixLink(self.door))
            if has_begun:
                self.go(browser)
            self.refused("was not begun here", back, browser)
        self.assertEqual(self.provider.used, [])
        own = ClerksBrowser(lambda: UnixLink(self.door))
        query = dict(urllib.parse.parse_qsl(self.go(own).partition("?")[2]))
        forms: list[dict[str, str]] = [{**query, "state": "x"}, {"code": query["code"]}, {"state": query["state"]}, {}]
        for form in forms:
            self.assertEqual(own.ask(f"/signed-in?{urllib.parse.urlencode(form)}").status, 400, form)

    def test_one_that_takes_too_long_has_ended(self) -> None:
        browser = ClerksBrowser(lambda: UnixLink(self.door))
        back = self.go(browser)
        self.clock[0] += 601
        self.refused("has ended", back, browser)

    def test_who_floods_ends_no_sign_in_of_another_computer(self) -> None:
        browser = ClerksBrowser(lambda: UnixLink(self.door))
        back = self.go(browser)
        waiting = SignIns(self.logins)
        found = {"state": "s", "nonce": "n", "verifier": "v", "begun": "1"}
        own = waiting.begin(found, "/", "10.88.0.9")
        self.go(ClerksBrowser(lambda: UnixLink(self.door), "10.88.0.7"))
        with contextlib.closing(sqlite3.connect(self.folder / "logins.db")) as link:
            self.assertEqual(link.execute("SELECT place FROM under_way ORDER BY rowid").fetchall(), [("10.88.0.2",), ("10.88.0.9",), ("10.88.0.7",)])
        for number in range(150):
            waiting.begin(found, "/", "10.88.0.7")
            waiting.begin(found, "/", f"10.88.1.{number}")
        self.assertIsNotNone(waiting.take(own, "s"))
        self.assertEqual(browser.ask(back).status, 200)
        with contextlib.closing(sqlite3.connect(self.folder / "logins.db")) as link:
            self.assertEqual(link.execute("SELECT count(*) FROM under_way WHERE place = '10.88.0.7'").fetchone(), (20,))

    def test_of_too_many_those_go_first_of_whose_address_there_are_most(self) -> None:
        waiting = SignIns(self.logins)
        found = {"state": "s", "nonce": "n", "verifier": "v", "begun": "1"}
        first = waiting.begin(found, "/", "10.88.0.9")
        with mock.patch.object(sign_in_pages, "MOST", 30):
            for number in range(100):
                waiting.begin(found, "/", f"10.88.0.{number % 5}")
            with contextlib.closing(sqlite3.connect(self.folder / "logins.db")) as link:
                self.assertEqual(link.execute("SELECT count(*) FROM under_way").fetchone(), (30,))
        self.assertIsNotNone(waiting.take(first, "s"))

    def test_a_file_of_before_is_taken(self) -> None:
        with contextlib.closing(sqlite3.connect(self.folder / "logins.db")) as link:
            link.execute("CREATE TABLE sign_ins (cookie TEXT PRIMARY KEY, state TEXT NOT NULL, nonce TEXT NOT NULL, verifier TEXT NOT NULL, "
                         "back TEXT NOT NULL, ends INTEGER NOT NULL) STRICT")
        self.assertEqual(self.come()[1].status, 200)
        with contextlib.closing(sqlite3.connect(self.folder / "logins.db")) as link:
            self.assertEqual(link.execute("SELECT name FROM sqlite_master WHERE name = 'sign_ins'").fetchall(), [])

    def test_what_the_browser_says_is_one_line_of_the_log(self) -> None:
        self.provider.error = "x\n<0>counter: anna at 10.88.0.2: login: done"
        self.refused("<0>counter: anna")
        self.assertIn("sign-in: 'x\\n<0>counter: anna", self.log.getvalue())
        self.assertEqual([line for line in self.log.getvalue().splitlines() if not line.startswith("counter: ? at 10.88.0.2: ")], [])

    def test_another_person_with_the_same_address_has_another_name(self) -> None:
        self.come()
        self.provider.claims = {**OLGA, "sub": "x9", "email": "Olga@chain.example"}
        self.assertIn("You are signed in as Olga@chain.example (2).", self.come()[1].told)
        self.provider.claims = {**OLGA, "email": "olga.new@chain.example"}
        self.assertIn("You are signed in as olga@chain.example.", self.come()[1].told)
        self.assertEqual([row[0] for row in self.rows("login")], ["olga@chain.example", "Olga@chain.example (2)", "olga@chain.example"])

    def test_who_takes_the_address_of_a_manager_gets_no_role(self) -> None:
        self.text += RULE.format("email", "boss@chain.example", "manager", '["*"]')
        self.provider.claims = {"sub": "b9", "email": "boss@chain.example"}
        self.assertEqual(self.come()[1].status, 200)
        self.provider.claims["sub"] = "x9"
        self.refused("another person of the provider has the role by this email", done=1)
        self.text += RULE.format("sub", "x9", "manager", '["*"]')
        self.refused("another person of the provider", done=1)
        self.provider.claims["email"] = "x@chain.example"
        self.assertIn("You are signed in as x@chain.example.", self.come()[1].told)

    def test_who_says_no_at_the_provider(self) -> None:
        self.provider.error = "access_denied"
        self.refused("access_denied")

    def test_a_name_of_an_account_of_the_counter_is_refused(self) -> None:
        for name in ("anna", "Anna"):
            self.provider.claims = {**OLGA, "email": name}
            self.refused("an account of this counter has this name")

    def test_another_address_afterwards_is_one_of_these_pages(self) -> None:
        for to in ("https://evil.example/", "//evil.example", "/signed-in?code=x", "/login"):
            self.assertEqual(self.come(to)[1].head["Refresh"], "0; url=/", to)

    def test_no_code_no_token_and_no_secret_is_in_a_log_or_on_a_page(self) -> None:
        browser = ClerksBrowser(lambda: UnixLink(self.door))
        back = self.go(browser)
        page = browser.ask(back)
        for word in dict(urllib.parse.parse_qsl(back.partition("?")[2])).values():
            self.assertNotIn(word, self.log.getvalue() + page.text)
        self.assertNotIn(SECRET, self.log.getvalue() + page.text)
        self.assertNotIn(SECRET, json.dumps(self.asked))

    def test_a_counter_without_it_has_no_such_pages(self) -> None:
        del self.conf["sign_in"]
        door = self.folder / "without"
        serve_during_test(self, pages(self.counter, self.logins), web.listening(str(door)))
        browser = ClerksBrowser(lambda: UnixLink(door))
        for path in ("/sign-in", "/signed-in?code=x&state=y"):
            self.assertTrue(browser.ask(path).place.startswith("/login"), path)
        self.assertNotIn("/sign-in", browser.ask("/login").text)

    def test_the_page_of_the_log_in_leads_there(self) -> None:
        browser = ClerksBrowser(lambda: UnixLink(self.door))
        self.assertIn('href="/sign-in"', browser.ask("/login").text)
        self.assertIn('href="/sign-in?to=/vouchers">Chain</a>', browser.ask("/login?to=%2Fvouchers").text)

    def test_questions_that_are_none(self) -> None:
        for data in (b"", b"[]", b'{"ask": 1}', b'{"ask": "begin"}', b'{"ask": "finish", "redirect": "x"}'):
            self.assertEqual(list(sign_in.answer(data, self.text)), ["fault"], data)
        self.assertEqual(list(sign_in.answer(b'{"ask": "begin", "redirect": "x"}', "issuer =")), ["fault"])


if __name__ == "__main__":
    unittest.main()
