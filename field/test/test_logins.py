"""Who comes in at the counter: log-in, log-out, the lock, roles, and the tokens of forms."""

from __future__ import annotations

import contextlib
import html
import io
import re
import sqlite3
import subprocess
import threading
import time
import unittest
from collections.abc import Iterator
from typing import Any
from unittest import mock

from at_entrance import WORDS, Answer, ClerksBrowser, logins_in, put_accounts, quick_hash
from desk_process import Routes
from test_counter import AtCounter
from test_front import UnixLink, serve_during_test

from portal_field.counter import roles
from portal_field.counter.guesses import Asker
from portal_field.counter.page import pages
from portal_field.lib import web
from portal_field.settings.accounts import FILE, Account, Accounts


class AtEntrance(AtCounter):
    """The counter's page with its log-ins, on a socket."""

    MINUTES = 10

    def setUp(self) -> None:
        super().setUp()
        self.log = io.StringIO()
        self.enterContext(contextlib.redirect_stderr(self.log))
        put_accounts(self.folder)
        self.clock = [1_790_000_000.0]
        self.logins = logins_in(self.folder, idle_minutes=self.MINUTES)
        self.logins.now = self.logins.guesses.tries.now = lambda: self.clock[0]
        self.slept: list[float] = []
        self.logins.guesses.sleep = self.slept.append
        self.door = self.folder / "entrance"
        self.app = pages(self.counter, self.logins)
        serve_during_test(self, self.app, web.listening(str(self.door)))

    def browser(self, name: str = "", place: str = "10.88.0.2") -> ClerksBrowser:
        """A browser, with this clerk logged in."""
        browser = ClerksBrowser(lambda: UnixLink(self.door), place)
        if name:
            self.assertEqual(browser.log_in(name).status, 303)
        return browser

    def rows(self, *acts: str) -> list[tuple[str, str, str]]:
        """Clerk, act and answer of these lines of the journal."""
        return [(entry.clerk, entry.act, entry.answer) for entry in self.journal.entries(
            "SELECT moment, clerk, act, batch, plan, codes, price, request, answer FROM acts ORDER BY number")
            if entry.act in acts]

    def sold(self, code: str) -> bool:
        return self.desk.voucher(code)["sold"] is not None


class LogIn(AtEntrance):
    def test_without_a_log_in_there_is_its_page_alone(self) -> None:
        code, = self.desk.issue_codes("hour", "b1")
        browser = self.browser()
        for rule in self.app.url_map.iter_rules():
            if rule.rule not in ("/login",):
                for form in (None, {"code": code, "request": "s1", "batch": "b9", "plan": "hour", "count": "1"}):
                    answer = browser.send(rule.rule, form)
                    self.assertIn(answer.status, (303, 403), (rule.rule, form))
                    self.assertNotIn("Open sessions", answer.text)
                    if form is None:
                        self.assertRegex(answer.place, r"\A/login(\?to=|\Z)", rule.rule)
                    else:
                        self.assertIn("Nothing was done", answer.told, rule.rule)
        self.assertEqual((self.sold(code), browser.cookies), (False, []))
        self.assertEqual(browser.ask("/nothing").status, 303, "nor does it say which pages there are")

    def test_name_and_password_lead_to_the_page_that_was_asked_for(self) -> None:
        browser = self.browser()
        place = browser.ask("/vouchers").place
        self.assertEqual(place, "/login?to=%2Fvouchers")
        page = browser.ask(place)
        self.assertEqual(page.form("login")["to"], "/vouchers")
        answer = browser.send("/login", {**page.form("login"), "name": "anna", "password": WORDS["anna"]})
        self.assertEqual((answer.status, answer.place), (303, "/vouchers"))
        self.assertIn("You are anna.", browser.ask("/vouchers").text)
        self.assertEqual(browser.ask("/login").place, "/", "who is logged in goes on")
        self.assertEqual(self.rows("login"), [("anna", "login", "done")])

    def test_the_cookie_is_for_this_site_alone_and_the_file_has_its_hash(self) -> None:
        browser = self.browser("anna")
        line = browser.cookies[0]
        self.assertEqual(set(line.split("; ")[1:]), {"Secure", "HttpOnly", "SameSite=Strict", "Path=/"})
        name, _, number = browser.cookie.partition("=")
        self.assertEqual((name, len(number)), ("__Host-counter", 64))
        data = b"".join(path.read_bytes() for path in self.folder.glob("logins.db*"))
        self.assertNotIn(number.encode(), data)
        self.assertEqual((self.folder / "logins.db").stat().st_mode & 0o077, 0)

    def test_another_address_after_the_log_in_is_one_of_these_pages(self) -> None:
        for to in ("https://evil.example/", "//evil.example", "/\\evil.example", "javascript:x", "/login", "/sell?code=x#y", "/a/b"):
            browser = self.browser()
            answer = browser.log_in("anna", to=to)
            self.assertEqual((answer.status, answer.place), (303, "/"), to)

    def test_a_wrong_word_keeps_the_name_and_says_not_which_was_wrong(self) -> None:
        answers = [self.browser(place=f"10.88.0.{i}").log_in(name, "a-wrong-word") for i, name in enumerate(("anna", "nobody"))]
        self.assertEqual([(answer.status, answer.told.strip()) for answer in answers], [(401, "Name or password is wrong.")] * 2)
        self.assertIn('name="name" required maxlength="64" autocomplete="username" spellcheck="false" autocapitalize="none" value="anna"', answers[0].text)
        self.assertNotIn("a-wrong-word", answers[0].text)
        self.assertEqual(self.rows("login"), [("anna", "login", "wrong_word"), ("?", "login", "wrong_word")])
        self.assertNotIn("nobody", self.log.getvalue(), "what was typed as a name may be a code or a password")

    def test_a_double_click_is_one_log_in(self) -> None:
        browser = self.browser()
        form = {**browser.ask("/login").form("login"), "name": "anna", "password": WORDS["anna"]}
        cookies = []
        for _ in range(2):
            browser.cookie = ""
            browser.send("/login", form)
            cookies.append(browser.cookie)
        with contextlib.closing(sqlite3.connect(self.folder / "logins.db")) as link:
            self.assertEqual(link.execute("SELECT count(*) FROM logins").fetchone(), (1,))
        self.assertEqual([self.browser_with(cookie).ask("/").status for cookie in cookies], [303, 200])

    def browser_with(self, cookie: str) -> ClerksBrowser:
        browser = self.browser()
        browser.cookie = cookie
        return browser

    def test_wrong_words_are_limited_by_name_and_by_address(self) -> None:
        mine = self.browser(place="10.88.0.2")
        result = [mine.log_in("anna", f"wrong-{i}").status for i in range(7)]
        self.assertEqual(result, [401] * 5 + [429] * 2)
        answer = mine.log_in("anna")
        self.assertIn("Try again in 30 seconds.", answer.told)
        self.assertEqual(answer.head["Retry-After"], "30")
        self.assertIn("counter: anna at 10.88.0.2: login: too many wrong ones, waits 30 seconds", self.log.getvalue())
        self.assertEqual(self.browser(place="10.88.0.3").log_in("anna").status, 303, "from another address she comes in")
        self.assertEqual(self.browser(place="10.88.0.2").log_in("ben").status, 303, "and so does another clerk from there")
        self.clock[0] += 31
        self.assertEqual(mine.log_in("anna").status, 303)
        self.assertEqual(self.rows("login").count(("anna", "login", "wrong_word")), 5)

    def test_one_address_does_not_try_all_names(self) -> None:
        result = [self.browser(place="10.88.0.66").log_in(f"name-{i % 10}", "wrong").status for i in range(21)]
        self.assertEqual(result, [401] * 20 + [429])
        self.assertEqual(self.browser(place="10.88.0.66").log_in("ben").status, 429, "none is tried from there")
        self.assertEqual(self.browser(place="10.88.0.3").log_in("ben").status, 303)

    def wrong_words(self, name: str, count: int, place: str = "10.88.1.{}") -> None:
        """So many wrong words of a name, by default each from another address."""
        for i in range(count):
            self.browser(place=place.format(i)).log_in(name, "a-wrong-word")

    def test_a_name_alone_delays_and_refuses_nobody(self) -> None:
        self.wrong_words("anna", 10)
        self.assertEqual(self.slept, [1, 2, 4, 8, 10])
        self.wrong_words("anna", 40, "10.88.2.{}")
        self.assertEqual(self.browser(place="10.88.0.3").log_in("anna").status, 303)
        self.assertEqual(self.slept[5:], [10] * 41, "ten seconds at most, and the right word waits as a wrong one does")
        self.wrong_words("nobody", 6)
        self.assertEqual(self.slept[46:], [1], "whether there is such a name is not to be seen")
        self.clock[0] += 3600
        self.browser(place="10.88.0.4").log_in("anna")
        self.assertEqual(len(self.slept), 47, "it is forgotten")

    def test_who_waits_leaves_room_for_others(self) -> None:
        """Words that wait take half of the page's threads at most; the next one does not wait."""
        self.wrong_words("anna", 6)
        waiting, goes_on = threading.Semaphore(0), threading.Event()
        self.addCleanup(goes_on.set)

        def sleep(seconds: float) -> None:
            waiting.release()
            goes_on.wait(60)

        self.logins.guesses.sleep = sleep
        jobs = [threading.Thread(target=self.logins.account, args=(Asker("anna", f"10.88.3.{i}"), "wrong")) for i in range(4)]
        for job in jobs:
            job.start()
            self.assertTrue(waiting.acquire(timeout=30))
        last = threading.Thread(target=self.logins.account, args=(Asker("anna", "10.88.0.3"), WORDS["anna"]))
        last.start()
        last.join(30)
        self.assertFalse(last.is_alive(), "a fifth one does not wait")
        goes_on.set()
        for job in jobs:
            job.join()

    def test_a_browser_that_was_logged_in_before_has_a_count_of_its_own(self) -> None:
        browser = self.browser("anna")
        number, mark = browser.known.partition("=")[2].split(".")
        self.assertEqual(set(browser.cookies[1].split("; ")[1:]) - {"Max-Age=34560000"} - {line for line in browser.cookies[1].split("; ") if "Expires" in line},
                         {"Secure", "HttpOnly", "SameSite=Strict", "Path=/"})
        browser.post("/logout")
        self.wrong_words("anna", 10)
        self.wrong_words("anna", 6, "10.88.0.2")
        for place in ("10.88.0.2", "10.88.0.77"):
            browser.place = place
            slept = len(self.slept)
            self.assertEqual((browser.log_in("anna").status, len(self.slept)), (303, slept), "others' tries neither refuse nor delay")
            browser.post("/logout")
        self.assertTrue(browser.known.partition("=")[2].startswith(number), "it keeps its number")
        forged = self.browser()
        for known in (f"{number}.{'0' * 32}", f"{'0' * 32}.{mark}", number, mark, "", "."):
            forged.known = f"__Host-browser={known}"
            self.assertEqual(forged.log_in("anna").status, 429, known)
        result = [browser.log_in("anna", f"wrong-{i}").status for i in range(6)]
        self.assertEqual(result, [401] * 5 + [429], "its own wrong words count")
        self.assertEqual(self.browser(place="10.88.0.3").log_in("anna").status, 303, "there alone")

    def test_a_log_in_of_ones_own_gives_no_more_tries_of_others(self) -> None:
        browser = self.browser()
        result = []
        for i in range(4):
            browser.known = ""      # so that it gets another number
            browser.log_in("ben")
            browser.post("/logout")
            result += [browser.log_in("anna", f"wrong-{i}-{j}").status for j in range(2)]
        self.assertEqual(result, [401] * 5 + [429] * 3)

    def test_a_browser_is_known_after_a_restart(self) -> None:
        browser = self.browser("anna")
        cookie = browser.known.partition("=")[2]
        number = cookie.partition(".")[0]
        self.assertEqual(logins_in(self.folder).browsers.number(cookie, "anna"), number)
        self.assertEqual(logins_in(self.folder).browsers.number(cookie, "ben"), "")
        for i in range(20):
            cookie = self.logins.browsers.cookie(cookie, f"name-{i}")
        self.assertEqual((len(cookie.split(".")), cookie.partition(".")[0]), (17, number), "of sixteen names, the last ones")
        self.assertEqual([self.logins.browsers.number(cookie, name) != "" for name in ("name-19", "name-4", "name-3")], [True, True, False])

    def test_words_are_tried_one_at_a_time(self) -> None:
        """So that many at once are no way around the limit."""
        seen: list[bool] = []

        def fits(word: str, hashed: str) -> bool:
            seen.append(self.logins.guesses.turn.locked())
            return False

        with mock.patch("portal_field.lib.passwords.fits", fits):
            for name in ("anna", "nobody"):
                self.browser().log_in(name, "a-wrong-word")
        self.assertEqual(seen, [True, True])

    def test_what_was_typed_as_it_is_belongs_to_a_password(self) -> None:
        put_accounts(self.folder, Account("eva", "clerk", quick_hash(" blanks at its ends ")))
        self.assertEqual(self.browser().log_in("eva", " blanks at its ends ").status, 303)
        self.assertEqual(self.browser(place="10.88.0.3").log_in("eva", "blanks at its ends").status, 401)

    def test_a_file_without_accounts_or_with_a_mistake_says_so(self) -> None:
        self.browser().ask("/login")
        (self.folder / FILE).write_text("[[clerk]]\nname = 'anna'\n")
        answer = self.browser().ask("/login")
        self.assertNotIn("Nobody can log in", answer.told, "what it said before counts")
        self.logins.accounts.known.clear()
        answer = self.browser().ask("/login")
        for words in ("Nobody can log in", "each [[clerk]] has name, role and password", "portal-setup --clerk NAME"):
            self.assertIn(words, answer.told)

    def test_the_hashes_of_an_earlier_version_are_good(self) -> None:
        made = subprocess.run(["openssl", "passwd", "-6", "short"], check=True, capture_output=True, text=True).stdout.strip()
        put_accounts(self.folder, Account("of-before", "manager", made))
        self.assertEqual(self.browser().log_in("of-before", "short").status, 303)


class LogOut(AtEntrance):
    def test_after_a_log_out_the_old_cookie_does_nothing(self) -> None:
        code, = self.desk.issue_codes("hour", "b1")
        browser = self.browser("anna")
        cookie, token = browser.cookie, browser.token
        answer = browser.post("/logout")
        self.assertEqual((answer.status, answer.told.strip(), browser.cookie), (200, "You are logged out.", ""))
        self.assertNotIn("You are anna", answer.text)
        browser.cookie = cookie
        self.assertEqual(browser.ask("/").place, "/login")
        self.assertEqual(browser.send("/sell", {"code": code, "request": "s1", "token": token}).status, 403)
        self.assertFalse(self.sold(code))
        self.assertEqual(self.rows("login", "logout"), [("anna", "login", "done"), ("anna", "logout", "done")])

    def test_a_log_in_ends_with_its_time_its_account_its_password_and_its_role(self) -> None:
        accounts = put_accounts(self.folder)
        anna = accounts["anna"]
        changes: list[Any] = [
            lambda: self.clock.__setitem__(0, self.clock[0] + 16 * 3600), lambda: self.clock.__setitem__(0, self.clock[0] - 3600),
            lambda: (self.folder / FILE).write_text(Accounts(ben=accounts["ben"]).text),
            lambda: put_accounts(self.folder, Account("anna", "manager", quick_hash("another-word"))),
            lambda: put_accounts(self.folder, Account("anna", "clerk", anna.password))]
        for i, change in enumerate(changes):
            put_accounts(self.folder)
            browser = self.browser("anna")
            self.assertEqual(browser.ask("/account").status, 200, i)
            change()
            self.assertRegex(browser.ask("/account").place, "/login", i)
        put_accounts(self.folder)
        self.assertRegex(browser.ask("/").place, "/login", "nor does it come back")

    def test_two_requests_at_the_start_of_the_page_end_no_log_in(self) -> None:
        number, read, begun = self.browser("anna").cookie.partition("=")[2], Accounts.read, threading.Event()

        def slowly(text: str) -> Accounts:
            begun.set()
            time.sleep(0.2)
            return read(text)

        started_anew = logins_in(self.folder)
        started_anew.now = self.logins.now
        with mock.patch.object(Accounts, "read", slowly):
            first = threading.Thread(target=started_anew.of_cookie, args=(number,))
            first.start()
            self.assertTrue(begun.wait(10))
            second = started_anew.of_cookie(number)
            first.join()
        self.assertEqual((second and second.name, started_anew.of_cookie(number) is None), ("anna", False))

    def test_a_clock_that_goes_back_a_little_ends_nothing(self) -> None:
        browser = self.browser("anna")
        self.clock[0] -= 50
        self.assertEqual(browser.ask("/").status, 200)

    def test_whoever_logs_in_at_a_browser_ends_the_log_in_before(self) -> None:
        browser = self.browser("anna")
        before = browser.cookie
        browser.log_in("ben")
        self.assertIn("You are ben.", browser.ask("/").text)
        browser.cookie = before
        self.assertEqual(browser.ask("/").place, "/login")


class Lock(AtEntrance):
    def test_a_log_in_that_is_not_used_is_locked_and_takes_the_pin(self) -> None:
        browser = self.browser("ben")
        self.clock[0] += 599
        self.assertEqual(browser.ask("/").status, 200)
        self.clock[0] += 601
        self.assertEqual(browser.ask("/vouchers").place, "/lock?to=%2Fvouchers")
        page = browser.ask("/lock?to=%2Fvouchers")
        self.assertIn("PIN or password of ben", page.text)
        self.assertNotIn("You are ben", page.text)
        answer = browser.send("/unlock", {**page.form("unlock"), "pin": "1111"})
        self.assertEqual((answer.status, answer.told.strip()), (401, "This PIN or password is wrong."))
        answer = browser.send("/unlock", {**answer.form("unlock"), "pin": "2468"})
        self.assertEqual((answer.status, answer.place), (303, "/vouchers"))
        self.assertEqual(browser.ask("/vouchers").status, 200)
        self.assertEqual(self.rows("unlock"), [("ben", "unlock", "wrong_word"), ("ben", "unlock", "done")])

    def test_after_a_lock_the_old_cookie_does_nothing(self) -> None:
        """A browser that sees the cookie change keeps no page of before."""
        code, = self.desk.issue_codes("hour", "b1")
        for is_pressed in (True, False):
            browser = self.browser("ben")
            old = browser.cookie
            if is_pressed:
                browser.post("/lock")
            else:
                self.clock[0] += 601
            browser.ask("/")
            self.assertNotEqual(browser.cookie, old)
            new, browser.cookie = browser.cookie, old
            for path in ("/unlock", "/sell", "/logout"):
                self.assertEqual(browser.post(path, pin="2468", code=code, request="s1").status, 403)
            self.assertEqual(browser.ask("/").place, "/login")
            browser.cookie = new
            self.assertEqual(browser.post("/unlock", pin="2468").status, 303)
        self.assertFalse(self.sold(code))

    def test_a_press_locks_at_once_and_the_password_takes_it_off_too(self) -> None:
        browser = self.browser("anna")
        self.assertEqual(browser.post("/lock").place, "/lock")
        page = browser.ask("/lock")
        self.assertIn("Password of anna", page.text, "who has no PIN types the password")
        self.assertEqual(browser.send("/unlock", {**page.form("unlock"), "pin": WORDS["anna"]}).status, 303)
        self.assertEqual(browser.ask("/").status, 200)

    def test_while_it_is_locked_nothing_is_done_and_what_was_typed_is_kept(self) -> None:
        code, = self.desk.issue_codes("hour", "b1")
        browser = self.browser("ben")
        self.clock[0] += 3600
        for path in ("/sell", "/now", "/refund", "/time", "/voucher"):
            self.assertEqual(browser.post(path, code=code, request="s1").status, 403, path)
        for path in ("/voucher?look=1", "/sheet?batch=b1", "/logo", "/shown?request=1", "/account"):
            self.assertRegex(browser.ask(path).place, "/lock", path)
        page = browser.post("/sell", code=code, request="s1", next="")
        self.assertIn("The counter is locked. Nothing was done.", page.told)
        page = browser.send("/unlock", {**page.form("unlock"), "pin": "2468"})
        self.assertEqual((page.status, self.sold(code)), (200, False), "after the PIN a press sends it")
        form = page.form("sell")
        self.assertEqual({key: form[key] for key in ("code", "request")}, {"code": code, "request": "s1"})
        self.assertIn("Take 3.00", browser.send("/sell", form).text)

    def test_a_locked_log_in_with_too_many_wrong_pins_ends(self) -> None:
        browser = self.browser("ben")
        browser.post("/lock")
        cookie = browser.cookie
        statuses = [browser.post("/unlock", pin=f"{i}{i}{i}{i}").status for i in range(5)]
        self.assertEqual(statuses, [401] * 4 + [429])
        browser.cookie = cookie
        self.assertEqual(browser.post("/unlock", pin="2468").status, 403)
        self.assertEqual(browser.ask("/").place, "/login", "the PIN does not help any more")
        self.assertEqual(browser.log_in("ben").status, 429)

    def test_what_others_try_ends_no_log_in_and_hinders_no_unlock(self) -> None:
        browser = self.browser("ben")
        browser.known = ""      # as one that logged in with a version before
        browser.post("/lock")
        for place in ("10.88.0.2", "10.88.0.66", "10.88.0.67"):
            for i in range(25):
                self.browser(place=place).log_in("ben", f"wrong-{i}")
        self.assertEqual(self.browser(place="10.88.0.66").log_in("ben").status, 429)
        slept = len(self.slept)
        self.assertEqual((browser.post("/unlock", pin="1111").status, browser.post("/unlock", pin="2468").status), (401, 303))
        self.assertEqual(browser.ask("/").status, 200)
        self.assertEqual(len(self.slept), slept, "nor do they delay it")

    def test_a_lock_at_a_press_gives_no_more_tries(self) -> None:
        browser = self.browser("ben")
        result = []
        for i in range(5):
            browser.post("/lock")
            result.append(browser.post("/unlock", pin=f"{i}{i}{i}{i}").status)
        self.assertEqual(result, [401] * 4 + [429])

    def test_a_page_that_nobody_looks_after_locks_itself(self) -> None:
        browser = self.browser("ben")
        page = browser.ask("/vouchers?x=1")
        self.assertEqual(page.head["Refresh"], "601; url=/lock?to=%2Fvouchers%3Fx%3D1")
        self.assertEqual(browser.ask("/lock").status, 204, "in another window it was used: the page stays")
        self.clock[0] += 601
        self.assertEqual(browser.ask("/lock?to=%2Fvouchers").status, 200)

    def test_somebody_else_logs_the_other_out(self) -> None:
        browser = self.browser("ben")
        browser.post("/lock")
        page = browser.ask("/lock")
        self.assertEqual(browser.send("/logout", page.form("logout")).status, 200)
        self.assertEqual(browser.ask("/").place, "/login")


class NoLock(AtEntrance):
    MINUTES = 0

    def test_a_venue_may_have_no_lock(self) -> None:
        browser = self.browser("ben")
        self.clock[0] += 15 * 3600
        page = browser.ask("/")
        self.assertEqual((page.status, page.head["Refresh"]), (200, None))


class Tokens(AtEntrance):
    def test_each_form_has_the_token_of_the_log_in(self) -> None:
        code, = self.desk.issue_codes("hour", "b1")
        sold, = self.desk.sell_codes("hour", "b2")
        browser = self.browser("anna")
        looks = [browser.send("/voucher", {"code": each, "token": browser.token}).place for each in (code, sold)]
        paths = ["/", "/vouchers", "/sessions", "/money", "/venue", "/scanner", "/account", *looks, looks[1].replace("voucher", "refund"),
                 "/sell-batch?batch=b1", "/refund-batch?batch=b2", "/lost?batch=b1", "/batch?batch=b1"]
        token = f'<input type="hidden" name="token" value="{browser.token}">'
        found = 0
        for path in paths:
            page = browser.ask(path)
            self.assertEqual(page.status, 200, path)
            forms = re.findall(r'<form[^>]*method="post"[^>]*>(.*?)</form>', page.text, re.S)
            found += len(forms)
            for form in forms:
                self.assertTrue(form.startswith(token), (path, form[:120]))
            self.assertEqual(page.text.count(token), len(forms), "and no form that is sent by GET has it")
        self.assertGreater(found, 30)
        paths = [f"/{name}" for name in sorted(roles.FOR_ALL | roles.FOR_CLERKS | roles.FOR_MANAGERS) if "." not in name]
        with mock.patch.object(self.counter.desk, "request_json", self.finds(code, sold)):
            texts = [browser.ask(path).text for path in (*paths, browser.send("/voucher", {"code": code[:6], "token": browser.token}).place)]
        self.assertIn("Codes that begin with", texts[-1])
        for path, text in zip((*paths, "codes"), texts):
            for form in re.findall(r'<form[^>]*method="post"[^>]*>', text):
                self.assertIn(form + token, text, path)
        self.assertGreater(sum(text.count(token) for text in texts), 100)

    def finds(self, *codes: str) -> Any:
        """Questions to the server, of which one for the first characters finds these codes."""
        request_json, found = self.counter.desk.request_json, [self.desk.voucher(code) for code in codes]

        def answer(route: Any, *part: str, **more: Any) -> Any:
            return {"vouchers": found, "more": False} if route is Routes.VOUCHERS else request_json(route, *part, **more)

        return answer

    def test_a_form_without_it_or_of_another_log_in_does_nothing_until_it_is_pressed(self) -> None:
        code, = self.desk.issue_codes("hour", "b1")
        browser, other = self.browser("anna"), self.browser("anna", "10.88.0.3")
        self.assertNotEqual(browser.token, other.token)
        tokens: list[dict[str, str]] = [{}, {"token": ""}, {"token": other.token}, {"token": browser.token[:-1]}]
        for form in tokens:
            page = browser.send("/sell", {"code": code, "request": "s1", **form})
            self.assertEqual((page.status, self.sold(code)), (403, False), form)
            self.assertIn("Nothing was done.", page.told)
        self.assertIn("Take 3.00", browser.send("/sell", page.form("sell")).text)
        for path in ("/logout", "/lock"):
            self.assertEqual(browser.send(path, {"token": other.token}).status, 403)
        self.assertEqual(browser.ask("/").status, 200)

    def test_another_sites_form_does_nothing_whoever_is_logged_in(self) -> None:
        code, = self.desk.issue_codes("hour", "b1")
        for name in ("", "anna"):
            browser = self.browser(name)
            for path in ("/sell", "/login", "/logout", "/lock", "/unlock", "/pin", "/password"):
                for origin in ("https://evil.example", "null", "https://counter.example:444"):
                    answer = browser.send(path, {"code": code, "request": "s1", "name": "ben", "password": WORDS["ben"],
                                                 "token": browser.token}, Origin=origin)
                    self.assertEqual(answer.status, 403, (name, path, origin))
                    self.assertNotIn(code, answer.text)
        self.assertIn("You are anna", browser.ask("/").text)
        self.assertFalse(self.sold(code))

    def test_nobody_says_by_a_header_who_asks(self) -> None:
        head = {"X-User": "anna", "X-Role": "manager", "X-Clerk": "anna"}
        browser = self.browser()
        self.assertEqual(browser.send("/", None, **head).place, "/login")
        ben = self.browser("ben")
        page = ben.send("/", None, **head)
        self.assertIn("You are ben.", page.text)
        self.assertEqual((page.head["X-Clerk"], ben.send("/cash-up", None, **head).status), ("ben", 403))

    def test_the_token_is_in_no_log_and_on_no_page_as_a_field(self) -> None:
        browser = self.browser("anna")
        self.relay.drops = True
        page = browser.post("/sell", code="2222", request="s1")
        self.assertEqual(page.text.count(browser.token), len(re.findall('method="post"', page.text)))
        self.assertNotIn(browser.token, self.log.getvalue())


class Roles(AtEntrance):
    def test_each_page_is_for_clerks_or_for_managers(self) -> None:
        names = {rule.rule.strip("/") for rule in self.app.url_map.iter_rules()} - {"login"}
        self.assertEqual(names, roles.FOR_ALL | roles.FOR_CLERKS | roles.FOR_MANAGERS | roles.FOR_OFFICE)
        self.assertFalse((roles.FOR_ALL | roles.FOR_CLERKS) & (roles.FOR_MANAGERS | roles.FOR_OFFICE))
        self.assertFalse(roles.FOR_MANAGERS & roles.FOR_OFFICE)
        self.assertFalse(roles.is_for("clerk", "a-new-page"), "one that is in no table is a manager's")

    def test_what_a_clerk_may_not_do_is_said_and_not_done(self) -> None:
        browser, boss = self.browser("ben"), self.browser("anna", "10.88.0.3")
        for name in sorted(roles.FOR_MANAGERS):
            form = {"token": browser.token, "batch": "b1", "plan": "hour", "count": "1", "request": "i1", "reason": "x", "session": "1"}
            answers: list[Answer] = [browser.ask(f"/{name}?batch=b1")]
            answers += [browser.send(f"/{name}", form)]
            seen = {answer.status for answer in answers} - {404}
            self.assertEqual(seen, {403}, name)
            for answer in answers:
                if answer.status == 403:
                    self.assertIn("Only a manager may do this.", answer.told)
                    self.assertIn("Managers: anna.", answer.told)
        self.assertEqual(self.desk.desk.request_json(Routes.BATCH_LIST)["batches"], [])
        for name in ("", "vouchers", "sessions", "venue", "scanner", "batches", "account"):
            self.assertEqual((browser.ask(f"/{name}").status, boss.ask(f"/{name}").status), (200, 200), name)
        self.assertEqual(boss.ask("/cash-up").status, 200)

    def test_a_clerk_sells_and_refunds_up_to_the_limit(self) -> None:
        self.conf["clerk_refund_limit"] = 400
        cheap, dear = self.desk.sell_codes("hour", "b1")[0], self.desk.sell_codes("gigabyte", "b2")[0]
        new, = self.desk.issue_codes("day", "b3")
        browser = self.browser("ben")
        self.assertIn("Take 9.00", browser.post("/sell", code=new, request="s1").text)
        self.assertIn("Give back 3.00", browser.post("/refund", code=cheap, amount="300", request="r1").text)
        for amount in ("500", ""):
            page = browser.post("/refund", code=dear, request="r2", **({"amount": amount} if amount else {}))
            self.assertIn("Nothing was refunded.", page.told)
            self.assertIn("A clerk refunds up to 4.00. Ask a manager.", html.unescape(page.text))
        self.assertIsNone(self.desk.voucher(dear)["refund"])
        place = browser.post("/voucher", code=dear).place.replace("voucher", "refund")
        page = browser.ask(place)
        self.assertNotIn('action="/refund"', page.text)
        self.assertIn("Ask a manager", page.text)
        self.assertIn("Give back 5.00", self.browser("anna", "10.88.0.3").post("/refund", code=dear, amount="500", request="r3").text)
        again = browser.post("/refund", code=cheap, amount="300", request="r1")
        self.assertIn("It is not a new one. Give nothing back.", again.told, "a form sent again says what it did")

    def test_pages_say_what_a_clerk_does_not_see(self) -> None:
        self.desk.issue_codes("hour", "b1")
        self.browser("anna").post("/issue", batch="b7", plan="hour", count="2", request="i1")
        ben, anna = self.browser("ben"), self.browser("anna", "10.88.0.3")
        page, other = ben.ask("/vouchers").text, anna.ask("/vouchers").text
        for words in ('action="/issue"', 'formaction="/refund-batch"', 'formaction="/lost"'):
            self.assertEqual((words in page, words in other), (False, True), words)
        self.assertIn("A manager issues batches.", page)
        page, other = ben.ask("/batch?batch=b7").text, anna.ask("/batch?batch=b7").text
        for words in ('formaction="/refund-batch"', 'formaction="/lost"'):
            self.assertEqual((words in page, words in other), (False, True), words)
        self.assertEqual(page.count('<button name="code"'), 2, "a clerk may look")
        self.assertNotIn("A manager issues batches.", other)


class Kept(AtEntrance):
    def test_a_form_that_came_after_the_log_in_had_ended_is_kept(self) -> None:
        code, = self.desk.issue_codes("hour", "b1")
        browser = self.browser("anna")
        token = browser.token
        self.clock[0] += 17 * 3600
        page = browser.send("/sell", {"code": code, "request": "s1", "next": "", "token": token})
        self.assertEqual(page.status, 403)
        page = browser.send("/login", {**page.form("login"), "name": "ben", "password": WORDS["ben"]})
        self.assertEqual((page.status, self.sold(code)), (200, False))
        self.assertIn("Nothing was done yet.", page.told)
        self.assertIn("Take 3.00", browser.send("/sell", page.form("sell")).text)
        self.assertEqual(self.rows("sell"), [("ben", "sell", "done")])

    def test_log_ins_that_cannot_be_kept_say_so(self) -> None:
        browser = self.browser("anna")
        path = self.folder / "logins.db"
        path.unlink()
        path.mkdir()
        for answer in (browser.ask("/"), self.browser().ask("/login"), self.browser().log_in("anna")):
            if answer.status != 200:
                self.assertEqual(answer.status, 500)
                self.assertIn("The log-ins cannot be read or kept", answer.told)

    def test_a_disk_that_takes_nothing_hinders_no_work(self) -> None:
        browser = self.browser("anna")
        opened = self.logins.opened

        @contextlib.contextmanager
        def takes_nothing() -> Iterator[sqlite3.Connection]:
            with opened() as link:
                link.execute("PRAGMA query_only = 1")
                yield link

        with mock.patch.object(self.logins, "opened", takes_nothing):
            self.clock[0] += 300
            self.assertEqual(browser.ask("/").status, 200)

    def test_the_journal_names_who_is_logged_in(self) -> None:
        code, = self.desk.issue_codes("hour", "b1")
        self.browser("ben", "10.88.0.7").post("/sell", code=code, request="s1")
        self.assertEqual(self.rows("sell"), [("ben", "sell", "done")])
        self.assertIn("counter: ben at 10.88.0.7: sell b1, hour: done", self.log.getvalue())
        page = self.browser("anna").ask("/cash-up?details=1")
        self.assertIn("log-in", page.text)
        self.assertIn('<td data-label="Clerk">ben</td>', page.text)


if __name__ == "__main__":
    unittest.main()
