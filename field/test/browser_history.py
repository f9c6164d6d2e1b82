"""The counter's forms in Chromium's history: Back, Forward, reload, a restored tab and a double click; behind
nginx with TLS where that is installed. Chromium keeps the page of a form and shows it again with the form's
number, whatever `Cache-Control` says."""

from __future__ import annotations

import contextlib
import datetime
import io
import pathlib
import re
import sqlite3
import threading
from collections.abc import Callable, Iterator
from dataclasses import dataclass
from typing import Any

import counter_nginx
import pytest
from at_entrance import WORDS, logins_in, put_accounts
from browser import CAN, Browser, Venue, policy
from desk_process import DeskProcess
from needs import needs
from steady import wait_until

from portal_field.counter import page as counter_page
from portal_field.lib import web

if CAN:
    from browser import By

pytestmark = [pytest.mark.browser, pytest.mark.chromium("ignore-certificate-errors")]
ONE, TAKE, TAKE_NOTHING = "Issue and sell one voucher", "Take €3.00.", "It is not a new one. Take nothing."
NUMBER = "return document.querySelector('form[method=post] input[name=request]').value"
DOUBLE_CLICK = "const button = arguments[0]; button.click(); setTimeout(() => button.click(), 80)"
TARGETS = """
return [...document.querySelectorAll('.answer button, .answer ~ * a')]
  .map(node => getComputedStyle(node).pointerEvents);
"""
# As if the page had come just now.
AS_NEW = """
const box = document.querySelector('.answer');
box.className = '';
box.offsetHeight;
box.className = 'answer';
""" + TARGETS
KIND = "return document.getElementById('told').className.split(' ')[0]"
TRIES = 5       # Chromium does not keep the first page of a new browser


class Late:
    """An application that answers no form before so many forms have come."""

    def __init__(self, app: web.Application) -> None:
        self.app, self.forms, self.awaited = app, 0, 0

    def __call__(self, environ: dict[str, Any], start: Any) -> web.Answer:
        parts = list(self.app(environ, start))
        if environ["REQUEST_METHOD"] == "POST":
            self.forms += 1
            wait_until(lambda: self.forms >= self.awaited, 10)
        return parts


@dataclass
class Case:
    """A form: how its page is reached, its button, what the first answer says, and what each later one
    says."""
    path: Callable[[], str]
    button: str
    first: str
    again: str


class History:
    """The counter in Chromium, behind nginx where that is installed."""

    def __init__(self, browser: Browser, venue: Venue, folder: pathlib.Path) -> None:
        self.browser, self.venue, self.folder, self.batches = browser, venue, folder, 0
        self.stack = contextlib.ExitStack()
        browser.shape(1280)
        put_accounts(folder)
        self.logins = logins_in(folder)
        if counter_nginx.CAN:
            self.app = Late(counter_page.pages(venue.counter, self.logins))
            self.clerks = self.behind_nginx()
            self.log_in("anna")
        else:
            self.app = Late(counter_page.pages(venue.counter))
            self.clerks = venue.serve(self.app, "counter/nginx-counter.conf") + "/"

    def fill_in(self, **fields: str) -> None:
        """Types into fields of the page that is open, by their ids."""
        for name, words in fields.items():
            field = self.browser.driver.find_element(By.ID, name)
            field.clear()
            field.send_keys(words)

    def log_in(self, name: str) -> None:
        """Types a clerk's name and password on the page of the log-in."""
        self.open("login")
        self.fill_in(name=name, password=WORDS[name])
        self.browser.press("Log in")

    def log_out_and_in(self, name: str) -> None:
        """Another clerk takes over."""
        self.open()
        self.browser.press("Log out")
        self.log_in(name)

    def behind_nginx(self) -> str:
        """Its address there."""
        nginx = counter_nginx.CounterNginx(self.folder, policy())
        server = web.server(self.app, nginx.door(), threads=4)
        threading.Thread(target=server.run, daemon=True).start()
        self.venue.servers.append(server)
        nginx.start()
        self.stack.callback(nginx.close)
        return nginx.url

    def open(self, path: str = "") -> None:
        self.browser.open(self.clerks + path)

    def codes(self, count: int = 1, is_sold: bool = False) -> list[str]:
        """Of a new batch, which is the last one."""
        self.batches += 1
        codes = self.venue.desk.sell_codes if is_sold else self.venue.desk.issue_codes
        return codes("hour", f"b{self.batches}", count)

    def batch(self, count: int) -> str:
        self.codes(count)
        return f"b{self.batches}"

    def cases(self) -> list[Case]:
        return [Case(lambda: "", ONE, TAKE, TAKE_NOTHING),
                Case(lambda: f"voucher?{self.venue.look(self.codes()[0])}", "Sell for €3.00", TAKE,
                     TAKE_NOTHING),
                Case(lambda: f"refund?{self.venue.look(self.codes(is_sold=True)[0])}", "Give back €3.00",
                     "Give back €3.00.",
                     "It is not a new one. Give nothing back."),
                Case(lambda: f"sell-batch?batch={self.batch(3)}", "Sell 3 codes for €9.00", "Take €9.00.",
                     TAKE_NOTHING),
                Case(lambda: "vouchers", "Issue", "20 codes", "It is not a new one.")]

    def takings(self) -> tuple[int, int]:
        """What the server sold and refunded from yesterday to tomorrow, in hundredths: a test may run over
        midnight."""
        today, day = datetime.datetime.now(datetime.timezone.utc).date(), datetime.timedelta(days=1)
        days = self.venue.counter.days(str(today - day), str(today + day))
        return sum(it.sales for it in days), sum(it.refunds for it in days)

    def expect(self, kind: str, words: str) -> None:
        """Of the notice of the page that is open: its kind, and what it says."""
        text = self.browser.driver.find_element(By.ID, "told").text
        assert self.browser.ask(KIND) == kind and words in text, (
            f"the page has a notice, {kind}: {words}  [{text}]")

    def send(self, case: Case) -> None:
        """The form of a new page."""
        self.open(case.path())
        self.browser.press(case.button)
        self.expect("good", case.first)

    def go_back(self, case: Case) -> None:
        """The form is sent, and Back shows its page again, with the same number."""
        for _ in range(TRIES):
            self.open(case.path())
            number = self.browser.ask(NUMBER)
            self.browser.press(case.button)
            self.expect("good", case.first)
            self.browser.driver.back()
            if self.browser.ask(NUMBER) == number:
                return
        raise AssertionError("Chromium never showed the old page")

    def type_count(self, words: str) -> None:
        """What is typed in place of what the field has."""
        field = self.browser.driver.find_element(By.ID, "count")
        field.clear()
        field.send_keys(words)


@pytest.fixture
def history(browser: Browser, desk: DeskProcess, tmp_path: pathlib.Path) -> Iterator[History]:
    with contextlib.redirect_stderr(io.StringIO()), contextlib.closing(Venue(desk)) as venue:
        history = History(browser, venue, tmp_path)
        with history.stack:
            yield history


def test_same_button_again(history: History) -> None:
    for case in history.cases():
        history.go_back(case)
        before = history.takings()
        for _ in range(2):
            history.browser.press(case.button)
            history.expect("repetition", case.again)
            history.browser.driver.back()
        assert history.takings() == before, (
            f"Back and the same button again change no takings  [{case.button}]")


def test_forward_and_reload(history: History) -> None:
    """Chromium does not keep the answer to a form: it asks whether to send the form again."""
    for case in history.cases():
        history.go_back(case)
        before = history.takings()
        history.browser.driver.forward()
        assert case.first not in history.browser.text, "Forward shows no answer"
        for _ in range(2):
            history.browser.driver.refresh()
            history.expect("repetition", case.again)
        assert history.takings() == before, "Forward and a reload change no takings"


def test_reload(history: History) -> None:
    for case in history.cases():
        history.send(case)
        before = history.takings()
        history.browser.driver.refresh()
        history.expect("repetition", case.again)
        assert history.takings() == before, "the reload of an answer changes no takings"


def test_restored_tabs(history: History) -> None:
    """One for each form, with the answer to it."""
    browser, tabs = history.browser, {}
    for case in history.cases():
        browser.driver.switch_to.new_window("tab")
        history.send(case)
        tabs[browser.driver.current_url] = case
    before = history.takings()
    browser.start_again()
    for tab in browser.driver.window_handles:
        browser.driver.switch_to.window(tab)
        if browser.driver.current_url in tabs:
            case = tabs.pop(browser.driver.current_url)
            assert case.first not in browser.text, "a restored tab shows no answer"
            browser.driver.refresh()
            history.expect("repetition", case.again)
    assert (tabs, history.takings()) == ({}, before), "each tab is restored, and changes no takings"


def is_shut(history: History) -> bool:
    """Whether the page that is open has nothing of the counter but its log-in."""
    return "Your name" in history.browser.text and not re.search("You are (anna|ben)|Sell|Sessions", history.browser.text)


@needs("nginx", "openssl")
def test_log_out(history: History) -> None:
    """nginx's log says who asks."""
    browser = history.browser
    for path in ("vouchers", ""):
        history.open(path)
        assert "You are anna." in browser.text, "the page names its clerk"
    browser.press("Log out")
    assert "You are logged out." in browser.text and is_shut(history), "a log-out says so, and shows nothing else"
    lines = (history.folder / "counter.log").read_text().splitlines()
    assert any(re.search(r" anna \[.*\] POST /logout 200\Z", line) for line in lines), "the log names who went"
    for path in ("", "batches", "cash-up"):
        history.open(path)
        assert is_shut(history), "after a log-out no page is shown"
    lines = (history.folder / "counter.log").read_text().splitlines()[len(lines):]
    assert lines and all(line.startswith("127.0.0.1 - [") for line in lines), "and nobody is logged in any more"
    history.log_in("ben")
    assert "You are ben." in browser.text and browser.title == "Counter", "another clerk logs in"


@needs("nginx", "openssl")
def test_back_after_log_out(history: History) -> None:
    browser, before = history.browser, history.takings()
    for path in ("", "vouchers", f"voucher?{history.venue.look(history.codes()[0])}"):
        history.open(path)
    browser.press("Log out")
    for _ in range(3):
        browser.driver.back()
        assert wait_until(lambda: is_shut(history), 10), f"Back shows the log-in alone  [{browser.text[:200]}]"
    assert history.takings() == before


@needs("nginx", "openssl")
def test_old_page_after_log_out(history: History) -> None:
    """Another window still shows a page; its button does nothing, and what it was to do can be sent by who is there now."""
    browser, driver = history.browser, history.browser.driver
    old = driver.current_window_handle
    history.open()
    driver.switch_to.new_window("tab")
    history.open()
    browser.press("Log out")
    new = driver.current_window_handle
    driver.switch_to.window(old)
    browser.press(ONE)
    assert "Nobody is logged in here any more. Nothing was done." in browser.text and history.takings() == (0, 0)
    history.fill_in(name="ben", password=WORDS["ben"])
    browser.press("Log in")
    assert "Nothing was done yet." in browser.text and history.takings() == (0, 0), "nor does it after the log-in"
    browser.press("Sell one now")
    assert "Take €3.00" in browser.text and history.takings() == (300, 0), "a press sends it"
    driver.close()
    driver.switch_to.window(new)


@needs("nginx", "openssl")
def test_lock(history: History) -> None:
    browser = history.browser
    history.log_out_and_in("ben")
    history.open("vouchers")
    browser.press("Lock")
    for move in (lambda: None, browser.driver.back, lambda: history.open("sessions")):
        move()
        assert wait_until(lambda: "Locked: ben is logged in" in browser.text, 10), (
            f"no page is shown while it is locked  [{browser.driver.current_url} {browser.text[:80]}]")
        assert "You are ben" not in browser.text
    history.fill_in(pin="1357")
    browser.press("Go on")
    history.expect("bad", "This PIN or password is wrong.")
    history.fill_in(pin="2468")
    browser.press("Go on")
    assert browser.title == "Sessions – Counter" and "You are ben." in browser.text, "the PIN leads to the page asked for"


@needs("nginx", "openssl")
def test_double_click_on_log_in(history: History) -> None:
    browser = history.browser
    history.open()
    browser.press("Log out")
    history.fill_in(name="ben", password=WORDS["ben"])
    page = browser.driver.find_element(By.TAG_NAME, "html")
    history.app.awaited = history.app.forms + 2
    browser.ask(DOUBLE_CLICK, browser.driver.find_element(By.XPATH, "//button[normalize-space()='Log in']"))
    browser.comes(page)
    assert wait_until(lambda: "You are ben." in browser.text, 10), "a double click logs in"
    history.open("vouchers")
    assert "You are ben." in browser.text, "and the log-in goes on"
    with contextlib.closing(sqlite3.connect(history.folder / "logins.db")) as link:
        assert link.execute("SELECT count(*) FROM logins").fetchone() == (1,), "it is one log-in"


def test_addresses(history: History) -> None:
    code, = history.codes()
    browser = history.browser
    history.open()
    addresses = []
    for words in (code, ""):
        browser.type(words)
        browser.enter()
        addresses.append(browser.driver.current_url)
    history.expect("good", TAKE)
    browser.driver.back()
    assert ("Sell for €3.00" in browser.text
            and browser.driver.current_url == addresses[0]), "Back shows the voucher"
    browser.driver.refresh()
    assert "Refund …" in browser.text, "a reload says what holds now"
    browser.press("Refund …")
    addresses.append(browser.driver.current_url)
    assert not any(code in address
                   for address in addresses), "a look-up and a sale leave no code in an address"


def test_double_click(history: History) -> None:
    """The browser shows the second answer alone."""
    browser, app = history.browser, history.app
    for case in history.cases()[:2]:
        history.open(case.path())
        before, app.awaited = history.takings(), app.forms + 2
        page = browser.driver.find_element(By.TAG_NAME, "html")
        button = browser.driver.find_element(By.XPATH, f"//button[normalize-space()='{case.button}']")
        browser.ask(DOUBLE_CLICK, button)
        browser.comes(page)
        assert app.forms == app.awaited, "it was sent twice"
        history.expect("good", case.first)
        assert history.takings() == (before[0] + 300, 0), "a double click is one sale"


def test_second_click(history: History) -> None:
    history.open()
    history.browser.press(ONE)
    history.browser.driver.execute_cdp_cmd("Emulation.setEmulatedMedia", {"features": [
        {"name": "prefers-reduced-motion", "value": "no-preference"}]})
    targets = set(history.browser.ask(AS_NEW))
    assert targets == {"none"}, "a second click does nothing on the page that answers the first"
    assert wait_until(lambda: set(history.browser.ask(TARGETS)) == {"auto"}, 3), "and then what was meant"


def test_next_customer(history: History) -> None:
    code, = history.codes()
    for case in history.cases()[:2]:
        history.send(case)
        history.browser.enter()
        assert history.browser.title == "Counter", "Enter leads from an answer to the next customer"
    history.browser.press(ONE)
    history.browser.type(code)     # a scan
    history.browser.enter()
    assert history.browser.title == f"{code} – Counter", "and so does a scan"


def test_number_of_many_codes(history: History) -> None:
    browser, (code,) = history.browser, history.codes()
    history.open(f"sell-batch?batch={history.batch(25)}")
    browser.type(code + "\n")
    title = f"Sell 25 codes of b{history.batches}: take €75.00 – Counter"
    assert browser.title == title, "a scan does nothing there"
    history.type_count("24")
    browser.enter()
    history.expect("bad", "Nothing was sold.")
    assert history.takings() == (0, 0), "a wrong number sells nothing"
    browser.type("25")
    browser.enter()
    history.expect("good", "Take €75.00.")
    browser.driver.back()
    if "Sell 25 codes" in browser.title:       # it was kept
        history.type_count("25")
        browser.press("Sell 25 codes for €75.00")
        history.expect("repetition", TAKE_NOTHING)
    assert history.takings() == (7500, 0), "the codes are sold once"


def test_new_sale_from_a_repetition(history: History) -> None:
    history.go_back(history.cases()[0])
    before = history.takings()
    history.browser.press(ONE)
    history.browser.press("Sell a new one: hour, €3.00")
    history.expect("good", TAKE)
    assert history.takings() == (before[0] + 300, 0), "a new sale from a repetition is one sale"
