#!/usr/bin/python3
"""A day of a hostel at the counter's page: three clerks at two drawers, two shifts, and what goes wrong meanwhile. Each
clerk takes and gives back the money that the pages say, and nothing else; at the end the drawers, the journal and
the server have to agree.

    hostel_day.py SEED [ACTIONS]

The counter's page and the server are processes of their own: they are killed, answers are lost on their way to
the browser and to the page, forms are sent again as Back and reload do it, and twice as a double click does.
"""

from __future__ import annotations

import contextlib
import datetime
import html
import http.client
import os
import pathlib
import random
import re
import subprocess
import sys
import tempfile
import threading
import time
import urllib.parse
from collections import Counter
from collections.abc import Callable
from dataclasses import dataclass, field

from at_entrance import WORDS, ClerksBrowser, put_accounts, quick_hash
from desk_process import FIELD, DeskProcess, Refused, Relay, Routes
from test_front import UnixLink

from portal_field.counter import takings
from portal_field.counter.journal import Journal
from portal_field.counter.receipts import Receipts, by_payment
from portal_field.counter.shifts import Shifts
from portal_field.settings.accounts import CLERK, Account
from portal_field.settings.venue import toml_lines

DRAWERS, KINDS, FLOAT = ("Front desk", "Bar"), ("cash", "card", "room"), 10_000
PATIENCE = 60.0         # seconds for the counter's page to answer after a start
MOST_TRIES = 60         # of one form
CLEOS_WORD = "cleos-long-word"
TROUBLES = ("", "double", "no page", "cut", "drop", "kill counter", "kill server")
LIKELY = (70, 10, 6, 6, 4, 2, 2)        # of a hundred requests
MONEY = re.compile(r"\b([Tt]ake|[Gg]ive back) ([0-9,]+\.[0-9]{2})\.")


@dataclass
class Browser:
    """A clerk who is logged in at a drawer, and the forms that Back leads to."""
    clerk: str
    drawer: str
    cookie: str = ""        # of the log-in
    token: str = ""         # of its forms
    forms: list[tuple[str, dict[str, str]]] = field(default_factory=list)

    @property
    def head(self) -> dict[str, str]:
        """What nginx and the browser add to a request."""
        cookies = f"{self.cookie}; drawer={urllib.parse.quote(self.drawer)}"
        return {"Host": "counter.example", "Origin": "https://counter.example",
                "X-Real-IP": "10.88.0.2", "Cookie": cookies, "Sec-Fetch-Mode": "navigate"}


class CounterProcess:
    """The counter's page as its unit starts it."""

    def __init__(self, folder: pathlib.Path, desk_port: int) -> None:
        self.folder, self.socket = folder, folder / "socket"
        (folder / "notes").mkdir()
        (folder / "secrets").mkdir()
        (folder / "secrets/desk_token").write_text("desk-token")
        put_accounts(folder, Account("cleo", CLERK, quick_hash(CLEOS_WORD)))
        (folder / "counter.toml").write_text(toml_lines({
            "house": "Hostel", "zone": "UTC0", "desk_port": desk_port, "plans": str(FIELD / "settings/plans.toml"),
            "portal_url": "https://wifi.example/portal", "snapshot": str(folder / "sessions.json"),
            "socket": str(self.socket), "notes": str(folder / "notes"), "payments": list(KINDS), "drawers": list(DRAWERS),
            "accounts": str(folder)}))
        self.start()

    def start(self) -> None:
        """Starts the page, and waits until it answers."""
        changed = {"FIELD_SETTINGS": str(self.folder / "counter.toml"), "CREDENTIALS_DIRECTORY": str(self.folder / "secrets"),
                   "STATE_DIRECTORY": str(self.folder), "PYTHONPATH": str(FIELD)}
        self.job = subprocess.Popen([sys.executable, "-m", "portal_field.counter.page"], env={**os.environ, **changed},
                                    stderr=subprocess.DEVNULL)
        end = time.monotonic() + PATIENCE
        while time.monotonic() < end:
            with contextlib.suppress(OSError, http.client.HTTPException):
                self.ask("GET", "/alive", {"Host": "counter.example"})
                return
            time.sleep(0.02)
        raise TimeoutError("the counter's page does not answer")

    def kill(self) -> None:
        """Ends the page at once."""
        self.job.kill()
        self.job.wait()

    def ask(self, method: str, path: str, head: dict[str, str], form: dict[str, str] | None = None) -> tuple[str, str]:
        """The text of an answer, and where it leads to."""
        with contextlib.closing(UnixLink(self.socket)) as link:
            link.request(method, path, urllib.parse.urlencode(form) if form is not None else None, head)
            answer = link.getresponse()
            return answer.read().decode(), str(answer.headers.get("Location") or "")


def hidden(text: str, action: str) -> dict[str, str]:
    """The hidden fields of the form that acts so."""
    form = text.partition(f'method="post" action="/{action}"')[2].partition("</form>")[0]
    return {name: html.unescape(value) for name, value in re.findall(r'<input type="hidden" name="([^"]*)" value="([^"]*)">', form)}


class HostelDay:
    """One day, by the seed of what happens in it."""

    def __init__(self, seed: int, actions: int, folder: pathlib.Path) -> None:
        self.draw, self.actions = random.Random(seed), actions
        self.desk = DeskProcess(folder / "book.db")
        self.desk.__enter__()
        self.relay = Relay(self.desk.port)
        self.counter = CounterProcess(folder, self.relay.port)
        self.manager, *_ = self.browsers = [
            self.logged_in("anna", DRAWERS[0]), self.logged_in("ben", DRAWERS[0]), self.logged_in("cleo", DRAWERS[1])]
        self.cash = dict.fromkeys(DRAWERS, 0)           # what is in each drawer, in hundredths
        self.taken: Counter[str] = Counter()            # by kind of payment, without what was refunded
        self.told: set[str] = set()                     # the forms of which a page said what money to take
        self.unsold: list[str] = []
        self.sold: list[str] = []
        self.happened: Counter[str] = Counter()
        self.ahead: list[str] = []                      # the troubles that come next, the last one first
        self.journal, self.batches, self.devices = Journal(folder / "journal.db"), 0, 0

    def close(self) -> None:
        """Ends all processes."""
        self.counter.kill()
        self.relay.close()
        self.desk.__exit__()

    # A browser

    def logged_in(self, clerk: str, drawer: str) -> Browser:
        """The browser of a clerk, after the log-in."""
        browser = ClerksBrowser(lambda: UnixLink(self.counter.socket))
        assert browser.log_in(clerk, WORDS.get(clerk, CLEOS_WORD)).status == 303
        return Browser(clerk, drawer, browser.cookie, browser.token)

    def post(self, browser: Browser, action: str, form: dict[str, str], trouble: str) -> str | None:
        """Sends a form while something goes wrong; the page that comes, or None."""
        found: list[tuple[str, str]] = []

        def send() -> None:
            with contextlib.suppress(OSError, http.client.HTTPException):
                found.append(self.counter.ask("POST", f"/{action}", browser.head, form))

        self.relay.cuts, self.relay.drops = trouble == "cut", trouble == "drop"
        jobs = [threading.Thread(target=send) for _ in range(2 if trouble == "double" else 1)]
        for job in jobs:
            job.start()
        if trouble.startswith("kill"):
            time.sleep(self.draw.uniform(0, 0.08))      # wherever it is by then
            self.kill(trouble)
        for job in jobs:
            job.join()
        self.relay.cuts = self.relay.drops = False
        if trouble == "no page" or not found:
            return None
        text, place = found[-1]         # of a double click the last answer alone is shown
        return self.see(browser, place) if place else self.shown(browser, text)

    def kill(self, trouble: str) -> None:
        """Kills the counter's page or the server, and starts it again."""
        if trouble == "kill counter":
            self.counter.kill()
            self.counter.start()
        else:
            self.desk.job.kill()
            self.desk.job.wait()
            self.desk.__enter__()

    def see(self, browser: Browser, path: str) -> str:
        """A page."""
        text, place = self.counter.ask("GET", path, browser.head)
        return self.see(browser, place) if place else self.shown(browser, text)

    def shown(self, browser: Browser, text: str) -> str:
        """A page that the browser shows, with its picture."""
        for number in re.findall(r'<img src="(/shown\?request=[^"]*)"', text):
            self.counter.ask("GET", html.unescape(number), browser.head)
        return text

    def scan(self, browser: Browser, code: str) -> str:
        """The page of a voucher."""
        _, place = self.counter.ask("POST", "/voucher", browser.head, {"code": code, "token": browser.token})
        return self.see(browser, place)

    def next_trouble(self) -> str:
        """What goes wrong with the next request: of a hundred requests each trouble befalls as many as `LIKELY` says."""
        if not self.ahead:
            self.ahead = [trouble for trouble, count in zip(TROUBLES, LIKELY) for _ in range(count)]
            self.draw.shuffle(self.ahead)
        return self.ahead.pop()

    def press(self, browser: Browser, action: str, form: dict[str, str]) -> str:
        """Presses a button, and goes on until a page says what came of it."""
        if "payment" not in form and action not in ("shift-move", "shift-open", "shift-close"):
            form = {**form, "payment": self.draw.choice(KINDS)}
        assert "request" in form, f"there is no form {action}"
        browser.forms.append((action, form))
        for tries in range(MOST_TRIES):
            trouble = self.next_trouble() if tries < 4 else ""
            self.happened[trouble] += 1
            text = self.post(browser, action, form, trouble)
            if text is None:
                continue        # the browser sends the form again
            if "Send it again" in text or 'name="lost"' in text:
                form = {"payment": form.get("payment", "cash"), **hidden(text, action)}
                continue
            self.read(browser, text, form)
            return text
        raise TimeoutError(f"{action} came to no end")

    def read(self, browser: Browser, text: str, form: dict[str, str]) -> None:
        """Takes or gives back the money that the page says, and notes that it said so."""
        if "payment" not in form:
            return      # of the drawer: its page says no money
        told = re.search(r'<p id="told" class="(\w+) screen"[^>]*>(.*?)</p>', text, re.S)
        if not told or told[1] == "bad":
            return
        said = MONEY.search(html.unescape(re.sub("<br>", " ", re.sub("<img[^>]*>", "", told[2]))))
        if told[1] == "repetition":
            said = MONEY.search(html.unescape(text.partition('<div id="page"')[2]))
        if form["request"] in self.told:
            assert told[1] == "repetition", f"a page says once more what money to take: {told[2]}"
            return
        self.told.add(form["request"])
        if said:
            amount = int(said[2].replace(",", "").replace(".", "")) * (1 if said[1].lower() == "take" else -1)
            self.taken[form["payment"]] += amount
            self.cash[browser.drawer] += amount * (form["payment"] == "cash")

    # What a clerk does

    def sell_now(self, browser: Browser) -> None:
        """A voucher of a plan, issued and sold at once."""
        form = hidden(self.see(browser, "/"), "now")
        text = self.press(browser, "now", {**form, "plan": self.draw.choice(("hour", "day", "gigabyte"))})
        self.sold += re.findall(r"Sold: ([0-9A-Z-]{19})\.", text)

    def codes(self, count: int) -> list[str]:
        """Printed codes that nobody sold yet."""
        if len(self.unsold) < count:
            self.batches += 1
            self.unsold += self.desk.issue_codes(self.draw.choice(("hour", "day", "gigabyte")), f"printed-{self.batches}", 30)
        return [self.unsold.pop(self.draw.randrange(len(self.unsold))) for _ in range(count)]

    def sell_one(self, browser: Browser) -> None:
        """A printed voucher: a scan and one key."""
        code, = self.codes(1)
        self.press(browser, "sell", hidden(self.scan(browser, code), "sell"))
        self.sold.append(code)

    def sell_several(self, browser: Browser) -> None:
        """Several scans and one key."""
        first, *more = codes = self.codes(self.draw.randint(2, 5))
        text, action = self.scan(browser, first), "sell"
        for code in more:
            _, place = self.counter.ask("POST", f"/{action}", browser.head, {**hidden(text, action), "next": code})
            text, action = self.see(browser, place), "sell-several"
        self.press(browser, "sell-several", hidden(text, "sell-several"))
        self.sold += codes

    def sell_batch(self, browser: Browser) -> None:
        """All codes of a batch; the manager may refund those that are not used."""
        self.batches += 1
        codes = self.desk.issue_codes("hour", f"whole-{self.batches}", 4)
        form = hidden(self.see(browser, f"/sell-batch?batch=whole-{self.batches}"), "sell-batch")
        self.press(browser, "sell-batch", form)
        if browser is self.manager and self.draw.random() < 0.5:
            form = hidden(self.see(browser, f"/refund-batch?batch=whole-{self.batches}"), "refund-batch")
            self.press(browser, "refund-batch", form)
        else:
            self.sold += codes

    def refund(self, browser: Browser) -> None:
        """A voucher that was sold, now and then with a use that was redeemed."""
        if not self.sold:
            return
        code = self.sold.pop(self.draw.randrange(len(self.sold)))
        if self.draw.random() < 0.3:
            self.devices += 1
            device = f"02:00:00:00:{self.devices // 256:02x}:{self.devices % 256:02x}"
            with contextlib.suppress(Refused):      # another clerk refunded it, or all is used
                self.desk.desk.request_json(Routes.REDEEM, body={"code": code}, device=device)
        text = self.scan(browser, code)
        look = re.findall(r'name="refunds" value="([^"]*)"', text)
        if look:
            self.press(browser, "refund", hidden(self.see(browser, f"/refund?look={look[0]}"), "refund"))

    def back(self, browser: Browser) -> None:
        """Back to the page of an earlier form, which is sent again."""
        forms = [(action, form) for action, form in browser.forms if form["request"] in self.told]
        if forms:
            action, form = self.draw.choice(forms)
            text = self.post(browser, action, form, "")
            assert text is not None
            self.read(browser, text, form)

    def race(self, _: Browser) -> None:
        """Two clerks have the same voucher in their hands: one of them takes money."""
        code, = self.codes(1)
        two = self.draw.sample(self.browsers, 2)
        forms = [{**hidden(self.scan(browser, code), "sell"), "payment": "cash"} for browser in two]
        texts: dict[int, str | None] = {}
        jobs = [threading.Thread(target=lambda i=i: texts.update({i: self.post(two[i], "sell", forms[i], "")})) for i in (0, 1)]
        for job in jobs:
            job.start()
        for job in jobs:
            job.join()
        for i in (0, 1):
            self.read(two[i], texts[i] or "", forms[i])
        self.sold.append(code)

    def move(self, browser: Browser) -> None:
        """Money in or out beside the sales."""
        way, amount = self.draw.choice(("in", "out")), self.draw.randrange(1, 500)
        form = hidden(self.see(browser, "/shift"), "shift-move")
        self.press(browser, "shift-move", {**form, "move": way, "amount": f"{amount // 100}.{amount % 100:02}", "reason": "change"})
        self.cash[browser.drawer] += amount if way == "in" else -amount

    def find(self, browser: Browser) -> None:
        """A voucher of which a part of the code is left: by its first signs, or in the list of its batch."""
        if not self.sold:
            return
        code = self.draw.choice(self.sold)
        text = self.scan(browser, code[:6])
        assert code in text, f"{code} is not found: {plain(text)}"
        text = self.see(browser, f"/batch?batch={self.desk.voucher(code)['batch']}")
        assert code in text, f"{code} is not in its batch: {plain(text)}"

    def listed(self) -> list[int]:
        """How many codes were sold and refunded, by the list of batches."""
        place, counts = "/batches", [0, 0]
        while place:
            text = self.see(self.manager, place)
            for number, name in enumerate(("Sold", "Refunded")):
                counts[number] += sum(map(int, re.findall(f'<td data-label="{name}">([0-9]+)</td>', text)))
            place = "".join(re.findall('<a href="([^"]*)">Older batches</a>', text))
        return counts

    # The day

    def open_all(self) -> None:
        """A shift of each drawer is opened with what is in it."""
        for browser in (self.browsers[0], self.browsers[2]):
            self.cash[browser.drawer] = self.cash[browser.drawer] or FLOAT
            amount = self.cash[browser.drawer]
            form = hidden(self.see(browser, "/shift"), "shift-open")
            text = self.press(browser, "shift-open", {**form, "float": f"{amount / 100:.2f}"})
            assert "The shift that is open" in text, text

    def close_all(self) -> None:
        """Each shift is closed with what is in its drawer: nothing is missing there."""
        for browser in (self.browsers[1], self.browsers[2]):
            text = self.see(browser, "/shift")
            shift = re.findall(r'name="shift" value="(\d+)"', text)[0]
            counted = f"{self.cash[browser.drawer] / 100:.2f}"
            text = self.see(browser, f"/shift-close?shift={shift}&counted={counted}")
            assert ">no difference<" in text, f"{browser.drawer}: {counted} counted, {plain(text)}"
            text = self.press(browser, "shift-close", hidden(text, "shift-close"))
            assert ">no difference<" in text and "Closed" in text, plain(text)

    def run(self) -> None:
        """The whole day."""
        first_day = datetime.date.today()
        does: list[Callable[[Browser], None]] = [
            self.sell_now, self.sell_one, self.sell_several, self.sell_batch, self.refund, self.back, self.race, self.move,
            self.find]
        self.open_all()
        for action in range(self.actions):
            if action == self.actions // 2:
                self.close_all()
                self.open_all()
            self.draw.choices(does, (4, 6, 3, 1, 4, 4, 1, 1, 1))[0](self.draw.choice(self.browsers))
        self.close_all()
        self.check(first_day)

    def check(self, first_day: datetime.date) -> None:
        """Drawers, journal and server agree."""
        receipts, last_day = Receipts(self.journal).where("1"), datetime.date.today()
        taken = {one.name: one.net for one in by_payment(receipts)}
        assert taken == {kind: self.taken[kind] for kind in taken}, f"{taken} by the journal, {self.taken} by the pages"
        text = self.desk.desk.request(Routes.TAKINGS, query={"from": str(first_day), "to": str(last_day)}).decode()
        server, sums = takings.added("", takings.days(text)), takings.added("", by_payment(receipts))
        assert server == sums, f"{server} by the server, {sums} by the journal"
        assert self.listed() == [server.sold, server.refunded], f"{self.listed()} by the list of batches, {server} by the server"
        assert [one.name for one in receipts] == [str(place + 1) for place in range(len(receipts))], "a gap"
        shifts = Shifts(self.journal).newest()
        assert [shift.difference for shift in shifts] == [0] * 4, shifts
        assert {shift.opened.drawer: shift.closed.sum for shift in shifts[:2] if shift.closed} == self.cash
        doubts = [self.journal.in_doubt(day) for day in {first_day, last_day}]
        assert not any(doubts), f"{doubts} forms in doubt"


def plain(text: str) -> str:
    """A page without its marks."""
    return html.unescape(re.sub(r"\s+", " ", re.sub("<[^>]*>", " ", text)))


def run_day(seed: int, actions: int = 300) -> HostelDay:
    """A day, and what happened in it."""
    with tempfile.TemporaryDirectory() as folder:
        day = HostelDay(seed, actions, pathlib.Path(folder))
        try:
            day.run()
        finally:
            day.close()
        return day


def main() -> None:
    """Runs the day of a seed."""
    seed, actions = int(sys.argv[1]), int(sys.argv[2]) if len(sys.argv) > 2 else 300
    day = run_day(seed, actions)
    print(f"seed {seed}: all agree; {dict(day.happened)}, {dict(day.taken)}, in the drawers {day.cash}")


if __name__ == "__main__":
    main()
