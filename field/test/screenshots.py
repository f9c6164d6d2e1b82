#!/usr/bin/python3
"""Pictures of the pages as a guest's phone and the counter's screen show them, in light and dark. Needs chromium,
chromium-driver, python3-selenium, fonts-noto-core and fonts-noto-cjk.

    screenshots.py [--demo | --owner | --counter | --office] FOLDER

--owner: the pages of a manager alone. --counter: every page of the counter as a manager sees it, on the narrowest screen and on a wide one, in each
language. --office: the page of all venues alone, in the same way. --demo: one picture alone, of the counter's page of the demo while a guest is
online. Needs root, as the demo does.
"""

from __future__ import annotations

import argparse
import contextlib
import datetime
import io
import pathlib
import re
from collections.abc import Callable
from unittest import mock

from at_entrance import WORDS, put_accounts, quick_hash
from browser import DARK, LIGHT, MAC, Browser, By, Keys, Venue
from desk_process import FIELD, Routes

from portal_field.counter import office_client
from portal_field.counter.clerk import Acts, Notice
from portal_field.counter.journal import Sums
from portal_field.counter.office_client import Takings, Week
from portal_field.counter.receipt_numbers import Till
from portal_field.lib.desk_client import new_number
from portal_field.lib.forms import Form
from portal_field.settings.accounts import OFFICE, Account

from e2e_demo import opened_by
from owner_venue import OwnersVenue

PHONE, SCREEN = (390, 844), (1280, 860)
NARROW = 320, 640       # the narrowest screen that the pages are for
VENUES = {"north": ("North Hostel", "EUR"), "south": ("South Inn at the Old Mill", "EUR"), "harbour": ("Harbour Café", "EUR"),
          "east": ("East Library", "CZK")}


class Camera:
    def __init__(self, browser: Browser, folder: pathlib.Path, phone: tuple[int, int] = PHONE) -> None:
        self.browser, self.folder, self.phone = browser, folder, phone
        folder.mkdir(parents=True, exist_ok=True)

    def take(self, name: str) -> None:
        """The page that is open, on both screens, in both modes."""
        for kind, size in (("phone", self.phone), ("screen", SCREEN)):
            for scheme in (LIGHT, DARK):
                self.browser.shape(*size, scheme=scheme)
                height = max(size[1], self.browser.ask("return document.documentElement.scrollHeight"))
                self.browser.shape(size[0], height, scheme)
                self.browser.picture(self.folder / f"{name}-{kind}-{scheme}.png")
                print(f"{name}-{kind}-{scheme}", flush=True)


def guests(venue: Venue, camera: Camera, codes: list[str]) -> None:
    browser = camera.browser
    for tag in ("en", "de", "ar", "ja"):
        browser.open(f"{venue.guests}?lang={tag}")
        camera.take(f"guest-{tag}")
    browser.driver.find_element(By.ID, "code").send_keys("2222-2222-2222-2222")
    browser.enter()
    camera.take("guest-refused")
    browser.open(f"{venue.guests}?lang=en")
    browser.driver.find_element(By.ID, "code").send_keys(codes[0])
    browser.enter()
    camera.take("guest-online")
    browser.open(f"{venue.guests}?lang=ar")
    camera.take("guest-ar-online")
    venue.desk.desk.request_json(Routes.CLOSE, body={"session": 1})
    for tag in ("en", "ar"):
        browser.open(f"{venue.guests}?lang={tag}")
        camera.take(f"guest-{tag}-ended")


def sell(venue: Venue, code: str) -> Acts:
    acts = Acts()
    venue.counter.sell(Form(code=code), new_number(), acts)
    return acts


def clerks_work(venue: Venue) -> list[str]:
    """What two clerks did today, with the journal's entries; the codes of a batch that was issued."""
    counter = venue.counter

    def does(clerk: str, act: Callable[[Form, str, Acts], Notice], **fields: str) -> None:
        acts = Acts()
        act(Form(fields), new_number(), acts)
        counter.journal.add(clerk, "10.88.0.2", acts, Till(new_number(), "cash", "", lambda _: 1900))

    does("anna", counter.issue, batch="gigabyte-1", plan="gigabyte", count="16")
    codes = [row["code"] for row in counter.batch(Form(batch="gigabyte-1"))]
    for clerk, code in (("anna", codes[1]), ("ben", codes[2]), ("ben", codes[3])):
        does(clerk, counter.sell, code=code)
    does("ben", counter.sell_one_now, batch="one-1", plan="day")
    does("anna", counter.refund, code=codes[2])
    return codes


def a_month(first: str, last: str) -> list[Sums]:
    """Takings that nobody made, for the picture of the bars."""
    ends = [datetime.date.fromisoformat(day) for day in (first, last)]
    return [Sums(str(ends[0] + datetime.timedelta(i)), 3 + i * 7 % 11, 900 + i * 700 % 3300, i % 5 // 4, i % 5 // 4 * 500)
            for i in range((ends[1] - ends[0]).days + 1)]


def counter(venue: Venue, camera: Camera, codes: list[str]) -> None:
    browser, clerks = camera.browser, venue.clerks
    venue.desk.desk.request_json(Routes.REDEEM, body={"code": codes[1]}, device=MAC)
    fresh = clerks_work(venue)
    for name, page in (("counter", ""), ("vouchers", "vouchers"), ("sessions", "sessions"), ("session", "session?number=1"), ("money", "money"), ("venue", "venue"),
                       ("voucher", f"voucher?{venue.look(fresh[0])}"), ("voucher-used", f"voucher?{venue.look(codes[1])}"), ("counter-refused", f"voucher?{venue.look('2222')}"),
                       ("sheet", "sheet?batch=gigabyte-1"), ("refund", f"refund?{venue.look(codes[2])}"), ("cash-up", "cash-up"),
                       ("batches", "batches"), ("batch", "batch?batch=gigabyte-1"), ("sell-batch", "sell-batch?batch=gigabyte-1"),
                       ("several", f"several?{venue.look(' '.join(fresh[5:9] + codes[1:2]))}"), ("refund-batch", "refund-batch?batch=gigabyte-1"),
                       ("scanner", "scanner"), ("drawer", "shift"), ("receipts", "receipts"), ("receipt", "receipt?number=1")):
        venue.gateway_tells()
        browser.open(clerks + page)
        camera.take(name)
    browser.open(f"{clerks}voucher?{venue.look(fresh[4])}")
    browser.enter()
    camera.take("sold")
    browser.driver.refresh()
    camera.take("repetition")
    with mock.patch.object(venue.counter, "days", a_month):
        browser.open(clerks + "takings?from=2026-01-01&to=2026-01-31")
        camera.take("takings")


def take_the_demo(browser: Browser, folder: pathlib.Path) -> None:
    job, lines = opened_by([str(FIELD / "demo")])
    try:
        text = "".join(lines)
        guests, counter = re.findall(r"https://(\S+)", text)
        browser.driver.execute_cdp_cmd("Security.setIgnoreCertificateErrors", {"ignore": True})
        browser.open(f"https://{guests}")
        browser.driver.find_element(By.ID, "code").send_keys(re.findall(r"[0-9A-Z-]{19}", text)[0])
        browser.enter()
        browser.shape(*SCREEN)
        browser.open(f"https://{counter}")
        for words in ("clerk", "clerk"):
            browser.type(words + Keys.TAB)
        browser.press("Log in")
        browser.shape(SCREEN[0], browser.ask("return document.documentElement.scrollHeight"))
        folder.mkdir(parents=True, exist_ok=True)
        browser.picture(folder / "demo-counter.png")
    finally:
        job.terminate()
        job.wait(20)


def owner(folder: pathlib.Path) -> None:
    """The pages on which a manager changes prices, texts and what else the venue sets."""
    with contextlib.ExitStack() as stack:
        venue, browser = OwnersVenue(), Browser()
        stack.callback(venue.close)
        stack.callback(browser.close)
        stack.enter_context(contextlib.redirect_stderr(io.StringIO()))
        (venue.folder / "texts/terms.md").write_text("# Rules\n\n- Please be quiet.\n- No film is shared.\n")
        (venue.folder / "offers.toml").write_text('[hour]\nname = "One hour"\n[gigabyte]\nname = "Three times a gigabyte"\n'
                                                  '[day]\nname = "A whole day"\n')
        venue.counter.load_plans()
        venue.log_in(browser)
        browser.open(venue.owner + "/vouchers")
        browser.press("Issue")
        camera = Camera(browser, folder)
        for name in ("venue", "plans", "settings", "texts"):
            browser.open(f"{venue.owner}/{name}")
            camera.take(name)
        browser.shape(*SCREEN)
        browser.open(venue.owner + "/plans")
        field = browser.driver.find_element(By.ID, "price1")
        field.clear()
        field.send_keys("3.50")
        browser.enter()
        camera.take("price")
        browser.shape(*SCREEN)
        browser.open(venue.owner + "/text?text=terms")
        browser.press("Look at it before it is saved")
        camera.take("text")


def every_page(folder: pathlib.Path) -> None:
    """Each page of the counter behind its log-in, in each language, on the narrowest screen and on a wide one."""
    for tag in ("en", "de"):
        with contextlib.ExitStack() as stack:
            venue, browser = OwnersVenue(language=tag), Browser()
            stack.callback(venue.close)
            stack.callback(browser.close)
            stack.enter_context(contextlib.redirect_stderr(io.StringIO()))
            camera = Camera(browser, folder / tag, NARROW)
            browser.open(venue.owner + "/login")
            camera.take("login")
            codes = venue.desk.issue_codes("hour", "hour-1", 3)
            for code in codes:
                venue.counter.journal.add("anna", "10.88.0.2", sell(venue, code))
            venue.log_in(browser)
            venue.clerks = venue.owner + "/"
            counter(venue, camera, codes)
            for page in (f"codes?{venue.look(codes[0][:4])}", f"replace?{venue.look(codes[2])}", "lost?batch=gigabyte-1", "close?session=1", "replace-session?session=1",
                         "shift", "account", "clerks", "plans", "plan?plan=hour", "settings", "texts", "text?text=terms",
                         "picture", "nowhere"):
                browser.open(venue.clerks + page)
                camera.take(page.split("?")[0])
            venue.desk.job.kill()
            browser.open(venue.clerks)
            camera.take("silent")
            browser.press({"en": "Lock", "de": "Sperren"}[tag])
            camera.take("lock")


def two_weeks(_: str, monday: datetime.date) -> Week:
    """A view of four venues that nobody filled, with one of each thing that may be wrong."""
    now = int(datetime.datetime.combine(monday, datetime.time(), datetime.UTC).timestamp())
    days = [monday + datetime.timedelta(at) for at in range(-7, 5)]
    takings = [Takings(name, house, currency, day, 3, sum, 0, 0, sum, name == "harbour" and day > monday)
               for place, (name, (house, currency)) in enumerate(VENUES.items(), 1) for at, day in enumerate(days)
               if (sum := (place * 4100 + at * 7919) % 61_000 * (8 if currency == "CZK" else 1))]
    return Week([office_client.Venue(name, house, currency, "one", True, name == "harbour") for name, (house, currency) in VENUES.items()],
                takings, [("harbour", "one", now + 37_000, "it is silent: [Errno 111] Connection refused")],
                [("one", now + 40 * 86400), ("two", now + 3 * 86400)], [("south", monday, now + 90_000, 20_500, 19_750)],
                [("north", now + 180_000, now + 170_000, now + 120_000)])


def office(folder: pathlib.Path) -> None:
    """The page of all venues, in each language of the counter."""
    for tag in ("en", "de"):
        with contextlib.ExitStack() as stack:
            venue, browser = OwnersVenue(language=tag, office="nowhere"), Browser()
            stack.callback(venue.close)
            stack.callback(browser.close)
            stack.enter_context(mock.patch.dict(WORDS, olga="olgas-long-word"))
            stack.enter_context(mock.patch.object(office_client, "week", two_weeks))
            stack.enter_context(contextlib.redirect_stderr(io.StringIO()))
            put_accounts(venue.folder, Account("olga", OFFICE, quick_hash(WORDS["olga"])))
            venue.log_in(browser, "olga")
            browser.open(f"{venue.owner}/office")
            Camera(browser, folder, NARROW).take(f"office-{tag}")


def main() -> None:
    words = argparse.ArgumentParser(description="Pictures of the pages.")
    words.add_argument("--demo", action="store_true", help="the counter's page of the demo alone")
    words.add_argument("--owner", action="store_true", help="the pages of a manager alone")
    words.add_argument("--counter", action="store_true", help="every page of the counter alone")
    words.add_argument("--office", action="store_true", help="the page of all venues alone")
    words.add_argument("folder", type=pathlib.Path)
    args = words.parse_args()
    if args.demo:
        with contextlib.closing(Browser()) as browser:
            take_the_demo(browser, args.folder)
        return
    for wanted, take in ((args.owner, owner), (args.counter, every_page), (args.office, office)):
        if wanted:
            take(args.folder)
            return
    venue, browser = Venue(), Browser()
    try:
        codes = venue.desk.issue_codes("hour", "hour-1", 3)
        for code in codes:
            venue.counter.journal.add("anna", "10.88.0.2", sell(venue, code))
        camera = Camera(browser, args.folder)
        with contextlib.redirect_stderr(io.StringIO()):
            guests(venue, camera, codes)
            counter(venue, camera, codes)
    finally:
        browser.close()
        venue.close()


if __name__ == "__main__":
    main()
