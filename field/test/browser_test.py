"""The pages as headless Chromium renders them: contrast, names, keyboard, narrow screens, and a day at the counter."""

from __future__ import annotations

import contextlib
import io
import itertools
import pathlib
import time
import unittest
from collections.abc import Iterator
from dataclasses import dataclass, field, replace
from typing import Any
from unittest import mock

from at_entrance import WORDS, logins_in, put_accounts
from browser import BROWSER, CAN, DARK, LIGHT, MAC, Browser, Venue
from desk_process import FIELD, Routes
from needs import needs

from portal_field.counter import clerk
from portal_field.counter import page as counter_page
from portal_field.counter.journal import Act
from portal_field.counter.labels import Paper
from portal_field.counter.receipt_numbers import Till
from portal_field.counter.sheet import Sheet, sheet_of, words_of
from portal_field.counter.shifts import Shifts
from portal_field.guests import gifts, left
from portal_field.lib.desk_client import Route, new_number
from portal_field.lib.error_pages import counter_pages
from portal_field.lib.language_names import COUNTER as LANGUAGES_OF_CLERKS
from portal_field.lib.languages import Language
from portal_field.settings.venue import LANGUAGES

if CAN:
    from browser import By, Keys

# Contrast of each text with what is behind it, and of each border and icon that a person needs (WCAG 2.2, 1.4.3, 1.4.11).
CONTRAST = r"""
const shade = text => { const m = text.match(/[\d.]+/g).map(Number); return m.length < 4 ? [...m, 1] : m };
const light = ([r, g, b]) => { const f = [r, g, b].map(x => (x /= 255) <= .04045 ? x / 12.92 : ((x + .055) / 1.055) ** 2.4);
  return .2126 * f[0] + .7152 * f[1] + .0722 * f[2] };
const ratio = (a, b) => { const [x, y] = [light(a), light(b)].sort((p, q) => q - p); return (x + .05) / (y + .05) };
const behind = node => { for (let n = node; n; n = n.parentElement) { const s = shade(getComputedStyle(n).backgroundColor);
  if (s[3] === 1) return s } return [255, 255, 255, 1] };
const seen = node => { const b = node.getBoundingClientRect(); return b.width > 2 && b.height > 2 };
const faults = []; let looked = 0;
const hold = (what, front, back, least) => { looked += 1; const r = ratio(front, back);
  if (r < least) faults.push(`${what}: ${r.toFixed(2)} of ${least}`) };
for (const node of document.querySelectorAll('body *')) {
  if (node.matches('.chart rect')) hold(`bar of ${node.className.baseVal}`, shade(getComputedStyle(node).fill), behind(node.closest('figure')), 3);
  if (!seen(node) || node.closest('svg')) continue;
  const style = getComputedStyle(node);
  if (style.opacity !== '1') faults.push(`${node.tagName}: opacity ${style.opacity}`);
  if ([...node.childNodes].some(n => n.nodeType === 3 && n.data.trim()) || node.matches('input, select'))
    hold(`${node.tagName} ${node.className} ${(node.textContent || node.name).trim().slice(0, 30)}`, shade(style.color), behind(node), 4.5);
  if (node.matches('input:not([type=hidden]), select, button, .good, .bad, .soon, .repetition'))
    hold(`border of ${node.tagName} ${node.className} ${node.name || ''}`, shade(style.borderBlockStartColor), behind(node.parentElement), 3);
  if (node.matches('.good, .bad, .soon, .repetition')) hold('its icon', shade(getComputedStyle(node, '::before').color), behind(node), 3);
  if (node.placeholder) hold('placeholder', shade(getComputedStyle(node, '::placeholder').color), behind(node), 4.5);
}
return [looked, faults];
"""
# What a person with a screen reader needs of the document itself.
STRUCTURE = r"""
const faults = [], all = (query, from) => [...(from || document).querySelectorAll(query)];
if (!document.documentElement.lang || !document.documentElement.dir) faults.push('no language');
if (!document.title) faults.push('no title');
if (all('h1').length !== 1) faults.push('not one h1');
const levels = all('h1, h2, h3, h4, h5, h6').map(node => Number(node.tagName[1]));
levels.forEach((level, at) => { if (level > (levels[at - 1] || 0) + 1) faults.push(`h${level} after h${levels[at - 1]}`) });
if (all('main').length !== 1) faults.push('not one main');
for (const th of all('th')) if (!th.scope) faults.push(`th without scope: ${th.textContent}`);
for (const field of all('input:not([type=hidden]), select'))
  if (!field.labels.length || !field.labels[0].getBoundingClientRect().height) faults.push(`no visible label: ${field.name}`);
for (const node of all('[aria-describedby]'))
  if (!document.getElementById(node.getAttribute('aria-describedby'))) faults.push('described by nothing');
for (const node of all('.bad, .repetition')) if (node.getAttribute('role') !== 'alert') faults.push('an error that is no alert');
for (const field of all('[aria-invalid=true]')) { const why = document.getElementById(field.getAttribute('aria-describedby'));
  if (!why || why.getAttribute('role') !== 'alert' || !why.textContent.trim()) faults.push('an error that says nothing of its field') }
for (const node of all('*')) { const style = getComputedStyle(node);
  if (style.transitionDuration !== '0s' || style.animationName !== 'none' || style.scrollBehavior !== 'auto')
    faults.push(`${node.tagName} moves for who wants no motion`) }
for (const node of all('button, footer nav a, nav a, td a, .desk p a')) { const box = node.getBoundingClientRect();
  if (box.height < 24 || box.width < 24) faults.push(`small target: ${node.textContent} ${box.width} x ${box.height}`) }
if (all('script, [style], [onclick]').length) faults.push('a script or an inline style');
for (const id of new Set(all('[id]').map(n => n.id))) if (all(`[id="${id}"]`).length > 1) faults.push(`two of the id ${id}`);
return faults;
"""
# Text that leaves its voucher or lies over a QR code, and pictures and fonts that did not come.
CUT_OFF = r"""
const faults = [];
const between = (a, x, b) => a - 2 < x && x < b + 2;
const holds = (a, b) => between(a.left, b.left, a.right) && between(a.left, b.right, a.right) &&
  between(a.top, b.top, a.bottom) && between(a.top, b.bottom, a.bottom);
const touch = (a, b) => Math.min(a.right, b.right) - Math.max(a.left, b.left) > 2 &&
  Math.min(a.bottom, b.bottom) - Math.max(a.top, b.top) > 2;
for (const voucher of document.querySelectorAll('.card')) {
  const box = voucher.getBoundingClientRect(), style = getComputedStyle(voucher);
  const edge = side => parseFloat(style['padding' + side]) + parseFloat(style[`border${side}Width`]);
  const place = new DOMRect(box.x + edge('Left'), box.y + edge('Top'), box.width - edge('Left') - edge('Right'),
                            box.height - edge('Top') - edge('Bottom'));
  const codes = [...voucher.querySelectorAll('svg')].map(n => n.getBoundingClientRect());
  const texts = document.createTreeWalker(voucher, NodeFilter.SHOW_TEXT), range = document.createRange();
  while (texts.nextNode()) {
    const text = texts.currentNode, others = text.parentElement.closest('.codes') ? [] : codes;
    range.selectNodeContents(text);
    if (text.data.trim() && parseFloat(getComputedStyle(text.parentElement).fontSize) < 10.66) faults.push('below 8 pt: ' + text.data.trim());
    for (const line of range.getClientRects())
      if (!holds(place, line) || others.some(code => touch(code, line))) faults.push(text.data.trim());
  }
  const modules = [...voucher.querySelectorAll('.qr svg')].map(n => n.getBoundingClientRect().width / n.viewBox.baseVal.width);
  if (!modules.every(wide => wide >= 1.51)) faults.push('modules below 0.4 mm');
  if (!codes.every(code => holds(place, code))) faults.push('a picture');
}
for (const image of document.images) if (!image.naturalWidth) faults.push(image.src);
for (const font of document.fonts)
  if (font.status !== 'loaded') faults.push(`${font.family} ${font.weight}: ${font.status}`);
if (!document.fonts.size) faults.push('no font comes with the page');
return faults.slice(0, 3);
"""
# All text 5 % larger, as another font or another version of the browser may have it.
LARGER = """
const nodes = [...document.querySelectorAll('.vouchers, .vouchers *')];
const sizes = nodes.map(node => parseFloat(getComputedStyle(node).fontSize));
nodes.forEach((node, i) => { node.style.fontSize = `${sizes[i] * 1.05}px` });
"""
# Width, height and margin, in millimetres.
PAPER = {"a4": (210, 297, 8), "letter": (216, 279, 8), "a4-24": (210, 297, 0), "a4-21": (210, 297, 6), "label": (70, 37, 1.5),
         "receipt80": (80, 150, 4), "receipt58": (58, 150, 5)}
LONG = {"house": "Stadtbibliothek am Alten Marktplatz", "wifi": "A name of a network, 32 signs ab",
        "portal_url": "https://wlan.stadtbibliothek.example/portal", "wifi_password": "correct horse",
        "logo": str(FIELD / "docs/pictures/voucher-screen-dark.png")}
LONG_PLAN = b"""
[[plan]]
id = "long"
price = 123450
uses = 3
seconds = 3600
bytes = 1500000000
shelf_days = 180
extend = true
"""
FOCUSABLE = "a[href], button, input:not([type=hidden]), select"
# Fields of a date have more than one stop.
PLACES = f"""
const all = [...document.querySelectorAll('{FOCUSABLE}')], at = all.indexOf(document.activeElement);
const style = getComputedStyle(document.activeElement);
return [at, all.length, parseFloat(style.outlineWidth) >= 2 && style.outlineStyle !== 'none'];
"""
PICTURES = ("image", "img", "SvgRoot", "graphics-document")
USED = ("textbox", "combobox", "button", "link", "spinbutton", "Date")
REFUSED = ("guest, refused", "guest, refused in Japanese", "refused", "wrong number of codes", "amount, wrong", "wrong number", "list and Wi-Fi", "scanner, wrong")
BY_KEYBOARD = ("guest, not online", "guest, has to accept", "guest, refused", "guest, online", "guest, another code", "guest, free minutes", "guest, end asked", "counter", "voucher to sell", "repetition", "refund", "takings", "cash up",
               "list to sell", "unused codes", "scanner", "vouchers", "sessions", "session", "money", "venue", "batches", "batch", "codes", "voucher to refund", "voucher used up",
               "sold", "sold several", "close", "whole batch", "sheet", "drawer", "shift to close", "slip", "receipts", "receipt")
# Text as who needs more room for it sets it (WCAG 2.2, 1.4.12).
SPACED = """
const set = new CSSStyleSheet();
set.replaceSync('* { line-height: 1.5 !important; letter-spacing: .12em !important; word-spacing: .16em !important } p { margin-bottom: 2em !important }');
document.adoptedStyleSheets = [set];
"""
WIDE = """
return Math.max(...[document.scrollingElement, ...document.querySelectorAll('main, section, nav, td, p')]
  .filter(n => !n.closest('.vouchers')).map(n => n.scrollWidth - n.clientWidth))
"""


def browser_has(browser: Browser, query: str) -> bool:
    return bool(browser.ask(f"return document.querySelectorAll('{query}').length"))


@contextlib.contextmanager
def in_each_language(together: int) -> Iterator[None]:
    """The vouchers of a sheet are in one language after the other, or in one pair after the other."""
    turns = list(itertools.combinations(LANGUAGES, together))

    def in_turn(batch: str, listed: list[dict[str, str]], _: object, conf: dict[str, Any], paper: Paper) -> Sheet:
        words = [words_of(listed[0], 3, conf, [Language(tag) for tag in tags], paper) for tags in turns]
        made = sheet_of(batch, listed, words[0], conf, paper)
        return replace(made, vouchers=[replace(voucher, words=some)
                                       for voucher, some in zip(made.vouchers, itertools.cycle(words))])

    with mock.patch.object(clerk, "sheet_of", in_turn):
        yield


@dataclass
class Look:
    """What was found on one page."""
    contrast: dict[str, list[str]] = field(default_factory=dict)    # by scheme
    looked: int = 0
    structure: list[str] = field(default_factory=list)
    names: list[tuple[str, str]] = field(default_factory=list)
    wider: dict[str, int] = field(default_factory=dict)     # by width and size of text: points that a part is too wide
    stops: list[int] | None = None      # of the keyboard, in their order
    places: int = 0                     # that take the focus
    hidden: list[int] = field(default_factory=list)         # stops at which the focus does not show


@needs(*BROWSER)
class Shown(unittest.TestCase):
    browser: Browser

    @classmethod
    def setUpClass(cls) -> None:
        cls.browser = Browser()
        cls.addClassCleanup(cls.browser.close)

    def setUp(self) -> None:
        self.venue = Venue()
        self.addCleanup(self.venue.close)
        self.browser.driver.delete_all_cookies()
        self.enterContext(contextlib.redirect_stderr(io.StringIO()))
        self.enterContext(mock.patch.object(gifts, "LOOK", 60.0))

    def guest(self, lang: str = "en") -> str:
        return f"{self.venue.guests}?lang={lang}"

    def types(self, code: str, lang: str = "en") -> None:
        """A guest types a code."""
        self.browser.open(self.guest(lang) + "&add=1")
        self.browser.driver.find_element(By.ID, "code").send_keys(code)
        self.browser.enter()

    def pages(self) -> list[tuple[str, Any]]:
        """Each page, and how it is reached."""
        desk, browser, clerks = self.venue.desk, self.browser, self.venue.clerks
        sold, = desk.sell_codes("gigabyte", "sold-1")
        fresh = desk.issue_codes("hour", "fresh-1", 3)
        desk.desk.request_json(Routes.REDEEM, body={"code": sold}, device=MAC)
        timed, = desk.sell_codes("hour", "sold-3")
        desk.desk.request_json(Routes.REDEEM, body={"code": timed}, device="02:00:00:00:00:03")
        self.venue.gateway_tells()

        def of(url: str) -> Any:
            return lambda: browser.open(url)

        def device(mac: str | None, then: Any) -> Any:
            def opened() -> None:
                self.venue.device = mac
                then()
            return opened

        def sell() -> None:
            browser.open(f"{clerks}voucher?{self.venue.look(fresh[2])}")
            browser.enter()

        def sell_batch() -> None:
            browser.open(f"{clerks}sell-batch?batch=fresh-2")
            browser.type("24")
            browser.enter()

        def add() -> None:
            browser.open(f"{clerks}several?{self.venue.look(f'{fresh[0]} {sold}')}")
            browser.type("WIFI:T:nopass;S:x;;")
            browser.enter()

        def issue() -> None:
            browser.open(f"{clerks}close?session=x")

        def codes() -> None:
            found = [desk.voucher(code) for code in (*fresh[:2], sold)]
            request_json = self.venue.counter.desk.request_json

            def answer(route: Route, *part: str, **more: Any) -> Any:
                return {"vouchers": found, "more": True} if route is Routes.VOUCHERS else request_json(route, *part, **more)

            with mock.patch.object(self.venue.counter.desk, "request_json", answer):
                browser.open(f"{clerks}codes?{self.venue.look('VF3R')}")

        def scan() -> None:
            browser.open(f"{clerks}scanner")
            browser.type("httpsÖ--test")
            browser.enter()

        desk.issue_codes("hour", "fresh-2", 25)
        desk.sell_codes("hour", "sold-2", 25)
        desk.issue_codes("hour", "abatchofameetingwithalongname-26", 2)
        other, day = "02:00:00:00:00:02", time.strftime("%Y-%m-%d", time.gmtime())
        for act in (Act("issue", new_number(), "done", "abatchofaconferencewithalongname2026", "hour", 2),
                    Act("issue", new_number(), "done", "fresh-1", "hour", 2), Act("sell", new_number() + "-001", "done", "sold-1", "gigabyte", 1, 500)):
            self.venue.counter.journal.add("anna", "10.88.0.2", [act], Till(act.request, "cash", "", lambda _: 1900))
        shifts = Shifts(self.venue.counter.journal)
        shifts.write("open", "", 10000, "", ("anna", "10.88.0.2", new_number()))
        shifts.write("out", "", 725, "milk", ("anna", "10.88.0.2", new_number()), 1)

        done, = desk.sell_codes("hour", "ended-1")
        ended = desk.desk.request_json(Routes.REDEEM, body={"code": done}, device="02:00:00:00:00:06")["session"]
        desk.desk.request_json(Routes.CLOSE, body={"session": ended})

        def venues(end: str) -> Any:
            def opened() -> None:
                self.venue.conf.update(texts=str(FIELD / "settings/texts"), prices=True, terms_version="1")
                browser.open(self.venue.guests + end)
            return opened

        def soon() -> None:
            with mock.patch.object(left, "SOON", 10**6), mock.patch.object(left, "LITTLE", 0):
                browser.open(self.guest("de"))

        def gives(end: str) -> Any:
            def opened() -> None:
                if "give" not in self.venue.conf:
                    self.venue.give()
                self.venue.gateway_tells()      # which is good for some seconds
                browser.open(self.venue.guests + end)
            return opened

        return [("guest, not online", device(other, of(self.guest()))), ("guest, refused", lambda: self.types("2222-2222-2222")),
                ("guest, online", device(MAC, of(self.guest()))), ("guest, near the end", device("02:00:00:00:00:03", soon)),
                ("guest, another code", of(self.guest() + "&add=1")), ("guest, online again", device(MAC, of(self.guest()))), ("guest, Arabic", of(self.guest("ar"))),
                ("guest, ended", device("02:00:00:00:00:06", of(self.guest()))), ("guest, ended, Arabic", of(self.guest("ar"))), ("guest, online once more", device(MAC, of(self.guest()))),
                ("guest, refused in Japanese", lambda: self.types("2222-2222-2222", "ja")),
                ("guest without a lease", device(None, of(self.guest()))),
                ("counter", of(clerks)), ("voucher to sell", of(f"{clerks}voucher?{self.venue.look(fresh[0])}")),
                ("sold", sell), ("repetition", browser.driver.refresh),
                ("voucher to refund", of(f"{clerks}voucher?{self.venue.look(sold)}")), ("voucher used up", of(f"{clerks}voucher?{self.venue.look(timed)}")), ("refused", of(f"{clerks}voucher?{self.venue.look('2222')}")),
                ("refund", of(f"{clerks}refund?{self.venue.look(sold)}")), ("close", of(f"{clerks}close?session=1")), ("session", of(f"{clerks}session?number=1")),
                ("whole batch", of(f"{clerks}sell-batch?batch=fresh-1")), ("wrong number of codes", sell_batch), ("sheet", of(f"{clerks}sheet?batch=fresh-1")),
                ("takings", of(f"{clerks}takings?from={day}&to={day}")), ("cash up", of(f"{clerks}cash-up")), ("lines of the journal", of(f"{clerks}cash-up?details=1")),
                ("batches", of(f"{clerks}batches")), ("batch", of(f"{clerks}batch?batch=sold-1")), ("codes", codes), ("list to sell", of(f"{clerks}several?{self.venue.look(f'{fresh[0]} {fresh[1]} {sold}')}")),
                ("list and Wi-Fi", add), ("sold several", browser.enter),
                ("vouchers", of(f"{clerks}vouchers")), ("sessions", of(f"{clerks}sessions")), ("money", of(f"{clerks}money")),
                ("venue", of(f"{clerks}venue")), ("wrong number", issue), ("unused codes", of(f"{clerks}refund-batch?batch=sold-2")), ("scanner", of(f"{clerks}scanner")), ("scanner, wrong", scan),
                ("drawer", of(f"{clerks}shift")), ("shift to close", of(f"{clerks}shift-close?shift=1&counted=90")), ("amount, wrong", of(f"{clerks}shift-close?shift=1&counted=x")),
                ("slip", of(f"{clerks}slip?shift=1")), ("receipts", of(f"{clerks}receipts")), ("receipt", of(f"{clerks}receipt?number=1")),
                ("guest, has to accept", device("02:00:00:00:00:04", venues("?lang=de"))), ("guest, notice", venues("/privacy")),
                ("guest, free minutes", device("02:00:00:00:00:05", gives(""))), ("guest, can end it", device(MAC, gives(""))),
                ("guest, end asked", gives("?stop=1&lang=de"))]

    def look(self, keyboard: bool) -> Look:
        """At the page that is open."""
        browser, found = self.browser, Look()
        for scheme in (DARK, LIGHT):
            browser.shape(1280, scheme=scheme)
            found.looked, found.contrast[scheme] = browser.ask(CONTRAST)
        found.structure = browser.ask(STRUCTURE)
        found.names = [pair for pair in browser.names() if pair[0] in USED]
        if keyboard:
            self.walk(found)
        for width, size in ((320, "100%"), (640, "200%"), (1280, "100%")):
            browser.shape(width)
            browser.ask(f"document.documentElement.style.fontSize = '{size}'")
            found.wider[f"{width} points, text of {size}"] = browser.ask(WIDE)
        browser.ask(SPACED)     # a table may scroll within its part then
        found.wider["1280 points, spaced text"] = browser.ask(WIDE.replace(", section, nav, td, p", ", nav, p"))
        browser.ask("document.adoptedStyleSheets = []")
        return found

    def walk(self, found: Look) -> None:
        """From the top with the tab key, until it begins anew."""
        self.browser.ask("document.body.tabIndex = -1; document.body.focus(); document.body.removeAttribute('tabindex')")
        found.stops = []
        for _ in range(80):
            self.browser.type(Keys.TAB)
            at, found.places, shows = self.browser.ask(PLACES)
            if at < 0 or found.stops and at < found.stops[-1]:
                break
            found.hidden += [] if shows else [at]
            found.stops += [at] if at not in found.stops else []

    def test_what_every_page_needs(self) -> None:
        """Contrast, visible labels, names, targets, structure, narrow screens, large text, and the keyboard alone."""
        for name, reach in self.pages():
            reach()
            found = self.look(name in BY_KEYBOARD)
            self.assertEqual(found.contrast, {LIGHT: [], DARK: []}, name)
            self.assertGreater(found.looked, 8, name)
            self.assertEqual(found.structure, [], name)
            self.assertEqual(browser_has(self.browser, "[aria-invalid=true]"), name in REFUSED, name)
            self.assertEqual(browser_has(self.browser, ".chart rect.sales"), name in ("takings", "money"), name)
            self.assertTrue(found.names, name)
            self.assertEqual([pair for pair in found.names if not pair[1].strip()], [], name)
            self.assertEqual([pair for pair in self.browser.names() if pair[0] in PICTURES and not pair[1].strip()], [], name)
            self.assertLessEqual(max(found.wider.values()), 0, (name, found.wider))
            if found.stops is not None:
                self.assertEqual((found.stops, found.hidden), (list(range(found.places)), []), name)

    def test_in_german_each_page_of_the_counter_fits_a_narrow_screen(self) -> None:
        """With three kinds of payment, several drawers, and sums of thousands."""
        browser, venue = self.browser, self.venue
        venue.conf.update(language="de", payments=["cash", "card", "room"], drawers=["Empfang", "Bar"])
        venue.counter.__post_init__()
        venue.desk.sell_codes("day", "sold-4", 400)
        act = Act("sell", new_number(), "done", "sold-4", "day", 1, 360000)
        venue.counter.journal.add("anna", "10.88.0.2", [act], Till(act.request, "cash", "", lambda _: 1900))
        for name, reach in self.pages():
            if name.startswith("guest"):
                continue
            reach()
            wider = {}
            for width, size in ((320, "100%"), (640, "200%"), (1280, "100%")):
                browser.shape(width)
                browser.ask(f"document.documentElement.style.fontSize = '{size}'")
                wider[width] = browser.ask(WIDE)
            self.assertEqual({width: wide for width, wide in wider.items() if wide > 0}, {}, name)

    def test_what_the_page_needs_that_nginx_shows_while_the_counters_is_away(self) -> None:
        def answer(environ: dict[str, Any], start: Any) -> list[bytes]:
            is_style = environ["PATH_INFO"] == "/away.css"
            start("200 OK", [("Content-Type", "text/css" if is_style else "text/html; charset=utf-8")])
            return [(FIELD / "guests/style.css").read_bytes() if is_style else shown]

        address = self.venue.serve(answer, "counter/nginx-counter.conf")
        for tag, text in ((tag, text) for tag in LANGUAGES_OF_CLERKS for text in counter_pages(tag, "Maria, 030 1234567").values()):
            shown = text.encode()
            self.browser.open(address)
            found = self.look(True)
            self.assertEqual((found.contrast, found.structure, found.hidden), ({LIGHT: [], DARK: []}, [], []), tag)
            self.assertGreater(found.looked, 3)
            self.assertLessEqual(max(found.wider.values()), 0, (tag, found.wider))

    def entrance(self) -> list[tuple[str, Any, bool]]:
        """Each page of log-in, lock and own account, and what a clerk may not see: how it is reached, and whether a field
        of it is wrong."""
        folder, browser = pathlib.Path(self.venue.place.name), self.browser
        put_accounts(folder)
        address = self.venue.serve(counter_page.pages(self.venue.counter, logins_in(folder)), "counter/nginx-counter.conf")
        self.venue.conf["settings_socket"] = str(folder / "nobody")

        def of(path: str) -> Any:
            return lambda: browser.open(address + path)

        def fill_in(button: str, path: str = "", **fields: str) -> Any:
            def filled() -> None:
                if path:
                    browser.open(address + path)
                for name, words in fields.items():
                    place = browser.driver.find_element(By.ID, name)
                    place.clear()
                    place.send_keys(words)
                browser.press(button)
            return filled

        def old_form() -> None:
            browser.open(f"{address}/vouchers")
            browser.ask("document.querySelector('form[action=\"/sell\"], form[action=\"/logout\"]').action = '/sell-batch'")
            browser.ask("document.querySelectorAll('[name=token]').forEach(field => field.value = 'x')")
            browser.press("Log out")

        return [("log-in", of("/vouchers"), False), ("log-in, refused", fill_in("Log in", name="ben", password="a-wrong-word"), True),
                ("a clerk's first page", fill_in("Log in", name="ben", password=WORDS["ben"]), False),
                *((f"a clerk's {name}", of(f"/{name}"), False) for name in ("vouchers", "sessions", "money", "cash-up")),
                ("own account", of("/account"), False),
                ("short PIN", fill_in("Change the PIN", "/account", password="x", pin="1", pin2="1"), True),
                ("nobody writes", fill_in("Change the PIN", "/account", password="x", pin="1357", pin2="1357"), False),
                ("form of before", old_form, False),
                ("locked", fill_in("Lock", "/vouchers"), False), ("locked, refused", fill_in("Go on", pin="1111"), True),
                ("logged out", fill_in("Somebody else: log ben out"), False),
                ("manager", fill_in("Log in", name="anna", password=WORDS["anna"]), False), ("accounts", of("/clerks"), False),
                ("account, refused", fill_in("Save this account", name="eva", new="short", again="short", password="x"), True)]

    def test_what_the_pages_of_the_log_in_need(self) -> None:
        for name, reach, is_wrong in self.entrance():
            reach()
            found = self.look(True)
            self.assertEqual(found.contrast, {LIGHT: [], DARK: []}, name)
            self.assertGreater(found.looked, 4, name)
            self.assertEqual(found.structure, [], name)
            self.assertEqual(browser_has(self.browser, "[aria-invalid=true]"), is_wrong, name)
            self.assertEqual([pair for pair in found.names if not pair[1].strip()], [], name)
            self.assertLessEqual(max(found.wider.values()), 0, (name, found.wider))
            self.assertEqual((found.stops, found.hidden), (list(range(found.places)), []), name)

    @needs("fonts-dejavu-extra")
    def test_sheets_fit_on_their_paper(self) -> None:
        """Twelve vouchers with long names on an A4 page, or six in two languages; a label for each; a receipt. None is
        cut off, in any language or pair of languages, and with larger text where paper is not of labels."""
        self.venue.desk.desk.request_json(Routes.PLANS, body=LONG_PLAN)
        self.venue.conf.update(LONG)
        for count in (12, 13, 24, 120):     # 120: each pair of languages
            self.venue.desk.issue_codes("long", f"a-batch-{count}", count)
        for together, size, count, pages in (
                (1, "a4", 12, 1), (1, "a4", 13, 2), (2, "a4", 120, 20), (2, "letter", 120, 20), (1, "a4-24", 24, 1),
                (2, "a4-24", 120, 5), (1, "a4-21", 24, 2), (2, "a4-21", 120, 6), (1, "label", 24, 24), (2, "label", 120, 120),
                (1, "receipt80", 13, 13), (2, "receipt80", 120, 120), (1, "receipt58", 13, 13), (2, "receipt58", 120, 120)):
            with self.subTest(size=size, count=count, languages=together), in_each_language(together):
                self.venue.conf["voucher_languages"] = LANGUAGES[:together]
                self.open_on_paper(f"a-batch-{count}", size)
                self.assertEqual(self.browser.ask(CUT_OFF), [])
                if count < 120 or "label" in size or "-" in size:   # what fits when it is larger fits as it is
                    self.assertEqual(self.browser.printed(), [PAPER[size][:2]] * pages)
                if "label" in size or "-" in size:
                    continue
                self.browser.ask(LARGER)
                self.assertEqual(self.browser.ask(CUT_OFF), [], "larger")
                self.assertLessEqual(self.browser.ask(WIDE), 1, "larger")      # of rounding
                self.assertEqual(self.browser.printed(), [PAPER[size][:2]] * pages, "larger")

    def test_a_sheet_is_seen_before_it_is_printed(self) -> None:
        codes = self.venue.desk.issue_codes("hour", "seen-1", 3)
        for size in ("a4", "label", "receipt80"):
            self.browser.open(f"{self.venue.clerks}sheet?batch=seen-1&size={size}")
            self.assertEqual([code for code in codes if code not in self.browser.text], [], size)

    def open_on_paper(self, batch: str, size: str) -> None:
        wide, _, margin = PAPER[size]
        self.browser.shape(int((wide - 2 * margin) / 25.4 * 96), media="print")
        self.browser.open(f"{self.venue.clerks}sheet?batch={batch}&size={size}")
        self.browser.ask("return document.fonts.ready.then(() => true)")

    @needs("fonts-dejavu-extra")
    def test_a_voucher_that_needs_more_than_its_place_is_whole(self) -> None:
        """On an A4 page it takes the room of others, on a label it goes on on the next."""
        self.venue.desk.issue_codes("hour", "b16", 16)
        self.venue.conf["house"] = "A venue of many words " * 12
        for size, least in (("a4", 2), ("label", 17)):
            self.open_on_paper("b16", size)
            self.assertEqual(self.browser.ask(CUT_OFF), [], size)
            self.assertGreaterEqual(len(self.browser.printed()), least)

    def test_a_printed_cash_up_is_one_page_and_whole(self) -> None:
        """After the sale of a batch of many codes, at three counters, in each language of the counter."""
        browser, venue = self.browser, self.venue
        for number, clerk_of_it in enumerate(("anna", "ben", "cleo-of-the-night-shift")):
            acts = [Act("sell", new_number(), "done", f"batch-{number}", plan, 1, 500) for plan in ("hour", "day", "gigabyte") for _ in range(60)]
            venue.counter.journal.add(clerk_of_it, "10.88.0.2", acts, Till(new_number(), "cash", "", lambda _: 1900))
        shifts = Shifts(venue.counter.journal)
        shifts.write("open", "", 10000, "", ("anna", "10.88.0.2", new_number()))
        for language in ("en", "de"):
            venue.conf.update(language=language)
            venue.counter.__post_init__()
            browser.shape(int((210 - 2 * 8) / 25.4 * 96), media="print")
            browser.open(f"{venue.clerks}cash-up")
            self.assertEqual((browser.printed(), browser.ask(WIDE)), ([(210, 297)], 0), language)
            browser.open(f"{venue.clerks}cash-up?details=1")
            self.assertLessEqual(browser.ask(WIDE), 0, language)
            self.assertGreater(len(browser.printed()), 3)

    def test_bars_show_in_forced_colours(self) -> None:
        """As of a screen for high contrast, which paints all in a few colours of the system."""
        day = time.strftime("%Y-%m-%d", time.gmtime())
        self.venue.desk.sell_codes("hour", "b1")
        self.browser.shape(1280)
        self.browser.driver.execute_cdp_cmd("Emulation.setEmulatedMedia", {"features": [{"name": "forced-colors", "value": "active"}]})
        self.browser.open(f"{self.venue.clerks}takings?from={day}&to={day}")
        fill, text = self.browser.ask("""return [getComputedStyle(document.querySelector('.chart .sales')).fill,
          getComputedStyle(document.querySelector('td')).color]""")
        self.assertEqual(fill, text, "a bar has the colour of text")

    def test_the_first_stop_leads_to_the_content(self) -> None:
        browser = self.browser
        browser.shape(1280)
        browser.open(f"{self.venue.clerks}money")
        browser.type(Keys.TAB)
        self.assertEqual(browser.driver.switch_to.active_element.text, "To the content of this page")
        self.assertEqual(browser.ask("return document.activeElement.getBoundingClientRect().height >= 24"), True)
        browser.type(Keys.ENTER)
        browser.type(Keys.TAB)
        self.assertEqual(browser.ask("return document.activeElement.name"), "from")

    def test_keys_that_the_work_takes(self) -> None:
        """Each scan ends with the Enter of the scanner; `keys` are those of the clerk."""
        browser, desk = self.browser, self.venue.desk
        codes = desk.issue_codes("hour", "hour-1", 6)
        browser.shape(1280)
        keys = 0

        def scan(code: str) -> None:
            browser.type(f"https://wifi.example/portal?code={code}")
            browser.enter()

        def press_enter() -> None:
            nonlocal keys
            keys += 1
            browser.enter()

        browser.open(self.venue.clerks)
        scan(codes[0])
        press_enter()
        self.assertEqual((browser.title, keys), (f"Sold: {codes[0]}. Take €3.00. – Counter", 1))
        keys = 0
        for code in codes[1:]:
            scan(code)
        self.assertIn("5 vouchers: €15.00", browser.text)
        press_enter()
        self.assertEqual((browser.title, keys), ("5 vouchers sold. Take €15.00. – Counter", 1))
        keys = 0
        scan(codes[0])
        press_enter()
        press_enter()
        self.assertEqual((browser.title, keys), (f"Refunded: {codes[0]}. Give back €3.00. – Counter", 2))

    def test_a_voucher_is_found_by_four_signs_in_two_actions(self) -> None:
        """Four signs and Enter. Where several begin so, the next signs are typed behind nothing, and Enter."""
        browser, desk = self.browser, self.venue.desk
        one, two = desk.issue_codes("hour", "hour-1", 2)
        browser.shape(1280)
        browser.open(self.venue.clerks)
        browser.type(one[:4])
        browser.enter()
        self.assertEqual(browser.title, f"{one} – Counter")
        found, request_json = [desk.voucher(code) for code in (one, two)], self.venue.counter.desk.request_json

        def answer(route: Route, *part: str, **more: Any) -> Any:
            begins = more.get("query", {}).get("prefix", "")
            return {"vouchers": found if begins == two[:4] else found[1:], "more": False} if route is Routes.VOUCHERS else request_json(route, *part, **more)

        with mock.patch.object(self.venue.counter.desk, "request_json", answer):
            browser.open(self.venue.clerks)
            browser.type(two[:4])
            browser.enter()
            self.assertEqual(browser.title, f"Codes that begin with {two[:4]} – Counter")
            self.assertEqual(browser.ask("const at = document.activeElement; return [at.id, at.value, at.selectionStart]"), ["code", "", 0])
            browser.type(two[5])
            browser.enter()
        self.assertEqual(browser.title, f"{two} – Counter")

    def press_twice(self, words: str) -> None:
        """Clicks a button twice, as fast as some people do, and waits for the page that comes."""
        old = self.browser.driver.find_element(By.TAG_NAME, "html")
        found, = self.browser.driver.find_elements(By.XPATH, f"//button[normalize-space()='{words}']")
        self.browser.ask("const button = arguments[0]; button.click(); setTimeout(() => button.click(), 80)", found)
        self.browser.comes(old)

    def press_on_a_page_of_before(self, words: str) -> None:
        """Goes back, presses the button if Chromium has kept the page, and comes forward again."""
        self.browser.driver.back()
        if f">{words}</button>" in self.browser.driver.page_source:
            self.browser.press(words)
        else:
            self.browser.driver.forward()

    def sessions(self) -> list[int]:
        return [row["session"] for row in self.venue.desk.gateway.request_json(Routes.SESSIONS)["sessions"]]

    def test_free_minutes_and_the_end_of_a_session(self) -> None:
        """Without a cookie; a double click, Back, and a page of before in another window do no harm."""
        browser, venue = self.browser, self.venue
        venue.give()
        driver, first = browser.driver, browser.driver.current_window_handle
        driver.switch_to.new_window("tab")
        second = driver.current_window_handle
        for act in (lambda: driver.switch_to.window(first), driver.close, lambda: driver.switch_to.window(second)):
            self.addCleanup(act)        # the last one first
        browser.open(venue.guests)
        driver.switch_to.window(first)
        browser.open(venue.guests + "?a=1")
        driver.delete_all_cookies()
        self.press_twice("Go online without a code")
        self.assertIn("You are online.", browser.text)
        self.press_on_a_page_of_before("Go online without a code")
        driver.switch_to.window(second)
        browser.press("Go online without a code")
        self.assertIn("You are online.", browser.text)
        self.assertEqual(self.sessions(), [1])
        venue.gateway_tells()
        browser.open(venue.guests + "?stop=1")
        driver.switch_to.window(first)
        browser.open(venue.guests)
        browser.driver.delete_all_cookies()
        browser.press("End this session")
        self.assertIn("What is left of this session is lost.", browser.text)
        browser.press("Back to the page")
        self.assertEqual(self.sessions(), [1], "nothing was done yet")
        browser.press("End this session")
        venue.gateway_tells()
        self.press_twice("End this session now")
        self.assertIn("You have ended your session.", browser.text)
        self.assertEqual(self.sessions(), [])
        code, = venue.desk.sell_codes("hour", "later")
        venue.desk.desk.request_json(Routes.REDEEM, body={"code": code}, device=MAC)
        venue.gateway_tells()
        self.press_on_a_page_of_before("End this session now")
        driver.switch_to.window(second)
        browser.press("End this session now")
        self.assertIn("You are online.", browser.text)
        self.assertEqual(self.sessions(), [2], "the question was of another session")

    def test_a_day(self) -> None:
        """Sell by scan, redeem in Arabic, extend, refuse, refund, close, print, add up."""
        browser, venue = self.browser, self.venue
        first, second, third = venue.desk.issue_codes("hour", "hour-1", 3)
        browser.shape(1280)
        browser.open(venue.clerks)
        for code in (first, f"https://wifi.example/portal?code={second}", third):
            browser.type(code)
            browser.enter()     # the scanner sends it
            browser.enter()
            self.assertIn("Take €3.00.", browser.text)
        self.assertEqual(browser.title, f"Sold: {third}. Take €3.00. – Counter")
        browser.type("22A2")
        browser.enter()
        self.assertIn("No voucher has a code that begins so.", browser.text)
        browser.type(first)     # beside the code that was kept
        browser.enter()
        self.assertIn("Refund …", browser.text)
        browser.shape(390)
        self.types(first, "ar")
        self.assertIn("أنت متصل بالإنترنت.", browser.text)
        self.assertEqual(browser.ask("return document.documentElement.dir"), "rtl")
        self.types(second, "ar")
        self.assertRegex(browser.text, "ساعتان|ساعة")
        self.types("2222-2222-2222", "ar")
        self.assertIn("لا نعرف هذا الرمز.", browser.text)
        venue.gateway_tells()
        browser.shape(1280)
        browser.open(f"{venue.clerks}voucher?{venue.look(third)}")
        browser.press("Refund …")
        browser.type(second)
        browser.enter()     # a scan there does not refund
        self.assertEqual((venue.desk.voucher(third)["refund"], browser.title), (None, f"{second} – Counter"))
        browser.open(f"{venue.clerks}refund?{venue.look(third)}")
        self.assertIn("This cannot be taken back.", browser.text)
        browser.press("Give back €3.00")
        self.assertIn("Give back €3.00.", browser.text)
        browser.open(f"{venue.clerks}close?session=1")
        browser.press("Close")
        self.assertIn("Session 1 is closed.", browser.text)
        browser.enter()
        browser.press("Issue and sell one voucher")
        self.assertRegex(browser.text, r"(?s)Sold: .*Take €3.00.*Good until")
        browser.press("Money")
        browser.press("Add up")
        self.assertRegex(browser.text, r"Sum\s+4\s+€12\.00\s+1\s+€3\.00\s+€9\.00")
        browser.press("Money")
        browser.press("Cash up: what was sold today")
        self.assertIn("The server's takings and the journal's sums are the same.", browser.text)
        self.assertIn("anna 4 €12.00 1 €3.00 €9.00", browser.text)
        browser.open(self.guest())
        self.assertIn("Your session was closed.", browser.text)


if __name__ == "__main__":
    unittest.main()
