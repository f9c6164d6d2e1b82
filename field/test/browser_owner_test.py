"""The pages of a manager as headless Chromium renders them: a price in six actions, contrast, names, narrow screens."""

from __future__ import annotations

import contextlib
import io
import pathlib
import tempfile
import unittest

from at_entrance import WORDS
from browser import BROWSER, CAN, DARK, LIGHT, Browser
from browser_test import CONTRAST, STRUCTURE, WIDE
from needs import needs
from PIL import Image

if CAN:
    from browser import By, Keys
    from owner_venue import OwnersVenue


@needs(*BROWSER)
class Owner(unittest.TestCase):
    def setUp(self) -> None:
        self.enterContext(contextlib.redirect_stderr(io.StringIO()))
        self.venue, self.browser = OwnersVenue(), Browser()
        self.addCleanup(self.venue.close)
        self.addCleanup(self.browser.close)

    def test_a_price_is_changed_in_six_actions_from_the_first_page(self) -> None:
        venue, browser = self.venue, self.browser
        code, = venue.desk.issue_codes("hour", "old-1")
        venue.log_in(browser)
        browser.press("Venue")                                                      # 1
        browser.press("Plans and prices")                                           # 2
        field = browser.driver.find_element(By.ID, "price1")
        field.clear()
        field.send_keys("3.50")                                                     # 3
        browser.enter()                                                             # 4
        self.assertIn("€3.00 → €3.50", browser.text)
        self.assertEqual(browser.driver.switch_to.active_element.get_attribute("name"), "password")
        browser.type(WORDS["anna"])                                                 # 5
        browser.enter()                                                             # 6
        self.assertIn("hour-2 is saved, at €3.50. It counts from the next sale on.", browser.text)
        browser.press("Sell")
        self.assertIn("hour-2: 1 hour, €3.50", browser.text)
        browser.ask("document.querySelector('select[name=plan]').value = 'hour-2'")
        browser.press("Issue and sell one voucher")
        self.assertIn("Take €3.50.", browser.title)
        browser.open(venue.owner + "/")
        browser.type(code)
        browser.enter()     # to the voucher
        browser.enter()     # which is sold
        self.assertIn("Take €3.00.", browser.title, "an old one at its own price")

    def test_each_page_can_be_seen_read_and_used(self) -> None:
        venue, browser = self.venue, self.browser
        venue.log_in(browser)
        picture = pathlib.Path(self.enterContext(tempfile.TemporaryDirectory()), "logo.png")
        Image.new("RGB", (900, 300), "#0b5d51").save(picture)
        (venue.folder / "texts/terms.de.md").write_text("# Regeln\n\n- leise\n- [mehr](https://example.com)\n")
        browser.open(venue.owner + "/vouchers")
        browser.press("Issue")      # codes that are not sold

        def opens(path: str) -> None:
            browser.open(venue.owner + path)

        def looks_at_price() -> None:
            opens("/plans")
            field = browser.driver.find_element(By.NAME, "price")
            field.clear()
            field.send_keys("4" + Keys.TAB)
            browser.press("Look at it")

        def wrong_price() -> None:
            opens("/plan?plan=day")
            field = browser.driver.find_element(By.ID, "price")
            field.clear()
            field.send_keys("x")
            browser.press("Look at it before it is saved")

        def looks(path: str) -> None:
            opens(path)
            browser.press("Look at it before it is saved")

        def sends_picture() -> None:
            opens("/picture")
            browser.driver.find_element(By.ID, "file").send_keys(str(picture))
            browser.press("Look at it before it is saved")

        pages = {"venue": lambda: opens("/venue"), "plans": lambda: opens("/plans"), "price": looks_at_price, "wrong price": wrong_price,
                 "new plan": lambda: opens("/plan"), "settings": lambda: looks("/settings"), "texts": lambda: opens("/texts"),
                 "text": lambda: looks("/text?text=terms.de"), "picture": sends_picture}
        for name, opened in pages.items():
            opened()
            for scheme in (DARK, LIGHT):
                browser.shape(1280, scheme=scheme)
                looked, faults = browser.ask(CONTRAST)
                self.assertEqual((looked > 20, faults), (True, []), (name, scheme))
            self.assertEqual(browser.ask(STRUCTURE), [], name)
            for wide in (1280, 320):
                browser.shape(wide)
                self.assertLessEqual(browser.ask(WIDE), 0, (name, wide))
            browser.shape(1280)


if __name__ == "__main__":
    unittest.main()
