"""A venue for a browser in which a manager is logged in and changes settings, with a writer behind the counter's page."""

from __future__ import annotations

import contextlib
import pathlib
import shutil
import socket
import threading
from typing import Any

from at_entrance import WORDS, logins_in, put_accounts
from browser import Browser, By, Keys, Venue
from desk_process import FIELD

from portal_field.counter import page as counter_page
from portal_field.settings import writer


class OwnersVenue(Venue):
    """The venue, its folder of settings, and the address of a counter's page with log-ins."""

    def __init__(self, **changed: Any) -> None:
        super().__init__(**changed)
        self.folder = pathlib.Path(self.place.name, "settings")
        (self.folder / "texts").mkdir(parents=True)
        shutil.copy(FIELD / "settings/plans.toml", self.folder)
        put_accounts(self.folder)
        self.conf |= {"plans": str(self.folder / "plans.toml"), "settings_socket": str(self.folder / "socket")}
        self.counter.venue_lines.folder = self.folder
        self.counter.load_plans()
        self.door = self.stack.enter_context(socket.socket(socket.AF_UNIX))
        self.door.bind(self.conf["settings_socket"])
        self.door.listen()
        threading.Thread(target=self.writes, daemon=True).start()
        self.owner = self.serve(counter_page.pages(self.counter, logins_in(self.folder)), "counter/nginx-counter.conf")

    def writes(self) -> None:
        with contextlib.suppress(OSError):
            writer.serve(writer.Writer(self.folder), self.door)

    def log_in(self, browser: Browser, name: str = "anna") -> None:
        """Logs somebody in, who sees the first page then."""
        browser.open(self.owner + "/login")
        browser.driver.find_element(By.NAME, "name").send_keys(name + Keys.TAB)
        browser.type(WORDS[name])
        browser.press({"en": "Log in", "de": "Anmelden"}[self.counter.language.tag])
