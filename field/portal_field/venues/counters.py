"""The counters' pages of all venues by name, in one process.

nginx says by the header X-Venue of which venue a request is: it knows it by the name that the browser asks
for. Each venue has an application of its own, with its own desk, token, accounts, log-ins and journal; a
request reaches that of its venue and no other, and the local times of its answer are those of that venue.
"""

from __future__ import annotations

import dataclasses
import datetime
import os
import pathlib
import sys
import threading
import time
import tomllib
from collections.abc import Callable
from typing import Any

from portal_field.counter.clerk import FOLLOWS, Counter
from portal_field.counter.journal import Journal
from portal_field.counter.logins import IDLE_MINUTES, AccountsFile, Logins
from portal_field.counter.page import pages
from portal_field.lib import local_time, web
from portal_field.lib.desk_client import Desk, credential
from portal_field.venues.files import SOCKET
from portal_field.venues.places import Places, venues_in

THREADS = 16        # requests that are worked on at a time


@dataclasses.dataclass(frozen=True)
class VenueCounter:
    """The counter's page of one venue."""
    counter: Counter
    app: web.Application
    zone: datetime.tzinfo


def open_counter(places: Places, token: str) -> VenueCounter:
    """The page of a venue, by its settings. OSError, ValueError, KeyError: they are not there, or not what
    they must be."""
    conf: dict[str, Any] = tomllib.loads((places.settings / "counter.toml").read_text())
    folder = places.counter_state
    folder.mkdir(mode=0o700, parents=True, exist_ok=True)
    counter = Counter(Desk(conf["desk_port"], token), conf, Journal(folder / "journal.db"))
    logins = Logins(folder / "logins.db", AccountsFile(places.settings),
                    conf.get("lock_minutes", IDLE_MINUTES), sign_in=conf.get("sign_in_mark", ""))
    return VenueCounter(counter, pages(counter, logins), local_time.zone_of(conf["zone"]))


class Counters:
    """The WSGI application that hands each request to the page of its venue."""

    def __init__(self, venues: dict[str, VenueCounter]) -> None:
        self.venues = venues

    def __call__(self, environ: dict[str, Any], start: Callable[..., Any]) -> web.Answer:
        """The answer of the venue's page; 404 where there is no such venue."""
        venue = self.venues.get(environ.get("HTTP_X_VENUE", ""))
        if venue is None:
            start("404 Not Found", [("Content-Type", "text/plain; charset=utf-8"),
                                    ("Cache-Control", "no-store")])
            return [b"There is no venue of this name.\n"]
        with local_time.in_zone(venue.zone):
            return venue.app(environ, start)

    def look(self) -> None:
        """Has each venue take what was written since, and load its plans where its desk was started since. A
        fault of one is in the journal, and hinders no other."""
        for name, venue in self.venues.items():
            try:
                with local_time.in_zone(venue.zone):
                    venue.counter.look()
            except Exception as fault:
                print(f"counter of {name}: {type(fault).__name__}: {fault}", file=sys.stderr, flush=True)

    def follow(self) -> None:
        """Looks at all venues for ever."""
        while True:
            self.look()
            time.sleep(FOLLOWS)


def open_all(root: pathlib.Path, token_of: Callable[[str], str]) -> dict[str, VenueCounter]:
    """The pages of all venues by name. One that cannot be opened is left out, and said in the journal."""
    venues = {}
    for name in venues_in(root):
        try:
            venues[name] = open_counter(Places(name, root), token_of(name))
        except (OSError, ValueError, KeyError) as fault:
            print(f"counter of {name}: it has no page: {fault}", file=sys.stderr, flush=True)
    return venues


def main() -> None:
    """Serves the pages on the socket that nginx alone may open."""
    local_time.use_zone("UTC0")
    os.umask(0o027)
    door = web.listening("/run" + SOCKET)
    counters = Counters(open_all(pathlib.Path("/"), lambda name: credential(f"desk_token_{name}")))
    print(f"counters of {len(counters.venues)} venues", file=sys.stderr, flush=True)
    threading.Thread(target=counters.follow, daemon=True).start()
    web.serve(counters, door, THREADS)


if __name__ == "__main__":
    main()
