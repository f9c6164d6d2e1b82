"""The settings of the counter's page that venue.toml has in place of field.toml: read again where that file
is another one."""

from __future__ import annotations

import pathlib
import sys
from typing import Any

from portal_field.settings import venue_file


class VenueLines:
    """Puts the lines of venue.toml into the settings of the page. Of a file with a mistake what it said
    before stays. `fault`: what is wrong with it, in English."""

    def __init__(self, conf: dict[str, Any], folder: pathlib.Path) -> None:
        self.conf, self.folder, self.fault = conf, folder, ""
        self.of_field = {key: conf[key] for key in venue_file.KEYS if key in conf}
        self.now: dict[str, Any] = {}
        self.seen: tuple[int, ...] | None = ()

    def refresh(self) -> None:
        """Reads the file where it is another one than before."""
        try:
            state = (self.folder / venue_file.FILE).stat()
            seen = (state.st_ino, state.st_mtime_ns, state.st_size)
        except OSError:
            seen = None
        if seen == self.seen:
            return
        self.seen = seen
        try:
            lines, self.fault = venue_file.in_folder(self.folder), ""
        except venue_file.BadVenueFile as fault:
            self.fault = str(fault)
            print(f"<4>counter: {self.folder / venue_file.FILE}: {fault}. What it said before counts",
                  file=sys.stderr, flush=True)
            return
        for key in self.now.keys() - lines.keys():
            self.conf.pop(key)
            self.conf |= {key: self.of_field[key]} if key in self.of_field else {}
        self.conf |= lines
        self.now = lines
