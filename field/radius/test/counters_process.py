"""The counters' pages of the venues by name as a process, below a folder: counters_process.py ROOT SOCKET."""

from __future__ import annotations

import pathlib
import sys
import threading

from portal_field.lib import local_time, web
from portal_field.lib.desk_client import credential
from portal_field.venues.counters import THREADS, Counters, open_all


def main() -> None:
    local_time.use_zone("UTC0")
    counters = Counters(open_all(pathlib.Path(sys.argv[1]), lambda name: credential(f"desk_token_{name}")))
    threading.Thread(target=counters.follow, daemon=True).start()
    web.serve(counters, web.listening(sys.argv[2]), THREADS)


if __name__ == "__main__":
    main()
