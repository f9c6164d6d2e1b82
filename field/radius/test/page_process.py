"""The guests' helper as a process: page_process.py. An address is its device here; nginx and leases are not tested."""

from __future__ import annotations

from portal_field.guests.page import Front, pages
from portal_field.lib import web
from portal_field.lib.counts import Counts
from portal_field.lib.desk_client import Desk, credential, settings


def main() -> None:
    conf = settings("")
    door = web.listening(conf["socket"])
    front = Front(Desk(conf["desk_port"], timeout=2), conf, lambda address: address, credential("form_key"),
                  counts=Counts(conf["refusals"]))
    web.serve(pages(front), door, threads=8)


if __name__ == "__main__":
    main()
