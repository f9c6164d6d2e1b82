"""Free minutes and the end of a session, with packets: a library's guest without a voucher, and a guests' page that an
attacker controls."""

from __future__ import annotations

import json
import re
from collections.abc import Mapping
from typing import Any

import pytest
from give_fixture import FREE_PLAN
from lab import PORTAL, Answer, Lab
from network import FIELD, MACS, PYTHON, USERS

ASK = """import json, sys
from portal_field.lib import doors
path, *questions = sys.argv[1:]
print(json.dumps([doors.ask(path, json.loads(question), 20)["answer"] for question in questions]))"""


class GiveLab(Lab):
    """A lab whose venue gives half an hour a day, and in which a guest may press often."""

    def files(self) -> None:
        """Writes the files, with a plan of price 0 and limits that are no matter here."""
        super().files()
        with open(self.root / "etc/portal/plans.toml", "a") as plans:
            plans.write(FREE_PLAN)
        path = self.root / "etc/nginx/conf.d/portal-guests.conf"
        path.write_text(path.read_text().replace("rate=12r/m", "rate=6000r/m"))

    def press(self, guest: str, page: str) -> Answer:
        """Presses the button of an act on a page that a guest was shown."""
        form = re.search(r'<form[^>]*><input type="hidden" name="act".*?</form>', page, re.S)
        assert form, f"the page has a button  [{page}]"
        fields = re.findall(r'type="hidden" name="(\w+)" value="([^"]*)"', form[0])
        return self.curl(guest, PORTAL, *(word for field in fields for word in ("--data-urlencode", "=".join(field))))

    def page_with_a_button(self, guest: str) -> str:
        """The page of a guest, once the part has answered it."""
        pages: list[str] = []

        def shows() -> bool:
            pages.append(self.curl(guest, PORTAL)[1])
            return "Go online without a code" in pages[-1]

        self.until(shows, 10, "the button")
        return pages[-1]

    def ask_as(self, user: str, *questions: Mapping[str, Any]) -> list[str]:
        """What portal-give answers to a process of this service's user."""
        number, group, groups = USERS[user]
        done = self.within("gw", "setpriv", f"--reuid={number}", f"--regid={group}", f"--groups={groups}", "env",
                           f"PYTHONPATH={FIELD}", PYTHON, "-P", "-c", ASK, self.root / "run/portal-give/socket",
                           *map(json.dumps, questions))
        return list(json.loads(done.stdout))

    def change_device(self, guest: str, device: str) -> None:
        """Makes a guest another device, and asks for its lease."""
        for words in (("link", "set", "eth0", "down"), ("addr", "flush", "dev", "eth0"), ("link", "set", "eth0", "address", device),
                      ("link", "set", "eth0", "up")):
            self.within(guest, "ip", *words)
        self.lease(guest)
        self.until(lambda: device in self.curl(guest, PORTAL)[1], 10, "the page of the device")


pytestmark = [pytest.mark.packets, pytest.mark.lab(kind=GiveLab, free_plan="free", free_daily=20)]


def test_two_touches(lab: GiveLab) -> None:
    assert not lab.reaches("guest1"), "nothing passes before"
    page = lab.page_with_a_button("guest1")     # the first touch: the phone's notice opens it
    status, _, _ = lab.press("guest1", page)    # the second
    assert status == 303 and lab.session_of("guest1") is not None, "a guest without a voucher is online in two touches"
    lab.until(lambda: lab.reaches("guest1"), 6, "packets of guest1")
    left = lab.captive("guest1")
    assert left["captive"] is False and left["seconds-remaining"] <= 1800, "for as long as the plan says"
    before = lab.session_of("guest1")
    assert lab.press("guest1", page)[0] == 303 and lab.session_of("guest1") == before, "the page of before does no harm"


def test_ended(lab: GiveLab) -> None:
    if lab.session_of("guest1") is None:
        lab.press("guest1", lab.page_with_a_button("guest1"))
    lab.until(lambda: lab.reaches("guest1"), 6, "packets of guest1")
    page = lab.curl("guest1", PORTAL + "?stop=1")[1]
    assert "What is left of this session is lost" in page, "it is said what is lost"
    assert lab.press("guest1", page)[0] == 303 and lab.session_of("guest1") is None, "a guest ends the own session"
    took = lab.shut_after("guest1", 6)
    assert took is not None, "and its packets pass no more"
    page = lab.curl("guest1", PORTAL)[1]
    assert "This device has had its free time for today." in page and "Go online without a code" not in page, (
        "its free minutes of today are over")


def test_taken_over(lab: GiveLab) -> None:
    """A page that an attacker controls asks as the page's user; other users are not heard."""
    code, = lab.codes("hour", 1)
    assert lab.redeem("guest2", code)[0] == 303, "a code is redeemed"
    session, lease = lab.session_of("guest2"), {guest: lab.address(guest) for guest in ("guest1", "guest2")}
    lab.until(lambda: any(row["session"] == session for row in lab.gateway_list()), 6, "the gateway's list")
    end: dict[str, Any] = {"act": "end", "address": lease["guest1"], "device": MACS["guest1"], "session": session}
    words = lab.ask_as("front", end, {**end, "address": lease["guest2"]}, {**end, "device": MACS["guest2"]},
                       {**end, "address": "10.77.3.200", "device": "02:aa:00:00:00:77"}, {**end, "act": "free", "plan": "hour"})
    assert words == ["not_open", "not_this_device", "not_this_device", "not_this_device", "bad_request"], (
        f"the part looks for the device itself  [{words}]")
    good = {**end, "address": lease["guest2"], "device": MACS["guest2"]}
    words = lab.ask_as("counter", good)
    assert words[0] in ("not_allowed", "no_answer"), f"another user is not heard  [{words}]"
    assert lab.session_of("guest2") == session, "and nobody's session was ended"


def test_away(lab: GiveLab) -> None:
    lab.stop("give", kill=True)
    status, page, _ = lab.curl("guest2", PORTAL)
    assert status == 200 and "Go online without a code" not in page, "without the part the page stands, and offers nothing"
    (lab.root / "run/portal-give/socket").unlink(missing_ok=True)
    lab.service("give")
    session = lab.session_of("guest2")
    if session is not None:
        lab.send_as_clerk("close", session=session)
    assert lab.page_with_a_button("guest2"), "it comes again"


def test_one_laptop(lab: GiveLab) -> None:
    """An hour has four: a laptop that comes as one new device after another gets no more than is left above half."""
    try:
        for number in range(6):
            lab.change_device("guest1", f"02:aa:00:00:01:{number:02x}")
            page = lab.curl("guest1", PORTAL)[1]
            if "Go online without a code" in page:
                assert lab.press("guest1", page)[0] == 303, "it is online"
            else:
                assert re.search(r"Your device can have it from \d\d:\d\d on\.", page), f"it reads from when on  [{page}]"
    finally:
        lab.change_device("guest1", MACS["guest1"])
    counts = json.loads((lab.root / "var/lib/portal-give/days.json").read_text())
    assert sum(counts.values()) == 3, f"one of the hour's is left to who was there before  [{counts}]"


def test_no_fault_in_a_log(lab: GiveLab) -> None:
    assert lab.faults_in_logs("Traceback") == {}, "no fault in a log"
