"""RADIUS by name with packets: each of two venues on one machine takes its own codes and its own access server, and no other."""

from __future__ import annotations

from collections.abc import Iterator

import pytest
from lender import Lender
from named_lab import NAMES, Lab, open_lab
from scripted_nas import ACCEPT, DISCONNECT, REJECT, Nas

from portal_field.lib.desk_client import Routes

pytestmark = pytest.mark.radius


@pytest.fixture
def lab(request: pytest.FixtureRequest, lender: Lender, portal: str) -> Iterator[Lab]:
    """Both venues with all their parts."""
    yield from lender.lend(request.node, "named", lambda: open_lab(portal))


def test_own_codes(lab: Lab) -> None:
    for name, other in (NAMES, NAMES[::-1]):
        here, there = lab.venues[name], lab.venues[other]
        (code,), device = here.new_codes("hour", 1), here.device()
        reply = lab.nas[other].login(code, device)
        assert reply.code == REJECT and reply.signed and "do not know this code" in reply.words, (
            f"the {other} does not know a code of the {name}  [{reply}]")
        assert here.uses_of(code) == 0 and device not in there.sessions(), "and nothing is used up"
        reply = lab.nas[name].login(code, device)
        assert reply.code == ACCEPT and reply.signed, f"the {name} takes its own code  [{reply}]"
        assert here.uses_of(code) == 1 and device in here.sessions() and device not in there.sessions(), "there alone"


def test_own_access_servers(lab: Lab) -> None:
    for name, other in (NAMES, NAMES[::-1]):
        here, there = lab.venues[name], lab.venues[other]
        code, = there.new_codes("hour", 1)
        stranger = Nas(here.nas_address, here.secret, (lab.host, *there.ports), port=0)
        assert stranger.login(code, here.device(), wait=1.0).code == 0, (
            f"no answer to the access server of the other venue  [{name} asks {other}]")
        stranger.close()
        assert there.uses_of(code) == 0, "and redeems nothing"


def test_own_accounting(lab: Lab) -> None:
    numbers = {}
    for name in NAMES:
        here, nas = lab.venues[name], lab.nas[name]
        (code,), device = here.new_codes("both", 1), here.device()
        klass = nas.login(code, device).values["Class"]
        for status in ("Start", "Interim-Update"):
            assert nas.account(status, f"s-{name}", code, device, klass, (3_000_000, 1_000_000)), "accounting is answered"
        assert lab.comes(lambda: here.sessions()[device][1] == 6_000_000), (
            f"the bytes count at the {name}  [{here.sessions()[device]}]")
        numbers[name] = here.sessions()[device][0]
    north, south = lab.north, lab.south
    south.desk.request_json(Routes.CLOSE, body={"session": numbers["south"]})
    assert lab.comes(lambda: lab.nas["south"].requests_for(DISCONNECT, "s-south")), "a close at the south ends its session there"
    assert not lab.nas["north"].requests_for(DISCONNECT, "s-north"), "and none of the north"
    assert [row[0] for row in north.rows(north.radacct, "SELECT acctsessionid FROM radacct")] == ["s-north"], "each has its own accounting"


def test_no_fault_in_a_log(lab: Lab) -> None:
    assert lab.faults_in_logs("Traceback", "Segmentation", "ASSERT") == {}, "no fault in a log"
