"""One use, whichever way the code is typed, with kills in between."""

from __future__ import annotations


import pytest
from scripted_nas import ACCEPT
from venue_lab import FAULTS, Venue

pytestmark = [pytest.mark.radius, pytest.mark.venue("page")]


def test_page_then_nas(venue: Venue) -> None:
    nas, device = venue.nas(), venue.device()
    code, = venue.codes("three", 1)
    page = venue.page(device)
    assert page.type(code) == 303, f"typed at the venue's page: online  [{page.text}]"
    reply = nas.login(code, device)
    assert reply.code == ACCEPT and venue.uses_of(code) == 1, (
        "then at the access server: accepted, no second use")
    page.type(code.lower().replace("-", " "))
    assert page.status == 303 and venue.uses_of(code) == 1, "and at the page again: no second use"
    reply = nas.login(code, venue.device())
    assert reply.code == ACCEPT and venue.uses_of(code) == 2, "another device takes the next one"


def test_nas_then_page(venue: Venue) -> None:
    nas, device = venue.nas(), venue.device()
    code, = venue.codes("three", 1)
    nas.login(code, device)
    page = venue.page(device)
    page.type(code)
    number = venue.sessions()[device]["session"]
    assert venue.uses_of(code) == 1 and page.where == f"/portal?done={number}&left=2", (
        "typed at the access server, then at the page: no second use, the same session")
    assert nas.login(code, device).code == ACCEPT and venue.uses_of(code) == 1, "and at the access server again"


def test_next_use_both_ways(venue: Venue) -> None:
    """Once the session is over, the next use, wherever it is typed; and that once too."""
    nas, device = venue.nas(), venue.device()
    code, = venue.codes("three", 1)
    page = venue.page(device)
    page.type(code)
    venue.close_session(device)
    assert nas.login(code, device).code == ACCEPT and venue.uses_of(code) == 2, (
        "its session over, at the access server: the next use")
    page.type(code)
    assert page.status == 303 and venue.uses_of(code) == 2, "then at the page: no third one"
    venue.close_session(device)
    page.type(code)
    assert page.status == 303 and venue.uses_of(code) == 3, "that session over, at the page: the third one"
    assert nas.login(code, device).code == ACCEPT and venue.uses_of(code) == 3, (
        "then at the access server: accepted")


def test_page_in_doubt(venue: Venue) -> None:
    """The server is held still while the form is sent; the page's helper is killed before it is pressed again."""
    nas, device = venue.nas(), venue.device()
    code, = venue.codes("three", 1)
    page = venue.page(device)
    page.show()
    with venue.held_still():
        status = page.press(code)
    assert status == 504 and "press the button again" in page.text, "a form without an answer comes back"
    venue.until(lambda: venue.uses_of(code) == 1, what="the server carries it out all the same")
    venue.stop("page", kill=True)
    venue.start_page()
    reply = nas.login(code, device)
    assert reply.code == ACCEPT and venue.uses_of(code) == 1, (
        "typed at the access server meanwhile: accepted, one use")
    assert page.press(code) == 303 and venue.uses_of(code) == 1, "the form pressed again takes effect once"


def test_doubt_after_the_end(venue: Venue) -> None:
    """A form in doubt, whose session is over before it is pressed again: it takes effect once all the same."""
    for killed in (False, True):
        device = venue.device()
        code, = venue.codes("three", 1)
        page = venue.page(device)
        page.show()
        with venue.held_still():
            page.press(code)
        venue.until(lambda: device in venue.sessions(), what="the server carries it out all the same")
        venue.close_session(device)
        if killed:
            venue.stop("page", kill=True)
            venue.start_page()
        page.press(code)
        assert venue.uses_of(code) == 1, (
            f"in doubt, its session over{', the helper killed' * killed}: it takes effect once")
        page.type(code)
        assert page.status == 303 and venue.uses_of(code) == 2, "and a new form takes the next use"


def test_nas_in_doubt(venue: Venue) -> None:
    """FreeRADIUS is killed while it asks; the guest goes to the page meanwhile."""
    nas, device = venue.nas(), venue.device()
    code, = venue.codes("three", 1)
    venue.kill_radius_at_login(nas, code, device)
    page = venue.page(device)
    page.type(code)
    assert page.status == 303 and venue.uses_of(code) == 1, (
        "FreeRADIUS killed while it asked, typed at the page: one use")
    venue.start_radius()
    assert nas.login(code, device).code == ACCEPT and venue.uses_of(code) == 1, "and at the access server again"


def test_killed_desk(venue: Venue) -> None:
    """The server is killed between the two, and after each."""
    nas, device = venue.nas(), venue.device()
    code, = venue.codes("three", 1)
    page = venue.page(device)
    page.show()
    venue.stop("desk", kill=True)
    assert page.press(code) == 504, f"the server killed: the form is in doubt  [{page.status}]"
    venue.start_desk()
    assert nas.login(code, device).code == ACCEPT and venue.uses_of(code) == 1, (
        "typed at the access server: one use")
    venue.stop("desk", kill=True)
    venue.start_desk()
    assert page.press(code) == 303 and venue.uses_of(code) == 1, (
        "the server killed again, the form pressed again: one use")


def test_at_the_same_time(venue: Venue) -> None:
    for _ in range(5):
        nas, device = venue.nas(), venue.device()
        code, = venue.codes("many", 1)
        page = venue.page(device)
        page.show()
        waits = [venue.beside(lambda: page.press(code)), *(venue.beside(lambda: nas.login(code, device)) for _ in range(4))]
        for wait in waits:
            wait.join()
        assert venue.uses_of(code) == 1, "at the page and four times at the access server at once: one use"


def test_no_fault_in_a_log(venue: Venue) -> None:
    assert venue.faults_in_logs(*FAULTS) == {}, "no fault in a log"
