"""What the first boot leaves to one with a wrong clock: a venue with a session, and a voucher that was
sold."""

from __future__ import annotations

import pytest
from fake_clock import AHEAD, begin_with_a_fake_clock, set_clock
from machine import code, passes

pytestmark = pytest.mark.container


def test_venue_is_opened(venue: None) -> None:
    assert passes(), "a venue is opened, and a guest has a session"
    begin_with_a_fake_clock(code())
    set_clock(AHEAD)
