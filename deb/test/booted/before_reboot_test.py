"""What the first boot of the venue leaves to the second."""

from __future__ import annotations

import pathlib

import pytest
from machine import passes

pytestmark = pytest.mark.container


def test_session_at_the_end(venue: None) -> None:
    pathlib.Path("/run/venue-watch").unlink(missing_ok=True)
    assert passes(), "the session is open at the end of the first boot"
