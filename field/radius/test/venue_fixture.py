"""The venue of tests with FreeRADIUS."""

from __future__ import annotations

from collections.abc import Iterator

import pytest
from lender import Lender
from venue_lab import Venue, open_venue


@pytest.fixture
def venue(request: pytest.FixtureRequest, lender: Lender, portal: str) -> Iterator[Venue]:
    """A venue with the parts that the marker `venue` of the file names, beside the server, FreeRADIUS and the
    agent."""
    mark = request.node.get_closest_marker("venue")
    parts = mark.args if mark else ()
    yield from lender.lend(request.node, parts, lambda: open_venue(portal, *parts))
