"""The lab of tests with packets."""

from __future__ import annotations

import contextlib
from collections.abc import Iterator
from typing import Any

import pytest
from lab import Lab
from lender import Lender


@contextlib.contextmanager
def open_lab(kind: type[Lab], portal: str, settings: dict[str, Any]) -> Iterator[Lab]:
    """Opens a lab whose services run and whose guests have leases."""
    with kind(portal, settings) as lab:
        lab.start_services()
        lab.give_leases()
        yield lab


@pytest.fixture
def lab(request: pytest.FixtureRequest, lender: Lender, portal: str) -> Iterator[Lab]:
    """The lab of the marker `lab` of the test or of its file, open, with the guests' leases."""
    settings = dict(request.node.get_closest_marker("lab").kwargs)
    kind = settings.pop("kind")
    yield from lender.lend(request.node, (kind, settings), lambda: open_lab(kind, portal, settings))
