"""The desk and the browser of tests of pages."""

from __future__ import annotations

import contextlib
from collections.abc import Iterator

import pytest
from browser import Browser
from desk_process import DeskProcess


@pytest.fixture
def desk() -> Iterator[DeskProcess]:
    """The program or the stand-in for it, on a port of its own on loopback, over a file of its own."""
    with DeskProcess() as desk:
        yield desk


@pytest.fixture(scope="module")
def browser(request: pytest.FixtureRequest) -> Iterator[Browser]:
    """Headless Chromium, with the options of its command line that the marker `chromium` of the file
    names."""
    mark = request.node.get_closest_marker("chromium")
    with contextlib.closing(Browser(*(mark.args if mark else ()))) as browser:
        yield browser
