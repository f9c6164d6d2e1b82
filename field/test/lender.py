"""Lends what is made once, as a lab or a venue, to the tests of a file, one after another."""

from __future__ import annotations

import contextlib
from collections.abc import Callable, Iterator
from typing import Any

import pytest
from report import FAILED


class Lender:
    """It makes the thing when a test wants it, and anew where a test wants another one, or after one that failed, as that
    may have left it in any state."""

    def __init__(self) -> None:
        self.stack = contextlib.ExitStack()
        self.thing: Any = None
        self.kind: object = None

    def lend(self, test: pytest.Item, kind: object, make: Callable[[], contextlib.AbstractContextManager[Any]]
             ) -> Iterator[Any]:
        """Lends the thing to a test, for a fixture. By `kind` one differs from another."""
        if self.thing is not None and self.kind != kind:
            self.close()
        if self.thing is None:
            self.thing, self.kind = self.stack.enter_context(make()), kind
        yield self.thing
        if test.stash.get(FAILED, False):
            for name, text in self.thing.faults_in_logs("Traceback").items():
                print(f"note {name}: {text}")
            self.close()

    def close(self) -> None:
        """Ends what was made, if there is any."""
        self.thing = None
        self.stack.close()


@pytest.fixture(scope="module")
def lender() -> Iterator[Lender]:
    """The lender of a file's tests; what it made ends with them."""
    one = Lender()
    yield one
    one.close()
