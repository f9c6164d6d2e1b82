"""What stands after a reset in the middle of a copy."""

from __future__ import annotations

import pytest
from machine import (
    ask_for_a_lease, code, copies, counter, inactive_units, output, parts, serves, server_note, sh, show,
    until)

pytestmark = pytest.mark.container


def test_after_the_reset() -> None:
    assert inactive_units() == {}, "after a reset in the middle of a copy every unit is active"
    sh("systemctl stop venue-watch")
    ask_for_a_lease()
    took = until(lambda: serves() and counter("sheet?batch=before-the-reset")[0] == 200, 20)
    assert took is not None and code() != "", (
        "what was answered before the reset is there, and the server serves  "
        f"[{took} s; {server_note()}; freezer {show('portal', 'FreezerState')}]")


def test_next_copy() -> None:
    left, before = parts(), len(copies())
    done = sh("systemctl start portal-backup")
    assert done.returncode == 0 and left and not parts() and len(copies()) == before + 1, (
        f"the copy that was cut is removed by the next one  [{left} {output(done)}]")
