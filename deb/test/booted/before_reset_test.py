"""What a boot leaves to the one after a reset: a backup is in the middle of its copy, and the server is
frozen."""

from __future__ import annotations

import os

import pytest
from machine import DATABASE, make_slow_cp, send_as_clerk, sh, show, until

pytestmark = pytest.mark.container


def test_server_is_held(venue: None) -> None:
    path = make_slow_cp(60)
    send_as_clerk("issue", plan="hour", batch="before-the-reset", count=3)
    sh("systemd-run", "--unit=slow-backup", f"--setenv=PATH={path}", "/usr/sbin/portal-backup", str(DATABASE),
       "/var/backups/portal")
    frozen = until(lambda: show("portal", "FreezerState") == "frozen", 10)
    assert frozen is not None, "the server is held for a copy at the moment of the reset"
    os.sync()
