"""From a booted Debian to a redeemed voucher, by two commands and one edited file, with the package at
hand."""

from __future__ import annotations

import os
import pathlib
from dataclasses import dataclass

import pytest
import steady
from booted import Levels
from machine import (
    AUTHORITY, COUNTER, PASSWORD, PATIENCE, Done, ask_for_a_lease, begin_to_serve, code, count_outside,
    edit_settings, install, output, passes, redeem, sh, until, versions)

pytestmark = pytest.mark.container
MINUTES = 3                 # at most


@dataclass(frozen=True)
class QuickWay:
    """How set-up went, whether all went well, and whether it took no longer than it may."""
    setup: Done
    is_good: bool
    is_quick: bool
    note: str


@pytest.fixture(scope="module")
def quick_way(levels: Levels) -> QuickWay:
    levels.reach("quiet")
    span = steady.Span()
    done = install(versions()[0])
    count_outside()
    edit_settings(house="Quick Library")
    setup = sh("portal-setup", "--clerk", "clerk", "--first-look", "--prices-as-shipped",
               input=f"{PASSWORD}\n")
    AUTHORITY.append(pathlib.Path("/etc/portal/tls/cert.pem"))
    good = done.returncode == setup.returncode == 0 and ask_for_a_lease() and begin_to_serve()
    text = code()
    status = redeem(text)
    took = span.seconds() if until(passes, 10) is not None else None
    is_quick = took is not None and span.allows(took, 60 * MINUTES * PATIENCE)
    return QuickWay(setup, good and text != "" and status == 303, is_quick,
                    f"{took} s; {status}; {output(setup, 200)}")


def test_minutes(quick_way: QuickWay) -> None:
    assert quick_way.is_good and quick_way.is_quick, (
        f"from a booted Debian to a sold and redeemed voucher with packets: at most {MINUTES} minutes  "
        f"[{quick_way.note}]")


def test_next_steps(quick_way: QuickWay) -> None:
    words = quick_way.setup.stdout
    assert f"https://{COUNTER}/" in words and "Next:" in words and "sell a voucher" in words, (
        f"set-up ends with the counter's address and what to do next  [{output(quick_way.setup)}]")


def test_first_look(quick_way: QuickWay) -> None:
    words = quick_way.setup.stdout
    assert "first look" in words and "certbot" in words and "not tried" in words, (
        "it says that the certificate is for a first look, and how to have one by a DNS challenge, not tried")


def test_key(quick_way: QuickWay) -> None:
    mode = oct(os.stat("/etc/portal/tls/key.pem").st_mode & 0o777)
    assert mode == "0o600", "the key of the first look is root's alone"
