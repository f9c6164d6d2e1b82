"""An installation by hand, in the steps of the kit's README, and the package over it."""

from __future__ import annotations

import pathlib
import shutil
from dataclasses import dataclass

import pytest
from booted import Levels
from machine import (
    FIELD, HERE, PARTS, PASSWORD, UNITS, Done, Gap, active, all_run, ask_for_a_lease, code, install,
    output, passes, put_certificate, redeem, say_the_time_is_right, serves, sh, show, tokens, until,
    versions)

pytestmark = pytest.mark.container
KIT, MINE = pathlib.Path("/usr/share/portal/field"), pathlib.Path("/root/my-field.toml")
UNITS_OF_THE_README = ("portal portal-rules@lan0 portal-gateway portal-leases portal-front portal-counter "
                       "portal-backup.timer")
LAST_STEPS = ("chmod 0640 /root/my-field.toml && systemd-sysusers && chgrp portal-counter "
              "/etc/portal/counter.toml /etc/portal/clerks.toml && "
              "systemd-tmpfiles --create portal.conf && systemctl daemon-reload && "
              f"systemctl enable --now {UNITS_OF_THE_README} && systemctl restart nginx dnsmasq")


@dataclass(frozen=True)
class Setup:
    """How its files were made, and its units started, and how long it took until every unit was active."""
    making: Done
    start: Done
    seconds: float | None


@pytest.fixture(scope="module")
def setup(levels: Levels) -> Setup:
    levels.remove()
    shutil.rmtree(KIT, ignore_errors=True)
    KIT.parent.mkdir(parents=True, exist_ok=True)
    shutil.copytree(HERE / "field", KIT, symlinks=True)
    sh(f"dpkg-deb -x {HERE}/portal_{versions()[0]}_amd64.deb /run/x; install -m 755 /run/x/usr/bin/portal "
       "/usr/bin/portal")
    put_certificate()
    MINE.write_text((KIT / "settings/field.toml").read_text().replace('clock = "kernel"', 'clock = "clerk"'))
    making = sh(KIT / "setup", "--prices-as-shipped", "--clerk", "clerk", MINE, input=f"{PASSWORD}\n")
    return Setup(making, sh(LAST_STEPS), until(all_run, 20))


def test_units(setup: Setup) -> None:
    assert setup.seconds is not None, (
        "by hand, in README's steps: every unit is active  "
        f"[{output(setup.making)} {output(setup.start)} "
        f"{[unit for unit in UNITS if active(unit) != 'active']}]")


def test_voucher(setup: Setup) -> None:
    ask_for_a_lease()
    notice = say_the_time_is_right()
    assert until(serves, 10) is not None and notice, (
        f"by hand: a new database waits for a clerk's word on the time  [{notice}]")
    redeem(code())
    assert until(passes, 6) is not None, "by hand: a voucher is redeemed, and packets pass"


def test_package_over_it(setup: Setup) -> None:
    before = tokens()
    with Gap() as gap:
        done = install(versions()[0])
        FIELD.write_text(FIELD.read_text().replace('clock = "kernel"', 'clock = "clerk"'))
        again = sh("portal-setup")
        took = until(lambda: all_run() and passes(), 20)
    places = {unit: show(unit, "FragmentPath") for unit in PARTS}
    assert (done.returncode == again.returncode == 0 and took is not None and tokens() == before
            and all(path.startswith(("/lib/", "/usr/lib/")) for path in places.values())), (
        "the package over it: its own units, the same tokens, the session goes on  "
        f"[longest gap of packets {gap.seconds} s; "
        f"{[path for path in places.values() if path.startswith('/etc')]}; {output(again)}]")
