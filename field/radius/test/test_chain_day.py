"""An hour of five venues, with a part of each kind killed meanwhile, and a short while of two: `chain_day.py` runs a whole day of
fifty."""

from __future__ import annotations

import pathlib
import subprocess

import pytest
from chain_day import PARTS, Size, run_day
from desk_process import FIELD
from needs import lacks

LACKS = lacks("postgresql", "python3-psycopg", "nginx", "openssl", "util-linux", "gcc")
SHORT = Size(venues=2, devices=10, hours=0.2, kills=1, seed=1, radius=1, begin="23:50", parts="desk")
HOUR = Size(venues=5, devices=20, hours=1.0, kills=len(PARTS), seed=1, radius=2, begin="23:30")

pytestmark = [pytest.mark.radius, pytest.mark.skipif(bool(LACKS), reason=LACKS)]


@pytest.fixture
def program(portal: str, tmp_path: pathlib.Path) -> str:
    """The program, or the shipped one: the stand-in has other tables."""
    if not portal:
        subprocess.run([FIELD.parent / "deb/shipped", tmp_path / "portal"], check=True, capture_output=True)
    return portal or f"{tmp_path}/portal"


def test_a_short_while(program: str) -> None:
    run_day(program, SHORT)


def test_an_hour(program: str) -> None:
    day = run_day(program, HOUR)
    happened = sum((one.happened for one in day.days.values()), day.happened)
    print(f"note {day.summary()}".replace("\n", "; "))
    for what in ("sold by the page", "sell", "refund", "let in", "redeem", "refused", "accounting", "sent again",
                 *(f"killed {part}" for part in PARTS)):
        assert happened[what], f"each kind of act happened  [{what}: {happened}]"
