"""A plans file that the server does not accept: who names it, and what the counter offers meanwhile."""

from __future__ import annotations

import html
import re
from collections.abc import Iterator

import pytest
from machine import PASSWORD, PLANS, all_run, counter, output, passes, send_as_clerk, serves, sh, until

pytestmark = pytest.mark.container
OTHER = """[[plan]]
id = "hour-2"
price = 200
uses = 1
seconds = 3600
bytes = 0
shelf_days = 90
extend = true
"""
FAULT = "plan 'hour': price = 200 in the file, and loaded with 300"


def menu() -> list[str]:
    """What the counter sells."""
    text = counter("")[1].partition('<select name="plan">')[2].partition("</select>")[0]
    return re.findall("<option [^>]*>([^<]*)</option>", text)


def fields_of_plan(page: str) -> dict[str, str]:
    """What a browser sends of the form of a plan, but for the token."""
    form, found = page.partition('<form method="post" action="/plan">')[2].partition("</form>")[0], {}
    for tag in re.findall("<input [^>]*>", form):
        words = dict(re.findall(r' (name|type|value)="([^"]*)"', tag))
        if words["name"] != "token" and (words.get("type") != "checkbox" or " checked" in tag):
            found[words["name"]] = html.unescape(words.get("value", ""))
    return found | dict(re.findall(r'<select id="\w+" name="(\w+)">.*?value="(\w+)" selected', form))


def wait_for_the_plans() -> float | None:
    """Seconds until the counter, which was started just now, has sent the file to the server."""
    return until(lambda: "plans: the server" in sh("portal-doctor --all").stdout, 15)


@pytest.fixture(scope="module")
def plans(request: pytest.FixtureRequest) -> Iterator[str]:
    """The text of the plans file, which has another price and a plan more now, and another plan of that price
    afterwards."""
    request.getfixturevalue("levels").reach("venue")
    text = PLANS.read_text()
    PLANS.write_text(text.replace("price = 300", "price = 200") + OTHER)
    yield text
    PLANS.write_text(text + OTHER)
    sh("portal-setup")
    until(lambda: serves() and passes(), 20)


def test_doctor_foresees_it(plans: str) -> None:
    done = sh("portal-doctor")
    assert done.returncode == 1 and FAULT in done.stdout, (
        f"the doctor foresees what the server will not accept  [{output(done)}]")


def test_counter_names_it(plans: str) -> None:
    sh("systemctl restart portal-counter")
    took, page = wait_for_the_plans(), counter("")[1]
    assert (took is not None and "Plan hour: price is 200 in the file, and 300 is loaded." in page
            and "give it a new id" in page), (
        "a plans file with another price: the counter's page names the plan and its line")
    assert menu() == ["hour: 1 hour, 3.00", "day: 1 day, 9.00", "gigabyte: 1.0 GB, 3 times, 5.00"], (
        "and offers what the server accepted before")
    notice = send_as_clerk("now", plan="hour", batch="one-price")[1]
    assert "Take 3.00." in notice, (
        f"at the price that is charged  [{re.findall(r'id=.told.[^>]*>(.*?)</p>', notice)}]")
    lines = sh("journalctl -b -u portal-counter -p warning -o cat --no-pager").stdout.splitlines()
    assert any(FAULT in line and "new id" in line for line in lines), (
        f"the journal has a warning  [{lines[-3:]}]")


def test_what_to_do(plans: str) -> None:
    done = sh("portal-doctor")
    assert done.returncode == 1 and FAULT in done.stdout and "give it a new id" in done.stdout, (
        f"the doctor says what to do  [{output(done)}]")
    done = sh("portal-setup")
    assert (done.returncode == 1 and FAULT in done.stdout and "1 wrong" in done.stdout
            and until(lambda: all_run() and serves() and passes(), 20) is not None), (
        f"set-up does all, says it and ends with 1  [{output(done)}]")
    done = sh("portal-setup", "--renew")
    assert done.returncode == 0 and until(all_run, 20) is not None, (
        f"the package's renewal is not stopped by it  [{output(done)}]")


def test_new_id(plans: str) -> None:
    PLANS.write_text(plans + OTHER)
    done = sh("portal-setup")
    assert done.returncode == 0 and menu()[-1] == "hour-2: 1 hour, 2.00", (
        f"with a new id it is accepted, and set-up ends with 0  [{output(done)}]")


def test_new_price_on_the_page(plans: str) -> None:
    """The unit of root writes the files, and the server has the price before the page says so."""
    offers = PLANS.with_name("offers.toml")
    try:
        looked = send_as_clerk("plan", plan="day", price="9,50")[1]
        told = send_as_clerk("plan", **{**fields_of_plan(looked), "password": PASSWORD, "do": "save"})[1]
        assert "day-2: 1 day, 9.50" in menu() and not any("9.00" in line for line in menu()), (
            "a manager changes a price on the page, and the next voucher is sold at it  "
            f"[{re.findall(r'id=.told.[^>]*>(.*?)</p>', told)} {menu()}]")
        status = PLANS.stat()
        assert (status.st_uid, status.st_mode & 0o777) == (0, 0o644) and 'id = "day-2"' in PLANS.read_text(), (
            "the file is root's, and has the plan")
        assert "day-2" not in PLANS.with_name("plans.toml.before").read_text(), "the file of before is kept"
    finally:
        for path in (offers, offers.with_name("offers.toml.before"), PLANS.with_name("plans.toml.before")):
            path.unlink(missing_ok=True)
