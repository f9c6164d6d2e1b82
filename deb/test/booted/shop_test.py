"""Other services on the same machine, a shop's site, names and firewall; set-up by questions on a terminal
beside them."""

from __future__ import annotations

import os
import pathlib
import pty
import select
import signal
import tomllib
from collections.abc import Iterator
from dataclasses import dataclass

import pytest
from booted import Levels
from machine import (
    AUTHORITY, FIELD, GATEWAY, PARTS, PASSWORD, PATIENCE, PLANS, Done, active, all_run, apt,
    ask_for_a_lease, begin_to_serve, code, counter, edit_settings, install, output, passes,
    put_certificate, redeem, sh, share_the_counters_door, until, versions, within)

pytestmark = pytest.mark.container
WAITS = 120                 # seconds for the next word of a command on a terminal
SHOP = pathlib.Path("/etc/nginx/sites-available/shop")
SHOP_NAMES = pathlib.Path("/etc/dnsmasq.d/shop.conf")
FIREWALL = pathlib.Path("/etc/nftables.conf")
SITE = "server { listen 80; server_name shop.example; location / { return 200 'the shop'; } }\n"
SITE_BY_TLS = ("server { listen 443 ssl default_server; ssl_certificate /etc/portal/tls/cert.pem; "
               "ssl_certificate_key /etc/portal/tls/key.pem; return 200 'the shop'; }\n")
OLD_SITE = pathlib.Path("/etc/nginx/conf.d/portal-counter.conf")
PAGE = pathlib.Path("/etc/portal/counter-nginx/page.conf")
IN_THE_WAY = "server { listen 10.77.0.1:80 default_server; return 200 'in the way'; }\n"
NAMES = "interface=ctr0\n%s\ndhcp-range=10.88.0.50,10.88.0.99,1h\naddress=/till.example/10.88.0.5\n"
RULES = """flush ruleset
table inet shop {
    chain forward { type filter hook forward priority 10; policy drop; %s }
    chain input { type filter hook input priority 10; policy accept; tcp dport 23 drop; }
}
"""
LETS_GUESTS = ("iifname lan0 oifname wan0 accept; iifname wan0 oifname lan0 ct state established,related "
               "accept;")
# What an owner answers to each question of portal-setup: also what cannot be, where the question comes again.
ANSWERS = (
    ("venue's name", "Café \"Eck\""), ("POSIX rule", "Europe"), ("POSIX rule", "Europe/Berlin"),
    ("clock is right", "clerk"),
    ("to the outside", "nothing here"), ("to the outside", "wan0"), ("guests' network device", "lan0"),
    ("address on it", ""), ("counter's network", ""), ("portal's name", ""), ("name of the counter's page", ""),
    ("language of the counter's page", ""), ("currency of the prices", ""), ("Wi-Fi's name", "Café"), ("Wi-Fi's password", ""),
    ("price of hour", "2,5"), ("price of day", "nothing"), ("price of day", ""), ("price of gigabyte", "-"),
    ("clerk's name", ""), ("clerk's name", "a:b"), ("clerk's name", "clerk"), ("Password of", "too-short"),
    ("Password of", PASSWORD), ("Once more", PASSWORD))


def site() -> bool:
    done = within("outside", "curl", "-s", "--max-time", 5, "-H", "Host: shop.example", "http://203.0.113.1/")
    return done.stdout == "the shop"


def till() -> bool:
    """The counter's network has names and leases by the venue's own lines."""
    done = within("clerk", "busybox", "nslookup", "till.example", "10.88.0.1")
    lease = within("clerk", "busybox", "udhcpc", "-i", "eth0", "-f", "-q", "-n", "-t", "5", "-s", "/bin/true")
    return "10.88.0.5" in done.stdout and lease.returncode == 0


def firewall() -> str:
    return sh("nft list table inet shop").stdout


def goes_on(before: str) -> bool:
    """Whether the shop has its site and names, and its firewall of before."""
    return site() and till() and firewall() == before


@pytest.fixture(scope="module")
def shop(levels: Levels) -> None:
    """It stands on the machine, with what the package depends on; the package is not there."""
    if not SHOP.parent.is_dir():
        levels.reach("installed")
    levels.remove()
    SHOP.write_text(SITE)
    enabled = pathlib.Path("/etc/nginx/sites-enabled")
    (enabled / "shop").symlink_to(SHOP)
    default = pathlib.Path("/etc/nginx/sites-available/default")
    default.write_text(default.read_text() + "# edited by the shop\n")
    if not (enabled / "default").exists():
        (enabled / "default").symlink_to(default)
    SHOP_NAMES.write_text(NAMES % "bind-interfaces")
    FIREWALL.write_text(RULES % "")
    sh("systemctl restart nginx; systemctl restart dnsmasq; systemctl enable nftables; systemctl restart "
       "nftables")


def test_shop(shop: None) -> None:
    assert site() and till() and firewall(), (
        f"a shop with a site, names and a firewall of its own stands on the machine  [{site()} {till()} "
        f"{active('dnsmasq')}]")


@pytest.fixture(scope="module")
def firewall_beside(shop: None) -> str:
    """The firewall of before the package was installed beside the shop; there is a certificate, and nothing
    is set up."""
    before = firewall()
    install(versions()[0])
    put_certificate()
    AUTHORITY.append(AUTHORITY[0])
    return before


def test_package_beside(firewall_beside: str) -> None:
    assert goes_on(firewall_beside), "the package beside them: nothing of theirs is touched"


def test_set_up_is_refused(firewall_beside: str) -> None:
    edit_settings()
    done = sh("portal-setup", "--clerk", "clerk", input=f"{PASSWORD}\n")
    states = {active(unit) for unit in PARTS}
    assert (done.returncode == 1 and "bind-dynamic" in done.stderr
            and "table inet shop, chain forward" in done.stderr), (
        "set-up is refused in words: dnsmasq's bind-interfaces, and a chain that drops what guests forward "
        f" [{output(done, 600)}]")
    assert goes_on(firewall_beside) and states == {"inactive"} and not GATEWAY.exists(), (
        f"then nothing was changed  [{states}]")


@pytest.fixture(scope="module")
def open_shop(firewall_beside: str) -> str:
    """The firewall of a shop that lets guests pass, and whose names let others be served."""
    SHOP_NAMES.write_text(NAMES % "bind-dynamic")
    FIREWALL.write_text(RULES % LETS_GUESTS)
    sh("systemctl restart dnsmasq nftables")
    return firewall()


def test_what_nginx_refuses(open_shop: str) -> None:
    edit_settings()
    SHOP.write_text(SITE + IN_THE_WAY)
    done = sh("portal-setup", "--prices-as-shipped", "--clerk", "clerk", input=f"{PASSWORD}\n")
    takes_files = sh("nginx -t").returncode == 0
    SHOP.write_text(SITE)
    assert (done.returncode == 1 and "nginx refuses" in done.stderr
            and "duplicate default server" in done.stderr
            and "A sample" in PLANS.read_text()
            and not os.path.exists("/etc/nginx/conf.d/portal-guests.conf") and takes_files), (
        f"what nginx refuses is said in its words, and all files are put back  [{output(done, 300)}]")
    assert goes_on(open_shop), "the shop goes on"


def on_a_terminal(words: list[str], answers: tuple[tuple[str, str], ...]) -> tuple[int, str]:
    """The command's status, and all that it wrote; each answer is given once its question was read."""
    process, terminal = pty.fork()
    if process == 0:
        os.execvp(words[0], words)
    text, seen = "", 0

    def more() -> bool:
        nonlocal text
        if not select.select([terminal], [], [], WAITS * PATIENCE)[0]:
            os.kill(process, signal.SIGKILL)        # it waits for an answer to another question
        try:
            part = os.read(terminal, 65536)
        except OSError:
            return False
        text += part.decode(errors="replace")
        return part != b""

    for question, answer in answers:
        while question not in text[seen:] and more():
            pass
        seen = len(text)
        os.write(terminal, answer.encode() + b"\n")
    while more():
        pass
    return os.waitstatus_to_exitcode(os.waitpid(process, 0)[1]), text


@dataclass(frozen=True)
class Questions:
    """The shop's firewall of before, and portal-setup's status and words."""
    firewall: str
    status: int
    text: str


@pytest.fixture(scope="module")
def questions(open_shop: str) -> Questions:
    """On a terminal, with field.toml as the package brought it; and beside the shop."""
    FIELD.write_bytes(pathlib.Path("/usr/share/portal/field/settings/field.toml").read_bytes())
    for name in ("clerks.toml", "tls/cert.pem", "tls/key.pem"):
        pathlib.Path("/etc/portal", name).unlink(missing_ok=True)
    status, text = on_a_terminal(["portal-setup", "--first-look"], ANSWERS)     # which takes the sample's names
    AUTHORITY.append(pathlib.Path("/etc/portal/tls/cert.pem"))
    return Questions(open_shop, status, text)


def test_questions(questions: Questions) -> None:
    settings_file, text = FIELD.read_text(), questions.text
    settings = ('house = "Café \\"Eck\\""    ', 'wan = "wan0"', 'clock = "clerk"',
                'zone = "CET-1CEST,M3.5.0,M10.5.0/3"',
                "# the venue's name")
    assert (questions.status == 0 and all(setting in settings_file for setting in settings)
            and "no time zone of this name" in text
            and "  no: " in text), (
        "on a terminal set-up asks, says no to what cannot be, and writes the answers into field.toml  "
        f"[{text[-900:].replace(chr(13), '').replace(chr(10), '; ')}]")


def test_prices(questions: Questions) -> None:
    plans = [(plan["id"], plan["price"]) for plan in tomllib.loads(PLANS.read_text())["plan"]]
    assert plans == [("hour", 250), ("day", 900)], (
        "it asks for the prices before the first start, and writes them into plans.toml")


def test_beside_the_shop(questions: Questions) -> None:
    assert until(all_run, 20) is not None and SHOP_NAMES.name in questions.text, (
        "beside the shop, and says so")
    ask_for_a_lease()
    begin_to_serve()
    status = redeem(code())
    assert status == 303 and until(passes, 10) is not None, (
        f"a voucher is redeemed there, and packets pass  [{status}]")


def test_shop_goes_on(questions: Questions) -> None:
    assert goes_on(questions.firewall) and os.path.exists("/etc/nginx/sites-enabled/default"), (
        "the shop goes on: its site, the site that it edited, its names, its firewall  "
        f"[{site()} {till()} {firewall() == questions.firewall}]")


def test_firewall_is_loaded_anew(questions: Questions) -> None:
    sh("systemctl restart nftables")
    took = until(lambda: passes() and firewall() == questions.firewall, 20)
    assert took is not None, "the firewall loaded anew: both, and the session goes on"


@pytest.fixture
def site_on_every_address(questions: Questions) -> Iterator[int]:
    """The shop's site has port 443 of every address, and the counter's page is in nginx beside it, as earlier
    versions have it; the status of that page."""
    sh("systemctl stop portal-counter-nginx")
    share_the_counters_door()
    PAGE.rename(OLD_SITE)
    SHOP.write_text(SITE + SITE_BY_TLS)
    sh("systemctl restart nginx")
    yield counter("")[0]
    sh("gpasswd --delete www-data portal-counter")
    SHOP.write_text(SITE)
    sh("systemctl restart nginx")


def leave_every_address() -> Done:
    """The shop's site gives it up, and set-up is run again."""
    SHOP.write_text(SITE)
    sh("systemctl restart nginx")
    return sh("portal-setup")


def test_site_on_every_address(site_on_every_address: int) -> None:
    done = sh("portal-setup --renew")
    status = counter("")[0]
    assert (site_on_every_address == 200 and done.returncode == 0 and status == 200 and OLD_SITE.exists()
            and "name an address in that site's line `listen 443`" in done.stderr
            and active("portal-counter-nginx") == "inactive"), (
        "an upgrade beside a site on port 443 of every address leaves the counter's page there, and says "
        "what to do  "
        f"[{site_on_every_address} {status} {output(done)}]")
    done = sh("portal-setup")
    assert (done.returncode == 1 and "nginx listens there at every address" in done.stderr
            and counter("")[0] == 200), (
        f"set-up is refused then, in words  [{output(done)}]")
    done = leave_every_address()
    own = until(lambda: counter("")[0] == 200, 10) is not None and active("portal-counter-nginx") == "active"
    assert done.returncode == 0 and own and not OLD_SITE.exists() and site(), (
        f"without it the counter's page gets an nginx of its own  [{output(done)}]")


def test_after_a_purge(firewall_beside: str) -> None:
    before = firewall()
    apt("purge", "portal")
    assert goes_on(before) and active("dnsmasq") == "active", (
        f"after a purge the shop is as it was  [{site()} {till()}]")
