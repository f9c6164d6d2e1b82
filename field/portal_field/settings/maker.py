"""Makes every file of the field kit from field.toml, into a folder (default /): tokens once, all else anew
each time.

    setup [--root FOLDER] [--field FOLDER] [--portal PROGRAM] [--machine FOLDER] [--prices-as-shipped]
    [--clerk NAME [--role ROLE]] field.toml

First the doctor's checks that make sense before an installation: devices, addresses, certificate, logo,
zone, clock, ports, others, plans, disk. Where one is wrong, or the clerk's password is refused, nothing is
made. With --root they are left out, unless --machine names the folder in which that machine's files are, or
--portal the program (then the zone alone is asked). --prices-as-shipped takes the prices of the sample,
plans.toml, where there is no database yet. --clerk NAME makes that clerk's account, or gives it a new
password, from the terminal or standard input.
"""

from __future__ import annotations

import argparse
import contextlib
import ipaddress
import os
import pathlib
import re
import secrets
import shutil
import sys
from collections import Counter
from collections.abc import Iterable
from typing import Any

from portal_field import KIT
from portal_field.doctor.base import clock, disk, logo, zone
from portal_field.doctor.causes import folded, trace
from portal_field.doctor.certificates import certificate
from portal_field.doctor.findings import Finding, Look, Machine, State, findings_of
from portal_field.doctor.network import addresses, devices, ports
from portal_field.doctor.optional import optional
from portal_field.doctor.others import others
from portal_field.doctor.prices import free_minutes, plans
from portal_field.lib import colours
from portal_field.lib.error_pages import counter_pages, error_pages
from portal_field.lib.language_names import GUESTS
from portal_field.radius import radius_files
from portal_field.settings import accounts, clerk_account, venue_file
from portal_field.settings.kinds import PICTURE_FILE
from portal_field.settings.samples import is_sample, mark_as_chosen
from portal_field.settings.venue import BadSettings, Field, toml_lines

BEFORE: tuple[Look, ...] = (
    devices, addresses, certificate, logo, zone, clock, free_minutes, ports, others, optional, plans, disk)
POLICY = ("default-src 'none'; style-src 'self'; img-src 'self'; form-action 'self'; frame-ancestors 'none'; "
          "base-uri 'none'")

INSTALLED = {       # from the kit, with the words between @ signs filled in
    "guests/nginx-guests.conf": "etc/nginx/conf.d/portal-guests.conf",
    "counter/nginx-main.conf": "etc/portal/counter-nginx/nginx.conf",
    "counter/nginx-counter.conf": "etc/portal/counter-nginx/page.conf",     # APART
    "settings/dnsmasq.conf": "etc/dnsmasq.d/portal.conf",
    "settings/rules.nft": "etc/portal/rules.nft",
    "settings/sysctl.conf": "etc/sysctl.d/60-portal.conf",
    "units/sysusers.conf": "etc/sysusers.d/portal.conf",
    "units/tmpfiles.conf": "etc/tmpfiles.d/portal.conf",
    "units/logrotate.conf": "etc/logrotate.d/portal",
    "units/nginx.conf": "etc/systemd/system/nginx.service.d/portal.conf",
    "units/dnsmasq.conf": "etc/systemd/system/dnsmasq.service.d/portal.conf",
    "units/logrotate-timer.conf": "etc/systemd/system/logrotate.timer.d/portal.conf",
    **{f"units/{unit}": f"etc/systemd/system/{unit}" for unit in (
        "portal.service", "portal-rules@.service", "portal-gateway.service", "portal-leases.service",
        "portal-front.service", "portal-counter.service", "portal-counter-nginx.service",
        "portal-backup.service",
        "portal-backup.timer",
        "portal-radius.service", "portal-radius-agent.service", "portal-metrics.service",
        "portal-failed@.service", "portal-restarts.service", "portal-restarts.timer", "portal-front.socket",
        "portal-counter.socket", "portal-paper.socket", "portal-paper@.service", "portal-report.service",
        "portal-report.timer", "portal-settings.socket", "portal-settings.service", "portal-give.socket",
        "portal-give.service", "portal-lookup@.socket", "portal-lookup@.service",
        # of venues by name
        "portal@.service", "portal-settings@.socket", "portal-settings@.service", "portal-radius@.service",
        "portal-radius-agent@.service", "portal-venues.target", "portal-venues.slice",
        "portal-venues-clock.service", "portal-venues-rules.service", "portal-venues-counter.socket",
        "portal-venues-counter.service", "portal-venues-backup.service", "portal-venues-backup.timer",
        "portal-venues-collect.service", "portal-venues-collect.timer", "portal-venues-plans.service",
        "portal-venues-plans.timer", "portal-office.socket", "portal-office@.service",
        "portal-sign-in.socket", "portal-sign-in@.service")},
}
# Where the counter's page is served: by an nginx of its own; or, as earlier versions have it, by that of the
# guests' page
ACME = ("/etc/letsencrypt/", "/etc/lego/")      # of certbot, and of lego as the documents call it
APART, TOGETHER = "etc/portal/counter-nginx/page.conf", "etc/nginx/conf.d/portal-counter.conf"
# Then the nginx of the guests' page opens the socket of the counter's
OPEN_TO_BOTH = "etc/systemd/system/portal-counter.socket.d/together.conf"


def language_lines() -> str:
    """The lines of nginx's map of languages, as `of_ours` in lib/languages.py has them: traditional Chinese
    by its script or place before all other Chinese."""
    patterns = {tag: tag for tag in GUESTS} | {"zh-Hant": "zh-(?:hant|tw|hk|mo)", "zh-Hans": "zh"}
    tags = sorted(GUESTS, key=lambda tag: tag == "zh-Hans")
    return "".join(f"    \"~*^,?{patterns[tag]}\\b\" {tag};\n" for tag in tags)


def lacks_terms(field: Field, etc: pathlib.Path) -> bool:
    """Whether guests have to accept terms that are not there."""
    return bool(field.terms_version) and not any((etc / "texts").glob("terms*.md"))


def paths_elsewhere(field: Field) -> list[str]:
    """The paths outside of /etc/portal that a copy of the whole venue has too: the certificate, as a client
    of ACME keeps it with its account, and the logo."""
    found = dict.fromkeys(path for path in (field.cert, field.key, field.logo) if path)
    folders = {path: "/".join(path.split("/")[:3]) if path.startswith(ACME) else path for path in found}
    return sorted({path for path in folders.values() if not path.startswith("/etc/portal/")})


class Maker:
    """Makes the files of a venue below a folder."""

    def __init__(self, field: Field, root: pathlib.Path, kit: str, prices_as_shipped: bool = False) -> None:
        self.field, self.root, self.kit, self.prices_as_shipped = field, root, kit, prices_as_shipped
        self.run = "/run" if root == pathlib.Path("/") else str(root / "run")
        self.etc = root / "etc/portal"
        self.leases = str(root / "var/lib/misc/dnsmasq.leases")     # Debian's place
        self.copied = str(root / "var/lib/portal-backup/copied")    # its time is that of the last good copy
        self.counter_is_apart = True
        self.goals = INSTALLED

    def write(self, path: pathlib.Path, text: str, mode: int = 0o644, group: str = "") -> None:
        """Writes a file as a whole, or leaves what was there: no program reads a name with a dot before it,
        and then it is renamed. Of a group that is not there yet nobody is a member: the file is root's alone
        then."""
        path.parent.mkdir(parents=True, exist_ok=True)
        part = path.with_name(f".{path.name}.part")
        part.unlink(missing_ok=True)
        try:
            with os.fdopen(os.open(part, os.O_WRONLY | os.O_CREAT | os.O_EXCL, mode), "w",
                           encoding="utf-8") as file:
                file.write(text)
                file.flush()
                os.fsync(file.fileno())
            if group:
                with contextlib.suppress(LookupError, PermissionError):
                    shutil.chown(part, group=group)
            part.replace(path)
        finally:
            part.unlink(missing_ok=True)

    def remove(self, path: pathlib.Path) -> None:
        """Removes a file, where it is there."""
        path.unlink(missing_ok=True)

    def write_toml(self, name: str, values: dict[str, Any], mode: int = 0o644, group: str = "") -> None:
        """Writes settings of a part."""
        self.write(self.etc / name, toml_lines(values), mode, group)

    def token(self, name: str) -> str:
        """A secret of the venue, drawn once."""
        path = self.etc / "credentials" / name
        if not path.exists():
            self.write(path, secrets.token_urlsafe(32) + "\n", 0o600)
        return path.read_text().strip()

    def server_settings(self, mode: int) -> None:
        """Makes the server's settings, and its tokens in a folder for root alone."""
        field, folder = self.field, self.etc / "credentials"
        folder.mkdir(parents=True, exist_ok=True)
        folder.chmod(0o700)
        venue_url = {"venue_url": field.venue_url} if field.venue_url else {}
        self.write_toml("portal.toml", {"zone": field.zone, "portal_url": field.url, **venue_url,
                                        "desk_token": self.token("desk_token"),
                                        "gateway_token": self.token("gateway_token")}, mode)

    def settings(self) -> None:
        """Makes the settings of every part, and the secrets."""
        field, run = self.field, self.run
        self.server_settings(0o600)
        self.plans()
        port = field.desk_port
        knock, snapshot = run + "/portal-gateway/knock", run + "/portal-gateway/sessions.json"
        self.write_toml("gateway.toml", {"lan": field.lan, "desk_port": port,
                                         "poll_seconds": field.poll_seconds,
                                         "quiet_seconds": field.quiet_seconds,
                                         "time_quiet_seconds": field.time_quiet_seconds,
                                         "grace_seconds": field.grace_seconds,
                                         "knock": knock, "snapshot": snapshot,
                                         "stops": run + "/portal-gateway/stops",
                                         "rules": str(self.etc / "rules.nft")})
        network = ipaddress.IPv4Interface(field.guests).network
        self.write_toml("leases.toml", {"lan": field.lan, "network": str(network), "leases": self.leases})
        self.token("form_key")      # of the guests' forms: pages that were shown before a restart stay good
        self.front_settings(knock)
        self.give_settings(snapshot)
        self.style()
        self.write_toml("server.toml", {"clock": field.clock, "zone": field.zone})
        self.write_toml("failed.toml", {"on_failure": field.on_failure})
        self.write_toml("backup.toml", {"key": field.backup_key, "paths": paths_elsewhere(field)})
        self.counter_settings(snapshot)
        self.accounts()
        self.metrics(run, port)
        state = self.root / "var/lib/portal-radius"
        radius_files.make(field, self.etc, self.kit, run + "/portal-radius", str(state), self.write)

    def front_settings(self, knock: str) -> None:
        """Makes the settings of the guests' page, and of the look-up of devices."""
        field, run = self.field, self.run
        self.write(self.etc / "lookup.env", f"PORTAL_LAN={field.lan}\n")
        self.write_toml("front.toml", {"house": field.house, "help": field.help, "lan": field.lan,
                                       "desk_port": field.desk_port, "zone": field.zone, "knock": knock,
                                       "notes": run + "/portal-clock", "socket": run + "/portal-front/socket",
                                       "refusals": run + "/portal-page/refusals.json",
                                       "texts": str(self.etc / "texts"), "logo": bool(field.logo),
                                       "picture": str(self.etc / PICTURE_FILE), "currency": field.currency,
                                       "prices": field.guest_prices, "terms_days": field.terms_days,
                                       "terms_version": field.terms_version,
                                       "agreed": str(self.root / "var/lib/portal-front/agreed.db"),
                                       "give": run + "/portal-give/socket", "free": bool(field.free_plan)})

    def give_settings(self, snapshot: str) -> None:
        """Makes the settings of the part that gives free minutes and ends sessions."""
        field, run = self.field, self.run
        network = ipaddress.IPv4Interface(field.guests).network
        self.write_toml("give.toml", {"lan": field.lan, "network": str(network), "zone": field.zone,
                                      "desk_port": field.desk_port, "socket": run + "/portal-give/socket",
                                      "front_user": "portal-front", "snapshot": snapshot,
                                      "plans": str(self.etc / "plans.toml"), "free_plan": field.free_plan,
                                      "free_daily": field.free_daily,
                                      "record": str(self.root / "var/lib/portal-give/given.db")})

    def style(self) -> None:
        """Makes the style sheet of the guests' page, with the venue's colour, and the folder of its texts."""
        sheet = (KIT / "guests/style.css").read_text() + colours.lines(self.field.guest_colour)
        self.write(self.etc / "guests/style.css", sheet)
        (self.etc / "texts").mkdir(exist_ok=True)

    def counter_settings(self, snapshot: str) -> None:
        """Makes the settings of the counter's page, which has the gateway's list by its path."""
        field, run = self.field, self.run
        self.write_toml("counter.toml", {"house": field.house, "zone": field.zone,
                                         "desk_port": field.desk_port, "portal_url": field.url,
                                         "snapshot": snapshot, "plans": str(self.etc / "plans.toml"),
                                         "socket": run + "/portal-counter/socket",
                                         "notes": run + "/portal-clock",
                                         "logo": field.logo, "voucher_size": field.voucher_size,
                                         "voucher_barcode": field.voucher_barcode,
                                         "paper": run + "/portal-paper/socket",
                                         "daily_report": field.daily_report,
                                         "owner_contact": field.owner_contact, "copied": self.copied,
                                         "currency": field.currency, "wifi": field.wifi,
                                         "wifi_password": field.wifi_password,
                                         "language": field.counter_language,
                                         "voucher_languages": field.voucher_languages,
                                         "accounts": str(self.etc),
                                         "settings_socket": run + "/portal-settings/socket",
                                         "lock_minutes": field.counter_lock_minutes,
                                         "clerk_refund_limit": field.clerk_refund_limit,
                                         "payments": field.payments, "drawers": field.drawers,
                                         "receipt_size": field.receipt_size,
                                         "receipt_head": field.receipt_head,
                                         "csv_separator": field.csv_separator,
                                         "free_days": str(self.root / "var/lib/portal-give/days.json"),
                                         "terms_version": field.terms_version},
                        0o640, "portal-counter")      # which has the password of the Wi-Fi

    def accounts(self) -> None:
        """Makes the accounts of the counter from the password file of an earlier version, once. That file
        stays, since such a version reads it, and says at its head that this one does not."""
        path, before = self.etc / accounts.FILE, self.etc / accounts.BEFORE
        if path.exists() or not before.exists():
            return
        found = accounts.Accounts.of_earlier_version(before.read_text(encoding="utf-8", errors="replace"))
        if not found:
            return
        self.write(path, found.text, accounts.MODE, accounts.GROUP)
        print(f"setup: the counter's accounts are in {path} now, made from {before}. Who had a password is "
              f"a manager: {', '.join(found)}. `portal-setup --clerk NAME --role clerk` makes one a clerk",
              file=sys.stderr)

    def plans(self) -> None:
        """Makes the plans file, a sample for a new venue; a database gets no plans of a sample because the
        venue's own file is lost. A sample whose prices somebody takes as they are is marked, so that
        set-up does not stop again."""
        path = self.etc / "plans.toml"
        if not path.exists() and not (self.root / Machine.DATABASE.lstrip("/")).exists():
            self.write(path, (KIT / "settings/plans.toml").read_text())
        if self.prices_as_shipped and path.exists() and is_sample(path):
            self.write(path, mark_as_chosen(path.read_text()))

    def metrics(self, run: str, port: int) -> None:
        """Makes the settings of the metrics, or none: then their unit starts nothing. The counter's token,
        which sells and refunds, is passed on for the takings alone."""
        path, takings = self.etc / "metrics.toml", self.etc / "credentials/metrics/desk_token"
        field = self.field
        if not field.metrics or not field.metrics_takings:
            takings.unlink(missing_ok=True)
        if not field.metrics:
            path.unlink(missing_ok=True)
            return
        if field.metrics_takings:
            self.write(takings, self.token("desk_token") + "\n", 0o600)
        takings.parent.mkdir(parents=True, exist_ok=True)
        address, _, metrics_port = field.metrics.rpartition(":")
        self.write_toml("metrics.toml", {
            "address": address, "port": int(metrics_port), "desk_port": port, "zone": field.zone,
            "page": run + "/portal-page/refusals.json", "radius": run + "/portal-radius/refusals.json",
            "gate": run + "/portal-gateway/gate.json", "grace_seconds": field.grace_seconds,
            "copied": self.copied})

    def owner_contact(self) -> str:
        """Whom clerks call: by the file that a manager wrote on the counter's page, or else by field.toml."""
        with contextlib.suppress(venue_file.BadVenueFile):      # as at an upgrade, which goes on
            return str(venue_file.in_folder(self.etc).get("owner_contact", self.field.owner_contact))
        return self.field.owner_contact

    def others(self) -> None:
        """Makes the files of other programs: nginx, dnsmasq, nftables, systemd."""
        field = self.field
        guests, counter = ipaddress.IPv4Interface(field.guests), ipaddress.IPv4Interface(field.counter)
        first, last, time = field.leases
        leases = int(ipaddress.IPv4Address(last)) - int(ipaddress.IPv4Address(first)) + 1
        neighbours = max(256, guests.network.num_addresses)
        words = {
            "NAME": field.name, "PORT": field.desk_port, "LAN": field.lan, "WAN": field.wan,
            "FIELD": self.kit,
            "GUESTS": guests.ip, "RUN": self.run, "LEASES": f"{first},{last},{guests.netmask},{time}",
            "ETC": self.etc, "LANGUAGES": language_lines(),
            "CERT": field.cert, "KEY": field.key, "POLICY": POLICY,
            "COUNTER": counter.ip, "COUNTER_NET": counter.network, "COUNTER_NAME": field.counter_name,
            "VENUE": "",
            "FRONT_SOCKET": self.run + "/portal-front/socket",
            "COUNTER_SOCKET": self.run + "/portal-counter/socket",
            "LEASE_MAX": leases, "LEASE_FILE": self.leases, "NEIGHBOURS": neighbours,
            "NEIGHBOURS_2": 2 * neighbours,
            "NEIGHBOURS_4": 4 * neighbours, "LISTED": field.set_elements(), "OWN_NAME": field.own_name(),
            "LET_OUT": field.let_out(),
            "LOGO": field.logo or self.etc / "guests/no-logo", "PICTURE": self.etc / PICTURE_FILE}
        for source, goal in self.goals.items():
            text = re.sub("@([A-Z_0-9]+)@", lambda word: str(words[word[1]]), (KIT / source).read_text())
            self.write(self.root / (TOGETHER if goal == APART and not self.counter_is_apart else goal), text)
        self.remove(self.root / (TOGETHER if self.counter_is_apart else APART))
        if self.counter_is_apart:
            self.remove(self.root / OPEN_TO_BOTH)
        else:
            self.write(self.root / OPEN_TO_BOTH, "[Socket]\nSocketGroup=www-data\n")
        for name, text in counter_pages(field.counter_language, self.owner_contact()).items():
            self.write(self.etc / "counter-nginx" / name, text)
        for name, text in error_pages(field.house).items():
            self.write(self.etc / "errors" / name, text)


def are_files_good(field: Field, path: pathlib.Path, etc: pathlib.Path) -> bool:
    """Whether the terms are there that guests have to accept, and venue.toml has no mistake; says what is
    wrong."""
    if lacks_terms(field, etc):
        print(f"setup: {path}: terms_version = {field.terms_version!r}: there is no {etc}/texts/terms.md, "
              "which guests would have to accept\n    do: write the terms there, or empty the line",
              file=sys.stderr)
        return False
    try:
        venue_file.in_folder(etc)
    except venue_file.BadVenueFile as fault:
        print(f"setup: {etc / venue_file.FILE}: {fault}\n    do: save the page *Payment and receipts* of the "
              "counter again, or take the file away", file=sys.stderr)
        return False
    return True


def examine(field: Field, machine: pathlib.Path | None, portal: str | None,
            prices_as_shipped: bool = False, but: tuple[Look, ...] = ()) -> list[tuple[str, Finding]]:
    """What the checks before an installation find: all of them on a machine, the zone alone where that is not
    given."""
    if machine is None and portal is None:
        return []
    place = Machine(machine or pathlib.Path("/"), field, portal or "/usr/bin/portal", False,
                    prices_as_shipped)
    looks = BEFORE if machine else (zone,)
    return list(findings_of((look for look in looks if look not in but), place))


def print_findings(path: pathlib.Path, findings: Iterable[tuple[str, Finding]]) -> bool:
    """Says what is not good, of causes and what follows from them the causes; whether nothing is wrong."""
    rows = trace(findings)
    follow = Counter(row.cause for row in rows)
    for place, row in enumerate(rows):
        finding, more = row.finding, f"\n    {folded(follow[place])}" if follow[place] else ""
        if row.cause is not None or finding.state is State.GOOD:
            continue
        if finding.state is State.WRONG:
            print(f"setup: {path}: {finding.what}\n    do: {finding.do}{more}", file=sys.stderr)
        else:
            print(f"setup: {finding.state.value}: {row.check}: {finding.what}{more}", file=sys.stderr)
    return all(row.finding.state is not State.WRONG for row in rows)


def fault_of_settings(path: pathlib.Path, fault: BadSettings | OSError) -> str:
    """What is said of settings that cannot be read."""
    if isinstance(fault, BadSettings):
        return f"{fault.at(path)}\n    do: {fault.do}"
    do = "run it as root" if isinstance(fault, PermissionError) else "look at the disk: `df -h /etc`"
    return f"{path}: {fault.strerror}\n    do: {do}"


def read_words() -> argparse.Namespace:
    """The words of the command line."""
    words = argparse.ArgumentParser(description="Makes every file of the field kit from field.toml.")
    words.add_argument("--root", default="/", type=pathlib.Path, help="the folder under which all is written")
    words.add_argument("--field", default=str(KIT), help="where the kit will stand")
    words.add_argument("--portal",
                       help="the program that is asked about its settings (with /: /usr/bin/portal)")
    words.add_argument("--machine", type=pathlib.Path,
                       help="where the machine's files are looked for (with /: /)")
    words.add_argument("--prices-as-shipped", action="store_true",
                       help="take the sample's prices, before the first start")
    words.add_argument("--clerk", metavar="NAME", help="make that clerk's account, or set its password")
    words.add_argument("--role", choices=accounts.AT_A_COUNTER,
                       help="of --clerk; the first account is a manager's")
    words.add_argument("settings", type=pathlib.Path)
    args = words.parse_args()
    if args.root == pathlib.Path("/"):
        args.portal, args.machine = args.portal or "/usr/bin/portal", args.machine or args.root
    return args


def main() -> int:
    """Makes every file; 1 where something is wrong, and then nothing is made."""
    args = read_words()
    try:
        field = Field.in_file(args.settings)
    except (BadSettings, PermissionError) as fault:
        print(f"setup: {fault_of_settings(args.settings, fault)}", file=sys.stderr)
        return 1
    if not are_files_good(field, args.settings, args.root / "etc/portal"):
        return 1
    if not print_findings(args.settings, examine(field, args.machine, args.portal, args.prices_as_shipped)):
        return 1
    maker = Maker(field, args.root, args.field, args.prices_as_shipped)
    clerk = clerk_account.new_password(maker.etc, args.clerk, args.role or "") if args.clerk else None
    os.umask(0o022)
    maker.settings()
    maker.others()
    if clerk:
        clerk.put(maker.etc, lambda path, text: maker.write(path, text, accounts.MODE, accounts.GROUP))
    print("made in", args.root)
    return 0
