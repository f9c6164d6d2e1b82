"""Sets the venue up from /etc/portal/field.toml: files, a clerk's password, services. Run it again after each
edit.

    portal-setup [--ask] [--clerk NAME [--role ROLE]] [--first-look] [--prices-as-shipped] [FIELD.TOML]
    portal-setup --renew

It checks all, then changes all: where something is wrong, or a password is refused, nothing is changed but
the answers, which stay in field.toml and plans.toml.

On a terminal, with field.toml still as the package brought it (or with --ask), it asks for what it needs.
FIELD.TOML is taken in that file's place. --clerk NAME makes that clerk's account, or gives it a new password,
from the terminal or standard input; it has at least ten characters. --role: clerk or manager; the first
account is a manager's. --first-look makes a certificate that only this machine vouches for, where there is
none, and takes names that no other certificate can be had for. Before the first start the prices are asked
for, too; without a terminal plans.toml must be another one than the package brought, or --prices-as-shipped
takes it.
--renew, for the package's upgrades, starts nothing that does not run.
"""

from __future__ import annotations

import argparse
import hashlib
import os
import pathlib
import shutil
import subprocess
import sys
import time
from dataclasses import dataclass

from portal_deb import first_look, price_questions, questions
from portal_field import KIT
from portal_field.doctor.certificates import certificate
from portal_field.doctor.findings import Machine, State, findings_of
from portal_field.doctor.network import is_on_every_address
from portal_field.doctor.prices import plans
from portal_field.doctor.running import NOTES
from portal_field.lib.machine_time import Notes
from portal_field.settings import accounts, clerk_account, socket_owners
from portal_field.settings.accounts import fault_of_name
from portal_field.settings.maker import Maker, are_files_good, examine, fault_of_settings, print_findings
from portal_field.settings.samples import is_sample
from portal_field.settings.venue import BadSettings, Field

ETC = pathlib.Path("/etc/portal")
FIELD, PLANS = ETC / "field.toml", ETC / "plans.toml"
PARTS = ("portal.service", "portal-gateway.service", "portal-leases.service", "portal-front.service",
         "portal-counter.service")
# Parts that are off until field.toml has their table or line; which file is made then.
OPTIONAL = {"portal-radius.service": "radius.toml", "portal-radius-agent.service": "radius.toml",
            "portal-metrics.service": "metrics.toml"}
# what the counter's page wants, and the guests' page
WRITER, WRITER_SOCKET = "portal-settings.service", "portal-settings.socket"
GIVER, GIVER_SOCKET = "portal-give.service", "portal-give.socket"
LOOKUPS = ("portal-lookup@1.service", "portal-lookup@2.service")
GUESTS_CONF = pathlib.Path("/etc/nginx/conf.d/portal-guests.conf")
COUNTER_NGINX, COUNTER_CONF = "portal-counter-nginx.service", "/etc/portal/counter-nginx/nginx.conf"
RULES, DNSMASQ = pathlib.Path("/etc/portal/rules.nft"), pathlib.Path("/etc/dnsmasq.d/portal.conf")
# as Debian's unit has it, beside /etc/dnsmasq.conf
DNSMASQ_READS = "/etc/dnsmasq.d,.dpkg-dist,.dpkg-old,.dpkg-new"
SECRET = 0o640          # field.toml: it may have the password of the Wi-Fi
DEFAULT_SITE = pathlib.Path("/etc/nginx/sites-enabled/default")
DISABLED = ETC / "nginx-default-site"       # says that set-up disabled it: a removal enables it again


@dataclass(frozen=True)
class Wanted:
    """What set-up is to make: of which settings, for a clerk with a new password, with a certificate for a
    first look."""
    field: Field
    path: pathlib.Path
    clerk: str
    first_look: bool


def run(*words: str, check: bool = True) -> subprocess.CompletedProcess[str]:
    """Runs a command, and keeps what it prints."""
    return subprocess.run(words, check=check, capture_output=True, text=True)


def ctl(*words: str, check: bool = True) -> subprocess.CompletedProcess[str]:
    """Runs systemctl."""
    return run("systemctl", *words, check=check)


def is_active(unit: str) -> bool:
    """Whether a unit is active."""
    return ctl("is-active", "--quiet", unit, check=False).returncode == 0


def read_settings(text: str) -> Field:
    """The lines of field.toml; ValueError where one is not what it must be."""
    try:
        return Field.read(text)
    except BadSettings as fault:
        raise ValueError(str(fault)) from fault


def ask(is_first_look: bool) -> None:
    """Asks for what a venue must choose, and writes the answers into field.toml. Each must be what it must
    be, the zone by the program's own word."""
    def read(given: str) -> None:
        """Takes the lines as settings. ValueError: one of them is not what it must be."""
        for _, finding in examine(read_settings(given), None, "/usr/bin/portal"):
            if finding.state is State.WRONG:
                raise ValueError(finding.what)

    field, text = Field.in_file(FIELD), FIELD.read_text()
    takes_any = is_first_look or not first_look.is_needed(field)
    text = questions.ask_all(text, read, vars(field), questions.Here(), takes_any_name=takes_any)
    replace(FIELD, text, SECRET)
    print(f"portal-setup: the answers are in {FIELD}; whatever else can be chosen stands there, too")


def are_prices_open() -> bool:
    """Whether nobody has chosen prices yet, and none were loaded."""
    return not os.path.exists(Machine.DATABASE) and (not PLANS.exists() or is_sample(PLANS))


def ask_prices() -> None:
    """Asks for the prices, and writes the plans with them into plans.toml."""
    sample = PLANS if PLANS.exists() else KIT / "settings/plans.toml"
    replace(PLANS, price_questions.ask(sample.read_text()))
    print(f"portal-setup: the prices are in {PLANS}; whatever else can be chosen of a plan stands there, too")


def replace(path: pathlib.Path, text: str, mode: int = 0o644, group: str = "root") -> None:
    """Writes a file of root's as a whole: no program reads half of it."""
    part = path.with_name(f".{path.name}.part")
    part.unlink(missing_ok=True)
    part.touch(mode=mode)
    shutil.chown(part, "root", group)
    part.write_text(text)
    part.replace(path)


def ask_name() -> str:
    """A clerk's name from the terminal."""
    while fault := fault_of_name(name := input("A clerk's name: ").strip()):
        print(f"  no: {fault}")
    return name


def has_accounts() -> bool:
    """Whether anybody can log in at the counter, also by the password file of an earlier version."""
    return (ETC / accounts.FILE).exists() or (ETC / accounts.BEFORE).exists()


def may_begin(wanted: Wanted, prices_as_shipped: bool) -> bool:
    """Whether the installation may begin; says what is missing: by the doctor's checks before it, and a
    clerk's password."""
    but = (certificate,) if wanted.first_look else ()
    if not are_files_good(wanted.field, wanted.path, ETC):
        return False
    findings = examine(wanted.field, pathlib.Path("/"), "/usr/bin/portal", prices_as_shipped, but)
    fine, has_clerk = print_findings(wanted.path, findings), wanted.clerk != "" or has_accounts()
    if not has_clerk:
        print("portal-setup: no clerk has a password\n    do: `portal-setup --clerk NAME`", file=sys.stderr)
    return bool(fine) and has_clerk


def put_hand_made_aside() -> None:
    """Moves files of an installation by hand (the steps of the kit's README) aside: they would hide those of
    the package."""
    units = pathlib.Path("/etc/systemd/system")
    others = (pathlib.Path("/etc/sysusers.d/portal.conf"), pathlib.Path("/etc/tmpfiles.d/portal.conf"))
    aside = ETC / "by-hand"
    for path in (*(path for kind in ("service", "socket", "timer") for path in units.glob(f"portal*.{kind}")),
                 *others):
        if path.is_file() and not path.is_symlink():
            aside.mkdir(exist_ok=True)
            path.rename(aside / f"{path.parent.name}-{path.name}")
            print(f"portal-setup: {path}, made by hand, is now in {aside}")


def has_room_apart(field: Field) -> bool:
    """Whether the counter may have an nginx of its own. A site on every address, in nginx itself, has its
    port too: then an upgrade leaves the counter's page there."""
    if not is_on_every_address(Machine(field=field), 443):
        return True
    print("portal-setup: a site of nginx listens at port 443 of every address, so the counter's page stays "
          "in the nginx of the guests' page: name an address in that site's line `listen 443`, and run "
          "portal-setup", file=sys.stderr)
    return False


class Keeper(Maker):
    """Makes the files of a venue, and keeps in mind what was there. Units, users, folders and log rotation
    are the package's."""

    def __init__(self, field: Field, prices_as_shipped: bool) -> None:
        super().__init__(field, pathlib.Path("/"), str(KIT), prices_as_shipped)
        self.before: dict[pathlib.Path, tuple[bytes, int] | None] = {}
        self.goals = {source: goal for source, goal in self.goals.items()
                      if not source.startswith("units/")}

    def write(self, path: pathlib.Path, text: str, mode: int = 0o644, group: str = "") -> None:
        """Writes a file, once what was there is kept."""
        self.keep(path)
        super().write(path, text, mode, group)

    def remove(self, path: pathlib.Path) -> None:
        """Removes a file, once what was there is kept."""
        self.keep(path)
        super().remove(path)

    def keep(self, path: pathlib.Path) -> None:
        """Keeps what is there before the first change."""
        old = (path.read_bytes(), path.stat().st_mode & 0o7777) if path.exists() else None
        self.before.setdefault(path, old)

    def put_back(self) -> None:
        """Puts every file back as it was."""
        for path, old in self.before.items():
            if old:
                path.write_bytes(old[0])
                path.chmod(old[1])
            else:
                path.unlink(missing_ok=True)

    def has_changed(self, path: pathlib.Path) -> bool:
        """Whether a file is another one than before."""
        old = self.before.get(path)
        return old is None or old[0] != path.read_bytes()


def write_files(wanted: Wanted, args: argparse.Namespace) -> Keeper:
    """Makes every file. The keeper of those that were there before."""
    field, before = wanted.field, FIELD.with_name("field.toml.before")
    maker = Keeper(field, args.prices_as_shipped)
    maker.counter_is_apart = not args.renew or has_room_apart(field)
    if not (FIELD.exists() and FIELD.samefile(wanted.path)):
        if FIELD.exists():
            maker.write(before, FIELD.read_text(), SECRET)
        maker.write(FIELD, wanted.path.read_text(), SECRET)
    if wanted.first_look:
        for name in (field.cert, field.key):
            maker.keep(pathlib.Path(name))
        first_look.make(field)
    maker.settings()
    maker.others()
    maker.write(ETC / "server.env", f"PORTAL_PORT={field.desk_port}\n")
    return maker


def refusal() -> str:
    """What nginx or dnsmasq, which may have other files as well, say against the new files; nothing where
    they take them."""
    is_apart = pathlib.Path(COUNTER_CONF).with_name("page.conf").exists()
    for program, *words in (("nginx", "-t", "-q"), *([("nginx", "-t", "-q", "-c", COUNTER_CONF)] if is_apart
                                                     else []),
                            ("dnsmasq", "--test", f"--conf-dir={DNSMASQ_READS}")):
        tried = run(program, *words, check=False)
        if tried.returncode != 0:
            return f"{program} refuses: {(tried.stderr or tried.stdout).strip()}"
    return ""


def newer_than_loaded() -> bool:
    """Whether the rules on disk are not those that were loaded: remembered by their sum."""
    text = (KIT / "gateway/portal.nft").read_bytes() + RULES.read_bytes()
    mark, digest = pathlib.Path("/run/portal-rules.sum"), hashlib.sha256(text).hexdigest()
    if mark.exists() and mark.read_text() == digest:
        return False
    mark.write_text(digest)
    return True


def start_optional(again: bool) -> None:
    """Starts the parts that this venue has beside the others; those that it has not, or no longer, are
    off."""
    if (ETC / "radius.toml").exists():      # Debian's own service would hold the ports
        ctl("disable", "--now", "freeradius.service", check=False)
    present = [unit for unit, name in OPTIONAL.items() if (ETC / name).exists()]
    absent = [unit for unit in OPTIONAL if unit not in present]
    if present:
        ctl("enable", *present, check=False)
        ctl("try-restart" if again else "restart", *present, check=False)
    if absent:
        ctl("disable", "--now", *absent, check=False)


def renew(rules: str, keeper: Keeper) -> None:
    """Starts what runs again with the new version, after an upgrade; what does not run stays off."""
    if newer_than_loaded() or keeper.has_changed(RULES):
        ctl("try-reload-or-restart", rules, check=False)
    if is_active("portal-front.service"):      # which needs it, and an earlier version did not have it
        ctl("enable", "--now", "portal-leases.service", check=False)
        ctl("start", GIVER_SOCKET, *LOOKUPS, check=False)
        if keeper.has_changed(GUESTS_CONF):     # of earlier versions it asks the page for devices
            ctl("reload", "nginx.service", check=False)
    for unit in (*PARTS[1:], WRITER, GIVER, *LOOKUPS):      # one after another: one look-up answers
        ctl("try-restart", unit, check=False)
    if is_active("portal-counter.service"):     # which wants it, and an earlier version did not have it
        ctl("start", WRITER_SOCKET, check=False)
    start_optional(again=True)


def debians_own(path: pathlib.Path) -> bool:
    """Whether a file of nginx is as Debian brought it, by the sum that dpkg knows."""
    words = run("dpkg-query", "-W", "-f", "${Conffiles}\n", "nginx-common", check=False).stdout.split()
    sums = dict(zip(words, words[1:]))
    own = path.resolve()
    return own.is_file() and sums.get(str(own)) == hashlib.md5(own.read_bytes()).hexdigest()


def start(rules: str) -> None:
    """Enables and starts every part; nginx's default site goes if it is Debian's own."""
    if DEFAULT_SITE.is_symlink() and debians_own(DEFAULT_SITE):
        DISABLED.write_text(f"{os.readlink(DEFAULT_SITE)}\n")
        DEFAULT_SITE.unlink()
        print("portal-setup: nginx's default site, Debian's own page on every address, is no longer enabled")
    ctl("enable", *PARTS, rules, "portal-backup.timer")
    ctl("restart", PARTS[0], rules)
    ctl("restart", *PARTS[1:])
    ctl("start", "portal-backup.timer")
    start_optional(again=False)


def serve_pages(again: bool, keeper: Keeper) -> None:
    """Has nginx, the counter's own nginx and dnsmasq serve with their new files."""
    # a reload cannot go from every address to one: the old socket is still open when the new one is tried
    ctl("reload" if again and is_active("nginx.service") else "restart", "nginx.service", check=False)
    # both at once, since an earlier version's nginx of the counter has another user
    socket_owners.renew(lambda keys, units: ctl("show", "-p", keys, units).stdout)
    # after it: of earlier versions nginx itself had the counter's address; the counter's own tries for 2.5 s
    # to have it
    if not again or is_active("portal-counter.service"):
        ctl("reload-or-restart" if again else "restart", COUNTER_NGINX, check=False)
    if keeper.has_changed(DNSMASQ) or not is_active("dnsmasq.service"):
        ctl("try-restart" if again else "restart", "dnsmasq.service", check=False)


def server_waits() -> str:
    """Why the server does not serve, by its own word, for which it has some seconds; nothing where it
    serves."""
    for _ in range(100):
        if state := Notes(NOTES).read("state"):     # what the server says that it does
            break
        time.sleep(0.1)
    return "" if state.get("is") == "serves" else state.get("why", "it does not say why")


def doctor() -> int:
    """What `portal-doctor` says; it is asked again for some seconds, as the parts are just starting."""
    end = time.monotonic() + 10
    while (process := run("/usr/sbin/portal-doctor", check=False)).returncode != 0 and time.monotonic() < end:
        time.sleep(0.5)
    print(process.stdout, end="")
    return process.returncode


def report(field: Field, rules: str) -> int:
    """Prints what runs, and what the server waits for; where it does not wait, what the doctor says. Then
    what to do next. 0 where nothing is wrong."""
    others = ("nginx.service", COUNTER_NGINX, "dnsmasq.service", "portal-backup.timer")
    down = [unit for unit in (*PARTS, rules, *others) if not is_active(unit)]
    if down:
        print("portal-setup: not active:", ", ".join(down), file=sys.stderr)
        return 1
    why, status = server_waits(), 0
    if why:
        now = time.strftime("%Y-%m-%d %H:%M %Z")
        print(f"portal-setup: the server waits: {why}. If the time is right ({now}), say so on the counter's "
              f"page, https://{field.counter_name}/; otherwise set the clock.", file=sys.stderr)
        status = look_at_plans(field)
    elif doctor() != 0:
        return 1
    print(next_steps(field, bool(why)))
    return status


def look_at_plans(field: Field) -> int:
    """Prints the fault of a plans file that will not be accepted, as the doctor's check has it: the server
    waits, so the others would find more. 1 where there is one."""
    faults = [finding for _, finding in findings_of((plans,), Machine(field=field))
              if finding.state is State.WRONG]
    for finding in faults:
        print(f"portal-setup: {finding.what}\n    do: {finding.do}", file=sys.stderr)
    return int(bool(faults))


def next_steps(field: Field, waits: bool) -> str:
    """The addresses of both pages, and what to do next, as text."""
    clerks = ", ".join(clerk_account.accounts_in(ETC))
    counter, guests = (address.partition("/")[0] for address in (field.counter, field.guests))
    steps = ["Say on the counter's page that the time is right."] if waits else []
    steps += [f"At the counter's computer open https://{field.counter_name}/ (clerk: {clerks}). Where that "
              f"name is not known yet: a line `{counter} {field.counter_name}` in its hosts file.",
              "Issue a batch there, print it, sell a voucher. Prices are in /etc/portal/plans.toml"
              + ("." if field.currency else ", shown without a currency: `currency` in field.toml."),
              f"Join the guests' network with a phone: it is led to https://{field.name}/portal ({guests})."]
    lines = [f"    {number}. {step}" for number, step in enumerate(steps, 1)]
    own = [first_look.real_one(field)] if first_look.is_own(field) else []
    return "\n".join([f"counter: https://{field.counter_name}/   guests: https://{field.name}/portal",
                      "Next:", *lines, *own])


def read_words() -> argparse.Namespace:
    """The words of the command line."""
    words = argparse.ArgumentParser(description="Sets the venue up from /etc/portal/field.toml.")
    words.add_argument("--ask", action="store_true",
                       help="ask on the terminal, and write the answers into field.toml")
    words.add_argument("--clerk", metavar="NAME",
                       help="make that clerk's account, or set its password, from the terminal or standard "
                            "input")
    words.add_argument("--role", choices=accounts.ROLES,
                       help="of --clerk: a clerk sells, a manager does all; the first account is a manager's")
    words.add_argument("--first-look", action="store_true",
                       help="make a certificate of its own, where there is none")
    words.add_argument("--prices-as-shipped", action="store_true",
                       help="take the prices of the sample, plans.toml")
    words.add_argument("--renew", action="store_true", help="for upgrades: start nothing that does not run")
    words.add_argument("settings", type=pathlib.Path, nargs="?", metavar="FIELD.TOML",
                       help="take this file as field.toml")
    return words.parse_args()


def wants_first_look() -> bool:
    """Asks on the terminal whether a certificate is to be made for a first look."""
    print("There is no certificate at cert and key of field.toml.")
    answer = input("Make one that only this machine vouches for, for a first look? [yes]: ")
    return answer.strip()[:1] in ("", "y", "Y")


def asks(args: argparse.Namespace) -> bool:
    """Whether it asks for what field.toml needs: on a terminal, while that is the sample; or with --ask."""
    is_new = not args.settings and not args.renew and FIELD.exists() and is_sample(FIELD)
    return bool(args.ask or sys.stdin.isatty() and is_new)


def hear(args: argparse.Namespace) -> Wanted:
    """Asks what is to be asked, and writes the answers into field.toml and plans.toml. What is wanted.
    BadSettings, OSError: the settings cannot be read."""
    path: pathlib.Path = args.settings or FIELD
    is_asked = asks(args)
    if is_asked:
        ask(args.first_look)
    field = Field.in_file(path)
    hears = (is_asked or sys.stdin.isatty()) and not args.renew and not args.prices_as_shipped
    if hears and are_prices_open():
        ask_prices()
    clerk = args.clerk or (ask_name() if is_asked and not has_accounts() else "")
    is_first_look = first_look.is_needed(field) and bool(args.first_look or is_asked and wants_first_look())
    return Wanted(field, path, clerk, is_first_look)


def set_up() -> int:
    """Sets the venue up; 0 where all runs, 1 where something is wrong."""
    args = read_words()
    if os.geteuid() != 0:
        print("portal-setup: it needs root", file=sys.stderr)
        return 1
    os.umask(0o022)
    try:
        wanted = hear(args)
    except (BadSettings, OSError) as fault:
        print(f"portal-setup: {fault_of_settings(args.settings or FIELD, fault)}", file=sys.stderr)
        return 1
    field = wanted.field
    if not args.renew and not may_begin(wanted, args.prices_as_shipped):
        return 1
    password = clerk_account.new_password(ETC, wanted.clerk, args.role or "") if wanted.clerk else None
    keeper = write_files(wanted, args)
    reason = refusal()
    if reason:
        keeper.put_back()
        print(f"portal-setup: {reason}\nportal-setup: nothing was changed; mend that, and run it again",
              file=sys.stderr)
        return 1
    if password:
        password.put(ETC, lambda path, text: replace(path, text, accounts.MODE, accounts.GROUP))
    return open_venue(field, keeper, args.renew)


def open_venue(field: Field, keeper: Keeper, is_renewed: bool) -> int:
    """Has everything run with the files that were made; 0 where all runs, 1 where something is wrong."""
    put_hand_made_aside()
    rules = f"portal-rules@{run('systemd-escape', '--', field.lan).stdout.strip()}.service"
    ctl("daemon-reload")
    run("sysctl", "-q", "-p", "/etc/sysctl.d/60-portal.conf", check=False)     # limits by the network's size
    if is_renewed:
        renew(rules, keeper)
    else:
        start(rules)
    serve_pages(is_renewed, keeper)
    return 0 if is_renewed else report(field, rules)


def main() -> int:
    """Runs the command and returns its status; where no answer comes, nothing was changed."""
    try:
        return set_up()
    except KeyboardInterrupt:
        return 130
    except EOFError:
        print("portal-setup: no answer was given", file=sys.stderr)
        return 1
