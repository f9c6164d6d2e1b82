"""Makes the files of the venues by name from their settings: of each venue, and those that all of them
share. A file that is the same is not written."""

from __future__ import annotations

import ipaddress
import json
import pathlib
import re
import secrets
from collections.abc import Iterable

from portal_field import KIT
from portal_field.lib.error_pages import counter_pages
from portal_field.radius import radius_files
from portal_field.settings.maker import POLICY, Maker
from portal_field.settings.venue import Field
from portal_field.venues import office, sign_in
from portal_field.venues.places import Machine, Places

TOKENS = 0o600
SECRET = 0o640          # field.toml of a venue: it may have the password of the Wi-Fi
# As /etc/portal/rules.nft has them: who may connect to a desk
USERS = ("root", "portal-counter", "portal-radius", "portal-metrics")
OFFICE_FILE, OFFICE_MODE = str(office.SETTINGS).lstrip("/"), 0o640
SOCKET = "/portal-venues-counter/socket"
SIGN_IN_SOCKET = "/portal-sign-in/socket"
OFFICE_SOCKET = "/portal-office/socket"     # of what reads the view of all venues for the page of the office


class Files(Maker):
    """Writes files, and remembers which of them are new."""

    def __init__(self, field: Field, root: pathlib.Path, kit: str) -> None:
        super().__init__(field, root, kit)
        self.written: list[pathlib.Path] = []

    def write(self, path: pathlib.Path, text: str, mode: int = 0o644, group: str = "") -> None:
        """Writes a file, where its text or its mode is another one."""
        if path.is_file() and path.read_bytes() == text.encode() and path.stat().st_mode & 0o777 == mode:
            return
        super().write(path, text, mode, group)
        self.written.append(path)

    def remove(self, path: pathlib.Path) -> None:
        """Removes a file, where it is there."""
        if path.exists():
            super().remove(path)
            self.written.append(path)


class VenueFiles(Files):
    """The files of one venue."""

    def __init__(self, field: Field, places: Places, kit: str = str(KIT)) -> None:
        super().__init__(field, places.root, kit)
        self.places, self.etc = places, places.settings
        self.copied = str(places.copies / "copied")

    def token(self, name: str) -> str:
        """A secret of the venue, drawn once; that of the counter is beside those of the other venues."""
        if name != "desk_token":
            return super().token(name)
        path = self.places.desk_token
        if not path.exists():
            path.parent.mkdir(parents=True, exist_ok=True)
            path.parent.chmod(0o700)
            self.write(path, secrets.token_urlsafe(32) + "\n", TOKENS)
        return path.read_text().strip()

    def make(self) -> list[pathlib.Path]:
        """Makes all files of the venue; those that are new. OSError: one cannot be written."""
        field, places = self.field, self.places
        self.server_settings(TOKENS)
        self.write(self.etc / "server.env", f"PORTAL_PORT={field.desk_port}\n")
        if not (self.etc / "plans.toml").exists() and not places.database.exists():
            self.write(self.etc / "plans.toml", (KIT / "settings/plans.toml").read_text())
        (self.etc / "texts").mkdir(exist_ok=True)
        self.counter_settings("")
        run = f"{self.run}/portal-venues-radius/{places.name}"
        state = self.root / "var/lib/portal-venues-radius" / places.name
        radius_files.make(field, self.etc, self.kit, run, str(state), self.write)
        return self.written

    def sign_in(self) -> dict[str, str]:
        """The lines of the counter's page where the chain has a sign-in of its own."""
        conf = sign_in.settings_in(self.root)
        if conf is None:
            return {}
        return {"sign_in": self.run + SIGN_IN_SOCKET, "sign_in_label": conf.label, "sign_in_mark": conf.mark}

    def write_toml(self, name: str, values: dict[str, object], mode: int = 0o644, group: str = "") -> None:
        """Writes settings of a part; those of the counter's page with the paths of this venue."""
        if name == "counter.toml":
            values = values | {
                "socket": self.run + SOCKET, "notes": str(self.places.notes), "free_days": "",
                "venue": self.places.name, "office": self.run + OFFICE_SOCKET, **self.sign_in(),
                "settings_socket": f"{self.run}/portal-venues-settings/{self.places.name}"}
        super().write_toml(name, values, mode, group)


def map_lines(venues: dict[str, Field]) -> str:
    """The lines of nginx's map from the name of a counter's page to the venue."""
    return "".join(f"    {field.counter_name} {name};\n" for name, field in sorted(venues.items()))


def counter_server(venues: dict[str, Field], machine: Machine, maker: Files) -> str:
    """The lines of nginx for the counters' pages of all venues; a name that no venue has is closed without
    an answer. Nothing where there is no venue."""
    if not venues:
        return ""
    template = (KIT / "counter/nginx-counter.conf").read_text()
    shared, _, server = template.partition("\nserver {")
    shared = shared if not (maker.root / "etc/portal/counter-nginx/page.conf").exists() else ""
    allowed = [str(ipaddress.IPv4Network(network)) for network in machine.clerks] or ["all"]
    words = {"COUNTER": machine.listen, "CERT": machine.cert, "KEY": machine.key, "POLICY": POLICY,
             "COUNTER_NAME": " ".join(sorted(field.counter_name for field in venues.values())),
             "COUNTER_NET": ";\n    allow ".join(allowed), "ETC": maker.etc, "FIELD": maker.kit,
             "COUNTER_SOCKET": maker.run + SOCKET, "VENUE": "$portal_venue"}
    server = re.sub("@([A-Z_]+)@", lambda word: str(words[word[1]]), server)
    return (f"# Made by portal-venues: the counters' pages of the venues by name.\n{shared}\n"
            f"map $host $portal_venue {{\n    default \"\";\n{map_lines(venues)}}}\n"
            f"server {{\n    listen {machine.listen}:443 ssl;\n    server_name \"\";\n"
            f"    ssl_reject_handshake on;\n}}\nserver {{{server}")


def rules(ports: Iterable[int], maker: Files) -> str:
    """The rules of nftables that let none but the parts of the venues connect to a desk."""
    elements = ", ".join(map(str, sorted(ports)))
    users = ", ".join(f'"{user}"' for user in USERS)
    template = (KIT / "gateway/desks.nft").read_text()
    return template.replace("@PORTS@", f"elements = {{ {elements} }}" if elements else "").replace(
        "@USERS@", users)


def office_address(machine: Machine) -> str:
    """How the page of the office reaches the view: as a role of its own, without the password of another."""
    if machine.office_database or not machine.database:
        return machine.office_database if machine.database else ""
    try:
        from psycopg.conninfo import conninfo_to_dict, make_conninfo
        parts = conninfo_to_dict(machine.database)
    except Exception:       # no psycopg, or no such address: collect says so
        return ""
    kept = {key: value for key, value in parts.items() if key not in ("password", "user")}
    return str(make_conninfo(**kept, user=office.ROLE))


def make_shared(venues: dict[str, Field], machine: Machine, root: pathlib.Path,
                kit: str = str(KIT)) -> list[pathlib.Path]:
    """Makes the files that all venues of this machine share; those that are new."""
    any_field = next(iter(venues.values()), None)
    maker = Files(any_field, root, kit)     # type: ignore[arg-type]
    nginx = root / "etc/portal/counter-nginx"
    page = nginx / "venues.conf"
    if text := counter_server(venues, machine, maker):
        main = (KIT / "counter/nginx-main.conf").read_text()
        for word, value in (("RUN", maker.run), ("ETC", maker.etc)):
            main = main.replace(f"@{word}@", str(value))
        maker.write(nginx / "nginx.conf", main)
        maker.write(page, text)
        for name, words in counter_pages("en", "").items():
            if not (nginx / name).exists():
                maker.write(nginx / name, words)
    else:
        maker.remove(page)
    if address := office_address(machine) if venues else "":
        text = f"database = {json.dumps(address, ensure_ascii=False)}\n"
        maker.write(root / OFFICE_FILE, text, OFFICE_MODE, office.ROLE)
    else:
        maker.remove(root / OFFICE_FILE)
    ports = [field.desk_port for field in venues.values()]
    maker.write(root / "etc/portal/venues/desks.nft", rules(ports, maker))
    return maker.written
