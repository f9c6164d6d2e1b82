"""The table of parts, `units/parts.toml`, and what is made by it: units, sockets, users, folders, packet rules, documents."""

from __future__ import annotations

import pathlib
import re
import tomllib
import unittest
from collections.abc import Iterator
from typing import Any

import suite
from portal_field.venues import files

FIELD = pathlib.Path(__file__).resolve().parent.parent
UNITS = FIELD / "units"
TABLE = tomllib.loads((UNITS / "parts.toml").read_text())
PARTS: list[dict[str, Any]] = TABLE["part"]
OURS = [part for part in PARTS if part["unit"].startswith("portal")]
# Users that another package makes, or systemd for each run
OF_OTHERS = {"root", "www-data", "dynamic"}
IN_WORDS = {"dynamic": "one of its own each time", "portal_%i": "portal_NAME"}
NGINX = {"portal-counter-nginx.service": FIELD / "counter/nginx-main.conf"}     # root starts it, and its worker is a user


def lines(name: str, key: str) -> list[str]:
    """The words of all lines of this key in a unit."""
    text = (UNITS / name).read_text()
    return [word for line in re.findall(rf"(?m)^{key}=(.*)$", text) for word in line.split()]


def user_of(unit: str) -> str:
    """The user of a unit, or of the worker that its program starts."""
    if unit in NGINX:
        return str(re.findall("(?m)^user (.*);", NGINX[unit].read_text())[0])
    if lines(unit, "DynamicUser") == ["yes"]:
        return "dynamic"
    return (lines(unit, "User") or ["root"])[0]


def folders_of(unit: str) -> Iterator[str]:
    """The folders that a unit may write."""
    for key, place in (("StateDirectory", "/var/lib"), ("RuntimeDirectory", "/run")):
        yield from (f"{place}/{name}" for name in lines(unit, key))
    yield from (path.lstrip("-") for key in ("ReadWritePaths", "BindPaths") for path in lines(unit, key))


def openers(socket: str) -> set[str]:
    """The units whose processes open a socket, by its owner, its group and its mode."""
    owner, group, mode = (lines(socket, key)[0] for key in ("SocketUser", "SocketGroup", "SocketMode"))
    number = int(mode, 8)
    return {part["unit"] for part in PARTS if part["user"] == owner and number & 0o200
            or {group} & {part["user"], *part["groups"]} and number & 0o020 or number & 0o002}


class Table(unittest.TestCase):
    def test_each_unit_has_a_row(self) -> None:
        self.assertEqual(sorted(part["unit"] for part in OURS), sorted(path.name for path in UNITS.glob("portal*.service")))

    def test_each_unit_has_the_user_and_the_groups_of_its_row(self) -> None:
        for part in OURS:
            unit, user = part["unit"], part["user"]
            self.assertEqual((user_of(unit), sorted(lines(unit, "SupplementaryGroups"))), (user, part["groups"]), unit)
            self.assertIn(lines(unit, "Group"), ([], [user]), unit)

    def test_each_unit_has_the_secrets_of_its_row(self) -> None:
        for part in OURS:
            self.assertEqual([word.split(":")[0] for word in lines(part["unit"], "LoadCredential")], part.get("secrets", []), part["unit"])

    def test_each_unit_writes_the_folders_of_its_row(self) -> None:
        """Its temporary folders, and those that everybody may write, are no part's own. What systemd makes read-only has to name
        /run: it leaves that out where it makes /proc or /sys anew."""
        for part in OURS:
            folders = sorted({path.removesuffix("/*") for path in part.get("writes", []) if path.endswith("/*")})
            own = sorted(set(folders_of(part["unit"]))) if part["unit"] not in NGINX else []
            if lines(part["unit"], "ProtectSystem") == ["strict"]:
                self.assertEqual((folders, lines(part["unit"], "ReadOnlyPaths")), (own, ["/run"]), part["unit"])
            self.assertLessEqual(set(own), set(folders), part["unit"])

    def test_each_unit_does_not_see_what_its_row_hides(self) -> None:
        for part in OURS:
            self.assertEqual({path.lstrip("-") for path in lines(part["unit"], "InaccessiblePaths")}, set(part.get("hidden", [])), part["unit"])

    def test_each_socket_is_open_to_the_parts_that_name_it(self) -> None:
        sockets = sorted(path.name for path in UNITS.glob("*.socket"))
        self.assertGreater(len(sockets), 8)
        for socket in sockets:
            path, = lines(socket, "ListenStream")
            self.assertEqual(openers(socket), {part["unit"] for part in PARTS if path in part.get("connects", [])}, path)

    def test_each_server_is_open_to_the_parts_that_name_it(self) -> None:
        rules = re.search(r"define desk_users = \{(.*)\}", (FIELD / "settings/rules.nft").read_text())
        assert rules
        for port, users in (("the server", re.findall('"(.*?)"', rules[1])), ("servers of venues", files.USERS)):
            self.assertEqual(sorted(users), sorted({"root", *(part["user"] for part in PARTS if port in part.get("connects", []))}), port)

    def test_each_user_is_made_and_in_no_other_group(self) -> None:
        rows = [line.split() for line in (UNITS / "sysusers.conf").read_text().splitlines() if not line.startswith("#")]
        users = {part["user"] for part in PARTS if "%i" not in part["user"]} - OF_OTHERS
        self.assertEqual(sorted(row[1] for row in rows if row[0] == "u"), sorted(users))
        self.assertEqual([row for row in rows if row[0] not in "ug"], [], "whoever is in a group is so by its unit alone")

    def test_each_shared_folder_is_written_by_the_parts_that_name_it(self) -> None:
        for line in (UNITS / "tmpfiles.conf").read_text().splitlines():
            if line.startswith("#"):
                continue
            _, path, mode, user, group = line.split()
            self.assertEqual(int(mode, 8) & 0o002, 0, path)
            if int(mode, 8) & 0o020:
                writers = {part["unit"] for part in OURS if path + "/*" in part.get("writes", [])}
                self.assertEqual(writers, {part["unit"] for part in OURS if part["user"] == user or path in folders_of(part["unit"])}, path)
                self.assertLessEqual(writers, {part["unit"] for part in OURS if group in part["groups"]}, path)

    def test_the_page_of_parts_has_the_same_users(self) -> None:
        rows = [[cell.strip() for cell in line.split("|")] for line in (FIELD / "docs/PARTS.md").read_text().splitlines() if line.startswith("| ")]
        for part in PARTS:
            name = part["unit"].removesuffix(".service")
            found = [row for row in rows if re.search(rf"`{re.escape(name)}\d?`", row[1])]
            self.assertEqual(len(found), 1, name)
            user = IN_WORDS.get(part["user"], part["user"])
            self.assertIn(user, re.findall("one of its own each time|[a-zA-Z_-]+", found[0][4]), name)


if __name__ == "__main__":
    suite.main()
