"""What set-up makes of the table [radius]: settings, the unit's environment, and the secrets of the access
servers."""

from __future__ import annotations

import pathlib
import secrets
from collections.abc import Callable

from portal_field.settings.radius_settings import Radius
from portal_field.settings.venue import Field, toml_lines

POLL = 0.5                  # seconds: a Disconnect-Request goes out within a second of a close
WORDS = "refusals.json"     # in the unit's runtime folder, for the metrics
Write = Callable[[pathlib.Path, str, int], None]


def settings(field: Field, radius: Radius, run: str, state: str) -> str:
    """The text of radius.toml, which the module and the agent read."""
    text = toml_lines({"desk_port": field.desk_port, "radacct": f"{state}/radacct.db",
                       "interim_seconds": radius.interim_seconds,
                       "keep_days": radius.keep_days, "language": radius.language, "poll_seconds": POLL,
                       "quiet_seconds": field.quiet_seconds, "refusals": f"{run}/{WORDS}"})
    return text + "".join(
        f"\n[nas.{server.name}]\n" + toml_lines({"address": str(server.network),
                                                 "disconnect_port": server.disconnect_port,
                                                 "extend_by_coa": server.extend_by_coa})
        for server in radius.nas)


def environment(radius: Radius, etc: pathlib.Path, kit: str, run: str, state: str) -> str:
    """The text of radius.env: what raddb/ has as $ENV{..}, and where the module is and its settings."""
    words = {"FIELD_SETTINGS": etc / "radius.toml", "PYTHONPATH": kit, "RADIUS_CONFIG": f"{kit}/radius/raddb",
             "RADIUS_RUN": run, "RADIUS_RADACCT": f"{state}/radacct.db", "RADIUS_LISTEN": radius.listen,
             "RADIUS_AUTH_PORT": radius.auth_port, "RADIUS_ACCT_PORT": radius.acct_port,
             "RADIUS_REJECT_DELAY": 1}
    return "".join(f"{name}={value}\n" for name, value in words.items())


def client(server: str, address: str, secret: str, signed: bool) -> str:
    """The lines of clients.conf for one access server."""
    return (f"client {server} {{\n\tipaddr = {address}\n\tsecret = {secret}\n\tnas_type = other\n"
            f"\trequire_message_authenticator = {'yes' if signed else 'no'}\n}}\n")


def secret_of(folder: pathlib.Path, name: str, write: Write) -> str:
    """The secret of an access server, drawn once: what was typed into the access server stays good."""
    path = folder / name
    if not path.exists():
        write(path, secrets.token_hex(16) + "\n", 0o600)
    return path.read_text().strip()


def make(field: Field, etc: pathlib.Path, kit: str, run: str, state: str, write: Write) -> None:
    """Makes the files of FreeRADIUS and of the agent. Without the table [radius] nothing is made, and what
    was made is taken away but for the secrets: the units then start nothing."""
    radius, folder = field.access_servers, etc / "credentials/radius"
    paths = etc / "radius.toml", etc / "radius.env", folder / "clients.conf"
    if radius is None:
        for path in paths:
            path.unlink(missing_ok=True)
        return
    folder.mkdir(parents=True, exist_ok=True)
    folder.chmod(0o700)
    clients = [client(server.name, str(server.network), secret_of(folder, server.name, write),
                      server.message_authenticator) for server in radius.nas]
    # with it every Class that access servers hold stays good
    secret_of(etc / "credentials", "class_key", write)
    write(paths[2], "".join(clients), 0o600)
    write(paths[1], environment(radius, etc, kit, run, state), 0o644)
    write(paths[0], settings(field, radius, run, state), 0o644)
