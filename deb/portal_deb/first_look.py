"""A certificate that only this machine vouches for, for a first look; and how to have one that every phone
takes."""

from __future__ import annotations

import os
import pathlib
import subprocess
from typing import Any

DAYS = 30
OPENSSL = ("openssl", "req", "-x509", "-newkey", "ec", "-pkeyopt", "ec_paramgen_curve:P-256", "-nodes",
           "-days", str(DAYS))


def is_needed(field: Any) -> bool:
    """Whether neither file of the certificate is there."""
    return not os.path.exists(field.cert) and not os.path.exists(field.key)


def make(field: Any) -> None:
    """Makes both files of field.toml's certificate, where neither is there."""
    cert, key = pathlib.Path(field.cert), pathlib.Path(field.key)
    for folder in {cert.parent, key.parent}:
        folder.mkdir(parents=True, exist_ok=True)
    umask = os.umask(0o077)
    try:
        subprocess.run([*OPENSSL, "-subj", f"/CN={field.name}", "-keyout", str(key), "-out", str(cert),
                        "-addext", f"subjectAltName=DNS:{field.name},DNS:{field.counter_name}"],
                       check=True, capture_output=True)
        cert.chmod(0o644)
    finally:
        os.umask(umask)


def is_own(field: Any) -> bool:
    """Whether the certificate signs itself, so that no browser takes it without a question."""
    words = ("openssl", "x509", "-noout", "-subject", "-issuer", "-in", field.cert)
    names = subprocess.run(words, capture_output=True, text=True).stdout.splitlines()
    return len(names) == 2 and names[0].partition("=")[2].strip() == names[1].partition("=")[2].strip()


def real_one(field: Any) -> str:
    """How to get a certificate of an authority, by a record in the DNS of the name: nobody needs to reach
    this machine."""
    names = f"-d {field.name} -d {field.counter_name}"
    return f"""\
    Each browser warns of this certificate: it is for a first look, and ends after {DAYS} days. One that
    phones take, by a DNS challenge (not tried; PROVIDER is who has your names; more in
    /usr/share/doc/portal/INSTALL.md):
        apt install certbot python3-certbot-dns-PROVIDER
        certbot certonly --dns-PROVIDER --dns-PROVIDER-credentials /etc/letsencrypt/dns.ini {names} \\
            --deploy-hook 'systemctl reload nginx'
    then in /etc/portal/field.toml cert = "/etc/letsencrypt/live/{field.name}/fullchain.pem" and key =
    "/etc/letsencrypt/live/{field.name}/privkey.pem", and portal-setup again. certbot.timer renews it."""
