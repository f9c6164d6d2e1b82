"""The certificate: its files, its key, its names, its days, and whether phones will take it."""

from __future__ import annotations

import re
import ssl
import time
from collections.abc import Iterator
from dataclasses import replace

from portal_field.doctor.findings import CannotTell, Finding, Machine, good, warning, wrong

FILES = "certificate files"     # without which nginx does not start
FEW_DAYS = 21
DAY = 86400
# names of no owner, by their last or their last two labels: RFC 2606 sections 2 and 3
RESERVED = re.compile(r"(^|\.)(example|test|invalid|localhost|example\.(com|net|org))$")
RENEW = "renew it where it was issued, then `systemctl reload nginx`; what renews it should do both by itself"


def no_certificate_for(name: str) -> str:
    """Why nobody can have a certificate for a name, or nothing."""
    return f"{name!r}: nobody can have a certificate for it (RFC 2606)" if RESERVED.search(name) else ""


def certificate(machine: Machine) -> Iterator[Finding]:
    """The certificate of both names: its files, key, names, days and authority. Where there is none yet:
    whether one can be had."""
    field = machine.field
    there = True
    if not machine.is_installed and not machine.path(field.cert).exists():
        for key in ("name", "counter_name"):
            if why := no_certificate_for(getattr(field, key)):
                yield wrong(f"{key} = {why}", "write a name of your own domain into field.toml; only to "
                                              "see how it works: `portal-setup --first-look`", "name")
    for key, name in (("cert", field.cert), ("key", field.key)):
        path = machine.path(name)
        if not path.is_file():
            there = False
            yield wrong(f"{key} = {name!r}: there is no such file",
                        "put it there, or change the line in field.toml", FILES)
    if not there:
        return
    yield from readers(machine, field.key)
    fault = pair(machine, field.cert, field.key)
    if fault:
        yield replace(fault, about=FILES)
        return
    yield from names(machine, field.cert, (field.name, field.counter_name))
    yield from days(machine, field.cert)
    yield from chain(machine, field.cert, field.key)


def readers(machine: Machine, key: str) -> Iterator[Finding]:
    """Whether other users can read the key; nginx reads both files as root."""
    if machine.path(key).stat().st_mode & 0o004:
        yield warning(f"every user of this machine can read the key {key}", f"`chmod o-r {key}`")


def pair(machine: Machine, cert: str, key: str) -> Finding | None:
    """What nginx would say of both files."""
    def no_passphrase() -> str:
        """Raises ValueError: the key has a passphrase, for which OpenSSL would ask on the terminal."""
        raise ValueError("the key has a passphrase, for which nginx cannot ask")
    context = ssl.SSLContext(ssl.PROTOCOL_TLS_SERVER)
    try:
        context.load_cert_chain(machine.path(cert), machine.path(key), no_passphrase)
    except PermissionError:
        raise CannotTell(f"{cert} and {key} only root can read") from None
    except ssl.SSLError as fault:
        if fault.reason == "KEY_VALUES_MISMATCH":
            return wrong(f"{key} is not the key of {cert}",
                         "take both from the same issue, the certificate first")
        return wrong(f"{cert} or {key} is not PEM: {fault.reason or fault}",
                     "take the files that the authority gave")
    except ValueError as fault:
        return wrong(f"{key}: {fault}", f"`openssl pkey -in {key} -out NEW`, and put NEW in its place")
    return None


def output_of_openssl(machine: Machine, cert: str, *words: str) -> str:
    """What openssl says of a certificate."""
    return machine.output_of("openssl", "x509", "-noout", "-in", str(machine.path(cert)), *words)


def names(machine: Machine, cert: str, hosts: tuple[str, ...]) -> Iterator[Finding]:
    """Whether the certificate is for both names."""
    missing = [host for host in hosts
               if "does match" not in output_of_openssl(machine, cert, "-checkhost", host)]
    if missing:
        yield wrong(f"{cert} does not name {' nor '.join(missing)}",
                    "get a certificate for both names, the portal's "
                    "and the counter's; browsers refuse this one")
    else:
        yield good(f"{cert} names {' and '.join(hosts)}, and {machine.field.key} is its key")


def days(machine: Machine, cert: str) -> Iterator[Finding]:
    """Whether the certificate is valid now, and for how long."""
    dates = re.findall(r"not(Before|After)=(.*)", output_of_openssl(machine, cert, "-dates"))
    begin, end = (ssl.cert_time_to_seconds(dict(dates)[key]) for key in ("Before", "After"))
    days_left = int((end - machine.now) // DAY)
    if machine.now < begin:
        yield wrong(f"{cert} is not valid before {day(begin)}", "look at the clock; or wait until then")
    elif machine.now >= end:
        yield wrong(f"{cert} expired on {day(end)}: no phone takes it", RENEW)
    elif days_left < FEW_DAYS:
        yield warning(f"{cert} has {days_left} days left, until {day(end)}", RENEW)
    else:
        yield good(f"{cert} has {days_left} days left")


def day(moment: float) -> str:
    """A day of UTC, as text."""
    return time.strftime("%Y-%m-%d", time.gmtime(moment))


def chain(machine: Machine, cert: str, key: str) -> Iterator[Finding]:
    """Whether a phone trusts the certificate, by a connection within this process: with the authorities that
    this machine knows."""
    server = ssl.SSLContext(ssl.PROTOCOL_TLS_SERVER)
    server.load_cert_chain(machine.path(cert), machine.path(key))
    client = ssl.create_default_context()
    if not client.cert_store_stats()["x509_ca"]:
        raise CannotTell("who signed it cannot be looked at: this machine knows no authority "
                         "(ca-certificates)")
    there, back = ssl.MemoryBIO(), ssl.MemoryBIO()
    sides = (client.wrap_bio(back, there, server_hostname=machine.field.name),
             server.wrap_bio(there, back, server_side=True))
    try:
        for _ in range(4):
            for side in sides:
                try:
                    side.do_handshake()
                except ssl.SSLWantReadError:
                    pass
    except ssl.SSLCertVerificationError as fault:
        if fault.verify_code not in (9, 10, 62):        # its days and names are above
            yield warning(f"no authority that this machine knows stands behind {cert}: "
                          f"{fault.verify_message}",
                          "put the authority's whole chain into the file (`fullchain`): phones refuse it "
                          "otherwise")
