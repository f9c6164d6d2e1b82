"""What a test needs of the machine, and the one reason why it is skipped where that is not there.

`./test` takes no other reasons for a skip than 'not installed: ..' with Debian packages and the six below, and looks
whether each holds.
"""

from __future__ import annotations

import importlib.util
import os
import shutil
import subprocess
import unittest
from collections.abc import Callable
from typing import Any

ROOT, LOOP_DEVICES, NAMESPACES = "it needs root", "it needs loop devices", "it needs network namespaces"
NFTABLES = "it needs network namespaces with nftables"
HISTORY = "it needs the commit of version 1.0.0 in the history of git"      # of a booted test alone, which looks itself
PTRACE = "it needs ptrace"      # of tests/outside/openings.py alone, which looks itself
COMMANDS = {"age": "age", "btrfs-progs": "mkfs.btrfs", "busybox": "busybox", "chromium": "chromium", "chromium-driver": "chromedriver",
            "binutils": "readelf", "gcc": "gcc", "git": "git", "lintian": "lintian", "man-db": "man",
            "curl": "curl", "dnsmasq-base": "dnsmasq", "dpkg": "dpkg-deb", "ethtool": "ethtool", "freeradius": "freeradius",
            "freeradius-utils": "radclient", "iproute2": "ip", "iputils-ping": "ping", "minisign": "minisign", "mmdebstrap": "mmdebstrap",
            "nftables": "nft", "nginx": "nginx", "openssl": "openssl", "poppler-utils": "pdftoppm", "procps": "sysctl", "prometheus": "promtool",
            "rsync": "rsync", "systemd": "systemd-analyze", "systemd-container": "systemd-nspawn", "util-linux": "setpriv",
            "zbar-tools": "zbarimg", "zint": "zint"}
MODULES = {"python3-authlib": "authlib", "python3-requests": "requests", "python3-prometheus-client": "prometheus_client", "python3-psycopg": "psycopg", "python3-markdown-it": "markdown_it", "python3-pil": "PIL", "weasyprint": "weasyprint", **{f"python3-{name}": name for name in (
    "babel", "flask", "jsonschema", "nftables", "pyroute2", "pytest", "qrencode", "selenium", "waitress", "yaml")}}
FILES = {"faketime": "/usr/lib/x86_64-linux-gnu/faketime/libfaketime.so.1",
         "fonts-dejavu-extra": "/usr/share/fonts/truetype/dejavu/DejaVuSansCondensed.ttf",
         "freeradius-python3": "/usr/lib/freeradius/rlm_python3.so", "postgresql": "/usr/lib/postgresql/15/bin/postgres"}
PAGES = ("python3-flask", "python3-babel", "python3-waitress", "python3-qrencode", "python3-pil", "python3-markdown-it")
# What tests of each kind need, by their markers; of the last two kinds are scripts.
NEEDS: dict[str, tuple[str, ...]] = {
    "quick": PAGES, "browser": (*PAGES, "chromium", "chromium-driver", "python3-selenium"),
    "packets": (ROOT, "nginx", "nftables", "dnsmasq-base", "busybox", "curl", "ethtool", "iputils-ping", "openssl", "iproute2",
                "util-linux", "procps", "fonts-dejavu-extra", "python3-nftables", "python3-pyroute2", "python3-pytest", *PAGES, NFTABLES),
    "radius": (ROOT, "freeradius", "freeradius-utils", "freeradius-python3", "prometheus", "python3-prometheus-client",
               "python3-pytest", *PAGES),
    "package": ("lintian", "man-db", "git", "minisign", "binutils", "python3-babel", "python3-pytest", "dpkg"),
    "container": (ROOT, "systemd-container", "mmdebstrap", "openssl", "dpkg", "python3-babel"),
    "environments": (ROOT, "mmdebstrap", "util-linux")}
NEW_NAMESPACE = ["unshare", "-n", "ip", "link", "add", "one", "type", "veth", "peer", "name", "two"]
# A bridge, and the rules that the kit needs most of the kernel for.
NEW_RULES = ["unshare", "-n", "sh", "-c", """ip link add lan0 type bridge && nft 'add table netdev t;
add chain netdev t c { type filter hook egress device lan0 priority 0; }; add table inet t { flags owner; };
add table inet u; add chain inet u c { type nat hook postrouting priority srcnat; }'"""]
os.environ["PATH"] += ":/usr/sbin:/sbin"        # an ordinary user's path has neither, nor has root's after `su`


def is_installed(package: str) -> bool:
    """Whether what a Debian package brings is there."""
    if package in MODULES:
        return importlib.util.find_spec(MODULES[package]) is not None
    if package in FILES:
        return os.path.exists(FILES[package])
    return shutil.which(COMMANDS[package]) is not None


def is_there(need: str) -> bool:
    """Whether this user is root, has loop devices, or can make namespaces or rules."""
    if need == ROOT:
        return os.geteuid() == 0
    if need == LOOP_DEVICES:
        return os.path.exists("/dev/loop-control")
    return subprocess.run({NAMESPACES: NEW_NAMESPACE, NFTABLES: NEW_RULES}[need], capture_output=True).returncode == 0


def lacks(*needs: str) -> str:
    """Why a test that needs these Debian packages, and these of the first four above, cannot run here; else nothing.

    Root comes first: what else is missing is of no use to an ordinary user.
    """
    packages = [need for need in needs if need in COMMANDS or need in MODULES or need in FILES]
    missing = [package for package in packages if not is_installed(package)]
    if ROOT in needs and not is_there(ROOT):
        return ROOT
    if missing:
        return f"not installed: {', '.join(missing)}"
    return next((need for need in needs if need not in packages and not is_there(need)), "")


def needs(*what: str) -> Callable[[Any], Any]:
    """Skips a test, or a class of tests, where `lacks` gives a reason."""
    why = lacks(*what)
    return unittest.skipIf(why, why)
