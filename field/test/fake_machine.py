"""A machine for the checks: files in a folder, and commands whose answers are those of Debian 12's programs."""

from __future__ import annotations

import json
import os
import pathlib
import shlex
import subprocess
import time
from typing import Any

from portal_field.doctor.findings import CannotTell, Done, Machine
from portal_field.settings.venue import Field

FIELD = pathlib.Path(__file__).resolve().parent.parent
SAMPLE = (FIELD / "settings/field.toml").read_text()
UNITS = ("portal.service", "portal-gateway.service", "portal-leases.service", "portal-front.service",
         "portal-counter.service", "portal-counter-nginx.service", "portal-rules@lan0.service", "portal-backup.timer",
         "portal-restarts.timer", "portal-lookup@1.service", "portal-lookup@2.service", "nginx.service", "dnsmasq.service")
STATIC = ("portal-counter-nginx.service", "portal-lookup@1.service", "portal-lookup@2.service")    # other units start them
Devices = dict[str, tuple[list[str], list[str]]]        # flags and addresses
NETWORKS: Devices = {"lo": (["LOOPBACK", "UP", "LOWER_UP"], ["127.0.0.1/8"]),
                     "lan0": (["BROADCAST", "UP", "LOWER_UP"], ["10.77.0.1/22"]),
                     "wan0": (["BROADCAST", "UP", "LOWER_UP"], ["203.0.113.1/24"]),
                     "ctr0": (["BROADCAST", "UP", "LOWER_UP"], ["10.88.0.1/24"])}
LISTENERS = """\
udp UNCONN 0 0          10.77.0.1:53   0.0.0.0:* users:(("dnsmasq",pid=53,fd=6))
udp UNCONN 0 0      0.0.0.0%lan0:67   0.0.0.0:* users:(("dnsmasq",pid=53,fd=4))
udp UNCONN 0 0      [fe80::1]%lan0:53      [::]:* users:(("dnsmasq",pid=53,fd=11))
tcp LISTEN 0 32         10.77.0.1:53   0.0.0.0:* users:(("dnsmasq",pid=53,fd=7))
tcp LISTEN 0 511        10.77.0.1:80   0.0.0.0:* users:(("nginx",pid=80,fd=6),("nginx",pid=81,fd=6))
tcp LISTEN 0 511        10.77.0.1:443  0.0.0.0:* users:(("nginx",pid=80,fd=7),("nginx",pid=81,fd=7))
tcp LISTEN 0 511        10.88.0.1:443  0.0.0.0:* users:(("nginx",pid=84,fd=6),("nginx",pid=85,fd=6))
tcp LISTEN 0 128        127.0.0.1:8080 0.0.0.0:* users:(("portal",pid=90,fd=5))
tcp LISTEN 0 128          0.0.0.0:22   0.0.0.0:* users:(("sshd",pid=22,fd=3))
"""
NGINX = """\
# configuration file /etc/nginx/nginx.conf:
user www-data;
worker_processes 2;
events {
	worker_connections 2048;
	# worker_connections 9;
}
http { include /etc/nginx/conf.d/*.conf; }
"""
PHONE = "02:00:00:00:00:50"
ALIVE = {"family": "inet", "name": "alive", "table": "portal", "type": "ifname", "handle": 6, "flags": ["timeout"]}


def as_ip_prints(devices: Devices) -> str:
    """What `ip -j address show` prints of these devices."""
    rows = []
    for name, (flags, addresses) in devices.items():
        own = [{"family": "inet", "local": text.split("/")[0], "prefixlen": int(text.split("/")[1])} for text in addresses]
        rows.append({"ifname": name, "flags": flags, "addr_info": [*own, {"family": "inet6", "local": "fe80::1",
                                                                          "prefixlen": 64}]})
    return json.dumps(rows)


def as_nft_prints(*running: str) -> str:
    """What `nft -j list set inet portal alive` prints, with the devices whose timer runs."""
    result: dict[str, Any] = dict(ALIVE)
    if running:
        result["elem"] = [{"elem": {"val": name, "timeout": 5, "expires": 4}} for name in running]
    return json.dumps({"nftables": [{"metainfo": {"version": "1.0.6", "json_schema_version": 1}}, {"set": result}]})


def as_nft_prints_set(name: str, *elements: Any) -> str:
    """What `nft -j list set inet portal NAME` prints, with these elements."""
    result = {"family": "inet", "name": name, "table": "portal", "handle": 7, **({"elem": list(elements)} if elements else {})}
    return json.dumps({"nftables": [{"metainfo": {"version": "1.0.6", "json_schema_version": 1}}, {"set": result}]})


def as_systemd_prints(**changed: dict[str, str]) -> str:
    """What `systemctl show` prints of all units; a unit's change under its name with _ for each other
    sign."""
    blocks = []
    for unit in UNITS:
        row = {"Id": unit, "LoadState": "loaded", "ActiveState": "active", "SubState": "running", "Result": "success",
               "UnitFileState": "static" if unit in STATIC else "enabled", **changed.get("".join(s if s.isalnum() else "_" for s in unit), {})}
        blocks.append("\n".join(f"{key}={value}" for key, value in row.items()) + "\n")
    return "\n".join(blocks)


def answers() -> dict[str, str | tuple[int, str]]:
    """What the commands of a good machine say, by the beginning of their lines; a status where it is not 0."""
    return {
        "ip -j address show": as_ip_prints(NETWORKS),
        "ip -j route show default": '[{"dst":"default","gateway":"203.0.113.2","dev":"wan0","flags":[]}]',
        "ss ": LISTENERS, "timedatectl ": "yes\n", "nft list table inet portal": "", "nft list table netdev portal": "",
        "nft -j list ruleset": '{"nftables": []}',
        "nft list set inet portal bound": "", "nft -j list set inet portal bound_ready":
            as_nft_prints_set("bound_ready", {"elem": {"val": "lan0", "comment": "700 1"}}),
        "nft -j list set inet portal bound": as_nft_prints_set("bound", {"concat": [PHONE, "10.77.0.50"]}),
        "ip -j -4 neigh show dev lan0 nud permanent":
            json.dumps([{"dst": "10.77.0.50", "lladdr": PHONE, "extern_learn": None, "state": ["PERMANENT"]}]),
        "nft -j list set inet portal desk_closed": as_nft_prints_set("desk_closed"),
        "nft -j list set inet portal alive": as_nft_prints("lan0"), "systemd-escape -- lan0": "lan0\n",
        "systemctl show ": as_systemd_prints(), "journalctl ": "", "uname -r": "6.1.0-28-amd64\n",
        "/usr/bin/portal --version": "portal 1.0.0 (database schema version 6)\n", "nft --version": "nftables v1.0.6\n",
        "nginx -T": NGINX, "nginx -v": "nginx version: nginx/1.22.1\n", "dnsmasq --version": "Dnsmasq version 2.90  Copyright (c) 2000\n",
        "dpkg-query ": "portal 1.0.0 installed\npython3-nftables 1.0.6-2+deb12u2 installed\n"
                       "python3-pyroute2 0.7.2-2 installed\npython3-qrencode 1.2-5.1 installed\npython3-pil 9.4.0-1.1 installed\n"
                       "python3-flask 2.2.2-3 installed\npython3-babel 2.10.3-1 installed\npython3-waitress 2.1.2-2 installed\n"
                       "python3-markdown-it 2.1.0-5 installed\n"}


def as_root_reads(lines: str) -> str:
    """What is printed, without the lines that an ordinary user reads beside it."""
    return "".join(line for line in lines.splitlines(keepends=True) if not line.endswith("only root can see\n"))


class FakeMachine(Machine):
    """`says`: the answers of commands; None: it is not installed. What it does not know is really run."""

    def __init__(self, folder: pathlib.Path, text: str = SAMPLE, is_installed: bool = True) -> None:
        super().__init__(folder, Field.read(text), is_installed=is_installed)
        self.says: dict[str, Any] = dict(answers())
        self.root_user = True
        self.put("/proc/sys/net/ipv4/ip_forward", "1\n")
        self.put("/proc/sys/net/ipv6/conf/lan0/disable_ipv6", "1\n")
        self.put("/proc/sys/net/ipv4/neigh/default/gc_thresh3", "4096\n")

    def put(self, name: str, text: str, age: float = 0.0, mode: int = 0o644) -> pathlib.Path:
        """Writes a file of the machine, as old as `age` says in seconds."""
        path = self.path(name)
        path.parent.mkdir(parents=True, exist_ok=True)
        path.write_text(text)
        path.chmod(mode)
        os.utime(path, (self.now - age, self.now - age))
        return path

    def is_root(self) -> bool:
        """What the test says of the user."""
        return self.root_user

    def run(self, *words: str) -> Done:
        """What a command says: by `says`, or else as it is really run."""
        line = " ".join(words)
        for start, result in self.says.items():
            if line.startswith(start):
                if result is None:
                    raise CannotTell(f"`{words[0]}` cannot be run: No such file or directory")
                status, text = result if isinstance(result, tuple) else (0, result)
                return subprocess.CompletedProcess(words, status, text, text if status else "")
        return super().run(*words)

    def on_path(self, folder: pathlib.Path) -> str:
        """A PATH on which the commands are scripts with the same answers."""
        for name in {start.split()[0] for start in self.says if not start.startswith("/")}:
            script = ["#!/bin/sh", f'line="{name} $*"']
            for start, result in self.says.items():
                status, text = result if isinstance(result, tuple) else (0, result or "")
                script.append(f'case "$line" in {shlex.quote(start)}*) printf %s {shlex.quote(text)}; exit {status};; esac')
            (folder / name).write_text("\n".join([*script, "exit 99", ""]))
            (folder / name).chmod(0o755)
        return f"{folder}:{os.environ['PATH']}"


class Certificates:
    """An authority, and certificates that it signs; `openssl` makes them."""

    def __init__(self, folder: pathlib.Path) -> None:
        self.folder, self.authority = folder, folder / "ca.pem"
        self.openssl("req", "-x509", *self.new_key(folder / "ca-key.pem"), "-subj", "/CN=lab", "-days", 400,
                     "-out", self.authority)

    @staticmethod
    def new_key(path: pathlib.Path) -> tuple[object, ...]:
        """The words of openssl's command line that make a key in this file."""
        return "-newkey", "ec", "-pkeyopt", "ec_paramgen_curve:P-256", "-nodes", "-keyout", path

    def openssl(self, *words: object) -> None:
        """Runs openssl; it must not fail."""
        subprocess.run(["openssl", *map(str, words)], check=True, capture_output=True)

    def sign(self, cert: pathlib.Path, key: pathlib.Path, hosts: tuple[str, ...] = ("wifi.example", "counter.example"),
             days: int = 90) -> None:
        """Makes a key and a certificate of these hosts, signed by the authority."""
        request = self.folder / "request.pem"
        names = ",".join(f"DNS:{host}" for host in hosts)
        self.openssl("req", *self.new_key(key), "-subj", f"/CN={hosts[0]}", "-addext", f"subjectAltName={names}",
                     "-out", request)
        key.chmod(0o600)
        self.openssl("x509", "-req", "-in", request, "-CA", self.authority, "-CAkey", self.folder / "ca-key.pem",
                     "-CAcreateserial", "-copy_extensions", "copy", "-days", days, "-out", cert)


def in_days(days: float) -> float:
    """The time in so many days from now; before now where it is negative."""
    return time.time() + days * 86400
