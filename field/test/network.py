"""A venue of network namespaces: two guests and the gateway on one bridge, a counter, the outside.

All traffic stays on this machine. Namespaces carry the test's process id and are removed at the end, so that several
venues may stand side by side.
"""

from __future__ import annotations

import json
import os
import pathlib
import re
import shlex
import shutil
import signal
import subprocess
import sys
from typing import Any

from programs import Programs, accepts

FIELD = pathlib.Path(__file__).resolve().parent.parent
PYTHON = "/usr/bin/python3"     # Debian's, which has nftables and qrencode
STAND_IN = f"{PYTHON} {FIELD / 'test/desk_stand_in.py'}"
NAME, COUNTER, OUTSIDE = "wifi.example", "counter.example", "203.0.113.2"
MACS = {"guest1": "02:aa:00:00:00:01", "guest2": "02:aa:00:00:00:02",
        "outside": "02:aa:00:00:00:10", "clerk": "02:aa:00:00:00:20"}
PORTS = {"guest1": "lan1", "guest2": "lan2", "outside": "wan0", "clerk": "ctr0"}
SPACES = ("gw", *PORTS)
LOOKUPS = ("lookup1", "lookup2")
USERS = {"desk": (7000, 7000, ""), "gateway": (7001, 7001, ""), "front": (7002, 33, "7001"),
         "counter": (7003, 33, "7001"), "leases": (7004, 7004, ""), "give": (7006, 7001, ""),
         **dict.fromkeys(LOOKUPS, (7007, 33, ""))}
SERVICES = {"gateway": "portal_field.gateway.agent", "leases": "portal_field.gateway.leases",
            "give": "portal_field.give.giver", "front": "portal_field.guests.page",
            "counter": "portal_field.counter.page", **dict.fromkeys(LOOKUPS, "portal_field.guests.lookup")}
WEB = {"nginx": ("nginx.conf", "10.77.0.1"), "counter-nginx": ("etc/portal/counter-nginx/nginx.conf", "10.88.0.1")}
CAPABLE, WITH_A_SOCKET = ("gateway", "leases"), ("front", "counter", "give", *LOOKUPS)
SMALL_PLAN = """
[[plan]]
id = "small"
price = 50
uses = 1
seconds = 0
bytes = 3000000
shelf_days = 9
extend = true
"""
UDHCPC = """#!/bin/sh
[ "$1" = bound ] || exit 0
ip addr replace $ip/$mask dev $interface; ip route replace default via $router
env > {0}/lease-$interface-$ip
"""
NGINX = """user www-data; worker_processes 1; pid {0}/nginx.pid; error_log {0}/nginx-error.log;
events {{ worker_connections 512; }}
http {{ access_log off; include {0}/etc/nginx/conf.d/*.conf;
client_body_temp_path {0}/tmp/body; proxy_temp_path {0}/tmp/proxy; fastcgi_temp_path {0}/tmp/fastcgi;
uwsgi_temp_path {0}/tmp/uwsgi; scgi_temp_path {0}/tmp/scgi; }}
"""


def run(*words: object, check: bool = True, **more: Any) -> subprocess.CompletedProcess[str]:
    """Runs a command, and keeps what it prints; it must not fail unless `check` is false."""
    return subprocess.run([str(word) for word in words], check=check, capture_output=True, text=True, **more)


class Network(Programs):
    COUNTER_NGINX = "www-data"      # the user of the counter's nginx: one that every machine has

    def __init__(self, portal: str = "", changed: dict[str, Any] | None = None, offload: bool = False) -> None:
        super().__init__("portal-lab-")
        self.portal, self.changed, self.offload = shlex.split(portal or STAND_IN), changed or {}, offload
        os.umask(0o022)     # the services' users read what root makes here
        self.root.chmod(0o755)
        self.tag = f"fk{os.getpid()}"
        self.begun: list[subprocess.Popen[str]] = []

    def __enter__(self) -> Network:
        if signal.getsignal(signal.SIGTERM) == signal.SIG_DFL:
            signal.signal(signal.SIGTERM, lambda *_: sys.exit(143))     # so that all is removed then, too
        try:
            self.wires()
            self.files()
            self.rules()
            return self
        except BaseException:
            self.__exit__()
            raise

    def __exit__(self, *_: object) -> None:
        self.stop_all()
        for job in self.begun:
            job.kill()
            job.wait()
        for space in SPACES:
            run("ip", "netns", "del", self.ns(space), check=False)
        self.remove_folder()

    def ns(self, space: str) -> str:
        """The name of a network namespace of this lab."""
        return self.tag + space

    def within(self, space: str, *words: object, **more: Any) -> subprocess.CompletedProcess[str]:
        """Runs a command in a network namespace of this lab."""
        return run("ip", "netns", "exec", self.ns(space), *words, **more)

    def begin(self, space: str, *words: object, feed: bool = False) -> subprocess.Popen[str]:
        """Starts a command whose output is read later, and which may be given its input. It does not outlive
        the lab."""
        line = ["ip", "netns", "exec", self.ns(space), *map(str, words)]
        job = subprocess.Popen(line, stdin=subprocess.PIPE if feed else None, stdout=subprocess.PIPE, text=True)
        self.begun.append(job)
        return job

    # Wires, addresses, files

    def wires(self) -> None:
        """Makes the network namespaces, the cables between them and their addresses."""
        for space in SPACES:
            run("ip", "netns", "add", self.ns(space))
            self.within(space, "ip", "link", "set", "lo", "up")
        self.within("gw", "ip", "link", "add", "lan0", "type", "bridge")
        for space, port in PORTS.items():
            run("ip", "link", "add", "eth0", "netns", self.ns(space), "address", MACS[space],
                "type", "veth", "peer", "name", port, "netns", self.ns("gw"))
            if port.startswith("lan"):
                self.within("gw", "ip", "link", "set", port, "master", "lan0")
                self.within("gw", "bridge", "link", "set", "dev", port, "isolated", "on")
            for where, device in (("gw", port), (space, "eth0")):
                if not self.offload:
                    self.within(where, "ethtool", "-K", device, "tso", "off", "gso", "off", "gro", "off")
                self.within(where, "ip", "link", "set", device, "up")
        guests = str(self.changed.get("guests", "10.77.0.1/22"))
        for space, device, address in (("gw", "lan0", guests), ("gw", "wan0", "203.0.113.1/24"),
                                       ("gw", "ctr0", "10.88.0.1/24"), ("outside", "eth0", OUTSIDE + "/24"),
                                       ("clerk", "eth0", "10.88.0.2/24")):
            self.within(space, "ip", "addr", "add", address, "dev", device)
            self.within(space, "ip", "link", "set", device, "up")
        self.within("clerk", "ip", "route", "add", "default", "via", "10.88.0.1")
        self.within("gw", "sysctl", "-q", "-w", "net.ipv4.ip_forward=1")

    def rules(self) -> None:
        """Loads the packet rules as their unit does; the users are this test's numbers."""
        path = self.root / "etc/portal/rules.nft"
        text = re.sub(r"define desk_users = .*", "define desk_users = { 0, 33, 7001, 7002, 7003, 7006 }", path.read_text())
        path.write_text(text.replace('desk_keepers { "portal", "portal-gateway" }', "desk_keepers { 7000, 7001 }"))
        self.within("gw", "nft", "-f", path)

    def files(self) -> None:
        """Makes settings and services' files by the kit's set-up, with what changed for this lab."""
        root, etc = self.root, self.root / "etc/portal"
        self.authority()
        text = (FIELD / "settings/field.toml").read_text().replace("/etc/portal/tls", str(root))
        for key, value in self.changed.items():
            text = re.sub(rf"(?m)^{key} = .*$", f"{key} = {json.dumps(value)}", text)
        (root / "field.toml").write_text(text)
        run(PYTHON, FIELD / "setup", "--root", root, root / "field.toml")
        with open(etc / "plans.toml", "a") as plans:
            plans.write(SMALL_PLAN)
        (etc / "clerks.toml").write_text('[[clerk]]\nname = "clerk"\nrole = "manager"\npassword = "{PLAIN}clerk"\n')
        (root / "var/lib/misc").mkdir(parents=True)
        (root / "log").mkdir()      # nginx's logs, apart from what the services say
        (root / "tmp").mkdir()
        (root / "run/portal-counter-nginx").mkdir(parents=True)
        for conf in (*(root / "etc/nginx/conf.d").iterdir(), *(etc / "counter-nginx").iterdir()):
            text = conf.read_text().replace("user portal-counter-nginx;", f"user {self.COUNTER_NGINX};")
            conf.write_text(text.replace("/var/log/portal", str(root / "log")))
        for name, (user, group, _) in USERS.items():
            for folder in (root / f"creds-{name}", root / f"run/portal-{name}"):
                folder.mkdir(parents=True)
                os.chown(folder, user, group)
                folder.chmod(0o750)
        (root / "run/portal-lookup").mkdir()
        os.chown(root / "run/portal-lookup", USERS["lookup1"][0], 0)
        (root / "var/lib/portal-give").mkdir(parents=True)
        os.chown(root / "var/lib/portal-give", USERS["give"][0], USERS["give"][1])
        give = etc / "give.toml"
        give.write_text(give.read_text().replace('"portal-front"', f'"{USERS["front"][0]}"'))
        for name, secret in (("gateway", "gateway_token"), ("counter", "desk_token"), ("give", "desk_token"),
                             ("front", "form_key")):
            goal = root / f"creds-{name}" / secret
            shutil.copy(etc / "credentials" / secret, goal)
            os.chown(goal, USERS[name][0], 0)
            goal.chmod(0o400)
        os.chown(etc / "portal.toml", USERS["desk"][0], 0)
        os.chown(etc / "counter.toml", 0, USERS["counter"][1])
        (root / "nginx.conf").write_text(NGINX.format(root))
        (root / "udhcpc.sh").write_text(UDHCPC.format(root))
        (root / "udhcpc.sh").chmod(0o755)

    def authority(self) -> None:
        """Makes an authority of certificates that only this test knows, and a certificate of the venue."""
        root = self.root
        new = ("openssl", "req", "-newkey", "ec", "-pkeyopt", "ec_paramgen_curve:P-256", "-nodes")
        run(*new, "-x509", "-days", "2", "-subj", "/CN=lab", "-keyout", root / "ca-key.pem", "-out", root / "ca.pem")
        run(*new, "-subj", "/CN=" + NAME, "-addext", f"subjectAltName=DNS:{NAME},DNS:{COUNTER}",
            "-keyout", root / "key.pem", "-out", root / "csr.pem")
        run("openssl", "x509", "-req", "-in", root / "csr.pem", "-CA", root / "ca.pem", "-CAkey", root / "ca-key.pem",
            "-CAcreateserial", "-copy_extensions", "copy", "-days", "2", "-out", root / "cert.pem")

    def limitless(self, connections: int) -> None:
        """Takes nginx's limits on requests off, and those of the rules until these are loaded anew; nginx holds so many
        connections."""
        self.within("gw", "nft", "insert rule inet portal from_guests iifname lan0 tcp dport { 80, 443 } accept")
        conf = self.root / "etc/nginx/conf.d/portal-guests.conf"
        conf.write_text(re.sub("rate=[0-9]+r/[ms]", "rate=10000r/s", conf.read_text()))
        main = self.root / "nginx.conf"
        text = main.read_text().replace("worker_connections 512;", f"worker_connections {connections};")
        main.write_text(text.replace("user www-data;", f"user www-data; worker_rlimit_nofile {connections};"))

    # Programs

    def start(self, name: str, *words: object, space: str = "gw", user: str | None = None, caps: bool = False,
              env: dict[str, str] | None = None) -> None:
        """Starts a program in a network namespace, as this service's user."""
        before = ["ip", "netns", "exec", self.ns(space)]
        if user:
            number, group, groups = USERS[user]
            before += ["setpriv", f"--reuid={number}", f"--regid={group}"]
            before += [f"--groups={groups}"] if groups else ["--clear-groups"]
            before += ["--inh-caps=+net_admin", "--ambient-caps=+net_admin"] if caps else []
        self.start_program(name, [*before, *words], cwd=self.root,
                           env={**os.environ, "PYTHONPATH": str(FIELD), "PYTHONDONTWRITEBYTECODE": "1", **(env or {})})

    def listening(self, port: int, address: str = "") -> bool:
        """Whether something listens at this port of the gateway, at this address or at any."""
        here = ("and", "src", "=", address) if address else ()
        return bool(self.within("gw", "ss", "-Hltn", "sport", "=", f":{port}", *here).stdout)

    def desk(self) -> None:
        """Starts the server."""
        folder = self.root / "book"
        folder.mkdir(exist_ok=True)
        os.chown(folder, USERS["desk"][0], 0)
        settings = self.root / "etc/portal/portal.toml"
        self.start("desk", *self.portal, "serve", "--port", 8080, "--db", folder / "book.db", "--settings", settings,
                   user="desk")
        self.until(lambda: self.listening(8080), what="the desk")

    def service(self, name: str) -> None:
        """Starts a service of the kit in the gateway."""
        env = {"FIELD_SETTINGS": f"{self.root}/etc/portal/{name}.toml", "STATE_DIRECTORY": f"{self.root}/run/portal-{name}",
               "CREDENTIALS_DIRECTORY": f"{self.root}/creds-{name}"}
        path = self.root / (f"run/portal-lookup/{name[-1]}" if name in LOOKUPS else f"run/portal-{name}/socket")
        words = ("lan0", path) if name in LOOKUPS else ()
        self.start(name, PYTHON, "-P", "-m", SERVICES[name], *words, user=name, caps=name in CAPABLE, env=env)
        if name in WITH_A_SOCKET:
            self.until(lambda: accepts(path), what=name)

    def web(self, *names: str) -> None:
        """Starts nginx of the guests' page and the counter's own, or one of them."""
        for name in names or WEB:
            conf, address = WEB[name]
            self.start(name, "nginx", "-p", self.root, "-c", self.root / conf, "-g", "daemon off;")
            self.until(lambda: self.listening(443, address), what=name)

    def dnsmasq(self) -> None:
        """Starts dnsmasq."""
        self.start("dnsmasq", "dnsmasq", "-k", "-C", self.root / "etc/dnsmasq.d/portal.conf", "--user=root",
                   "--pid-file=", "--no-resolv", "--no-hosts", f"--address=/outside.example/{OUTSIDE}")

    def start_services(self) -> None:
        """Starts all services of the gateway and the outside; guests have no leases yet."""
        self.start("peer", PYTHON, FIELD / "test/peer.py", "serve", space="outside")
        self.desk()
        for name in SERVICES:
            self.service(name)
        self.dnsmasq()
        self.web()
