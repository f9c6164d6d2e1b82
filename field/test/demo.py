"""A venue on one machine: a guest, a gateway, a counter and the outside, in network namespaces. Needs root, and the
packages that `demo`, which starts it, looks for.

    demo [--portal "CMD .."] [--port N] [--once]

It prints what to open in a browser on this machine, and ends with Ctrl-C. No other machine sees it, and nothing is left
behind, whatever ends it. The program is the shipped one, unless --portal names another. --port: the first of three ports
of 127.0.0.1, 8443 if not given. --once redeems a voucher as a browser would, prints how long all took, and ends.
"""

from __future__ import annotations

import argparse
import ctypes
import gzip
import hashlib
import http.server
import os
import pathlib
import re
import shlex
import shutil
import signal
import socket
import subprocess
import sys
import tempfile
import threading
import time
from typing import Any

FIELD = pathlib.Path(__file__).resolve().parent.parent
SHIPPED = FIELD.parent / "dist/x86_64-linux"
NAME, COUNTER = "wifi.localhost", "counter.localhost"       # browsers take every NAME.localhost for this machine
PAGE = b"""<!DOCTYPE html><html lang="en"><head><meta charset="utf-8"><title>The outside</title></head>
<body><h1>The outside</h1><p>You are through: this page is behind the gateway.</p></body></html>"""
NAMESPACES = ("unshare", "--mount", "--pid", "--net", "--fork", "--kill-child=KILL", "--mount-proc")
CLONE_NEWNET, PR_SET_PDEATHSIG = 0x40000000, 1
libc = ctypes.CDLL(None, use_errno=True)


def enter(space: int) -> None:
    """This thread's network is that of the namespace from now on."""
    if libc.setns(space, CLONE_NEWNET) != 0:
        raise OSError(ctypes.get_errno(), "setns")


# From a port of this machine into a namespace

def carry(near: socket.socket, far: socket.socket) -> None:
    try:
        while data := near.recv(65536):
            far.sendall(data)
    except OSError:
        pass
    for end in (near, far):
        try:
            end.shutdown(socket.SHUT_RDWR)
        except OSError:
            pass


class Door(threading.Thread):
    """Who connects to a port of this machine's loopback comes out of a namespace: the browser is the device there."""

    def __init__(self, home: int, port: int, space: str, goal: tuple[str, int]) -> None:
        super().__init__(daemon=True)
        self.home, self.port, self.space, self.goal = home, port, os.open(f"/run/netns/{space}", os.O_RDONLY), goal
        self.ready, self.fault = threading.Event(), ""

    def run(self) -> None:
        try:
            enter(self.home)
            listener = socket.create_server(("127.0.0.1", self.port), backlog=64)
        except OSError as fault:
            self.fault = f"port {self.port} of this machine: {fault.strerror}"
            return
        finally:
            self.ready.set()
        while True:
            threading.Thread(target=self.one, args=(listener.accept()[0],), daemon=True).start()

    def one(self, near: socket.socket) -> None:
        enter(self.space)
        try:
            far = socket.create_connection(self.goal, timeout=10)
        except OSError:
            near.close()
            return
        far.settimeout(None)
        threading.Thread(target=carry, args=(far, near), daemon=True).start()
        carry(near, far)
        near.close()
        far.close()


class Outside(http.server.BaseHTTPRequestHandler):
    def do_GET(self) -> None:
        self.send_response(200)
        for name, value in (("Content-Type", "text/html"), ("Content-Length", str(len(PAGE))), ("Cache-Control", "no-store")):
            self.send_header(name, value)
        self.end_headers()
        self.wfile.write(PAGE)

    def log_message(self, *_: object) -> None:
        pass


def serve_outside(space: str) -> None:
    there = os.open(f"/run/netns/{space}", os.O_RDONLY)

    def serve() -> None:
        enter(there)
        http.server.ThreadingHTTPServer(("203.0.113.2", 80), Outside).serve_forever()
    threading.Thread(target=serve, daemon=True).start()


# What a person does, by curl

class Browser:
    def __init__(self, home: int, port: int) -> None:
        self.home, self.port = home, port
        self.portal, self.counter = f"https://{NAME}:{port}", f"https://{COUNTER}:{port + 1}"

    def ask(self, *words: str) -> str:
        line = ["curl", "-sk", "--max-time", "10", "--resolve", f"{NAME}:{self.port}:127.0.0.1",
                "--resolve", f"{COUNTER}:{self.port + 1}:127.0.0.1", *words]
        return subprocess.run(line, capture_output=True, text=True, preexec_fn=lambda: enter(self.home)).stdout

    def status(self, *words: str) -> str:
        return self.ask("-o", "/dev/null", "-w", "%{http_code} %{redirect_url}", *words).strip()

    def look_up(self, code: str) -> str:
        """The page of a voucher at the counter, after a log-in."""
        def sent(path: str, *fields: str) -> str:
            words = [word for field in fields for word in ("--data-urlencode", field)]
            return self.ask("-L", "-b", jar, "-c", jar, "-H", f"Origin: {self.counter}", *words, self.counter + path)

        with tempfile.NamedTemporaryFile() as file:
            jar = file.name
            page = sent("/login", "request=look", "name=clerk", "password=clerk")
            token = re.findall('name="token" value="([0-9a-f]+)"', page)
            return sent("/voucher", f"code={code}", f"token={token[0] if token else ''}")

    def outside(self) -> str:
        return self.ask(f"http://localhost:{self.port + 2}/")


def once(browser: Browser, code: str, start: float) -> int:
    """A voucher redeemed on the guests' page, and a look at the counter; what it saw."""
    before = browser.status(f"http://localhost:{browser.port + 2}/")
    page = browser.ask(f"{browser.portal}/portal")
    fields = {"code": code, **dict(re.findall(r'type="hidden" name="(\w+)" value="([^"]*)"', page))}
    form = [word for name, value in fields.items() for word in ("--data-urlencode", f"{name}={value}")]
    status = browser.status(f"{browser.portal}/portal", *form)
    redeemed = time.monotonic() - start
    end = time.monotonic() + 5
    while "You are through" not in (after := browser.outside()) and time.monotonic() < end:
        time.sleep(0.05)
    through = time.monotonic() - start
    state = browser.look_up(code)
    print(f"before: {before}; the form's answer: {status}; the counter knows the voucher: {code in state}; "
          f"after: {'the outside' if 'You are through' in after else after[:60]!r}")
    print(f"redeemed {redeemed:.2f} s after the start, the outside's page after {through:.2f} s")
    good = status.startswith("303") and "You are through" in after and code in state and before.startswith("302")
    return 0 if good else 1


# The venue

def make_venue(portal: str, port: int) -> Any:
    """The tests' lab with names and ports that a browser on this machine can open."""
    sys.dont_write_bytecode = True
    import lab
    import network

    class Venue(lab.Lab):
        def authority(self) -> None:
            """A certificate that only this demo knows."""
            names = ",".join(f"DNS:{name}" for name in (NAME, COUNTER, network.NAME, network.COUNTER))
            network.run("openssl", "req", "-newkey", "ec", "-pkeyopt", "ec_paramgen_curve:P-256", "-nodes", "-x509", "-days", "2",
                        "-subj", "/CN=" + NAME, "-addext", "subjectAltName=" + names, "-keyout", self.root / "key.pem",
                        "-out", self.root / "cert.pem")
            shutil.copy(self.root / "cert.pem", self.root / "ca.pem")

        def files(self) -> None:
            super().files()
            etc = self.root / "etc"
            for path in [*(etc / "nginx/conf.d").iterdir(), etc / "portal/portal.toml", etc / "portal/counter.toml"]:
                path.write_text(path.read_text().replace(f"https://{NAME}/portal", f"https://{NAME}:{port}/portal"))

    return Venue(portal=portal, changed={"house": "Demo House", "currency": "EUR", "name": NAME, "counter_name": COUNTER},
                 offload=True)


def inside(args: argparse.Namespace, start: float) -> int:
    """In namespaces of its own for mounts, processes and the network, as their first process: all ends with it."""
    for kind in (signal.SIGINT, signal.SIGHUP):
        signal.signal(kind, lambda got, _: sys.exit(128 + got))
    with make_venue(args.portal, args.port) as venue:
        venue.start_services()
        venue.lease("guest1")
        serve_outside(venue.ns("outside"))
        codes = venue.codes("hour", 3)
        for place, (space, goal) in enumerate((("guest1", ("10.77.0.1", 443)), ("clerk", ("10.88.0.1", 443)),
                                               ("guest1", ("203.0.113.2", 80)))):
            door = Door(args.inside, args.port + place, venue.ns(space), goal)
            door.start()
            door.ready.wait()
            if door.fault:
                print("demo:", door.fault, "(--port N takes others)", file=sys.stderr)
                return 1
        browser = Browser(args.inside, args.port)
        print(f"""The venue is open, {time.monotonic() - start:.1f} s after the start. Your browser will warn of its certificate.

  a guest's phone    http://localhost:{args.port + 2}/     any page of the outside: leads to the portal until a code is typed
                     {browser.portal}/portal
  the counter        {browser.counter}/     name clerk, password clerk

  sold vouchers, an hour each:  {'  '.join(codes)}

Ctrl-C ends it, and nothing is left behind.""", flush=True)
        if args.once:
            return once(browser, codes[0], start)
        while True:
            time.sleep(0.2)     # not signal.pause: a signal may come just before it, or to another thread


def unpack(folder: str) -> str:
    """The shipped program, compared with its record."""
    program = gzip.decompress((SHIPPED / "portal.gz").read_bytes())
    if f"sha256: {hashlib.sha256(program).hexdigest()}\n" not in (SHIPPED / "portal.txt").read_text():
        sys.exit("demo: dist/x86_64-linux/portal.gz is not what portal.txt says")
    path = pathlib.Path(folder, "portal")
    path.write_bytes(program)
    path.chmod(0o755)
    return str(path)


def first_port(text: str) -> int:
    if text.isdigit() and 1 <= int(text) <= 65533:
        return int(text)
    raise argparse.ArgumentTypeError(f"{text}: the first of three ports, from 1 to 65533")


def can_make_namespaces() -> bool:
    """Whether this machine lets root make them; says so where it does not, as in a container or in a plain chroot."""
    tried = subprocess.run([*NAMESPACES, "true"], capture_output=True, text=True)
    if tried.returncode != 0:
        print(f"demo: no namespaces can be made here ({tried.stderr.strip()})\n    do: run it on the machine itself; or start the "
              "container with --privileged, or with the capabilities SYS_ADMIN and NET_ADMIN", file=sys.stderr)
    return tried.returncode == 0


def read_words() -> argparse.Namespace:
    words = argparse.ArgumentParser("demo", description="A venue on one machine, in network namespaces. Needs root.")
    words.add_argument("--portal", help="the program, as a command line; else the shipped one")
    words.add_argument("--port", type=first_port, default=8443, metavar="N", help="the first of three ports (8443)")
    words.add_argument("--once", action="store_true", help="redeem a voucher, print how long it took, and end")
    words.add_argument("--inside", type=int, help=argparse.SUPPRESS)       # this machine's network, by its descriptor
    words.add_argument("--start", type=float, help=argparse.SUPPRESS)
    return words.parse_args()


def main() -> int:
    start, args = time.monotonic(), read_words()
    if args.inside is not None:
        args.portal = args.portal or unpack("/run/lab")
        return inside(args, args.start)
    if os.geteuid() != 0:
        print("demo: it needs root: sudo", shlex.join([str(FIELD / "demo"), *sys.argv[1:]]), file=sys.stderr)
        return 1
    if not can_make_namespaces():
        return 1
    home = os.open("/proc/self/ns/net", os.O_RDONLY)
    os.set_inheritable(home, True)
    again = ["/usr/bin/python3", str(pathlib.Path(__file__).resolve()), *sys.argv[1:],
             "--inside", str(home), "--start", str(start)]
    shell = ("mount -t tmpfs tmpfs /run && mkdir -p -m 0755 /run/netns /run/lab && export TMPDIR=/run/lab "
             f"PATH=$PATH:/usr/sbin:/sbin && exec {shlex.join(again)}")
    words = [*NAMESPACES, "sh", "-c", shell]
    job = subprocess.Popen(words, pass_fds=[home], preexec_fn=lambda: libc.prctl(PR_SET_PDEATHSIG, signal.SIGKILL))
    ended: list[int] = []

    def end(got: int, _: object) -> None:
        ended.append(got)
        job.kill()

    signal.signal(signal.SIGINT, signal.SIG_IGN)        # a Ctrl-C comes to the venue itself, too
    for number in (signal.SIGTERM, signal.SIGHUP):
        signal.signal(number, end)
    status = job.wait()
    return 128 + (ended[0] if ended else -status) if ended or status < 0 else status


if __name__ == "__main__":
    sys.exit(main())
