"""The counter's nginx before its page, as a venue has it: TLS and content security policy, on a port of loopback. Needs
nginx and openssl, and no root."""

from __future__ import annotations

import os
import pathlib
import re
import shutil
import socket
import subprocess
import time

from desk_process import FIELD, free_port

from portal_field.lib import web
from portal_field.lib.error_pages import counter_pages

NGINX = shutil.which("nginx", path=os.environ.get("PATH", "") + ":/usr/sbin:/sbin")
CAN = NGINX and shutil.which("openssl")
NAME = "counter.localhost"      # browsers take every NAME.localhost for this machine


MAIN = """pid {0}/nginx.pid; daemon off; {1}
events {{ worker_connections 64; }}
http {{ access_log off; include {0}/page.conf; client_body_temp_path {0}/body; proxy_temp_path {0}/proxy;
fastcgi_temp_path {0}/fastcgi; uwsgi_temp_path {0}/uwsgi; scgi_temp_path {0}/scgi; }}
"""


def user() -> str:
    """A line of nginx's configuration: workers of nginx that root starts are root's, too. Empty for another user."""
    return "user root;" if os.geteuid() == 0 else ""


def certificate(folder: pathlib.Path, name: str) -> None:
    """Makes a certificate of this name that signs itself, and its key, in a folder."""
    subprocess.run(["openssl", "req", "-newkey", "ec", "-pkeyopt", "ec_paramgen_curve:P-256", "-nodes", "-x509",
                    "-days", "2", "-subj", "/CN=" + name, "-addext", "subjectAltName=DNS:" + name,
                    "-keyout", folder / "key.pem", "-out", folder / "cert.pem"], check=True, capture_output=True)


class Nginx:
    """One with a page that another writes, in a folder of its own."""

    def __init__(self, folder: pathlib.Path, page: str, port: int) -> None:
        self.folder, self.port, self.conf = folder, port, folder / "nginx.conf"
        (folder / "page.conf").write_text(page)
        self.conf.write_text(MAIN.format(folder, user()))

    def start(self) -> None:
        """Starts nginx, and waits until it listens."""
        assert NGINX
        self.job = subprocess.Popen([NGINX, "-e", self.folder / "nginx.log", "-p", self.folder, "-c", self.conf])
        for _ in range(200):
            with socket.socket() as link:
                if link.connect_ex(("127.0.0.1", self.port)) == 0:
                    return
            time.sleep(0.05)
        raise TimeoutError("nginx does not listen: " + (self.folder / "nginx.log").read_text()[-300:])

    def close(self) -> None:
        """Ends nginx."""
        self.job.terminate()
        self.job.wait()


class CounterNginx(Nginx):
    """Answers at `url` from the application that listens on `socket`."""

    def __init__(self, folder: pathlib.Path, policy: str) -> None:
        self.folder, self.port, self.conf = folder, free_port(), folder / "counter-nginx/nginx.conf"
        self.socket = str(folder / "counter.socket")
        self.url = f"https://{NAME}:{self.port}/"
        certificate(folder, NAME)
        words = {"COUNTER": "127.0.0.1", "COUNTER_NAME": NAME, "COUNTER_NET": "127.0.0.0/8",
                 "VENUE": "", "COUNTER_SOCKET": self.socket, "CERT": folder / "cert.pem", "KEY": folder / "key.pem",
                 "FIELD": FIELD, "POLICY": policy, "RUN": folder, "ETC": folder}
        (folder / "portal-counter-nginx").mkdir()
        (folder / "counter-nginx").mkdir()
        for name, page in counter_pages("en", "Maria, 030 1234567").items():
            (folder / "counter-nginx" / name).write_text(page)
        for source, goal in (("nginx-main.conf", "nginx.conf"), ("nginx-counter.conf", "page.conf")):
            text = re.sub("@([A-Z_]+)@", lambda word: str(words[word[1]]), (FIELD / "counter" / source).read_text())
            text = text.replace("127.0.0.1:443", f"127.0.0.1:{self.port}").replace("/var/log/portal", str(folder))
            (folder / "counter-nginx" / goal).write_text(text.replace("user portal-counter-nginx;", f"daemon off; {user()}"))

    def door(self) -> socket.socket:
        """The Unix socket, listening, at which nginx looks for the page."""
        return web.listening(self.socket)
