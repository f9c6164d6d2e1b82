"""The program over a file and a socket, as its peers see it: started, asked, killed. Standard library alone."""

import json
import os
import signal
import socket
import subprocess
import threading


from reader import SETTINGS

PLANS = """[[plan]]
id = "hour"
price = 300
uses = 3
seconds = 3600
bytes = 0
shelf_days = 30
extend = true
"""

DESK = "Portal-Token: desk-token"
GATEWAY = "Portal-Token: gate-token"


def guest(number):
    return "Portal-Device: 02:00:00:00:%02x:%02x" % divmod(number, 256)


class Broken(Exception):
    """The server went away before a whole response was there."""


class Desk:
    """`portal serve` over a file in a folder, on a port that was free."""

    def __init__(self, program, folder):
        self.program, self.folder, self.process = program, folder, None
        with open(os.path.join(folder, "settings.toml"), "w", encoding="utf-8") as file:
            file.write(SETTINGS)
        with socket.socket() as free:
            free.bind(("127.0.0.1", 0))
            self.port = free.getsockname()[1]

    def words(self, *words):
        return [self.program, *words, "--db", "portal.db", "--settings", "settings.toml"]

    def start(self, *words, patience=30):
        """Starts the server. It has to listen within so many seconds."""
        how = {"cwd": self.folder, "stdout": subprocess.PIPE, "stderr": subprocess.DEVNULL, "text": True}
        self.process = subprocess.Popen(self.words("serve", "--port", str(self.port), *words), **how)
        killer = threading.Timer(patience, self.process.kill)
        killer.start()
        line = self.process.stdout.readline()
        killer.cancel()
        assert line == f"listening 127.0.0.1:{self.port}\n", line

    def kill(self):
        self.process.send_signal(signal.SIGKILL)
        self.process.wait()
        self.process.stdout.close()

    def run(self, *words, data=b"", patience=120):
        """A subcommand, with the bytes of its standard input. It has to end within so many seconds."""
        how = {"cwd": self.folder, "capture_output": True, "input": data, "check": False, "timeout": patience}
        done = subprocess.run(self.words(*words), **how)
        done.stdout, done.stderr = done.stdout.decode(), done.stderr.decode()
        return done

    def connect(self):
        return socket.create_connection(("127.0.0.1", self.port), timeout=10)

    def ask(self, method, path, field, body="", number=None):
        """The status and the body of the response."""
        try:
            with self.connect() as peer:
                peer.sendall(request(method, path, field, body, number))
                return answer_of(peer)
        except OSError as fault:
            raise Broken(str(fault)) from fault

    def answer_to(self, *words, **more):
        status, body = self.ask(*words, **more)
        assert status == 200, (words, status, body)
        return body


def request(method, path, field, body="", number=None):
    head = [f"{method} {path} HTTP/1.1", "Host: api", field, f"Content-Length: {len(body.encode())}"]
    if number:
        head.append(f"Portal-Request: {number}")
    return ("\r\n".join(head) + "\r\n\r\n" + body).encode()


def answer_of(peer):
    """Reads a response to its end, which the server makes by closing."""
    got = b""
    while piece := peer.recv(65536):
        got += piece
    head, gap, body = got.partition(b"\r\n\r\n")
    lines = head.decode().split("\r\n")
    length = [int(line[16:]) for line in lines if line.startswith("Content-Length: ")]
    if not gap or not length or len(body) != length[0]:
        raise Broken("cut off")
    return int(lines[0].split(" ")[1]), body.decode()


def codes_of(desk, batch):
    lines = desk.answer_to("GET", f"/desk/batches/{batch}/print", DESK).splitlines()
    return [line.split(",")[0] for line in lines[1:]]


def voucher_of(desk, code):
    return json.loads(desk.answer_to("GET", f"/desk/vouchers/{code}", DESK))
