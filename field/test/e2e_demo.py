"""The demo: a voucher redeemed by itself within some seconds of its start, one sold and refunded by the counter's forms,
the packages that it names where they are missing, and nothing left behind however it ends."""

from __future__ import annotations

import html.parser
import http.client
import os
import pathlib
import re
import signal
import socket
import ssl
import subprocess
import tempfile
import threading
import urllib.parse
from collections.abc import Iterator

import pytest
from network import FIELD, STAND_IN
from steady import Span, wait_until

PORT = 18_443               # the first of the demo's three
SECONDS = 10                # from the start to a redeemed voucher, on a machine that is not held up
# A machine without the packages: Python's command, those in sbin, and all fonts are hidden; $1 has what is left of the path.
WITHOUT_PACKAGES = """mount --bind /dev/null /usr/bin/python3 && mount -t tmpfs none /usr/sbin &&
mount -t tmpfs none /usr/share/fonts && PATH=$1 exec /bin/sh "$2" """
pytestmark = pytest.mark.packets
ENDS = {"Ctrl-C": signal.SIGINT, "TERM": signal.SIGTERM, "HUP": signal.SIGHUP, "kill": signal.SIGKILL}


def children() -> dict[int, list[int]]:
    """The children of each process of this machine."""
    found: dict[int, list[int]] = {}
    for path in pathlib.Path("/proc").glob("[0-9]*/stat"):
        try:
            parent = int(path.read_text().rpartition(")")[2].split()[1])
        except OSError:
            continue
        found.setdefault(parent, []).append(int(path.parent.name))
    return found


def below(pid: int) -> set[int]:
    """The processes that a process has started, and those that these have."""
    children_of, found, todo = children(), set(), [pid]
    while todo:
        todo.extend(more := children_of.get(todo.pop(), []))
        found.update(more)
    return found


def spaces(pids: set[int]) -> set[str]:
    """The network namespaces of these processes, without this machine's."""
    found = set()
    for pid in pids:
        try:
            found.add(os.readlink(f"/proc/{pid}/ns/net"))
        except OSError:
            pass
    return found - {os.readlink("/proc/self/ns/net")}


def all_spaces() -> set[str]:
    """The network namespaces of all processes."""
    return spaces({int(path.name) for path in pathlib.Path("/proc").glob("[0-9]*")})


def left_behind() -> list[str]:
    """Files, names of network namespaces and ports that the demo has left behind."""
    lists = pathlib.Path("/run/netns")
    found = [str(path) for path in (*pathlib.Path(os.environ["TMPDIR"]).iterdir(), *pathlib.Path("/run").glob("lab"))]
    # in its own process namespace the demo's number is a small one
    found += [path.name for path in (lists.iterdir() if lists.is_dir() else ()) if re.fullmatch(r"fk\d{1,2}[a-z]+\d?", path.name)]
    for number in range(PORT, PORT + 3):
        with socket.socket() as one:
            if one.connect_ex(("127.0.0.1", number)) == 0:
                found.append(f"port {number}")
    return found


@pytest.fixture
def demo(portal: str, monkeypatch: pytest.MonkeyPatch) -> Iterator[list[str]]:
    """The demo's command line, with a folder of its own for what it makes."""
    with tempfile.TemporaryDirectory() as folder:
        monkeypatch.setenv("TMPDIR", folder)
        yield [str(FIELD / "demo"), "--portal", portal or STAND_IN, "--port", str(PORT)]


def test_once(demo: list[str]) -> None:
    span = Span()
    done = subprocess.run([*demo, "--once"], capture_output=True, text=True, timeout=120)
    found = re.search(r"redeemed ([0-9.]+) s after the start", done.stdout)
    took = float(found[1]) if found else None
    assert done.returncode == 0 and took is not None, (
        "--once redeems a voucher, and the outside's page comes  "
        f"[{done.stdout.strip()[-260:]}{done.stderr.strip()[-260:]}]")
    assert span.allows(took, SECONDS), f"within {SECONDS} s of the start  [{took} s]"
    assert len(re.findall(r"[0-9A-Z]{4}(?:-[0-9A-Z]{4}){3}", done.stdout)) == 3, "three codes are printed"
    assert not left_behind(), "nothing is left behind"


def opened_by(demo: list[str]) -> tuple[subprocess.Popen[str], list[str]]:
    """Starts the demo, and waits until it is open. The demo and what it prints."""
    job = subprocess.Popen(demo, stdout=subprocess.PIPE, stderr=subprocess.STDOUT, text=True, start_new_session=True)
    assert job.stdout
    lines: list[str] = []
    for line in job.stdout:
        lines.append(line)
        if "Ctrl-C ends it" in line:
            break
    threading.Thread(target=lambda: lines.extend(job.stdout or ()), daemon=True).start()
    return job, lines


class Forms(html.parser.HTMLParser):
    """The forms of a page by their actions, each with the fields that a browser sends where nobody fills them in."""

    def __init__(self, page: str) -> None:
        super().__init__()
        self.found: dict[str, dict[str, str]] = {}
        self.fields: dict[str, str] = {}
        self.menu = ""
        self.feed(page)

    def handle_starttag(self, tag: str, attrs: list[tuple[str, str | None]]) -> None:
        """Keeps a form's action, and its fields with the values that they have."""
        values = {name: value or "" for name, value in attrs}
        if tag == "form":
            self.fields = self.found.setdefault(values["action"], {})
        elif tag == "select":
            self.menu = values["name"]
        elif tag == "option":
            self.fields.setdefault(self.menu, values["value"])
        elif tag == "input" and "name" in values:
            self.fields[values["name"]] = values.get("value", "")


class Clerk:
    """A clerk's browser: the host, and the origin of each form that is sent, are those of the counter's address."""

    def __init__(self) -> None:
        self.host = f"counter.localhost:{PORT + 1}"
        self.forms: dict[str, dict[str, str]] = {}
        self.cookie = ""

    def log_in(self) -> None:
        """Types name and password on the page that the counter shows first."""
        self.ask("/")
        self.send("/login", name="clerk", password="clerk")

    def ask(self, path: str, fields: dict[str, str] | None = None, origin: str = "") -> tuple[int, str]:
        """A page, or the answer to a form; its forms can be sent next."""
        head = {"Host": self.host, **({"Cookie": self.cookie} if self.cookie else {})}
        if fields is not None:
            head |= {"Origin": origin or f"https://{self.host}", "Content-Type": "application/x-www-form-urlencoded"}
        link = http.client.HTTPSConnection("127.0.0.1", PORT + 1, context=ssl._create_unverified_context(), timeout=30)
        link.request("GET" if fields is None else "POST", path, urllib.parse.urlencode(fields or {}), head)
        answer = link.getresponse()
        if cookie := answer.headers["Set-Cookie"]:
            self.cookie = cookie.partition(";")[0]
        if place := answer.headers["Location"]:
            link.close()
            return self.ask(place)
        page = answer.read().decode("latin-1" if path.startswith("/fonts/") else "utf-8")
        link.close()
        self.forms = Forms(page).found
        return answer.status, page

    def look_up(self, code: str) -> tuple[int, str]:
        """Types a code on the first page of the counter."""
        self.ask("/")
        return self.send("/voucher", code=code)

    def send(self, action: str, **filled_in: str) -> tuple[int, str]:
        """Sends a form of the page; the answer."""
        return self.ask(action, self.forms[action] | filled_in)


def test_counter_works(demo: list[str]) -> None:
    """The forms of the counter's page, as its own page sends them, and as others do."""
    job, _ = opened_by(demo)
    try:
        clerk = Clerk()
        clerk.log_in()
        first = clerk.ask("/")
        assert first[0] == 200 and "/now" in clerk.forms, "the counter's page comes"
        codes = issue(clerk)
        sold_and_refunded(clerk, codes[0])
        only_from_its_own_page(clerk, codes[1])
    finally:
        job.terminate()
        job.wait(20)


def issue(clerk: Clerk) -> list[str]:
    """Issues a batch. Its codes, from the sheet."""
    clerk.ask("/vouchers")
    status, page = clerk.send("/issue", plan="day", batch="demo-1", count="2")
    sheet = clerk.ask("/sheet?batch=demo-1")[1]
    codes = re.findall(r"<b>([0-9A-Z-]{19})</b>", sheet)
    assert status == 200 and "demo-1" in page and len(codes) == 2, (
        "a batch is issued by its form, and has a sheet")
    found = {path: clerk.ask(path)[0] for path in re.findall(r"/[a-z]+\.css", sheet)}
    found |= {path: clerk.ask(path)[0] for path in re.findall(r'url\("(.*?)"\)', clerk.ask("/sheet.css")[1])}
    assert len(found) == 6 and set(found.values()) == {200}, "the sheet comes with its styles and fonts"
    return codes


def sold_and_refunded(clerk: Clerk, code: str) -> None:
    """A clerk sells a voucher by the forms of its page, and refunds it."""
    clerk.look_up(code)
    status, page = clerk.send("/sell")
    assert status == 200 and "Take €9.00" in page, "a voucher is looked up, and sold by its form"
    clerk.look_up(code)
    clerk.send("/next")     # Enter on the empty field
    status, page = clerk.send("/refund")
    assert status == 200 and "Give back €9.00" in page, "it is looked up again, and refunded"
    clerk.ask("/")
    status, page = clerk.send("/now", plan="hour")
    assert status == 200 and "Take €3.00" in page, "another one is issued and sold at one press"


def only_from_its_own_page(clerk: Clerk, code: str) -> None:
    """A form that another page sent sells nothing."""
    for origin in ("https://counter.localhost", f"https://wifi.localhost:{PORT}", "null"):
        clerk.look_up(code)
        status = clerk.ask("/sell", clerk.forms["/sell"], origin)[0]
        clerk.look_up(code)
        assert status == 403 and "/sell" in clerk.forms, f"a form that was sent from {origin} sells nothing"


def test_packages_are_named() -> None:
    """Without any of them, Python too: those that README's command installs, and no others."""
    with tempfile.TemporaryDirectory() as folder:
        for name in ("readlink", "dirname"):
            pathlib.Path(folder, name).symlink_to(f"/usr/bin/{name}")
        words = ["unshare", "--mount", "sh", "-c", WITHOUT_PACKAGES, "sh", folder, str(FIELD / "demo")]
        done = subprocess.run(words, capture_output=True, text=True)
    result = re.fullmatch("demo: (apt install .*)\n", done.stderr)
    line, = re.findall("^apt install .*", (FIELD.parent / "README.md").read_text(), re.M)
    wanted = subprocess.run(["bash", "-c", f"echo {line}"], capture_output=True, text=True).stdout.split()
    assert done.returncode == 1 and result is not None and sorted(result[1].split()) == sorted(wanted), (
        f"without its packages it names those that README names  [{done.stderr.strip()[-300:]}; README: "
        f"{' '.join(wanted)}]")


@pytest.mark.parametrize("name", ENDS)
def test_ended(demo: list[str], name: str) -> None:
    """The demo is open, and then it gets the signal; a Ctrl-C goes to the whole process group."""
    job, lines = opened_by(demo)
    pids = below(job.pid)
    namespaces = spaces(pids)
    opened = len(namespaces) >= 3 and len(left_behind()) == 3       # its ports
    if name == "Ctrl-C":
        os.killpg(job.pid, ENDS[name])
    else:
        os.kill(job.pid, ENDS[name])
    gone = wait_until(lambda: job.poll() is not None and not any(os.path.exists(f"/proc/{pid}") for pid in pids), 10)
    left = [*left_behind(), *(all_spaces() & namespaces)]
    for pid in below(job.pid) | pids:
        if os.path.exists(f"/proc/{pid}"):
            os.kill(pid, signal.SIGKILL)
    assert opened and gone, (
        f"{name}: the demo was open, and ends  [{len(namespaces)} namespaces, {len(pids)} processes; status "
        f"{job.returncode}; {''.join(lines[-3:]).strip()[-200:]}]")
    assert gone and not left, f"{name}: nothing is left behind: processes, namespaces, files, ports"


def test_port_taken(demo: list[str]) -> None:
    with socket.create_server(("127.0.0.1", PORT + 1)):
        done = subprocess.run([*demo, "--once"], capture_output=True, text=True, timeout=120)
    assert done.returncode == 1 and f"port {PORT + 1}" in done.stderr, (
        f"a port that another program has is said  [{done.stderr.strip()[-200:]}]")
    assert not left_behind(), "and nothing is left behind"
