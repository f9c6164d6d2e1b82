"""The pages in headless Chromium: both applications on loopback, with what nginx adds, over a desk of their
own. Needs Debian's chromium, chromium-driver and python3-selenium."""

from __future__ import annotations

import base64
import contextlib
import json
import pathlib
import re
import shutil
import socket
import tempfile
import threading
import time
from typing import Any

from desk_process import FIELD, PLANS, Desk, DeskProcess, Routes
from give_fixture import FREE_PLAN

from portal_field.counter import page as counter_page
from portal_field.counter.clerk import Counter
from portal_field.counter.journal import Journal
from portal_field.give import giver
from portal_field.give.record import Record
from portal_field.guests import page as guest_page
from portal_field.lib import doors, web
from needs import lacks
from steady import wait_until

from portal_field.lib.local_time import use_zone
from portal_field.settings.maker import POLICY

try:
    from selenium import webdriver
    from selenium.webdriver.chrome.service import Service
    from selenium.webdriver.common.by import By as By           # tests take both from here
    from selenium.webdriver.common.keys import Keys as Keys
except ImportError:
    pass

BROWSER = ("chromium", "chromium-driver", "python3-selenium")
CAN = not lacks(*BROWSER)
MAC = "02:00:00:00:00:01"
VENUE: dict[str, Any] = {"house": "Sample Library", "help": "",
                         "portal_url": "https://wifi.example/portal", "currency": "EUR", "wifi": "Library Guests",
                         "voucher_languages": ["en"], "language": "en"}
LIGHT, DARK = "light", "dark"


def policy() -> str:
    """What set-up writes in place of @POLICY@ into nginx's files."""
    return POLICY


class Nginx:
    """What nginx does for one of the applications: it adds the page's policy and says who asks, and it serves files
    itself, as its configuration has them."""

    def __init__(self, conf: str) -> None:
        text = (FIELD / conf).read_text().replace("@FIELD@", str(FIELD)).replace("@ETC@/guests", str(FIELD / "guests"))
        field = re.search(r'add_header Content-Security-Policy "(.*)" always;', text)
        assert field
        self.policy = field[1].replace("@POLICY@", policy())
        self.files = {path: f"{root}{path}" for path, root in re.findall(r"location = (\S+) { root (\S+);", text)}
        self.folders = dict(re.findall(r"location (/\S+/) { alias (\S+);", text))

    def file(self, path: str) -> pathlib.Path | None:
        """The file that nginx serves itself at this path; None where the application answers."""
        folder, _, name = path.rpartition("/")
        found = self.files.get(path) or self.folders.get(folder + "/", "/nowhere/") + name
        return pathlib.Path(found) if pathlib.Path(found).is_file() else None

    def before(self, app: web.Application) -> web.Application:
        """The application behind nginx: with the headers that it adds, and its own files."""
        def answer(environ: dict[str, Any], start: Any) -> web.Answer:
            """One answer, as nginx sends it."""
            if file := self.file(environ["PATH_INFO"]):
                start("200 OK", [("Content-Type", {".css": "text/css", ".ttf": "font/ttf"}[file.suffix])])
                return [file.read_bytes()]
            environ |= {"HTTP_X_REAL_IP": "127.0.0.1", "HTTP_X_USER": "anna", "HTTP_X_SCHEME": "http"}
            added = [("Content-Security-Policy", self.policy), ("X-Content-Type-Options", "nosniff")]
            return app(environ, lambda status, head, *more: start(status, [*head, *added], *more))

        return answer


class Venue:
    """Desk, guests' page and counter of one test."""

    def __init__(self, desk: DeskProcess | None = None, **changed: Any) -> None:
        self.place = tempfile.TemporaryDirectory()
        folder = pathlib.Path(self.place.name)
        self.list, notes = folder / "sessions.json", folder / "notes"
        notes.mkdir()
        use_zone("UTC0")        # the desk's
        self.stack = contextlib.ExitStack()
        self.desk = desk or self.stack.enter_context(DeskProcess())
        self.conf: dict[str, Any] = {**VENUE, "plans": str(FIELD / "settings/plans.toml"), "snapshot": str(self.list), "notes": str(notes),
                                     "knock": str(folder / "knock"), **changed}
        self.counter = Counter(Desk(self.desk.port, "desk-token"), self.conf, Journal(folder / "journal.db"))
        self.counter.load_plans()
        self.front = guest_page.Front(Desk(self.desk.port), self.conf, lambda _: self.device, "a key")
        self.device: str | None = MAC
        self.servers: list[Any] = []
        self.guests = self.serve(guest_page.pages(self.front), "guests/nginx-guests.conf") + "/portal"
        self.clerks = self.serve(counter_page.pages(self.counter), "counter/nginx-counter.conf") + "/"
        self.gateway_tells()

    def serve(self, app: web.Application, conf: str) -> str:
        """Serves an application as behind nginx with this configuration; its address."""
        door = socket.create_server(("127.0.0.1", 0))
        server = web.server(Nginx(conf).before(app), door, threads=4)
        threading.Thread(target=server.run, daemon=True).start()
        self.servers.append(server)
        return f"http://localhost:{door.getsockname()[1]}"

    def give(self) -> None:
        """Has the venue give free minutes, by a part of its own."""
        folder = pathlib.Path(self.place.name)
        plans = folder / "plans.toml"
        plans.write_bytes(PLANS + FREE_PLAN.encode())
        self.desk.desk.request_json(Routes.PLANS, body=plans.read_bytes())
        conf = {"network": "127.0.0.0/8", "snapshot": str(self.list), "plans": str(plans), "free_plan": "free", "free_daily": 9}
        part = giver.Giver(Desk(self.desk.port, "desk-token"), Record(folder / "given.db"), lambda _: self.device, conf)
        door = self.stack.enter_context(contextlib.closing(doors.listening(str(folder / "give"))))
        threading.Thread(target=doors.Door(door, "portal-front", giver.MOST_BYTES, part.answer).serve, daemon=True).start()
        self.conf.update(give=str(folder / "give"), free=True)

    def look(self, code: str) -> str:
        """The query of a code's pages, as after it was typed."""
        return f"look={self.counter.looks.keep(code)}"

    def gateway_tells(self) -> None:
        """Writes the gateway's list, as its agent would."""
        rows = [{**row, "used": 123_456, "reported": 120_000, "reported-at": int(time.time()) - 40}
                for row in self.desk.gateway.request_json(Routes.SESSIONS)["sessions"]]
        self.list.write_text(json.dumps({"at": int(time.time()), "sessions": rows}))

    def close(self) -> None:
        """Stops both applications and the desk."""
        for server in self.servers:
            server.task_dispatcher.shutdown()
            server.close()
        self.stack.close()
        self.place.cleanup()


class Browser:
    """One headless Chromium, with more options of its command line."""

    def __init__(self, *more: str) -> None:
        self.profile, self.more = tempfile.TemporaryDirectory(), more
        self.start(*more)

    def start(self, *more: str) -> None:
        """Starts Chromium with its profile and these options."""
        options = webdriver.ChromeOptions()
        options.binary_location = shutil.which("chromium") or ""
        for word in ("headless=new", "no-sandbox", "disable-gpu", "disable-dev-shm-usage", "hide-scrollbars", "no-first-run",
                     "disable-background-networking", f"user-data-dir={self.profile.name}", *more):
            options.add_argument("--" + word)
        self.driver = webdriver.Chrome(service=Service(shutil.which("chromedriver") or ""), options=options)
        self.driver.set_page_load_timeout(30)

    def start_again(self) -> None:
        """Ends Chromium and starts it again, which restores its tabs."""
        self.driver.quit()
        self.start(*self.more, "restore-last-session")

    def close(self) -> None:
        """Ends Chromium, and removes its profile."""
        self.driver.quit()
        self.profile.cleanup()

    def shape(self, width: int, height: int = 900, scheme: str = LIGHT, accepted: str = "", media: str = "") -> None:
        """Sets the screen's size, light or dark, or paper (`print`), and the languages that are accepted."""
        command = self.driver.execute_cdp_cmd
        command("Emulation.setDeviceMetricsOverride", {"width": width, "height": height, "deviceScaleFactor": 1, "mobile": False})
        command("Emulation.setEmulatedMedia", {"media": media, "features": [
            {"name": "prefers-color-scheme", "value": scheme}, {"name": "prefers-reduced-motion", "value": "reduce"}]})
        if accepted:
            command("Network.setUserAgentOverride", {"userAgent": "test", "acceptLanguage": accepted})

    def open(self, url: str) -> None:
        """Opens an address, and waits until the page is loaded."""
        self.driver.get(url)
        self.focuses()

    def focuses(self) -> None:
        """Waits until a field that asks for the focus has it: Chromium gives it some time after the page is loaded."""
        wait_until(lambda: self.ask("return !document.querySelector('[autofocus]') || document.activeElement !== document.body"), 2)

    def ask(self, script: str, *values: Any) -> Any:
        """The value that a script returns in the page."""
        return self.driver.execute_script(script, *values)

    def type(self, words: str) -> None:
        """Types as a keyboard or a scanner does: to what has the focus."""
        self.driver.switch_to.active_element.send_keys(words)

    def enter(self) -> None:
        """Presses the Enter key, and waits for the page that comes."""
        old = self.driver.find_element(By.TAG_NAME, "html")
        self.type(Keys.ENTER)
        self.comes(old)

    def press(self, words: str) -> None:
        """Presses a button or a link, by its name, and waits for the page that comes."""
        old = self.driver.find_element(By.TAG_NAME, "html")
        found = self.driver.find_elements(By.XPATH, f"//button[normalize-space()='{words}'] | //a[normalize-space()='{words}']")
        found[0].click()
        self.comes(old)

    def comes(self, old: Any) -> None:
        """Waits until another page than that of this element is loaded."""
        def is_there() -> bool:
            """Whether another page is there, and loaded."""
            found = self.driver.find_elements(By.TAG_NAME, "html")      # there is none between two pages
            return bool(found) and found[0] != old and self.ask("return document.readyState") == "complete"

        if not wait_until(is_there, 10):
            raise AssertionError("no page came")
        self.focuses()

    @property
    def title(self) -> str:
        """The title of the page."""
        return self.driver.title

    @property
    def text(self) -> str:
        """The visible text of the page."""
        return self.driver.find_element(By.TAG_NAME, "body").text

    def names(self) -> list[tuple[str, str]]:
        """Role and name of each node of the accessibility tree that a person can use or that names a part."""
        nodes = self.driver.execute_cdp_cmd("Accessibility.getFullAXTree", {})["nodes"]
        return [(node["role"]["value"], node.get("name", {}).get("value", "")) for node in nodes if not node.get("ignored")]

    def printed(self) -> list[tuple[int, int]]:
        """The pages that a printer gets: width and height of each, in millimetres."""
        result = self.driver.execute_cdp_cmd("Page.printToPDF", {"preferCSSPageSize": True, "printBackground": True})
        boxes = re.findall(rb"/MediaBox \[0 0 ([\d.]+) ([\d.]+)\]", base64.b64decode(result["data"]))
        return [(round(float(wide) / 72 * 25.4), round(float(high) / 72 * 25.4)) for wide, high in boxes]

    def picture(self, path: pathlib.Path) -> None:
        """Writes what the screen shows into a file, as PNG."""
        result = self.driver.execute_cdp_cmd("Page.captureScreenshot", {"format": "png"})
        path.write_bytes(base64.b64decode(result["data"]))
