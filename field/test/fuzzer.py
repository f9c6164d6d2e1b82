"""Requests that nobody means, from a seed, against one of the sites: methods, paths, heads, sizes, encodings, bodies. None
of them is one that may act: each lacks what its command needs.

    fuzzer.py SITE ADDRESS SEED FIRST COUNT CODES SOURCE ..

SITE: guests or counter. CODES: the path of a file with real codes, one a line, which stand where they must do nothing. Beside
it the file `login` has the cookie of a clerk's log-in and the token of its forms, a line each.
Sends the requests FIRST to FIRST + COUNT - 1 of this seed, from the source addresses in turn. Prints a JSON object: how
often each status came (`none`: the connection was closed without one), and the first requests that got another 5xx than
501 and 505.
"""

from __future__ import annotations

import collections
import contextlib
import json
import pathlib
import random
import socket
import ssl
import sys
import threading
import urllib.parse
from collections.abc import Callable

from portal_field.counter import roles

HOSTS = {"guests": "wifi.example", "counter": "counter.example"}
# Each address of the counter but those that would end the log-in of these requests, and two that ask the unit of root,
# without which they answer 503.
COUNTER = sorted((roles.FOR_ALL | roles.FOR_CLERKS | roles.FOR_MANAGERS | roles.FOR_OFFICE)
                 - {"lock", "logout", "clerk", "clerk-gone"})
PATHS = {"guests": ("/", "/portal", "/portal/redeem", "/portal/session", "/captive", "/style.css", "/favicon.ico", "/portal/terms", "/portal/prices", "/logo", "/device", "/errors/en/429.html", "/alive"),
         "counter": ("/login", *(f"/{name}" for name in COUNTER), "/style.css", "/counter.css", "/sheet.css",
                     "/fonts/DejaVuSansCondensed.ttf", "/fonts/..%2f..%2fcron", "/alive")}
ACTS = ("/sell", "/refund", "/close", "/issue", "/now", "/sell-batch", "/sell-several", "/refund-batch", "/time", "/shift-open", "/shift-move",
        "/shift-close", "/drawer")
FIELDS = ("code", "request", "device", "sign", "sent", "lang", "done", "left", "add", "terms", "look", "kept", "start", "next", "batch", "plan", "count", "amount",
          "session", "find", "day", "from", "to", "by", "size", "token", "name", "password", "pin", "to", "then", "fields", "shown", "booted", "again", "codes", "out", "refunds", "text",
          "payment", "drawer", "float", "move", "reason", "shift", "counted", "due", "note", "number", "lines", "said", "details", "act", "do", "whole", "seen", "price", "name_de", "place", "tax", "uses", "offered",
          "owner_contact", "payments", "receipt_head", "file", "x", "", "code[]", "__proto__")
METHODS = ("GET", "POST", "HEAD", "PUT", "DELETE", "OPTIONS", "PATCH", "TRACE", "CONNECT", "PROPFIND", "get", "G\u00cbT", "")
WORDS = ("", "0", "1", "-1", "500", "501", "9" * 18, "9" * 40, "1e9", "0x10", "NaN", "true", "null", "hour", "b1", "2026-01-01",
         "2026-13-41", "0000-00-00", "9999-12-31", "1970-01-01", "2222-2222-2222", "AAAA-AAAA-AAAA-AAAA", "../../etc/passwd", "<script>",
         "{{7*7}}", "%(sum)s", "%s%n", "' OR 1=1 --", "\x00", "\r\nX: y", "\ud800", "\U0001f4a9" * 9, "\u202e", "a" * 300, "de", "zh-Hans",
         "https://wifi.example/portal?code=2222", "https://[", "text/csv", "\u0661\u0662", "week", "free", "end", "save", "terms.de", "label", "receipt58")
HEADS = ("Accept-Language", "Cookie", "Origin", "Referer", "Portal-Device", "Portal-Request", "Portal-Token", "X-User", "X-Real-IP",
         "X-Scheme", "X-Tried", "X-Forwarded-For", "Forwarded", "Authorization", "Content-Type", "Content-Encoding", "Range",
         "If-None-Match", "If-Modified-Since", "Expect", "Upgrade", "Connection", "Via", "User-Agent", "Sec-Fetch-Mode", "Accept",
         "Accept-Encoding", "X-Original-URL", "X-HTTP-Method-Override", "portal_device")
LANGUAGES = ("de", "*", "xx-" * 300, "en;q=nan", "en;q=1e999", "de;q=-1,fr;q=2", ",,,;;;", "zh-Hant-TW", "\u00e9")
OURS = "https://counter.example"
ELSEWHERE = ("https://evil.example", "http://counter.example", "null", "https://counter.example:444", "")     # or nowhere
DEVICE = "02:aa:00:00:00:02"        # the one that sends these requests
FAULTS = (*range(502, 505), 500, *range(506, 600))
WAIT = 6.0          # seconds for an answer
CONTEXT = ssl.SSLContext(ssl.PROTOCOL_TLS_CLIENT)
CONTEXT.check_hostname, CONTEXT.verify_mode = False, ssl.CERT_NONE


class Maker:
    """One request of one number: the same seed and number give the same bytes."""

    def __init__(self, site: str, seed: int, number: int, codes: list[str], login: list[str]) -> None:
        self.site, self.codes, self.chance = site, codes, random.Random(f"{seed}-{site}-{number}")
        self.cookie, self.token = f"Cookie: {login[0]}", login[1]

    def often(self, share: float) -> bool:
        return self.chance.random() < share

    def word(self) -> str:
        kind = self.chance.random()
        if kind < 0.1:
            return self.chance.choice(self.codes)
        if kind < 0.25:
            return "".join(chr(self.chance.choice((self.chance.randrange(256), self.chance.randrange(0xd800))))
                           for _ in range(self.chance.randrange(40)))
        return self.chance.choice(WORDS)

    def query(self) -> str:
        pairs = [(self.chance.choice(FIELDS), self.word()) for _ in range(self.chance.choice((0, 1, 2, 3, 6, 25)))]
        if self.often(0.04):
            return "&".join(f"{name}={value}" for name, value in pairs)        # as it is
        text = urllib.parse.urlencode(pairs, errors="surrogatepass")
        return text.replace("%", "%25", 1) if self.often(0.05) else text + self.chance.choice(("", "", "", "%", "%zz", "&&=&", ";"))

    def path(self) -> str:
        path = self.chance.choice(PATHS[self.site])
        if self.often(0.12):
            path = self.chance.choice((path.upper(), path + "/", "/" + path, path + "%00", path + "/..", "/x/.." + path, path + ";x", path + "%2f",
                                       path.replace("/", "/./"), urllib.parse.quote(path, safe=""), path + "." + self.word(),
                                       "/" + self.word(), "*", "", "http://other.example" + path, path + "x" * 9000))
        query = self.query() if self.often(0.6) else ""
        return path + ("?" + query if query else "")

    def heads(self) -> list[tuple[str, str]]:
        found = []
        for _ in range(self.chance.choice((0, 0, 1, 2, 3, 8))):
            name = self.chance.choice(HEADS)
            value = self.chance.choice(LANGUAGES) if name == "Accept-Language" else self.word()
            if name == "Cookie":
                value = f"portal_lang={self.word()}; x={self.word()}"
            found.append((name, value if self.often(0.1) else "".join(sign for sign in value if sign.isprintable())))
        if self.often(0.02):
            found.append((self.chance.choice(("A B", "", "X\x00", "\u00e9")), "x"))
        if self.often(0.03):
            found.append(("X-Long", "x" * self.chance.choice((4000, 9000, 40_000))))
        if self.often(0.02):
            found.append((self.chance.choice(("Transfer-Encoding", "Content-Length")), self.chance.choice(("chunked", "identity, chunked", "3", self.word()))))
        if self.often(0.02):
            found += [(f"X-{i}", "y") for i in range(self.chance.choice((90, 400)))]
        return found

    def body(self) -> bytes:
        kind = self.chance.random()
        if kind < 0.6:
            return self.query().encode("utf-8", "surrogatepass")
        if kind < 0.8:
            result = {self.chance.choice(FIELDS): self.chance.choice((self.word(), 1, None, [], {}, 1e308)) for _ in range(3)}
            return json.dumps(result)[:self.chance.choice((9, 4000))].encode()
        if kind < 0.9:
            return self.chance.randbytes(self.chance.choice((1, 100, 4096, 5000, 70_000)))
        return b'{"code":' + b"[" * self.chance.choice((3, 2000))

    def nearly(self) -> bytes:
        """A request that lacks one thing alone to act: the page's origin, its method, its number, or its signature."""
        chance, code = self.chance, self.chance.choice(self.codes)
        fields = {"code": code, "request": f"f{chance.randrange(10**9)}", "device": DEVICE, "sign": "0" * 64, "batch": "fuzz", "plan": "hour",
                  "count": "1", "amount": "300", "session": "1", "booted": "0"}
        method, path, heads = "POST", chance.choice(ACTS if self.site == "counter" else ("/portal", "/portal/redeem")), [self.cookie]
        body = urllib.parse.urlencode({**fields, "token": self.token})
        if self.site == "guests":
            heads = [] if path == "/portal" else ["Content-Type: application/json"]
            if path != "/portal":
                body = json.dumps({"code": code})
                method = chance.choice(("GET", "PUT", "PATCH", "DELETE", "OPTIONS"))
        elif self.often(0.5):
            heads += [f"Origin: {origin}"] if (origin := chance.choice(ELSEWHERE)) else []
        elif self.often(0.5):
            method, heads = chance.choice(("GET", "PUT", "PATCH", "DELETE")), [self.cookie, f"Origin: {OURS}"]
        else:
            body, heads = body.replace("request=f", chance.choice(("request=f_", "x="))), [self.cookie, f"Origin: {OURS}"]
        lines = [f"{method} {path} HTTP/1.1", f"Host: {HOSTS[self.site]}", *heads, f"Content-Length: {len(body)}", "", body]
        return "\r\n".join(lines).encode()

    def request(self) -> tuple[bytes, bool]:
        """Its bytes, and whether the connection can be used for another one."""
        if self.often(0.1):
            return self.nearly(), True
        method = self.chance.choice((*METHODS, *["GET"] * 40, *["POST"] * 40))
        path, heads = self.path(), self.heads()
        body = self.body() if method == "POST" and self.often(0.9) or self.often(0.1) else b""
        host = HOSTS[self.site] if self.often(0.9) else self.chance.choice(("", "x", "other.example", HOSTS[self.site] + ":99999", "a" * 900, "[::1"))
        self.suffix = b""
        acts = self.spoil(method, path, body)
        body += self.suffix
        if acts is None:
            method, body = "GET", b""
        length = len(body) if self.often(0.94) else self.chance.choice((0, len(body) // 2, len(body) + 9, -1, 10**20, "x", "+1", "1, 2"))
        lines = [f"{method} {path} HTTP/{self.chance.choice(('1.1',) * 90 + ('1.0', '2.0', '9', ''))}", f"Host: {host}", *(acts or ())]
        lines += [f"Content-Length: {length}"] if body or length != len(body) else []
        lines += [f"{name}: {value}" for name, value in heads]
        end = "\r\n" if self.often(0.97) else self.chance.choice(("\n", "\r", "\r\n "))
        text = (end.join(lines) + end + end).encode("utf-8", "surrogatepass") + body
        return text, end == "\r\n" and length == len(body)

    def spoil(self, method: str, path: str, body: bytes) -> list[str] | None:
        """Heads of the request, so that it must do nothing. None where it would act whatever its heads are."""
        if self.site == "guests":
            is_json = b'"code"' in body and any(code.encode() in body for code in self.codes)
            return None if method == "POST" and is_json and "redeem" in path else []
        if not self.often(0.9):
            return [self.chance.choice(("Cookie: __Host-counter=", "Cookie: __Host-counter=x; y", "Cookie: ;;;="))] if self.often(0.1) else []
        origin = OURS
        if body and self.often(0.8):
            self.suffix = f"&token={self.token}".encode()
        if any(act in path for act in ACTS) and (b"request" in body or self.often(0.5)):
            origin = self.chance.choice(ELSEWHERE)
        return [self.cookie, *([f"Origin: {origin}"] if origin else [])]


class Wire:
    """A connection that several requests may use."""

    def __init__(self, address: str, site: str, source: str) -> None:
        bare = socket.create_connection((address, 443), WAIT, (source, 0))
        try:
            self.link = CONTEXT.wrap_socket(bare, server_hostname=HOSTS[site])
        except BaseException:
            bare.close()
            raise

    def ask(self, request: bytes, whole: bool) -> tuple[int, bool]:
        """The status (0: none), and whether the connection goes on."""
        self.link.settimeout(WAIT if whole else 0.3)
        data = b""
        with contextlib.suppress(OSError):
            self.link.sendall(request)
            while b"\r\n\r\n" not in data and len(data) < 100_000 and (piece := self.link.recv(65536)):
                data += piece
        head, _, rest = data.partition(b"\r\n\r\n")
        words = head.split(b" ", 2)
        status = int(words[1]) if len(words) > 1 and words[0].startswith(b"HTTP/") and words[1].isdigit() else 0
        return status, whole and self.rest_of(head, rest, request)

    def rest_of(self, head: bytes, rest: bytes, request: bytes) -> bool:
        """Reads the body, where its end is known."""
        lower = head.lower()
        if b"connection: close" in lower or b"content-length: " not in lower or request.startswith((b"HEAD", b"CONNECT")):
            return False
        left = int(lower.partition(b"content-length: ")[2].split(b"\r\n")[0]) - len(rest)
        while left > 0:
            piece = self.link.recv(65536)
            if not piece:
                return False
            left -= len(piece)
        return left == 0

    def close(self) -> None:
        self.link.close()


class Run:
    def __init__(self, site: str, address: str, seed: int, codes: pathlib.Path, sources: list[str]) -> None:
        self.site, self.address, self.seed, self.sources = site, address, seed, sources
        self.codes, self.login = codes.read_text().split(), codes.with_name("login").read_text().split()
        self.lock, self.counts, self.bad = threading.Lock(), collections.Counter[str](), list[list[object]]()

    def work(self, take: Callable[[], int | None]) -> None:
        wire: Wire | None = None
        while (number := take()) is not None:
            request, whole = Maker(self.site, self.seed, number, self.codes, self.login).request()
            status = 0
            try:
                wire = wire or Wire(self.address, self.site, self.sources[number % len(self.sources)])
                status, goes_on = wire.ask(request, whole)
            except (OSError, ValueError):
                goes_on = False
            if wire and (not goes_on or number % 7 == 0):
                wire.close()
                wire = None
            with self.lock:
                self.counts[str(status or "none")] += 1
                if status in FAULTS and len(self.bad) < 9:
                    self.bad.append([number, status, request[:300].decode("latin-1")])

    def all(self, first: int, count: int, threads: int) -> None:
        numbers = iter(range(first, first + count))

        def take() -> int | None:
            with self.lock:
                return next(numbers, None)

        workers = [threading.Thread(target=self.work, args=(take,)) for _ in range(threads)]
        for worker in workers:
            worker.start()
        for worker in workers:
            worker.join()


def main() -> None:
    site, address, seed, first, count, codes, *sources = sys.argv[1:]
    run = Run(site, address, int(seed), pathlib.Path(codes), sources)
    run.all(int(first), int(count), 16 if site == "guests" else 8)
    print(json.dumps({"counts": run.counts, "bad": run.bad}))


if __name__ == "__main__":
    main()
