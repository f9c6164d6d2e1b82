"""The examples of the documents: the first request of README.md, run as it is written, and the tables of docs/API.md: the
twenty endpoints, and the errors. The settings and the plans of the folder examples.

    documents.py PROGRAM
"""

from __future__ import annotations

import os
import re
import subprocess
import sys
import tempfile

from desk import DESK, GATEWAY, SETTINGS, guest, request
from reader import PLANS

HERE = os.path.dirname(os.path.abspath(__file__))
CALLERS = {"desk": DESK, "gateway": GATEWAY, "guest": guest(1)}
SEED, OTHER = "00" * 32, "01" * 32


def read(*path: str) -> str:
    with open(os.path.join(HERE, "../..", *path), encoding="utf-8") as file:
        return file.read()


def blocks(text: str, kind: str) -> list[str]:
    return re.findall(rf"^```{kind}\n(.*?)^```$", text, re.M | re.S)


def expect(what: str, came: object, wanted: object) -> None:
    """Ends the test where the two differ, and prints both."""
    if came != wanted:
        sys.exit(f"outside: {what}\n  expected: {wanted!r}\n  came:     {came!r}")


def first_request(program: str, text: str) -> None:
    """The lines are run by a shell in an empty folder, in which ./portal is the program."""
    lines, wanted = blocks(text, "sh")[0], blocks(text, "text")[0]
    with tempfile.TemporaryDirectory() as folder:
        os.symlink(program, os.path.join(folder, "portal"))
        done = subprocess.run(["bash", "-eu", "-c", lines], cwd=folder, capture_output=True, check=False)
    expect("README.md, status of the first request", done.returncode, 0)
    expect("README.md, response to the first request", done.stdout.decode().replace("\r\n", "\n"), wanted.removesuffix("\n"))
    said = re.search(r"prints (\d+) bytes", text)
    expect("README.md, 'prints N bytes'", said and int(said[1]), len(done.stdout))


class Store:
    """A database file, from nothing, with the two plans of the cases loaded at 0. Each request goes to a process of `answer`."""

    def __init__(self, program: str) -> None:
        self.program, self.room = program, tempfile.TemporaryDirectory()
        with open(os.path.join(self.room.name, "settings"), "w", encoding="utf-8") as file:
            file.write(SETTINGS)
        expect("the plans are loaded", self.ask(0, "POST", "/desk/plans", DESK, PLANS), (200, '{"plans":2}'))

    def ask(self, now: int, method: str, path: str, field: str, body: str = "", seed: str = SEED) -> tuple[int, str]:
        """The status and the body of the response."""
        words = [self.program, "answer", "--db", "db", "--settings", "settings", "--now", str(now), "--seed", seed]
        sent = request(method, path, field, body)
        done = subprocess.run(words, cwd=self.room.name, input=sent, capture_output=True, check=False)
        head, _, response_body = done.stdout.partition(b"\r\n\r\n")
        status = int(head.split(b" ")[1])
        expect(f"the exit code of {method} {path}", (done.returncode, done.stderr), (0 if status == 200 else 1, b""))
        return status, response_body.decode()


def code(text: str) -> str:
    return '{"code":"%s"}' % text


def examples(program: str) -> int:
    """The settings and the plans of the folder examples are read, and each plan of a file is loaded."""
    folder = os.path.join(HERE, "../../examples")
    settings = os.path.join(folder, "settings.toml")
    names = sorted(set(os.listdir(folder)) - {"settings.toml"})
    for name in names:
        sent = request("POST", "/desk/plans", "Portal-Token: change-me-desk", read("examples", name))
        words = [program, "answer", "--settings", settings, "--now", "0", "--seed", SEED]
        done = subprocess.run(words, input=sent, capture_output=True, check=False)
        body = done.stdout.partition(b"\r\n\r\n")[2].decode()
        expect(f"examples/{name}", body, '{"plans":%d}' % read("examples", name).count("[[plan]]"))
    return len(names)


def endpoints(program: str, text: str) -> int:
    """Each row of the table, in its order, at one store; the voucher that is refunded is one of the program's own."""
    rows = re.findall(r"^\| (GET|POST) (\S+) \| (\w+) \| (\d+) \| (.*?) \| (.*) \|$", text, re.M)
    expect("docs/API.md, rows of the table of endpoints", len(rows), 20)
    store = Store(program)
    for method, path, caller, now, asked, wanted in rows:
        quoted = re.findall(r"`([^`]*)`", asked)
        body, target = ("", quoted[0]) if method == "GET" and quoted else ((quoted or [""])[0], path)
        if asked.startswith("a plans file"):
            body = PLANS
        if target == "/desk/refunds":
            body, wanted = refund_on_the_way(store, body, wanted)
        status, said = store.ask(int(now), method, target, CALLERS[caller], body)
        expect(f"docs/API.md, status of {method} {target}", status, 200)
        expect(f"docs/API.md, answer of {method} {target}", in_words_of_the_table(said, wanted), wanted)
    return len(rows)


def errors(text: str) -> int:
    """The table of errors has each refusal of the specification, with its status."""
    spec = read("crates/portal_model/specs/Refusal.antt")
    words = dict(re.findall(r'^word_of (\w+) = codes "(\w+)"$', spec, re.M))
    statuses = dict(re.findall(r"^status_of (\w+) = (\d+)$", spec, re.M))
    wanted = sorted((statuses[name], word) for name, word in words.items())
    rows = sorted(re.findall(r"^\| (\d{3}) \| `(\w+)` \|", text, re.M))
    expect("docs/API.md, the table of errors (status, word)", rows, wanted)
    return len(rows)


def refund_on_the_way(store: Store, body: str, wanted: str) -> tuple[str, str]:
    """A voucher of `gig`, sold, and redeemed once on another device, in place of the one that the document names."""
    order = '{"batch":"g1","plan":"gig","count":1}'
    assert store.ask(2000, "POST", "/desk/batches", DESK, order, seed=OTHER)[0] == 200
    text = store.ask(2000, "GET", "/desk/batches/g1/print", DESK)[1].splitlines()[1].split(",")[0]
    assert store.ask(2000, "POST", "/desk/sales", DESK, code(text))[0] == 200
    assert store.ask(2000, "POST", "/portal/redeem", guest(2), code(text))[0] == 200
    named = re.search(r'"code":"([^"]*)"', body)
    assert named, body
    return body.replace(named[1], text), wanted.replace(named[1], text)


def in_words_of_the_table(said: str, wanted: str) -> str:
    """What was answered, in the words of the table: whole, or a print file of one code, or the last line of a report."""
    lines = said.splitlines() or [""]
    if wanted.startswith("`"):
        return f"`{said}`"
    if "print file" in wanted:
        return wanted if len(lines) == 2 and lines[0] == "code,plan,seconds,bytes,price,expires" else said
    return re.sub(r"`[^`]*`", lambda _: f"`{lines[-1]}`", wanted)


def main() -> None:
    program = os.path.abspath(sys.argv[1])
    first_request(program, read("README.md"))
    described = read("docs/API.md")
    print(f"outside: the README's first request, the {endpoints(program, described)} endpoints of API.md and its {errors(described)} "
          f"errors are as documented; {examples(program)} files of plans in examples/ are loaded")


if __name__ == "__main__":
    main()
