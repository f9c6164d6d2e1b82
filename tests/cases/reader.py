"""Reads a case: a text file of steps with their expected results. README.md in this folder describes the format."""

from __future__ import annotations

import re
import shlex
from dataclasses import dataclass, field
from pathlib import Path

SETTINGS = """zone = "UTC0"
portal_url = "https://wifi.example/portal"
desk_token = "desk-token"
gateway_token = "gate-token"
"""
PLANS = """[[plan]]
id = "hour"
price = 300
uses = 1
seconds = 3600
bytes = 0
shelf_days = 30
extend = true

[[plan]]
id = "gig"
price = 500
uses = 3
seconds = 0
bytes = 1073741824
shelf_days = 30
extend = false
"""
INDENT = "    "
REQUEST = re.compile(r"(?:at (\d+) (?:seed (\S+) )?)?(desk|gateway|guest \d|nobody) ([A-Z]+) (\S+)(?: (.*))?")
SENT = re.compile(r"(?:at (\d+) )?send")
SERVED = re.compile(r"(serve)(?: ([1-9]\d*))?|stop")
TIMES = re.compile(r'(?<!\\)<(\d+) times "((?:[^"\\]|\\.)*)">')
ESCAPE = re.compile(r"\\(x[0-9a-f]{2}|.?)")
PLAIN = {"r": b"\r", "n": b"\n", "t": b"\t", "\\": b"\\", '"': b'"', "<": b"<"}


class BadCase(Exception):
    """A case file breaks the format: the line and what is wrong with it."""

    def __init__(self, line: int, message: str) -> None:
        super().__init__(message)
        self.line = line


@dataclass(frozen=True)
class Answer:
    """The response that is expected: a status and a body, or all its bytes."""

    status: int
    body: bytes
    whole: bytes | None = None


@dataclass
class Step:
    line: int
    shown: list[str]


@dataclass
class Ask(Step):
    """A request, at a moment by `answer`, without one to the server that runs."""

    now: int | None
    seed: str
    sent: bytes
    wanted: Answer


@dataclass
class Call(Step):
    """A subcommand, its exit code, the lines of its output and of its errors, and the files that it leaves as they were."""

    words: list[str]
    code: int
    output: list[str]
    errors: list[str]
    same: list[str]


@dataclass
class Sql(Step):
    """A question to the database and its rows; without rows, a change of it."""

    text: str
    rows: list[str] | None


@dataclass
class File(Step):
    name: str
    text: str


@dataclass
class Serve(Step):
    """Starts the server, for so many connections where a number is given, or stops it."""

    starts: bool
    count: int | None


@dataclass
class Case:
    name: str
    sentence: str
    in_memory: bool = False
    settings: str = SETTINGS
    plans: str | None = PLANS
    steps: list[Step] = field(default_factory=list)


@dataclass
class Item:
    """A line at the margin with the indented lines below it, and what is expected."""

    line: int
    text: str
    block: list[str] | None = None
    fields: list[str] = field(default_factory=list)
    arrow: str | None = None
    wanted: list[str] | None = None
    errors: list[str] = field(default_factory=list)
    same: list[str] = field(default_factory=list)
    shown: list[str] = field(default_factory=list)


def read_case(path: Path) -> Case:
    """The case of the file. Raises BadCase."""
    try:
        lines = path.read_text(encoding="utf-8").split("\n")
    except UnicodeDecodeError as fault:
        raise BadCase(1, "not UTF-8") from fault
    start = next((n for n, line in enumerate(lines) if not line), len(lines))
    if start == 0 or start == len(lines) or not lines[start - 1].endswith("."):
        raise BadCase(1, "a case begins with a sentence of what it shows, and an empty line")
    case = Case(path.stem, " ".join(lines[:start]))
    for item in items_of(lines, start):
        add_item(case, item)
    if not case.steps:
        raise BadCase(len(lines), "no step")
    check_server(case)
    return case


def check_server(case: Case) -> None:
    """`serve` and `stop` take turns, and requests without a moment come between them."""
    runs = False
    for step in case.steps:
        if isinstance(step, Serve):
            if step.starts == runs:
                raise BadCase(step.line, "the server runs already" if runs else "no server runs")
            runs = step.starts
        if isinstance(step, Ask) and step.now is None and not runs:
            raise BadCase(step.line, "a request without a moment goes to a server, and none runs")


def items_of(lines: list[str], start: int) -> list[Item]:
    items: list[Item] = []
    empty = 0
    for place in range(start, len(lines)):
        line = lines[place]
        if not line:
            empty += 1
            continue
        if line.startswith(INDENT):
            add_block_line(items, place + 1, line[len(INDENT):], empty)
        elif not line.startswith("#"):
            add_line(items, place + 1, line)
        if items and not line.startswith("#"):
            items[-1].shown.append(line)
        empty = 0
    return items


def add_block_line(items: list[Item], number: int, text: str, empty: int) -> None:
    """Empty lines between two indented lines belong to the block."""
    if not items:
        raise BadCase(number, "an indented line belongs to a step, and there is none above it")
    item = items[-1]
    if item.arrow is None:
        item.block = with_line(item.block, text, empty)
    else:
        item.wanted = with_line(item.wanted, text, empty)


def with_line(block: list[str] | None, text: str, empty: int) -> list[str]:
    return [text] if block is None else [*block, *[""] * empty, text]


def add_line(items: list[Item], number: int, line: str) -> None:
    kind, _, rest = line.partition(" ")
    if kind not in ("+", "->", "!", "="):
        items.append(Item(number, line))
        return
    if not items:
        raise BadCase(number, f"`{kind}` belongs to a step, and there is none above it")
    item = items[-1]
    if kind == "->":
        if item.arrow is not None:
            raise BadCase(number, "a step has one `->`")
        item.arrow = rest
    else:
        {"+": item.fields, "!": item.errors, "=": item.same}[kind].append(rest)


def add_item(case: Case, item: Item) -> None:
    word = item.text.split(" ")[0]
    if item.text in ("in memory", "no plans", "settings", "plans"):
        add_beginning(case, item)
        return
    if word in ("at", "desk", "gateway", "guest", "nobody", "send"):
        case.steps.append(ask_of(item))
    elif word == "$":
        case.steps.append(call_of(item))
    elif word == "sql":
        case.steps.append(sql_of(item))
    elif item.text.startswith("file "):
        case.steps.append(File(item.line, item.shown, item.text[5:], join_lines(item.block or [])))
    elif served := SERVED.fullmatch(item.text):
        count = int(served[2]) if served[2] else None
        case.steps.append(Serve(item.line, item.shown, served[1] is not None, count))
    else:
        raise BadCase(item.line, f"no step begins so: {item.text}")
    refuse_rest(case.steps[-1], item)


def add_beginning(case: Case, item: Item) -> None:
    if case.steps:
        raise BadCase(item.line, f"`{item.text}` stands before the first step")
    if item.text == "in memory":
        case.in_memory, case.plans = True, None
    elif item.text == "no plans":
        case.plans = None
    elif item.text == "settings":
        case.settings = text_of(item)
    else:
        case.plans = text_of(item)


def refuse_rest(step: Step, item: Item) -> None:
    """What the step does not look at must not stand there."""
    is_asked = isinstance(step, (Ask, Call, Sql))
    if item.arrow is not None and not is_asked:
        raise BadCase(item.line, "nothing comes of this step: it has no `->`")
    if (item.errors or item.same) and not isinstance(step, Call):
        raise BadCase(item.line, "`!` and `=` belong to a subcommand")
    if item.fields and not (isinstance(step, Ask) and REQUEST.fullmatch(item.text)):
        raise BadCase(item.line, "`+` belongs to a request that is not written out")
    if item.block is not None and isinstance(step, (Call, Serve)):
        raise BadCase(item.line, "no indented lines belong to this step")


def text_of(item: Item) -> str:
    if item.block is None:
        raise BadCase(item.line, "indented lines are missing")
    return join_lines(item.block)


def join_lines(lines: list[str]) -> str:
    return "".join(line + "\n" for line in lines)


def ask_of(item: Item) -> Ask:
    match = SENT.fullmatch(item.text)
    if match:
        now = int(match[1]) if match[1] else None
        sent = bytes_of(item.line, item.block or [])
        return Ask(item.line, item.shown, now, "00" * 32, sent, answer_of(item))
    match = REQUEST.fullmatch(item.text)
    if not match:
        form = "`[at MOMENT [seed HEX]] CALLER METHOD PATH [BODY]` or `[at MOMENT] send`"
        raise BadCase(item.line, f"no request: {form}")
    now, seed = int(match[1]) if match[1] else None, seed_of(item, match[2] or "00")
    body = body_of(item, match[6], item.block)
    head = [f"{match[4]} {match[5]} HTTP/1.1", "Host: api", *caller_field(match[3]), *item.fields]
    if body:
        head.append(f"Content-Length: {len(body)}")
    sent = ("\r\n".join(head) + "\r\n\r\n").encode() + body
    return Ask(item.line, item.shown, now, seed, sent, answer_of(item))


def seed_of(item: Item, text: str) -> str:
    if not re.fullmatch(r"[0-9a-fA-F]{2}|[0-9a-fA-F]{64}", text):
        raise BadCase(item.line, "a seed is 64 hexadecimal digits, or 2 that stand for 32 equal bytes")
    return text * 32 if len(text) == 2 else text


def caller_field(caller: str) -> list[str]:
    if caller == "nobody":
        return []
    tokens = {"desk": "desk-token", "gateway": "gate-token"}
    return [f"Portal-Token: {tokens[caller]}" if caller in tokens else f"Portal-Device: 02:00:00:00:00:0{caller[-1]}"]


def body_of(item: Item, text: str | None, block: list[str] | None) -> bytes:
    if text and block is not None:
        raise BadCase(item.line, "a body stands in the line or below it, not both")
    return (text or join_lines(block or [])).encode()


def answer_of(item: Item) -> Answer:
    if item.arrow is None:
        raise BadCase(item.line, "what is expected is missing: `->`")
    word, _, text = item.arrow.partition(" ")
    if word == "bytes" and not text and item.wanted is not None:
        return Answer(0, b"", bytes_of(item.line, item.wanted))
    if not re.fullmatch(r"[1-5]\d\d", word):
        raise BadCase(item.line, "a response is expected as `-> STATUS BODY` or `-> bytes` with indented lines")
    return Answer(int(word), body_of(item, text, item.wanted))


def bytes_of(line: int, block: list[str]) -> bytes:
    """Lines one after another, with nothing between them but what their escapes say."""
    return b"".join(unescape(line, text) for text in block)


def unescape(line: int, text: str) -> bytes:
    parts, at = [], 0
    for match in TIMES.finditer(text):
        parts.append(plain_bytes(line, text[at:match.start()]))
        parts.append(int(match[1]) * plain_bytes(line, match[2]))
        at = match.end()
    return b"".join([*parts, plain_bytes(line, text[at:])])


def plain_bytes(line: int, text: str) -> bytes:
    parts, at = [], 0
    for match in ESCAPE.finditer(text):
        parts.append(text[at:match.start()].encode())
        word = match[1]
        if len(word) == 3:
            parts.append(bytes([int(word[1:], 16)]))
        elif word in PLAIN:
            parts.append(PLAIN[word])
        else:
            raise BadCase(line, f"no escape: \\{word} in the indented line `{text[:60]}`")
        at = match.end()
    return b"".join([*parts, text[at:].encode()])


def call_of(item: Item) -> Call:
    if item.arrow is None:
        raise BadCase(item.line, "what is expected is missing: `->`")
    try:
        words = shlex.split(item.text[2:])
    except ValueError as fault:
        raise BadCase(item.line, f"no words of a shell: {fault}") from fault
    match = re.fullmatch(r"exit (\d)", item.arrow)
    if words[:1] != ["portal"] or not match:
        raise BadCase(item.line, "a subcommand is `$ portal WORDS` with `-> exit N`")
    return Call(item.line, item.shown, words[1:], int(match[1]), item.wanted or [], item.errors, item.same)


def sql_of(item: Item) -> Sql:
    text = item.text[4:] or join_lines(item.block or [])
    if not text:
        raise BadCase(item.line, "SQL is missing")
    if item.arrow is None:
        return Sql(item.line, item.shown, text, None)
    if item.arrow == "no rows" and item.wanted is None:
        return Sql(item.line, item.shown, text, [])
    rows = [item.arrow] if item.arrow else item.wanted
    if not rows or (item.arrow and item.wanted is not None):
        raise BadCase(item.line, "rows are expected as `-> ROW`, `->` with indented lines, or `-> no rows`")
    return Sql(item.line, item.shown, text, rows)
