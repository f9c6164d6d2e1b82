"""Reads the sources of the crates: the public types and functions of each, with their docstrings, and the
modules of proofs that one crate imports from another. tools/claims prints what it finds, and tests/surface
compares it."""

from __future__ import annotations

import pathlib
import re
from collections.abc import Iterator
from typing import NamedTuple

ITEM = re.compile(r"^pub (?:struct|enum|trait|type) (\w+)", re.M)
BLOCK = re.compile(
    r"^(?:impl(?:<[^{]*?>)? (?:[\w:<>, ]+ for )?|pub trait )(\w+)[^{;]*\{\n(.*?)^\}", re.M | re.S)
FUNCTION = re.compile(r"\bfn (\w+)")
BODY = re.compile(r"^pub (struct|enum) (\w+)[^{;\n]*\{\n(.*?)^\}", re.M | re.S)
PARTS = {
    "struct": re.compile(r"^    pub (\w+):", re.M),
    "enum": re.compile(r"^    (\w+)(?=,|\(| \{)", re.M),
}
USED = re.compile(r"^pub use ([\w:]+)(?:::\{([^}]*)\})?;", re.M)
END_OF_HEAD = re.compile(r"\n\s*(?:ensures|requires|where)\b|\{|;\s*\n")
# An import of a module of proofs, and the comment that begins a file of proofs.
PROOFS = re.compile(r"\bRattle\.(portal_\w+)\.proofs\.([\w.]+?)(?=\.\{|\.?[^\w.]|\.?$)", re.M)
COMMENT = re.compile(r"(?:-- .*\n)+")


class Call(NamedTuple):
    """A public function, or a method."""
    name: str               # with its type, trait or module; of the root its name alone
    parameters: list[str]   # with `self`, without the allocator
    result: str             # `-> Day`, or nothing
    summary: str            # the first sentence of its docstring

    def arity(self) -> int:
        return sum(not is_self(one) for one in self.parameters)


class Crate:
    """The public items of a crate by their paths, from the texts of its source files by their names."""

    def __init__(self, files: dict[str, str]) -> None:
        self.types: dict[str, str] = {}     # with the first sentence of each
        self.members: list[str] = []        # fields and variants, as `Type.name`
        self.calls: dict[str, Call] = {}
        self.used: dict[str, str] = {}      # what the root re-exports: by its name the path
        self.late: list[str] = []           # functions whose allocator does not come first
        root = files.get("lib", "")
        self.summary = summary_of(re.findall(r"^//! ?(.*)", root, re.M))
        for name, text in files.items():
            self.add_file(name, text)
        for path, names in USED.findall(root):
            listed = {one: f"{path}::{one}" for one in split_list(names)}
            self.used |= listed or {path.rsplit("::", 1)[-1]: path}

    def add_file(self, name: str, text: str) -> None:
        module = "" if name == "lib" else name.replace("/", "::") + "::"
        code = re.sub(r"//[^\n]*", "", text)
        for found in ITEM.finditer(code):
            self.types[module + found[1]] = doc_before(text, code, found.start())
        for kind, owner, body in BODY.findall(code):
            self.members += [f"{owner}.{part}" for part in PARTS[kind].findall(body)]
        for block in BLOCK.finditer(code):
            for found in re.compile(r"^    (?:pub )?fn (\w+)", re.M).finditer(code, *block.span(2)):
                self.add_call(f"{block[1]}::{found[1]}", text, code, found)
        for found in re.finditer(r"^pub fn (\w+)", code, re.M):
            self.add_call(module + found[1], text, code, found)
        self.look(name, code)

    def add_call(self, name: str, text: str, code: str, found: re.Match[str]) -> None:
        listed, end = parameters(code, found.end())
        head = END_OF_HEAD.search(code, end)
        result = " ".join(code[end:head.start() if head else end].split())
        listed = [one for one in listed if not is_allocator(one)]
        self.calls.setdefault(name, Call(name, listed, result, doc_before(text, code, found.start())))

    def look(self, name: str, code: str) -> None:
        for found in FUNCTION.finditer(code):
            rest = [one for one in parameters(code, found.end())[0] if not is_self(one)]
            if any(one.endswith(": Global") for one in rest[1:]):
                self.late.append(f"{name}: {found[1]}")

    def find_call(self, name: str, crates: dict[str, Crate]) -> Call | None:
        """The function of that name, which the root may re-export from a module or from another crate."""
        path, _, last = name.rpartition("::")
        owner = path.rpartition("::")[2]
        place = f"{owner}::{last}" if owner[:1].isupper() else name
        other, _, rest = self.used.get(name, "").partition("::")
        if place in self.calls:
            return self.calls[place]
        if other in crates and rest:
            return crates[other].calls.get(rest) or crates[other].find_call(rest, crates)
        inside = [one for one in self.calls if name in self.used and re.fullmatch(rf"[a-z_:]+::{name}", one)]
        return self.calls[inside[0]] if inside else None

    def find_type(self, name: str, crates: dict[str, Crate]) -> str | None:
        """The first sentence of the type at that path, which the root may re-export; None: there is none."""
        path = self.used.get(name, name)
        other, _, rest = path.partition("::")
        if path in self.types:
            return self.types[path]
        if other in crates and rest:
            return crates[other].find_type(rest, crates)
        inside = [one for one in self.types if name in self.used and one.endswith(f"::{name}")]
        return self.types[inside[0]] if inside else None


def split_list(text: str) -> list[str]:
    """The parts of a list between commas that stand in no bracket."""
    parts, depth, part, before = [], 0, "", ""
    for sign in text:
        depth += (sign in "([{<") - (sign in ")]}" or sign == ">" and before != "-")
        if sign == "," and depth == 0:
            parts.append(part.strip())
            part = ""
        else:
            part += sign
        before = sign
    return [one for one in [*parts, part.strip()] if one]


def parameters(text: str, start: int) -> tuple[list[str], int]:
    """The parameters of the function whose name ends there, as `name: Type` or `self`, and where they end."""
    depth, place = 0, start
    while text[place] != "(" or depth > 0:
        depth += (text[place] == "<") - (text[place] == ">" and text[place - 1] != "-")
        place += 1
    begin, depth = place + 1, 1
    while depth > 0:
        place += 1
        depth += (text[place] in "([{") - (text[place] in ")]}")
    return split_list(" ".join(text[begin:place].split())), place + 1


def is_self(parameter: str) -> bool:
    return re.fullmatch(r"(?:&(?:'\w+ )?)?(?:mut )?self", parameter) is not None


def is_allocator(parameter: str) -> bool:
    return re.fullmatch(r"\w+: Global", parameter) is not None


def doc_before(text: str, code: str, place: int) -> str:
    """The first sentence of the docstring above an item, of which the code without comments has the place."""
    lines, at = text.split("\n"), code.count("\n", 0, place) - 1
    while at >= 0 and lines[at].lstrip().startswith("#["):
        at -= 1
    end = at + 1
    while at >= 0 and lines[at].lstrip().startswith("///"):
        at -= 1
    return summary_of([line.strip()[3:].strip() for line in lines[at + 1:end]])


def summary_of(lines: list[str]) -> str:
    """The first sentence of a comment."""
    text = " ".join(lines[:lines.index("") if "" in lines else len(lines)])
    found = re.match(r".*?[.?](?= [A-Z`]|$)", text)
    return found[0] if found else re.sub(":$", ".", text)


def read_crate(folder: pathlib.Path) -> Crate:
    source = folder / "src"
    files = sorted(source.rglob("*.rt"))
    return Crate({str(file.relative_to(source))[:-3]: file.read_text(encoding="utf-8") for file in files})


def read_crates(top: pathlib.Path) -> dict[str, Crate]:
    folders = sorted((top / "crates").iterdir())
    return {folder.name: read_crate(folder) for folder in folders if (folder / "src").is_dir()}


class Module(NamedTuple):
    """A module of the proofs of a crate, and the crates that import it."""
    crate: str
    name: str
    users: list[str]
    holds: str      # the first sentence of the comment that begins its file; nothing: there is none
    is_there: bool


def order_of(top: pathlib.Path) -> list[str]:
    """The crates from the lowest up."""
    return re.findall(r"^(\w+):", (top / "crates.txt").read_text(encoding="utf-8"), re.M)


def imports_of(top: pathlib.Path) -> dict[tuple[str, str], set[str]]:
    """By the crate and the module of its proofs, which other crates import it."""
    users: dict[tuple[str, str], set[str]] = {}
    for part in ("src/**/*.rt", "specs/**/*.antt", "proofs/**/*.antt"):
        for file in sorted((top / "crates").glob(f"*/{part}")):
            folder = file.relative_to(top / "crates").parts[0]
            for crate, name in PROOFS.findall(file.read_text(encoding="utf-8")):
                if crate != folder:
                    users.setdefault((crate, name), set()).add(folder)
    return users


def imported_modules(top: pathlib.Path) -> Iterator[Module]:
    """Each module of proofs that one crate imports from another, the lowest crate first."""
    place = {crate: number for number, crate in enumerate(order_of(top))}
    users = imports_of(top)
    for crate, name in sorted(users, key=lambda key: (place.get(key[0], len(place)), key)):
        file = top / "crates" / crate / "proofs" / (name.replace(".", "/") + ".antt")
        found = COMMENT.match(file.read_text(encoding="utf-8")) if file.is_file() else None
        holds = summary_of([line[3:].strip() for line in found[0].splitlines()]) if found else ""
        by_layer = sorted(users[crate, name], key=lambda one: (place.get(one, len(place)), one))
        yield Module(crate, name, by_layer, holds, file.is_file())


def module_faults(top: pathlib.Path) -> Iterator[str]:
    """What is wrong with the imports: a module that is not there, or that does not say what it holds."""
    for it in imported_modules(top):
        if not it.is_there:
            yield f"{it.crate} has no module {it.name} of proofs, which {', '.join(it.users)} imports"
        elif not it.holds:
            yield f"{it.crate}: the file of {it.name} begins without a comment that says what it holds"
