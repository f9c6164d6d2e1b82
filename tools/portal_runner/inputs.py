"""What a step of ./test reads: files of the repository by their names, what a Python file imports and
names, a crate with those below it. Only these are in the folder in which the step runs."""

from __future__ import annotations

import ast
import bisect
import functools
import hashlib
import itertools
import os
import re
import subprocess
import tomllib
from collections.abc import Iterable, Iterator
from pathlib import Path

from . import crates

# Where Python looks for a module, from the top of the repository.
PYTHON_FOLDERS = (
    "field",
    "field/test",
    "field/radius/test",
    "deb",
    "deb/test",
    "deb/test/booted",
    "tools",
    "tests/scripts",
    "tests/cases",
    "tests/outside",
    "tests/memory",
)
OF_A_CRATE = re.compile(r"crates/([^/]+)/(?!must-fail)")
GLOB = re.compile(r"\*\*/|\*\*|\*|[^*]+")
NOT_KEPT = {"out", "__pycache__", ".git", ".mypy_cache", ".pytest_cache"}


# A folder with more files is none that a text means: its reader is in [[reads]].
MOST_OF_A_FOLDER = 60
MODULE, PATH = re.compile(r"[a-z_]+(?:\.[a-z_]+)+"), re.compile(r"[A-Za-z0-9@_.+-]+(?:/[A-Za-z0-9@_.+*-]+)*")


class Unknown(Exception):
    """An input that no file of the repository has, or of no known kind."""


class Changed(Exception):
    """A file that was changed while the tests ran."""


@functools.cache
def pattern_of(glob: str) -> re.Pattern[str]:
    """A glob: `*` stands for a part of one name, `**` for any path."""
    words = {"**/": "(?:.*/)?", "**": ".*", "*": "[^/]*"}
    return re.compile("".join(words.get(it) or re.escape(it) for it in GLOB.findall(glob)))


def list_files(top: Path) -> list[str]:
    """The files of a repository: what git keeps or would keep; without git, all but what was built."""
    words = ["git", "-C", str(top), "ls-files", "-z", "--cached", "--others", "--exclude-standard"]
    try:
        ran = subprocess.run(words, capture_output=True, text=True)
    except OSError:
        ran = subprocess.CompletedProcess(words, 1, "", "")
    if ran.returncode == 0 and (top / ".git").exists():
        return sorted({it for it in ran.stdout.split("\0") if it and (top / it).is_file()})
    found = []
    for folder, folders, names in os.walk(top):
        folders[:] = [it for it in folders if it not in NOT_KEPT]
        found += [os.path.relpath(os.path.join(folder, it), top) for it in names]
    return sorted(found)


def modules_of(node: ast.AST, at: str) -> list[str]:
    """The modules that a statement of a file imports."""
    if isinstance(node, ast.Import):
        return [it.name for it in node.names]
    if not isinstance(node, ast.ImportFrom):
        return []
    base = node.module or ""
    if node.level:
        inside = "/".join(os.path.dirname(at).split("/")[: 1 - node.level or None])
        folder = next((it for it in PYTHON_FOLDERS if inside.startswith(f"{it}/")), "")
        base = ".".join([*inside.removeprefix(f"{folder}/").split("/"), *filter(None, [base])])
    return [base, *(f"{base}.{it.name}" for it in node.names)]


def joined(node: ast.expr) -> Iterator[str]:
    """The texts that `/` joins at the end of a path, as one after a `/`; nothing where a value ends it."""
    parts: list[str] = []
    while isinstance(node, ast.BinOp) and isinstance(node.op, ast.Div):
        right = node.right.value if isinstance(node.right, ast.Constant) else None
        parts, node = ([right, *parts] if isinstance(right, str) else []), node.left
    if parts:
        yield "/" + "/".join(parts)


def texts_of(nodes: list[ast.AST]) -> set[str]:
    """The words of a file's texts, but for docstrings, and the paths that `/` joins, after a `/`. A value
    within a text is a `*`."""
    left_out = {id(node.value) for node in nodes if isinstance(node, ast.Expr)}
    left_out |= {id(node.left) for node in nodes if isinstance(node, ast.BinOp)}
    left_out |= {id(it) for node in nodes if isinstance(node, ast.JoinedStr) for it in node.values}
    found: set[str] = set()
    for node in nodes:
        if id(node) in left_out:
            continue
        if isinstance(node, ast.Constant) and isinstance(node.value, str):
            found.update(it for it in node.value.split() if "*" not in it)
        elif isinstance(node, ast.JoinedStr):
            text = "".join(str(it.value) if isinstance(it, ast.Constant) else "*" for it in node.values)
            found.update(text.removeprefix("*").split())
        elif isinstance(node, ast.BinOp):
            found.update(joined(node))
    return found


def sum_over(path: Path, text: bytes) -> str:
    return ("x" if os.access(path, os.X_OK) else "-") + hashlib.sha256(text).hexdigest()


class Repository:
    """The files of a checkout, with what is asked of them more than once."""

    def __init__(self, top: Path) -> None:
        self.top = top
        self.files = list_files(top)
        self.names = set(self.files)
        self.folders = {it[: at.start()] for it in self.files for at in re.finditer("/", it)}
        self.uses = crates.uses_of(top) if "crates.txt" in self.names else {}
        self.sums: dict[str, str] = {}
        self.imported: dict[str, set[str]] = {}
        # files that the modules of a path read beside what they import
        self.data: dict[str, list[str]] = {}

    def sum_of(self, name: str) -> str:
        """Of a file's contents, and of whether it is a program."""
        if name not in self.sums:
            self.sums[name] = sum_over(self.top / name, (self.top / name).read_bytes())
        return self.sums[name]

    @functools.cache
    def where(self, glob: str) -> frozenset[str]:
        """The files of a glob."""
        begin = glob.partition("*")[0]
        at = bisect.bisect_left(self.files, begin)
        near = itertools.takewhile(lambda it: it.startswith(begin), itertools.islice(self.files, at, None))
        return frozenset(filter(pattern_of(glob).fullmatch, near))

    def matching(self, glob: str) -> frozenset[str]:
        """The files of a glob. Unknown: there is none."""
        found = self.where(glob)
        if not found:
            raise Unknown(f"no file is {glob}")
        return found

    def below(self, crate: str) -> list[str]:
        """A crate and those below it."""
        if crate not in self.uses:
            raise Unknown(f"there is no crate {crate}")
        return crates.order_of(self.uses, crate)

    def of_crates(self, names: Iterable[str]) -> set[str]:
        """The files of these crates, but for their mutants."""
        wanted = set(names)
        return {it for it in self.files if (found := OF_A_CRATE.match(it)) and found[1] in wanted}

    def module_files(self, module: str, at: str) -> Iterator[str]:
        """The files of a module, in one of Python's folders or beside the file that imports it."""
        parts = module.split(".")
        for folder in (*PYTHON_FOLDERS, os.path.dirname(at)):
            base = "/".join([folder, *parts]).lstrip("/")
            for name in (f"{base}.py", f"{base}/__init__.py"):
                if name in self.names:
                    yield name
                    for end in range(len(parts)):
                        package = "/".join([folder, *parts[:end], "__init__.py"])
                        if package in self.names:
                            yield package
                    return

    def imports_of(self, name: str) -> set[str]:
        """The files that a Python file imports or names in a text, anywhere in it; none of another file."""
        if name in self.imported:
            return self.imported[name]
        found: set[str] = set()
        self.imported[name] = found
        text = (self.top / name).read_bytes()
        if not name.endswith(".py") and (Path(name).suffix or b"python" not in text[:60]):
            return found
        try:
            nodes = list(ast.walk(ast.parse(text)))
        except SyntaxError:
            return found
        for module in {it for node in nodes for it in modules_of(node, name)}:
            found.update(self.module_files(module, name))
        for words in texts_of(nodes):
            found.update(self.named(words, name))
        return found - {name}

    def named(self, text: str, at: str) -> Iterator[str]:
        """The files that a text of a Python file may mean: a module, a file, an f-string's, or a folder's."""
        words = text.strip("/")
        if MODULE.fullmatch(words):
            yield from self.module_files(words, at)
        if not PATH.fullmatch(words):
            return
        for base in dict.fromkeys(("field/", f"{os.path.dirname(at)}/", "")):
            glob = base + words
            if glob in self.names:
                yield glob
            elif "/" in text and ("*" in words or glob in self.folders):
                files = self.where(glob if "*" in words else f"{glob}/**")
                yield from files if len(files) <= MOST_OF_A_FOLDER else ()

    def closure(self, names: Iterable[str]) -> set[str]:
        """These files, what they import, what that reads, and so on."""
        found: set[str] = set()
        left = list(names)
        while left:
            name = left.pop()
            if name in found:
                continue
            found.add(name)
            left += self.imports_of(name) - found
            for glob, more in self.data.items():
                if pattern_of(glob).fullmatch(name):
                    left += set().union(*(self.matching(it) for it in more)) - found
        return found

    def of_mutants(self, table: str) -> set[str]:
        """A table of mutants: the files that they change, and their tests with all that these read."""
        rows = tomllib.loads((self.top / table).read_text(encoding="utf-8"))
        rows.pop("runs", None)
        found = {table}
        for row in rows.values():
            found |= {it["file"] for it in (row, *row.get("also", [])) if "file" in it}
            found.add(row["test"].partition("::")[0])
        return self.closure(it for it in found if it in self.names) | {table}

    def files_of(self, words: Iterable[str]) -> set[str]:
        """The files of these inputs, without those of words with a `!`. Unknown: one names none."""
        found: set[str] = set()
        out: set[str] = set()
        for word in words:
            kind, _, rest = word.partition(" ")
            if word.startswith("!"):
                out |= self.matching(word[1:])
            elif kind == "imports":
                found |= self.closure(self.matching(rest))
            elif kind == "crate":
                found |= self.of_crates(self.below(rest))
            elif kind == "mutants":
                found |= self.of_mutants(rest)
            elif not rest:
                found |= self.matching(word)
            else:
                raise Unknown(f"{word}: of no kind that is known")
        return found - out

    def lines_of_crates(self, words: Iterable[str]) -> str:
        """crates.txt, with the lines of those crates alone that such inputs name, or nothing."""
        wanted = {
            low
            for word in words
            if word.startswith("crate ")
            for low in self.below(word.removeprefix("crate "))
        }
        rows = (self.top / "crates.txt").read_text(encoding="utf-8").splitlines() if wanted else []
        return "".join(f"{it}\n" for it in rows if re.split("[ :]", it)[0] in wanted)

    def copy(self, files: Iterable[str], goal: Path) -> None:
        """Copies these files there, readable for all users. Changed: one is another than its sum says."""
        for folder in {os.path.dirname(name) for name in files}:
            (goal / folder).mkdir(parents=True, exist_ok=True)
        for name in files:
            text = (self.top / name).read_bytes()
            said = sum_over(self.top / name, text)
            if said != self.sum_of(name):
                raise Changed(f"{name} was changed while the tests ran")
            (goal / name).write_bytes(text)
            (goal / name).chmod(0o755 if said.startswith("x") else 0o644)
