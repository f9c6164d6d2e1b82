"""Reads the contracts of the crates: each function with the names of its clauses, and the mutants of
`must-fail` that change it. tools/claims prints what it finds."""

from __future__ import annotations

import pathlib
import re
from collections.abc import Iterator
from typing import NamedTuple

from crate_sources import summary_of

HEAD = re.compile(r"( *)(pub )?(?:pub\([a-z]+\) )?(?:const )?(?:unsafe )?fn (\w+)")
OWNER = re.compile(r"(?:pub )?(?:impl(?:<.*?>)? (?:(\w+)[\w:<>, ]* for )?|(trait) )(\w+)")
CLAUSE = re.compile(r"\s*ensures(?: (\w+))? \{")
NEXT = re.compile(r"\s*(?:ensures|requires)\b")
CITED = re.compile(r"ghost use Rattle\.portal_\w+\.specs\.[\w.]+\.\{([^}]*)\}")
EDIT = re.compile(r"^(file|old): (.*)$", re.M)


class Function(NamedTuple):
    """A function of a crate, as the formatter writes it."""
    file: str               # such as src/lib.rt
    name: str               # with its type or its trait
    is_public: bool
    trait: str              # of a method the trait that the implementation is of
    is_law: bool            # its body is empty, and its contract is the statement
    summary: str            # the first sentence of its docstring
    clauses: list[str]      # their names; of one without a name the definitions that it cites, in braces
    text: str               # all of it, with the docstring

    def key(self) -> str:
        return f"{self.file} {self.name} {self.trait}"

    def last_name(self) -> str:
        return self.name.rpartition("::")[2]


class Contracts(NamedTuple):
    listed: list[Function]
    mutants: dict[str, list[str]]       # those of each function, by its key
    others: list[str]                   # the mutants that change no function


def functions_in(file: str, text: str) -> Iterator[Function]:
    """The functions of a source file, from the top to the bottom."""
    lines, trait, owner = text.splitlines(), "", ""
    cited = {name for names in CITED.findall(text) for name in re.findall(r"[^\s,]+", names)}
    for at, line in enumerate(lines):
        head, block = HEAD.match(line), OWNER.match(line)
        if block:
            trait, owner = block[1] or block[2] or "", f"{block[3]}::"
        if not head:
            continue
        begin, (opens, end) = at, span_of(lines, at, head[1], bool(head[1]) and trait == "trait")
        while begin > 0 and lines[begin - 1].lstrip().startswith(("///", "#[")):
            begin -= 1
        docs = [one.strip()[3:].strip() for one in lines[begin:at] if one.lstrip().startswith("///")]
        clauses = list(clauses_in(lines[at:opens + 1], cited))
        name = (owner if head[1] else "") + head[3]
        is_law = lines[end].endswith("{}") and opens == end and bool(clauses)
        of_trait = trait if head[1] else ""
        yield Function(file, name, bool(head[2] or of_trait), of_trait.replace("trait", ""), is_law,
                       summary_of(docs), clauses, "\n".join(lines[begin:end + 1]))


def clauses_in(head: list[str], cited: set[str]) -> Iterator[str]:
    """The clauses of a function, from the lines before its body."""
    for at, line in enumerate(head):
        found = CLAUSE.match(line)
        if found:
            end = next((it for it in range(at + 1, len(head)) if NEXT.match(head[it])), len(head))
            words = re.findall(r"[^\s(){}]+", " ".join(head[at:end]))
            names = [word for word in dict.fromkeys(words) if word in cited]
            yield found[1] or f"{{{', '.join(names) or '..'}}}"


def span_of(lines: list[str], at: int, indent: str, is_of_trait: bool) -> tuple[int, int]:
    """The line at which the body of a function begins, and the one at which the function ends."""
    opens = -1
    for number in range(at, len(lines)):
        line = lines[number]
        is_inside = number > at and line.startswith(f"{indent} ")
        if opens < 0 and (line.endswith("{}") and not is_inside or is_of_trait and line.endswith(";")):
            return number, number
        if opens < 0 and line.endswith("{") and not is_inside:
            opens = number
        elif line == f"{indent}}}":
            return max(opens, at), number
    return at, at


def contracts_of(crate: pathlib.Path) -> Contracts:
    """The functions of a crate with a contract that are public, and the other ones that a mutant changes."""
    found: dict[str, list[Function]] = {}
    for path in sorted(crate.glob("src/**/*.rt")):
        file = str(path.relative_to(crate))
        found[file] = list(functions_in(file, path.read_text(encoding="utf-8")))
    functions = [it for listed in found.values() for it in listed]
    mutants: dict[str, list[str]] = {it.key(): [] for it in functions}
    others = list[str]()
    for edit in sorted((crate / "must-fail").glob("*.edit")):
        owner = owner_of(edit.read_text(encoding="utf-8"), found)
        (mutants[owner.key()] if owner else others).append(edit.stem)
    listed = [it for it in functions if it.is_public and it.clauses or mutants[it.key()]]
    return Contracts(listed, mutants, others)


def owner_of(edit: str, found: dict[str, list[Function]]) -> Function | None:
    """The function that a mutant changes; if it is private, and leads to one public function of its module
    alone, that one."""
    file = ""
    for kind, text in EDIT.findall(edit):
        if kind == "file":
            file = text.strip()
        changed = [it for it in found.get(file, []) if kind == "old" and text in it.text]
        if changed:
            callers = [one for one in found[file] if one.is_public and leads(one, changed[0], found[file])]
            is_private = not changed[0].is_public and len(callers) == 1
            return callers[0] if is_private else changed[0]
    return None


def leads(caller: Function, called: Function, functions: list[Function]) -> bool:
    """Whether a public function of a file calls a private one, itself or by other private ones."""
    private = {it.last_name(): it for it in functions if not it.is_public}
    seen, left = set[str](), [caller]
    while left:
        words = set(re.findall(r"\b(\w+)(?:::<[^;()]*>)?\(", left.pop().text)) - seen
        seen |= words
        left += [private[word] for word in words if word in private]
    return called.last_name() in seen
