"""What each module, class and function of the kit is for stands in its first line."""

from __future__ import annotations

import ast
import pathlib
import unittest
from collections.abc import Iterator

FIELD = pathlib.Path(__file__).resolve().parent.parent
PACKAGES = (FIELD / "portal_field", FIELD.parent / "deb/portal_deb")       # the second where the kit stands in its repository
NAMED = ast.FunctionDef | ast.ClassDef


def public(node: ast.AST, prefix: str = "") -> Iterator[tuple[NAMED, str]]:
    """The classes and functions of a module, and what its classes have; names that begin with _ are not for others."""
    for inner in ast.iter_child_nodes(node):
        if isinstance(inner, (ast.FunctionDef, ast.ClassDef)) and not inner.name.startswith("_"):
            yield inner, prefix + inner.name
            if isinstance(inner, ast.ClassDef):
                yield from public(inner, f"{prefix}{inner.name}.")


def names_without_docstring(text: str) -> list[str]:
    """The names without a docstring; `` is the module."""
    tree = ast.parse(text)
    found: list[tuple[ast.Module | NAMED, str]] = [(tree, ""), *public(tree)]
    return [name for node, name in found if not (ast.get_docstring(node) or "").strip()]


class Docstrings(unittest.TestCase):
    def test_each_module_class_and_function_says_what_it_is_for(self) -> None:
        paths = [path for package in PACKAGES for path in sorted(package.rglob("*.py"))]
        self.assertGreater(len(paths), 60)
        for path in paths:
            with self.subTest(path=str(path)):
                self.assertEqual(names_without_docstring(path.read_text()), [])

    def test_what_has_none_is_found(self) -> None:
        text = ('"""A module."""\nclass One:\n    def a(self): "x"\n    def b(self): pass\n    def _c(self): pass\n'
                "class Two:\n    '''Two.'''\ndef three(): return 3\ndef four():\n    '''Four.'''\n    def five(): pass\n")
        self.assertEqual(names_without_docstring(text), ["One", "One.b", "three"])
        self.assertEqual(names_without_docstring("x = 1\n"), [""])


if __name__ == "__main__":
    unittest.main()
