"""Files for the venue's spreadsheet (CSV, RFC 4180): separator and decimal sign are those that the venue
chose, or those of its language."""

from __future__ import annotations

import csv
import io
from collections.abc import Iterable, Sequence
from decimal import Decimal

import flask

from portal_field.lib.languages import Language

Cell = str | int | Decimal
SEPARATORS = {"en": ","}
BEGINNINGS = tuple("=+-@\t\r")      # of what a spreadsheet takes as a formula
MARK = "\ufeff"     # by which Excel knows UTF-8


def separator_of(language: Language, chosen: str = "") -> str:
    """The sign between two cells: the one that was chosen, or that of the language. A decimal comma needs
    another one."""
    return chosen or SEPARATORS.get(language.tag, ";")


def amount(hundredths: int) -> Decimal:
    """A sum of money as a cell."""
    return Decimal(hundredths).scaleb(-2)


def written(cell: Cell, separator: str) -> str:
    """A cell as the file has it: with a decimal comma where a semicolon divides the cells, as spreadsheets
    that do so read a point as a date. A text that a spreadsheet would take as a formula gets an apostrophe
    before it."""
    if isinstance(cell, Decimal):
        return str(cell).replace(".", ",") if separator == ";" else str(cell)
    text = str(cell)
    return f"'{text}" if isinstance(cell, str) and text.startswith(BEGINNINGS) else text


def as_csv(language: Language, head: Sequence[str], rows: Iterable[Sequence[Cell]], chosen: str = "") -> str:
    """The file. English is as programs read it, without a mark of its encoding."""
    separator, out = separator_of(language, chosen), io.StringIO()
    lines = csv.writer(out, delimiter=separator)
    lines.writerow(head)
    lines.writerows([written(cell, separator) for cell in row] for row in rows)
    return ("" if language.tag == "en" else MARK) + out.getvalue()


def answer(text: str, name: str) -> flask.Response:
    """A file that the browser keeps by this name."""
    response = flask.make_response(text)
    response.headers["Content-Type"] = "text/csv; charset=utf-8"
    response.headers["Content-Disposition"] = f'attachment; filename="{name}"'
    return response
