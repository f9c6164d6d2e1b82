"""A receipt as text in columns of one width, as printers of receipts have it: so its length is known, and the
paper ends where the text does."""

from __future__ import annotations

import textwrap
import unicodedata
from itertools import groupby

from portal_field.counter.clerk import Counter
from portal_field.counter.payments import words
from portal_field.counter.receipts import Receipt, TaxSum

COLUMNS = {"receipt80": 48, "receipt58": 32}        # of 1.5 mm, on 72 and on 48 mm of the paper
SIDES = {"receipt80": (80, 4), "receipt58": (58, 5)}        # mm: the paper's width, and its margin
LINE = 3.2      # mm from one line to the next


def width(text: str) -> int:
    """Columns that a text takes: a wide sign takes two."""
    return sum(1 + (unicodedata.east_asian_width(sign) in "WF") for sign in text)


def wrapped(text: str, columns: int) -> list[str]:
    """A text in lines that fit."""
    return [part for line in text.splitlines() for part in textwrap.wrap(line, columns // (
        2 if width(line) > len(line) else 1))]


def pair(left: str, right: str, columns: int) -> list[str]:
    """A line with a sum at its end; two lines where both do not fit into one."""
    room = columns - width(left) - width(right)
    if room >= 1:
        return [left + " " * room + right]
    return [*wrapped(left, columns), right.rjust(columns)]


def rate_words(counter: Counter, rate: int | None) -> str:
    """A rate of tax, as the counter's language writes it."""
    return counter.say("no rate") if rate is None else counter.language.percent(rate)


def text_of(counter: Counter, receipt: Receipt, size: str, copied: str = "") -> list[str]:
    """The lines of a receipt. `copied`: the moment of a copy; empty for the receipt itself."""
    columns, say, money = COLUMNS[size], counter.say, counter.money
    rule = "-" * columns
    name = say("Receipt %(name)s", name=receipt.name) if receipt.sign > 0 else say(
        "Receipt %(name)s: refund", name=receipt.name)
    heads = [counter.conf["house"], *counter.conf.get("receipt_head", [])]
    lines = [" " * ((columns - width(line)) // 2) + line for text in heads for line in wrapped(text, columns)]
    lines += ["", *pair(name, counter.language.moment(receipt.moment), columns)]
    if copied:
        lines += wrapped(say("COPY, printed %(moment)s", moment=copied), columns)
    lines += wrapped(say("Clerk: %(name)s", name=receipt.clerk), columns)
    lines.append(rule)
    for (plan, price), group in groupby(receipt.lines, lambda line: (line.plan, line.price)):
        count = len(list(group))
        lines += pair(f"{count} x {plan}, {money(price)}", money(receipt.sign * count * price), columns)
    lines += [rule, *pair(say("Sum"), money(receipt.total), columns),
              *pair(say("Paid by"), words(say, receipt.payment), columns)]
    return [*lines, *tax_lines(counter, receipt.taxes, columns)]


def tax_lines(counter: Counter, taxes: list[TaxSum], columns: int) -> list[str]:
    """Net, tax and gross of each rate; nothing where no plan has a rate."""
    say, lines = counter.say, list[str]()
    if all(one.rate is None for one in taxes):
        return lines
    for one in taxes:
        rate = rate_words(counter, one.rate)
        lines += ["-" * columns, *pair(say("Tax %(rate)s", rate=rate), counter.money(one.tax), columns),
                  *pair(say("Without tax"), counter.money(one.net), columns),
                  *pair(say("With tax"), counter.money(one.gross), columns)]
    return lines


def style(size: str, lines: int) -> str:
    """The style sheet of a receipt of so many lines: the paper is as long as they are."""
    wide, margin = SIDES[size]
    high = lines * LINE + 2 * margin + LINE
    return (f'@font-face {{ font-family: Receipt; src: url("/fonts/DejaVuSansMono.ttf"); }}\n'
            f".receipt {{ font: 2.49mm/{LINE}mm Receipt, ui-monospace, monospace; "
            f"width: {wide - 2 * margin}mm; margin: 0; overflow: hidden; background: #fff; color: #000; }}\n"
            "@media screen { .receipt { padding: 2mm; margin-bottom: 4mm; box-sizing: content-box; } }\n"
            "@media screen and (min-width: 40rem) { .receipt { zoom: 1.5; padding: 4mm; } }\n"
            f"@page {{ size: {wide}mm {high:.1f}mm; margin: {margin}mm; }}\n")
