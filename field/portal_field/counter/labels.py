"""The kinds of paper that vouchers are printed on: sheets, sheets of labels, a label printer, receipts.

Text is 8 pt or more on each of them, and a module of a QR code 0.4 mm or more.
"""

from __future__ import annotations

from dataclasses import dataclass, replace
from typing import Any

from portal_field.lib.message_marks import clerk_words

MOST_WIFI_SIGNS = 22        # of name and password together, where both QR codes stand on a label
MOST_MODULES = 45           # of the code's picture there


@dataclass(frozen=True)
class Paper:
    """One kind of paper. `columns`: vouchers beside one another. `module`: of a QR code, `bar`: of a Code
    128, in millimetres. `is_narrow`: bars go from top to bottom."""
    name: str
    words: str
    columns: int
    module: float
    bar: float
    is_label: bool = False
    is_narrow: bool = False
    is_receipt: bool = False

    @property
    def least(self) -> float:
        """Millimetres that a QR code is wide at least, with its margins: those of labels are of one width."""
        return 16.4 if self.is_label else 0.0

    def has_room_for_wifi(self, languages: int, has_bars: bool, signs: int, modules: int) -> bool:
        """Whether the Wi-Fi's QR code stands beside that of the voucher. On a label it gives way to a second
        language, to bars, to long names and to a long address, as name and password are there in words."""
        return not self.is_label or (languages == 1 and not has_bars and signs <= MOST_WIFI_SIGNS
                                     and modules <= MOST_MODULES)


PAPERS = {paper.name: paper for paper in (
    Paper("a4", clerk_words("A4 paper"), 4, .42, .275),
    Paper("letter", clerk_words("US Letter paper"), 4, .42, .275),
    Paper("a4-24", clerk_words("A4 sheets of 24 labels, 70 by 37 mm"), 3, .4, .275, is_label=True),
    Paper("a4-21", clerk_words("A4 sheets of 21 labels, 63.5 by 38.1 mm"), 3, .4, .27, is_label=True),
    Paper("label", clerk_words("Label printer, 70 by 37 mm"), 1, .4, .3, is_label=True),
    Paper("receipt80", clerk_words("Receipts of 80 mm"), 1, .5, .32, is_receipt=True),
    Paper("receipt58", clerk_words("Receipts of 58 mm"), 1, .5, .34, is_narrow=True, is_receipt=True))}
SIZES = tuple(PAPERS)


def paper_of(name: str, conf: dict[str, Any]) -> Paper:
    """The paper of this name, or else the venue's. On sheets of A4 and Letter two languages, or bars, need
    wider vouchers: three beside one another and not four."""
    paper = PAPERS.get(name or conf.get("voucher_size", ""), PAPERS[SIZES[0]])
    is_wide = len(conf.get("voucher_languages", [])) > 1 or bool(conf.get("voucher_barcode"))
    return replace(paper, columns=3) if paper.columns == 4 and is_wide else paper
