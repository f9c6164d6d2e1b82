"""The list of batches, the page of one with its vouchers, and vouchers by the first characters of their
codes."""

from __future__ import annotations

from collections.abc import Callable
from dataclasses import dataclass
from typing import Any

import flask

from portal_field.counter.clerk import Acts, Counter, Notice
from portal_field.counter.journal import DONE, Act
from portal_field.lib import refusals
from portal_field.lib.desk_client import NoAnswer, Refused, Routes
from portal_field.lib.forms import Form
from portal_field.lib.typed_codes import plain_code

NEWEST = 10     # batches that the page of all vouchers shows; the list shows 20 at a time
Reply = flask.Response


@dataclass(frozen=True)
class Row:
    """A voucher in a table: its code, its batch, the name of its plan, and its state in words."""
    code: str
    batch: str
    plan: str
    state: str


class BatchPages:
    """Pages about several vouchers. `show` makes a page by its template, `home` the first page, and `keep`
    writes into the journal what was looked up."""

    def __init__(self, counter: Counter, show: Callable[..., Reply], home: Callable[..., Reply],
                 keep: Callable[[Acts], None]) -> None:
        self.counter, self.show, self.home, self.keep = counter, show, home, keep

    # Several batches

    def listed(self, **query: str) -> dict[str, Any]:
        """What a table of batches needs: `batches` as the server has them, whether there are `more`, and the
        `marks` of the lost ones. Raises Refused and NoAnswer."""
        reply = self.counter.desk.request_json(Routes.BATCH_LIST, query=query)
        return {"batches": reply["batches"], "more": reply["more"], "marks": self.counter.marks(),
                "is_late": self.counter.is_late}

    def newest(self) -> dict[str, Any]:
        """The newest batches, for a page that is shown without them too: then `fault` says why."""
        try:
            return self.listed(limit=str(NEWEST)) | {"fault": ""}
        except Refused as fault:
            refusal = refusals.of_word(fault.word)
        except NoAnswer:
            refusal = refusals.SILENT
        return {"fault": " ".join(self.counter.refused(refusal).lines)}

    def batches(self, form: Form) -> Reply:
        """The newest batches, or those that are older than the batch `before`."""
        query = {"before": form["before"]} if form.get("before") else {}
        return self.show("batches.html", **self.listed(**query), is_older=bool(query))

    # Several vouchers

    def batch(self, form: Form) -> Reply:
        """The page of a batch, with its vouchers in the order of its print file."""
        batch = self.counter.desk.request_json(Routes.BATCH, form.word("batch"))
        uses = self.counter.voucher_of(batch["vouchers"][0]["code"])["uses"]
        self.note_look(batch["batch"], batch["plan"], batch["count"])
        rows = [self.row({**batch, **voucher, "uses": uses}) for voucher in batch["vouchers"]]
        return self.show("batch.html", facts=self.facts(batch), name=batch["batch"], rows=rows)

    def codes(self, form: Form) -> Reply:
        """The vouchers whose codes begin with what was typed. A single one leads to its page, and where there
        is none the first page says so."""
        start = form["code"]
        reply = self.counter.desk.request_json(Routes.VOUCHERS, query={"prefix": plain_code(start)})
        vouchers = reply["vouchers"]
        if len(vouchers) == 1:
            look = self.counter.looks.keep(vouchers[0]["code"])
            return flask.make_response(flask.redirect(f"/voucher?look={look}", 303))
        self.note_look("", "", len(vouchers), DONE if vouchers else "unknown_code")
        if not vouchers:
            lines = start + ":", self.counter.say("No voucher has a code that begins so.")
            return self.home(404, Notice(False, lines, start), start)
        return self.show("codes.html", start=start, rows=[self.row(voucher) for voucher in vouchers],
                         more=reply["more"])

    def note_look(self, batch: str, plan: str, count: int, answer: str = DONE) -> None:
        """In the journal: so many codes were shown."""
        acts = Acts()
        acts.append(Act("look", "", answer, batch, plan, count))
        self.keep(acts)

    def row(self, voucher: dict[str, Any]) -> Row:
        """A voucher as a table has it."""
        return Row(voucher["code"], voucher["batch"], self.counter.plan_name(voucher["plan"]),
                   self.state(voucher))

    def state(self, voucher: dict[str, Any]) -> str:
        """What became of a voucher, in a few words. One that is refunded or used up does not expire."""
        say, redeemed, uses = self.counter.say, voucher["redeemed"], voucher["uses"]
        if voucher["refund"] is not None:
            return say("refunded")
        words = say("unsold") if voucher["sold"] is None else say("sold")
        if redeemed:
            words = say("redeemed %(part)s of %(all)s", part=redeemed, all=uses)
        return f"{words}, {say('expired')}" if redeemed < uses and self.counter.is_late(voucher) else words

    def facts(self, batch: dict[str, Any]) -> list[tuple[str, str]]:
        """What the page shows of a batch, line by line."""
        say, language, number = self.counter.say, self.counter.language, self.counter.language.number
        mark, until = self.counter.marks().get(batch["batch"]), language.moment(batch["expires"])
        return [*([(say("Marked as lost"), self.counter.words_of_mark(mark))] if mark else []),
                (say("Plan"), self.counter.plan_words(batch["plan"])), (say("Codes"), number(batch["count"])),
                (say("Sold"), number(batch["sold"])), (say("Refunded"), number(batch["refunded"])),
                (say("Used up"), number(batch["used-up"])),
                (say("Left"), number(batch["count"] - batch["sold"])),
                (say("Issued"), language.moment(batch["issued"])),
                (say("Good until"), f"{until}, {say('expired')}" if self.counter.is_late(batch) else until)]
