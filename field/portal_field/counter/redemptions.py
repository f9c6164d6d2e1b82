"""The redemptions of a voucher, as its page lists them."""

from __future__ import annotations

from dataclasses import dataclass
from typing import Any

from portal_field.counter.clerk import Counter
from portal_field.lib import refusals
from portal_field.lib.desk_client import NoAnswer, Refused, Routes


@dataclass(frozen=True)
class Row:
    """A redemption in words: when, the device, the number of its session, whether it extended that, and
    whether the session is open."""
    at: str
    device: str
    session: int
    what: str
    state: str


def listed(counter: Counter, voucher: dict[str, Any]) -> dict[str, Any]:
    """What the page of a voucher needs: `redemptions` as rows, the newest first, and whether there are
    `more`; of a server that does not list them none, and `fault` says why. Of a voucher that was not redeemed
    nothing is asked."""
    none: dict[str, Any] = {"redemptions": [], "more": False, "fault": ""}
    if not voucher["redeemed"]:
        return none
    try:
        reply = counter.desk.request_json(Routes.REDEMPTIONS, voucher["code"])
    except Refused as fault:
        refusal = refusals.of_word(fault.word)
    except NoAnswer:
        refusal = refusals.SILENT
    else:
        rows = [row(counter, one) for one in reply["redemptions"]]
        return none | {"redemptions": rows, "more": reply["more"]}
    return none | {"fault": " ".join(counter.refused(refusal).lines)}


def row(counter: Counter, redemption: dict[str, Any]) -> Row:
    """A redemption as the table has it."""
    say = counter.say
    return Row(counter.language.moment(redemption["at"]), redemption["device"], redemption["session"],
               say("extended") if redemption["extended"] else say("opened"),
               say("open") if redemption["open"] else say("ended"))
