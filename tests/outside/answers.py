"""The largest answers about batches and vouchers, with ample memory: a batch of 500, a list of 20 of them and what comes
after, vouchers by the first characters of their codes, and a hundred redemptions of a voucher.

    answers.py PROGRAM
"""

import json
import sys
import tempfile

from desk import DESK, PLANS, Desk, codes_of, guest, voucher_of

BATCHES, SIZE = 21, 500


def ask(desk, path):
    return json.loads(desk.answer_to("GET", path, DESK))


def counts(batch):
    return {name: batch[name] for name in ("count", "refunded", "sold", "used-up")}


def fill(desk):
    """21 batches of 500; of the newest the first ten are sold, and one of these is refunded."""
    desk.answer_to("POST", "/desk/plans", DESK, PLANS)
    for number in range(BATCHES):
        desk.answer_to("POST", "/desk/batches", DESK, json.dumps({"batch": f"b{number:02}", "plan": "hour", "count": SIZE}))
    codes = codes_of(desk, "b20")
    for code in codes[:10]:
        desk.answer_to("POST", "/desk/sales", DESK, json.dumps({"code": code}))
    desk.answer_to("POST", "/desk/refunds", DESK, json.dumps({"code": codes[0]}))
    return codes


def check_batches(desk, codes):
    first = ask(desk, "/desk/batches")
    names = [f"b{number:02}" for number in reversed(range(BATCHES))]
    assert ([batch["batch"] for batch in first["batches"]], first["more"]) == (names[:20], True), first
    sold = {"count": SIZE, "refunded": 1, "sold": 10, "used-up": 0}
    none = {"count": SIZE, "refunded": 0, "sold": 0, "used-up": 0}
    assert [counts(batch) for batch in first["batches"]] == [sold, *[none] * 19], first
    rest = ask(desk, "/desk/batches?before=b01")
    assert ([batch["batch"] for batch in rest["batches"]], rest["more"]) == (["b00"], False), rest
    batch = ask(desk, "/desk/batches/b20")
    assert (counts(batch), [voucher["code"] for voucher in batch["vouchers"]]) == (sold, codes), batch
    assert [voucher["sold"] is None for voucher in batch["vouchers"]] == [False] * 10 + [True] * 490, batch


def check_vouchers(desk, codes):
    everything = sorted(code for number in range(BATCHES) for code in codes_of(desk, f"b{number:02}"))
    for code in (codes[0], codes[-1], everything[0], everything[-1]):
        for length in (4, 6, 14, 18):
            start = code[:length].rstrip("-")
            found = ask(desk, f"/desk/vouchers?prefix={start.lower().replace('-', '')}")
            like = [other for other in everything if other.startswith(start)]
            assert found == {"more": False, "vouchers": [voucher_of(desk, other) for other in like]}, (start, found)


def check_redemptions(desk):
    """A voucher of a thousand uses, redeemed by 101 devices: the last 100 are listed."""
    often = 'id = "often"\nprice = 300\nuses = 1000\nseconds = 3600\nbytes = 0\nshelf_days = 30\nextend = true\n'
    desk.answer_to("POST", "/desk/plans", DESK, "[[plan]]\n" + often)
    desk.answer_to("POST", "/desk/batches", DESK, json.dumps({"batch": "often", "plan": "often", "count": 1}))
    code, = codes_of(desk, "often")
    desk.answer_to("POST", "/desk/sales", DESK, json.dumps({"code": code}))
    for number in range(101):
        desk.answer_to("POST", "/portal/redeem", guest(number), json.dumps({"code": code}))
    found = ask(desk, f"/desk/vouchers/{code}/redemptions")
    sessions = [(row["session"], row["extended"], row["open"]) for row in found["redemptions"]]
    assert (sessions, found["more"]) == ([(number, False, True) for number in range(101, 1, -1)], True), found
    desk.answer_to("POST", "/portal/redeem", guest(100), json.dumps({"code": code}))
    last, before = ask(desk, f"/desk/vouchers/{code}/redemptions")["redemptions"][:2]
    assert (last["session"], last["extended"], before["session"], before["extended"]) == (101, True, 101, False), (last, before)


def main(program):
    with tempfile.TemporaryDirectory() as folder:
        desk = Desk(program, folder)
        desk.start()
        try:
            codes = fill(desk)
            check_batches(desk, codes)
            check_vouchers(desk, codes)
            check_redemptions(desk)
        finally:
            desk.kill()
    print("outside: the largest answers about batches and vouchers are whole")


if __name__ == "__main__":
    main(sys.argv[1])
