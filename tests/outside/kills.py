"""Kills the server again and again in the middle of its work, and opens the file again: what was acknowledged stands, once, and of
what was not at most the last request. A request with a number that is sent again after the kill takes effect once."""

import json
import random
import sys
import tempfile
import threading

from desk import DESK, PLANS, Broken, Desk, codes_of, guest, voucher_of

ROUNDS = 60


class Work:
    """What was sent and what was acknowledged."""

    def __init__(self, desk):
        self.desk, self.sold, self.redeemed, self.doubt, self.number = desk, [], {}, None, 0

    def act(self, path, field, code):
        """One numbered request, of which we know afterwards whether it was acknowledged."""
        self.number += 1
        self.doubt = (path, field, json.dumps({"code": code}), f"n{self.number}", code)
        self.again()

    def again(self):
        path, field, body, number, code = self.doubt
        self.desk.answer_to("POST", path, field, body, number=number)
        self.doubt = None
        if path == "/desk/sales":
            self.sold.append(code)
        else:
            self.redeemed[code] = self.redeemed.get(code, 0) + 1

    def go_on(self, codes):
        """Sells codes and redeems each twice until the server goes away."""
        try:
            while codes:
                code = codes.pop()
                self.act("/desk/sales", DESK, code)
                self.act("/portal/redeem", guest(len(self.sold)), code)
                self.act("/portal/redeem", guest(len(self.sold)), code)
        except Broken:
            pass


def batch_of(desk, number):
    name = f"b{number}"
    desk.answer_to("POST", "/desk/batches", DESK, json.dumps({"batch": name, "plan": "hour", "count": 200}))
    return codes_of(desk, name)


def check(work):
    """Each voucher that was sold, as the file has it now."""
    for code in work.sold:
        found = voucher_of(work.desk, code)
        assert found["sold"] is not None, code
        assert found["redeemed"] == work.redeemed.get(code, 0), (code, found, work.redeemed.get(code, 0))


def main():
    random.seed(1)
    with tempfile.TemporaryDirectory() as folder:
        desk = Desk(sys.argv[1], folder)
        work, codes, batches, kills = Work(desk), [], 0, 0
        desk.start()
        desk.answer_to("POST", "/desk/plans", DESK, PLANS)
        while kills < ROUNDS:
            if len(codes) < 100:
                batches += 1
                codes += batch_of(desk, batches)
            killer = threading.Timer(random.uniform(0.001, 0.06), desk.kill)
            killer.start()
            work.go_on(codes)
            killer.join()
            kills += 1
            desk.start()
            if work.doubt:
                work.again()
        check(work)
        desk.kill()
        audit = desk.run("check")
        assert (audit.returncode, audit.stdout) == (0, "ok\n"), audit
        used = sum(work.redeemed.values())
        print(f"outside: {kills} kills: {len(work.sold)} sales and {used} redemptions acknowledged, each there once")


main()
