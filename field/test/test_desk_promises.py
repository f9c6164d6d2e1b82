"""What the kit rests on at the desk, each by name; asked of the program that FIELD_PORTAL names, or the stand-in."""

from __future__ import annotations

import socket
import unittest

from desk_process import DeskProcess, NoAnswer, Refused, Routes
from steady import wait_until

ONE, TWO = "02:00:00:00:00:01", "02:00:00:00:00:02"


class Promises(unittest.TestCase):
    def setUp(self) -> None:
        self.desk = self.enterContext(DeskProcess())
        self.desk.load()

    def report(self, session: int, count: int) -> tuple[bool, int]:
        result = self.desk.gateway.request_json(Routes.REPORT, body={"session": session, "bytes": count})
        return result["open"], result["used"]

    def redeem(self, code: str, device: str = ONE, number: str | None = None) -> dict[str, object]:
        return self.desk.desk.request_json(Routes.REDEEM, body={"code": code}, device=device, number=number)

    def test_a_report_of_0_changes_no_used_and_tells_what_is_held(self) -> None:
        code, = self.desk.sell_codes("gigabyte", "b1")
        self.redeem(code)
        self.assertEqual([self.report(1, count) for count in (0, 777, 0, 5, 0)],
                         [(True, 0), (True, 777), (True, 777), (True, 777), (True, 777)])
        left = self.desk.desk.request_json(Routes.CAPTIVE, device=ONE)["bytes-remaining"]
        self.assertEqual(left, 10**9 - 777)

    def test_also_for_closed_sessions(self) -> None:
        self.redeem(self.desk.sell_codes("gigabyte", "b1")[0])
        self.report(1, 777)
        self.desk.desk.request_json(Routes.CLOSE, body={"session": 1})
        self.assertEqual([self.report(1, count) for count in (0, 888, 0)], [(False, 777), (False, 888), (False, 888)])

    def test_a_numbered_request_acts_once_across_a_kill(self) -> None:
        one, two = self.desk.sell_codes("gigabyte", "b1", 2)
        result = self.redeem(one, number="n-1")
        self.desk.job.kill()
        self.desk.job.wait()
        with DeskProcess(self.desk.book) as again:
            asker = again.desk
            self.assertEqual(asker.request_json(Routes.REDEEM, body={"code": one}, device=ONE, number="n-1"), result)
            self.assertEqual(again.voucher(one)["redeemed"], 1)
            with self.assertRaises(Refused) as caught:
                asker.request_json(Routes.REDEEM, body={"code": two}, device=ONE, number="n-1")
            self.assertEqual((caught.exception.word, again.voucher(two)["redeemed"]), ("id_reused", 0))

    def test_the_request_of_a_peer_that_gave_up_is_carried_out(self) -> None:
        code, = self.desk.issue_codes("hour", "b1")
        body = b'{"code": "%s"}' % code.encode()
        head = f"POST /desk/sales HTTP/1.0\r\nPortal-Token: desk-token\r\nContent-Length: {len(body)}\r\n\r\n"
        with socket.create_connection(("127.0.0.1", self.desk.port)) as link:
            link.sendall(head.encode() + body)
        self.assertTrue(wait_until(lambda: self.desk.voucher(code)["sold"] is not None, 2), "not sold")

    def test_one_silent_connection_stops_the_desk_until_it_ends(self) -> None:
        self.desk.gateway.timeout = 0.3
        with socket.create_connection(("127.0.0.1", self.desk.port)):
            with self.assertRaises(NoAnswer):
                self.desk.gateway.request_json(Routes.SESSIONS)
        self.desk.gateway.timeout = 5
        self.assertEqual(self.desk.gateway.request_json(Routes.SESSIONS), {"sessions": []})

    def test_open_sessions_are_listed_by_number_with_what_is_left(self) -> None:
        hour, data = self.desk.sell_codes("hour", "b1")[0], self.desk.sell_codes("gigabyte", "b2")[0]
        self.redeem(hour, TWO)
        self.redeem(data, ONE)
        rows = self.desk.gateway.request_json(Routes.SESSIONS)["sessions"]
        self.assertEqual([(row["session"], row["device"]) for row in rows], [(1, TWO), (2, ONE)])
        self.assertEqual(sorted(rows[0]), ["device", "seconds-remaining", "session"])
        self.assertEqual(rows[1]["bytes-remaining"], 10**9)


if __name__ == "__main__":
    unittest.main()
