"""portal-give.service: what it gives and ends, and what it refuses."""

from __future__ import annotations

import contextlib
import io
import json
import os
import socket
import sqlite3
import threading
import time
import unittest
from typing import Any
from unittest import mock

from desk_process import PLANS, DeskProcess, Routes
from give_fixture import NOON, OTHER, OTHER_PLACE, PHONE, PLACE, Gives, serve_in_test

from portal_field.give import giver, record
from portal_field.give.budget import hourly
from portal_field.give.record import Record
from portal_field.lib import doors
from portal_field.lib.local_time import use_zone

DAY = 86_400


class Quiet(Gives):
    def setUp(self) -> None:
        self.log = io.StringIO()
        self.enterContext(contextlib.redirect_stderr(self.log))
        super().setUp()


class Free(Quiet):
    def test_a_device_is_online_without_a_code(self) -> None:
        self.assertEqual(self.asks("look"), {"answer": "done", "session": 0, "free": "yes", "seconds": 1800, "bytes": 0})
        self.assertEqual(self.asks("free"), {"answer": "done", "session": 1, "extended": False})
        self.assertEqual((self.sessions(), self.sold()), ({PHONE: 1}, 1))
        row, = self.desk.gateway.request_json(Routes.SESSIONS)["sessions"]
        self.assertLessEqual(row["seconds-remaining"], 1800)
        self.assertNotIn(PHONE, self.log.getvalue(), "the journal of the machine has no device")

    def test_once_a_device_and_day(self) -> None:
        self.assertEqual(self.word("free"), "done")
        self.assertEqual(self.word("free"), "online", "as after a double click")
        self.close_all()
        for _ in range(3):
            self.assertEqual((self.word("free"), self.asks("look")["free"]), ("had", "had"))
        self.giver = self.start()
        self.assertEqual(self.word("free"), "had", "after a restart")
        self.assertEqual(self.word("free", OTHER_PLACE), "done", "another device")
        self.clock[0] += DAY
        self.assertEqual(self.word("free"), "done", "the next day")
        self.assertEqual(self.sold(), 3)

    def test_a_day_is_the_venues(self) -> None:
        self.addCleanup(use_zone, "UTC0")
        use_zone("XXX-13")      # noon in UTC is an hour after midnight there
        self.clock[0] -= 2 * 3600
        self.assertEqual(self.word("free"), "done")
        self.close_all()
        self.clock[0] += 3600 - 1
        self.assertEqual(self.word("free"), "had")
        self.clock[0] += 1
        self.assertEqual(self.word("free"), "done")

    def test_a_clock_that_is_set_back_gives_no_second_one(self) -> None:
        self.assertEqual(self.word("free"), "done")
        self.close_all()
        for back in (3600, DAY, 2 * DAY):
            self.clock[0] = NOON - back
            self.giver = self.start()
            self.assertEqual(self.word("free"), "had", back)
        self.clock[0] = NOON + 13 * 3600
        self.assertEqual(self.word("free"), "done", "set forward over midnight it is the next day's")
        self.assertEqual(self.sold(), 2)

    def test_a_kill_at_any_moment_gives_one(self) -> None:
        """The answer to each of its requests in turn is lost, and the part is started anew, also with its record
        lost: each takes effect once in all."""
        for is_lost in (False, True):
            for cut in range(1, 6):     # the state of the device, issue, print, sale, redemption
                device = self.devices[PLACE] = f"02:00:00:00:0{int(is_lost)}:1{cut}"
                self.conf["free_daily"] = 99
                self.giver = self.start(cut)
                self.assertEqual(self.word("free"), "no_answer")
                if is_lost:
                    (self.folder / "given.db").unlink()
                before, (self.giver) = self.sold(), self.start()
                word, after = self.word("free"), self.sold()
                self.assertEqual((word, after - before), ("online" if is_lost and cut == 5 else "done", int(cut < 4)), cut)
                self.assertEqual(device in self.sessions(), True)
                self.close_all()
                self.assertEqual(self.word("free"), "had" if not is_lost or cut < 5 else "done")
                self.assertEqual((self.sold(), self.sessions()), (after, {}), "nothing more")

    def test_with_its_record_lost_the_server_gives_no_second_one(self) -> None:
        self.assertEqual(self.word("free"), "done")
        self.close_all()
        (self.folder / "given.db").unlink()
        self.giver = self.start()
        self.word("free")
        self.assertEqual((self.sessions(), self.sold()), ({}, 1))

    def test_what_was_begun_goes_on_while_the_device_is_online(self) -> None:
        self.giver = self.start(cut=5)
        self.assertEqual(self.word("free"), "no_answer")
        self.giver = self.start()
        self.assertEqual(self.asks("free"), {"answer": "done", "session": 1, "extended": False})

    def test_two_at_once_are_one(self) -> None:
        words: list[str] = []
        threads = [threading.Thread(target=lambda: words.append(self.word("free"))) for _ in range(4)]
        for thread in threads:
            thread.start()
        for thread in threads:
            thread.join()
        self.assertEqual((sorted(words), self.sold()), (["done", "online", "online", "online"], 1))

    def test_how_many_there_were_is_told_by_day_and_without_devices(self) -> None:
        self.word("free")
        self.word("free")
        self.word("free", OTHER_PLACE)
        path = self.folder / "days.json"
        self.assertEqual((json.loads(path.read_text()), path.stat().st_mode & 0o777), ({time.strftime("%Y-%m-%d", time.gmtime(NOON)): 2}, 0o644))

    def test_what_is_old_is_removed(self) -> None:
        self.word("free")
        self.tells()
        self.word("end", session=1)
        self.clock[0] += (record.KEPT_DAYS + 1) * DAY
        self.word("free", OTHER_PLACE)
        with contextlib.closing(sqlite3.connect(self.folder / "given.db")) as link:
            rows = [link.execute(f"SELECT device FROM {table}").fetchall() for table in ("free", "ends")]
        self.assertEqual(rows, [[(OTHER,)], []])
        self.assertNotIn(PHONE.encode(), (self.folder / "given.db").read_bytes())

    def test_each_change_is_on_the_disk_before_it_counts(self) -> None:
        """The voucher is in the record before the server is asked to issue it."""
        self.giver = self.start(cut=2)
        self.word("free")
        found = Record(self.folder / "given.db").last_gift(PHONE)
        self.assertTrue(found and not found.is_over)
        with self.giver.record.opened() as link:
            self.assertEqual(link.execute("PRAGMA synchronous").fetchone(), (2,))

    def test_what_cannot_be_kept_is_not_given(self) -> None:
        (self.folder / "given.db").write_bytes(b"no database" * 999)
        self.assertEqual((self.word("free"), self.sold(), self.sessions()), ("no_record", 0, {}))


class Hour(Quiet):
    """One laptop with many addresses, and the others. Ten vouchers an hour: one comes back each 360 seconds."""

    def setUp(self) -> None:
        super().setUp()
        self.conf["free_daily"] = 80
        self.knows(PLACE, 6 * 3600)

    def place(self, known: float = 0) -> str:
        """The address of a device more, which the part knows for so many seconds."""
        number = len(self.devices)
        place = f"10.77.1.{number}"
        self.devices[place] = f"02:00:00:00:01:{number:02x}"
        if known:
            self.knows(place, known)
        return place

    def take(self, known: float = 0) -> int:
        """Has devices more, known for so long, ask one after another until one has to wait: how many had one."""
        count = 0
        while (word := self.word("free", self.place(known))) == "done":
            count += 1
        self.assertEqual(word, "wait")
        return count

    def test_an_eighth_of_a_day_and_at_least_four(self) -> None:
        self.assertEqual({daily: hourly(daily) for daily in (1, 3, 20, 32, 33, 80, 200, 100_000)},
                         {1: 4, 3: 4, 20: 4, 32: 4, 33: 5, 80: 10, 200: 25, 100_000: 12_500})

    def test_many_addresses_of_one_laptop_leave_half_to_who_was_there_before(self) -> None:
        self.asks("look", OTHER_PLACE)
        self.clock[0] += 600
        self.giver = self.start()
        words = [self.word("free", self.place()) for _ in range(24)]
        self.assertEqual(words, ["done"] * 5 + ["wait"] * 19)
        self.assertEqual((self.asks("look", OTHER_PLACE)["free"], self.word("free", OTHER_PLACE)), ("yes", "done"))
        self.assertEqual(self.sold(), 6)

    def test_below_half_a_device_has_to_be_known_for_ten_minutes(self) -> None:
        self.take()
        late = self.place()
        waits = {"answer": "wait", "begin": NOON + 600}
        self.assertEqual((self.asks("free", late), self.asks("look", late)["free"], self.asks("look", late)["begin"]), (waits, "wait", NOON + 600))
        self.clock[0] += 599
        self.take()
        self.assertEqual(self.asks("free", late), waits, "the others took what came back")
        self.clock[0] += 1
        self.take()
        self.assertEqual(self.word("free", late), "done")
        self.assertEqual(self.word("free", self.place()), "wait")

    def test_a_device_is_known_for_a_day(self) -> None:
        self.asks("look", OTHER_PLACE)
        self.clock[0] += DAY + 1
        self.take()
        self.assertEqual(self.asks("free", OTHER_PLACE)["begin"], self.clock[0] + 600)
        self.assertEqual(self.giver.record.count("SELECT count(*) FROM known WHERE since <= ?", NOON), 0, "and is not kept longer")

    def test_nobody_waits_while_more_than_half_is_left(self) -> None:
        self.assertEqual(self.take(), 5)
        self.clock[0] += 1
        self.assertEqual(self.take(), 1, "once there is more than half again")

    def test_what_is_used_up_comes_back_evenly_within_the_hour(self) -> None:
        self.assertEqual(self.take(known=3600), 10)
        self.assertEqual(self.asks("free"), {"answer": "wait", "begin": NOON + 360})
        self.clock[0] += 359
        self.assertEqual(self.word("free"), "wait")
        self.clock[0] += 1
        self.assertEqual((self.word("free"), self.take(known=3600)), ("done", 0))
        self.clock[0] += 5 * 3600
        self.assertEqual(self.take(known=3600), 10, "and no more than that of one hour")

    def test_a_day_takes_seven_hours_whoever_asks(self) -> None:
        count, hours = self.take(known=3600), 0
        while count < 80:
            self.clock[0], hours = self.clock[0] + 3600, hours + 1
            for _ in range(10):
                count += self.word("free", self.place(known=3600)) == "done"
        self.assertEqual((hours, self.word("free")), (7, "none_left"))

    def test_a_restart_gives_nothing_back(self) -> None:
        self.take(known=3600)
        self.giver = self.start()
        self.assertEqual(self.asks("free"), {"answer": "wait", "begin": NOON + 360})

    def test_a_clock_that_is_set_back_gives_nothing_and_stops_nothing(self) -> None:
        self.take(known=3600)
        for back in (3600, 2 * 3600):
            self.clock[0] = NOON - back
            self.assertEqual(self.asks("free"), {"answer": "wait", "begin": NOON - back + 360})
        self.clock[0] += 360
        self.assertEqual(self.word("free"), "done")

    def test_what_was_begun_goes_on_where_none_is_left(self) -> None:
        self.giver = self.start(cut=5)
        self.assertEqual(self.word("free"), "no_answer")
        self.giver = self.start()
        self.assertEqual(self.take(known=3600), 9)
        self.assertEqual(self.asks("free"), {"answer": "done", "session": 1, "extended": False})

    def test_who_is_online_does_not_wait(self) -> None:
        code, = self.desk.sell_codes("hour", "b1")
        self.desk.desk.request_json(Routes.REDEEM, body={"code": code}, device=PHONE)
        self.take(known=3600)
        self.assertEqual(self.asks("free"), {"answer": "online"})


class End(Quiet):
    def test_a_device_ends_its_own_session(self) -> None:
        self.word("free")
        self.tells()
        self.assertEqual(self.asks("look")["session"], 1)
        self.assertEqual(self.word("end", session=1), "done")
        self.assertEqual(self.sessions(), {})
        for _ in range(2):      # before the gateway has heard of it, and after
            self.assertEqual(self.word("end", session=1), "done", "as after a double click")
            self.tells()

    def test_a_session_of_later_is_not_ended_by_the_form_of_before(self) -> None:
        code, = self.desk.sell_codes("hour", "b1")
        self.word("free")
        self.tells()
        self.word("end", session=1)
        self.desk.desk.request_json(Routes.REDEEM, body={"code": code}, device=PHONE)
        self.tells()
        self.assertEqual((self.word("end", session=1), self.sessions()), ("done", {PHONE: 2}))

    def test_what_a_clerk_has_closed_is_ended(self) -> None:
        self.word("free")
        self.tells()
        self.close_all()
        self.assertEqual(self.word("end", session=1), "done")

    def test_a_number_that_another_database_gave_out_before_is_another_session(self) -> None:
        """After a restore numbers are used again."""
        self.word("free")
        self.tells()
        self.word("end", session=1)
        with DeskProcess() as desk:
            desk.load()
            code, = desk.sell_codes("hour", "b1")
            desk.desk.request_json(Routes.REDEEM, body={"code": code}, device=OTHER)
            self.desk = desk
            self.giver = self.start()
            self.tells()
            self.assertEqual((self.word("end", session=1), self.sessions()), ("done", {OTHER: 1}), "nothing was ended")

    def test_an_end_in_doubt_is_sent_again(self) -> None:
        self.word("free")
        self.tells()
        self.giver = self.start(cut=1)
        self.assertEqual(self.word("end", session=1), "no_answer")
        self.giver = self.start()
        self.assertEqual((self.word("end", session=1), self.sessions()), ("done", {}))


class Refused(Quiet):
    """What a page that an attacker controls may try, and a guest, too."""

    def tries(self) -> list[tuple[str, str, Any]]:
        """Each with its name, the word of the answer, and the bytes, or what makes them."""
        good = {"act": "free", "address": PLACE, "device": PHONE, "session": 0}
        end = {**good, "act": "end", "session": 1}

        def of(**changed: Any) -> bytes:
            return json.dumps({**good, **changed}).encode()

        return [("no request at all", "bad_request", b""), ("half a request", "bad_request", of()[:-1]),
                ("a list", "bad_request", b"[]"), ("no text", "bad_request", b"\xff"), ("nested without end", "bad_request", b"[" * 400),
                ("a field less", "bad_request", b'{"act": "free", "address": "10.77.0.50", "device": "02:00:00:00:00:01"}'),
                ("another plan", "bad_request", of(plan="hour")), ("more of them", "bad_request", of(count=50)),
                ("another day", "bad_request", of(day="2020-01-01")), ("a code to be sold", "bad_request", of(act="sell", code="2222-2222-2222")),
                ("a refund", "bad_request", of(act="refund")), ("a session by a text", "bad_request", of(act="end", session="2")),
                ("a session by true", "bad_request", of(act="end", session=True)), ("a session below all", "bad_request", of(act="end", session=-1)),
                ("a session above all", "bad_request", of(act="end", session=2 ** 53)), ("no session", "not_open", of(act="end", session=0)),
                ("another device's session", "not_open", of(act="end", session=2)), ("a session that never was", "not_open", of(act="end", session=99)),
                ("another device at its address", "not_this_device", of(device=OTHER)), ("another device's address", "not_this_device", of(address=OTHER_PLACE)),
                ("an address that nobody has", "not_this_device", of(address="10.77.0.99")), ("an address of no guest", "not_this_device", of(address="10.88.0.2")),
                ("an address in another form", "not_this_device", of(address="10.77.0.050")), ("no device", "not_this_device", of(device="")),
                ("the device in capitals", "not_this_device", of(device=PHONE.upper())), ("the device with a line end", "not_this_device", of(device=PHONE + "\n")),
                ("free minutes beside a session", "online", of()), ("the same as another device's own", "online", of(address=OTHER_PLACE, device=OTHER)),
                ("the right request, by the old number", "not_open", json.dumps({**end, "session": 3}).encode())]

    def test_what_a_page_that_was_taken_over_may_try(self) -> None:
        """Both devices are online with codes that they bought; nothing changes by any of these."""
        for device, batch in ((PHONE, "b1"), (OTHER, "b2")):
            code, = self.desk.sell_codes("hour", batch)
            self.desk.desk.request_json(Routes.REDEEM, body={"code": code}, device=device)
        self.tells()
        self.assertGreaterEqual(len(self.tries()), 20)
        for what, word, data in self.tries():
            self.assertEqual(self.giver.answer(data)["answer"], word, what)
            self.assertEqual((self.sessions(), self.sold()), ({PHONE: 1, OTHER: 2}, 2), what)

    def test_no_code_is_in_an_answer(self) -> None:
        answers = json.dumps([self.asks("look"), self.asks("free"), self.asks("look"), self.asks("end", session=1)])
        self.assertNotRegex(answers + self.log.getvalue(), "(?i)code|[2-9A-Z]{4}-[2-9A-Z]{4}")

    def test_the_venue_has_so_many_a_day(self) -> None:
        for number in range(5):
            place = f"10.77.0.6{number}"
            self.devices[place] = f"02:00:00:00:01:0{number}"
            self.knows(place)
            self.assertEqual(self.word("free", place), "done" if number < 3 else "none_left")
        self.assertEqual(self.asks("look", place)["free"], "none_left")
        self.clock[0] -= DAY
        self.assertEqual(self.word("free", place), "none_left", "nor where the clock is set back")
        self.clock[0] += 2 * DAY
        self.assertEqual((self.word("free", place), self.sold()), ("done", 4))

    def test_a_venue_that_gives_nothing(self) -> None:
        for change in ({"free_plan": ""}, {"free_plan": "hour"}, {"free_plan": "gone"}, {"plans": "/nowhere"}):
            with mock.patch.dict(self.conf, change):
                self.assertEqual((self.word("free"), self.asks("look")["free"]), ("off", "off"), change)
        self.assertEqual((self.sold(), self.sessions()), (0, {}))

    def test_a_plan_that_has_a_price_at_the_server(self) -> None:
        """The plans file may be changed and not loaded."""
        self.plans.write_bytes(PLANS.replace(b"price = 300", b"price = 0"))
        self.conf["free_plan"] = "hour"
        self.assertEqual((self.word("free"), self.sold(), self.sessions()), ("off", 0, {}))
        self.conf["free_plan"] = "gone"
        self.plans.write_bytes(self.plans.read_bytes().replace(b'id = "day"\nprice = 900', b'id = "gone"\nprice = 0'))
        self.assertEqual((self.word("free", OTHER_PLACE), self.sold()), ("off", 0))

    def test_a_flood(self) -> None:
        with mock.patch.dict(giver.A_MINUTE, free=4, look=4):
            self.assertEqual([self.word("free") for _ in range(6)], ["done", *["online"] * 3, "busy", "busy"])
            self.assertEqual([self.word("look") for _ in range(6)], [*["done"] * 4, "busy", "busy"])
            self.assertEqual((self.word("look", OTHER_PLACE), self.word("free", OTHER_PLACE)), ("done", "done"), "another device")
            self.ticks[0] += 60
            self.assertEqual((self.word("free"), self.word("look")), ("online", "done"))
            self.assertEqual(set(self.giver.requests), {("free", PHONE), ("look", PHONE)}, "what is over is not kept")

    def test_a_device_ends_so_many_sessions_a_day_and_so_does_the_venue(self) -> None:
        self.devices["10.77.0.60"] = third = "02:00:00:00:00:03"
        with mock.patch.object(giver, "ENDS_OF_DEVICE", 2), mock.patch.object(giver, "ENDS_OF_VENUE", 3):
            words = []
            for number, place in enumerate((PLACE, PLACE, PLACE, OTHER_PLACE, "10.77.0.60"), 1):
                code, = self.desk.sell_codes("hour", f"b{number}")
                session = self.desk.desk.request_json(Routes.REDEEM, body={"code": code}, device=self.devices[place])["session"]
                self.tells()
                words.append(self.word("end", place, session=session))
            self.assertEqual(words, ["done", "done", "many_ends", "done", "many_ends"])
            self.clock[0] -= DAY
            self.tells()
            self.assertEqual(self.word("end", session=3), "many_ends", "nor where the clock is set back")
            self.clock[0] += 2 * DAY
            self.tells()
            self.assertEqual(self.word("end", session=3), "done")
        self.assertEqual(self.sessions(), {third: 5})

    def test_a_list_of_the_gateway_that_is_old_or_broken_ends_nothing(self) -> None:
        self.word("free")
        for text in ("", "[]", "{", '{"at": 0}', '{"at": "x", "sessions": []}', '{"at": %d, "sessions": [1]}' % NOON):
            self.list.write_text(text)
            self.assertEqual((self.word("end", session=1), self.asks("look")["session"]), ("not_open", 0), text)
        self.tells(age=giver.OLD_LIST + 1)
        self.assertEqual(self.word("end", session=1), "not_open")
        self.assertEqual(self.sessions(), {PHONE: 1})


class Socket(Quiet):
    """Who may ask, and how long and how much."""

    def setUp(self) -> None:
        super().setUp()
        self.path = self.folder / "socket"
        serve_in_test(self, self.giver, self.path)

    def sent(self, data: bytes, ends: bool = True) -> dict[str, Any]:
        """The answer to bytes."""
        with socket.socket(socket.AF_UNIX) as link:
            link.settimeout(30)
            link.connect(str(self.path))
            with contextlib.suppress(BrokenPipeError):
                link.sendall(data)
                if ends:
                    link.shutdown(socket.SHUT_WR)
            return dict(json.loads(link.recv(4096)))

    def test_it_answers_the_page(self) -> None:
        question = {"act": "free", "address": PLACE, "device": PHONE, "session": 0}
        self.assertEqual(doors.ask(str(self.path), question, 30), {"answer": "done", "session": 1, "extended": False})
        self.assertEqual(doors.ask(str(self.folder / "none"), question, 1), {"answer": "no_answer"})

    def test_a_request_that_is_too_long_or_too_slow(self) -> None:
        self.assertEqual(self.sent(b" " * 100_000), {"answer": "too_large"})
        with mock.patch.object(doors.receive, "__defaults__", (0.2,)):
            self.assertEqual(self.sent(b"{", ends=False), {"answer": "bad_request"})

    def test_another_users_process(self) -> None:
        with mock.patch.object(doors, "is_asked_by", lambda link, user: False):
            self.assertEqual(self.sent(b"{}"), {"answer": "not_allowed"})
        ours, theirs = socket.socketpair()
        with ours, theirs, mock.patch("os.geteuid", lambda: 4711):
            for who, user, may in ((0, "nobody", True), (4711, "nobody", True), (4712, "nobody", False), (4712, "no-such-user", False),
                                   (4712, "4712", True), (4713, "4712", False), (65534, "nobody", True)):
                with mock.patch("struct.unpack", lambda *_: (1, who, 1)):
                    self.assertEqual(doors.is_asked_by(ours, user), may, (who, user))

    def test_a_fault_of_one_request_hinders_no_other(self) -> None:
        with mock.patch.object(self.giver, "device_at", lambda _: 1 // 0):
            with self.assertRaises(ValueError):
                self.sent(json.dumps({"act": "look", "address": PLACE, "device": PHONE, "session": 0}).encode())
        self.assertIn("ZeroDivisionError", self.log.getvalue())
        self.assertEqual(self.sent(b"{}"), {"answer": "bad_request"})

    def test_systemds_socket_is_taken(self) -> None:
        held = self.enterContext(socket.socket(socket.AF_UNIX))
        with mock.patch.dict(os.environ, LISTEN_PID=str(os.getpid())), mock.patch("socket.socket", lambda **more: (held, more)):
            self.assertEqual(doors.listening("/nowhere"), (held, {"fileno": 3}))


if __name__ == "__main__":
    unittest.main()
