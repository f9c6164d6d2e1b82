"""The stand-in's answers to the desk's test vectors, moment by moment."""

import json
import re
import unittest

from desk_model import Json, with_check_character
from desk_stand_in import StandIn

SETTINGS = {"zone": "UTC0", "portal_url": "https://wifi.example/portal", "desk_token": "desk-token",
            "gateway_token": "gate-token"}
PLAN = '[[plan]]\nid = "{}"\nprice = {}\nuses = {}\nseconds = {}\nbytes = {}\nshelf_days = 30\nextend = {}\n'
PLANS = PLAN.format("hour", 300, 1, 3600, 0, "true") + PLAN.format("gig", 500, 3, 0, 2**30, "false")
GUEST, OTHER = "02:00:00:00:00:01", "02:00:00:00:00:02"
TOKENS = {"/desk": "desk-token", "/gateway": "gate-token"}
UNKNOWN = (404, '{"error":"unknown_session"}')
NO_BATCH = (404, '{"error":"unknown_batch"}')
BAD_REQUEST, BAD_CODE = (400, '{"error":"bad_request"}'), (400, '{"error":"bad_code"}')
# Of one use for a minute, for 100 bytes, and for both; and a second plan of both.
SHORT = "".join(PLAN.format(name, 100, 1, seconds, count, "true")
                for name, seconds, count in (("minute", 60, 0), ("cup", 0, 100), ("both", 60, 100), ("more", 30, 7)))


class Worked(unittest.TestCase):
    def setUp(self) -> None:
        self.desk = StandIn(":memory:", SETTINGS)
        self.assertEqual(self.ask(0, "POST", "/desk/plans", PLANS), (200, '{"plans":2}'))

    def raw(self, now: int, method: str, target: str, body: str = "", *fields: str) -> tuple[str, str]:
        lines = [f"{method} {target} HTTP/1.1", "Host: api", f"Content-Length: {len(body)}", *fields]
        result = self.desk.respond(now, ("\r\n".join(lines) + "\r\n\r\n" + body).encode()).decode()
        head, _, text = result.partition("\r\n\r\n")
        return head, text

    def ask(self, now: int, method: str, target: str, body: object = "", device: str = GUEST,
            number: str = "") -> tuple[int, str]:
        token = next((value for start, value in TOKENS.items() if target.startswith(start)), None)
        fields = [f"Portal-Token: {token}" if token else f"Portal-Device: {device}"]
        fields += [f"Portal-Request: {number}"] if number else []
        text = body if isinstance(body, str) else json.dumps(body)
        head, answer = self.raw(now, method, target, text, *fields)
        return int(head.split()[1]), answer

    def bought(self, now: int, plan: str, batch: str, count: int = 1) -> list[str]:
        self.ask(now, "POST", "/desk/batches", {"batch": batch, "plan": plan, "count": count})
        lines = self.ask(now, "GET", f"/desk/batches/{batch}/print")[1].splitlines()[1:]
        codes = [line.partition(",")[0] for line in lines]
        for code in codes:
            self.ask(now, "POST", "/desk/sales", {"code": code})
        return codes

    def redeem(self, now: int, code: str, device: str = GUEST, number: str = "") -> tuple[int, str]:
        return self.ask(now, "POST", "/portal/redeem", {"code": code}, device, number)

    def test_unknown_device(self) -> None:
        fields = (b"GET /captive HTTP/1.1", b"Host: api", b"Portal-Device: " + GUEST.encode(), b"", b"")
        result = self.desk.respond(1583125693, b"\r\n".join(fields))
        self.assertEqual(len(result), 224)
        self.assertTrue(result.startswith(b"HTTP/1.1 200 OK\r\nDate: Mon, 02 Mar 2020 05:08:13 GMT\r\nContent-Type: "))
        self.assertTrue(result.endswith(b'{"captive":true,"user-portal-url":"https://wifi.example/portal"}'))

    def test_codes(self) -> None:
        seed = [1, 19, 3, 3, 27, 8, 2, 23, 17, 15, 3]
        for body, code in (([0] * 11, "2222-2222-2222"), ([0] * 10 + [1], "2222-2222-223N"), (seed, "3N55-WA4S-KH53"),
                           (seed + [26, 16, 22, 2], "3N55-WA4S-KH5V-JR49"), ([0] * 14 + [1], "2222-2222-2222-223H")):
            self.assertEqual(with_check_character(body), code)
        for code, answer in ((" 2222 2222 223n", "unknown_code"), ("2222-2222-22N3", "bad_code"),
                             ("222222222", "bad_code"), ("3n55wa4skh53", "unknown_code"),
                             ("2222-2222-2222-22H3", "bad_code")):
            self.assertEqual(json.loads(self.redeem(1, code)[1]), {"error": answer}, code)

    def test_issue_sell_redeem(self) -> None:
        code, = self.bought(1000, "hour", "b1")
        self.assertEqual(len(code), 19)
        self.assertEqual(self.redeem(1000, code), (200, '{"extended":false,"session":1,"uses_left":0}'))
        url = '"user-portal-url":"https://wifi.example/portal"}'
        for now, result in ((4599, '{"can-extend-session":true,"captive":false,"seconds-remaining":1,' + url),
                            (900, '{"can-extend-session":true,"captive":false,"seconds-remaining":3600,' + url),
                            (4600, '{"captive":true,' + url)):
            self.assertEqual(self.ask(now, "GET", "/captive"), (200, result))
        self.assertEqual(self.redeem(2000, code), (409, '{"error":"used_up"}'))
        self.assertEqual(self.ask(2000, "GET", "/gateway/sessions")[1],
                         '{"sessions":[{"device":"%s","seconds-remaining":2600,"session":1}]}' % GUEST)
        self.assertEqual(self.ask(4600, "GET", "/gateway/sessions")[1], '{"sessions":[]}')
        self.assertEqual(self.ask(9, "GET", "/desk/vouchers/" + code)[1],
                         '{"batch":"b1","code":"%s","expires":2593000,"plan":"hour","redeemed":1,"refund":null,'
                         '"sold":1000,"uses":1}' % code)

    def test_extended_before_end_and_new_at_end(self) -> None:
        for last, result in ((4599, '{"extended":true,"session":1,"uses_left":0}'),
                             (4600, '{"extended":false,"session":2,"uses_left":0}')):
            self.setUp()
            first, second = self.bought(1000, "hour", "b1", 2)
            self.redeem(1000, first)
            self.assertEqual(self.redeem(last, second), (200, result))
            self.assertIn('"seconds-remaining":3600,', self.ask(4600, "GET", "/captive")[1])

    def test_bytes_counted_and_a_report_of_nothing(self) -> None:
        code, = self.bought(1000, "gig", "b1")
        self.redeem(1000, code, OTHER)
        for count, is_open, used in ((0, True, 0), (2**30 - 1, True, 2**30 - 1), (0, True, 2**30 - 1),
                                     (2**30, False, 2**30), (5, False, 2**30)):
            result = self.ask(1000, "POST", "/gateway/reports", {"session": 1, "bytes": count})[1]
            self.assertEqual(json.loads(result), {"open": is_open, "session": 1, "used": used})

    def test_refusals_of_an_open_session(self) -> None:
        hour, gig, gig2 = *self.bought(9, "hour", "h"), *self.bought(9, "gig", "g", 2)
        self.redeem(9, hour)
        self.assertEqual(self.redeem(9, gig)[1], '{"error":"shape_differs"}')
        self.redeem(9, gig, OTHER)
        self.assertEqual(self.redeem(9, gig2, OTHER)[1], '{"error":"no_extend"}')

    def test_refund_and_takings(self) -> None:
        code, = self.bought(1000, "gig", "b1")
        self.redeem(1000, code)
        for result in (f'{{"amount":333,"code":"{code}"}}', '{"error":"refunded"}'):
            self.assertEqual(self.ask(86400, "POST", "/desk/refunds", {"code": code})[1], result)
        self.assertEqual(self.redeem(86400, code)[1], '{"error":"refunded"}')
        self.assertEqual(self.ask(9, "GET", "/desk/takings?from=1970-01-02&to=1970-01-02")[1], """\
day            sold             sales refunded           refunds
1970-01-02        0              0.00        1              3.33
total             0              0.00        1              3.33
net -3.33
""")
        for query in ("from=1970-01-01", "from=1970-1-1&to=1970-01-02", "from=1970-01-02&to=1970-01-01"):
            self.assertEqual(self.ask(9, "GET", "/desk/takings?" + query)[0], 400, query)

    def test_not_sold_then_expired(self) -> None:
        self.ask(1000, "POST", "/desk/batches", {"batch": "b1", "plan": "hour", "count": 1})
        code = self.ask(1000, "GET", "/desk/batches/b1/print")[1].splitlines()[1].partition(",")[0]
        self.assertEqual(self.redeem(1000, code), (409, '{"error":"not_sold"}'))
        self.ask(1000, "POST", "/desk/sales", {"code": code})
        self.assertEqual(self.redeem(2593000, code), (410, '{"error":"expired"}'))

    def test_close_session(self) -> None:
        code, = self.bought(1000, "hour", "b1")
        self.redeem(1000, code)
        for session, result in ((1, '{"session":1}'), (1, '{"error":"closed_already"}'),
                                (9, '{"error":"unknown_session"}')):
            self.assertEqual(self.ask(2000, "POST", "/desk/closes", {"session": session})[1], result)
        self.assertEqual(self.ask(2000, "POST", "/gateway/reports", {"session": 1, "bytes": 7})[1],
                         '{"open":false,"session":1,"used":7}')

    # Details of sessions

    def open_short(self, now: int, plan: str, device: str = GUEST) -> None:
        """Opens a session of one of the short plans, or extends it."""
        self.ask(0, "POST", "/desk/plans", SHORT)
        self.short = getattr(self, "short", 0) + 1
        self.assertEqual(self.redeem(now, self.bought(now, plan, f"short-{self.short}")[0], device)[0], 200)

    def report(self, now: int, number: int, count: int) -> None:
        self.assertEqual(self.ask(now, "POST", "/gateway/reports", {"session": number, "bytes": count})[0], 200)

    def close(self, now: int, number: int) -> None:
        self.assertEqual(self.ask(now, "POST", "/desk/closes", {"session": number})[0], 200)

    def details(self, now: int, number: int) -> str:
        """The details of a session, with single quotes in place of double ones."""
        status, text = self.ask(now, "GET", f"/desk/sessions/{number}")
        self.assertEqual(status, 200, text)
        return text.replace('"', "'")

    def test_details_of_an_open_session_have_what_its_plan_limits(self) -> None:
        for device, plan in ((GUEST, "minute"), (OTHER, "cup"), ("02:00:00:00:00:03", "both")):
            self.open_short(1000, plan, device)
        for number in (1, 2, 3):
            self.report(1010, number, 40)
        self.assertEqual(self.details(1015, 1), "{'device':'02:00:00:00:00:01','ended':null,'opened':1000,'plan':'minute',"
                         "'seconds-remaining':45,'session':1,'used':40}")
        self.assertEqual(self.details(1015, 2), "{'bytes-remaining':60,'device':'02:00:00:00:00:02','ended':null,'opened':1000,'plan':'cup',"
                         "'session':2,'used':40}")
        self.assertEqual(self.details(1015, 3), "{'bytes-remaining':60,'device':'02:00:00:00:00:03','ended':null,'opened':1000,'plan':'both',"
                         "'seconds-remaining':45,'session':3,'used':40}")
        self.assertIn("'seconds-remaining':50,", self.details(900, 1))       # the clock was set back behind the last command

    def test_a_session_ends_by_its_close_before_all_else(self) -> None:
        self.open_short(1000, "both")
        self.report(1010, 1, 150)
        self.close(1070, 1)
        self.assertEqual(self.details(1080, 1), "{'at':1070,'bytes-remaining':0,'device':'02:00:00:00:00:01','ended':'closed','opened':1000,"
                         "'plan':'both','seconds-remaining':0,'session':1,'used':150}")

    def test_a_closed_session_keeps_what_was_left(self) -> None:
        self.open_short(1000, "both")
        self.close(1020, 1)
        self.assertEqual(self.details(1025, 1), "{'at':1020,'bytes-remaining':100,'device':'02:00:00:00:00:01','ended':'closed','opened':1000,"
                         "'plan':'both','seconds-remaining':35,'session':1,'used':0}")

    def test_a_session_ends_by_time_before_bytes(self) -> None:
        self.open_short(1000, "both")
        self.report(1010, 1, 100)
        self.assertEqual(self.details(1059, 1), "{'bytes-remaining':0,'device':'02:00:00:00:00:01','ended':'bytes','opened':1000,'plan':'both',"
                         "'seconds-remaining':1,'session':1,'used':100}")
        self.assertEqual(self.details(1060, 1), "{'at':1060,'bytes-remaining':0,'device':'02:00:00:00:00:01','ended':'time','opened':1000,"
                         "'plan':'both','seconds-remaining':0,'session':1,'used':100}")

    def test_a_session_ends_at_its_end_and_with_its_last_byte(self) -> None:
        self.open_short(1000, "minute")
        self.open_short(1000, "cup", OTHER)
        self.report(1000, 2, 99)
        for now, number, words in ((1059, 1, "'ended':null"), (1060, 1, "'at':1060,"), (9000, 1, "'at':1060,"), (9000, 2, "'ended':null")):
            self.assertIn(words, self.details(now, number))
        self.report(1000, 2, 100)
        self.assertIn("'ended':'bytes'", self.details(1000, 2))

    def test_an_extended_session_keeps_its_first_plan(self) -> None:
        self.open_short(1000, "both")
        self.open_short(1050, "more")
        self.assertEqual(self.details(1050, 1), "{'bytes-remaining':107,'device':'02:00:00:00:00:01','ended':null,'opened':1000,'plan':'both',"
                         "'seconds-remaining':40,'session':1,'used':0}")

    def test_the_last_session_of_a_device(self) -> None:
        for now, device in ((1000, GUEST), (1000, OTHER), (1060, GUEST)):
            self.open_short(now, "minute", device)
        own = '"ended":null,"opened":1060,"plan":"minute","seconds-remaining":60,"session":3,"used":0}'
        last = (200, f'{{"device":"{GUEST}",{own}')
        for spelled in (GUEST, GUEST.replace(":", "-")):
            self.assertEqual(self.ask(1060, "GET", f"/desk/sessions?x&device={spelled}&Device=2"), last)
        self.assertEqual(self.ask(1060, "GET", "/desk/sessions/3"), last)
        self.assertEqual(self.ask(1060, "GET", "/portal/session"), (200, "{" + own))
        self.assertIn('"ended":"time"', self.ask(1060, "GET", "/portal/session", device=OTHER)[1])
        self.assertEqual(self.ask(1060, "GET", "/desk/sessions?device=02:00:00:00:00:09"), UNKNOWN)
        self.assertEqual(self.ask(1060, "GET", "/portal/session", device="02:00:00:00:00:09"), UNKNOWN)

    def test_the_details_of_open_sessions(self) -> None:
        self.assertEqual(self.ask(1000, "GET", "/gateway/sessions/details"), (200, '{"sessions":[]}'))
        for number, plan in enumerate(("minute", "cup", "both", "minute"), 1):
            self.open_short(1000 + number, plan, f"02:00:00:00:00:{5 - number:02}")
        self.close(1010, 1)
        self.assertEqual(self.ask(1062, "GET", "/gateway/sessions/details")[1].replace('"', "'"),
                         "{'sessions':[{'bytes-remaining':100,'device':'02:00:00:00:00:03','opened':1002,'plan':'cup','session':2},"
                         "{'bytes-remaining':100,'device':'02:00:00:00:00:02','opened':1003,'plan':'both','seconds-remaining':1,'session':3},"
                         "{'device':'02:00:00:00:00:01','opened':1004,'plan':'minute','seconds-remaining':2,'session':4}]}")
        self.assertEqual(re.findall(r'"session":([0-9]+)', self.ask(1063, "GET", "/gateway/sessions/details")[1]), ["2", "4"])

    def test_a_number_is_digits_alone(self) -> None:
        self.open_short(1000, "minute")
        for word in ("1", "01", "0" * 5000 + "1"):
            self.assertIn('"session":1,', self.ask(1000, "GET", "/desk/sessions/" + word)[1], word)
        for word in ("0", "2", "99", "9223372036854775807"):
            self.assertEqual(self.ask(1000, "GET", "/desk/sessions/" + word), UNKNOWN, word)
        for word in ("+1", "-1", "1x", "1.0", "%31", "1_0", "9223372036854775808", "9" * 5000, "\u0661"):
            self.assertEqual(self.ask(1000, "GET", "/desk/sessions/" + word), (400, '{"error":"bad_request"}'), word)
        for target in ("/desk/sessions/", "/desk/sessions/1/", "/gateway/sessions/1", "/portal/session/"):
            self.assertEqual(self.ask(1000, "GET", target), (404, '{"error":"no_route"}'), target)

    def test_a_device_is_in_a_query_once(self) -> None:
        bad_device = (400, '{"error":"bad_device"}')
        for query in ("", "?", "?device", "?device=", "?Device=" + GUEST, f"?device={GUEST}&device={GUEST}", f"?device={GUEST}&device",
                      "?device=" + GUEST.replace(":", "%3A"), "?device=02:00-00:00:00:01", "?device=020000000001", f"?device={GUEST}?"):
            self.assertEqual(self.ask(1000, "GET", "/desk/sessions" + query), bad_device, query)
        self.assertEqual(self.ask(1000, "GET", "/portal/session", device="x"), bad_device)

    # Batches, and vouchers by the first characters of their codes

    def issue(self, now: int, batch: str, plan: str = "hour", count: int = 1) -> list[str]:
        """A batch whose vouchers are not sold; its codes."""
        order = {"batch": batch, "plan": plan, "count": count}
        self.assertEqual(self.ask(now, "POST", "/desk/batches", order)[0], 200)
        lines = self.ask(now, "GET", f"/desk/batches/{batch}/print")[1].splitlines()[1:]
        return [line.partition(",")[0] for line in lines]

    def listed(self, query: str = "") -> tuple[list[str], bool]:
        """The ids of a list of batches, and whether there are more."""
        status, text = self.ask(9000, "GET", "/desk/batches" + query)
        self.assertEqual(status, 200, text)
        answer = json.loads(text)
        return [batch["batch"] for batch in answer["batches"]], answer["more"]

    def test_a_batch_with_its_vouchers(self) -> None:
        unsold, sold, back, half, used = self.issue(1000, "b1", "gig", 5)
        for code in (sold, back, half, used):
            self.ask(1100, "POST", "/desk/sales", {"code": code})
        for code, times in ((half, 1), (used, 3)):
            for number in range(times):
                self.assertEqual(self.redeem(1200, code, f"02:00:00:00:{times:02}:{number:02}")[0], 200)
        for code in (back, half):
            self.ask(1300, "POST", "/desk/refunds", {"code": code})
        state = ('"batch":"b1","count":5,"expires":2593000,"issued":1000,"plan":"gig","refunded":2,"sold":4,'
                 '"used-up":1')
        rows = ((unsold, 0, "null", "null"), (sold, 0, "null", 1100), (back, 0, 500, 1100),
                (half, 1, 333, 1100), (used, 3, "null", 1100))
        vouchers = ",".join(f'{{"code":"{code}","redeemed":{redeemed},"refund":{refund},"sold":{at}}}'
                            for code, redeemed, refund, at in rows)
        one, several = f'{{{state},"vouchers":[{vouchers}]}}', f'{{"batches":[{{{state}}}],"more":false}}'
        self.assertEqual(self.ask(9, "GET", "/desk/batches/b1"), (200, one))
        self.assertEqual(self.ask(9, "GET", "/desk/batches"), (200, several))

    def test_an_id_of_no_batch(self) -> None:
        self.issue(1000, "b1")
        for word in ("b2", "B1", "b1%20", "%62%31", "a" * 33, "\u00e9"):
            self.assertEqual(self.ask(9, "GET", "/desk/batches/" + word), NO_BATCH, word)
            self.assertEqual(self.ask(9, "GET", "/desk/batches?before=" + word), NO_BATCH, word)
        for query in ("?before=", "?before", "?limit=3&before=b2"):
            self.assertEqual(self.ask(9, "GET", "/desk/batches" + query), NO_BATCH, query)
        for target in ("/desk/batches/", "/desk/batches/b1/", "/desk/batches/b1/vouchers", "/desk/vouchers/"):
            self.assertEqual(self.ask(9, "GET", target), (404, '{"error":"no_route"}'), target)

    def test_the_batches_newest_first(self) -> None:
        self.assertEqual(self.listed(), ([], False))
        for now, batch in ((1000, "b2"), (1000, "b10"), (1000, "b1"), (2000, "a"), (500, "c"), (3000, "0")):
            self.issue(now, batch)
        order = ["0", "c", "a", "b2", "b10", "b1"]      # c has the time of the last command, 2000
        self.assertEqual(self.listed(), (order, False))
        for place, batch in enumerate(order):
            self.assertEqual(self.listed("?before=" + batch), (order[place + 1:], False))
            for limit in (1, 2, 5, 6, 20):
                self.assertEqual(self.listed(f"?limit={limit}"), (order[:limit], len(order) > limit))
                rest = order[place + 1:]
                answer = self.listed(f"?limit={limit}&x=2&before={batch}&limits=3")
                self.assertEqual(answer, (rest[:limit], len(rest) > limit))

    def test_a_list_has_twenty_batches_at_most(self) -> None:
        for number in range(21):
            self.assertEqual(self.listed(), ([f"b{place:02}" for place in reversed(range(number))], False))
            self.issue(1000 + number, f"b{number:02}")
        newest = [f"b{place:02}" for place in reversed(range(1, 21))]
        for query in ("", "?limit=20", "?limit=020"):
            self.assertEqual(self.listed(query), (newest, True), query)
        self.assertEqual(self.listed("?before=b01"), (["b00"], False))

    def test_a_limit_is_a_number_from_1_to_20(self) -> None:
        self.issue(1000, "b1")
        for word in ("", "0", "00", "21", "100", "120", "+1", "-1", "1x", "1.0", "%31", "1_0", "9" * 5000,
                     "\u0661"):
            self.assertEqual(self.ask(9, "GET", "/desk/batches?limit=" + word), BAD_REQUEST, word)
        for query in ("limit", "limit=1&limit=1", "limit=1&limit", "before=b1&before=b1", "before=b9&before",
                      "before=b9&limit=0"):
            self.assertEqual(self.ask(9, "GET", "/desk/batches?" + query), BAD_REQUEST, query)
        for query in ("limit=1", "limit=01", "limit=20", "Limit=0", "limit%3D=0", "before=b1", "Before=b9",
                      "x&&=", ""):
            self.assertEqual(self.ask(9, "GET", "/desk/batches?" + query)[0], 200, query)

    def test_vouchers_by_the_first_characters_of_their_codes(self) -> None:
        code, = self.bought(1000, "gig", "b1")
        self.issue(1000, "b2")
        shown = (f'{{"batch":"b1","code":"{code}","expires":2593000,"plan":"gig","redeemed":0,"refund":null,'
                 '"sold":1000,"uses":3}')
        signs = code.replace("-", "")
        for length in range(4, 16):
            start = signs[:length]
            for text in (start, start.lower(), "-".join(start) + "--", code[:length + (length - 1) // 4]):
                self.assertEqual(self.ask(9, "GET", "/desk/vouchers?prefix=" + text),
                                 (200, f'{{"more":false,"vouchers":[{shown}]}}'), text)
        self.assertEqual(json.loads(self.ask(9, "GET", f"/desk/vouchers/{code}")[1]), json.loads(shown))
        for text in (signs[1:5] + "2222", "2" * 15):
            answer = self.ask(9, "GET", f"/desk/vouchers?x=1&prefix={text}&Prefix=2")
            self.assertEqual(answer, (200, '{"more":false,"vouchers":[]}'), text)

    def test_fifty_vouchers_are_found_by_their_printed_codes(self) -> None:
        bodies = [[0, 0, 0, 0, *divmod(number, 31), *[0] * 9] for number in range(51)]
        codes = sorted(with_check_character(body) for body in bodies)
        short = with_check_character([0, 0, 0, 0, *[30] * 7])       # the last of all
        for count, more in ((49, False), (50, False), (51, True)):
            self.setUp()
            for batch, issued in (("old", [short]), ("new", list(reversed(codes[:count - 1])))):
                self.desk.model.act("issue", {"batch": batch, "plan": "hour", "codes": issued}, 1000)
            answer = json.loads(self.ask(9, "GET", "/desk/vouchers?prefix=2222")[1])
            listed = [voucher["code"] for voucher in answer["vouchers"]]
            self.assertEqual((listed, answer["more"]), ([*codes[:count - 1], short][:50], more))
        for text, found in (("2222ZZZZZZZ", [short]), (short[:-1], [short]), (short + "222", [])):
            answer = json.loads(self.ask(9, "GET", "/desk/vouchers?prefix=" + text)[1])
            self.assertEqual([voucher["code"] for voucher in answer["vouchers"]], found, text)

    def test_first_characters_are_4_to_15_of_those_of_codes(self) -> None:
        for query in ("", "?", "?prefix", "?prefix=", "?prefix=222", "?prefix=2-2-2", "?prefix=" + "2" * 16,
                      "?prefix=2220", "?prefix=222I", "?prefix=2222L", "?prefix=2222%2D2", "?prefix=2222+2",
                      "?prefix=2222_2", "?Prefix=2222", "?prefix=2222&prefix=2222", "?prefix=2222&prefix",
                      "?prefix==2222", "?prefix=22\u00b522", "?prefix=22\u017f2"):
            self.assertEqual(self.ask(9, "GET", "/desk/vouchers" + query), BAD_CODE, query)

    def test_the_order_of_the_checks_of_these_questions(self) -> None:
        for target, allow in (("/desk/batches?limit=0", "GET, POST"), ("/desk/batches/B", "GET"),
                              ("/desk/vouchers", "GET"), ("/desk/vouchers/x/redemptions", "GET")):
            head, text = self.raw(9, "PUT", target)
            self.assertEqual(text, '{"error":"bad_method"}', target)
            self.assertIn(f"\r\nAllow: {allow}\r\n", head, target)
            for fields in ((), ("Portal-Token: gate-token",), ("Portal-Token: desk-token",) * 2):
                self.assertEqual(self.raw(9, "GET", target, "", *fields)[1], '{"error":"forbidden"}', target)

    def redemption(self, at: int, device: str, session: int, extended: bool = False, is_open: bool = True) -> Json:
        """A redemption, as the desk lists it."""
        return {"at": at, "device": device, "extended": extended, "open": is_open, "session": session}

    def redemptions(self, at: int, code: str) -> tuple[list[Json], bool]:
        """The redemptions of a voucher as they are listed at a moment, and whether there are more."""
        status, text = self.ask(at, "GET", f"/desk/vouchers/{code}/redemptions")
        self.assertEqual(status, 200, text)
        answer = json.loads(text)
        return answer["redemptions"], answer["more"]

    def test_the_redemptions_of_a_voucher_newest_first(self) -> None:
        one, two, three = (f"02:00:00:00:00:{number:02}" for number in (1, 2, 3))
        several, hour = *self.bought(1000, "gig", "b1"), *self.bought(1000, "hour", "b2")
        self.assertEqual(self.redemptions(1000, several), ([], False))
        for at, device in ((1100, one), (1200, two), (1300, three)):
            self.assertEqual(self.redeem(at, several, device)[0], 200)
        self.assertEqual(self.redeem(1300, hour, "02:00:00:00:00:04")[0], 200)
        self.ask(1400, "POST", "/desk/closes", {"session": 2})
        listed = [self.redemption(1300, three, 3), self.redemption(1200, two, 2, is_open=False), self.redemption(1100, one, 1)]
        self.assertEqual(self.redemptions(1400, several), (listed, False))
        self.assertEqual(self.ask(9, "GET", f"/desk/vouchers/{hour.lower()}/redemptions"), (
            200, '{"more":false,"redemptions":[{"at":1300,"device":"02:00:00:00:00:04","extended":false,"open":true,"session":4}]}'))
        self.assertEqual([self.redemptions(at, hour)[0][0]["open"] for at in (4899, 4900)], [True, False])

    def test_a_redemption_extends_the_open_session_of_its_device(self) -> None:
        first, second, third = (self.bought(1000, "hour", batch)[0] for batch in ("b1", "b2", "b3"))
        device = "02:00:00:00:00:01"
        for at, code in ((1000, first), (1000, second), (8200, third)):
            self.assertEqual(self.redeem(at, code, device)[0], 200)
        for code, at, session, extended, is_open in ((first, 1000, 1, False, False), (second, 1000, 1, True, False), (third, 8200, 2, False, True)):
            self.assertEqual(self.redemptions(8200, code), ([self.redemption(at, device, session, extended, is_open)], False))

    def test_a_hundred_redemptions_are_listed(self) -> None:
        for count, more in ((99, False), (100, False), (101, True)):
            self.setUp()
            plan = {"id": "many", "price": 100, "uses": 101, "seconds": 60, "bytes": 0, "shelf_days": 1, "extend": True}
            code = with_check_character([0] * 15)
            self.desk.model.act("plans", {"plans": [plan]}, 1000)
            self.desk.model.act("issue", {"batch": "b1", "plan": "many", "codes": [code]}, 1000)
            self.desk.model.act("sell", {"code": code}, 1000)
            for number in range(count):
                self.desk.model.act("redeem", {"device": f"02:00:00:00:00:{number:02x}", "code": code}, 2000 + number)
            listed, told = self.redemptions(3000, code)
            self.assertEqual(([row["at"] for row in listed], told), ([2000 + number for number in reversed(range(count))][:100], more))

    def test_the_redemptions_of_no_voucher(self) -> None:
        for word, status, error in (("2222-2222-2222", 404, "unknown_code"), ("2222-2222-2223", 400, "bad_code"), ("x", 400, "bad_code")):
            for tail in ("", "/redemptions"):
                self.assertEqual(self.ask(9, "GET", f"/desk/vouchers/{word}{tail}"), (status, f'{{"error":"{error}"}}'))
        for target in ("/desk/vouchers/2222-2222-2222/redemptions/", "/desk/vouchers//redemptions", "/desk/vouchers/2222-2222-2222/redeemed"):
            self.assertEqual(self.ask(9, "GET", target), (404, '{"error":"no_route"}'), target)

    def test_a_numbered_request_acts_once(self) -> None:
        one, two, three = self.bought(1000, "hour", "b1", 3)
        for now in (1000, 5000):
            self.assertEqual(self.redeem(now, one, number="a1"), (200, '{"extended":false,"session":1,"uses_left":0}'))
        self.assertIn('"seconds-remaining":3600,', self.ask(900, "GET", "/captive")[1])
        self.assertEqual(self.redeem(1000, one, OTHER, number="a1"), (409, '{"error":"used_up"}'))
        self.assertEqual(self.redeem(1000, two, number="a1"), (409, '{"error":"id_reused"}'))
        self.ask(1000, "POST", "/desk/refunds", {"code": three})
        self.assertEqual(self.redeem(1000, three, number="b1"), (409, '{"error":"refunded"}'))
        self.assertEqual(self.redeem(1000, two, number="b1")[0], 200)   # a refused command leaves its number free
        for bad in ("a_1", "a" * 37):
            self.assertEqual(self.redeem(1000, two, number=bad), (400, '{"error":"bad_request"}'))

    def test_order_of_checks(self) -> None:
        token, device = "Portal-Token: desk-token", "Portal-Device: " + GUEST
        for method, target, fields, status, word in (
                ("POST", "/desk/sales", (), 403, "forbidden"),
                ("POST", "/desk/sales", (token, token), 403, "forbidden"),
                ("GET", "/desk//x", (), 404, "no_route"), ("GET", "/captive/", (device,), 404, "no_route"),
                ("DELETE", "/captive", (), 405, "bad_method"),
                ("GET", "/captive", (device, device), 400, "bad_device"),
                ("GET", "/captive", ("Portal-Device: 02:00-00:00:00:01",), 400, "bad_device"),
                ("GET", "/captive", ("Host: api", device), 400, "bad_request"),
                ("POST", "/desk/sales", ("Transfer-Encoding: chunked", token), 501, "not_supported"),
                ("POST", "/desk/sales", (token,), 400, "bad_request")):
            head, body = self.raw(1, method, target, "", *fields)
            self.assertEqual((int(head.split()[1]), body), (status, f'{{"error":"{word}"}}'), target)
        self.assertIn("\r\nAllow: GET\r\n", self.raw(1, "DELETE", "/captive")[0] + "\r\n")
        far = b"POST /desk/sales HTTP/1.0\r\nContent-Length: 65537\r\n\r\n"
        self.assertIn(b"413 Payload Too Large", self.desk.respond(1, far))

    def test_plans_repeated(self) -> None:
        other = PLANS.replace("price = 300", "price = 301")
        self.assertEqual(self.ask(1, "POST", "/desk/plans", PLANS), (200, '{"plans":2}'))
        many = PLANS.replace("uses = 1\n", "uses = 100001\n")
        for text, word in ((other, "plan_differs"), ("", "bad_plans"), (many, "bad_plans")):
            self.assertEqual(json.loads(self.ask(1, "POST", "/desk/plans", text)[1]), {"error": word})


if __name__ == "__main__":
    unittest.main()
