"""The API description against itself, against the table of routes and that of refusals, and against a desk's answers.

Run by itself it takes FIELD_PORTAL for the desk; else the stand-in answers.
"""

from __future__ import annotations

import json
import re
import time
import unittest
from collections.abc import Iterator
from typing import Any

from desk_process import FIELD, PLANS, DeskProcess, Refused, Routes
from needs import needs

from portal_field.lib.refusals import BY_WORD, TABLE

DESCRIPTION = FIELD.parent / "docs/openapi.yaml"        # of the repository; a kit that is installed alone has none
ANYWHERE = {"no_route", "bad_method"}       # answers to what is no route of the table
ONE, TWO, THREE = ("02:00:00:00:00:01", "02:00:00:00:00:02", "02:00:00:00:00:03")
UNKNOWN = "2222-2222-2222-2222"
PARAMETER = re.compile(r"\{[a-z]+\}")


def walk(node: Any, path: tuple[Any, ...] = ()) -> Iterator[tuple[tuple[Any, ...], Any]]:
    yield path, node
    if isinstance(node, (dict, list)):
        for key, value in node.items() if isinstance(node, dict) else enumerate(node):
            yield from walk(value, (*path, key))


@unittest.skipUnless(DESCRIPTION.is_file(), "docs/openapi.yaml is not here: the kit stands outside its repository")
@needs("python3-yaml", "python3-jsonschema")
class Described(unittest.TestCase):
    api: dict[str, Any]
    seen: dict[tuple[Routes, int], int]

    @classmethod
    def setUpClass(cls) -> None:
        import yaml
        cls.api = yaml.safe_load(DESCRIPTION.read_text())
        cls.seen = {}

    def target(self, node: Any) -> Any:
        while isinstance(node, dict) and "$ref" in node:
            goal = self.api
            for part in node["$ref"].removeprefix("#/").split("/"):
                goal = goal[part.replace("~1", "/")]
            node = goal
        return node

    def operation(self, route: Routes) -> dict[str, Any]:
        paths = {PARAMETER.sub("{}", path): item for path, item in self.api["paths"].items()}
        operation: dict[str, Any] = paths[route.path][route.method.lower()]
        return operation

    def check(self, schema: Any, value: Any) -> None:
        import jsonschema
        holder = {"$ref": "#/$defs/it", "$defs": {"it": schema}, "components": self.api["components"]}
        faults = [fault.message for fault in jsonschema.Draft202012Validator(holder).iter_errors(value)]
        self.assertEqual(faults, [], value)

    def test_references_and_schemas(self) -> None:
        import jsonschema
        used = set()
        for path, node in walk(self.api):
            if isinstance(node, dict) and "$ref" in node:
                self.assertIsNotNone(self.target(node), path)
                used.add(node["$ref"])
            if path and path[-1] == "schema" or len(path) == 3 and path[:2] == ("components", "schemas"):
                jsonschema.Draft202012Validator.check_schema(node)
        for kind in ("schemas", "parameters"):
            for name in self.api["components"][kind]:
                self.assertIn(f"#/components/{kind}/{name}", used)

    def test_the_table_of_routes(self) -> None:
        described = {(method.upper(), path) for path, item in self.api["paths"].items() for method in item}
        self.assertEqual(len(described), 20)
        self.assertEqual(len(Routes), 20)
        paths = {(method, PARAMETER.sub("{}", path)) for method, path in described}
        self.assertEqual(paths, {(route.method, route.path) for route in Routes})
        names = set()
        for route in Routes:
            operation = self.operation(route)
            names.add(operation["operationId"])
            self.assertEqual(operation["tags"], [route.caller])
            security = "device" if route.caller == "guest" else route.caller
            self.assertEqual(operation["security"], [{security: []}])
            parameters = [self.target(node) for node in operation.get("parameters", [])]
            self.assertEqual("Portal-Request" in [p["name"] for p in parameters], route.acts, route)
            self.assertEqual(len([p for p in parameters if p["in"] == "path"]), route.path.count("{}"))
            self.assertEqual("requestBody" in operation, route.method == "POST")
        self.assertEqual(names, {route.name.lower() for route in Routes})

    def test_the_table_of_refusals(self) -> None:
        described = self.api["components"]["schemas"]["Refusal"]["properties"]["error"]["enum"]
        self.assertEqual(described, [refusal.word for refusal in TABLE])
        result = set(ANYWHERE)
        for route in Routes:
            for status, node in self.operation(route)["responses"].items():
                words = self.target(node).get("x-refusals", [])
                self.assertEqual({BY_WORD[word].status for word in words}, {int(status)} if words else set(), route)
                self.assertEqual(bool(words), status != "200")
                result |= set(words)
            self.assertIn("bad_request", self.target(self.operation(route)["responses"]["400"])["x-refusals"])
            self.assertEqual("409" in self.operation(route)["responses"], route.acts, route)
        self.assertEqual(result, set(described))

    # A desk's answers

    def fits(self, route: Routes, status: int, text: bytes) -> None:
        answer = self.target(self.operation(route)["responses"][str(status)])
        (media, content), = answer["content"].items()
        self.check(content["schema"], json.loads(text) if "json" in media else text.decode())
        if status != 200:
            self.assertIn(json.loads(text)["error"], answer["x-refusals"], route)
        self.seen[route, status] = self.seen.get((route, status), 0) + 1

    def ask(self, desk: DeskProcess, token: str | None, route: Routes, *part: str, **more: Any) -> None:
        asker = desk.desk if token == "desk" else desk.gateway
        asker = type(asker)(desk.port, asker.token if token else None)
        try:
            self.fits(route, 200, asker.request(route, *part, **more))
        except Refused as refused:
            self.fits(route, refused.status, json.dumps({"error": refused.word}).encode())

    def test_live_answers_fit(self) -> None:
        with DeskProcess() as desk:
            self.sell_and_redeem(desk)
            self.look_and_close(desk)
        self.assertEqual({route for route, status in self.seen if status == 200}, set(Routes))
        self.assertGreaterEqual(len(self.seen), 30)
        words = {status for _, status in self.seen}
        self.assertEqual(words, {200, 400, 403, 404, 409})      # 410, 413, 501, 503: another clock, bytes, faults

    def sell_and_redeem(self, desk: DeskProcess) -> None:
        for text in (PLANS, PLANS.replace(b"price = 300", b"price = 301"), b"plan = []"):
            self.ask(desk, "desk", Routes.PLANS, body=text)
        self.ask(desk, "gateway", Routes.PLANS, body=PLANS)
        self.ask(desk, "desk", Routes.ISSUE, body={"batch": "B", "plan": "hour", "count": 1})
        for batch, plan in (("b1", "hour"), ("b2", "gigabyte"), ("b1", "hour"), ("b3", "none")):
            self.ask(desk, "desk", Routes.ISSUE, body={"batch": batch, "plan": plan, "count": 2})
        for batch in ("b1", "b9", "B"):
            self.ask(desk, "desk", Routes.PRINT, batch)
        lines = desk.desk.request(Routes.PRINT, "b1").decode().splitlines()
        self.one, self.two = (line.partition(",")[0] for line in lines[1:])
        for code in (self.one, self.one, self.two, UNKNOWN, "x"):
            self.ask(desk, "desk", Routes.SELL, body={"code": code})
        for code, number in ((self.one, "n1"), (self.one, "n1"), (self.two, "n1"), (self.one, None), (UNKNOWN, None),
                             ("x", None)):
            self.ask(desk, None, Routes.REDEEM, body={"code": code}, device=ONE, number=number)
        self.ask(desk, None, Routes.REDEEM, body={"code": self.two}, number="n1")
        code = desk.sell_codes("gigabyte", "b4")[0]
        self.ask(desk, None, Routes.REDEEM, body={"code": code}, device=TWO)

    def look_and_close(self, desk: DeskProcess) -> None:
        for device in (ONE, TWO, THREE, None):
            self.ask(desk, None, Routes.CAPTIVE, device=device)
        for code in (self.two, self.two, self.one, UNKNOWN, "x"):
            self.ask(desk, "desk", Routes.REFUND, body={"code": code})
        for code in (self.one, self.two, UNKNOWN, "x"):
            self.ask(desk, "desk", Routes.VOUCHER, code)
            self.ask(desk, "desk", Routes.REDEMPTIONS, code)
        self.ask_of_batches(desk)
        for token in ("gateway", "desk"):
            self.ask(desk, token, Routes.SESSIONS)
        for body in ({"session": 1, "bytes": 7}, {"session": 99, "bytes": 7}, {"session": 1}):
            self.ask(desk, "gateway", Routes.REPORT, body=body)
        self.ask_of_sessions(desk)
        for session in (1, 1, 99):
            self.ask(desk, "desk", Routes.CLOSE, body={"session": session})
        self.ask_of_sessions(desk)
        day = time.strftime("%Y-%m-%d", time.gmtime())
        for query in ({"from": day, "to": day}, {"from": day}):
            self.ask(desk, "desk", Routes.TAKINGS, query=query)

    def ask_of_batches(self, desk: DeskProcess) -> None:
        for query in ({}, {"limit": "1"}, {"before": "b2"}, {"limit": "0"}, {"before": "b9"}):
            self.ask(desk, "desk", Routes.BATCH_LIST, query=query)
        for batch in ("b1", "b2", "b9", "B"):
            self.ask(desk, "desk", Routes.BATCH, batch)
        for prefix in (self.one[:4], UNKNOWN[:9], "x"):
            self.ask(desk, "desk", Routes.VOUCHERS, query={"prefix": prefix})
        for route, part in ((Routes.BATCH_LIST, ()), (Routes.BATCH, ("b1",)), (Routes.VOUCHERS, ()), (Routes.REDEMPTIONS, (UNKNOWN,))):
            self.ask(desk, "gateway", route, *part)

    def ask_of_sessions(self, desk: DeskProcess) -> None:
        for token in ("gateway", "desk"):
            self.ask(desk, token, Routes.SESSION_DETAILS)
        for number in ("1", "2", "99", "x"):
            self.ask(desk, "desk", Routes.SESSION, number)
        self.ask(desk, "gateway", Routes.SESSION, "1")
        for device in (ONE, TWO, THREE, None):
            self.ask(desk, None, Routes.OWN_SESSION, device=device)
            self.ask(desk, "desk", Routes.LAST_SESSION, query={"device": device or "x"})
        self.ask(desk, "gateway", Routes.LAST_SESSION)


if __name__ == "__main__":
    unittest.main()
