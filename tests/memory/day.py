"""A day of requests to one server, of which each request for memory is refused in turn. Each request is answered as with memory, or
no_memory, or its connection is cut off; then it is sent again, and in the end all of it stands in the file once."""

import datetime
import os
import subprocess
import sys

from desk import DESK, GATEWAY, PLANS, Broken, Desk, guest
from refusing import LIBRARY, environment, folder


class Server(Desk):
    """A server of which one request for memory is refused."""

    def begin(self, at):
        """Whether it listens."""
        how = {"cwd": self.folder, "stdout": subprocess.PIPE, "stderr": subprocess.PIPE, "text": True}
        words = self.words("serve", "--port", str(self.port))
        self.process = subprocess.Popen(words, env=environment(at, self.log_path()), **how)
        line = self.process.stdout.readline()
        if line == f"listening 127.0.0.1:{self.port}\n":
            return True
        self.process.wait()
        errors = self.process.stderr.read()
        assert (self.process.returncode, line) == (3, "") and errors in ("portal: no_memory\n", "portal: cut\n"), (at, line, errors)
        self.end()
        return False

    def log_path(self):
        return os.path.join(self.folder, "said")

    def end(self):
        self.process.kill()
        self.process.wait()
        self.process.stdout.close()
        self.process.stderr.close()

    def ask_twice(self, wanted, *words, **more):
        """The body of the response, at the second try where there was no memory for the first."""
        for _ in range(2):
            try:
                status, body = self.ask(*words, **more)
            except Broken:
                continue
            if status != 503:
                assert status == 200 and wanted in body, (words, status, body)
                return body
            assert body == '{"error":"no_memory"}', (words, status, body)
        raise AssertionError(words)


def day(desk):
    """The requests in their order. Commands are numbered: one that was carried out before it was cut off takes effect once."""
    ask, first_day = desk.ask_twice, datetime.datetime.now(datetime.timezone.utc).date() - datetime.timedelta(1)
    ask('{"plans":1}', "POST", "/desk/plans", DESK, PLANS)
    ask('{"batch":"b1","count":2,', "POST", "/desk/batches", DESK, '{"batch":"b1","plan":"hour","count":2}', number="n1")
    sheet = ask("code,plan,seconds,bytes,price,expires\n", "GET", "/desk/batches/b1/print", DESK)
    first, second = [line.split(",")[0] for line in sheet.splitlines()[1:]]
    for number, code in (("n2", first), ("n3", second)):
        ask('"price":300}', "POST", "/desk/sales", DESK, '{"code":"%s"}' % code, number=number)
    ask('{"captive":true,', "GET", "/captive", guest(1))
    for number, left in (("n1", 2), ("n2", 1), ("n1", 2)):
        ask('"session":1,"uses_left":%d}' % left, "POST", "/portal/redeem", guest(1), '{"code":"%s"}' % first, number=number)
    ask('"captive":false,', "GET", "/captive", guest(1))
    ask('{"open":true,"session":1,"used":7}', "POST", "/gateway/reports", GATEWAY, '{"session":1,"bytes":7}', number="n1")
    ask('"session":1}]}', "GET", "/gateway/sessions", GATEWAY)
    ask('{"amount":300,', "POST", "/desk/refunds", DESK, '{"code":"%s"}' % second, number="n4")
    ask('{"session":1}', "POST", "/desk/closes", DESK, '{"session":1}', number="n5")
    ask('"redeemed":2,"refund":null,', "GET", f"/desk/vouchers/{first}", DESK)
    ask('"redeemed":0,"refund":300,', "GET", f"/desk/vouchers/{second}", DESK)
    last_day = first_day + datetime.timedelta(2)
    ask("\nnet 3.00\n", "GET", f"/desk/takings?from={first_day}&to={last_day}", DESK)


def refuse(program, at):
    """A day with the request for memory of that number refused. False where there were not so many."""
    with folder() as room:
        desk = Server(program, room)
        if not desk.begin(at):
            assert desk.begin(None)
        try:
            day(desk)
        finally:
            desk.end()
        is_refused = os.path.exists(desk.log_path())
        audit = desk.run("check")
        assert (audit.returncode, audit.stdout) == (0, "ok\n"), (at, audit)
        return is_refused


def main():
    program, LIBRARY["path"] = sys.argv[1:3]
    at = 1
    while refuse(program, at):
        at += 1
    print(f"memory: a day of requests to one server: {at - 1} requests for memory, each refused")


main()
