"""What the server takes from its machine: the time of each request, also after an idle minute, and a new seed for each batch. And what
the subcommands print where there is more than one: the takings of several days, the print file of one of two batches.

    clock.py PROGRAM [SECONDS]      SECONDS: how long the server idles; 60 if not given
"""

import json
import sys
import tempfile
import time
from email.utils import parsedate_to_datetime

from desk import DESK, PLANS, Desk, codes_of, guest, request

TOLERANCE = 2
ONE_DAY = 86_400
SEEDS = "0" * 64, "1" * 64


def date_of(desk):
    """The time that the response says, in seconds since 1970."""
    with desk.connect() as peer:
        peer.sendall(request("GET", "/captive", guest(1)))
        said = b"".join(iter(lambda: peer.recv(65536), b"")).decode()
    fields = dict(line.split(": ", 1) for line in said.split("\r\n\r\n")[0].split("\r\n")[1:])
    return parsedate_to_datetime(fields["Date"]).timestamp()


def check_date(desk, when):
    before = time.time()
    came = date_of(desk)
    after = time.time()
    if not before - TOLERANCE <= came <= after + TOLERANCE:
        sys.exit(f"outside: Date of a response {when}\n  expected: from {before:.0f} to {after:.0f}, or {TOLERANCE} s beside\n"
                 f"  came:     {came:.0f}")


def serves_by_its_clock(program, folder, idle):
    desk = Desk(program, folder)
    desk.start()
    try:
        check_date(desk, "of a server that has just started")
        batches_differ(desk)
        time.sleep(idle)
        check_date(desk, f"after {idle:.0f} idle seconds")
    finally:
        desk.kill()


def batches_differ(desk):
    desk.answer_to("POST", "/desk/plans", DESK, PLANS)
    for name in ("c1", "c2"):
        desk.answer_to("POST", "/desk/batches", DESK, json.dumps({"batch": name, "plan": "hour", "count": 100}))
    first, second = set(codes_of(desk, "c1")), set(codes_of(desk, "c2"))
    if len(first) != 100 or len(second) != 100 or first & second:
        sys.exit(f"outside: two batches of 100 codes that one server issued\n  expected: 200 codes\n  came:     {len(first | second)}")


def is_printed(desk, words, expected):
    done = desk.run(*words)
    if (done.returncode, done.stdout, done.stderr) != (0, expected, ""):
        sys.exit(f"outside: portal {' '.join(words)}\n  expected: {(0, expected, '')}\n  came:     "
                 f"{(done.returncode, done.stdout, done.stderr)}")


def prints_one_of_several(program, folder):
    """Two batches of two codes. A voucher is sold on each of three days, for 3.00, and the last one is refunded on the third."""
    desk = Desk(program, folder)

    def ask(now, seed, path, body):
        done = desk.run("answer", "--now", str(now), "--seed", seed, data=request("POST", path, DESK, body))
        assert done.returncode == 0, (path, body, done)

    ask(0, SEEDS[0], "/desk/plans", PLANS)
    codes = []
    for name, seed in zip(("b1", "b2"), SEEDS):
        ask(1000, seed, "/desk/batches", json.dumps({"batch": name, "plan": "hour", "count": 2}))
        lines = desk.run("print", name).stdout.splitlines()
        codes.append([line.split(",")[0] for line in lines[1:]])
        assert len(codes[-1]) == 2, lines
    if set(codes[0]) & set(codes[1]):
        sys.exit(f"outside: the print files of two batches\n  expected: four codes\n  came:     {codes}")
    for day, code in enumerate((codes[0][0], codes[1][0], codes[1][1])):
        ask(1000 + day * ONE_DAY, SEEDS[0], "/desk/sales", json.dumps({"code": code}))
    ask(2000 + 2 * ONE_DAY, SEEDS[0], "/desk/refunds", json.dumps({"code": codes[1][1]}))
    head = "code,plan,seconds,bytes,price,expires\n"
    for number, name in enumerate(("b1", "b2")):
        rows = "".join(f"{code},hour,3600,,3.00,1970-01-31 00:16\n" for code in codes[number])
        is_printed(desk, ("print", name), head + rows)
    is_printed(desk, ("takings", "1970-01-01", "1970-01-03"),
               "day            sold             sales refunded           refunds\n"
               "1970-01-01        1              3.00        0              0.00\n"
               "1970-01-02        1              3.00        0              0.00\n"
               "1970-01-03        1              3.00        1              3.00\n"
               "total             3              9.00        1              3.00\n"
               "net 6.00\n")


def main():
    program, idle = sys.argv[1], float(sys.argv[2]) if len(sys.argv) > 2 else 60.0
    with tempfile.TemporaryDirectory() as folder:
        prints_one_of_several(program, folder)
    with tempfile.TemporaryDirectory() as folder:
        serves_by_its_clock(program, folder, idle)
    print(f"outside: the server's time is the clock's, also after {idle:.0f} idle seconds; two batches have different codes; "
          "takings of three days, print files of two batches")


main()
