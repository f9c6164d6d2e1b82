"""portal-settings.service: what it writes, and what it refuses; and the page of the own account, which asks it."""

from __future__ import annotations

import contextlib
import hashlib
import io
import json
import os
import pathlib
import socket
import stat
import tempfile
import threading
import time
import unittest
from collections.abc import Callable
from dataclasses import replace
from typing import Any
from unittest import mock

from at_entrance import WORDS, Answer, ClerksBrowser, logins_in, put_accounts, quick_hash
from test_counter import AtCounter
from test_front import UnixLink, serve_during_test

from portal_field.counter import settings_client
from portal_field.counter.page import pages
from portal_field.lib import passwords, web
from portal_field.settings import writer
from portal_field.settings.accounts import CLERK, FILE, MANAGER, Account, Accounts

NEW = quick_hash("a-new-long-word")


class Writes(unittest.TestCase):
    """A writer over a folder of its own."""

    def setUp(self) -> None:
        self.folder = pathlib.Path(self.enterContext(tempfile.TemporaryDirectory()))
        self.accounts = put_accounts(self.folder)
        self.path, self.clock = self.folder / FILE, [100.0]
        self.writer = writer.Writer(self.folder, lambda: self.clock[0])
        self.log = io.StringIO()
        self.enterContext(contextlib.redirect_stderr(self.log))

    def request(self, accounts: Accounts, who: str = "anna", **changed: object) -> bytes:
        """The bytes of a request that has these accounts written."""
        was = hashlib.sha256(self.path.read_bytes()).hexdigest() if self.path.is_file() else ""
        fields: dict[str, object] = {"kind": "clerks", "text": accounts.text, "was": was, "who": who, "password": WORDS[who]}
        return json.dumps(fields | changed).encode()

    def answer(self, accounts: Accounts, who: str = "anna", **changed: object) -> str:
        return str(self.writer.answer(self.request(accounts, who, **changed))["answer"])

    def own(self, name: str, **changed: str) -> Accounts:
        """The accounts with something of one of them changed."""
        return self.accounts.having(replace(self.accounts[name], **changed))


class Done(Writes):
    def test_a_clerk_has_the_own_password_and_pin_written(self) -> None:
        text = self.path.read_text()
        for changed in ({"password": NEW}, {"pin": quick_hash("1357")}, {"pin": ""}):
            put_accounts(self.folder)
            new = self.own("ben", **changed)
            self.assertEqual(self.answer(new, "ben"), "done")
            self.assertEqual(Accounts.read(self.path.read_text()), new)
            self.assertEqual([path.name for path in sorted(self.folder.iterdir())], [FILE, f"{FILE}.before"])
            self.assertEqual(self.path.with_name(f"{FILE}.before").read_text(), text, "the file of before is kept")
        self.assertEqual(stat.S_IMODE(self.path.stat().st_mode), 0o640)
        self.assertIn("settings: ben, clerks: done", self.log.getvalue())

    def test_a_manager_has_every_account_written(self) -> None:
        for new in (self.accounts.having(Account("eva", CLERK, NEW)), self.own("ben", role=MANAGER), self.own("ben", password=NEW),
                    Accounts(anna=self.accounts["anna"])):
            put_accounts(self.folder)
            self.assertEqual(self.answer(new), "done")
            self.assertEqual(Accounts.read(self.path.read_text()), new)

    def test_a_reader_sees_the_old_file_or_the_new_one(self) -> None:
        """It is written beside the name, to the disk, and then renamed; the folder goes to the disk, too."""
        seen: list[object] = []
        fsync, rename = os.fsync, os.rename

        def synced(number: int) -> None:
            seen.append("folder" if stat.S_ISDIR(os.fstat(number).st_mode) else "file")
            fsync(number)

        def renamed(old: str, new: str, **more: Any) -> None:
            seen.append((old, new))
            self.assertEqual(self.path.read_text(), self.accounts.text)
            rename(old, new, **more)

        with mock.patch("os.fsync", synced), mock.patch("os.rename", renamed):
            self.assertEqual(self.answer(self.own("ben", pin="")), "done")
        before = f"{FILE}.before"
        self.assertEqual(seen, ["file", (f".{before}.part", before), "folder", "file", (f".{FILE}.part", FILE), "folder"])


class Refused(Writes):
    """Each leaves the file as it was."""

    def tearDown(self) -> None:
        self.assertEqual([path.name for path in self.folder.iterdir() if path.name.endswith(".part")], [])

    def refuses(self, word: str, data: bytes) -> None:
        before = self.path.read_bytes()
        self.assertEqual(self.writer.answer(data)["answer"], word, data[:200])
        self.assertEqual(self.path.read_bytes(), before)

    def test_what_is_no_request(self) -> None:
        good = json.loads(self.request(self.own("ben", pin="")))
        self.assertEqual(good.keys(), writer.KEYS)
        for data in (b"", b"{", b"[]", b"null", b"\xff", b"[" * 5000, b'{"kind": "clerks"}', json.dumps(good | {"path": "/etc/passwd"}).encode(),
                     *(json.dumps({key: good[key] for key in good if key != name}).encode() for name in good),
                     *(json.dumps(good | {name: value}).encode() for name in good for value in (1, None, ["x"], {"x": "y"})),
                     json.dumps(good | {"text": "\ud800"}).encode()):
            self.refuses("bad_request", data)

    def test_kinds_and_paths_that_it_does_not_know(self) -> None:
        for kind in ("texts", "texts/", "", "clerks.toml", "../clerks", "/etc/passwd", "clerks\0", "clerks/../x", "CLERKS", ".clerks.toml.part"):
            self.refuses("unknown_kind", self.request(self.own("ben", pin=""), kind=kind))
        self.assertEqual([path.name for path in self.folder.iterdir()], [FILE])

    def test_a_text_that_is_too_long(self) -> None:
        for text in ("# " + "x" * 60_000, "# " + "ü" * 30_001):
            self.refuses("too_large", self.request(self.accounts, text=text))

    def test_a_wrong_password_and_whose_it_is_not(self) -> None:
        for who, word in (("anna", ""), ("anna", "wrong"), ("anna", WORDS["ben"]), ("ben", WORDS["anna"]), ("nobody", WORDS["anna"]),
                          ("", ""), ("ben", "2468")):
            self.refuses("wrong_password", self.with_who(self.own("ben", pin=""), who, word))

    def with_who(self, accounts: Accounts, who: str, word: str) -> bytes:
        return json.dumps(json.loads(self.request(accounts)) | {"who": who, "password": word}).encode()

    def test_tries_are_limited(self) -> None:
        new = self.own("ben", pin="")
        for _ in range(5):
            self.refuses("wrong_password", self.with_who(new, "anna", "guess"))
        result = self.writer.answer(self.request(new))
        self.assertEqual((result["answer"], result.get("seconds")), ("wait", 30), "the right one is not tried either")
        self.assertEqual(self.answer(new, "ben"), "done", "another person's is")
        self.clock[0] += 31
        self.assertEqual(self.answer(self.accounts), "done")

    def test_what_a_clerk_may_not_change(self) -> None:
        eva = Account("eva", CLERK, NEW)
        for new in (self.own("ben", role=MANAGER), self.own("ben", role=MANAGER, password=NEW), self.own("anna", password=NEW),
                    self.own("anna", pin=NEW), self.own("anna", role=CLERK).having(replace(self.accounts["ben"], role=MANAGER)),
                    self.accounts.having(eva), Accounts(anna=self.accounts["anna"]),
                    Accounts(anna=self.accounts["anna"], ben2=replace(self.accounts["ben"], name="ben2")),
                    Accounts(anna=self.accounts["anna"], eva=eva)):
            self.refuses("not_allowed", self.request(new, "ben"))

    def test_a_file_that_is_not_what_it_must_be(self) -> None:
        for text in ("", "x", "[[clerk]]\n", self.own("anna", role=CLERK).text, self.accounts.text.replace("clerk", "owner"),
                     self.accounts.text + self.accounts.text, self.accounts.text + "[[other]]\n",
                     self.accounts.text.replace(self.accounts["ben"].password, "")):
            self.refuses("bad_file", self.request(self.accounts, text=text))

    def test_a_file_that_was_changed_by_hand_meanwhile(self) -> None:
        request = self.request(self.own("ben", pin=""))
        self.path.write_text(self.path.read_text() + "# a word by hand\n")
        self.refuses("changed_meanwhile", request)
        for was in ("", "x", hashlib.sha256(b"").hexdigest()):
            self.refuses("changed_meanwhile", self.request(self.own("ben", pin=""), was=was))

    def test_a_file_that_is_changed_while_it_writes(self) -> None:
        request, check = self.request(self.own("ben", pin="")), writer.KINDS["clerks"].check

        def changes(who: Account, before: str, after: str) -> None:
            check(who, before, after)
            self.path.write_text(before + "# by hand, just now\n")

        with mock.patch.dict(writer.KINDS, clerks=replace(writer.KINDS["clerks"], check=changes)):
            self.assertEqual(self.writer.answer(request)["answer"], "changed_meanwhile")
        self.assertIn("# by hand, just now", self.path.read_text())

    def test_links_and_what_is_no_file(self) -> None:
        request, other = self.request(self.own("ben", pin="")), self.folder / "elsewhere"
        text = self.path.read_text()
        makes: list[Callable[[], object]] = [lambda: self.path.symlink_to(other), lambda: os.mkfifo(self.path), self.path.mkdir, lambda: None]
        for make in makes:
            self.path.unlink() if self.path.exists() and not self.path.is_dir() else None
            other.write_text(text)
            make()
            self.assertEqual(self.writer.answer(request)["answer"], "no_file")
            self.assertEqual(other.read_text(), text)
            with contextlib.suppress(OSError):
                self.path.rmdir()
            self.path.unlink(missing_ok=True)

    def test_links_under_the_names_that_it_writes(self) -> None:
        other = self.folder / "elsewhere"
        for name in (f".{FILE}.part", f"{FILE}.before", f".{FILE}.before.part"):
            other.write_text("kept")
            (self.folder / name).unlink(missing_ok=True)
            (self.folder / name).symlink_to(other)
            put_accounts(self.folder)
            self.assertEqual(self.answer(self.own("ben", pin="")), "done", name)
            self.assertEqual(other.read_text(), "kept", name)
            self.assertFalse((self.folder / name).is_symlink())
            self.assertFalse(self.path.is_symlink())

    def test_a_folder_that_is_a_link(self) -> None:
        place = self.folder / "link"
        place.symlink_to(self.folder)
        self.writer.folder = place
        self.assertEqual(self.answer(self.own("ben", pin="")), "not_written")

    def test_a_disk_that_is_full(self) -> None:
        with mock.patch("os.fsync", mock.Mock(side_effect=OSError(28, "No space left on device"))):
            answer = self.writer.answer(self.request(self.own("ben", pin="")))
        self.assertEqual((answer["answer"], "No space left" in answer["why"]), ("not_written", True))
        self.assertEqual(Accounts.read(self.path.read_text()), self.accounts)

    def test_no_password_and_no_hash_is_in_its_log(self) -> None:
        self.answer(self.own("ben", pin=""), "ben")
        self.writer.answer(self.with_who(self.accounts, "nobody-by-this-name", "a-typed-word"))
        for word in (*WORDS.values(), "scrypt", "a-typed-word", "nobody-by-this-name"):
            self.assertNotIn(word, self.log.getvalue())


class Socket(Writes):
    """Over its socket."""

    def setUp(self) -> None:
        super().setUp()
        self.socket = self.folder / "socket"
        door = self.enterContext(socket.socket(socket.AF_UNIX))
        door.bind(str(self.socket))
        door.listen()
        self.enterContext(mock.patch.object(writer, "PATIENCE", 1.0))
        threading.Thread(target=self.serve, args=(door,), daemon=True).start()

    def serve(self, door: socket.socket) -> None:
        with contextlib.suppress(OSError):
            writer.serve(self.writer, door)

    def send(self, data: bytes, ends: bool = True) -> dict[str, Any]:
        with socket.socket(socket.AF_UNIX) as link:
            link.settimeout(60)
            link.connect(str(self.socket))
            with contextlib.suppress(OSError):
                link.sendall(data)
                if ends:
                    link.shutdown(socket.SHUT_WR)
            answer = b""
            with contextlib.suppress(OSError):
                while piece := link.recv(65536):
                    answer += piece
        return dict(json.loads(answer)) if answer else {}

    def test_it_answers_one_after_another(self) -> None:
        self.assertEqual(self.send(b"{")["answer"], "bad_request")
        self.assertEqual(self.send(self.request(self.own("ben", pin="")))["answer"], "done")

    def test_a_request_without_end_and_one_that_is_too_long(self) -> None:
        start = time.monotonic()
        self.assertEqual(self.send(b"{", ends=False)["answer"], "bad_request")
        self.assertGreater(time.monotonic() - start, 0.9)
        self.assertIn(self.send(b"x" * (writer.MOST_REQUEST + 100_000)).get("answer", "too_large"), ("too_large",))
        self.assertEqual(self.send(self.request(self.own("ben", pin="")))["answer"], "done")

    def test_another_users_process_is_not_answered(self) -> None:
        with mock.patch("os.geteuid", return_value=12345), mock.patch.object(writer, "struct") as packed:
            packed.unpack.return_value = (1, 999, 999)
            self.assertEqual(self.send(self.request(self.own("ben", pin="")))["answer"], "not_allowed")
        self.assertEqual(Accounts.read(self.path.read_text()), self.accounts)

    def test_the_client_says_what_came_of_it(self) -> None:
        path, text = str(self.socket), self.accounts.text
        done = settings_client.write(path, "clerks", text, self.own("ben", pin="").text, "ben", WORDS["ben"])
        self.assertEqual(done.word, "done")
        again = settings_client.write(path, "clerks", text, self.own("ben", pin="").text, "ben", WORDS["ben"])
        self.assertEqual(again.word, "changed_meanwhile")
        self.assertEqual(settings_client.write(path + "x", "clerks", text, text, "ben", "x").word, "no_answer")


class AtAccounts(AtCounter):
    """The pages of accounts, with a writer behind them."""

    def setUp(self) -> None:
        super().setUp()
        self.log = io.StringIO()
        self.enterContext(contextlib.redirect_stderr(self.log))
        self.accounts = put_accounts(self.folder)
        self.conf["settings_socket"] = str(self.folder / "settings")
        self.door = self.enterContext(socket.socket(socket.AF_UNIX))
        self.door.bind(self.conf["settings_socket"])
        self.door.listen()
        self.writer = writer.Writer(self.folder)
        threading.Thread(target=self.serve, daemon=True).start()
        self.logins = logins_in(self.folder)
        self.entrance = self.folder / "entrance"
        serve_during_test(self, pages(self.counter, self.logins), web.listening(str(self.entrance)))

    def serve(self) -> None:
        with contextlib.suppress(OSError):
            writer.serve(self.writer, self.door)

    def browser(self, name: str = "ben", word: str = "") -> ClerksBrowser:
        browser = ClerksBrowser(lambda: UnixLink(self.entrance))
        self.assertEqual(browser.log_in(name, word).status, 303)
        return browser

    def now(self, name: str = "ben") -> Account:
        return Accounts.read((self.folder / FILE).read_text())[name]

    def acts(self) -> list[tuple[str, str, str]]:
        return [(str(who), str(act), str(answer)) for who, act, answer in self.journal.asked(
            "SELECT clerk, act, answer FROM acts WHERE act IN ('password', 'pin') ORDER BY number")]


class OwnAccount(AtAccounts):
    def test_an_own_password_is_changed_with_the_old_one(self) -> None:
        browser, other = self.browser(), self.browser()
        answer = browser.post("/password", old=WORDS["ben"], new="a new word for ben", again="a new word for ben")
        self.assertEqual((answer.status, answer.told.strip()), (200, "Your password is changed."))
        self.assertTrue(passwords.fits("a new word for ben", self.now().password))
        self.assertRegex(self.now().password, r"\A\$scrypt\$ln=14,r=8,p=1\$")
        self.assertEqual(browser.ask("/").status, 200, "the log-in goes on")
        self.assertEqual(other.ask("/").place, "/login", "others of this account end")
        self.browser(word="a new word for ben")
        self.assertEqual(self.acts(), [("ben", "password", "done")])

    def test_an_own_pin_is_chosen_with_the_password(self) -> None:
        browser = self.browser("anna")
        self.assertIn("none yet", browser.ask("/account").text)
        answer = browser.post("/pin", password=WORDS["anna"], pin="13579", pin2="13579")
        self.assertEqual((answer.status, answer.told.strip()), (200, "Your PIN is changed."))
        self.assertTrue(passwords.fits("13579", self.now("anna").pin))
        self.assertEqual(self.now("anna").role, MANAGER)
        browser.post("/lock")
        self.assertIn("PIN or password of anna", browser.ask("/lock").text)
        self.assertEqual(browser.post("/unlock", pin="13579").status, 303)

    def test_what_is_refused_is_said_at_its_field(self) -> None:
        browser, good = self.browser(), "a new word for ben"
        cases: tuple[tuple[str, dict[str, str], int, str, str], ...] = (
                ("/password", {"old": WORDS["ben"], "new": "nine-sign", "again": "nine-sign"}, 400, "10 to 200 characters", "new"),
                ("/password", {"old": WORDS["ben"], "new": good, "again": good + "x"}, 400, "must be the same", "again"),
                ("/password", {"old": "wrong", "new": good, "again": good}, 401, "This password is wrong.", "old"),
                ("/pin", {"password": WORDS["ben"], "pin": "123", "pin2": "123"}, 400, "four to eight digits", "pin"),
                ("/pin", {"password": WORDS["ben"], "pin": "12345", "pin2": "12346"}, 400, "must be the same", "pin2"),
                ("/pin", {"password": "2468", "pin": "12345", "pin2": "12345"}, 401, "This password is wrong.", "password"),
                ("/pin", {}, 400, "four to eight digits", "pin"))
        for path, form, status, words, field in cases:
            answer = browser.post(path, **form)
            self.assertEqual(answer.status, status, (path, form))
            self.assertIn(words, answer.told)
            self.assertRegex(answer.text, f'name="{field}"[^>]* aria-invalid="true"')
            for word in form.values():
                self.assertNotIn(f'value="{word}"', answer.text)
        self.assertEqual(Accounts.read((self.folder / FILE).read_text()), self.accounts)
        self.assertEqual(self.acts(), [("ben", "password", "wrong_word"), ("ben", "pin", "wrong_word")])

    def test_wrong_passwords_are_limited_here_too(self) -> None:
        browser = self.browser()
        statuses = [browser.post("/pin", password="guess", pin="12345", pin2="12345").status for _ in range(6)]
        self.assertEqual(statuses, [401] * 5 + [429])
        self.assertEqual(ClerksBrowser(lambda: UnixLink(self.entrance)).log_in("ben").status, 429, "by name: nor by a log-in")

    def test_a_part_that_is_away_and_a_file_with_a_mistake_are_said(self) -> None:
        browser = self.browser()
        self.conf["settings_socket"] += "x"
        answer = browser.post("/pin", password=WORDS["ben"], pin="12345", pin2="12345")
        self.assertEqual((answer.status, "portal-settings.service" in answer.told), (503, True))
        (self.folder / FILE).write_text("[[clerk]\n")
        answer = browser.post("/pin", password=WORDS["ben"], pin="12345", pin2="12345")
        self.assertEqual((answer.status, "could not be written" in answer.told), (500, True))

    def test_a_file_that_was_changed_meanwhile_is_said(self) -> None:
        browser = self.browser()
        read = self.writer.read
        with mock.patch.object(self.writer, "read", lambda name: read(name) + "# by hand\n"):
            answer = browser.post("/pin", password=WORDS["ben"], pin="12345", pin2="12345")
        self.assertEqual((answer.status, answer.told.strip()), (409, "The accounts were changed meanwhile. Type it again."))


class Clerks(AtAccounts):
    """The page of all accounts, for managers."""

    def set(self, browser: ClerksBrowser, **form: str) -> Answer:
        """Sends the form that writes an account, with Anna's password."""
        return browser.post("/clerk", **({"name": "eva", "role": "clerk", "new": "evas-long-word", "again": "evas-long-word",
                                          "password": WORDS["anna"]} | form))

    def names(self) -> list[tuple[str, str]]:
        return [(one.name, one.role) for one in Accounts.read((self.folder / FILE).read_text()).values()]

    def test_a_manager_makes_an_account_that_logs_in(self) -> None:
        browser = self.browser("anna")
        self.assertIn('href="/clerks"', browser.ask("/venue").text)
        answer = self.set(browser)
        self.assertEqual((answer.status, answer.told.strip()), (200, "The account of eva is written."))
        self.assertEqual(self.names(), [("anna", MANAGER), ("ben", CLERK), ("eva", CLERK)])
        self.assertIn('<td data-label="Name">eva</td><td data-label="Role">Sales clerk</td>', answer.text)
        eva = self.browser("eva", "evas-long-word")
        self.assertEqual((eva.ask("/clerks").status, self.set(eva).status), (403, 403))
        self.assertNotIn("/clerks", eva.ask("/venue").text)
        self.assertEqual(browser.ask("/").status, 200, "the manager's log-in goes on")
        rows = self.journal.asked("SELECT clerk, act, about, reason FROM reasons")
        self.assertEqual(rows, [("anna", "account", "eva", "clerk")])

    def test_a_password_and_a_role_are_changed_apart(self) -> None:
        browser, ben = self.browser("anna"), self.browser("ben")
        self.assertEqual(self.set(browser, name="ben", role="manager", new="", again="").status, 200)
        self.assertEqual((self.now().role, self.now().password, self.now().pin), (MANAGER, self.accounts["ben"].password, self.accounts["ben"].pin))
        self.assertEqual(ben.ask("/").place, "/login", "another role is another log-in")
        self.assertEqual(self.set(browser, name="ben", role="").status, 200)
        self.assertTrue(passwords.fits("evas-long-word", self.now().password))
        self.assertEqual((self.now().role, self.now().pin), (MANAGER, ""), "with a new password the PIN goes, and the role stays")
        self.assertEqual(self.set(browser, role="").status, 200)
        self.assertEqual(self.now("eva").role, CLERK, "of a new one it is the lesser")

    def test_an_account_that_goes_is_logged_out(self) -> None:
        browser, ben = self.browser("anna"), self.browser("ben")
        answer = browser.post("/clerk-gone", gone="ben", word=WORDS["anna"])
        self.assertEqual((answer.status, answer.told.strip(), self.names()), (200, "The account of ben is gone.", [("anna", MANAGER)]))
        self.assertEqual(ben.ask("/").place, "/login")

    def test_what_is_refused_of_accounts(self) -> None:
        browser = self.browser("anna")
        for form, status, field in (({"name": "a:b"}, 400, "name"), ({"name": ""}, 400, "name"), ({"new": "nine-sign", "again": "nine-sign"}, 400, "new"),
                                    ({"new": "", "again": ""}, 400, "new"), ({"again": "another-long-word"}, 400, "again"), ({"password": "wrong"}, 401, "password"),
                                    ({"name": "anna", "role": "clerk"}, 409, "role"), ({"role": "owner"}, 500, "")):
            answer = self.set(browser, **form)
            self.assertEqual(answer.status, status, form)
            if field:
                self.assertRegex(answer.text, f'name="{field}"[^>]* aria-invalid="true"')
            self.assertNotIn("evas-long-word", answer.text)
        self.assertIn('value="eva"', answer.text, "what was typed is kept")
        for form, status in (({"gone": "anna"}, 409), ({"gone": "ben", "word": "wrong"}, 401)):
            self.assertEqual(browser.post("/clerk-gone", **({"word": WORDS["anna"]} | form)).status, status, form)
        self.assertEqual(Accounts.read((self.folder / FILE).read_text()), self.accounts)


if __name__ == "__main__":
    unittest.main()
