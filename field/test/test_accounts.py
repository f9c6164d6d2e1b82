"""Accounts of the counter: hashes of passwords, the file of accounts, and how set-up makes it."""

from __future__ import annotations

import pathlib
import re
import subprocess
import sys
import tempfile
import tomllib
import unittest

from at_entrance import quick_hash
from desk_process import FIELD

from portal_field.lib import passwords
from portal_field.settings.accounts import (
    BEFORE, CLERK, FILE, MANAGER, Account, Accounts, BadAccounts, of_venue)
from portal_field.settings.venue import BadSettings, Field

WORD = "ten-letters"
SAMPLE = (FIELD / "settings/field.toml").read_text()


def openssl(*words: str) -> str:
    """What `openssl passwd` prints."""
    return subprocess.run(["openssl", "passwd", *words], check=True, capture_output=True, text=True).stdout.strip()


class Hashes(unittest.TestCase):
    def test_scrypt_is_that_of_its_rfc(self) -> None:
        """RFC 7914 section 12, the test vector that needs 16 MB."""
        self.assertEqual(passwords.scrypt("pleaseletmein", b"SodiumChloride", (14, 8, 1), 64).hex(),
                         "7023bdcb3afd7348461c06cd81fd38ebfda8fbba904f8e3ea9b543f6545da1f2"
                         "d5432955613f0fcf62d49705242a9af9e61e85dc0d651e40dfcf017b45575887")
        for costs in ((10, 8, 16), (30, 8, 1), (0, 8, 1)):      # of memory and time there are bounds
            self.assertRaises(ValueError, passwords.scrypt, "password", b"NaCl", costs, 64)

    def test_a_new_hash_is_one_of_scrypt_with_a_salt_of_its_own(self) -> None:
        one, other = passwords.hash_of(WORD), passwords.hash_of(WORD)
        self.assertNotEqual(one, other)
        self.assertRegex(one, r"\A\$scrypt\$ln=14,r=8,p=1\$[A-Za-z0-9+/]{22}\$[A-Za-z0-9+/]{43}\Z")
        self.assertTrue(passwords.fits(WORD, one) and passwords.fits(WORD, other))
        for word in ("", "ten-letter", "ten-letters ", "Ten-letters", WORD + "\0"):
            self.assertFalse(passwords.fits(word, one), word)

    def test_what_nginx_took_in_a_password_file_is_good(self) -> None:
        ways = [openssl(way, "-salt", "saltsalt", WORD) for way in ("-6", "-5", "-1", "-apr1")]
        ways += ["{PLAIN}" + WORD, "{SHA}" + self.digest(b""), "{SSHA}" + self.digest(b"salt")]
        for hashed in ways:
            self.assertTrue(passwords.fits(WORD, hashed), hashed)
            self.assertFalse(passwords.fits(WORD[:-1], hashed), hashed)

    @staticmethod
    def digest(salt: bytes) -> str:
        """By another program, as LDAP has it."""
        done = subprocess.run(["openssl", "dgst", "-sha1", "-binary"], input=WORD.encode() + salt, capture_output=True, check=True)
        return subprocess.run(["base64", "-w0"], input=done.stdout + salt, capture_output=True, check=True).stdout.decode()

    def test_no_word_fits_what_is_no_hash(self) -> None:
        for hashed in ("", "x", "*", "!", "$6$", "$scrypt$ln=99,r=8,p=1$AAAA$AAAA", "$scrypt$ln=14,r=8,p=1$$", "{SHA}", "{SSHA}x", "$apr1$", "$9$x$y"):
            for word in ("", "x", "*", WORD, "\udcff"):
                self.assertFalse(passwords.fits(word, hashed), (word, hashed))

    def test_what_is_refused_of_a_password_and_of_a_pin(self) -> None:
        self.assertIn("at least 10 characters, and this one has 9", passwords.fault_of_password("nine-sign"))
        self.assertEqual(passwords.fault_of_password("ten-signs!"), "")
        self.assertIn("at most 200", passwords.fault_of_password("x" * 201))
        self.assertEqual([word for word in ("1234", "12345678", "123", "123456789", "12a4", "", "１２３４") if passwords.is_pin(word)],
                         ["1234", "12345678"])


class File(unittest.TestCase):
    def test_what_is_written_is_read(self) -> None:
        accounts = Accounts()
        for account in (Account("Jürgen \"J\" \\ von Ü", CLERK, quick_hash(WORD), quick_hash("1234")), Account("anna", MANAGER, "{PLAIN}a b")):
            accounts = accounts.having(account)
        self.assertEqual(Accounts.read(accounts.text), accounts)
        self.assertEqual(tomllib.loads(accounts.text)["clerk"][1], {"name": "anna", "role": "manager", "password": "{PLAIN}a b", "pin": ""})

    def test_what_is_refused(self) -> None:
        good = '[[clerk]]\nname = "anna"\nrole = "manager"\npassword = "$6$x$y"\n'
        Accounts.read(good)
        for text, why in (
                (good + good, "anna is there twice"), (good.replace("manager", "owner"), "the role of anna is 'owner': one of clerk, manager"),
                (good.replace('"anna"', '"a:b"'), "no colon"), (good.replace('"anna"', '""'), "is not empty"),
                (good.replace('"anna"', '" anna"'), "name"), (good.replace('"anna"', '"an\\u0007na"'), "name"),
                (good.replace('"anna"', '"' + "x" * 65 + '"'), "at most 64"), (good.replace('"anna"', "7"), "texts in quotation marks"),
                (good.replace("$6$x$y", ""), "no hash"), (good.replace("$6$x$y", " x"), "no hash"), (good + 'pin = "\\n"\n', "no hash"),
                (good + 'rank = "1"\n', "each [[clerk]] has"), (good.replace("role", "rôle"), ""), ("clerk = 3\n", "[[clerk]] alone"),
                ("x = 1\n" + good, "[[clerk]] alone"), ("[[clerk]\n", ""), ("clerk = [3]\n", "each [[clerk]] has"),
                ("\n".join(good.replace("anna", f"a{i}") for i in range(201)), "at most 200")):
            with self.assertRaises(BadAccounts, msg=text[-80:]) as found:
                Accounts.read(text)
            self.assertIn(why, str(found.exception))
        self.assertRaises(BadAccounts, Accounts.read(good.replace("manager", "clerk", 1)).check_managers)

    def test_who_had_a_password_before_is_a_manager(self) -> None:
        text = "# comment:x\nanna:$6$x$y\nben:{PLAIN}a:a comment\nanna:$6$second$z\n\nno colon\nempty:\n:x\n  eva :$apr1$x$y\r\n"
        found = Accounts.of_earlier_version(text)
        self.assertEqual([(one.name, one.role, one.password, one.pin) for one in found.values()], [
            ("anna", MANAGER, "$6$x$y", ""), ("ben", MANAGER, "{PLAIN}a", ""), ("eva", MANAGER, "$apr1$x$y", "")])
        self.assertEqual(Accounts.read(found.text), found)

    def test_the_sample_has_limits_that_serve_a_cafe(self) -> None:
        field = Field.read(SAMPLE)
        self.assertEqual((field.counter_lock_minutes, field.clerk_refund_limit, field.counter_internet), (10, 2000, False))
        lines = re.sub("(?m)^(counter_lock_minutes|clerk_refund_limit).*\n", "", SAMPLE)
        self.assertEqual(Field.read(lines), field, "a file of before goes on")
        for key, value in (("counter_lock_minutes", "-1"), ("counter_lock_minutes", "481"), ("counter_lock_minutes", "1.5"),
                           ("counter_lock_minutes", "true"), ("clerk_refund_limit", "-1"), ("clerk_refund_limit", '"5"'),
                           ("counter_internet", "1"), ("counter_internet", '"yes"')):
            with self.assertRaisesRegex(BadSettings, key):
                Field.read(re.sub(rf"(?m)^{key} = \w+", f"{key} = {value}", SAMPLE))
        for value in ("0", "480"):
            Field.read(re.sub("(?m)^counter_lock_minutes = [0-9]+", f"counter_lock_minutes = {value}", SAMPLE))


class SetUp(unittest.TestCase):
    """The kit's own set-up, below a folder."""

    def setUp(self) -> None:
        self.root = pathlib.Path(self.enterContext(tempfile.TemporaryDirectory()))
        self.etc = self.root / "etc/portal"
        self.etc.mkdir(parents=True)

    def make(self, *more: str, typed: str = "") -> subprocess.CompletedProcess[str]:
        words = [sys.executable, FIELD / "setup", "--root", self.root, "--field", "/usr/share/portal/field", *more, FIELD / "settings/field.toml"]
        return subprocess.run([str(word) for word in words], capture_output=True, text=True, input=typed)

    def test_an_upgraded_venue_keeps_its_clerks_and_says_that_they_are_managers(self) -> None:
        before = f"anna:{openssl('-6', WORD)}\nben:{openssl('-6', 'bens-password')}\n"
        (self.etc / BEFORE).write_text(before)
        done = self.make()
        self.assertIn("Who had a password is a manager: anna, ben.", done.stderr)
        found = Accounts.read((self.etc / FILE).read_text())
        self.assertEqual([(one.name, one.role) for one in found.values()], [("anna", MANAGER), ("ben", MANAGER)])
        self.assertTrue(passwords.fits(WORD, found["anna"].password) and passwords.fits("bens-password", found["ben"].password))
        self.assertEqual((self.etc / FILE).stat().st_mode & 0o777, 0o640)
        self.assertEqual((self.etc / BEFORE).read_text(), before, "an earlier version reads it")
        (self.etc / FILE).write_text(found.having(Account("eva", CLERK, quick_hash(WORD))).text)
        text = (self.etc / FILE).read_text()
        done = self.make()
        self.assertEqual(((self.etc / FILE).read_text(), "manager" in done.stderr), (text, False), "it is made once")

    def test_a_venue_without_clerks_gets_no_file(self) -> None:
        (self.etc / BEFORE).write_text("# nobody\n")
        self.assertEqual(self.make().returncode, 0)
        self.assertFalse((self.etc / FILE).exists())

    def test_an_account_is_made_and_its_password_is_set_again(self) -> None:
        rows = []
        for name, words, word in (("anna", (), WORD), ("ben", (), "bens-password"), ("eva", ("--role", "manager"), "evas-password"),
                                  ("ben", (), "another-word"), ("eva", ("--role", "clerk"), "evas-password")):
            done = self.make("--clerk", name, *words, typed=word + "\n")
            self.assertEqual(done.returncode, 0, done.stderr)
            account = of_venue(self.etc)[name]
            self.assertTrue(passwords.fits(word, account.password))
            rows.append((name, account.role))
        self.assertEqual(rows, [("anna", MANAGER), ("ben", CLERK), ("eva", MANAGER), ("ben", CLERK), ("eva", CLERK)])
        self.assertEqual(list(of_venue(self.etc)), ["anna", "ben", "eva"])

    def test_a_reset_takes_the_pin_away(self) -> None:
        self.make("--clerk", "anna", typed=WORD + "\n")
        accounts = of_venue(self.etc)
        (self.etc / FILE).write_text(accounts.having(Account("anna", MANAGER, accounts["anna"].password, quick_hash("1234"))).text)
        self.make("--clerk", "anna", typed=WORD + "\n")
        self.assertEqual(of_venue(self.etc)["anna"].pin, "")

    def test_what_is_refused_changes_nothing(self) -> None:
        self.make("--clerk", "anna", typed=WORD + "\n")
        text = (self.etc / FILE).read_text()
        for name, words, word, why in (("a:b", (), WORD, "no colon"), ("ben", (), "nine-sign", "at least 10 characters"),
                                       ("anna", ("--role", "clerk"), WORD, "nobody is a manager"), ("ben", ("--role", "owner"), WORD, "invalid choice")):
            done = self.make("--clerk", name, *words, typed=word + "\n")
            self.assertNotEqual(done.returncode, 0)
            self.assertIn(why, done.stderr)
            self.assertEqual((self.etc / FILE).read_text(), text)
        (self.etc / FILE).write_text("[[clerk]\n")
        done = self.make("--clerk", "ben", typed=WORD + "\n")
        self.assertIn("Nothing was changed", done.stderr)
        self.assertEqual((self.etc / FILE).read_text(), "[[clerk]\n")

    def test_the_page_reads_the_accounts_and_root_alone_writes_them(self) -> None:
        self.make("--clerk", "anna", typed=WORD + "\n")
        conf = tomllib.loads((self.etc / "counter.toml").read_text())
        self.assertEqual([conf[key] for key in ("accounts", "settings_socket", "lock_minutes", "clerk_refund_limit")],
                         [str(self.etc), str(self.root / "run/portal-settings/socket"), 10, 2000])
        units = self.root / "etc/systemd/system"
        socket, service = (units / f"portal-settings.{kind}" for kind in ("socket", "service"))
        for line in ("SocketUser=portal-counter", "SocketMode=0600"):
            self.assertIn(f"\n{line}\n", socket.read_text())
        for line in ("CapabilityBoundingSet=CAP_CHOWN", "ProtectSystem=strict", "ReadWritePaths=/etc/portal", "PrivateNetwork=yes",
                     "InaccessiblePaths=-/etc/portal/credentials -/etc/portal/tls -/etc/portal/portal.toml"):
            self.assertIn(f"\n{line}\n", service.read_text())
        self.assertIn("\nWants=portal-settings.socket\n", (units / "portal-counter.service").read_text())
        self.assertNotIn("User=", service.read_text())

    def test_nginx_lets_all_of_the_counters_network_to_the_log_in(self) -> None:
        self.make()
        text = (self.etc / "counter-nginx/page.conf").read_text()
        self.assertNotIn("auth_", text)
        for line in ("allow 10.88.0.0/24;", "deny all;", "proxy_hide_header X-Clerk;"):
            self.assertIn(line, text)


if __name__ == "__main__":
    unittest.main()
