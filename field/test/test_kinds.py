"""The kinds of file that portal-settings.service writes for a manager: what is written, and a list of tries that it refuses."""

from __future__ import annotations

import base64
import contextlib
import hashlib
import io
import json
import os
import pathlib
import stat
import subprocess
import sys
import tempfile
import unittest
from collections.abc import Callable
from dataclasses import replace
from typing import Any
from unittest import mock

from at_entrance import WORDS
from desk_process import FIELD
from PIL import Image
from test_writer import Writes

from portal_field.counter.venue_lines import VenueLines
from portal_field.lib.offers_file import Offer, OffersFile
from portal_field.settings import kinds, venue_file, writer
from portal_field.settings.accounts import CLERK, Account
from portal_field.settings.kinds import KINDS, OFFERS, PICTURE, PLANS, VENUE

SAMPLE = (FIELD / "settings/plans.toml").read_text()
MORE = '\n[[plan]]\nid = "hour-2"\nprice = 350\nuses = 1\nseconds = 3600\nbytes = 0\nshelf_days = 90\nextend = true\n'
CONTACT = venue_file.text_of({"owner_contact": "Maria, 030 1", "payments": ["cash", "card"], "receipt_head": ["Main Street 1"]})
NAMES = OffersFile({"hour": Offer("One hour", {"de": "Eine Stunde"}, 1, offered=False, tax=19), "hour-2": Offer(replaces="hour")}, "sorry", 7).text


def png(wide: int = 30, high: int = 20) -> bytes:
    """A picture."""
    out = io.BytesIO()
    Image.new("RGB", (wide, high), "#0b5d51").save(out, "PNG")
    return out.getvalue()


def base64_of(data: bytes) -> str:
    return base64.b64encode(data).decode()


GOOD = {PLANS: SAMPLE + MORE, OFFERS: NAMES, VENUE: CONTACT, PICTURE: base64_of(png()), "texts/greeting": "# Welcome\n",
        "texts/terms.de": "Willkommen bei uns\r\n\tmit Einzug", "texts/privacy.ar": "\u200fمرحبا"}


class Folder(Writes):
    """A venue's folder with its plans and its texts."""

    def setUp(self) -> None:
        super().setUp()
        (self.folder / "texts").mkdir()
        (self.folder / "plans.toml").write_text(SAMPLE)

    def place(self, kind: str) -> pathlib.Path:
        return self.folder / KINDS[kind].folder / KINDS[kind].name

    def data(self, kind: str, text: str, who: str = "anna", **changed: str) -> bytes:
        """The bytes of a request, as the counter's page makes them."""
        place = self.place(kind) if kind in KINDS else self.folder / "none"
        before = KINDS[kind].text_of(place.read_bytes()) if kind in KINDS and place.is_file() else ""
        fields = {"kind": kind, "text": text, "was": hashlib.sha256(before.encode()).hexdigest(), "who": who, "password": WORDS.get(who, "x")}
        return json.dumps(fields | changed).encode()

    def tree(self) -> dict[str, object]:
        """All that is in the folder: the bytes, or what a link points to."""
        return {str(path.relative_to(self.folder)): os.readlink(path) if path.is_symlink() else
                path.read_bytes() if path.is_file() else stat.S_IFMT(path.lstat().st_mode) for path in self.folder.rglob("*")}


class Written(Folder):
    def test_each_kind_is_written_as_a_whole_with_its_mode(self) -> None:
        self.assertEqual({kind.partition("/")[0] for kind in KINDS}, {"clerks", "plans", "offers", "venue", "picture", "texts"})
        for kind, text in GOOD.items():
            with self.subTest(kind):
                self.assertEqual(self.writer.answer(self.data(kind, text)), {"answer": "done"})
                self.assertEqual(self.place(kind).read_bytes(), KINDS[kind].data_of(text))
                self.assertEqual(stat.S_IMODE(self.place(kind).stat().st_mode), 0o640 if kind == VENUE else 0o644)
                self.assertIn(f"settings: anna, {kind}: done", self.log.getvalue())
        self.assertEqual((self.folder / "plans.toml.before").read_text(), SAMPLE)
        self.assertEqual(sorted(str(path.relative_to(self.folder)) for path in self.folder.rglob("*") if path.is_file()), [
            "clerks.toml", "offers.toml", "picture.png", "plans.toml", "plans.toml.before", "texts/greeting.md", "texts/privacy.ar.md",
            "texts/terms.de.md", "venue.toml"])

    def test_a_file_that_a_venue_need_not_have_is_taken_away(self) -> None:
        for kind in (OFFERS, VENUE, PICTURE, "texts/greeting"):
            self.writer.answer(self.data(kind, GOOD[kind]))
            self.assertEqual(self.writer.answer(self.data(kind, ""))["answer"], "done")
            self.assertFalse(self.place(kind).exists())
            self.assertEqual(self.place(kind).with_name(KINDS[kind].name + ".before").read_bytes(), KINDS[kind].data_of(GOOD[kind]))

    def test_what_is_written_is_what_the_counter_reads(self) -> None:
        self.assertEqual(OffersFile.read(NAMES.encode()).text, NAMES)
        self.assertEqual(OffersFile.read(NAMES.encode()).of("hour").name_in("de-AT"), "Eine Stunde")
        self.assertEqual(OffersFile.read(NAMES.encode()).of("hour").name_in("fr"), "One hour")
        self.assertEqual(venue_file.text_of(venue_file.read(CONTACT)), CONTACT)
        strange = OffersFile({'a "b" \\ ü': Offer('"x" \\ 1', {"zh-Hans": "一小时"}, tax=8.1)}, tax=0)
        self.assertEqual(OffersFile.read(strange.text.encode()), strange)


class Tries(Folder):
    """What an attacker or a mistake asks for: the word of the refusal, the kind, and the text. Nothing is written then."""
    changed = SAMPLE.replace("price = 300", "price = 301")
    whole = base64_of(png())
    TRIES: tuple[tuple[str, str, str], ...] = (
        # paths and kinds
        ("unknown_kind", "../plans", SAMPLE), ("unknown_kind", "/etc/shadow", "x"), ("unknown_kind", "texts/../../shadow", "x"),
        ("unknown_kind", "texts/greeting.md", "x"), ("unknown_kind", "texts/greeting.xx", "x"), ("unknown_kind", "texts/greeting\0", "x"),
        ("unknown_kind", "texts/other", "x"), ("unknown_kind", "field.toml", "x"), ("unknown_kind", "portal.toml", "x"),
        ("unknown_kind", "credentials/desk_token", "x"), ("unknown_kind", "plans.toml.before", SAMPLE), ("unknown_kind", "PLANS", SAMPLE),
        # sizes
        ("too_large", "plans", SAMPLE + "#" * 120_000), ("too_large", "texts/terms", "ü" * 8193), ("too_large", "venue", "#" * 60_001),
        ("too_large", "offers", "#" * 60_001), ("too_large", "picture", "A" * 300_004),
        # plans
        ("bad_file", "plans", ""), ("bad_file", "plans", "x"), ("bad_file", "plans", changed), ("bad_file", "plans", MORE),
        ("bad_file", "plans", SAMPLE + MORE + MORE), ("bad_file", "plans", SAMPLE + MORE.replace("350", "-1")),
        ("bad_file", "plans", SAMPLE + MORE.replace("hour-2", "../x")), ("bad_file", "plans", SAMPLE + '\n[server]\nport = 1\n'),
        # what is offered
        ("bad_file", "offers", "[hour]\n"), ("bad_file", "offers", "[hour]\nprice = 1\n"), ("bad_file", "offers", "tax = 101\n"),
        ("bad_file", "offers", '[hour]\nname = "a\\nb"\n'), ("bad_file", "offers", '[hour]\nreplaces = "../x"\n'),
        ("bad_file", "offers", '[hour]\nplace = -1\n'), ("bad_file", "offers", '[hour]\nnames = { "../x" = "y" }\n'),
        # the venue
        ("bad_file", "venue", 'cert = "/etc/shadow"\n'), ("bad_file", "venue", 'on_failure = ["/bin/sh"]\n'), ("bad_file", "venue", "payments = []\n"),
        ("bad_file", "venue", 'payments = ["cash", "cash"]\n'), ("bad_file", "venue", 'owner_contact = "a\\nb"\n'),
        ("bad_file", "venue", 'receipt_head = [1]\n'), ("bad_file", "venue", "x"),
        # texts and pictures
        ("bad_file", "texts/terms", "\0"), ("bad_file", "texts/terms", "a\x1b[2Jb"), ("bad_file", "picture", "no Base64 !"),
        ("bad_file", "picture", base64_of(b"<svg xmlns='http://www.w3.org/2000/svg'/>")), ("bad_file", "picture", base64_of(b"\xff\xd8\xff\xe0JFIF")),
        ("bad_file", "picture", base64_of(png() + b"<script>")), ("bad_file", "picture", base64_of(png()[:-1])),
        ("bad_file", "picture", base64_of(png()[:60] + b"x" + png()[61:])), ("bad_file", "picture", base64_of(png(2001, 1))),
        ("bad_file", "picture", base64_of(kinds.PNG)))

    def refuses(self, word: str, data: bytes) -> None:
        before = self.tree()
        self.assertEqual(self.writer.answer(data)["answer"], word, data[:120])
        self.assertEqual(self.tree(), before)

    def test_paths_kinds_sizes_and_contents(self) -> None:
        self.assertGreaterEqual(len(self.TRIES), 30)
        for word, kind, text in self.TRIES:
            with self.subTest(kind, text=text[:40], size=len(text)):
                self.refuses(word, self.data(kind, text))

    def test_a_clerk_who_is_no_manager(self) -> None:
        for kind, text in GOOD.items():
            self.refuses("not_allowed", self.data(kind, text, "ben"))

    def test_a_counter_that_was_taken_over_has_no_password(self) -> None:
        """It knows the hashes, which it reads, and the names; tries are limited."""
        hashed = self.accounts["anna"].password
        for word in ("", hashed, "annas-long-wor", WORDS["ben"], "2468"):
            self.refuses("wrong_password", self.data(PLANS, GOOD[PLANS], password=word))
        self.refuses("wait", self.data(PLANS, GOOD[PLANS]))
        self.refuses("wrong_password", self.data(PLANS, GOOD[PLANS], who="nobody", password=WORDS["anna"]))
        self.clock[0] += 31
        self.refuses("bad_request", self.data(PLANS, GOOD[PLANS], path="/etc/shadow"))
        self.assertEqual(self.writer.answer(self.data(PLANS, GOOD[PLANS]))["answer"], "done")

    def test_a_manager_who_is_none_any_more(self) -> None:
        data = self.data(PLANS, GOOD[PLANS], "ben")
        self.path.write_text(self.accounts.having(Account("eva", "manager", self.accounts["ben"].password)).text)
        self.refuses("not_allowed", data)
        self.path.write_text(self.accounts.having(replace(self.accounts["anna"], role=CLERK)).having(
            Account("eva", "manager", self.accounts["ben"].password)).text)
        self.refuses("not_allowed", self.data(PLANS, GOOD[PLANS], "anna"))

    def test_files_that_were_changed_by_hand_meanwhile(self) -> None:
        for kind, text in GOOD.items():
            data, by_hand = self.data(kind, text), self.data(kind, text, was="")
            self.refuses("changed_meanwhile", by_hand)
            self.place(kind).write_text("# by hand\n")
            self.refuses("changed_meanwhile", data)

    def test_files_that_are_changed_while_it_writes(self) -> None:
        for kind, text in GOOD.items():
            place, check = self.place(kind), KINDS[kind].check

            def changes(who: Account, before: str, after: str, place: pathlib.Path = place,
                        check: Callable[[Account, str, str], None] = check) -> None:
                check(who, before, after)
                place.write_text("# by hand, just now\n")

            with mock.patch.dict(KINDS, {kind: replace(KINDS[kind], check=changes)}):
                self.assertEqual(self.writer.answer(self.data(kind, text))["answer"], "changed_meanwhile", kind)
            self.assertEqual(place.read_text(), "# by hand, just now\n")

    def test_links_and_what_is_no_file(self) -> None:
        other = self.folder / "elsewhere"
        other.write_text("kept")
        makes: tuple[Callable[[pathlib.Path], object], ...] = (lambda path: path.symlink_to(other), os.mkfifo, pathlib.Path.mkdir)
        for kind, text in GOOD.items():
            for make in makes:
                place, data = self.place(kind), self.data(kind, text)
                place.unlink(missing_ok=True)
                make(place)
                self.refuses("no_file", data)
                place.rmdir() if place.is_dir() and not place.is_symlink() else place.unlink()

    def test_a_folder_of_texts_that_is_a_link(self) -> None:
        elsewhere = self.folder / "elsewhere"
        (self.folder / "texts").rename(elsewhere)
        (self.folder / "texts").symlink_to(elsewhere)
        self.refuses("not_written", self.data("texts/greeting", "x"))

    def test_links_under_the_names_that_it_writes(self) -> None:
        other = self.folder / "elsewhere"
        for kind, text in GOOD.items():
            place = self.place(kind)
            for name in (f".{place.name}.part", f"{place.name}.before", f".{place.name}.before.part"):
                other.write_text("kept")
                place.with_name(name).unlink(missing_ok=True)
                place.with_name(name).symlink_to(other)
            self.assertEqual(self.writer.answer(self.data(kind, text))["answer"], "done", kind)
            self.assertEqual(other.read_text(), "kept", kind)

    def test_a_disk_that_is_full_and_a_file_that_is_no_text(self) -> None:
        with mock.patch("os.fsync", mock.Mock(side_effect=OSError(28, "No space left on device"))):
            self.refuses("not_written", self.data(PLANS, GOOD[PLANS]))
        (self.folder / "offers.toml").write_bytes(b"\xff")
        self.refuses("bad_file", json.dumps(json.loads(self.data(PLANS, NAMES)) | {"kind": OFFERS}).encode())

    def test_a_request_has_room_for_the_largest_file_of_each_kind(self) -> None:
        for name, kind in KINDS.items():
            longest = "ü" * (kind.most // 2) if not kind.is_picture else "A" * kind.most
            text = json.dumps({"kind": name, "text": longest, "was": "x" * 64, "who": "x" * 64, "password": "x" * 200}, ensure_ascii=False)
            self.assertLess(len(text.encode()), writer.MOST_REQUEST, name)


class VenueLinesOfTheCounter(unittest.TestCase):
    """The settings of the page, with venue.toml over them."""

    def setUp(self) -> None:
        self.folder = pathlib.Path(self.enterContext(tempfile.TemporaryDirectory()))
        self.conf: dict[str, Any] = {"owner_contact": "Eva", "payments": ["cash"], "house": "House"}
        self.lines = VenueLines(self.conf, self.folder)

    def test_its_lines_count_in_place_of_those_of_field_toml(self) -> None:
        self.lines.refresh()
        self.assertEqual(self.conf, {"owner_contact": "Eva", "payments": ["cash"], "house": "House"})
        (self.folder / "venue.toml").write_text(CONTACT)
        self.lines.refresh()
        self.assertEqual(self.conf, {"owner_contact": "Maria, 030 1", "payments": ["cash", "card"], "receipt_head": ["Main Street 1"], "house": "House"})
        (self.folder / "venue.toml").unlink()
        self.lines.refresh()
        self.assertEqual(self.conf, {"owner_contact": "Eva", "payments": ["cash"], "house": "House"})

    def test_of_a_file_with_a_mistake_what_it_said_before_stays(self) -> None:
        (self.folder / "venue.toml").write_text(CONTACT)
        self.lines.refresh()
        (self.folder / "venue.toml").write_text("payments = []\n")
        log = io.StringIO()
        with contextlib.redirect_stderr(log):
            self.lines.refresh()
            self.lines.refresh()
        self.assertEqual((self.conf["payments"], log.getvalue().count("payments: 1 to 8 texts")), (["cash", "card"], 1))


class SetUpOfVenueFile(unittest.TestCase):
    """The kit's own set-up beside venue.toml."""

    def test_the_page_for_a_failure_has_its_contact_and_a_mistake_stops_set_up(self) -> None:
        folder = pathlib.Path(self.enterContext(tempfile.TemporaryDirectory()))
        (folder / "field.toml").write_text((FIELD / "settings/field.toml").read_text().replace('owner_contact = ""', 'owner_contact = "Eva 1"'))
        (folder / "etc/portal").mkdir(parents=True)
        words = [sys.executable, str(FIELD / "setup"), "--root", str(folder), "--field", str(FIELD), str(folder / "field.toml")]
        for text, status, who in (("", 0, "Eva 1"), (CONTACT, 0, "Maria, 030 1"), ("x", 1, "Maria, 030 1")):
            (folder / "etc/portal/venue.toml").write_text(text)
            done = subprocess.run(words, capture_output=True, text=True)
            self.assertEqual((done.returncode, "venue.toml: it is not TOML" in done.stderr), (status, status == 1), done.stderr)
            self.assertIn(who, (folder / "etc/portal/counter-nginx/away.html").read_text())
        self.assertIn('owner_contact = "Eva 1"', (folder / "etc/portal/counter.toml").read_text(), "for a venue that takes venue.toml away")


if __name__ == "__main__":
    unittest.main()
