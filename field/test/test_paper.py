"""Vouchers on paper: the kinds of paper, the PDF that a unit of its own makes, and that each QR code and each Code 128 of
it is read at 150 and 203 dots an inch."""

from __future__ import annotations

import contextlib
import pathlib
import re
import socket
import subprocess
import sys
import threading
import unittest
from typing import Any
from unittest import mock

import flask
from desk_process import FIELD
from needs import needs
from test_counter import AtCounter
from test_front import UnixLink

from portal_field.counter import pictures
from portal_field.counter.labels import PAPERS, paper_of
from portal_field.counter.sheet import wifi_text
from portal_field.lib.typed_codes import plain_code
from portal_field.settings.venue import VOUCHER_SIZES

UNIT = (sys.executable, "-m", "portal_field.paper.pdf")
READS = ("poppler-utils", "zbar-tools", "weasyprint", "zint", "fonts-dejavu-extra", "python3-pil")
STEP = 22.0         # millimetres from one part of a page to the next: zbar finds few codes among many
# Beside one another, the width of each, the left margin, and how high a part is: millimetres
PLACES = {"a4": (4, 48.5, 8, 62), "broad": (3, 64.6, 8, 62), "letter": (4, 49.9, 8, 62), "a4-24": (3, 70, 0, 62),
          "a4-21": (3, 66, 6, 62), "label": (1, 70, 0, 62), "receipt80": (1, 80, 0, 62), "receipt58": (1, 58, 0, 110)}
Place = tuple[int, float, float, float]


class Unit:
    """A socket behind which each connection has a process of the unit, as systemd starts it."""

    def __init__(self, path: pathlib.Path) -> None:
        self.door = socket.socket(socket.AF_UNIX)
        self.door.bind(str(path))
        self.door.listen()
        threading.Thread(target=self.serve, daemon=True).start()

    def serve(self) -> None:
        with contextlib.suppress(OSError):
            while True:
                link, _ = self.door.accept()
                with link:
                    subprocess.run(UNIT, stdin=link.fileno(), stdout=link.fileno(), stderr=subprocess.DEVNULL,
                                   env={"PYTHONPATH": str(FIELD)})

    def close(self) -> None:
        self.door.close()


class Printed(AtCounter):
    """A counter's page with the unit beside it."""

    def starts_unit(self) -> None:
        unit = Unit(self.folder / "paper")
        self.addCleanup(unit.close)

    def setUp(self) -> None:
        super().setUp()
        self.conf["paper"] = str(self.folder / "paper")

    def load(self, path: str) -> tuple[int, str, bytes]:
        link = UnixLink(self.path)
        link.request("GET", path, None, {"Host": "counter.example"})
        answer = link.getresponse()
        data = answer.read()
        link.close()
        return answer.status, str(answer.headers["Content-Type"]), data


class Kinds(unittest.TestCase):
    def test_settings_know_each_kind(self) -> None:
        self.assertEqual(tuple(PAPERS), VOUCHER_SIZES)

    def test_no_module_is_below_four_tenths_of_a_millimetre(self) -> None:
        self.assertEqual([paper.name for paper in PAPERS.values() if paper.module < .4], [])
        made = pictures.qr_picture("https://wifi.example/portal?code=ABCD-EFGH-JKMN-PQRS", .4)
        self.assertEqual((made.wide, made.high), (41, 41))
        self.assertIn('width="16.40mm" height="16.40mm"', made.svg())

    def test_two_languages_and_bars_need_wider_vouchers(self) -> None:
        cases: list[tuple[dict[str, Any], int]] = [({}, 4), ({"voucher_languages": ["en"]}, 4), ({"voucher_barcode": True}, 3),
                                                   ({"voucher_languages": ["en", "de"]}, 3)]
        for conf, columns in cases:
            self.assertEqual(paper_of("a4", conf).columns, columns, conf)
        self.assertEqual(paper_of("", {"voucher_size": "letter"}).name, "letter")
        self.assertEqual(paper_of("x", {"voucher_size": "letter"}).name, "a4")

    def test_on_a_label_the_wifis_code_gives_way(self) -> None:
        label, sheet = PAPERS["a4-24"], PAPERS["a4"]
        for paper, languages, has_bars, signs, modules, has_room in (
                (label, 1, False, 22, 45, True), (label, 2, False, 22, 45, False), (label, 1, True, 22, 45, False),
                (label, 1, False, 23, 45, False), (label, 1, False, 22, 49, False), (sheet, 2, True, 95, 53, True)):
            self.assertEqual(paper.has_room_for_wifi(languages, has_bars, signs, modules), has_room)


class Bars(unittest.TestCase):
    @needs("zint")
    def test_bars_are_those_of_code_128(self) -> None:
        # ISO 15417: start B, the signs A and B of set B, the check character of value (104 + 33 + 2 * 34) % 103, stop
        start, a, b, check, stop = "11010010000", "10100011000", "10001011000", "11001101100", "1100011101011"
        self.assertEqual((104 + 33 + 68) % 103, 102)
        line, = pictures.bars(["AB"])
        self.assertEqual((line[:11], line[11:22], line[22:33], line[44:]), (start, a, b, stop), check)

    def test_no_zint_is_said_and_the_vouchers_are_there(self) -> None:
        with mock.patch.object(pictures, "ZINT", "/nowhere/zint"), self.assertRaises(pictures.NoBars):
            pictures.bars(["AB"])


class Page(Printed):
    def test_print_leads_to_the_pdf_where_a_unit_makes_one(self) -> None:
        self.desk.issue_codes("hour", "b1")
        text = self.ask("/sheet?batch=b1&size=a4-21")[1]
        self.assertEqual(("/sheet.pdf" in text, "Print this page." in text), (False, True))
        self.starts_unit()
        text = self.ask("/sheet?batch=b1&size=a4-21")[1]
        self.assertIn('<a class="button" href="/sheet.pdf?batch=b1&amp;size=a4-21" target="_blank" rel="noopener">Print</a>', text)
        self.assertNotIn("Print this page.", text)

    def test_without_an_answer_it_is_the_page_itself(self) -> None:
        codes = self.desk.issue_codes("hour", "b1", 2)
        status, kind, data = self.load("/sheet.pdf?batch=b1&size=label")
        text = data.decode()
        self.assertEqual((status, kind.partition(";")[0]), (200, "text/html"))
        self.assertIn("No PDF could be made.<br>Print this page.", text)
        self.assertEqual(re.findall("<b>([0-9A-Z-]{19})</b>", text), codes)
        self.assertEqual([act.act for act in self.journal.entries("SELECT moment, clerk, act, batch, plan, codes, price, request, answer "
                                                                  "FROM acts")], ["print"], "it is one sheet")

    def test_a_batch_that_there_is_not(self) -> None:
        self.assertEqual([self.load(f"/sheet.pdf?batch={name}")[0] for name in ("b9", "B%209", "")], [404, 404, 400])

    def test_bars_that_cannot_be_made_are_said(self) -> None:
        self.desk.issue_codes("hour", "b1")
        self.conf["voucher_barcode"] = True
        with mock.patch.object(pictures, "ZINT", "/nowhere/zint"):
            text = self.ask("/sheet?batch=b1")[1]
        self.assertIn("The bars for laser scanners could not be made", text)
        self.assertIn('<div class="card">', text)

    def test_the_password_is_there_in_words_on_each_kind_of_paper(self) -> None:
        self.desk.issue_codes("hour", "b1")
        self.conf.update(wifi="Guests", wifi_password="correct horse")
        for size in PAPERS:
            self.assertIn('Password: <bdi class="secret">correct horse</bdi>', self.ask(f"/sheet?batch=b1&size={size}")[1], size)
        self.conf["voucher_languages"] = ["en", "de"]
        text = self.ask("/sheet?batch=b1&size=a4-24")[1]
        self.assertIn("These labels have no room for the Wi-Fi&#39;s QR code", text)
        self.assertEqual((text.count("<svg"), 'lang="en"' in text, 'lang="de"' in text), (1, True, True))


@needs("weasyprint")
class Asked(unittest.TestCase):
    def fetched(self, url: str) -> Any:
        from portal_field.paper import pdf
        try:
            return pdf.fetch(url).get("mime_type")
        except pdf.Refused:
            return None

    def test_no_address_but_those_of_a_sheet(self) -> None:
        self.assertEqual(self.fetched("portal://sheet/sheet.css"), "text/css")
        self.assertEqual(self.fetched("data:image/png;base64,AAAA"), "image/png")
        for url in ("file:///etc/passwd", "http://127.0.0.1:8080/captive", "https://example.com/x.png", "portal://sheet/fonts/../x",
                    "portal://sheet/fonts/DejaVuSans.ttf/x", "data:text/html;base64,AAAA", "/etc/portal/field.toml", "ftp://x/y"):
            self.assertIsNone(self.fetched(url), url)

    def test_more_than_a_sheet_has_is_refused(self) -> None:
        done = subprocess.run(UNIT, input=b" " * (16 * 2**20 + 1), capture_output=True, env={"PYTHONPATH": str(FIELD)})
        self.assertEqual((done.returncode, done.stdout), (1, b""))


@needs(*READS)
class Read(Printed):
    """As a phone and a scanner read them: by zbar, from the pages that poppler paints."""

    def setUp(self) -> None:
        super().setUp()
        self.starts_unit()
        self.conf.update(house="Stadtbibliothek am Alten Marktplatz", portal_url="https://wlan.stadtbibliothek.example/portal",
                         wifi="Guests", wifi_password="correct horse", currency="EUR")

    def windows(self, pdf: pathlib.Path, dots: int, place: Place) -> list[pathlib.Path]:
        """The pages in parts, column by column; each voucher's pictures are whole in one of them at least."""
        from PIL import Image
        subprocess.run(["pdftoppm", "-r", str(dots), "-gray", str(pdf), str(self.folder / "page")], check=True)
        columns, wide, left, high = place
        scale, parts = dots / 25.4, list[pathlib.Path]()
        for page in sorted(self.folder.glob("page*.pgm")):
            with Image.open(page) as image:
                for column in range(columns):
                    for at in range(0, int(image.height / scale / STEP) + 1):
                        box = [left + column * wide, at * STEP, left + (column + 1) * wide, at * STEP + high]
                        parts.append(self.folder / f"part-{len(parts)}.pgm")
                        image.crop(tuple(round(edge * scale) for edge in box)).save(parts[-1])
            page.unlink()
        return parts

    def read(self, pdf: pathlib.Path, dots: int, place: Place) -> set[str]:
        """What zbar reads of a PDF."""
        parts = self.windows(pdf, dots, place)
        words = ["zbarimg", "--quiet", "--raw", "-Sdisable", "-Sqrcode.enable", "-Scode128.enable", *map(str, parts)]
        found = set(subprocess.run(words, capture_output=True, text=True).stdout.splitlines())
        for part in parts:
            part.unlink()
        return found

    def test_each_code_is_read_at_150_and_203_dots_an_inch(self) -> None:
        for size, count, pages, languages, has_bars in (
                ("a4", 12, 1, ["en"], False), ("a4", 9, 1, ["de", "ar"], True), ("letter", 13, 2, ["en"], False),
                ("a4-24", 24, 1, ["en"], False), ("a4-24", 25, 2, ["de", "fr"], False), ("a4-24", 24, 1, ["en"], True),
                ("a4-21", 21, 1, ["ja", "uk"], False), ("label", 2, 2, ["en"], True), ("receipt80", 2, 2, ["en", "de"], True),
                ("receipt58", 2, 2, ["en", "de"], True)):
            with self.subTest(size=size, languages=languages, bars=has_bars):
                batch = f"{size}-{len(languages)}-{count}-{int(has_bars)}"
                codes = self.desk.issue_codes("gigabyte", batch, count)
                self.conf.update(voucher_languages=languages, voucher_barcode=has_bars)
                status, kind, data = self.load(f"/sheet.pdf?batch={batch}&size={size}")
                self.assertEqual((status, kind), (200, "application/pdf"))
                pdf = self.folder / "sheet.pdf"
                pdf.write_bytes(data)
                info = subprocess.run(["pdfinfo", str(pdf)], capture_output=True, text=True, check=True).stdout
                self.assertIn(f"Pages:           {pages}\n", info)
                wanted = {f"{self.conf['portal_url']}?code={code}" for code in codes} | (set(map(plain_code, codes)) if has_bars else set())
                if not PAPERS[size].is_label or len(languages) == 1 and not has_bars:
                    wanted.add(wifi_text("Guests", "correct horse"))
                is_broad = size == "a4" and paper_of(size, self.conf).columns == 3
                for dots in (150, 203):
                    self.assertEqual(wanted - self.read(pdf, dots, PLACES["broad" if is_broad else size]), set(), dots)

    def test_a_receipt_is_as_long_as_its_text(self) -> None:
        self.desk.issue_codes("hour", "b1")
        high = {}
        for languages in (["en"], ["en", "de"]):
            self.conf["voucher_languages"] = languages
            pdf = self.folder / "receipt.pdf"
            pdf.write_bytes(self.load("/sheet.pdf?batch=b1&size=receipt58")[2])
            info = subprocess.run(["pdfinfo", str(pdf)], capture_output=True, text=True, check=True).stdout
            size = re.search(r"Page size: +([\d.]+) x ([\d.]+) pts", info)
            assert size
            self.assertAlmostEqual(float(size[1]), 58 / 25.4 * 72, delta=.1)
            high[len(languages)] = float(size[2]) * 25.4 / 72
            text = subprocess.run(["pdftotext", "-bbox", str(pdf), "-"], capture_output=True, text=True, check=True).stdout
            last = max(float(at) for at in re.findall(r'yMax="([\d.]+)"', text)) * 25.4 / 72
            self.assertAlmostEqual(high[len(languages)] - last, 4, delta=1.5)
        self.assertGreater(high[2] - high[1], 15, "a second language needs more")

    def test_no_text_is_below_eight_points(self) -> None:
        self.desk.issue_codes("gigabyte", "b1")
        self.conf["voucher_languages"] = ["de", "fr"]
        for size in PAPERS:
            pdf = self.folder / "sheet.pdf"
            pdf.write_bytes(self.load(f"/sheet.pdf?batch=b1&size={size}")[2])
            text = subprocess.run(["pdftohtml", "-xml", "-stdout", "-i", str(pdf)], capture_output=True, text=True, check=True).stdout
            sizes = {int(found) for found in re.findall(r'<fontspec [^>]*size="(\d+)"', text)}
            # pdftohtml counts in points and a half: 12 of it are 8 points
            self.assertGreaterEqual(min(sizes), 12, (size, sizes))


class Sheet(AtCounter):
    def test_words_that_all_vouchers_share_are_made_once(self) -> None:
        self.desk.issue_codes("hour", "b1", 20)
        with mock.patch.object(flask, "render_template", wraps=flask.render_template) as made:
            self.assertEqual(self.ask("/sheet?batch=b1")[1].count('class="card"'), 20)
        self.assertEqual([call.args[0] for call in made.call_args_list].count("voucher_words.html"), 1)


if __name__ == "__main__":
    unittest.main()
