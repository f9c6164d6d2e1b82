"""What a manager writes of the venue: contact, kinds of payment, the head of receipts and the rate of tax;
the texts of the guests' page; the venue's picture."""

from __future__ import annotations

import base64
import io
import struct
import zlib
from typing import TYPE_CHECKING, Any

import flask
from PIL import Image, ImageOps

from portal_field.counter import payments
from portal_field.counter.clerk import Notice
from portal_field.counter.entrance import secret
from portal_field.counter.plan_pages import WRONG as WRONG_OF_PLANS
from portal_field.counter.plan_pages import BadField, rate, with_tax
from portal_field.counter.setting_files import CHANGED, Answer, CannotRead, SettingFiles, sum_of
from portal_field.guests import texts
from portal_field.lib.desk_client import new_number
from portal_field.lib.forms import BadForm, Form
from portal_field.lib.language_names import GUESTS
from portal_field.lib.message_marks import clerk_words
from portal_field.lib.offers_file import OffersFile
from portal_field.lib.plans import BadFile
from portal_field.settings import venue_file
from portal_field.settings.kinds import KINDS, OFFERS, PICTURE, VENUE

if TYPE_CHECKING:
    from portal_field.counter.page import Pages

Reply = flask.Response
WRONG = {"owner_contact": clerk_words("Whom to call: one line of at most 100 signs."),
         "payments": clerk_words("Kinds of payment: one to eight lines, each with another one, of at most "
                                 "20 signs."),
         "receipt_head": clerk_words("The head of receipts: at most ten lines, each of at most 100 signs."),
         "tax": WRONG_OF_PLANS["tax"]}
TEXTS = {texts.GREETING: clerk_words("Greeting"), texts.TERMS: clerk_words("Terms of use"),
         texts.PRIVACY: clerk_words("Privacy notice")}
WIDEST, MOST_PNG = 600, 200_000     # pixels of a picture that is taken, and bytes
MOST_SIDE = 6000                    # pixels of a picture that is sent
MOST_KEPT = 4                       # pictures that wait for being saved
# of a file that is no picture
BROKEN = (OSError, ValueError, SyntaxError, EOFError, struct.error, zlib.error)


def lines_in(text: str) -> list[str]:
    """The lines of a field of several, without blanks at their ends and without empty ones."""
    return [line.strip() for line in text.splitlines() if line.strip()]


def stem_of(name: str, tag: str) -> str:
    """The name of a text's file without its end, in a language or in none."""
    return f"{name}.{tag}" if tag else name


class BadPicture(Exception):
    """It is no picture that can be read."""


def png_of(data: bytes) -> bytes:
    """A picture as PNG of the size that pages and vouchers need. BadPicture."""
    try:
        with Image.open(io.BytesIO(data), formats=("PNG", "JPEG")) as picture:
            if max(picture.size) > MOST_SIDE:
                raise BadPicture
            upright = ImageOps.exif_transpose(picture).convert("RGBA")
    except (*BROKEN, Image.DecompressionBombError) as fault:
        raise BadPicture from fault
    for most in (WIDEST, WIDEST // 2, WIDEST // 4):
        upright.thumbnail((most, most))
        out = io.BytesIO()
        upright.save(out, "PNG", optimize=True)
        if out.tell() <= MOST_PNG:
            return out.getvalue()
    raise BadPicture


class VenuePages:
    """The pages of the venue's own lines, texts and picture."""

    def __init__(self, page: Pages, files: SettingFiles) -> None:
        self.page, self.files = page, files
        self.counter, self.say = page.counter, page.counter.say
        self.pictures: dict[str, bytes] = {}        # that were sent and are not saved

    def cannot_read(self, fault: Exception) -> Reply:
        """The page where a file cannot be read."""
        line = self.say("The settings cannot be read: %(why)s.", why=fault)
        return self.page.show("notice.html", 500, Notice(False, (line,)), quiet=True)

    # Contact, payments, receipts, tax

    def typed_now(self, offers_text: str) -> Form:
        """The settings as the fields of their form. BadFile: offers.toml has a mistake."""
        conf, tax = self.counter.conf, OffersFile.read(offers_text.encode()).tax
        return Form({"owner_contact": conf.get("owner_contact", ""), "tax": "" if tax is None else str(tax),
                     "payments": "\n".join(payments.kinds(conf)),
                     "receipt_head": "\n".join(conf.get("receipt_head", []))})

    def settings(self) -> Reply:
        """The page of the settings, as they are."""
        try:
            return self.settings_page(self.typed_now(self.files.read(OFFERS)))
        except (CannotRead, BadFile) as fault:
            return self.cannot_read(fault)

    def settings_page(self, typed: Form, answer: Answer | None = None,
                      preview: list[tuple[str, str]] | None = None, seen: str = "") -> Reply:
        """The form of the settings, with what came of it. `preview`: what saving it would change; `seen`: by
        which it is known again."""
        notice = Notice(answer.good, answer.lines) if answer and answer.lines else None
        return self.page.show("settings.html", answer.status if answer else 200, notice, quiet=True,
                              typed=typed, wrong=answer.field if answer else "", preview=preview, seen=seen,
                              known=[(kind, self.say(words)) for kind, words in payments.NAMES.items()])

    def send_settings(self) -> Reply:
        """Looks at the settings of a form, or saves them."""
        try:
            form = Form.from_body(flask.request)
            before, offers = self.files.read(VENUE), self.files.read(OFFERS)
            values = self.values_in(form)
            after, new_offers = venue_file.text_of(values), with_tax(offers, rate(form.get("tax", "")))
        except BadField as fault:
            return self.settings_page(form, Answer(400, (self.say(WRONG[fault.rule]),), fault.field))
        except BadForm:
            return self.settings()
        except (CannotRead, BadFile) as fault:
            return self.cannot_read(fault)
        preview = self.preview(values, form.get("tax", ""), offers)
        seen = sum_of(before, offers, after, new_offers)
        if form.get("do") != "save":
            return self.settings_page(form, preview=preview, seen=seen)
        if form.get("seen") != seen:
            return self.settings_page(form, Answer(409, (self.say(CHANGED),)), preview, seen)
        for kind, old, new in ((VENUE, before, after), (OFFERS, offers, new_offers)):
            if old != new and not (answer := self.files.write(kind, old, new, secret("password"), kind)).good:
                return self.settings_page(form, answer, preview, seen)
        self.counter.venue_lines.refresh()
        self.counter.load_plans(self.counter.notes.read("state").get("since"))
        return self.settings_page(self.typed_now(new_offers), Answer(200, (self.say("It is saved."),)))

    def values_in(self, form: Form) -> dict[str, Any]:
        """The lines of venue.toml by a form. BadField."""
        values: dict[str, Any] = {"owner_contact": form.get("owner_contact", ""),
                                  "payments": lines_in(form.get("payments", "")),
                                  "receipt_head": lines_in(form.get("receipt_head", ""))}
        for key, value in values.items():
            if venue_file.fault_of(key, value):
                raise BadField(key)
        return values

    def preview(self, values: dict[str, Any], tax: str, offers: str) -> list[tuple[str, str]]:
        """What the settings are to be, and what they were."""
        say, now = self.say, self.typed_now(offers)
        heads = {"owner_contact": say("Whom to call"), "payments": say("Kinds of payment"),
                 "receipt_head": say("The head of receipts")}
        pairs = []
        for key, head in heads.items():
            old = lines_in(now.get(key, ""))
            new = lines_in(values[key]) if key == "owner_contact" else values[key]
            if key == "payments":
                old, new = ([payments.words(say, kind) for kind in kinds] for kinds in (old, new))
            pairs.append((head, ", ".join(old), ", ".join(new)))
        pairs.append((say("Tax in the prices, in percent"), now["tax"], tax))
        return [(head, f"{old or '–'} → {new or '–'}" if old != new else new or "–")
                for head, old, new in pairs]

    # Texts of the guests' page

    def see_texts(self) -> Reply:
        """The list of the texts, and in which languages they are there."""
        folder = self.counter.settings_folder / "texts"
        tags = {"": self.say("for all languages"), **GUESTS}
        rows = [(name, self.say(words), [(stem_of(name, tag), shown) for tag, shown in tags.items()
                                         if (folder / f"{stem_of(name, tag)}.md").exists()])
                for name, words in TEXTS.items()]
        return self.page.show("texts.html", quiet=True, rows=rows, languages=GUESTS)

    def see_text(self) -> Reply:
        """The page of a text."""
        try:
            form = Form.from_query(flask.request)
            name = f"texts/{stem_of(form.word('text'), form.get('lang', ''))}"
            if name not in KINDS:
                return self.see_texts()
            return self.text_page(name, self.files.read(name))
        except BadForm:
            return self.see_texts()
        except CannotRead as fault:
            return self.cannot_read(fault)

    def text_page(self, kind: str, text: str, answer: Answer | None = None, looked: bool = False) -> Reply:
        """The form of a text. `looked`: with how guests read it."""
        stem, _, tag = kind.partition("/")[2].partition(".")
        words = self.say(TEXTS[stem])
        return self.page.show("text.html", answer.status if answer else 200,
                              Notice(answer.good, answer.lines) if answer else None, quiet=True,
                              kind=kind, name=f"{words}, {GUESTS[tag]}" if tag else words, text=text, tag=tag,
                              preview=texts.html_from(text) if looked else None,
                              wrong=answer.field if answer else "", seen=sum_of(self.files.read(kind), text),
                              most=KINDS[kind].most)

    def send_text(self) -> Reply:
        """Looks at a text as guests read it, or saves it; an empty one takes it away."""
        try:
            form = Form.from_body(flask.request)
            kind = form.word("kind")
            if not kind.startswith("texts/") or kind not in KINDS:
                raise BadForm("kind")
            before = self.files.read(kind)
        except BadForm:
            return self.see_texts()
        except CannotRead as fault:
            return self.cannot_read(fault)
        text = form.get("text", "").replace("\r\n", "\n")
        text += "\n" if text else ""
        if len(text.encode()) > KINDS[kind].most:
            line = self.say("A text has at most %(most)s bytes.", most=KINDS[kind].most)
            return self.text_page(kind, text, Answer(413, (line,), "text"))
        if not text and self.is_needed(kind):
            line = self.say("Guests have to accept the terms, by terms_version of field.toml: one text of "
                            "them has to stay.")
            return self.text_page(kind, text, Answer(409, (line,), "text"))
        if form.get("do") != "save":
            return self.text_page(kind, text, looked=True)
        if form.get("seen") != sum_of(before, text):
            return self.text_page(kind, text, Answer(409, (self.say(CHANGED),)), looked=True)
        answer = self.files.write(kind, before, text, secret("password"), kind)
        saved = Answer(200, (self.say("It is saved. Guests read it from now on."),))
        return self.text_page(kind, text, saved if answer.good else answer, looked=True)

    def is_needed(self, kind: str) -> bool:
        """Whether a text is the last one of the terms that guests have to accept."""
        there = {path.name for path in (self.counter.settings_folder / "texts").glob("terms*.md")}
        return bool(self.counter.conf.get("terms_version")) and there == {KINDS[kind].name}

    # The picture

    def picture_page(self, answer: Answer | None = None, number: str = "") -> Reply:
        """The page of the picture. `number`: of the one that was sent and is not saved."""
        return self.page.show("picture.html", answer.status if answer else 200,
                              Notice(answer.good, answer.lines) if answer else None, quiet=True,
                              number=number, has_picture=bool(self.counter.logo), stamp=new_number(),
                              is_own=bool(self.files.read(PICTURE)), wrong=answer.field if answer else "")

    def see_picture(self) -> Reply:
        """The page of the picture as it is."""
        try:
            return self.picture_page()
        except CannotRead as fault:
            return self.cannot_read(fault)

    def send_picture(self) -> Reply:
        """Takes a picture to look at, or saves the one that was looked at, or takes the picture away."""
        try:
            form = Form.from_body(flask.request)
            before = self.files.read(PICTURE)
        except BadForm:
            return self.picture_page(Answer(413, (self.say("This is too large."),), "file"))
        except CannotRead as fault:
            return self.cannot_read(fault)
        if form.get("do") not in ("save", "remove"):
            return self.look_at_picture()
        number = form.get("number", "")
        if form["do"] == "save" and number not in self.pictures:
            return self.picture_page(Answer(409, (self.say("Choose the picture once more."),), "file"))
        after = base64.b64encode(self.pictures[number]).decode() if form["do"] == "save" else ""
        answer = self.files.write(PICTURE, before, after, secret("password"), PICTURE)
        if not answer.good:
            return self.picture_page(answer, number)
        self.pictures.pop(number, None)
        line = self.say("It is saved. Guests and vouchers have it from now on.")
        return self.picture_page(Answer(200, (line,)))

    def look_at_picture(self) -> Reply:
        """Shows a picture that was sent, before it is saved."""
        file = flask.request.files.get("file")
        try:
            data = png_of(file.read() if file else b"")
        except BadPicture:
            line = self.say("This is no picture in PNG or JPEG that can be read.")
            return self.picture_page(Answer(400, (line,), "file"))
        number = new_number()
        self.pictures[number] = data
        while len(self.pictures) > MOST_KEPT:
            del self.pictures[next(iter(self.pictures))]
        return self.picture_page(number=number)

    def picture(self) -> Reply:
        """A picture that was sent and is not saved."""
        data = self.pictures.get(flask.request.args.get("number", ""))
        return flask.Response(data, mimetype="image/png") if data else flask.Response(status=404)


def add(app: flask.Flask, page: Pages, files: SettingFiles) -> VenuePages:
    """The pages of the venue's own settings, and their forms."""
    venue = VenuePages(page, files)
    for name, seen, sent in (("settings", venue.settings, venue.send_settings),
                             ("text", venue.see_text, venue.send_text),
                             ("picture", venue.see_picture, venue.send_picture)):
        app.add_url_rule(f"/{name}", f"see {name}", seen)
        app.add_url_rule(f"/{name}", f"send {name}", sent, methods=["POST"])
    app.add_url_rule("/texts", "see texts", venue.see_texts)
    app.add_url_rule("/picture.png", "picture", venue.picture)
    return venue
