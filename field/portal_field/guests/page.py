"""The guests' page behind nginx, on which a code is typed."""

from __future__ import annotations

import hashlib
import hmac
import pathlib
import socket
import urllib.parse
from dataclasses import dataclass, field
from typing import Any

import flask

from portal_field.guests import texts
from portal_field.guests.agreed import Agreed
from portal_field.guests.gifts import BUSY, DONE, NO_ANSWER, Gifts, Offer, begin_of, refusal_of
from portal_field.guests.left import Left, left_of
from portal_field.guests.prices import prices
from portal_field.lib import refusals, web
from portal_field.lib.counts import Counts
from portal_field.lib.desk_client import (
    REQUEST_NUMBER, Desk, NoAnswer, Refused, Routes, credential, new_number, settings)
from portal_field.lib.devices import Devices, Holders, look_twice
from portal_field.lib.forms import BadForm, Form
from portal_field.lib.guest_refusals import refusal_text
from portal_field.lib.language_names import GUESTS
from portal_field.lib.languages import Language, preferred_language
from portal_field.lib.local_time import use_zone
from portal_field.lib.machine_time import Notes
from portal_field.lib.message_marks import guest_words
from portal_field.lib.one_use import Forms, numbers
from portal_field.lib.typed_codes import LONGEST_TYPED, plain_code

HERE = pathlib.Path(__file__).resolve().parent
COOKIE, COOKIE_DAYS = "portal_lang", 30      # of the language that was chosen
NO_DESK = guest_words("We cannot ask our server just now. Please try again in a minute.")
CLOCK_WAITS = guest_words("Our server waits until somebody at the counter confirms the time. Please ask at "
                          "the counter.")
NOT_AGREED = refusals.Refusal(0, "not_agreed", 400, "", "", guest_words(
    "Please accept the terms of use first. Your code was not used."))
# The venue's pages, by the ends of their addresses.
PAGES = {"prices": guest_words("Prices"), texts.TERMS: guest_words("Terms of use"),
         texts.PRIVACY: guest_words("Privacy notice")}
ENDED_HERE = guest_words("You have ended your session.")
# Why a session has ended, by the word of the server.
ENDED = {"time": guest_words("Your time has ended. To go online again, type another code."),
         "bytes": guest_words("Your data is used up. To go online again, type another code."),
         "closed": guest_words("Your session was closed. To go online again, type another code.")}


@dataclass
class State:
    """What the desk says of a device: its last session, what is left where that is open, and else why it has
    ended, and when where that is known."""
    left: Left | None = None
    fault: str = ""
    session: int | None = None
    ended: str = ""
    end: str = ""


@dataclass
class Front:
    """What the page needs: the desk, the venue's words and zone, where the gateway's agent hears knocks,
    which device holds the lease of an address, the key of its forms, the forms that were sent of late, and
    how often each refusal was shown."""
    desk: Desk
    conf: dict[str, Any]
    device_at: Holders
    key: str
    forms: Forms = field(default_factory=Forms)
    counts: Counts = field(default_factory=Counts)

    def __post_init__(self) -> None:
        if "zone" in self.conf:     # the file may be of before
            use_zone(self.conf["zone"])
        self.agreed = Agreed(self.conf.get("agreed", ""), self.conf.get("terms_days", 90))

    @property
    def gifts(self) -> Gifts | None:
        """The part that gives free minutes and ends sessions; None where the settings do not name it."""
        return Gifts(self.conf["give"]) if self.conf.get("give") else None

    @property
    def terms_version(self) -> str:
        """The version of the terms that a guest has to accept; empty where there are none to accept."""
        return str(self.conf.get("terms_version", ""))

    @property
    def has_logo(self) -> bool:
        """Whether nginx has a picture of the venue: that of field.toml, or one that a manager chose."""
        return bool(self.conf.get("logo")) or pathlib.Path(self.conf.get("picture", "/nowhere")).is_file()

    @property
    def notes(self) -> Notes:
        """What the server and the counter say for this page."""
        return Notes(self.conf.get("notes", "/run/portal-clock"))

    def text(self, name: str, language: Language) -> texts.Text | None:
        """A text of the venue, where it has that."""
        return texts.text(self.conf.get("texts", "/etc/portal/texts"), name, language)

    def prices(self, language: Language) -> list[tuple[str, str]]:
        """What the counter offers, where the venue shows that to guests."""
        shown = self.conf.get("prices", False)
        return list(prices(self.notes, self.conf.get("currency", ""), language)) if shown else []

    def silence(self) -> str:
        """What is said of a server that does not answer: what it waits for, where it says so."""
        return CLOCK_WAITS if self.notes.read("state").get("is") == "waits" else NO_DESK

    def device(self, address: str) -> str | None:
        """The device that has an address."""
        return look_twice(self.device_at, address)

    def signature(self, device: str) -> str:
        """What only this page can write beside the name of a device, before a restart and after it."""
        return hmac.new(self.key.encode(), device.encode(), hashlib.sha256).hexdigest()

    def device_of(self, form: Form) -> str | None:
        """The device that a form's page showed, if it was a page of ours."""
        device = form.get("device", "")
        good = hmac.compare_digest(self.signature(device).encode(), form.get("sign", "").encode())
        return device if device and good else None

    def last_session(self, device: str) -> dict[str, Any] | None:
        """What the server says of the last session of a device, open or ended; None if it never had one.
        NoAnswer or Refused: it does not say so."""
        try:
            return self.desk.request_json(Routes.OWN_SESSION, device=device)
        except Refused as fault:
            if fault.word != "unknown_session":
                raise
            return None

    def knock(self) -> None:
        """Has the agent look at once; if it does not hear, its next poll will do."""
        with socket.socket(socket.AF_UNIX, socket.SOCK_DGRAM) as s:
            s.setblocking(False)
            try:
                s.sendto(b"r", self.conf["knock"])
            except OSError:
                pass


class Visit:
    """One request of a guest: the device, the language, and what the page said before."""

    def __init__(self, front: Front, request: flask.Request) -> None:
        self.front = front
        try:
            self.form = Form.from_body(request) if request.method == "POST" else Form.from_query(request)
        except BadForm:
            self.form = Form()
        self.choice = self.form.get("lang", "") if self.form.get("lang") in GUESTS else ""
        kept = request.cookies.get(COOKIE, "")
        self.language = Language(preferred_language(request.accept_languages, self.choice, kept))
        self.place = request.headers.get("X-Real-IP", "")       # its address
        self.device = front.device(self.place)
        self.typed = self.form.get("code", "")[:LONGEST_TYPED]
        self.code = plain_code(self.typed)

    def state(self) -> State:
        """What the page of this device says: what is left, or what is wrong."""
        say = self.language.say
        if self.device is None:
            return State(fault=refusal_text(refusals.NO_LEASE, self.language))
        try:
            reply = self.front.desk.request_json(Routes.CAPTIVE, device=self.device)
            last = self.front.last_session(self.device)
        except (NoAnswer, Refused):
            return State(fault=say(self.front.silence()))
        if last is None:
            return State()
        if reply["captive"]:
            end = self.language.until(last["at"]) if "at" in last else ""
            return State(session=last["session"], ended=self.end_text(last["ended"]), end=end)
        return State(left_of(reply, last["used"], self.language), session=last["session"])

    def end_text(self, why: str | None) -> str:
        """What became of the last session of the device. `why`: the server's word; None while it is open."""
        if why == "closed" and self.form.get("ended"):
            return self.language.say(ENDED_HERE)
        return self.language.say(ENDED[why]) if why in ENDED else ""

    def good_text(self) -> str:
        """What the page says of a form that was sent before: that its code is good, and how often it can
        be used."""
        try:
            self.form.whole("done")
            left = self.form.whole("left")
        except BadForm:
            return ""
        good = self.language.say("Your code is good.")
        more = self.language.say_plural("It can be used %(num)s more time.",
                                        "It can be used %(num)s more times.", left)
        return f"{good} {more}" if left else good

    def page(self, status: int = 200, bad: str = "", number: str = "", shown: str | None = None,
             sent: str = "", wrong: str = "code") -> flask.Response:
        """The portal page. That a code is good is shown to a device that is online alone; the form gets
        `number`, or a new one, and what it `sent` if that is in doubt. It is for the device; a form for
        another one, which was `shown` before, stays so and says nothing of this one. What is bad is about the
        field `wrong`."""
        silent = bool(shown or sent)
        state = State() if silent else self.state()
        device, has_form = shown or self.device or "", self.has_form(state, bad)
        text = flask.render_template(
            "portal.html", language=self.language, _=self.language.say, choice=self.choice, languages=GUESTS,
            conf=self.front.conf, has_logo=self.front.has_logo, links=self.links(),
            greeting=self.front.text(texts.GREETING, self.language),
            terms=self.front.terms_version, wrong=wrong, has_ticked=bool(self.form.get("terms")),
            address=self.address, bad=bad, good=self.good_text() if state.left and not bad else "",
            state=state, silent=silent, device=device, has_form=has_form, typed=self.typed,
            offer=None if silent else self.offer(state, wrong),
            sign=self.front.signature(device), number=number or new_number(), sent=sent)
        response = flask.make_response(text, status)
        if state.left and not has_form:
            response.headers["Refresh"] = f"{state.left.wait}; url={self.address()}"
        return self.in_language(response)

    def offer(self, state: State, wrong: str) -> Offer | None:
        """What a device that is not online can have for nothing, where the venue gives something; also where
        the server is silent and the button is to be pressed again."""
        gifts = self.front.gifts if self.front.conf.get("free") else None
        is_silent = bool(state.fault) and wrong != "offer"
        if gifts is None or self.device is None or state.left or is_silent:
            return None
        return gifts.offer(self.place, self.device, self.language)

    def has_form(self, state: State, bad: str) -> bool:
        """Whether the page has the form. One that says what is left renews itself, which would empty a field:
        there the form is a step away, and on a page that has a code."""
        return not state.left or bool(bad or self.typed or self.form.get("add"))

    def address(self, end: str = "", **more: str | int) -> str:
        """The address of a page in the language that was chosen: of the portal page, or of one of `PAGES`."""
        query = urllib.parse.urlencode({**more, **({"lang": self.choice} if self.choice else {})})
        return "/portal" + (f"/{end}" if end else "") + (f"?{query}" if query else "")

    def links(self) -> list[tuple[str, str]]:
        """The venue's pages that there are: address and name of each."""
        front, language = self.front, self.language
        return [(self.address(end), language.say(words)) for end, words in PAGES.items()
                if (front.prices(language) if end == "prices" else front.text(end, language))]

    def venue_page(self, end: str) -> flask.Response:
        """One of `PAGES`; the portal page instead of one that there is not."""
        is_prices = end == "prices"
        rows = self.front.prices(self.language) if is_prices else []
        text = None if is_prices else self.front.text(end, self.language)
        if not rows and text is None:
            return flask.make_response(flask.redirect(self.address(), 302))
        return self.in_language(flask.make_response(flask.render_template(
            "text.html", language=self.language, _=self.language.say, conf=self.front.conf, text=text,
            prices=rows, name=self.language.say(PAGES[end]), address=self.address)))

    def in_language(self, response: flask.Response) -> flask.Response:
        """The response with its language, and with the cookie of a choice. No page of ours needs it: nginx's
        own answers and a page without the choice in its address follow it."""
        response.headers["Content-Language"] = self.language.tag
        response.headers["Vary"] = "Accept-Language, Cookie"
        if self.choice:
            response.set_cookie(COOKIE, self.choice, 86_400 * COOKIE_DAYS, path="/portal", secure=True,
                                httponly=True, samesite="Lax")
        return response

    def refuse(self, status: int, refusal: refusals.Refusal | None, **more: Any) -> flask.Response:
        """The page again, with nothing done."""
        self.front.counts.add(refusal.word if refusal else refusals.NO_LEASE.word)
        words = refusal_text(refusal, self.language, self.code) if refusal else ""
        return self.page(status, words, **more)

    def answer(self) -> flask.Response:
        """The answer to a form that was sent."""
        number, shown = self.form.get("request", ""), self.front.device_of(self.form)
        if self.device is None:
            return self.refuse(403, None)
        # nothing acts without: the form comes back with it
        if shown is None or not REQUEST_NUMBER.fullmatch(number):
            return self.refuse(400, refusals.of_word("id_reused"))
        if shown != self.device:    # the form stays one for the device that its page showed
            return self.refuse(409, refusals.OTHER_DEVICE, shown=shown)
        act = self.form.get("act", "")
        if act == "end":
            return self.end(self.device)
        if self.front.forms.is_of_another_code(number, self.device, self.code):
            return self.refuse(409, refusals.of_word("id_reused"))
        if self.front.terms_version and self.form.get("terms") != self.front.terms_version:
            return self.refuse(400, NOT_AGREED, wrong="free_terms" if act == "free" else "terms")
        return self.free(self.device) if act == "free" else self.redeem(self.device, number)

    def act(self, act: str, device: str, session: int = 0) -> dict[str, Any]:
        """What portal-give answers to an act for this device. Where there is no such part it does nothing."""
        gifts = self.front.gifts
        return gifts.ask(act, self.place, device, session) if gifts else {"answer": "off"}

    def words_of(self, reply: dict[str, Any]) -> str:
        """What a guest reads of a refusal of portal-give, or of what the server waits for."""
        word, why = str(reply["answer"]), self.front.silence()
        if word == NO_ANSWER and why != NO_DESK:
            return self.language.say(why)
        return refusal_text(refusal_of(word), self.language, **begin_of(reply, self.language))

    def free(self, device: str) -> flask.Response:
        """The answer to the button of free minutes. Who is online already has what it gives."""
        word = str((reply := self.act("free", device))["answer"])
        if word == DONE:
            return self.online(reply)
        if word == "online":
            return self.in_language(flask.make_response(flask.redirect(self.address(), 303)))
        self.front.counts.add(word)
        return self.page(refusal_of(word).status, self.words_of(reply), wrong="offer")

    def question(self, status: int = 200, bad: str = "", session: int = 0) -> flask.Response:
        """Asks whether the session is to end, and says what is lost by it; once more where something is bad.
        A device that is not online gets its page."""
        state, gifts = self.state(), self.front.gifts
        if gifts is None or self.device is None or state.left is None and not bad:
            return self.page()
        text = flask.render_template(
            "end.html", language=self.language, _=self.language.say, choice=self.choice, conf=self.front.conf,
            state=state, address=self.address, device=self.device, sign=self.front.signature(self.device),
            number=new_number(), bad=bad, session=session or gifts.session(self.place, self.device))
        return self.in_language(flask.make_response(text, status))

    def end(self, device: str) -> flask.Response:
        """The answer to the button that ends the session which its page showed."""
        try:
            session = self.form.whole("session")
        except BadForm:
            return self.refuse(400, refusals.of_word("id_reused"), wrong="offer")
        word = str((reply := self.act("end", device, session))["answer"])
        if word == DONE:
            self.front.knock()
            return self.in_language(flask.make_response(flask.redirect(self.address(ended="1"), 303)))
        self.front.counts.add(word)
        bad, status = self.words_of(reply), refusal_of(word).status
        again = word in (NO_ANSWER, BUSY, "no_record")
        return self.question(status, bad, session) if again else self.page(status, bad, wrong="offer")

    def redeem(self, device: str, form: str) -> flask.Response:
        """Sends the numbers of this code and device one after another, until the device is online: the code
        may have been typed at a RADIUS server before. A form that was sent before sends its own number
        alone."""
        front, reply = self.front, {}
        again = front.forms.again(form, device, self.code, self.form.get("sent", ""))
        for number in again or numbers(device, self.code):
            front.forms.remember(form, device, self.code, number)
            try:
                reply = front.desk.request_json(Routes.REDEEM, body={"code": self.code},
                                                device=device, number=number)
            except Refused as fault:
                if fault.in_doubt:
                    return self.refuse(fault.status, refusals.of_word(fault.word), number=form, sent=number)
                front.forms.forget(form, device)
                return self.refuse(fault.status, refusals.of_word(fault.word))
            except NoAnswer:
                return self.no_answer(form, number)
            if again or not self.is_over(device):
                break
        return self.online(reply) if reply else self.refuse(409, refusals.of_word("used_up"))

    def no_answer(self, form: str, number: str) -> flask.Response:
        """The page after no answer: to be sent again, or what the server waits for."""
        why = self.front.silence()
        if why == NO_DESK:
            return self.refuse(504, refusals.NO_ANSWER, number=form, sent=number)
        self.front.counts.add(refusals.NO_ANSWER.word)
        return self.page(504, self.language.say(why), number=form, sent=number)

    def is_over(self, device: str) -> bool:
        """Whether the session of the last answer is over; where the desk does not say so, it is not."""
        try:
            return bool(self.front.desk.request_json(Routes.CAPTIVE, device=device)["captive"])
        except (NoAnswer, Refused, KeyError):
            return False

    def online(self, reply: dict[str, Any]) -> flask.Response:
        """The answer to a code that was accepted: it leads to the page."""
        front = self.front
        front.knock()
        if front.terms_version:
            front.agreed.add(reply["session"], front.terms_version)
        # Another page than the answer to the form, so that loading it again does not send the code again.
        response = flask.Response(status=303)
        said = {"done": reply["session"], "left": reply["uses_left"]} if "uses_left" in reply else {}
        response.headers["Location"] = self.address(**said)
        return self.in_language(response)


def pages(front: Front) -> flask.Flask:
    """The page, and the venue's pages."""
    app = web.pages("front", HERE)

    @app.route("/portal", methods=["GET", "POST"])
    def portal() -> flask.Response:
        """The page, or the answer to its form."""
        visit = Visit(front, flask.request)
        if flask.request.method == "POST":
            return visit.answer()
        return visit.question() if visit.form.get("stop") else visit.page()

    @app.route("/portal/<any(prices, terms, privacy):end>")
    def venue_page(end: str) -> flask.Response:
        """A page of the venue."""
        return Visit(front, flask.request).venue_page(end)

    return app


def main() -> None:
    """Serves the guests' page."""
    conf = settings("/etc/portal/front.toml")
    door = web.listening(conf["socket"])    # requests wait here from now on
    front = Front(Desk(conf["desk_port"]), conf, Devices(conf["lan"]).holder, credential("form_key"),
                  counts=Counts(conf.get("refusals")))
    web.serve(pages(front), door, threads=32)


if __name__ == "__main__":
    main()
