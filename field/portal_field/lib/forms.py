"""The fields of forms and of queries, as text."""

from __future__ import annotations

import datetime
import urllib.parse

import flask


TOKEN = "token"     # the field of a log-in's forms, which is no field of what they say


class BadForm(Exception):
    """A field is missing, or is not what it must be."""


class Form(dict[str, str]):
    """The fields of a form, without blanks at their ends; of two with one name the last counts."""

    MOST_FIELDS, MOST_BYTES = 40, 4096
    # Of forms that hold a text or a picture, by their addresses; nginx lets as much through.
    LARGER = {"/text": 65_536, "/picture": 4_194_304}

    @classmethod
    def read(cls, text: str) -> Form:
        """The fields of a form. BadForm: there are too many."""
        try:
            pairs = urllib.parse.parse_qsl(text, max_num_fields=cls.MOST_FIELDS)
        except ValueError as fault:
            raise BadForm("more fields than any form has") from fault
        return cls((name, value.strip()) for name, value in pairs)

    @classmethod
    def from_query(cls, request: flask.Request) -> Form:
        """The fields of the query in a request's address."""
        return cls.read(request.query_string.decode("utf-8", "replace"))

    @classmethod
    def from_body(cls, request: flask.Request) -> Form:
        """The fields of a request's body, which is of the one type that the pages' forms have; nginx does not
        say which."""
        form = cls.sent(request)
        form.pop(TOKEN, None)
        return form

    @classmethod
    def sent(cls, request: flask.Request) -> Form:
        """The fields of a request's body, also beside a file. BadForm: it is too large."""
        if (request.content_length or 0) > cls.LARGER.get(request.path, cls.MOST_BYTES):
            raise BadForm("length")
        data = request.get_data()
        if request.mimetype == "multipart/form-data":
            return cls((name, value.strip()) for name, value in request.form.items())
        return cls.read(data.decode("utf-8", "replace"))

    @classmethod
    def token_in(cls, request: flask.Request) -> str:
        """The token of the form in a request's body; empty where it has none. BadForm: it cannot be read."""
        return cls.sent(request).get(TOKEN, "")

    def word(self, name: str) -> str:
        """A field that is not empty. BadForm: it is missing."""
        if not self.get(name):
            raise BadForm(name)
        return self[name]

    def whole(self, name: str) -> int:
        """A field with a number of at most 18 digits. BadForm: it has none."""
        text = self.word(name)
        if not (text.isascii() and text.isdecimal() and len(text) <= 18):
            raise BadForm(name)
        return int(text)

    def day(self, name: str) -> datetime.date:
        """A field with a day of the years 1970 to 9998. BadForm: it has none."""
        try:
            day = datetime.date.fromisoformat(self.word(name))
        except ValueError as fault:
            raise BadForm(name) from fault
        if not 1970 <= day.year <= 9998:
            raise BadForm(name)
        return day
