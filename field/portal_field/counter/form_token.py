"""The token of a log-in, which each form of its pages has: a form of another log-in does nothing."""

from __future__ import annotations

import re

import flask
import jinja2.ext
import markupsafe

from portal_field.lib.forms import TOKEN

FORM = re.compile(r'<form method="post"[^>]*>')


def token_field() -> markupsafe.Markup:
    """The field of a form that has the token; nothing where nobody is logged in."""
    login = flask.g.get("login")
    if login is None:
        return markupsafe.Markup("")
    return markupsafe.Markup('<input type="hidden" name="{}" value="{}">').format(TOKEN, login.token)


class InEachForm(jinja2.ext.Extension):
    """Puts the field behind the first tag of each form that is sent by POST, in whichever template it
    stands."""

    def preprocess(self, source: str, name: str | None, filename: str | None = None) -> str:
        """The source of a template with the field in each form."""
        return FORM.sub(lambda tag: tag[0] + "{{ token_field() }}", source)


def add_to(app: flask.Flask) -> None:
    """All templates of an application have the field from now on."""
    app.jinja_env.globals["token_field"] = token_field
    app.jinja_env.add_extension(InEachForm)
