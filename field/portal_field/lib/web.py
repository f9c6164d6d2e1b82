"""Pages behind nginx: applications of Flask, which `serving` serves on a socket in the file system."""

from __future__ import annotations

import pathlib

import flask
import jinja2

from portal_field.lib import doors, serving

LIB = pathlib.Path(__file__).resolve().parent
Answer = serving.Answer
Application = serving.Application
listening, server, serve = doors.listening, serving.server, serving.serve


def pages(name: str, folder: pathlib.Path) -> flask.Flask:
    """An application whose templates are in the folder, or are of both pages, and whose answers nobody
    keeps."""
    app = flask.Flask(name, root_path=str(folder), static_folder=None)
    app.jinja_options = {"trim_blocks": True, "lstrip_blocks": True, "undefined": jinja2.StrictUndefined}
    app.jinja_loader = jinja2.FileSystemLoader([folder / "templates", LIB / "templates"])

    @app.after_request
    def no_store(response: flask.Response) -> flask.Response:
        """Marks an answer as one that nobody keeps."""
        response.headers.setdefault("Cache-Control", "no-store")
        return response

    return app
