"""The venue's own texts on the guests' page: Markdown files in one folder, by language."""

from __future__ import annotations

import functools
import pathlib
import re
from dataclasses import dataclass

import markupsafe
from markdown_it import MarkdownIt

from portal_field.lib.languages import Language

GREETING, TERMS, PRIVACY = "greeting", "terms", "privacy"
COMMENT = re.compile("<!--.*?-->", re.S)        # which the venue writes for itself
LONGEST = 64 * 1024     # bytes of a text


@dataclass(frozen=True)
class Text:
    """A text as HTML; `tag` is its language, or nothing where its file names none."""
    html: markupsafe.Markup
    tag: str


@functools.lru_cache(64)
def html_of(path: pathlib.Path, changed: int, size: int) -> markupsafe.Markup:
    """The HTML of a file as it was when it was `changed`. OSError."""
    return html_from(path.read_bytes()[:LONGEST].decode("utf-8", "replace"))


def html_from(source: str) -> markupsafe.Markup:
    """The HTML of a text. Markdown alone makes markup: a tag that is typed is shown as words, and only links
    to safe addresses are links. Headings are below that of the page."""
    parser = MarkdownIt("commonmark", {"html": False}).disable(["html_block", "html_inline", "image"])
    tokens = parser.parse(COMMENT.sub("", source))
    for token in tokens:
        if token.type in ("heading_open", "heading_close"):
            token.tag = f"h{min(6, int(token.tag[1]) + 1)}"
    return markupsafe.Markup(parser.renderer.render(tokens, parser.options, {}))


def text(folder: str, name: str, language: Language) -> Text | None:
    """A text in this language, or else that of the file without one, or in English; None where the venue has
    none that can be read."""
    for tag in (language.tag, "", "en"):
        path = pathlib.Path(folder, f"{name}.{tag}.md" if tag else f"{name}.md")
        try:
            state = path.stat()
            return Text(html_of(path, state.st_mtime_ns, state.st_size), tag)
        except OSError:
            continue
    return None
