"""From which site's page a form was sent."""

from __future__ import annotations

import flask


def is_from_our_page() -> bool:
    """Another site's page cannot send forms in the clerk's name: browsers name the origin of every POST (RFC
    6454 section 7), with its port where that is not the scheme's. nginx says by which scheme the page is
    served."""
    head = flask.request.headers
    scheme = head.get("X-Scheme", "https")
    site = head.get("Host", "").removesuffix({"https": ":443", "http": ":80"}.get(scheme, ""))
    return site != "" and head.get("Origin", "") == f"{scheme}://{site}"
