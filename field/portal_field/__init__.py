"""The field kit: one machine becomes the captive portal of a venue. Each part is a package of its own."""

from __future__ import annotations

import pathlib

# with what other programs read: settings of theirs, units, catalogues
KIT = pathlib.Path(__file__).resolve().parent.parent
