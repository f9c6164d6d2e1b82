"""A venue's colour, made readable: links and buttons have a contrast of 4.5:1 (WCAG 2.2, 1.4.3) on the light
page and on the dark one."""

from __future__ import annotations

import math
import re

COLOUR = re.compile(r"#[0-9a-fA-F]{6}")
LEAST = 4.5
STEPS = 50              # from the colour to black or white
BLACK, WHITE = (0, 0, 0), (255, 255, 255)
# What the style sheet has behind text: the page and its cards.
LIGHT, DARK = ((251, 250, 247), WHITE), ((22, 24, 29), (31, 35, 42))
Colour = tuple[int, int, int]


def read(text: str) -> Colour:
    """The colour of a text such as #0b5d51."""
    return int(text[1:3], 16), int(text[3:5], 16), int(text[5:7], 16)


def luminance(colour: Colour) -> float:
    """The relative luminance of a colour, from 0 to 1."""
    red, green, blue = (part / 12.92 if part <= 0.04045 else math.pow((part + 0.055) / 1.055, 2.4)
                        for part in (part / 255 for part in colour))
    return 0.2126 * red + 0.7152 * green + 0.0722 * blue


def contrast(one: Colour, other: Colour) -> float:
    """The contrast of two colours, from 1 to 21."""
    dark, light = sorted((luminance(one), luminance(other)))
    return (light + 0.05) / (dark + 0.05)


def readable(colour: Colour, behind: tuple[Colour, ...], end: Colour) -> Colour:
    """The first colour on the way to `end` that can be read on all that is behind it."""
    for step in range(STEPS + 1):
        red, green, blue = (round(a + (b - a) * step / STEPS) for a, b in zip(colour, end))
        if all(contrast((red, green, blue), back) >= LEAST for back in behind):
            return red, green, blue
    return end


def on(colour: Colour) -> Colour:
    """What is read best on a colour: black or white; one of them has a contrast of 4.5:1 at least."""
    return max(BLACK, WHITE, key=lambda text: contrast(text, colour))


def lines(colour: str) -> str:
    """The lines of a style sheet that set a venue's colour; none without one."""
    if not colour:
        return ""
    own = read(colour)
    sets = [":root {{ --act: #{:02x}{:02x}{:02x}; --on-act: #{:02x}{:02x}{:02x}; }}".format(*act, *on(act))
            for act in (readable(own, LIGHT, BLACK), readable(own, DARK, WHITE))]
    return f"{sets[0]}\n@media (prefers-color-scheme: dark) {{ {sets[1]} }}\n"
