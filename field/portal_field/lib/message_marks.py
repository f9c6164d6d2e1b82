"""Marks of messages that stand in a source and are translated where they are shown; the catalogues' tool
finds them."""

from __future__ import annotations


def guest_words(text: str) -> str:
    """Marks a message that guests read; it stays as it is."""
    return text


def clerk_words(text: str) -> str:
    """Marks a message that clerks read; it stays as it is."""
    return text
