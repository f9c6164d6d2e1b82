"""Checks of a venue's machine, each of which says what is wrong and what to do."""
