"""The two files that a venue gets as samples and edits: is one still as it was brought?"""

from __future__ import annotations

import hashlib
import pathlib

# SHA-256 of each file as this and earlier versions bring it: a venue may have an earlier one, and an upgrade
# leaves it as it is. Whoever changes a sample adds its sum here, and takes none out.
BROUGHT = {
    "field.toml": ("79c741b9d701fbf6ccb600fe7d78250123f331c903b607f6262add412360c93c",      # 1.0.0
                   "2f40526556a446c01956663017e199e71fc0686508757cd742f645a8030add0f",
                   "ca8f61c470ef684963fdb46579243e4b458feb032caf47af8572da85e549d936",
                   "38f92ea4f31ef385822af1787f426ab8eb920e925dc3de17408528728fd98cdd",
                   "db44d19a2110a0294a176961cbad9b5c8fa05a24c81156a124e8836babe47961",
                   "2edb37a34a5751e30e84592b4c16913976f428f1b24abaed6752ebc6f8f77e76",
                   "319be1122b9e60d775c982fc6283ccd5f8900e6b8a3bfc89b20dcd8a136b888e"),
    "plans.toml": ("ca0ba1a856133fe9992cafc02799f8dfa8a368be378e0feea47a13d750fc8950",      # 1.0.0
                   "5bcdc071748dcb50e4305350c50923aa98372fc1b7fefacb4deeb36743a7a9bc"),
}
SAMPLE, CHOSEN = "# A sample: ", "# The prices were chosen at set-up.\n"


def sum_of(path: pathlib.Path) -> str:
    """The SHA-256 of a file."""
    return hashlib.sha256(path.read_bytes()).hexdigest()


def is_sample(path: pathlib.Path) -> bool:
    """Whether a venue's file is byte for byte the sample of this version or of an earlier one."""
    return sum_of(path) in BROUGHT[path.name]


def mark_as_chosen(text: str) -> str:
    """The text of a plans file, marked as one whose prices somebody chose: it is no sample any more, and has
    not its first paragraph."""
    rest = text.partition("\n\n")[2] if text.startswith(SAMPLE) else text
    return CHOSEN + rest
