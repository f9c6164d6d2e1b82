#!/usr/bin/env python3
"""Prints the codes of a seed, worked out here from ChaCha20 (RFC 8439), for whoever writes a case.

    tests/cases/codes.py SEED COUNT        SEED: 64 hexadecimal digits, or 2 that stand for 32 equal bytes
"""

from __future__ import annotations

import struct
import sys
from collections.abc import Iterator

ALPHABET = "23456789ABCDEFGHJKMNPQRSTUVWXYZ"
LENGTH = 15
CONSTANTS = (0x61707865, 0x3320646E, 0x79622D32, 0x6B206574)
MASK = 0xFFFFFFFF
COLUMNS = ((0, 4, 8, 12), (1, 5, 9, 13), (2, 6, 10, 14), (3, 7, 11, 15))
DIAGONALS = ((0, 5, 10, 15), (1, 6, 11, 12), (2, 7, 8, 13), (3, 4, 9, 14))


def quarter(state: list[int], a: int, b: int, c: int, d: int) -> None:
    for left, right, to, turn in ((a, b, d, 16), (c, d, b, 12), (a, b, d, 8), (c, d, b, 7)):
        state[left] = (state[left] + state[right]) & MASK
        mixed = state[to] ^ state[left]
        state[to] = (mixed << turn | mixed >> (32 - turn)) & MASK


def words_of(key: bytes) -> Iterator[int]:
    """The words of the stream 0 from its place 0 on; the number of the block has 64 bits."""
    block = 0
    while True:
        start = [*CONSTANTS, *struct.unpack("<8I", key), block & MASK, block >> 32, 0, 0]
        state = list(start)
        for _ in range(10):
            for places in COLUMNS + DIAGONALS:
                quarter(state, *places)
        yield from ((word + first) & MASK for word, first in zip(state, start))
        block += 1


def code_of(values: list[int]) -> str:
    """The values with weights from 2 on, and a check character that makes the sum divisible by 31."""
    check = -sum(weight * value for weight, value in enumerate(values, 2)) % 31
    text = "".join(ALPHABET[value] for value in [*values, check])
    return "-".join(text[at:at + 4] for at in range(0, len(text), 4))


def main() -> int:
    if len(sys.argv) != 3 or len(sys.argv[1]) not in (2, 64):
        print(__doc__, file=sys.stderr)
        return 2
    key = bytes.fromhex(sys.argv[1])
    words = words_of(key * 32 if len(key) == 1 else key)
    for _ in range(int(sys.argv[2])):
        print(code_of([next(words) % 31 for _ in range(LENGTH)]))
    return 0


if __name__ == "__main__":
    sys.exit(main())
