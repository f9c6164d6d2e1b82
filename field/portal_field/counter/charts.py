"""Bars with axes, dates and values, as SVG in percent of its place, so that words keep their size on every
screen."""

from __future__ import annotations

from collections.abc import Callable, Sequence
from dataclasses import dataclass, field

# Where bars stand, in percent of the width: the axis has the words at the left
LEFT, RIGHT = 14.0, 100.0
TOP, FOOT = 8.0, 88.0           # and of the height; below are the names
MOST_NAMES, MOST_VALUES, NARROW_NAMES = 10, 12, 4       # that a wide screen has room for, and a narrow one
STEPS = (1, 2, 5)


@dataclass(frozen=True)
class Group:
    """What one place of the axis has: its name, a short name, and a value for each kind. Values below
    nought go down."""
    name: str
    short: str
    values: tuple[int, ...]


@dataclass(frozen=True)
class Bar:
    """One value, in percent. `words`: the name and the value."""
    kind: str
    left: float
    wide: float
    top: float
    high: float
    words: str


@dataclass(frozen=True)
class Mark:
    """Words at a place of an axis, in percent. `is_extra`: for wide screens alone."""
    at: float
    words: str
    is_extra: bool = False


@dataclass(frozen=True)
class Chart:
    """Bars from the line of nought, lines across with their values, names below, and values above bars that
    are few."""
    line: float
    bars: list[Bar] = field(default_factory=list)
    ticks: list[Mark] = field(default_factory=list)
    names: list[Mark] = field(default_factory=list)
    values: list[tuple[Mark, float]] = field(default_factory=list)


def step_of(most: int, least: int = 1, lines: int = 3) -> int:
    """The distance of lines across: 1, 2 or 5 with noughts, so that there are so many to the highest value,
    or a few more."""
    size, step = 1, 1
    while True:
        for part in STEPS:
            if size * part * lines > max(most, 1):
                return max(step, least)
            step = size * part
        size *= 10


def chart(groups: Sequence[Group], kinds: Sequence[str], say: Callable[[int], str], least: int = 1,
          lines: int = 3, tick: Callable[[int], str] | None = None) -> Chart | None:
    """The bars of groups, each with a value of each kind; nothing where all are nought. `say` writes a
    value. `least`: the smallest distance of lines across. `lines`: how many there are at least. `tick`
    writes the value of such a line, where that is shorter."""
    values = [value for group in groups for value in group.values]
    most, lowest = max([0, *values]), min([0, *values])
    if most == lowest:
        return None
    step = step_of(max(most, -lowest), least, lines)
    high, low = -(-most // step) * step, -(lowest // step) * -step
    scale = (FOOT - TOP) / (high - low)

    def place(value: int) -> float:
        """Where a value is from above."""
        return FOOT - (value - low) * scale

    words = tick or say
    made = Chart(place(0), ticks=[Mark(place(value), words(value)) for value in range(low, high + 1, step)])
    for at, group in enumerate(groups):
        add(made, group, kinds, at, len(groups), place, say)
    return made


def add(made: Chart, group: Group, kinds: Sequence[str], at: int, many: int, place: Callable[[int], float],
        say: Callable[[int], str]) -> None:
    """The bars of one group. Those of several kinds stand beside one another where both go up."""
    wide = (RIGHT - LEFT) / many
    left, is_beside = LEFT + at * wide, kinds[1:] != ["refunds"]
    each = wide * .8 / (len(kinds) if is_beside else 1)
    for number, (kind, value) in enumerate(zip(kinds, group.values)):
        if value:
            top, end = sorted((place(value), place(0)))
            bar = left + wide * .1 + (number * each if is_beside else 0)
            made.bars.append(Bar(kind, bar, each, top, end - top, f"{group.name}: {say(abs(value))}"))
    middle = left + wide / 2
    if at % -(-many // MOST_NAMES) == 0:
        made.names.append(Mark(middle, group.short, at % -(-many // NARROW_NAMES) != 0))
    if many <= MOST_VALUES and len(kinds) - (not is_beside) == 1 and group.values[0]:
        made.values.append((Mark(middle, say(group.values[0]), many > NARROW_NAMES), place(group.values[0])))
