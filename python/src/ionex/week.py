"""The figures of up to a hundred map sets: nodes counted, smallest and largest values, and sums."""
from __future__ import annotations

from dataclasses import dataclass
from typing import Optional

import numpy as np

from ._areas import Array, flat, lib, new
from .mapset import KINDS, MapSet
from .refusal import Refusal

# A week takes no more sets.
SETS = int(lib.IONEX_WEEK_SETS)


@dataclass(frozen=True)
class Figures:
    """Of nodes: how many have a value and how many none, and the smallest, the largest and the sum in thousandths of the unit."""

    given: int = 0
    lacking: int = 0
    smallest: Optional[int] = None
    largest: Optional[int] = None
    sum: int = 0

    def __add__(self, other: Figures) -> Figures:
        smallest = [part for part in (self.smallest, other.smallest) if part is not None]
        largest = [part for part in (self.largest, other.largest) if part is not None]
        return Figures(
            self.given + other.given,
            self.lacking + other.lacking,
            min(smallest, default=None),
            max(largest, default=None),
            self.sum + other.sum,
        )

    @property
    def mean(self) -> Optional[float]:
        """In the unit; None where no node has a value."""
        return self.sum / self.given / 1000 if self.given else None


class Week:
    """Figures of map sets by the library, for up to a hundred of them. Their order makes no difference: that is proved.
    One thread at a time adds to a week."""

    def __init__(self) -> None:
        self._numbers = new(lib.IONEX_WEEK, np.int64)

    @property
    def added(self) -> int:
        """How many sets were added."""
        return int(self._numbers[lib.IONEX_WEEK_ADDED])

    @property
    def figures(self) -> dict[str, Figures]:
        """Of each kind over all sets."""
        rows = self._numbers[lib.IONEX_WEEK_KINDS :].reshape(-1, lib.IONEX_FIGURES)
        return {kind: _figures(rows[at]) for kind, at in KINDS.items()}

    def add(self, maps: MapSet) -> dict[str, list[Figures]]:
        """Adds a set, and gives its own figures: of each kind one for each map, then one for all of them. Refused 60 where
        the week is full; it is then as it was."""
        if not isinstance(maps, MapSet):
            raise TypeError(f"a map set is added to a week, not {type(maps).__name__}")
        numbers, place = self._numbers.copy(), new(2, np.uint64)
        rows = new(len(KINDS) * lib.IONEX_FIGURES * (maps.shape[0] + 1), np.int64)
        number = lib.ionex_week_add(*flat(numbers), *maps._given, *flat(rows, place))
        if number:
            raise Refusal(int(number))
        self._numbers = numbers
        of_kinds = rows.reshape(len(KINDS), -1, lib.IONEX_FIGURES)
        return {kind: [_figures(row) for row in of_kinds[at]] for kind, at in KINDS.items()}


def _figures(row: Array) -> Figures:
    given, lacking, smallest, largest, total = (int(number) for number in row)
    return Figures(given, lacking, smallest, largest, total) if given else Figures(0, lacking)
