"""Answers to many questions."""
from __future__ import annotations

import numpy as np
from numpy.typing import NDArray

from ._areas import flat, lib, new
from .refusal import Refusal

L1, L2, L5 = 1575.42e6, 1227.60e6, 1176.45e6


class Answers:
    """What a map set answers to questions, in their shape.

    thousandths   int32, of the unit; exact, and 0 where refused
    refused       uint8: 0, or 20 (time outside the maps), 21 (place outside the grid), 22 (a node has no value)
    values        float64 in the unit, NaN where refused
    """

    def __init__(self, kind: str, thousandths: NDArray[np.int32], refused: NDArray[np.uint8]) -> None:
        self.kind, self.thousandths, self.refused = kind, thousandths, refused

    @property
    def unit(self) -> str:
        return unit(self.kind)

    @property
    def values(self) -> NDArray[np.float64]:
        return np.where(self.refused == 0, self.thousandths / 1000, np.nan)

    @property
    def ok(self) -> NDArray[np.bool_]:
        return np.asarray(self.refused == 0)

    def item(self) -> float:
        """The one answer, or the refusal raised."""
        if self.refused.size != 1:
            raise ValueError(f"there is not one answer but {self.refused.size}")
        number = int(self.refused.reshape(-1)[0])
        if number:
            raise Refusal(number)
        return float(self.thousandths.reshape(-1)[0] / 1000)

    def delay(self, carrier: float = L1) -> NDArray[np.float64]:
        """The group delay in metres at a carrier in hertz, NaN where refused. The steps and their order are the library's, so
        each number has the very bits that it gives."""
        if self.kind == "height":
            raise TypeError("a height has no delay")
        hertz = float(carrier)
        number = lib.ionex_tecu_delay(0, hertz, *flat(new(lib.IONEX_RECORD, np.float64)))
        if number:
            raise Refusal(int(number))
        square = np.float64(hertz) * np.float64(hertz)
        metres = self.thousandths / 1000 * 4.03e17 / square
        return np.where(self.refused == 0, metres, np.nan)

    def __len__(self) -> int:
        return len(self.refused)

    def __repr__(self) -> str:
        count = int(np.count_nonzero(self.refused))
        return f"<{self.refused.size} answers in {self.unit}, {count} refused>"


def unit(kind: str) -> str:
    return "km" if kind == "height" else "TECU"
