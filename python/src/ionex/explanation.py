"""Where an answer came from."""
from __future__ import annotations

from dataclasses import dataclass
from fractions import Fraction
from typing import Any

import numpy as np
from numpy.typing import NDArray

# As the library tells of a node; a value is in thousandths of the unit.
NODE = np.dtype([(name, np.int64) for name in ("map", "layer", "row", "column", "thousandths", "weight")])

# Words over the columns of a printed explanation, and the width of each column.
COLUMNS = {"map": 5, "epoch": 19, "lat": 6, "lon": 6, "layer": 5, "row": 4, "column": 6, "value": 16, "weight": 14, "share": 9}


@dataclass(frozen=True, eq=False)
class Explanation:
    """The nodes of an answer: the sum of thousandths times weight over the denominator, rounded once, is the answer.

    nodes         a structured array: map (from 1), layer, row and column (from 0), thousandths, weight
    places        epoch, latitude and longitude of each node
    denominator   what the weights add to
    thousandths   the answer, of the unit
    """

    nodes: NDArray[Any]
    places: tuple[tuple[np.datetime64, float, float], ...]
    denominator: int
    thousandths: int
    unit: str

    @property
    def exact(self) -> Fraction:
        """The fraction before it is rounded, in thousandths of the unit."""
        return Fraction(self._sum, self.denominator)

    @property
    def value(self) -> float:
        return self.thousandths / 1000

    @property
    def _sum(self) -> int:
        return sum(int(node["thousandths"]) * int(node["weight"]) for node in self.nodes)

    def __str__(self) -> str:
        """A table of the nodes, as the crate for Rust prints it."""
        head = "  ".join(f"{name:{'<' if name == 'epoch' else '>'}{width}}" for name, width in COLUMNS.items())
        rows = [self._row(node, *place) for node, place in zip(self.nodes, self.places)]
        millionths = abs(1000 * self._sum) // self.denominator
        exact = millionths * self.denominator == abs(1000 * self._sum)
        sign = "-" if self._sum < 0 else ""
        decimals = f"{sign}{millionths // 1_000_000}.{millionths % 1_000_000:06}"
        equal = f"{self._sum}/{self.denominator} thousandths{' =' if exact else ', about'} {decimals} {self.unit}"
        below = [f"sum of value times weight: {equal}", f"rounded once: {self.value:.3f} {self.unit}"]
        return "\n".join([head, *rows, *below])

    def _row(self, node: Any, epoch: np.datetime64, latitude: float, longitude: float) -> str:
        share = (200_000 * int(node["weight"]) + self.denominator) // (2 * self.denominator)
        cells = {
            "map": node["map"],
            "epoch": str(epoch).replace("T", " "),
            "lat": f"{latitude:.1f}",
            "lon": f"{longitude:.1f}",
            "layer": node["layer"],
            "row": node["row"],
            "column": node["column"],
            "value": f"{node['thousandths'] / 1000:.3f} {self.unit}",
            "weight": node["weight"],
            "share": f"{share / 1000:.3f} %",
        }
        return "  ".join(f"{cells[name]!s:>{width}}" for name, width in COLUMNS.items())
