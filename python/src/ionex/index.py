"""An index beside a text: one node or one block, without the whole grid."""
from __future__ import annotations

from typing import Any, Mapping, NamedTuple

import numpy as np
from numpy.typing import NDArray

from ._areas import Array, flat, lib, new, own, room, text
from .files import Source, source
from .header import Header, header_of
from .mapset import KINDS, MOST_MAPS, MOST_VALUES, _shape
from .numbers import chosen, counted
from .refusal import Refusal, of_text

AREAS = {"header": np.int64, "texts": np.uint8, "positions": np.uint64, "exponents": np.int32, "marks": np.uint8}
LENT = ("positions", "exponents", "marks", "header", "texts")


class Written(NamedTuple):
    """A number as the text has it, 9999 included: it counts number times ten to the exponent."""

    number: int
    exponent: int


class Index:
    """Where each block of a text opens, and its exponent. `Index.of(text)` makes one; nothing of it can be changed."""

    def __init__(self, areas: Mapping[str, Array]) -> None:
        self._areas = {name: own(areas[name], dtype, name) for name, dtype in AREAS.items()}
        self._given = flat(*self._areas.values())
        # There is no map 0: what is told before that is that this is no index.
        number = lib.ionex_indexed_node(*text(b""), *self._given, 0, 0, 0, 0, 0, *flat(new(2, np.int32)))
        if number != lib.IONEX_OUTSIDE_GRID:
            raise Refusal(int(number))

    @classmethod
    def of(cls, given: Source) -> Index:
        """The index of a text; refused exactly where MapSet.read refuses it. Positions count in the text as it is unpacked."""
        data, name = source(given)
        entries = 3 * min(len(data) // 80, MOST_VALUES)
        lengths = (lib.IONEX_HEADER, lib.IONEX_TEXTS, entries, entries, MOST_MAPS)
        areas = {area: room(length, dtype) for (area, dtype), length in zip(AREAS.items(), lengths)}
        place = new(2, np.uint64)
        number = lib.ionex_index(*text(data), *flat(*(areas[area] for area in LENT), place))
        if number:
            raise of_text(int(number), int(place[0]), int(place[1]), data, name)
        maps, layers, rows, _ = _shape(areas["header"])
        needs = {"positions": 3 * maps * layers * rows, "exponents": 3 * maps * layers * rows, "marks": maps}
        return cls({area: array[: needs.get(area, array.size)] for area, array in areas.items()})

    @property
    def header(self) -> Header:
        return header_of(self._areas["header"], self._areas["texts"])

    @property
    def positions(self) -> NDArray[np.uint64]:
        """Bytes from the text's start: kinds, maps, layers, rows; 0 where a map does not stand. Read-only."""
        return self._areas["positions"].reshape((3, *_shape(self._areas["header"])[:3]))

    def node(self, given: Source, kind: str, map: int, layer: int, row: int, column: int) -> Written:
        """The number of a node and its exponent, by looking at one block of the text. Maps count from 1, the others from 0.
        Refused 21, 22, or 50 where the index does not fit the text."""
        value = new(2, np.int32)
        self._call(lib.ionex_indexed_node, source(given)[0], kind, (map, layer, row, column), value)
        return Written(int(value[0]), int(value[1]))

    def block(self, given: Source, kind: str, map: int, layer: int, row: int, column: int) -> bytes:
        """The lines of that node's block, without the last line's end."""
        data, bounds = source(given)[0], new(2, np.uint64)
        self._call(lib.ionex_indexed_block, data, kind, (map, layer, row, column), bounds)
        start, length = (int(bound) for bound in bounds)
        return data[start : start + length]

    def _call(self, function: Any, data: bytes, kind: str, node: tuple[int, ...], told: Array) -> None:
        names = ("map", "layer", "row", "column")
        places = [counted(number, name) for number, name in zip(node, names)]
        number = function(*text(data), *self._given, chosen(kind, KINDS, "kind"), *places, *flat(told))
        if number:
            raise Refusal(int(number))

    def __reduce__(self) -> tuple[Any, ...]:
        return _restored, ({name: area.tobytes() for name, area in self._areas.items()},)


def _restored(parts: Mapping[str, bytes]) -> Index:
    return Index({name: np.frombuffer(parts[name], dtype) for name, dtype in AREAS.items()})
