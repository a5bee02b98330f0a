"""The header of a map set: its numbers and texts by name."""
from __future__ import annotations

from dataclasses import dataclass
from typing import Any, Mapping, NamedTuple, Optional

import numpy as np
from numpy.typing import NDArray

from ._areas import Array, ffi, lib, new
from .numbers import chosen, counted
from .times import datetimes

# The codes by their numbers in enum ionex_code, and the letters of SYS in the order of the header's numbers.
CODES = {name[len("IONEX_") :]: number for number, name in ffi.typeof("enum ionex_code").elements.items()}
SYSTEMS = "GRECJIS"

# Where each text stands, and its bytes.
TEXTS = {
    "program": (lib.IONEX_PROGRAM, 20),
    "run_by": (lib.IONEX_RUN_BY, 20),
    "date": (lib.IONEX_DATE, 20),
    "mapping_function": (lib.IONEX_MAPPING, 4),
    "observables": (lib.IONEX_OBSERVABLES, 60),
}
MOST_DESCRIPTIONS = (lib.IONEX_TEXTS - lib.IONEX_DESCRIPTION) // lib.IONEX_DESCRIPTION_BYTES


class Axis(NamedTuple):
    """First, last and step of a grid's lines: degrees, or kilometres of heights."""

    first: float
    last: float
    step: float

    @property
    def values(self) -> NDArray[np.float64]:
        first, last, step = (round(10 * part) for part in self)
        count = (last - first) // step + 1 if step else 1
        return (first + step * np.arange(count)) / 10


class Grid(NamedTuple):
    heights: Axis  # kilometres
    latitudes: Axis
    longitudes: Axis


@dataclass(frozen=True)
class Header:
    """What a file says of its maps before the first of them."""

    version: float
    code: str  # the system or model that the maps are from
    program: str
    run_by: str
    date: str
    descriptions: tuple[str, ...]
    first: np.datetime64
    last: np.datetime64
    interval: int  # seconds; 0 says that it varies
    maps: int
    mapping_function: str
    elevation_cutoff: float  # degrees
    observables: str
    stations: Optional[int]  # None where the record does not stand
    satellites: Optional[int]
    systems: Mapping[str, tuple[int, int]]  # of each letter that stands: stations and satellites
    base_radius: float  # kilometres
    dimension: int
    heights: Axis  # kilometres
    latitudes: Axis
    longitudes: Axis


def grid_of(numbers: Array) -> Grid:
    """The grid of a map set's numbers."""
    axes = numbers[lib.IONEX_HGT1 : lib.IONEX_HGT1 + 9].reshape(3, 3) / 10
    return Grid(*(Axis(*axis) for axis in axes.tolist()))


def header_of(numbers: Array, texts: Array) -> Header:
    """The header of a map set's areas."""

    def at(place: int) -> int:
        return int(numbers[place])

    def optional(place: int) -> Optional[int]:
        return at(place + 1) if at(place) else None

    first, last = datetimes(numbers[[lib.IONEX_FIRST_EPOCH, lib.IONEX_LAST_EPOCH]].astype(np.uint64))
    bytes_of, grid = texts.tobytes(), grid_of(numbers)
    return Header(
        version=at(lib.IONEX_VERSION) / 10,
        code={number: name for name, number in CODES.items()}[at(lib.IONEX_CODE)],
        descriptions=_descriptions(bytes_of, at(lib.IONEX_DESCRIPTIONS)),
        first=first,
        last=last,
        interval=at(lib.IONEX_INTERVAL),
        maps=at(lib.IONEX_MAPS),
        elevation_cutoff=at(lib.IONEX_CUTOFF) / 10,
        stations=optional(lib.IONEX_HAS_STATIONS),
        satellites=optional(lib.IONEX_HAS_SATELLITES),
        systems=_systems(numbers),
        base_radius=at(lib.IONEX_RADIUS) / 10,
        dimension=at(lib.IONEX_DIMENSION),
        heights=grid.heights,
        latitudes=grid.latitudes,
        longitudes=grid.longitudes,
        **{name: _words(bytes_of, start, size) for name, (start, size) in TEXTS.items()},
    )


def _words(texts: bytes, start: int, size: int) -> str:
    return texts[start : start + size].decode("ascii").rstrip(" ")


def _descriptions(texts: bytes, count: int) -> tuple[str, ...]:
    size = lib.IONEX_DESCRIPTION_BYTES
    return tuple(_words(texts, lib.IONEX_DESCRIPTION + size * line, size) for line in range(count))


def _systems(numbers: Array) -> dict[str, tuple[int, int]]:
    rows = numbers[lib.IONEX_SYSTEMS : lib.IONEX_SYSTEMS + 3 * len(SYSTEMS)].reshape(-1, 3).tolist()
    return {letter: (stations, satellites) for letter, (stands, stations, satellites) in zip(SYSTEMS, rows) if stands}


def numbers_of(header: Header, first: int, last: int) -> Array:
    """The header's numbers as the library takes them; epochs in seconds from 1900."""
    numbers = new(lib.IONEX_HEADER, np.int64)
    numbers[lib.IONEX_VERSION] = tenths(header.version, "version")
    numbers[lib.IONEX_TYPE] = ord("I")
    numbers[lib.IONEX_CODE] = chosen(header.code, CODES, "code")
    numbers[[lib.IONEX_FIRST_EPOCH, lib.IONEX_LAST_EPOCH]] = first, last
    numbers[lib.IONEX_INTERVAL] = counted(header.interval, "interval")
    numbers[lib.IONEX_MAPS] = header.maps
    numbers[lib.IONEX_CUTOFF] = tenths(header.elevation_cutoff, "elevation_cutoff")
    numbers[lib.IONEX_RADIUS] = tenths(header.base_radius, "base_radius")
    numbers[lib.IONEX_DIMENSION] = header.dimension
    axes = ((lib.IONEX_HGT1, header.heights), (lib.IONEX_LAT1, header.latitudes), (lib.IONEX_LON1, header.longitudes))
    for place, axis in axes:
        numbers[place : place + 3] = [tenths(part, "a grid line") for part in axis]
    for place, count in ((lib.IONEX_HAS_STATIONS, header.stations), (lib.IONEX_HAS_SATELLITES, header.satellites)):
        if count is not None:
            numbers[place : place + 2] = 1, counted(count, "a count of stations or satellites")
    _put_systems(numbers, header.systems)
    numbers[lib.IONEX_DESCRIPTIONS] = len(header.descriptions)
    return numbers


def _put_systems(numbers: Array, systems: Mapping[str, tuple[int, int]]) -> None:
    letters = {letter: lib.IONEX_SYSTEMS + 3 * at for at, letter in enumerate(SYSTEMS)}
    for letter, (stations, satellites) in systems.items():
        place = chosen(letter, letters, "system")
        numbers[place : place + 3] = 1, counted(stations, "stations"), counted(satellites, "satellites")


def texts_of(header: Header) -> Array:
    """The header's texts as the library takes them: padded with blanks."""
    if len(header.descriptions) > MOST_DESCRIPTIONS:
        raise ValueError(f"{len(header.descriptions)} descriptions: at most {MOST_DESCRIPTIONS}")
    texts = bytearray(b" " * lib.IONEX_TEXTS)
    for name, (start, size) in TEXTS.items():
        texts[start : start + size] = _padded(getattr(header, name), size, name)
    size = lib.IONEX_DESCRIPTION_BYTES
    for line, words in enumerate(header.descriptions):
        start = lib.IONEX_DESCRIPTION + size * line
        texts[start : start + size] = _padded(words, size, "a description")
    return np.frombuffer(bytes(texts), np.uint8)


def _padded(words: Any, size: int, what: str) -> bytes:
    if not isinstance(words, str):
        raise TypeError(f"{what}: expected text, found {type(words).__name__}")
    if not (words.isascii() and words.isprintable() and len(words) <= size):
        raise ValueError(f"{what} {words!r}: at most {size} printable ASCII characters")
    return words.encode("ascii").ljust(size)


def tenths(value: Any, what: str) -> int:
    """Whole tenths of a number that has at most one decimal."""
    if not isinstance(value, (int, float, np.integer, np.floating)):
        raise TypeError(f"{what}: expected a number, found {type(value).__name__}")
    number = float(value)
    if not abs(number) <= 1e9 or round(10 * number) / 10 != number:
        raise ValueError(f"{what} {value!r}: a number with at most one decimal")
    return round(10 * number)
