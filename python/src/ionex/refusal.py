"""Why a call was refused: its number, its place, and words."""
from __future__ import annotations

from typing import Any, NamedTuple, Optional

import numpy as np

from ._words import MEANINGS

# Why a node has no value, by the numbers of enum ionex_cause. The others cannot be of a valid map set.
CAUSES = {1: "there is no {kind} map at that epoch", 4: "its number is 9999"}

# More of a line is not shown: 80 columns and a few of what is too much.
SHOWN = 100

# Bytes in which lines are counted at once.
CHUNK = 1 << 16


class Lacking(NamedTuple):
    """The first node that an answer needs and that has no value."""

    kind: str
    map: int  # from 1, as files number their maps; layer, row and column from 0
    layer: int
    row: int
    column: int
    epoch: np.datetime64
    latitude: float
    longitude: float
    cause: int  # 1 there is no map, 4 the number is 9999

    def __str__(self) -> str:
        when = str(self.epoch).replace("T", " ")
        why = CAUSES[self.cause].format(kind="height" if self.kind == "height" else self.kind.upper())
        return (
            f"map {self.map} ({when}), layer {self.layer}, row {self.row} (latitude {self.latitude:.1f}), "
            f"column {self.column} (longitude {self.longitude:.1f}): {why}"
        )


class Refusal(ValueError):
    """A call that was refused; nothing was changed by it.

    number    as docs/01-scope.md and docs/02-requests.md have it
    line      of the text, from 1; None where no text was refused
    column    of that line, from 1; 0 where a rule over several fields or records is broken
    lacking   of refusal 22, where it was looked for (explain): the node that has no value
    file      the file that was read, where there is one
    shown     the refused line with a mark under the column, as `ionex check` shows it
    """

    def __init__(
        self,
        number: int,
        line: Optional[int] = None,
        column: Optional[int] = None,
        lacking: Optional[Lacking] = None,
        file: Optional[str] = None,
        shown: Optional[str] = None,
    ) -> None:
        self.number, self.line, self.column = number, line, column
        self.lacking, self.file, self.shown = lacking, file, shown
        super().__init__(number)

    @property
    def meaning(self) -> str:
        """What the number says, in a few words and without the place."""
        return MEANINGS.get(self.number, "a refusal that this package does not know")

    @property
    def words(self) -> str:
        """In one line, as the crate for Rust says it."""
        words = f"refused {self.number}: {self.meaning}"
        if self.line is not None:
            words += f", line {self.line}" + (f", column {self.column}" if self.column else "")
        if self.lacking is not None:
            words += f", {self.lacking}"
        return words

    def __str__(self) -> str:
        words = self.words
        if self.file is not None and self.line is not None:
            words = f"{self.file}:{self.line}:{self.column}: refused {self.number}: {self.meaning}"
        elif self.file is not None:
            words = f"{self.file}: {words}"
        return words if self.shown is None else f"{words}\n{self.shown}"

    def __reduce__(self) -> tuple[Any, ...]:
        # Worker processes hand refusals back.
        return Refusal, (self.number, self.line, self.column, self.lacking, self.file, self.shown)


def of_text(number: int, line: int, column: int, text: bytes, file: Optional[str]) -> Refusal:
    """The refusal of a text, with its line."""
    return Refusal(number, line, column, file=file, shown=_shown(number, line, column, text))


def _shown(number: int, line: int, column: int, text: bytes) -> Optional[str]:
    if number == 10:
        # The text ends too soon: the last line that is not blank, and what is missing behind it.
        text = text.rstrip(b" \r\n")
        line = text.count(b"\n") + 1
        if not text:
            return None
    start = _start(text, line)
    end = text.find(b"\n", start)
    found = text[start:] if end < 0 else text[start:end]
    if end >= 0 and found.endswith(b"\r"):
        found = found[:-1]
    mark = min(len(found), 80) + 1 if number == 10 else column or _ruled(found)
    margin = max(4, len(str(line)))
    return f" {line:>{margin}} | {_printable(found)}\n {'':{margin}} | {' ' * (mark - 1)}^"


def _start(text: bytes, line: int) -> int:
    """Where a line begins; a text may be long, so lines are counted before they are looked for."""
    at, before = 0, line - 1
    while before > (count := text.count(b"\n", at, at + CHUNK)):
        at, before = at + CHUNK, before - count
    for _ in range(before):
        at = text.index(b"\n", at) + 1
    return at


def _ruled(line: bytes) -> int:
    """Column 0 is a rule over several fields, which begin in column 3, or over several records: then the label is marked."""
    return 3 if line[60:].startswith((b"HGT1", b"LAT1", b"LON1")) else 61


def _printable(line: bytes) -> str:
    """One character for each byte; those that cannot be printed are shown as `?`."""
    words = "".join(chr(byte) if 32 <= byte <= 126 else "?" for byte in line[:SHOWN]).rstrip()
    return words + " ..." if len(line) > SHOWN else words
