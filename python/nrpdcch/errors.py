"""What the calls refuse, as exceptions: all are of one class, and each says at which place and for which reason."""
from __future__ import annotations

from typing import Dict, Type


class NrpdcchError(Exception):
    """A refusal: `place` is where the cause is, as the error lines of docs/FORMATS.md have it, and may be empty; `reason` says
    what it is; `status` is the number that the library answered (`enum nrpdcch_status` of nrpdcch.h)."""

    status: int = 0

    def __init__(self, place: str, reason: str) -> None:
        super().__init__(f"{place}: {reason}" if place else reason)
        self.place = place
        self.reason = reason


class ArgumentRefused(NrpdcchError, ValueError):
    """A number is out of its range: mu 0 to 3, frame 0 to 1023, slot below 10 * 2^mu, blocks 6 to 275."""
    status = 1


class OutOfMemory(NrpdcchError, MemoryError):
    """The library found no memory. Everything is as before the call, which may be made again."""
    status = 2


class CellClosed(NrpdcchError):
    """The cell was closed."""
    status = 3


class CellOpen(NrpdcchError):
    """The handle is open already. A `Cell` opens its handle once, so that this comes only where its memory was written to."""
    status = 4


class SettingsRefused(NrpdcchError, ValueError):
    """The settings are not those of a legal cell: `place` is as `handsets/0/rnti` or `file`, `reason` as `out of range`."""
    status = 5


class TableRefused(NrpdcchError, ValueError):
    """A table of the polar code is refused: `place` is `reliability` or `input order`, `reason` as `value 7 repeated`."""
    status = 6


class OverBudget(NrpdcchError):
    """In the slot the common sets of the handset exceed the budget, so that it has no plan."""
    status = 7


class NoSuchHandset(NrpdcchError, LookupError):
    """The cell has no such handset."""
    status = 8


class NoSuchWatch(NrpdcchError, LookupError):
    """The plan of the handset has no watch of this number in the slot."""
    status = 9


class NoSuchFormat(NrpdcchError, LookupError):
    """No format has this word."""
    status = 10


class FormatNotCarried(NrpdcchError, ValueError):
    """The watch does not carry the format."""
    status = 11


class FieldRefused(NrpdcchError, ValueError):
    """The field values make no payload: `place` is the word of the field."""
    status = 12


class GridLength(NrpdcchError, ValueError):
    """The grid is not of the blocks of the carrier: it has another number of bytes than 14 * 12 * blocks."""
    status = 14


class GridByte(NrpdcchError, ValueError):
    """A byte of the grid is no point: `at` is its place, `place` the same in words. Points are 0 to 4."""
    status = 15

    def __init__(self, place: str, reason: str, at: int = 0) -> None:
        super().__init__(place, reason)
        self.at = at


class GridTextRefused(NrpdcchError, ValueError):
    """The text is that of no grid: `at` is how many of its first bytes are those of some grid's text, `place` the same in
    words."""
    status = 17

    def __init__(self, place: str, reason: str, at: int = 0) -> None:
        super().__init__(place, reason)
        self.at = at


BY_STATUS: Dict[int, Type[NrpdcchError]] = {
    kind.status: kind for kind in (
        ArgumentRefused, OutOfMemory, CellClosed, CellOpen, SettingsRefused, TableRefused, OverBudget, NoSuchHandset, NoSuchWatch,
        NoSuchFormat, FormatNotCarried, FieldRefused, GridLength, GridByte, GridTextRefused)}
