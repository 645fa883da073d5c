"""Grids: 14 * 12 * blocks bytes in the caller's memory, and their texts."""
from __future__ import annotations

import operator
from ctypes import addressof, byref, c_size_t, c_uint8
from typing import NamedTuple, NoReturn, Tuple, Union

from . import _library as low
from . import errors
from ._memory import Buffer, Memory, bytes_of

SYMBOLS, SUBCARRIERS = 14, 12
MOST_BLOCKS = 275
_MOST_BYTES = SYMBOLS * SUBCARRIERS * MOST_BLOCKS


class Head(NamedTuple):
    """The numbers of a grid: numerology, frame, slot, and resource blocks."""
    mu: int
    frame: int
    slot: int
    blocks: int


def blank(blocks: int) -> bytearray:
    """A grid of so many blocks with no points."""
    return bytearray(SYMBOLS * SUBCARRIERS * blocks)


def place_of(symbol: int, subcarrier: int, blocks: int) -> int:
    """Where the byte of a symbol and a subcarrier stands in a grid of so many blocks."""
    return SUBCARRIERS * blocks * symbol + subcarrier


def number(given: int, name: str) -> int:
    """The number as the library takes it, 32 bits without sign; each number beyond is out of every range."""
    if not 0 <= operator.index(given) <= 0xFFFFFFFF:
        raise errors.ArgumentRefused(name, "out of range")
    return operator.index(given)


def refuse_grid(status: int, size: int, at: int) -> NoReturn:
    """Raises what the statuses about a grid's bytes mean."""
    if status == errors.GridLength.status:
        raise errors.GridLength("grid", f"{size} bytes")
    raise errors.GridByte(f"byte {at}", "no point", at)


def read_grid(text: Union[str, Buffer]) -> Tuple[Head, bytearray]:
    """The grid of a text, as `nrpdcch write` prints it: its numbers and its points.

    Raises GridTextRefused where the text is that of no grid.
    """
    points = bytearray(_MOST_BYTES)
    head, fault = low.HeadNumbers(), low.FaultNumbers()
    with Memory(bytes_of(text)) as given, Memory(points, written=True) as made:
        status = low.library.nrpdcch_grid_read(given.at, given.size, made.at, made.size, byref(head), byref(fault))
    if status == errors.GridTextRefused.status:
        raise errors.GridTextRefused(f"byte {fault.at}", "the text of no grid", fault.at)
    if status:
        raise errors.BY_STATUS[status]("grid", "no memory")
    del points[SYMBOLS * SUBCARRIERS * head.blocks:]
    return Head(head.mu, head.frame, head.slot, head.blocks), points


def grid_text(head: Head, grid: Buffer) -> str:
    """The text of a grid, which `nrpdcch search` reads.

    Raises ArgumentRefused, GridLength or GridByte.
    """
    numbers = [number(value, name) for value, name in zip(head, Head._fields)]
    room = _MOST_BYTES + 200
    made, written = (c_uint8 * room)(), c_size_t()
    with Memory(grid) as points:
        status = low.library.nrpdcch_grid_text(*numbers, points.at, points.size, addressof(made), room, byref(written))
        if status in (errors.GridLength.status, errors.GridByte.status):
            refuse_grid(status, points.size, written.value)
    if status:
        raise errors.BY_STATUS[status]("grid", "no memory" if status == errors.OutOfMemory.status else "a number is out of range")
    return bytes(memoryview(made)[:written.value]).decode("ascii")
