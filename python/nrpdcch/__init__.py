"""The downlink control channel of 5G NR (PDCCH) as a proved library.

    import nrpdcch

    with nrpdcch.Cell(settings, reliability, input_order) as cell:
        head, grid = nrpdcch.read_grid(text)
        for heard in cell.search("alpha", head.frame, head.slot, grid):
            print(heard)

A grid is 14 * 12 * blocks bytes, symbol by symbol and in a symbol by rising subcarrier: 0 for nothing, 1 to 4 for the points of
the bits 00, 01, 10 and 11. It is `bytes`, `bytearray`, a `memoryview` or a numpy array of uint8, of any shape whose memory is in
one piece, and is never copied. What the library refuses is raised as an exception of the class `NrpdcchError`.

The library is the one that the variable NRPDCCH_LIBRARY names, else the file beside this package, else the one that the system
finds.
"""
from .cell import Cell, Handset
from .errors import (ArgumentRefused, CellClosed, CellOpen, FieldRefused, FormatNotCarried, GridByte, GridLength,
                     GridTextRefused, NoSuchFormat, NoSuchHandset, NoSuchWatch, NrpdcchError, OutOfMemory, OverBudget,
                     SettingsRefused, TableRefused)
from .grids import Head, blank, grid_text, place_of, read_grid
from .results import Carrier, Heard, Silence, Watch

__all__ = [
    "Cell", "Handset", "Carrier", "Watch", "Heard", "Silence", "Head", "read_grid", "grid_text", "blank", "place_of",
    "NrpdcchError", "ArgumentRefused", "OutOfMemory", "CellClosed", "CellOpen", "SettingsRefused", "TableRefused", "OverBudget",
    "NoSuchHandset", "NoSuchWatch", "NoSuchFormat", "FormatNotCarried", "FieldRefused", "GridLength", "GridByte",
    "GridTextRefused",
]
