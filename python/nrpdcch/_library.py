"""The shared library: where it is, and its calls and structs as nrpdcch.h has them."""
from __future__ import annotations

import ctypes
import ctypes.util
import os
from ctypes import POINTER, c_bool, c_size_t, c_uint32, c_void_p
from typing import Iterator

VARIABLE = "NRPDCCH_LIBRARY"
NAME = "libnrpdcch.so"
STEPS, FIELDS = 6, 32

DONE, CLOSED, SMALL, SILENT = 0, 3, 16, 13


class CellHandle(ctypes.Structure):
    """`nrpdcch_cell`: all zeros where it is closed."""
    _fields_ = [("at", c_void_p), ("full", c_bool)]


class CarrierNumbers(ctypes.Structure):
    """`nrpdcch_carrier`."""
    _fields_ = [(name, c_uint32) for name in ("mu", "blocks", "handsets")]


class WatchNumbers(ctypes.Structure):
    """`nrpdcch_watch`."""
    _fields_ = [*((name, c_uint32) for name in ("set", "kind", "symbol", "level", "candidate", "size", "rnti")),
                ("uplink", c_bool), ("downlink", c_bool)]


class FieldNumbers(ctypes.Structure):
    """`nrpdcch_field`."""
    _fields_ = [("name", c_uint32), ("value", c_uint32)]


class HeardNumbers(ctypes.Structure):
    """`nrpdcch_heard`."""
    _fields_ = [("watch", c_uint32), ("format", c_uint32), ("count", c_uint32), ("fields", FieldNumbers * FIELDS)]


class SilenceNumbers(ctypes.Structure):
    """`nrpdcch_silence`."""
    _fields_ = [*((name, c_uint32) for name in ("stage", "symbol", "subcarrier", "flaw")), ("at", c_size_t)]


class StepNumbers(ctypes.Structure):
    """`nrpdcch_step`."""
    _fields_ = [("value", c_uint32), ("element", c_bool)]


class FaultNumbers(ctypes.Structure):
    """`nrpdcch_fault`."""
    _fields_ = [*((name, c_uint32) for name in ("part", "reason", "value", "count")), ("at", c_size_t),
                ("steps", StepNumbers * STEPS)]


class HeadNumbers(ctypes.Structure):
    """`nrpdcch_head`."""
    _fields_ = [(name, c_uint32) for name in ("mu", "frame", "slot", "blocks")]


_BYTES = (c_void_p, c_size_t)                       # a place and a length, of the caller's memory
_CELL = POINTER(CellHandle)
_SLOT = (c_uint32, c_uint32, c_uint32)              # handset, frame, slot
_CALLS = {
    "cell_open": (*_BYTES, *_BYTES, *_BYTES, _CELL, POINTER(FaultNumbers)),
    "cell_close": (_CELL,),
    "cell_handset": (_CELL, *_BYTES, POINTER(c_uint32)),
    "cell_carrier": (_CELL, POINTER(CarrierNumbers)),
    "plan": (_CELL, *_SLOT, *_BYTES, POINTER(c_size_t)),
    "hear": (_CELL, *_SLOT, c_uint32, *_BYTES, POINTER(HeardNumbers), POINTER(SilenceNumbers)),
    "search": (_CELL, *_SLOT, *_BYTES, *_BYTES, POINTER(c_size_t)),
    "spell": (_CELL, *_SLOT, c_uint32, c_uint32, *_BYTES, *_BYTES, POINTER(FaultNumbers)),
    "grid_text": (c_uint32, c_uint32, c_uint32, c_uint32, *_BYTES, *_BYTES, POINTER(c_size_t)),
    "grid_read": (*_BYTES, *_BYTES, POINTER(HeadNumbers), POINTER(FaultNumbers)),
}


def _places() -> Iterator[str]:
    """Where the library may be, in the order in which it is looked for."""
    named = os.environ.get(VARIABLE)
    if named:
        yield named
        return
    beside = os.path.join(os.path.dirname(os.path.abspath(__file__)), NAME)
    if os.path.isfile(beside):
        yield beside
    found = ctypes.util.find_library("nrpdcch")
    if found:
        yield found
    yield NAME


def _load() -> ctypes.CDLL:
    reasons = []
    for place in _places():
        try:
            library = ctypes.CDLL(place)
        except OSError as error:
            reasons.append(str(error))
            continue
        for name, parameters in _CALLS.items():
            call = getattr(library, f"nrpdcch_{name}")
            call.argtypes, call.restype = parameters, c_uint32
        return library
    raise ImportError(f"{NAME} cannot be loaded; make it by tools/build_library and name it in {VARIABLE} ({'; '.join(reasons)})")


library = _load()
