"""The caller's own memory as the library takes it: a place and a size, without a copy."""
from __future__ import annotations

import ctypes
from types import TracebackType
from typing import Any, Optional, Type, Union

Buffer = Any                    # bytes, bytearray, memoryview, a numpy array of uint8, or another object with such memory

_READ, _WRITE = 0, 1            # what PyObject_GetBuffer is asked for: plain bytes that are read, or written too


def bytes_of(text: Union[str, Buffer]) -> Buffer:
    """A text as bytes, in UTF-8; what has no reading there is left for the library to refuse."""
    return text.encode("utf-8", "surrogatepass") if isinstance(text, str) else text


class _Buffer(ctypes.Structure):
    """Py_buffer of the C interface of Python."""
    _fields_ = [("at", ctypes.c_void_p), ("owner", ctypes.c_void_p), ("size", ctypes.c_ssize_t), ("itemsize", ctypes.c_ssize_t),
                ("readonly", ctypes.c_int), ("ndim", ctypes.c_int), ("format", ctypes.c_char_p), ("shape", ctypes.c_void_p),
                ("strides", ctypes.c_void_p), ("suboffsets", ctypes.c_void_p), ("internal", ctypes.c_void_p)]


_take = ctypes.pythonapi.PyObject_GetBuffer
_take.argtypes = [ctypes.py_object, ctypes.POINTER(_Buffer), ctypes.c_int]
_take.restype = ctypes.c_int
_give_back = ctypes.pythonapi.PyBuffer_Release
_give_back.argtypes = [ctypes.POINTER(_Buffer)]
_give_back.restype = None
_empty = ctypes.c_uint8()       # a place for memory of no size, since the library takes no null pointer


class Memory:
    """The bytes of an object, held for the time of a `with`: `bytes` and whatever else has its bytes in one piece.

    It refuses elements that are not bytes (numpy: uint8), memory with gaps, and read only memory where it has to be written.
    """

    def __init__(self, owner: Any, *, written: bool = False) -> None:
        self._owner, self._written, self._held = owner, written, _Buffer()

    def __enter__(self) -> "Memory":
        with memoryview(self._owner) as seen:
            if seen.format not in ("B", "c"):
                raise TypeError(f"the elements have to be bytes (numpy: uint8), and are of the format {seen.format!r}")
            if self._written and seen.readonly:
                raise TypeError("the memory is read only, and the call writes to it")
        _take(self._owner, self._held, _WRITE if self._written else _READ)
        return self

    def __exit__(self, kind: Optional[Type[BaseException]], error: Optional[BaseException],
                 trace: Optional[TracebackType]) -> None:
        _give_back(self._held)

    @property
    def at(self) -> int:
        """Where the first byte is; never 0."""
        return self._held.at or ctypes.addressof(_empty)

    @property
    def size(self) -> int:
        """How many bytes there are."""
        return int(self._held.size)
