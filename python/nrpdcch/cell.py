"""A cell: its settings and tables, read once, and what its handsets look for, hear and are told on grids."""
from __future__ import annotations

import operator
import threading
from ctypes import addressof, byref, c_size_t, c_uint32
from types import TracebackType
from typing import Any, List, Mapping, NoReturn, Optional, Tuple, Type, Union

from . import _library as low
from . import _words as words
from . import errors
from ._memory import Buffer, Memory, bytes_of
from .grids import number, refuse_grid
from .results import Carrier, Heard, Silence, Watch

Handset = Union[str, int]       # a handset's name, or its place in the list of the settings, from 0
_STAGES = {2: "repeat", 3: "code", 4: "crc", 5: "format"}
_FLAWS = {1: "empty", 2: "reference"}
_FORMATS = {"specific": ("0_1", "1_1")}
_FALLBACK_FORMATS = ("0_0", "1_0", "order")


def _settings_refused(fault: low.FaultNumbers) -> errors.SettingsRefused:
    steps = (str(step.value) if step.element else words.KEYS[step.value] for step in fault.steps[:fault.count])
    return errors.SettingsRefused("/".join(steps) or "file", words.SETTINGS_REASONS[fault.reason])


def _table_refused(fault: low.FaultNumbers) -> errors.TableRefused:
    reasons = {1: f"bad byte at {fault.at}", 2: f"value {fault.value} at {fault.at} too large",
               3: f"value {fault.value} repeated", 4: f"{fault.value} values"}
    return errors.TableRefused(words.TABLES[fault.part], reasons[fault.reason])


def _field_refused(fault: low.FaultNumbers, given: List[Tuple[str, int]]) -> errors.FieldRefused:
    if fault.reason == 3:
        return errors.FieldRefused("fdra", "all ones")
    word, value = given[fault.at]
    return errors.FieldRefused(word, "unknown field" if fault.reason == 1 else f"too large: {value} for {fault.value} bits")


def _watch(at: int, numbers: low.WatchNumbers) -> Watch:
    kind = words.KINDS[numbers.kind]
    uplink, *downlink = _FORMATS.get(kind, _FALLBACK_FORMATS)
    formats = ((uplink,) if numbers.uplink else ()) + (tuple(downlink) if numbers.downlink else ())
    return Watch(at, numbers.set, kind, numbers.symbol, numbers.level, numbers.candidate, numbers.size, numbers.rnti, formats)


def _heard(numbers: low.HeardNumbers) -> Heard:
    fields = {words.FIELDS[field.name]: field.value for field in numbers.fields[:numbers.count]}
    return Heard(numbers.watch, words.FORMATS[numbers.format], fields)


def _silence(watch: int, numbers: low.SilenceNumbers) -> Silence:
    if numbers.stage == 1:
        return Silence(watch, _FLAWS[numbers.flaw], numbers.symbol, numbers.subcarrier)
    return Silence(watch, _STAGES[numbers.stage], bit=numbers.at if numbers.stage == 2 else None)


class Cell:
    """A cell with the two tables of the polar code, open until it is closed or a `with` ends.

    `settings` is the JSON of docs/FORMATS.md, `reliability` and `input_order` are the texts of the tables; each as `str`, `bytes`
    or another object with bytes. Raises SettingsRefused or TableRefused with the place and the reason.

    A cell may be used from several threads: its calls wait for each other. Calls of different cells run at once.
    """

    def __init__(self, settings: Union[str, Buffer], reliability: Union[str, Buffer], input_order: Union[str, Buffer]) -> None:
        self._lock = threading.Lock()
        self._handle = low.CellHandle()
        fault = low.FaultNumbers()
        with Memory(bytes_of(settings)) as one, Memory(bytes_of(reliability)) as two, Memory(bytes_of(input_order)) as three:
            status = low.library.nrpdcch_cell_open(one.at, one.size, two.at, two.size, three.at, three.size, byref(self._handle),
                                                   byref(fault))
        if status == errors.SettingsRefused.status:
            raise _settings_refused(fault)
        if status == errors.TableRefused.status:
            raise _table_refused(fault)
        if status:
            self._refuse(status)

    def __enter__(self) -> "Cell":
        return self

    def __exit__(self, kind: Optional[Type[BaseException]], error: Optional[BaseException],
                 trace: Optional[TracebackType]) -> None:
        self.close()

    def __del__(self) -> None:
        if getattr(self, "_handle", None) and self._handle.full:
            self.close()

    def close(self) -> None:
        """Gives the cell's memory back. What is closed may be closed again; every other call then raises CellClosed."""
        with self._lock:
            low.library.nrpdcch_cell_close(byref(self._handle))

    @property
    def closed(self) -> bool:
        """Whether the cell is closed."""
        return not self._handle.full

    @property
    def carrier(self) -> Carrier:
        """The numerology, the resource blocks and the number of handsets."""
        numbers = low.CarrierNumbers()
        with self._lock:
            status = low.library.nrpdcch_cell_carrier(byref(self._handle), byref(numbers))
        if status:
            self._refuse(status)
        return Carrier(numbers.mu, numbers.blocks, numbers.handsets)

    def handset(self, name: str) -> int:
        """The place of the handset of that name in the list of the settings, from 0. Raises NoSuchHandset."""
        found = c_uint32()
        with self._lock, Memory(bytes_of(name)) as text:
            status = low.library.nrpdcch_cell_handset(byref(self._handle), text.at, text.size, byref(found))
        if status:
            self._refuse(status, name)
        return found.value

    def plan(self, handset: Handset, frame: int, slot: int) -> List[Watch]:
        """The watches of a handset in a slot, in search order.

        Raises NoSuchHandset, ArgumentRefused or OverBudget.
        """
        place, room, count = self._slot(handset, frame, slot), 64, c_size_t()
        while True:
            watches = (low.WatchNumbers * room)()
            with self._lock:
                status = low.library.nrpdcch_plan(byref(self._handle), *place, addressof(watches), room, byref(count))
            if status != low.SMALL:
                break
            room = count.value
        if status:
            self._refuse(status, handset)
        return [_watch(at, watches[at]) for at in range(count.value)]

    def hear(self, handset: Handset, frame: int, slot: int, watch: int, grid: Buffer) -> Union[Heard, Silence]:
        """What a handset hears at one of its watches on a grid of the slot, or the first stage of hearing that fails.

        Raises NoSuchHandset, ArgumentRefused, OverBudget, NoSuchWatch, GridLength or GridByte.
        """
        place, at = self._slot(handset, frame, slot), self._watch_number(watch)
        heard, silence = low.HeardNumbers(), low.SilenceNumbers()
        with self._lock, Memory(grid) as points:
            status = low.library.nrpdcch_hear(byref(self._handle), *place, at, points.at, points.size, byref(heard),
                                              byref(silence))
            if status in (errors.GridLength.status, errors.GridByte.status):
                refuse_grid(status, points.size, silence.at)
        if status == low.SILENT:
            return _silence(watch, silence)
        if status:
            self._refuse(status, handset, watch)
        return _heard(heard)

    def search(self, handset: Handset, frame: int, slot: int, grid: Buffer) -> List[Heard]:
        """All that a handset hears on a grid of the slot, by rising watch.

        Raises NoSuchHandset, ArgumentRefused, OverBudget, GridLength or GridByte.
        """
        place, room, count = self._slot(handset, frame, slot), 16, c_size_t()
        with Memory(grid) as points:
            while True:
                found = (low.HeardNumbers * room)()
                with self._lock:
                    status = low.library.nrpdcch_search(byref(self._handle), *place, points.at, points.size, addressof(found),
                                                        room, byref(count))
                if status != low.SMALL:
                    break
                room = count.value
            if status in (errors.GridLength.status, errors.GridByte.status):
                refuse_grid(status, points.size, count.value)
        if status:
            self._refuse(status, handset)
        return [_heard(found[at]) for at in range(count.value)]

    def spell(self, handset: Handset, frame: int, slot: int, watch: int, format: str, fields: Mapping[str, int],
              grid: Buffer) -> None:
        """Spells the fields of a format at a watch on the grid, which has to be writable: the candidate gets its points, and
        every other place keeps its own. A field that is not given is 0. After an exception the grid is as before.

        Raises NoSuchHandset, ArgumentRefused, OverBudget, NoSuchWatch, NoSuchFormat, FormatNotCarried, GridLength, GridByte or
        FieldRefused.
        """
        place, at = self._slot(handset, frame, slot), self._watch_number(watch)
        given = list(fields.items())
        made, fault = self._fields(given), low.FaultNumbers()
        form = words.FORMAT_NUMBERS.get(format, len(words.FORMATS))
        with self._lock, Memory(grid, written=True) as points:
            status = low.library.nrpdcch_spell(byref(self._handle), *place, at, form, addressof(made), len(given), points.at,
                                               points.size, byref(fault))
            if status in (errors.GridLength.status, errors.GridByte.status):
                refuse_grid(status, points.size, fault.at)
        if status == errors.FieldRefused.status:
            raise _field_refused(fault, given)
        if status:
            self._refuse(status, handset, watch, format)

    @staticmethod
    def _fields(given: List[Tuple[str, int]]) -> Any:
        """The fields as numbers. A value above 32 bits is too large for every field, as the greatest of 32 bits is."""
        made = (low.FieldNumbers * max(1, len(given)))()
        for entry, (word, value) in zip(made, given):
            if operator.index(value) < 0:
                raise errors.FieldRefused(word, f"negative: {value}")
            entry.name = words.FIELD_NUMBERS.get(word, words.NO_FIELD)
            entry.value = min(operator.index(value), 0xFFFFFFFF)
        return made

    def _slot(self, handset: Handset, frame: int, slot: int) -> Tuple[int, int, int]:
        at = self.handset(handset) if isinstance(handset, str) else operator.index(handset)
        if not 0 <= at <= 0xFFFFFFFF:
            raise errors.NoSuchHandset(f"handset {at}", "no such handset")
        return at, number(frame, "frame"), number(slot, "slot")

    @staticmethod
    def _watch_number(watch: int) -> int:
        if not 0 <= operator.index(watch) <= 0xFFFFFFFF:
            raise errors.NoSuchWatch(f"watch {watch}", "no such watch")
        return operator.index(watch)

    @staticmethod
    def _refuse(status: int, handset: Handset = "", watch: int = 0, format: str = "") -> NoReturn:
        """Raises what a status means that has no fault beside it."""
        whose = f"handset {handset}"
        place, reason = {
            errors.ArgumentRefused.status: ("slot", "the frame or the slot is out of range"),
            errors.OutOfMemory.status: ("", "no memory"),
            errors.CellClosed.status: ("", "the cell is closed"),
            errors.CellOpen.status: ("", "the handle is open already"),
            errors.OverBudget.status: (whose, "its common sets exceed the budget of the slot"),
            errors.NoSuchHandset.status: (whose, "no such handset"),
            errors.NoSuchWatch.status: (f"watch {watch}", "no such watch"),
            errors.NoSuchFormat.status: (f"format {format}", "no such format"),
            errors.FormatNotCarried.status: (f"format {format}", f"watch {watch} does not carry it"),
        }[status]
        raise errors.BY_STATUS[status](place, reason)
