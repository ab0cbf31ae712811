"""A raw file: mapped or read, checked once, and its rows."""

from __future__ import annotations

import errno
import mmap
import operator
import os
import stat
import weakref
from functools import cached_property
from types import TracebackType
from typing import TYPE_CHECKING, Any, NamedTuple, NoReturn, Optional, Union

import numpy as np
import numpy.typing as npt

from . import records
from ._native import Bytes, ffi, guard, lent, library, places, pointer
from .channels import code as code_of
from .faults import Absent, Changed, Refused, structure_at
from .labels import ADMINISTRATIVE, CHARGE, CONFIGURATION, EVENT, GPS, HEADER, PHONON, TLB, TRACE, TRIGGER

if TYPE_CHECKING:
    import pandas

Path = Union[str, "os.PathLike[str]"]

# Table's six numbers (FORMAT 7.1).
ROW = np.dtype([(name, np.uint32) for name in ("kind", "start", "length", "parent", "one", "two")])


def filled(lent_bytes: Any, length: int) -> npt.NDArray[Any]:
    """Table: the rows of a file, or Refused."""
    most = 6 * (min(length, library.DWJ_LONGEST) // 8)  # what is longer is refused by its length
    room = np.empty(most + 1, np.uint32)
    count, place = places()
    number = library.dwj_table(lent_bytes, length, lent(room, "uint32_t[]"), most, count, place)
    if number != 0:
        raise Refused(number, place[0])
    room.resize(6 * count[0], refcheck=False)
    room.flags.writeable = False
    return room.view(ROW)


def counted(lent_bytes: Any, length: int) -> int:
    """Table without room for a row: how many rows a file has, or Refused."""
    count, place = places()
    number = library.dwj_table(lent_bytes, length, ffi.new("uint32_t[1]"), 0, count, place)
    if number != library.DWJ_FEW_ROWS:
        raise Refused(number, place[0])
    return int(count[0])


def state(descriptor: int) -> tuple[int, int]:
    """What is seen of a file from outside: it is the same as long as this is."""
    found = os.fstat(descriptor)
    return found.st_size, found.st_mtime_ns


class _Mapped(NamedTuple):
    mapping: mmap.mmap
    descriptor: int
    watch: int
    forget: Any
    seen: tuple[int, int]

    def release(self) -> None:
        """Unmaps the file, unless a view or a call still needs it; then it goes with the last of them."""
        try:
            self.mapping.close()
        except BufferError:
            return
        self.forget()


class File:
    """An accepted raw file. ``open`` and ``read`` make it.

    A mapped file must not be changed by others while it is open. Where one is, every call from then on raises Changed; and leaving a ``with``
    block does, so that what was read through views doesn't pass for the file. A change is seen by the file's size and its time of change: who
    writes and then sets that time back isn't seen.
    """

    def __init__(self, data: Bytes, name: str, mapped: Optional[_Mapped] = None) -> None:
        self.name = name
        """The name that it was opened by."""
        self._data: Optional[Bytes] = data
        self._mapped = mapped
        self._closing = weakref.finalize(self, os.close, mapped.descriptor) if mapped else None
        self._lent: Any = lent(data)
        self._length = len(data)
        del data
        refusal = None
        try:
            try:
                self.rows: npt.NDArray[Any] = filled(self._lent, self._length)
                """Table's rows, a structured array that can't be written: kind, start, length, parent, one, two (FORMAT 7)."""
            except Refused as refused:
                refusal = refused.number, refused.place
            self._unchanged()
            if refusal:
                structure = structure_at(self._whole(), refusal[1]) if self._length <= library.DWJ_LONGEST else ""
                self._unchanged()
                raise Refused(*refusal, structure)
        except BaseException:
            self.close()
            raise

    # Where its bytes are, for a call; after each call it is asked whether they are still the file's.
    def _bytes(self) -> Any:
        if self._data is None:
            raise ValueError(f"{self.name}: is closed")
        return self._lent

    def _unchanged(self) -> None:
        mapped = self._mapped
        if self._data is None:
            raise ValueError(f"{self.name}: is closed")
        if mapped and (guard.guard_cut(mapped.watch) or state(mapped.descriptor) != mapped.seen):
            raise Changed(self.name)

    @property
    def changed(self) -> bool:
        """Whether somebody has changed the mapped file since it was opened."""
        try:
            self._unchanged()
        except Changed:
            return True
        return False

    def __enter__(self) -> File:
        return self

    def __exit__(self, kind: Optional[type[BaseException]], raised: Optional[BaseException], trace: Optional[TracebackType]) -> None:
        changed = kind is None and self._data is not None and self.changed
        self.close()
        if changed:
            raise Changed(self.name)

    def close(self) -> None:
        """Lets go of the file. Views that are still held stay good: the mapping goes with the last of them."""
        if self._data is None:
            return
        self._lent = self._data = None
        if self._mapped and self._closing:
            self._closing()
            self._mapped.release()
            self._mapped = None

    def __reduce__(self) -> NoReturn:
        raise TypeError("a File is neither copied nor pickled: hand its name on, and open it there")

    def __len__(self) -> int:
        """The file's length in bytes."""
        return self._length

    def __repr__(self) -> str:
        return f"<dwejrasq.File {self.name!r}, {self._length} bytes, {len(self.rows)} rows>"

    @property
    def data(self) -> npt.NDArray[np.uint8]:
        """The file's bytes: a read-only view."""
        return self._whole().view()

    def _whole(self) -> Bytes:
        if self._data is None:
            raise ValueError(f"{self.name}: is closed")
        self._unchanged()
        return self._data

    def frame(self) -> pandas.DataFrame:
        """The rows as a pandas frame, with the kinds in words; its index is the row's number, from 1, as ``parent`` has it."""
        from .frames import frame

        return frame(self.rows)

    @property
    def header(self) -> records.Header:
        """The file header."""
        return records.Header(self, 0)

    @property
    def settings(self) -> list[records.Setting]:
        """The configuration's entries, in working units and in the file's order."""
        entries = np.flatnonzero((self.rows["kind"] == PHONON) | (self.rows["kind"] == CHARGE))
        return [self._setting(int(index)) for index in entries]

    @cached_property
    def _events(self) -> npt.NDArray[np.intp]:
        return np.flatnonzero(self.rows["kind"] == EVENT)

    @property
    def events(self) -> records.Events:
        """The events, in the file's order: a sequence."""
        return records.Events(self, self._events)

    def event(self, number: int) -> records.Event:
        """The first event with a number; Absent where there is none."""
        return self.events.numbered(number)

    def find(self, event: int, code: int) -> Optional[records.Trace]:
        """Find: of the traces with a code in events with a number, the one that stands first in the file; None where there is none.

        Each call checks the whole file, which takes a long one some milliseconds; ``Event.trace`` looks at one event.
        """
        place, refused_at = places()
        event, code = operator.index(event), operator.index(code)
        if not (0 <= event < 2**32 and 0 <= code < 2**32):
            return None
        number = library.dwj_find(self._bytes(), self._length, event, code, place, refused_at)
        self._unchanged()
        if number != 0:
            raise Refused(number, refused_at[0])
        return self.at(place[0]) if place[0] else None  # type: ignore[return-value]

    def trace(self, event: Union[int, records.Event], type: int, number: int, name: str) -> records.Trace:
        """A trace by its event (the event, or its number), its detector's type and number, and its channel's analysis name.

        Absent where the file has no such trace, or no such channel is listed.
        """
        try:
            code = code_of(type, number, name)
        except Refused:
            raise Absent(f"no channel {name} of a detector {number} of type {type} is listed") from None
        if isinstance(event, records.Event):
            if event.file is not self:
                raise ValueError("the event is another file's")
            found = next((trace for trace in event.traces if trace.code == code), None)
        else:
            found = self.find(event, code)
        if found is None:
            asked = event.number if isinstance(event, records.Event) else event
            raise Absent(f"no event with the number {asked} has a trace of {name} of detector {number} of type {type}")
        return found

    def samples(self, place: int) -> records.Samples:
        """The samples of the trace at a place, as a view; none where no trace is there."""
        offset, size = places()
        library.dwj_samples(self._bytes(), self._length, place, offset, size)
        return self._view(np.dtype("<u2"), offset[0], size[0] // 2)

    def _view(self, kind: np.dtype[Any], offset: int, count: int) -> npt.NDArray[Any]:
        view: npt.NDArray[Any] = self._whole()[offset : offset + count * kind.itemsize].view(kind)
        return view

    def row_at(self, place: int) -> int:
        """The row, from 0, that the byte at a place belongs to: a container's own bytes are its first eight. Absent outside of the file."""
        place = operator.index(place)
        if not 0 <= place < self._length:
            raise Absent(f"the file has no byte {place}: it has {self._length:,}")
        return int(np.searchsorted(self._starts, place, "right")) - 1

    @cached_property
    def _starts(self) -> npt.NDArray[np.uint32]:
        return np.ascontiguousarray(self.rows["start"])

    def at(self, place: int) -> records.Row:
        """What begins at a place: header, configuration, setting, event or record. Absent where nothing begins there."""
        index = self.row_at(place)
        if self.rows["start"][index] != place:
            start = self.rows["start"][index]
            raise Absent(f"nothing begins at byte {place}; it is inside the {records.Row(self, index).label} at byte {start}")
        return self.at_row(index)

    def at_row(self, index: int) -> records.Row:
        """What a row is, by its number from 0; IndexError for a number that no row has."""
        index = operator.index(index)
        if not 0 <= index < len(self.rows):
            raise IndexError(f"there is no row {index}: there are {len(self.rows):,}, from 0 on")
        kind = int(self.rows["kind"][index])
        if kind == EVENT:
            return records.Event(self, index)
        if kind == HEADER:
            return records.Header(self, index)
        if kind == CONFIGURATION:
            return records.Row(self, index)
        if kind in (PHONON, CHARGE):
            return self._setting(index)
        return self._record(index)

    def _setting(self, index: int) -> records.Setting:
        whole, units, refused_at = ffi.new("int64_t[8]"), ffi.new("double[4]"), ffi.new("uint64_t *")
        number = library.dwj_setting(self._bytes(), self._length, int(self.rows["start"][index]), whole, units, refused_at)
        self._unchanged()
        if number != 0:
            raise Refused(number, refused_at[0])
        if whole[0] == PHONON:
            code, tower, rtf_offset, variable_gain, delta_t, t0, length = list(whole)[1:]
            gain, qet, squid, lockpoint = list(units)
            return records.Setting(self, index, code, tower, gain, rtf_offset, delta_t, t0, length, qet, squid, lockpoint, variable_gain)
        code, tower, bias, rtf_offset, delta_t, t0, length = list(whole)[1:]
        return records.Setting(self, index, code, tower, units[0], rtf_offset, delta_t, t0, length, bias=bias)

    def _record(self, index: int) -> records.Record:
        values, refused_at = ffi.new("int64_t[12]"), ffi.new("uint64_t *")
        number = library.dwj_record(self._bytes(), self._length, int(self.rows["start"][index]), values, refused_at)
        self._unchanged()
        if number != 0:
            raise Refused(number, refused_at[0])
        kind, *fields = list(values)
        if kind == TRACE:
            return records.Trace(self, index, *fields[:6])
        if kind == ADMINISTRATIVE:
            return records.Administrative(self, index, *fields[:6])
        if kind == GPS:
            return records.Gps(self, index, *fields[:7])
        if kind == TRIGGER:
            return records.Trigger(self, index, tuple(fields[:6]))
        if kind == TLB:
            return records.Tlb(self, index, tuple(fields[:6]))
        views = []
        for count, times, width, masks in (fields[:4], fields[4:8]):
            views += [self._view(np.dtype("<i4"), times, count), self._view(np.dtype("<u4"), masks, count * width).reshape(count, width)]
        return records.History(self, index, *views)


def open(path: Path, *, copy: bool = False) -> File:
    """Opens a raw file: maps it and checks it once. Refused where it doesn't follow the format; OSError where it can't be read.

    With ``copy`` its bytes are read instead: for a file that another program may still be writing.
    """
    name = os.fspath(path)
    descriptor = os.open(name, os.O_RDONLY | os.O_CLOEXEC)
    try:
        if not stat.S_ISREG(os.fstat(descriptor).st_mode) or copy or os.fstat(descriptor).st_size == 0:
            return File(loaded(descriptor, name), name)
        seen = state(descriptor)
        try:
            mapping = mmap.mmap(descriptor, 0, access=mmap.ACCESS_READ)
        except ValueError:  # it has been emptied meanwhile
            return File(loaded(descriptor, name), name)
        data = np.frombuffer(mapping, np.uint8)
        watch = guard.guard_watch(ffi.cast("void *", data.ctypes.data), len(data))
        if watch < 0:
            return File(loaded(descriptor, name), name)
        forget = weakref.finalize(mapping, guard.guard_forget, watch)
        mapped = _Mapped(mapping, os.dup(descriptor), watch, forget, seen)
        del mapping
        try:
            return File(data, name, mapped)
        except BaseException:
            del data  # so that a refusal that is kept, with the frames it was raised in, doesn't keep the mapping
            mapped.release()
            raise
    finally:
        os.close(descriptor)


def loaded(descriptor: int, name: str, room: Optional[Bytes] = None) -> Bytes:
    """The bytes behind a descriptor, up to one more than a file may have: the library refuses what is longer, by its length."""
    found = os.fstat(descriptor)
    if stat.S_ISDIR(found.st_mode):
        raise IsADirectoryError(errno.EISDIR, os.strerror(errno.EISDIR), name)
    most = library.DWJ_LONGEST + 1
    into = np.empty(min(max(found.st_size + 1, 65536), most), np.uint8) if room is None else room
    have = 0
    while have < most:
        if have == len(into):
            into = np.concatenate([into, np.empty(min(have, most - have), np.uint8)])
        got = os.readv(descriptor, [into[have:].data])
        if got == 0:
            break
        have += got
    data = into[:have]
    data.flags.writeable = False
    return data


def read(data: Any, name: str = "data") -> File:
    """The same for bytes that are at hand: they must not be changed while the file is open."""
    with memoryview(data) as view:
        flat = np.frombuffer(view.cast("B"), np.uint8) if view.nbytes else np.empty(0, np.uint8)
    flat.flags.writeable = False
    return File(flat, name)
