"""Files written: the library's writers over an output that grows, and Rewrite."""

from __future__ import annotations

import errno
import operator
import os
import secrets
import stat
from collections.abc import Iterator, Sequence
from contextlib import contextmanager, suppress
from typing import Any, Callable, Union

import numpy as np
import numpy.typing as npt

from ._native import lent, library, places, pointer
from .channels import code as code_of
from .faults import Refused
from .files import Path, counted

Code = Union[int, tuple[int, int, str]]


def _code(code: Code) -> int:
    return code_of(*code) if isinstance(code, tuple) else code


class Writer:
    """A file in the making: header, configuration, events, in this order.

    Each call writes one record or entry behind the one before, or raises Refused and writes nothing. A container is a ``with`` block, closed over
    what was written in it::

        w = dwejrasq.Writer()
        with w.configuration():
            w.charge((11, 17, "QIS1"), tower=2, gain=4000, bias=-3000)
        with w.event():
            w.administrative(date=1100115, hour=1630, number=7, seconds=1263573000)
            w.trace((11, 17, "PAS2"), samples, t0=-51200, delta_t=800)
        w.save("run.raw")
    """

    def __init__(self, daq: tuple[int, int] = (1, 0)) -> None:
        self._out = bytearray(65536)
        self._next = 0
        self._write(lambda out, room, at, *after: library.dwj_write_header(out, room, *daq, *after))

    @property
    def place(self) -> int:
        """Where the next record begins."""
        return self._next

    def _write(self, call: Callable[..., int]) -> None:
        after, refused_at = places()
        while True:
            with memoryview(self._out) as view, lent(view) as out:
                number = call(out, len(self._out), self._next, after, refused_at)
            if number == library.DWJ_NO_ROOM and len(self._out) < library.DWJ_LONGEST:
                self._out.extend(bytes(min(len(self._out), library.DWJ_LONGEST - len(self._out))))
                continue
            if number != 0:
                raise Refused(number, refused_at[0])
            self._next = int(after[0])
            return

    @contextmanager
    def _container(self, close: Callable[..., int]) -> Iterator[Writer]:
        start = self._next
        self._next = start + 8
        try:
            yield self
            end = self._next
            self._next = start
            self._write(lambda out, room, at, *after: close(out, room, at, end, *after))
        except BaseException:
            self._next = start
            raise

    def configuration(self) -> Any:
        """The configuration: a ``with`` block of entries. What was written in it is dropped where the block or the closing fails."""
        return self._container(library.dwj_close_configuration)

    def event(self, event_class: int = 0, category: int = 0, type: int = 0) -> Any:
        """An event: a ``with`` block of records, the administrative one first. What was written in it is dropped where the block or the closing fails."""
        return self._container(
            lambda out, room, at, end, *after: library.dwj_close_event(out, room, at, end, event_class, category, type, *after)
        )

    def phonon(
        self,
        code: Code,
        *,
        tower: int = 0,
        gain: int = 0,
        qet_bias: int = 0,
        squid_bias: int = 0,
        lockpoint: int = 0,
        rtf_offset: int = 0,
        variable_gain: int = 0,
        delta_t: int = 0,
        t0: int = 0,
        trace_length: int = 0,
    ) -> None:
        """A phonon entry; gain, biases of QET and SQUID, and lockpoint are words of the file, a hundred times their value."""
        fields = [_code(code), tower, gain, qet_bias, squid_bias, lockpoint, rtf_offset, variable_gain, delta_t, t0, trace_length]
        self._write(lambda out, room, at, *after: library.dwj_write_phonon(out, room, at, _whole(fields), *after))

    def charge(
        self,
        code: Code,
        *,
        tower: int = 0,
        gain: int = 0,
        bias: int = 0,
        rtf_offset: int = 0,
        delta_t: int = 0,
        t0: int = 0,
        trace_length: int = 0,
    ) -> None:
        """A charge entry; the gain is the word of the file, a hundred times its value."""
        fields = [_code(code), tower, gain, bias, rtf_offset, delta_t, t0, trace_length]
        self._write(lambda out, room, at, *after: library.dwj_write_charge(out, room, at, _whole(fields), *after))

    def administrative(self, *, date: int, hour: int, number: int, seconds: int, since: int = 0, live: int = 0) -> None:
        """The record that an event begins with: the series as LLYYMMDD and HHMM, the event's number and time, milliseconds."""
        fields = [date, hour, number, seconds, since, live]
        self._write(lambda out, room, at, *after: library.dwj_write_administrative(out, room, at, _whole(fields), *after))

    def trace(self, code: Code, samples: npt.ArrayLike, *, t0: int = 0, delta_t: int = 800, address: int = 0, digitizer: int = 1) -> None:
        """A trace with its samples, numbers from 0 to 65,535."""
        if np.ndim(samples) != 1:
            raise ValueError("samples are asked in one row")
        part = _part(samples, "<u2")
        words = _whole((address, digitizer, _code(code), t0, delta_t, len(part) // 2))
        self._write(lambda out, room, at, *after: library.dwj_write_trace(out, room, at, *words, lent(part), len(part), *after))

    def history(
        self,
        veto_times: npt.ArrayLike = (),
        veto_masks: npt.ArrayLike = (),
        trigger_times: npt.ArrayLike = (),
        trigger_masks: npt.ArrayLike = (),
    ) -> None:
        """Veto and trigger times, microseconds, and for each time a row of mask words."""
        words: list[Any] = []
        for times, masks in ((veto_times, veto_masks), (trigger_times, trigger_masks)):
            count, mask = len(np.atleast_1d(np.asarray(times))), np.asarray(masks)
            width = (mask.size // count if mask.ndim < 2 else mask.shape[1]) if count else 0
            first, second = _part(times, "<i4"), _part(masks, "<u4")
            words += [count, lent(first), len(first), width, lent(second), len(second)]
        self._write(lambda out, room, at, *after: library.dwj_write_history(out, room, at, *words, *after))

    def gps(self, *, year: int, day: int, hour: int = 0, minute: int = 0, second: int = 0, tenths: int = 0, status: int = 0) -> None:
        """A GPS time: the day of the year from 1, tenths of a microsecond."""
        fields = [year, day, status, hour, minute, second, tenths]
        self._write(lambda out, room, at, *after: library.dwj_write_gps(out, room, at, _whole(fields), *after))

    def trigger(self, masks: Sequence[int]) -> None:
        """The six trigger masks."""
        self._write(lambda out, room, at, *after: library.dwj_write_trigger(out, room, at, _six(masks), *after))

    def tlb(self, words: Sequence[int]) -> None:
        """The six towers' words."""
        self._write(lambda out, room, at, *after: library.dwj_write_tlb(out, room, at, _six(words), *after))

    def bytes(self) -> bytes:
        """What was written so far: a file, where header and configuration and any events are."""
        return bytes(memoryview(self._out)[: self._next])

    def save(self, path: Path) -> None:
        """Writes it to a file. Refused where it isn't one yet: without a configuration, say. ``bytes`` gives what is there all the same."""
        data = np.frombuffer(self.bytes(), np.uint8)
        counted(pointer(data), len(data))
        save(path, self.bytes())


def _whole(numbers: Sequence[int]) -> list[int]:
    """Whole numbers; TypeError where one isn't, which cffi would cut."""
    return [operator.index(number) for number in numbers]


def _six(numbers: Sequence[int]) -> list[int]:
    if len(numbers) != 6:
        raise ValueError(f"six numbers are asked, and {len(numbers)} are given")
    return _whole(numbers)


def _part(numbers: npt.ArrayLike, kind: str) -> bytes:
    """Numbers as they stand in a file; OverflowError where one of them doesn't fit."""
    if isinstance(numbers, np.ma.MaskedArray):
        raise TypeError("numbers are asked, none of them masked")
    given = np.asarray(numbers)
    if given.size == 0:
        return b""
    limits = np.iinfo(np.dtype(kind))
    if given.dtype.kind not in "iu":
        raise TypeError("whole numbers are asked")
    if int(given.min()) < limits.min or int(given.max()) > limits.max:
        raise OverflowError(f"numbers from {limits.min} to {limits.max} are asked")
    return given.astype(kind).tobytes()


def rewrite(data: Any) -> bytes:
    """Rewrite: an accepted file's fields, read and written again by the library; they are the file's bytes. Refused where the file is."""
    file = np.frombuffer(data, np.uint8) if len(data) else np.empty(0, np.uint8)
    out, (after, refused_at) = np.empty(len(file), np.uint8), places()
    number = library.dwj_rewrite(pointer(file), len(file), pointer(out), len(out), after, refused_at)
    if number != 0:
        raise Refused(number, refused_at[0])
    return out[: after[0]].tobytes()


def save(path: Path, data: bytes) -> None:
    """Writes bytes to a file that is complete when it is there under its name."""
    name = os.path.realpath(os.fsdecode(path))
    if os.fsdecode(path).endswith("/"):
        raise IsADirectoryError(errno.EISDIR, os.strerror(errno.EISDIR), name)
    there = os.stat(name) if os.path.exists(name) else None
    if there is not None and not os.access(name, os.W_OK):
        raise PermissionError(errno.EACCES, os.strerror(errno.EACCES), name)
    if there is not None and not stat.S_ISREG(there.st_mode):
        with open(name, "wb") as out:
            out.write(data)
        return
    # Beside it under a name that nobody else has, then in its place, with the permissions that it had.
    beside = os.path.join(os.path.dirname(name), f".{secrets.token_hex(8)}.part")
    descriptor = os.open(beside, os.O_WRONLY | os.O_CREAT | os.O_EXCL | os.O_CLOEXEC, 0o666)
    try:
        with open(descriptor, "wb") as out:
            if there is not None:
                os.fchmod(descriptor, stat.S_IMODE(there.st_mode))
            out.write(data)
        os.replace(beside, name)
    except BaseException:
        with suppress(FileNotFoundError):
            os.unlink(beside)
        raise
