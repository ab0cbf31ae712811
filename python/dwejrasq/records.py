"""What a file holds, as light objects: each keeps its file and its place, and its numbers are the ones that the library answered."""

from __future__ import annotations

import operator
from collections.abc import Iterator, Sequence
from dataclasses import dataclass, field
from datetime import datetime, timedelta, timezone
from typing import TYPE_CHECKING, ClassVar, Optional, Union, overload

import numpy as np
import numpy.typing as npt

from . import labels
from .channels import Channel, channel, zips
from .faults import Absent

if TYPE_CHECKING:
    from .files import File

Samples = npt.NDArray[np.uint16]


@dataclass(frozen=True, eq=False)
class Row:
    """A row of the file's table: what is common to all that a file holds."""

    file: File = field(repr=False, compare=False)
    index: int
    """The row's number, from 0: ``file.rows[index]`` is it."""

    def __eq__(self, other: object) -> bool:
        """The same row of the same file."""
        return isinstance(other, Row) and self.file is other.file and self.index == other.index

    def __hash__(self) -> int:
        return hash((id(self.file), self.index))

    @property
    def kind(self) -> int:
        """The row kind (FORMAT 7.2)."""
        return int(self.file.rows["kind"][self.index])

    @property
    def label(self) -> str:
        """The row kind in words."""
        return labels.of(labels.KINDS, self.kind)

    @property
    def place(self) -> int:
        """The first byte."""
        return int(self.file.rows["start"][self.index])

    @property
    def length(self) -> int:
        """How many bytes it has, the contents of a container too."""
        return int(self.file.rows["length"][self.index])


@dataclass(frozen=True, eq=False)
class Header(Row):
    """The file header."""

    @property
    def version(self) -> int:
        """The version word."""
        return int(self.file.rows["one"][self.index])

    @property
    def daq(self) -> tuple[int, int]:
        """Version of the data acquisition."""
        return self.version >> 24, self.version >> 16 & 255

    @property
    def format(self) -> tuple[int, int]:
        """Version of the format."""
        return self.version >> 8 & 255, self.version & 255


@dataclass(frozen=True, eq=False)
class Setting(Row):
    """An entry of the configuration in working units; what a charge entry doesn't have is None."""

    code: int
    tower: int
    gain: float
    rtf_offset: int
    delta_t: int
    """From sample to sample, ns."""
    t0: int
    """The trigger's time in a trace, ns."""
    trace_length: int
    """Samples."""
    qet_bias: Optional[float] = None
    squid_bias: Optional[float] = None
    lockpoint: Optional[float] = None
    variable_gain: Optional[int] = None
    bias: Optional[int] = None

    @property
    def channel(self) -> Channel:
        """The channel that it is for."""
        return channel(self.code)


@dataclass(frozen=True, eq=False)
class Administrative(Row):
    """The record that an event begins with."""

    date: int
    """The series' first word, LLYYMMDD."""
    hour: int
    """The series' second word, HHMM."""
    number: int
    seconds: int
    """The event's time, seconds from 1970 on."""
    since: int
    """Milliseconds since the event before."""
    live: int
    """Live milliseconds since then."""

    @property
    def series(self) -> str:
        """The series, as in ``01100115_1630``."""
        return f"{self.date:08d}_{self.hour:04d}"

    @property
    def site(self) -> str:
        """Where the series was taken."""
        site = self.date // 1_000_000
        return labels.of(labels.SITES, site) if site < 50 else f"{labels.of(labels.SITES, site - 50)}, Monte Carlo"

    @property
    def time(self) -> datetime:
        """The event's time."""
        return datetime(1970, 1, 1, tzinfo=timezone.utc) + timedelta(seconds=self.seconds)


@dataclass(frozen=True, eq=False)
class Trace(Row):
    """The samples of one channel in one event."""

    address: int
    """Base address of the digitizer."""
    digitizer: int
    """Channel of the digitizer."""
    code: int
    t0: int
    """When it begins, from the trigger on, ns."""
    delta_t: int
    """From sample to sample, ns."""
    n: int
    """How many samples."""

    @property
    def event(self) -> Event:
        """The event that it is in."""
        return Event(self.file, int(self.file.rows["parent"][self.index]) - 1)

    @property
    def channel(self) -> Channel:
        """The channel, with its names."""
        return channel(self.code)

    @property
    def samples(self) -> Samples:
        """The samples: a read-only view of the file's own bytes, without a copy. The file stays mapped as long as there is a view."""
        return self.file.samples(self.place)

    @property
    def nanoseconds(self) -> npt.NDArray[np.int64]:
        """When each sample was taken, from the trigger on, ns."""
        return self.t0 + self.delta_t * np.arange(self.n, dtype=np.int64)

    @property
    def time(self) -> npt.NDArray[np.float64]:
        """When each sample was taken, from the trigger on, microseconds."""
        return self.nanoseconds / 1000.0


@dataclass(frozen=True, eq=False)
class History(Row):
    """Veto and trigger times around an event, microseconds, and for each time the words of its mask: views of the file's own bytes."""

    veto_times: npt.NDArray[np.int32]
    veto_masks: npt.NDArray[np.uint32]
    trigger_times: npt.NDArray[np.int32]
    trigger_masks: npt.NDArray[np.uint32]


@dataclass(frozen=True, eq=False)
class Gps(Row):
    """The GPS time of an event."""

    year: int
    day: int
    """Day of the year, from 1."""
    status: int
    hour: int
    minute: int
    second: int
    tenths: int
    """Tenths of a microsecond."""

    def __str__(self) -> str:
        return f"{self.year:04d}-{self.day:03d} {self.hour:02d}:{self.minute:02d}:{self.second:02d}.{self.tenths:07d}"

    @property
    def time(self) -> Optional[datetime]:
        """The same, to a microsecond; None in the year 0, which Python's dates don't have."""
        if self.year == 0:
            return None
        days = timedelta(days=self.day - 1, hours=self.hour, minutes=self.minute, seconds=self.second, microseconds=self.tenths // 10)
        return datetime(self.year, 1, 1, tzinfo=timezone.utc) + days


@dataclass(frozen=True, eq=False)
class Trigger(Row):
    """The six trigger masks."""

    masks: tuple[int, ...]


@dataclass(frozen=True, eq=False)
class Tlb(Row):
    """The trigger logic board's words, one a tower."""

    words: tuple[int, ...]

    @property
    def zips(self) -> dict[int, list[int]]:
        """For each tower, from 1, the ZIPs that triggered."""
        return {tower: zips(word) for tower, word in enumerate(self.words, 1)}


Record = Union[Administrative, Trace, History, Gps, Trigger, Tlb]


@dataclass(frozen=True, eq=False)
class Event(Row):
    """An event: its records, and what its administrative record says of it."""

    label_of_time: ClassVar[str] = "%Y-%m-%d %H:%M:%S"

    @property
    def word(self) -> int:
        """The lower half of its first word: class, category and type."""
        return int(self.file.rows["one"][self.index])

    @property
    def event_class(self) -> int:
        """0 raw, 2 Monte Carlo."""
        return self.word >> 12

    @property
    def category(self) -> int:
        """0 per trigger, 1 occasional, 6 per trigger with selective readout."""
        return self.word >> 8 & 15

    @property
    def type(self) -> int:
        """What was taken: 0 WIMP search and so on (FORMAT 6.2)."""
        return self.word & 255

    @property
    def number(self) -> int:
        """Its number, which others in the file may have too."""
        return int(self.file.rows["one"][self.index + 1])

    @property
    def time(self) -> datetime:
        """Its time."""
        return datetime(1970, 1, 1, tzinfo=timezone.utc) + timedelta(seconds=int(self.file.rows["two"][self.index + 1]))

    def _indices(self) -> range:
        return range(self.index + 1, self.index + 1 + int(self.file.rows["two"][self.index]))

    def _of(self, kind: int) -> list[int]:
        records = self._indices()
        return [records.start + int(at) for at in np.flatnonzero(self.file.rows["kind"][records.start : records.stop] == kind)]

    @property
    def records(self) -> list[Record]:
        """Its records, in the file's order."""
        return [self.file.at_row(index) for index in self._indices()]  # type: ignore[misc]

    @property
    def traces(self) -> list[Trace]:
        """Its traces, in the file's order."""
        return [self.file.at_row(index) for index in self._of(labels.TRACE)]  # type: ignore[misc]

    def _first(self, kind: int) -> Optional[Row]:
        return next((self.file.at_row(index) for index in self._of(kind)), None)

    @property
    def administrative(self) -> Administrative:
        """Its first record."""
        return self.file.at_row(self.index + 1)  # type: ignore[return-value]

    @property
    def history(self) -> Optional[History]:
        """Its history, where it has one."""
        return self._first(labels.HISTORY)  # type: ignore[return-value]

    @property
    def gps(self) -> Optional[Gps]:
        """Its GPS time, where it has one."""
        return self._first(labels.GPS)  # type: ignore[return-value]

    @property
    def trigger(self) -> Optional[Trigger]:
        """Its trigger masks, where it has them."""
        return self._first(labels.TRIGGER)  # type: ignore[return-value]

    @property
    def tlb(self) -> Optional[Tlb]:
        """Its TLB words, where it has them."""
        return self._first(labels.TLB)  # type: ignore[return-value]

    def trace(self, type: int, number: int, name: str) -> Trace:
        """Its first trace of a detector's channel; Absent where it has none."""
        return self.file.trace(self, type, number, name)

    def __str__(self) -> str:
        kind = labels.of(labels.EVENT_TYPES, self.type)
        return f"event {self.number}, {self.time.strftime(self.label_of_time)} UTC, {labels.of(labels.EVENT_CLASSES, self.event_class)}, {kind}"


class Events(Sequence[Event]):
    """A file's events, in its order."""

    def __init__(self, file: File, indices: npt.NDArray[np.intp]) -> None:
        self._file = file
        self._indices = indices

    def __len__(self) -> int:
        return len(self._indices)

    @overload
    def __getitem__(self, index: int) -> Event: ...

    @overload
    def __getitem__(self, index: slice) -> Events: ...

    def __getitem__(self, index: Union[int, slice]) -> Union[Event, Events]:
        if isinstance(index, slice):
            return Events(self._file, self._indices[index])
        return Event(self._file, int(self._indices[index]))

    def __repr__(self) -> str:
        return f"<dwejrasq.Events: {len(self)} of {self._file.name!r}>"

    def __iter__(self) -> Iterator[Event]:
        return (Event(self._file, int(index)) for index in self._indices)

    @property
    def numbers(self) -> npt.NDArray[np.uint32]:
        """The events' numbers."""
        numbers: npt.NDArray[np.uint32] = self._file.rows["one"][self._indices + 1]
        return numbers

    def numbered(self, number: int) -> Event:
        """The first event with a number; Absent where there is none."""
        found = np.flatnonzero(self.numbers == operator.index(number))
        if len(found) == 0:
            numbers = self.numbers
            there = f"there are {len(self):,}, with numbers from {numbers.min()} to {numbers.max()}" if len(self) else "there are none"
            raise Absent(f"no event has the number {number}; {there}")
        return self[int(found[0])]
