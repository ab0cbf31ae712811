"""What can still be read of a refused file: the part before its fault, and the container that the fault is in, closed again before it.

Where a part ends, and whether it is a file, the library says: it is asked about shorter bytes, and its own closings close what was cut.
"""

from __future__ import annotations

from dataclasses import dataclass
from typing import Any, Optional

from . import labels
from ._native import lent, library, places
from .faults import Refused, structure_at
from .files import File, counted, read


@dataclass(frozen=True)
class Reopened:
    """The container that a fault is in, closed again over those of its contents that the library accepts: the last one of ``file``."""

    file: File
    """All that stands before the container, and it."""
    place: int
    """Where the container begins."""
    end: int
    """Where its contents end that could be read."""
    event: bool
    """Whether it is an event, or the configuration."""
    own: bool
    """Whether its own first word, with an event's class, category and type, is admitted; else they are 0, and say nothing."""


def refusal_of(data: memoryview) -> Optional[Refused]:
    """Table's refusal of a file's bytes; None where they are accepted."""
    try:
        counted(lent(data), len(data))
    except Refused as refusal:
        # Another one: the first has the frames along that it was raised in, and with them the lent bytes.
        return Refused(refusal.number, refusal.place)
    return None


def container_at(data: memoryview, place: int) -> Optional[int]:
    """Where the outermost structure begins that a fault at a place is in, which may be that place; None where the library doesn't tell."""
    cut = refusal_of(data[:place])
    if cut is None:
        return place
    # Cut off at the fault, the container that holds it runs past the end: it is refused with 2, and that is where it begins.
    return cut.place if cut.number == library.DWJ_TOO_SHORT else None


def before_fault(data: memoryview) -> Optional[File]:
    """The part of a refused file before the event that its fault is in, or is; None where that part is no file. An accepted file is all of it."""
    refusal = refusal_of(data)
    start = container_at(data, refusal.place) if refusal else len(data)
    if start is None or refusal_of(data[:start]):
        return None
    return read(data[:start])


def reopened(data: memoryview) -> Optional[Reopened]:
    """The container that a refused file's fault is in, with its contents before the fault; None where no such can be read.

    Where the container's own two words are at fault (it runs past the end of the file, say), its contents are those behind the two words up to the
    first that the library refuses.
    """
    refusal = refusal_of(data)
    start = container_at(data, refusal.place) if refusal else None
    if refusal is None or start is None or start == 0:
        return None
    end = refusal.place if refusal.place > start else max(len(data), start + 8)
    if refusal_of(data[:start]):
        # What stands before the first container, the header, is no file by itself: this is the configuration. Another structure has no entries.
        entries = structure_at(data, start) == labels.KINDS[library.DWJ_CONFIGURATION]
        file = _closed(data, start, end if entries else start + 8, library.dwj_close_configuration)
        return Reopened(file, start, len(file), False, entries) if file else None
    if structure_at(data, start) != labels.KINDS[library.DWJ_EVENT]:
        return None
    word = int.from_bytes(data[start : start + 2], "little")
    for own, words in ((True, (word >> 12, word >> 8 & 15, word & 255)), (False, (0, 0, 0))):
        file = _closed(data, start, end, library.dwj_close_event, *words)
        if file:
            return Reopened(file, start, len(file), True, own)
    return None


def _closed(data: memoryview, start: int, end: int, close: Any, *words: int) -> Optional[File]:
    """The file up to an end, its last container closed there; or, where the library refuses something inside, before that."""
    out = bytearray(end)
    out[: min(end, len(data))] = data[:end]
    after, refused_at = places()
    number = close(lent(out), end, start, end, *words, after, refused_at)
    if number != 0 and refused_at[0] > start:
        end = int(refused_at[0])
        number = close(lent(out), end, start, end, *words, after, refused_at)
    part = memoryview(out)[:end].toreadonly()
    return read(part) if number == 0 and refusal_of(part) is None else None
