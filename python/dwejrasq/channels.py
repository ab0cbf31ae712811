"""Detector codes and their names, as the library lists them."""

from __future__ import annotations

import re
from dataclasses import dataclass
from functools import lru_cache

from . import labels
from ._native import ffi, library
from .faults import Absent, Refused


@dataclass(frozen=True)
class Channel:
    """A channel of a detector: its code, the detector's type and number, the channel's analysis and cold names."""

    code: int
    type: int
    number: int
    name: str
    cold: str

    @property
    def detector(self) -> str:
        """The detector, as in ``iZIP17``."""
        return f"{labels.of(labels.DETECTORS, self.type)}{self.number}"

    @property
    def side(self) -> str:
        """The side of an iZIP that its analysis name ends with, ``S1`` or ``S2``; nothing for other detectors."""
        return self.name[-2:] if self.type in labels.CLASSES_OF_IZIP else ""

    @property
    def izip_class(self) -> str:
        """``I`` or ``II`` for an iZIP, nothing for other detectors."""
        return labels.CLASSES_OF_IZIP.get(self.type, "")

    def __str__(self) -> str:
        return f"{self.detector}:{self.name}"


@lru_cache(maxsize=4096)
def channel(code: int) -> Channel:
    """The channel of a detector code; Refused (10) where there is none."""
    numbers, name, cold = ffi.new("uint32_t[4]"), ffi.new("uint8_t[4]"), ffi.new("uint8_t[4]")
    number = library.dwj_channel(code, numbers, name, cold) if 0 <= code < 2**32 else 10
    if number != 0:
        raise Refused(number, 0, f"code {code}")
    return Channel(
        code,
        numbers[0],
        numbers[1],
        bytes(ffi.buffer(name))[: numbers[2]].decode("ascii"),
        bytes(ffi.buffer(cold))[: numbers[3]].decode("ascii"),
    )


def code(type: int, number: int, name: str) -> int:
    """The detector code of a type, a detector's number and an analysis name; Refused (10) where there is none."""
    spelled = name.encode("utf-8", "surrogatepass")
    answer = ffi.new("uint32_t *")
    known = 0 <= type < 2**32 and 0 <= number < 2**32
    refusal = library.dwj_code(type, number, ffi.from_buffer("uint8_t[]", spelled), len(spelled), answer) if known else 10
    if refusal != 0:
        raise Refused(refusal, 0, f"{name} of detector {number} of type {type}")
    return int(answer[0])


@lru_cache(maxsize=1)
def channels() -> tuple[Channel, ...]:
    """Every channel of every detector type, for the detector with the number 0."""
    found = []
    for type in range(100):
        for position in range(100):
            try:
                found.append(channel(type * 1_000_000 + position))
            except Refused:
                continue
    return tuple(found)


def zips(word: int) -> list[int]:
    """The ZIPs, from 1 to 24, whose bits are set in a tower's word of a TLB record."""
    return [zip for zip in range(1, 25) if library.dwj_zip(word, zip) == 1]


def named(text: str) -> list[int]:
    """The codes that a text may mean: a code itself, or a detector and a channel, as in ``iZIP17:PAS2``.

    Both iZIP classes are iZIP; ``iZIP-I17:PAS2`` and ``iZIP-II17:PAS2`` say which. Absent, with the reason, where it means none.
    """
    if re.fullmatch(r"[0-9]{1,10}", text):
        try:
            return [channel(int(text)).code]
        except Refused:
            raise Absent(f"{text} is no detector code") from None
    parts = re.fullmatch(r"([A-Za-z]+?)(-II|-I)?([0-9]{1,10}):([A-Za-z0-9]+)", text)
    if parts is None:
        raise Absent(f"'{text}' is no channel: a detector, its number and a channel's name are asked, as in iZIP17:PAS2, or a code, as in 11017002")
    detector, izip_class, number, name = parts.groups()
    types = [type for type, label in labels.DETECTORS.items() if label.lower() == detector.lower()]
    if izip_class:
        types = [type for type in types if labels.CLASSES_OF_IZIP.get(type) == izip_class[1:]]
    if not types:
        known = ", ".join(dict.fromkeys(labels.DETECTORS.values()))
        raise Absent(f"there is no detector type '{detector}{izip_class or ''}'; there are {known}, and for one class iZIP-I and iZIP-II")
    codes = []
    for type in types:
        try:
            codes.append(code(type, int(number), name))
        except Refused:
            continue
    if not codes:
        names = " ".join(c.name for c in channels() if c.type == types[0])
        raise Absent(f"there is no {detector}{izip_class or ''}{number}:{name}; such a detector's channels are {names}")
    return codes
