"""Refusals in words, and what stands where a file is refused."""

from __future__ import annotations

from functools import lru_cache
from typing import Union

from . import labels
from ._native import FAULTS, Bytes, ffi, library, places


class Refused(ValueError):
    """A call was refused: by which number (FORMAT 2.1), and at which byte.

    ``structure`` is what stands at that byte, where a file was refused and the word there names it; for a channel, the one that was asked for.
    """

    def __init__(self, number: int, place: int, structure: str = "") -> None:
        super().__init__(number, place, structure)
        self.number = number
        self.place = place
        self.structure = structure

    @property
    def words(self) -> str:
        """The fault in words, as the header has them."""
        return FAULTS.get(self.number, "a number that this module doesn't know")

    def __str__(self) -> str:
        where = f"{self.structure}: " if self.structure else ""
        return f"refused at byte {self.place}: {where}{self.words} ({self.number})"


class Changed(OSError):
    """A mapped file was changed by somebody while it was open: nothing that was read of it since then counts."""

    def __init__(self, name: str) -> None:
        super().__init__(name)
        self.name = name

    def __str__(self) -> str:
        return f"{self.name}: was changed while it was read"


class Absent(LookupError):
    """What was asked for isn't in the file."""


@lru_cache(maxsize=1)
def _words() -> tuple[dict[bytes, str], bytes]:
    """The first words of the structures, as the library's own writers lay them; and an event's mark, the upper half of its word."""
    out, (after, refused) = ffi.new("uint8_t[256]"), places()
    code = ffi.new("uint32_t *")
    codes = {}
    for name in (b"PA", b"QI"):
        library.dwj_code(4, 1, name, 2, code)
        codes[name] = code[0]
    none = ffi.new("uint8_t[4]")
    date = [1100115, 1630, 0, 0, 0, 0]

    def word(number: int, at: int = 8) -> bytes:
        if number != 0:
            raise AssertionError("the library refuses a record that it should write")
        return bytes(ffi.buffer(out, 256)[at : at + 4])

    first = {
        word(library.dwj_write_phonon(out, 256, 8, [codes[b"PA"]] + [0] * 10, after, refused)): labels.KINDS[labels.PHONON],
        word(library.dwj_write_charge(out, 256, 8, [codes[b"QI"]] + [0] * 7, after, refused)): labels.KINDS[labels.CHARGE],
        word(library.dwj_write_trace(out, 256, 8, 0, 1, codes[b"QI"], 0, 1, 2, none, 4, after, refused)): labels.KINDS[labels.TRACE],
        word(library.dwj_write_history(out, 256, 8, 0, none, 0, 0, none, 0, 0, none, 0, 0, none, 0, after, refused)): labels.KINDS[labels.HISTORY],
        word(library.dwj_write_gps(out, 256, 8, [2010, 1, 0, 0, 0, 0, 0], after, refused)): labels.KINDS[labels.GPS],
        word(library.dwj_write_trigger(out, 256, 8, [0] * 6, after, refused)): labels.KINDS[labels.TRIGGER],
        word(library.dwj_write_tlb(out, 256, 8, [0] * 6, after, refused)): labels.KINDS[labels.TLB],
        word(library.dwj_write_administrative(out, 256, 8, date, after, refused)): labels.KINDS[labels.ADMINISTRATIVE],
    }
    mark = word(library.dwj_close_event(out, 256, 0, after[0], 0, 0, 0, after, refused), 0)[2:]
    first[word(library.dwj_close_configuration(out, 256, 0, 8, after, refused), 0)] = labels.KINDS[labels.CONFIGURATION]
    return first, mark


def structure_at(data: Union[Bytes, memoryview], place: int) -> str:
    """What the word at a place says that the structure there is; nothing where it says nothing."""
    words, mark = _words()
    word = bytes(data[place : place + 4])
    if place == 0:
        return labels.KINDS[labels.HEADER]
    if len(word) == 4 and word[2:] == mark:
        return labels.KINDS[labels.EVENT]
    return words.get(word, "")


def hexadecimal(data: Union[Bytes, memoryview], place: int, most: int = 128) -> list[str]:
    """The bytes of the structure at a place, sixteen to a line behind the place of the first: as far as its second word says, and at most so many.

    That word is read here for this alone; where it reaches past the data, the bytes up to their end are shown.
    """
    length = 8 + int.from_bytes(bytes(data[place + 4 : place + 8]), "little") if place > 0 else 8
    end = min(place + length, len(data))
    shown = bytes(data[place : min(end, place + most)])
    lines = [f"{place + at:>10}  {shown[at : at + 16].hex(' ', 1)}" for at in range(0, len(shown), 16)]
    left = end - place - len(shown)
    return lines + ([f"            and {left:,} bytes more"] if left > 0 else [])
