"""Files for the tests: trees drawn by hypothesis or from a seed, their bytes by docs/FORMAT.md alone, the same by the Writer, and damaged ones."""

from __future__ import annotations

import random
import struct
from dataclasses import dataclass
from typing import Any, Callable, Protocol, Sequence, TypeVar

import dwejrasq
from hypothesis import strategies as st

T = TypeVar("T")

# FORMAT 3.2 and 3.3: of each type the channels, with analysis and cold names.
_ZIP = {0: ("QI", "QI"), 1: ("QO", "QO"), 2: ("PA", "PA"), 3: ("PB", "PB"), 4: ("PC", "PC"), 5: ("PD", "PD")}
_COLD = ("QIS1", "QOS1", "A1", "B1", "C1", "D1", "QIS2", "QOS2", "A2", "B2", "C2", "D2")
_FIRST = ("QIS1", "QOS1", "PAS1", "PBS2", "PCS1", "PDS1", "QIS2", "QOS2", "PAS2", "PBS1", "PCS2", "PDS2")
_SECOND = ("QIS1", "QOS1", "PAS2", "PBS1", "PCS2", "PDS1", "QIS2", "QOS2", "PAS1", "PBS2", "PCS1", "PDS2")
LISTED: dict[int, dict[int, tuple[str, str]]] = {
    1: {1: ("QI", "QI"), 2: ("QO", "QO"), 3: ("PS1", "PS1"), 4: ("PS2", "PS2")},
    2: _ZIP,
    3: {0: ("Veto", "Veto")},
    4: _ZIP,
    5: _ZIP,
    6: _ZIP,
    7: {0: ("Q", "Q"), 1: ("PA", "PA"), 2: ("PB", "PB")},
    10: dict(enumerate(zip(_FIRST, _COLD))),
    11: dict(enumerate(zip(_SECOND, _COLD))),
}
ALL = [(type, channel, names[0]) for type, channels in LISTED.items() for channel, names in channels.items()]
PHONON = [one for one in ALL if one[2][0] == "P"]
CHARGE = [one for one in ALL if one[2][0] == "Q"]
SITES = (0, 1, 2, 3, 6, 7, 50, 51, 52, 53, 56, 57)
DAYS = (31, 29, 31, 30, 31, 30, 31, 31, 30, 31, 30, 31)
ENTRY_WORDS = {
    "phonon": ("tower", "gain", "qet_bias", "squid_bias", "lockpoint", "rtf_offset", "variable_gain", "delta_t", "t0", "trace_length"),
    "charge": ("tower", "gain", "bias", "rtf_offset", "delta_t", "t0", "trace_length"),
}
MOST = 2**32 - 1


class Pick(Protocol):
    """Where the numbers of a tree come from."""

    def number(self, low: int, high: int) -> int:
        """A number from low to high, both among them, the two ends more often than others."""

    def one(self, choices: Sequence[T]) -> T:
        """One of several."""


class Seeded:
    """Numbers from a seed."""

    def __init__(self, seed: int) -> None:
        self.random = random.Random(seed)

    def number(self, low: int, high: int) -> int:
        return self.random.choice((low, high)) if self.random.random() < 0.2 else self.random.randint(low, high)

    def one(self, choices: Sequence[T]) -> T:
        return self.random.choice(choices)


class Drawn:
    """Numbers that hypothesis draws, and makes smaller where a test fails."""

    def __init__(self, draw: Callable[[Any], Any]) -> None:
        self.draw = draw

    def number(self, low: int, high: int) -> int:
        return int(self.draw(st.integers(low, high)))

    def one(self, choices: Sequence[T]) -> T:
        return self.draw(st.sampled_from(choices))  # type: ignore[no-any-return]


@dataclass
class Part:
    """An entry or a record: the Writer's call, and what it is handed."""

    call: str
    words: dict[str, Any]


@dataclass
class Happening:
    """An event of a tree."""

    word: tuple[int, int, int]
    records: list[Part]


@dataclass
class Tree:
    """What a file is made of."""

    daq: tuple[int, int]
    entries: list[Part]
    events: list[Happening]


def code(pick: Pick, listed: Sequence[tuple[int, int, str]]) -> int:
    """A listed code."""
    type, channel, _ = pick.one(listed)
    return type * 1_000_000 + pick.number(0, 999) * 1_000 + channel


def entry(pick: Pick) -> Part:
    """An entry of the configuration, its free words anything that a word holds."""
    call = pick.one(("phonon", "charge"))
    words = {name: pick.number(-(2**31), 2**31 - 1) for name in ENTRY_WORDS[call]}
    return Part(call, {"code": code(pick, PHONON if call == "phonon" else CHARGE), **words})


def administrative(pick: Pick, numbers: Sequence[int] = ()) -> Part:
    """An administrative record; its event's number is one of those given, or any."""
    year, month = pick.number(0, 99), pick.number(1, 12)
    days = DAYS[month - 1] - (1 if month == 2 and year % 4 else 0)
    return Part(
        "administrative",
        {
            "date": pick.one(SITES) * 1_000_000 + year * 10_000 + month * 100 + pick.number(1, days),
            "hour": pick.number(0, 23) * 100 + pick.number(0, 59),
            "number": pick.one(numbers) if numbers else pick.number(0, MOST),
            "seconds": pick.number(0, MOST),
            "since": pick.number(0, MOST),
            "live": pick.number(0, MOST),
        },
    )


def trace(pick: Pick, codes: Sequence[int] = (), most: int = 8) -> Part:
    """A trace of up to twice so many samples."""
    samples = [pick.number(0, 65535) for _ in range(2 * pick.number(1, most))]
    words = {"t0": pick.number(-(2**31), 2**31 - 1), "delta_t": pick.number(1, MOST), "address": pick.number(0, MOST), "digitizer": pick.number(1, 8)}
    return Part("trace", {"code": pick.one(codes) if codes else code(pick, ALL), "samples": samples, **words})


def history(pick: Pick) -> Part:
    """A history, either section of which may be missing."""
    words: dict[str, Any] = {}
    for section in ("veto", "trigger"):
        count = pick.number(0, 3)
        width = pick.number(1, 3) if section == "veto" else 6
        words[f"{section}_times"] = [pick.number(-(2**31), 2**31 - 1) for _ in range(count)]
        words[f"{section}_masks"] = [[pick.number(0, MOST) for _ in range(width)] for _ in range(count)]
    return Part("history", words)


def gps(pick: Pick) -> Part:
    """A GPS time."""
    year = pick.number(0, 9999)
    leap = year % 4 == 0 and (year % 100 != 0 or year % 400 == 0)
    words = {"year": year, "day": pick.number(1, 366 if leap else 365), "status": pick.number(0, 15), "hour": pick.number(0, 23)}
    return Part("gps", {**words, "minute": pick.number(0, 59), "second": pick.number(0, 59), "tenths": pick.number(0, 9_999_999)})


def trigger(pick: Pick) -> Part:
    """Trigger masks."""
    return Part("trigger", {"masks": [pick.number(0, MOST) for _ in range(6)]})


def tlb(pick: Pick) -> Part:
    """TLB words: of a tower 0, or its number and any bits."""
    return Part("tlb", {"words": [pick.one((0, tower << 24 | pick.number(0, 2**24 - 1))) for tower in range(1, 7)]})


def happening(pick: Pick, numbers: Sequence[int] = (), codes: Sequence[int] = (), most: int = 8) -> Happening:
    """An event: its administrative record, then others in any order."""
    single = [make for make in (history, gps, trigger, tlb) if pick.one((True, False))]
    records = [make(pick) for make in single] + [trace(pick, codes, most) for _ in range(pick.number(0, 3))]
    for last in range(len(records) - 1, 0, -1):
        other = pick.number(0, last)
        records[last], records[other] = records[other], records[last]
    word = (pick.one((0, 2)), pick.one((0, 1, 6)), pick.one((0, 1, 2, 3, 4, 5, 6, 8, 9, 10)))
    return Happening(word, [administrative(pick, numbers), *records])


def tree(pick: Pick, numbers: Sequence[int] = (), codes: Sequence[int] = (), most: int = 8) -> Tree:
    """A whole file."""
    entries = [entry(pick) for _ in range(pick.number(0, 3))]
    events = [happening(pick, numbers, codes, most) for _ in range(pick.number(0, 4))]
    return Tree((pick.number(0, 255), pick.number(0, 255)), entries, events)


def trees(numbers: Sequence[int] = (), codes: Sequence[int] = ()) -> st.SearchStrategy[Tree]:
    """Trees, as hypothesis draws them."""

    @st.composite
    def drawn(draw: Callable[[Any], Any]) -> Tree:
        return tree(Drawn(draw), numbers, codes)

    return drawn()


def parts(make: Callable[[Pick], Part]) -> st.SearchStrategy[Part]:
    """Entries or records of one sort."""

    @st.composite
    def drawn(draw: Callable[[Any], Any]) -> Part:
        return make(Drawn(draw))

    return drawn()


def written(whole: Tree) -> bytes:
    """A tree by the Writer."""
    writer = dwejrasq.Writer(whole.daq)
    with writer.configuration():
        for part in whole.entries:
            getattr(writer, part.call)(**part.words)
    for event in whole.events:
        with writer.event(*event.word):
            for part in event.records:
                getattr(writer, part.call)(**part.words)
    return writer.bytes()


def _words(*words: int) -> bytes:
    return struct.pack(f"<{len(words)}I", *(word & MOST for word in words))


def _bcd(number: int) -> int:
    return int(str(number), 16)


def body(part: Part) -> tuple[int, bytes]:
    """Kind and body of an entry or a record, by FORMAT 4 and 5."""
    words = part.words
    if part.call in ENTRY_WORDS:
        return {"phonon": 0x00010001, "charge": 0x00010002}[part.call], _words(words["code"], *(words[name] for name in ENTRY_WORDS[part.call]))
    if part.call == "administrative":
        return 0x02, _words(*(words[name] for name in ("date", "hour", "number", "seconds", "since", "live")))
    if part.call == "trace":
        n = len(words["samples"])
        blocks = (0x11, 12, words["address"], words["digitizer"], words["code"], 0x12, 12, words["t0"], words["delta_t"], n, 0x13, n)
        return 0x11, _words(*blocks) + struct.pack(f"<{n}H", *words["samples"])
    if part.call == "history":
        data = b""
        for section in ("veto", "trigger"):
            times, masks = words[f"{section}_times"], words[f"{section}_masks"]
            data += _words(len(times), *times, len(masks[0]) if masks else 0, *(word for mask in masks for word in mask))
        return 0x21, data
    if part.call == "gps":
        clock = _bcd(words["hour"]) << 16 | _bcd(words["minute"]) << 8 | _bcd(words["second"])
        return 0x60, _words(_bcd(words["year"]) << 16 | _bcd(words["day"]), words["status"] << 28 | clock, _bcd(words["tenths"]))
    if part.call == "trigger":
        return 0x80, _words(0, *words["masks"])
    return 0x81, _words(*words["words"])


def structure(kind: int, data: bytes) -> bytes:
    """A structure: kind, length, body."""
    return _words(kind, len(data)) + data


def laid(whole: Tree) -> bytes:
    """A tree by FORMAT alone."""
    major, minor = whole.daq
    data = _words(0x01020304, major << 24 | minor << 16 | 0x0200)
    data += structure(0x00010000, b"".join(structure(*body(part)) for part in whole.entries))
    for event in whole.events:
        event_class, category, type = event.word
        word = 0xA9800000 | event_class << 12 | category << 8 | type
        data += structure(word, b"".join(structure(*body(part)) for part in event.records))
    return data


def smallest(length: int) -> bytes:
    """A file of as many events as go into a length, each with its administrative record alone: none has more rows."""
    pick = Seeded(1)
    head = laid(Tree((1, 0), [], []))
    event = laid(Tree((1, 0), [], [Happening((0, 0, 0), [administrative(pick, [7])])]))[len(head) :]
    return head + event * ((length - len(head)) // len(event))


# Words that stand in files, or nearly do.
ODD: tuple[int, ...] = (0, 1, 2, 3, 4, 7, 8, 11, 12, 16, 24, 0x11, 0x12, 0x13, 0x21, 0x60, 0x80, 0x81, 0x10000, 0x10001, 0x10002)
ODD += (0xA9800000, 0xA9800007, 0xA9801000, 2**31 - 1, 2**31, MOST, MOST - 7, 0x01020304, 0x04030201, 11017002, 12000000)


def hurt(data: bytes, pick: Pick) -> bytes:
    """A file with one damage: a byte, a word, a length, bytes too few or too many."""
    out = bytearray(data)
    at = pick.number(0, len(out) - 1)
    word = at - at % 4
    sort = pick.one(("byte", "bit", "word", "near", "cut", "more", "out", "twice"))
    if sort == "byte":
        out[at] = pick.number(0, 255)
    elif sort == "bit":
        out[at] ^= 1 << pick.number(0, 7)
    elif sort == "word":
        out[word : word + 4] = _words(pick.one(ODD))
    elif sort == "near":
        was = int.from_bytes(out[word : word + 4], "little")
        out[word : word + 4] = _words(was + pick.one((-8, -4, -2, -1, 1, 2, 4, 8)))
    elif sort == "cut":
        del out[at:]
    elif sort == "more":
        out += bytes(pick.one((0, 255)) for _ in range(pick.number(1, 17)))
    elif sort == "out":
        del out[word : word + pick.one((1, 2, 4, 8))]
    else:
        out[word:word] = out[word : word + pick.one((4, 8, 20, 32))]
    return bytes(out)


def struck(data: bytes, rows: Any, pick: Pick) -> bytes:
    """A file with a damage at one of the first words of one of its structures: its kind, its length, or a field."""
    row = pick.one(range(len(rows)))
    at = int(rows["start"][row]) + 4 * pick.one((0, 1, pick.number(0, 13), pick.number(0, 13)))
    if at + 4 > len(data):
        return hurt(data, pick)
    was = int.from_bytes(data[at : at + 4], "little")
    now = pick.one((*ODD, was + 1, was - 1, was + 4, was - 4, was + 8, was - 8, was ^ 1 << pick.number(0, 31)))
    if rows["kind"][row] == 5 and at == rows["start"][row]:
        # An event's word, mostly with its mark.
        admitted = 0xA9800000 | pick.one((0, 2)) << 12 | pick.one((0, 1, 6)) << 8
        now = pick.one((now, 0xA9800000 | pick.number(0, 0xFFFF), admitted | pick.one((7, 11, pick.number(0, 10)))))
    return data[:at] + _words(now) + data[at + 4 :]
