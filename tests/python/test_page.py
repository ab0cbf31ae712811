"""The page of a file, and what it shows of a refused one: laid out, well-formed, complete, and really drawn by a browser."""

from __future__ import annotations

import html
import re
import shutil
import struct
import subprocess
import tempfile
import time
from collections import Counter
from collections.abc import Callable, Iterator
from concurrent.futures import ThreadPoolExecutor
from html.parser import HTMLParser
from pathlib import Path
from typing import Optional

import numpy as np
import numpy.typing as npt
import pytest

import dwejrasq
from dwejrasq import damaged, page
from dwejrasq._native import library
from dwejrasq.faults import hexadecimal

EXAMPLES = Path(__file__).resolve().parents[2] / "examples"
IZIP = ("QIS1", "QOS1", "PAS1", "PBS1", "PCS1", "PDS1", "QIS2", "QOS2", "PAS2", "PBS2", "PCS2", "PDS2")
VOID = {"meta", "input"}


class Parsed(HTMLParser):
    """A page's tags, each closed by its own; its attributes and its texts."""

    def __init__(self, text: str) -> None:
        super().__init__(convert_charrefs=True)
        self.open: list[str] = []
        self.tags: Counter[str] = Counter()
        self.found: list[tuple[str, dict[str, Optional[str]]]] = []
        self.texts: list[str] = []
        self.title = ""
        self.feed(text)
        self.close()
        assert self.open == []

    def handle_starttag(self, tag: str, attrs: list[tuple[str, Optional[str]]]) -> None:
        assert len(dict(attrs)) == len(attrs), (tag, attrs)
        self.tags[tag] += 1
        self.found.append((tag, dict(attrs)))
        if tag not in VOID:
            self.open.append(tag)

    def handle_endtag(self, tag: str) -> None:
        assert self.open.pop() == tag

    def handle_data(self, data: str) -> None:
        if self.open[-1:] == ["title"]:
            self.title += data
        elif self.open[-1:] not in (["script"], ["style"]):
            self.texts.append(data)

    def by_class(self, name: str) -> list[dict[str, Optional[str]]]:
        return [attributes for _, attributes in self.found if name in (attributes.get("class") or "").split()]


def looked_at(text: str) -> Parsed:
    """A page that is well-formed, needs nothing from outside, and whose links lead to what is there."""
    assert text.encode("utf-8").startswith(b"<!doctype html>")
    parsed = Parsed(text)
    assert "http:" not in text and "https:" not in text and "url(" not in text and "@import" not in text
    ids = [attributes["id"] for _, attributes in parsed.found if "id" in attributes]
    assert len(ids) == len(set(ids))
    for tag, attributes in parsed.found:
        assert tag not in ("link", "img", "iframe", "object", "embed", "base")
        assert "src" not in attributes and "srcset" not in attributes and "action" not in attributes
        assert not any(name.startswith("on") for name in attributes)
        if "href" in attributes:
            assert (attributes["href"] or "").startswith("#") and (attributes["href"] or "")[1:] in ids
    assert parsed.tags["html"] == parsed.tags["title"] == parsed.tags["main"] == parsed.tags["noscript"] == 1
    assert parsed.tags["script"] == 2 and parsed.found[0] == ("html", {"lang": "en"})
    return parsed


def made(data: bytes, name: str = "some.raw") -> tuple[str, Parsed]:
    text = page.page(memoryview(data), name)
    return text, looked_at(text)


def pulse(at: int, n: int = 2048) -> npt.NDArray[np.uint16]:
    """A baseline with noise, and a pulse that decays."""
    time = np.arange(n) - n // 4
    decay = np.where(time > 0, np.exp(-np.maximum(time, 0) / 200), 0)
    noise = np.random.default_rng(at).normal(0, 30, n)
    return (30000 + 500 * (at + 1) * decay + noise).astype(np.uint16)


def several() -> bytes:
    """A file with all kinds of record, both iZIP classes, detectors again and again, and an event without traces."""
    w = dwejrasq.Writer((3, 5))
    with w.configuration():
        for type, number in ((10, 1), (11, 17)):
            for name in IZIP:
                if name.startswith("P"):
                    w.phonon((type, number, name), tower=2, gain=1050, qet_bias=325, squid_bias=-333, delta_t=800, t0=-409600, trace_length=2048)
                else:
                    w.charge((type, number, name), tower=-1, gain=4000, bias=-3000, delta_t=800, t0=-409600, trace_length=2048)
        w.phonon((4, 3, "PA"))
        w.phonon((4, 3, "PA"))
    with w.event(type=9):
        w.administrative(date=1100115, hour=1630, number=7, seconds=1263573000, since=12, live=11)
        w.gps(year=2010, day=15, hour=16, minute=30, second=1, tenths=2000000, status=3)
        w.trigger([12, 0, 0, 0, 0, 0xFFFFFFFF])
        w.tlb([0x01000004, 0x02800011, 0, 0, 0, 0])
        w.history([-5, 70000], [[0xC1], [1]], [0], [[1, 2, 3, 4, 5, 6]])
        for at, name in enumerate(IZIP):
            w.trace((11, 17, name), pulse(at), t0=-409600, delta_t=800, address=0xF0000000, digitizer=2)
    with w.event(category=1, type=4):
        w.administrative(date=1100115, hour=1630, number=8, seconds=1263573060)
    with w.event(event_class=2, category=6, type=3):
        w.administrative(date=51100115, hour=1630, number=7, seconds=1263573120)
        for at, name in enumerate(IZIP):
            w.trace((10, 1, name), pulse(at, 64), t0=-51200, delta_t=1600)
        w.trace((11, 1, "PAS2"), [5, 5])
        w.trace((11, 1, "PAS2"), [0, 65535], t0=2**31 - 1, delta_t=2**32 - 1)
        w.trace((4, 3, "PA"), pulse(1, 300))
        w.trace((3, 0, "Veto"), pulse(2, 302))
    return w.bytes()


FILE = several()


def empty() -> bytes:
    w = dwejrasq.Writer()
    with w.configuration():
        pass
    return w.bytes()


def at(kind: int, number: int = 0) -> int:
    """Where FILE's row of a kind stands, by its number from 0."""
    with dwejrasq.read(FILE) as file:
        return int(file.rows["start"][file.rows["kind"] == kind][number])


def with_word(place: int, word: int) -> bytes:
    """FILE with another word at a place."""
    return FILE[:place] + struct.pack("<I", word) + FILE[place + 4 :]


# Pages of accepted files.


@pytest.mark.parametrize("name", ["p14", "every-kind"])
def test_examples(name: str) -> None:
    data = (EXAMPLES / f"{name}.raw").read_bytes()
    text, parsed = made(data, f"{name}.raw")
    assert "✓ accepted" in parsed.texts and 'id="refusal"' not in text
    with dwejrasq.read(data) as file:
        assert len(parsed.by_class("event")) == len(file.events)
        assert len(parsed.by_class("trace")) == sum(len(event.traces) for event in file.events)
        for event in file.events:
            for trace in event.traces:
                assert trace.channel.name in parsed.texts
        for setting in file.settings:
            assert str(setting.code) in parsed.texts and setting.channel.cold in parsed.texts


def test_all_that_a_file_holds() -> None:
    text, parsed = made(FILE)
    said = " | ".join(parsed.texts)
    for words in (
        f"{len(FILE):,} bytes",
        "DAQ 3.5, format 2.0",
        "01100115_1630, 51100115_1630",
        "Soudan; Soudan, Monte Carlo",
        "2010-01-15 16:30:00",
        "2010-01-15 16:32:00",
        "(2 min)",
        "3 events.",
        "barium-133: 1 event",
        "per trigger, selective readout",
        "occasional",
        "random triggers",
        "Monte Carlo",
        "2010-01-15 16:30:01.2000000 ",
        "day 15 of 2010, status 3",
        "0x0000000C 0x00000000 0x00000000 0x00000000 0x00000000 0xFFFFFFFF",
        "tower 1: ZIP 3; tower 2: ZIP 1, 5, 24; tower 3: none; tower 4: none; tower 5: none; tower 6: none",
        "History: 2 veto times, µs",
        "0x000000C1",
        "70,000 ",
        "12 ms, 11 ms live",
        "No traces.",
        "10.50",
        "−3.33",
        "−3,000",
        "class II",
        "class I",
        "26 entries in working units ",
    ):
        assert words in said, words
    assert [detail["id"] for detail in parsed.by_class("event")] == ["event-1", "event-2", "event-3"]
    assert [detail["data-number"] for detail in parsed.by_class("event")] == ["7", "8", "7"]
    assert len(parsed.by_class("segment")) == 5 and not parsed.by_class("mark")
    assert [segment.get("href") for segment in parsed.by_class("segment")] == [None, "#configuration", "#event-1", "#event-2", "#event-3"]


def test_sides_are_the_librarys() -> None:
    """In class II, channels 2 and 4 are on side S2, though their numbers are below 6."""
    text, _ = made(FILE)
    for detector, izip_class in (("iZIP17", "II"), ("iZIP1", "I")):
        section = text.split(f"<h3>{detector} <small>class {izip_class}</small></h3>")[1].split("</section>")[0]
        panels = section.split("<figcaption>")[1:]
        assert [re.findall("Side (S.)", panel) for panel in panels] == [["S1"], ["S2"]]
        for panel, side in zip(panels, ("S1", "S2")):
            assert re.findall("<strong>(.*?)</strong>", panel) == sorted(name for name in IZIP if name.endswith(side))


def test_traces_carry_their_columns() -> None:
    _, parsed = made(FILE)
    shown = parsed.by_class("trace")
    with dwejrasq.read(FILE) as file:
        drawn = sum(len(event.traces) for event in file.events)
    assert len(shown) == drawn == 28
    assert {item["data-n"] for item in shown} == {"2048", "64", "2", "300", "302"}
    assert {len(item["data-values"] or "") for item in shown if item["data-n"] == "2048"} == {1600}
    wide = next(item for item in shown if item["data-t0"] == str(2**31 - 1))
    assert wide["data-step"] == str(2**32 - 1)


@pytest.mark.parametrize("n", [2, 298, 300, 302, 598, 2048, 32768])
def test_envelope(n: int) -> None:
    samples = np.random.default_rng(n).integers(0, 65536, n).astype("<u2")
    values = np.frombuffer(page.envelope(samples), "<u2")
    if n <= page.COLUMNS:
        assert (values == samples).all()
        return
    edges = [column * n // page.COLUMNS for column in range(page.COLUMNS + 1)]
    parts = [samples[start:end] for start, end in zip(edges, edges[1:])]
    assert values.tolist() == [value for part in parts for value in (part.min(), part.max())]


def test_no_entries_and_no_events() -> None:
    text, parsed = made(empty())
    assert "No entries." in parsed.texts and "No events." in parsed.texts and "✓ accepted" in parsed.texts


def test_what_is_left_out_is_said(monkeypatch: pytest.MonkeyPatch) -> None:
    w = dwejrasq.Writer()
    with w.configuration():
        for _ in range(5):
            w.charge((11, 17, "QIS1"))
    for number in range(12):
        with w.event():
            w.administrative(date=1100115, hour=1630, number=number, seconds=number)
            w.history(range(9), [[1] * 11] * 9)
            for _ in range(7):
                w.trace((11, 17, "QIS1"), [1, 2])
    for name, bound in (("CARDS", 4), ("LISTED", 3), ("TRACES", 2), ("SETTINGS", 3), ("TIMES", 5), ("SEGMENTS", 6)):
        monkeypatch.setattr(page, name, bound)
    _, parsed = made(w.bytes())
    said = " | ".join(parsed.texts)
    assert "12 events: the first 4 with their records and traces, 3 more in a line each; 5 are left out of this page." in said
    assert "5 events more are in the file and not on this page." in said
    assert "The first 2 of 7 traces; 5 are left out." in said
    assert "The first 3 of 5 entries; 2 are left out." in said
    assert "and 4 more, left out" in said and " and 3 words" in said
    assert "(of the first 4 events)" in said and "a segment is several events, in the colour of the first" in said
    assert len(parsed.by_class("segment")) <= 9
    monkeypatch.setattr(page, "CARDS_SIZE", 1)
    _, parsed = made(w.bytes())
    assert "12 events: the first 1 with their records and traces, 3 more in a line each; 8 are left out of this page." in " | ".join(parsed.texts)


def test_longest_file_of_the_smallest_events() -> None:
    w = dwejrasq.Writer()
    with w.configuration():
        pass
    with w.event():
        w.administrative(date=1100115, hour=1630, number=1, seconds=1263573000)
    data = w.bytes()[:16] + w.bytes()[16:] * ((library.DWJ_LONGEST - 16) // 40)
    began = time.monotonic()
    text = page.page(memoryview(data), "small.raw")
    assert time.monotonic() - began < 10 and len(text) < 5_000_000
    assert "412,430 are left out of this page" in text


NAMES = ["a<b>&\"'.raw", "caf\udce9\udcff.raw", "\ud800", "\u202egnp.raw", "\x00\n\t\x1b[0m", "", "日本.raw", "</title><script>alert(1)</script>"]


@pytest.mark.parametrize("name", [*NAMES, "<!-- body -->", "$title"])
def test_odd_names(name: str) -> None:
    for data in (FILE, b"", FILE[:-1]):
        text, parsed = made(data, name)
        assert parsed.title == page.spelled(name) and page.spelled(name).isprintable()
        assert f"<bdi>{html.escape(page.spelled(name))}</bdi>" in text
    assert page.spelled("caf\udce9") == "caf\\xe9" and page.spelled("a\nb") == "a\\nb"


# Refused files. Of each: the bytes, number, place, whole events before, kinds of the records that can be read of the damaged event.

ADMINISTRATIVE, TRACE, HISTORY, GPS, TRIGGER, TLB = (
    library.DWJ_ADMINISTRATIVE,
    library.DWJ_TRACE,
    library.DWJ_HISTORY,
    library.DWJ_GPS,
    library.DWJ_TRIGGER,
    library.DWJ_TLB,
)
FIRST, SECOND, THIRD = (at(library.DWJ_EVENT, number) for number in range(3))
FIVE = [ADMINISTRATIVE, GPS, TRIGGER, TLB, HISTORY]
ALL = FIVE + [TRACE] * 12
REFUSED: dict[str, tuple[bytes, int, int, int, list[int]]] = {
    "no bytes": (b"", 2, 0, 0, []),
    "too long": (bytes(library.DWJ_LONGEST + 1), 1, 0, 0, []),
    "no file": (b"hello, world: no raw file", 3, 0, 0, []),
    "other format": (with_word(4, 0x01000201), 4, 0, 0, []),
    "header alone": (FILE[:8], 2, 8, 0, []),
    "half a configuration's words": (FILE[:13], 2, 8, 0, []),
    "no configuration": (with_word(8, 0x00010003), 5, 8, 0, []),
    "cut in the configuration": (FILE[:300], 2, 8, 0, []),
    "an entry of no channel": (with_word(at(library.DWJ_CHARGE, 2) + 8, 12000000), 10, at(library.DWJ_CHARGE, 2), 0, []),
    "first entry's kind": (with_word(16, 3), 5, 16, 0, []),
    "cut in a trace": (FILE[: at(TRACE, 3) + 100], 2, FIRST, 0, FIVE + [TRACE] * 3),
    "cut before a trace": (FILE[: at(TRACE, 3)], 2, FIRST, 0, FIVE + [TRACE] * 3),
    "cut in an event's words": (FILE[: SECOND + 6], 2, SECOND, 1, []),
    "cut in the administrative record": (FILE[: SECOND + 30], 2, SECOND, 1, []),
    "bytes left over": (FILE + b"abc", 2, len(FILE), 3, []),
    "a trace past its event": (with_word(at(TRACE, 11) + 4, 100000), 2, at(TRACE, 11), 0, FIVE + [TRACE] * 11),
    "an event's mark": (with_word(SECOND, 0x12340000), 5, SECOND, 1, []),
    "a trace's inner kind": (with_word(at(TRACE, 4) + 28, 0x14), 5, at(TRACE, 4), 0, FIVE + [TRACE] * 4),
    "GPS of another length": (with_word(at(GPS) + 4, 16), 6, at(GPS), 0, [ADMINISTRATIVE]),
    "class 1": (with_word(THIRD, 0xA9801000), 7, THIRD, 2, [ADMINISTRATIVE] + [TRACE] * 16),
    "monitoring": (with_word(FIRST, 0xA9800007), 8, FIRST, 0, ALL),
    "an event without records": (with_word(SECOND + 4, 0), 9, SECOND, 1, [ADMINISTRATIVE]),
    "no administrative record first": (with_word(FIRST + 8, 0x60), 9, FIRST + 8, 0, []),
    "a GPS record's day": (with_word(at(GPS) + 8, 0x20100366), 10, at(GPS), 0, [ADMINISTRATIVE]),
    "a series of month 13": (with_word(THIRD + 16, 51101315), 10, THIRD + 8, 2, []),
    "a trace's count": (with_word(at(TRACE, 14) + 52, 3), 11, at(TRACE, 14), 2, [ADMINISTRATIVE, TRACE, TRACE]),
}


def test_every_number_is_tried() -> None:
    assert {number for _, number, *_ in REFUSED.values()} == set(range(1, 12))


@pytest.mark.parametrize("case", REFUSED)
def test_refused(case: str) -> None:
    data, number, place, whole, kinds = REFUSED[case]
    refusal = damaged.refusal_of(memoryview(data))
    assert refusal is not None and (refusal.number, refusal.place) == (number, place)

    before = damaged.before_fault(memoryview(data))
    part = damaged.reopened(memoryview(data))
    if before is not None:
        with before:
            assert len(before.events) == whole and bytes(before.data) == data[: len(before)]
    if part is not None:
        with part.file as file:
            assert part.event == bool(kinds)
            assert len(file.events) == (whole + 1 if part.event else 0)
            if part.event:
                assert [record.kind for record in file.events[-1].records] == kinds
                # All but the event's own two words is as it was.
                assert bytes(file.data[: part.place]) == data[: part.place]
                assert bytes(file.data[part.place + 8 :]) == data[part.place + 8 : part.end]
                assert part.own == (number not in (7, 8)) and (not part.own or (file.data[part.place] == data[part.place]))
    else:
        assert kinds == []

    text, parsed = made(data)
    said = " | ".join(parsed.texts)
    assert f"✕ refused at byte {place:,}" in said and f"Refused at byte {place}: " in said and f"({number})" in said
    assert len(parsed.by_class("mark")) == 1
    left = float((parsed.by_class("mark")[0]["style"] or "").removeprefix("left:").removesuffix("%"))
    assert left == pytest.approx(100 * place / max(len(data), 1), abs=0.001)
    if number == 1:
        assert "more than 16,777,216 bytes" in parsed.texts and "not read: more than 16,777,216 bytes" in parsed.texts
    else:
        assert html.escape("\n".join(hexadecimal(memoryview(data), place))) in text
    events = parsed.by_class("event")
    assert len(events) == whole + bool(kinds)
    assert len(parsed.by_class("damaged")) == bool(kinds) == (f"This event is damaged at byte {place:,}." in said)
    assert len(parsed.by_class("trace")) == kinds.count(TRACE) + (12 if whole else 0) + (16 if whole == 3 else 0)
    assert ("type not read" in said) == (number in (7, 8))


@pytest.mark.parametrize("data", [np.frombuffer(FILE, np.uint8).data, np.empty(0, np.uint8).data, memoryview(bytearray(FILE[:99]))])
def test_lent_in_other_ways(data: memoryview) -> None:
    assert page.page(data, "a") == page.page(memoryview(bytes(data)), "a")


def test_entries_before_a_fault() -> None:
    data = REFUSED["an entry of no channel"][0]
    part = damaged.reopened(memoryview(data))
    assert part is not None and not part.event and part.own and (part.place, part.end) == (8, at(library.DWJ_CHARGE, 2))
    with part.file as file:
        assert [setting.channel.name for setting in file.settings] == ["QIS1", "QOS1", "PAS1", "PBS1", "PCS1", "PDS1"]
    text, _ = made(data)
    assert "The configuration is damaged at byte" in text and "DAQ 3.5" in text
    for case in ("header alone", "no configuration"):
        text, parsed = made(REFUSED[case][0])
        assert "DAQ 3.5" in text and "No configuration stands behind the header." in parsed.texts
        assert [segment["class"] for segment in parsed.by_class("segment")] == ["segment type-header", "segment unread"][: len(REFUSED[case][0]) // 8]


def test_accepted_is_all_of_it() -> None:
    assert damaged.reopened(memoryview(FILE)) is None
    before = damaged.before_fault(memoryview(FILE))
    assert before is not None
    with before:
        assert len(before) == len(FILE)


def changed() -> Iterator[bytes]:
    """An example cut at every length, and with each byte changed."""
    data = (EXAMPLES / "every-kind.raw").read_bytes()
    for length in range(0, len(data), 7):
        yield data[:length]
    for place in range(0, len(data), 5):
        yield data[:place] + bytes([data[place] ^ (1 << place % 8)]) + data[place + 1 :]


def test_any_damage() -> None:
    """However a file is damaged: the part before the fault is its own bytes, and so is what is read of the damaged container."""
    sorts: Counter[tuple[int, bool, bool]] = Counter()
    for data in changed():
        refusal = damaged.refusal_of(memoryview(data))
        if refusal is None:
            continue
        before, part = damaged.before_fault(memoryview(data)), damaged.reopened(memoryview(data))
        sorts[refusal.number, before is not None, part is not None] += 1
        if before is not None:
            with before:
                assert len(before) <= refusal.place and bytes(before.data) == data[: len(before)]
        if part is not None:
            with part.file as file:
                assert (before is not None) == part.event
                assert part.place <= refusal.place and (part.end == refusal.place or part.place in (refusal.place, 8))
                assert bytes(file.data[: part.place]) == data[: part.place]
                assert bytes(file.data[part.place + 8 :]) == data[part.place + 8 : part.end]
    assert {number for number, _, _ in sorts} >= {2, 3, 4, 5, 6, 7, 10, 11}


def test_pages_of_any_damage() -> None:
    for at, data in enumerate(changed()):
        if at % 40 == 0:
            made(data)


# In a browser.


def chromium() -> str:
    """The browser, or a failure in words."""
    for name in ("chromium", "chromium-browser", "google-chrome"):
        found = shutil.which(name)
        if found:
            return found
    pytest.fail("chromium isn't installed (Debian package chromium): whether a page draws its traces can't be tested")


# What a reader does with the first panel: one step with an arrow key, one scale for all traces, and back; the drawing each time is kept.
POINTED = """
<script>
(function () {
  var figure = document.querySelector("figure.panel"), path = figure.querySelector("path"), drawn = [];
  figure.dispatchEvent(new KeyboardEvent("keydown", {key: "ArrowRight"}));
  for (var i = 0; i < 3; i++) {
    drawn.push(path.getAttribute("d"));
    document.getElementById("one-scale").checked = i === 0;
    document.getElementById("one-scale").dispatchEvent(new Event("change"));
  }
  document.documentElement.setAttribute("data-drawn", drawn.join("|"));
})();
</script></body>"""

# Pages, what follows the name, and how many traces are drawn: those of the first event with traces, and of the one that is asked for.
SHOWN: dict[str, tuple[Callable[[], str], str, int]] = {
    "several": (lambda: page.page(memoryview(FILE), "several.raw").replace("</body>", POINTED), "#event-3", 28),
    "refused": (lambda: page.page(memoryview(REFUSED["a trace's inner kind"][0]), "refused.raw"), "", 4),
    "nothing": (lambda: page.page(memoryview(b""), "nothing.raw"), "#event-1", 0),
}


@pytest.fixture(scope="module")
def documents() -> Iterator[dict[str, str]]:
    """The pages as the browser has them when their scripts have run."""
    browser = chromium()
    flags = ["--headless=new", "--no-sandbox", "--disable-gpu", "--no-first-run", "--disable-extensions", "--disable-background-networking"]
    with tempfile.TemporaryDirectory(ignore_cleanup_errors=True) as folder:

        def dumped(name: str) -> str:
            text, fragment, _ = SHOWN[name]
            path = Path(folder, f"{name}.html")
            path.write_text(text(), encoding="utf-8")
            asked = [browser, *flags, f"--user-data-dir={folder}/{name}", "--dump-dom", path.as_uri() + fragment]
            ran = subprocess.run(asked, capture_output=True, timeout=60, check=False)
            assert ran.returncode == 0 and ran.stdout.startswith(b"<!DOCTYPE html>"), ran.stderr.decode(errors="replace")
            return ran.stdout.decode("utf-8")

        with ThreadPoolExecutor(2) as pool:
            yield dict(zip(SHOWN, pool.map(dumped, SHOWN)))


def root(document: str) -> dict[str, Optional[str]]:
    return Parsed(re.sub(r"<br>", "", document)).found[0][1]


@pytest.mark.parametrize("name", SHOWN)
def test_scripts_draw(name: str, documents: dict[str, str]) -> None:
    document = documents[name]
    assert "data-error" not in root(document), root(document)["data-error"]
    paths = re.findall(r'<path class="drawn[^"]*" d="([^"]*)"', document)
    assert len(paths) == SHOWN[name][2]
    for drawn in paths:
        assert re.fullmatch(r"M\d+\.\d \d+\.\d(L\d+\.\d \d+\.\d)+Z?", drawn)
    axes = re.findall(r'<div class="axis">(.*?)</div>', document)
    assert sum(axis != "" for axis in axes) == document.count('tabindex="0"') - document.count('role="region"')


def test_drawn_points(documents: dict[str, str]) -> None:
    """The drawing of 2,048 samples has two points a column, that of 64 one a sample; they reach from the least to the largest."""
    paths = re.findall(r'<path class="drawn([^"]*)" d="M([^"Z]*)Z?"', documents["several"])
    counts = Counter((band.strip(), drawn.count("L") + 1) for band, drawn in paths)
    assert counts == {("band", 600): 13, ("", 64): 12, ("", 2): 2, ("", 300): 1}
    for band, drawn in paths:
        heights = {float(point.split()[1]) for point in drawn.split("L")}
        assert heights == {50.0} or (min(heights), max(heights)) == (5.0, 95.0)


def test_pointing_shows_time_and_samples(documents: dict[str, str]) -> None:
    """The arrow key moves to the column behind the middle: its time, and of each trace its least and largest sample."""
    document = documents["several"]
    column = 150
    first, behind = (at * 2048 // 300 for at in (column, column + 1))
    time = (-409600 + 800 * first) / 1000, (-409600 + 800 * (behind - 1)) / 1000
    told = re.findall(r'<output class="at">(.*?)</output>', document)[0]
    near = [float(number.replace("−", "-")) for number in re.findall(r"[−0-9.]+", told.replace("µs", ""))]
    assert near[0] == pytest.approx(time[0], abs=6) and near[1] == pytest.approx(time[1], abs=6) and told.endswith(" µs")
    start = round((near[0] * 1000 + 409600) / 800)
    end = round((near[1] * 1000 + 409600) / 800) + 1
    reads = re.findall(r'<b class="read">(.+?)</b>', document)
    with dwejrasq.read(FILE) as file:
        traces = sorted((trace for trace in file.events[0].traces if trace.channel.side == "S1"), key=lambda trace: trace.channel.name)
        assert reads == [f"{trace.samples[start:end].min()}–{trace.samples[start:end].max()}" for trace in traces]
    own, one, again = (root(document)["data-drawn"] or "").split("|")
    assert own != one and own == again
