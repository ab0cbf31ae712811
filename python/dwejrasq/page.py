"""A raw file as one page for a browser, with nothing outside of it: what the file holds, its settings, its events and their traces, drawn.

Of a refused file the page says where and why, and shows what can be read before. All of it is what the library answers; here it is laid out.
"""

from __future__ import annotations

import base64
import html
from collections.abc import Iterable, Sequence
from dataclasses import dataclass
from datetime import datetime, timedelta, timezone
from pathlib import Path
from typing import Any, Optional

import numpy as np
import numpy.typing as npt

from . import labels
from ._native import VERSION, library
from .damaged import Reopened, before_fault, refusal_of, reopened
from .faults import Refused, hexadecimal, structure_at
from .files import File, read
from .listing import described, spelled
from .records import Administrative, Event, Gps, History, Samples, Setting, Tlb, Trace, Trigger

# What a page holds at most; what is left out is counted on it.
COLUMNS = 300
"""Columns of a drawn trace: of more samples than these, each column has its least and largest."""
CARDS_SIZE = 20_000_000
"""Characters of all events that are shown with their records and traces."""
CARDS = 2_000
"""Such events."""
LISTED = 5_000
"""Events behind them, a line each."""
TRACES = 600
"""Traces of an event."""
SETTINGS = 1_500
"""Entries of the configuration."""
TIMES = 60
"""Veto times, and trigger times, of an event."""
WORDS = 8
"""Mask words of a veto or trigger time."""
SEGMENTS = 1_000
"""Segments of the strip."""


@dataclass(frozen=True)
class Contents:
    """What a page is made from: the bytes, and what could be read of them."""

    data: memoryview
    refusal: Optional[Refused]
    file: Optional[File]
    """The file; of a refused one what can be read before its fault, the damaged container too."""
    damaged: Optional[Reopened]
    """The damaged container, which is the last one of the file."""

    @property
    def damaged_event(self) -> Optional[Event]:
        """The damaged event, as far as it can be read."""
        if self.damaged is None or not self.damaged.event:
            return None
        return self.damaged.file.events[-1]

    @property
    def unconfigured(self) -> bool:
        """Whether no configuration stands behind the header: then an empty one is there in its place."""
        return self.damaged is not None and not self.damaged.event and not self.damaged.own

    @property
    def length(self) -> str:
        """How many bytes the file has, in words: of a longer one than is read not all are at hand."""
        return f"{len(self.data):,}" if len(self.data) <= library.DWJ_LONGEST else f"more than {library.DWJ_LONGEST:,}"

    @property
    def bytes_read(self) -> int:
        """How many bytes could be read."""
        if self.file is None:
            return 0
        return self.damaged.place if self.damaged and self.unconfigured else min(len(self.file), len(self.data))

    @property
    def whole(self) -> int:
        """How many whole events there are."""
        return len(self.file.events) - (self.damaged_event is not None) if self.file else 0


def page(data: memoryview, name: str) -> str:
    """The page of a file's bytes, refused ones too. The name is shown as it is, with what can't be printed in it spelled out."""
    data = memoryview(data).cast("B").toreadonly()
    refusal = refusal_of(data)
    damaged = None
    file: Optional[File]
    if refusal is None:
        file = read(data)
    else:
        place = refusal.place
        refusal = Refused(refusal.number, place, structure_at(data, place) if refusal.number != library.DWJ_TOO_LARGE else "")
        damaged = reopened(data)
        file = damaged.file if damaged else before_fault(data)
    try:
        body = _body(Contents(data, refusal, file, damaged), spelled(name))
    finally:
        if file:
            file.close()
    template = (Path(__file__).parent / "page.html").read_text(encoding="utf-8")
    start, rest = template.split("<!-- title -->")
    middle, end = rest.split("<!-- body -->")
    return "".join((start, html.escape(spelled(name)), middle, body, end))


def envelope(samples: Samples) -> bytes:
    """What is drawn of a trace: its samples, or of more than COLUMNS the least and the largest of each column, in turn."""
    if len(samples) <= COLUMNS:
        return samples.astype("<u2").tobytes()
    edges = np.arange(COLUMNS) * len(samples) // COLUMNS
    return np.column_stack((np.minimum.reduceat(samples, edges), np.maximum.reduceat(samples, edges))).astype("<u2").tobytes()


def _body(contents: Contents, name: str) -> str:
    status = '<span class="status accepted">✓ accepted</span>'
    if contents.refusal:
        status = f'<a class="status refused" href="#refusal">✕ refused at byte {contents.refusal.place:,}</a>'
    events, shown = _events(contents)
    parts = [
        f'<main data-columns="{COLUMNS}">\n<header>\n<div class="top"><h1><bdi>{_text(name)}</bdi></h1>{status}</div>\n',
        _facts(_summary(contents)),
        "</header>\n",
        _strip(contents, shown),
        "<noscript><p>All tables are on this page. Traces are drawn by a script, and scripts are off.</p></noscript>\n",
        _refusal(contents),
        _kinds(contents),
        _configuration(contents),
        events,
        f'<footer><p class="soft">Read by dwejrasq {_text(VERSION)}. Times of events are UTC.</p></footer>\n</main>',
    ]
    return "".join(parts)


# Pieces of a page.


def _text(words: object) -> str:
    return html.escape(str(words))


def _fact(name: str, said: str, width: str = "one") -> str:
    """A name and what is said of it, which is HTML; it takes one column, two, or the whole line."""
    return f'<div class="{width}"><dt>{_text(name)}</dt><dd>{said}</dd></div>\n'


def _facts(facts: Iterable[str], kind: str = "facts") -> str:
    return f'<dl class="{kind}">\n{"".join(facts)}</dl>\n'


def _table(caption: str, head: Sequence[str], rows: Iterable[Sequence[object]], words: int) -> str:
    """A table whose first so many columns are words and whose others are numbers."""

    def line(tag: str, cells: Sequence[object]) -> str:
        return "<tr>" + "".join(f'<{tag}{" class=word" if at < words else ""}>{_text(cell)}</{tag}>' for at, cell in enumerate(cells)) + "</tr>\n"

    body = "".join(line("td", row) for row in rows)
    return (
        f'<div class="scroll" tabindex="0" role="region" aria-label="{_text(caption)}"><table><caption>{_text(caption)}</caption>\n'
        f'<thead>{line("th", head)}</thead>\n<tbody>\n{body}</tbody></table></div>\n'
    )


def _count(count: int, one: str, many: str = "") -> str:
    return f"{count:,} {one if count == 1 else many or one + 's'}"


def _time(seconds: int) -> str:
    return (datetime(1970, 1, 1, tzinfo=timezone.utc) + timedelta(seconds=seconds)).strftime(Event.label_of_time)


def _signed(number: int) -> str:
    return f"{number:,}".replace("-", "\N{MINUS SIGN}")


def _hex(words: Iterable[int]) -> str:
    return " ".join(f"0x{word:08X}" for word in words)


# What the file is, and the strip.


def _summary(contents: Contents) -> list[str]:
    facts = [_fact("Length", f"{contents.length} bytes")]
    file = contents.file
    if file is None:
        return facts
    daq, form = file.header.daq, file.header.format
    facts.append(_fact("Version", f"DAQ {daq[0]}.{daq[1]}, format {form[0]}.{form[1]}"))
    events = file.events
    damaged = ", and a damaged one" if contents.damaged_event else ""
    facts.append(_fact("Events before the fault" if contents.refusal else "Events", f"{contents.whole:,}{damaged}"))
    if len(events) == 0:
        return facts
    looked = events[:CARDS]
    series = dict.fromkeys((event.administrative.series, event.administrative.site) for event in looked)
    more = f" and {len(series) - 3:,} more" if len(series) > 3 else ""
    of = f" (of the first {len(looked):,} events)" if len(looked) < len(events) else ""
    seconds = file.rows["two"][file.rows["kind"] == library.DWJ_ADMINISTRATIVE]
    first, last = int(seconds.min()), int(seconds.max())
    return facts + [
        _fact("Series", _text(", ".join(list(dict.fromkeys(one for one, _ in series))[:3]) + more + of)),
        _fact("Site", _text("; ".join(dict.fromkeys(site for _, site in series)) + of)),
        _fact("First event time", _time(first)),
        _fact("Last event time", f"{_time(last)} <span class=soft>({_span(last - first)})</span>"),
    ]


def _span(seconds: int) -> str:
    parts = ((seconds // 86400, "d"), (seconds // 3600 % 24, "h"), (seconds // 60 % 60, "min"), (seconds % 60, "s"))
    return " ".join(f"{count:,} {unit}" for count, unit in parts if count) or "0 s"


def _type(contents: Contents, word: int, last: bool) -> tuple[str, str]:
    """The colour class and the words of an event's type."""
    if last and contents.damaged_event and contents.damaged and not contents.damaged.own:
        return "type-none", "type not read"
    return f"type-{word & 255}", labels.of(labels.EVENT_TYPES, word & 255)


def _segment(contents: Contents, start: int, stop: int, kind: str, words: str, to: str = "") -> str:
    """A part of the strip, which leads to where the page has it."""
    share = 100 / len(contents.data)
    style = f"left:{share * start:.4f}%;width:{share * (stop - start):.4f}%"
    tag, link = ("a", f' href="#{to}" tabindex="-1"') if to else ("span", "")
    return f'<{tag} class="segment {kind}" style="{style}" title="{_text(words)}, bytes {start:,} to {stop - 1:,}"{link}></{tag}>\n'


def _segments(contents: Contents, file: File, on_page: int) -> Iterable[str]:
    """A segment for the header and for each container; of more than SEGMENTS for some of them, each up to the next."""
    rows = file.rows
    tops = np.flatnonzero(rows["parent"] == 0)
    shown = tops
    if len(tops) > SEGMENTS:
        # Header, configuration, the first event, and those that stand where as many columns begin.
        edges = np.arange(SEGMENTS) * len(file) / SEGMENTS
        shown = np.union1d(tops[:3], tops[np.searchsorted(rows["start"][tops], edges, "right") - 1])
    ends = np.append(rows["start"][shown][1:], len(file))
    # Header and configuration stand before the events.
    positions = np.searchsorted(tops, shown) - (len(tops) - len(file.events))
    for index, at, stop in zip(shown.tolist(), positions.tolist(), ends.tolist()):
        kind, start, own = (int(rows[name][index]) for name in ("kind", "start", "length"))
        if kind == library.DWJ_EVENT:
            colour, words = _type(contents, int(rows["one"][index]), at == len(file.events) - 1)
            others = " and others" if start + own < stop else ""
            to = f"event-{at + 1}" if at < on_page or (contents.damaged_event and at == contents.whole) else ""
            yield _segment(contents, start, stop, colour, f"event {rows['one'][index + 1]}, {words}{others}", to)
        elif kind == library.DWJ_HEADER:
            yield _segment(contents, start, stop, "type-header", labels.KINDS[kind])
        elif not contents.unconfigured:
            yield _segment(contents, start, stop, "type-configuration", labels.KINDS[kind], "configuration")


def _strip(contents: Contents, on_page: int) -> str:
    """The whole file from byte 0 to its end, and the mark of a refusal. So many events are on the page, and segments lead to them."""
    length, file, mark = len(contents.data), contents.file, ""
    segments = list(_segments(contents, file, on_page)) if file else []
    legend = []
    if file:
        legend = [("type-configuration", "header" if contents.unconfigured else "header and configuration")]
        words = file.rows["one"][file.rows["kind"] == library.DWJ_EVENT][: contents.whole]
        for type, count in zip(*(column.tolist() for column in np.unique(words & 255, return_counts=True))):
            legend.append((f"type-{type}", f"{labels.of(labels.EVENT_TYPES, type)}: {_count(count, 'event')}"))
    if contents.bytes_read < length:
        left = contents.length if length > library.DWJ_LONGEST else f"{length - contents.bytes_read:,}"
        segments.append(_segment(contents, contents.bytes_read, length, "unread", "not read"))
        legend.append(("unread", f"not read: {left} bytes"))
    if contents.refusal:
        place = contents.refusal.place
        told = f"refused at byte {place:,}"
        mark = f'<a class="mark" href="#refusal" style="left:{100 * place / max(length, 1):.4f}%" title="{told}" aria-label="{told}"></a>'
    items = "".join(f'<li><span class="dot {kind}"></span>{_text(words)}</li>' for kind, words in legend)
    several = "<span>a segment is several events, in the colour of the first</span>" if file and len(file.events) > len(segments) else ""
    return (
        f'<nav class="strip" aria-label="the file from its first byte to its last">\n<div class="bar">'
        f'<div class="all{" close" if len(segments) > 200 else ""}" aria-hidden="true">\n{"".join(segments)}</div>{mark}</div>\n'
        f'<div class="scale"><span>byte 0</span>{several}<span>{contents.length}</span></div>\n</nav>\n'
        f'{f"<ul class=legend>{items}</ul>" if items else ""}\n'
    )


# A refusal.


def _refusal(contents: Contents) -> str:
    refusal = contents.refusal
    if refusal is None:
        return ""
    place = refusal.place
    told = [f'<section id="refusal"><h2>Refusal</h2>\n<div class="card">\n<p class="note">{_text(_capital(str(refusal)))}</p>\n']
    there = hexadecimal(contents.data, place) if refusal.number != library.DWJ_TOO_LARGE else []
    what = f"The {refusal.structure}" if refusal.structure else "What stands"
    if there:
        lines = _text("\n".join(there))
        told.append(f"<p>{_text(what)} at byte {place:,}, in hex behind the place of each line's first byte:</p>\n<pre>{lines}</pre>\n")
    told.append(f"<p>{_text(_before(contents))}</p>\n</div>\n")
    event = contents.damaged_event
    if event is not None:
        told.append(_card(contents, event, contents.whole))
    return "".join(told) + "</section>\n"


def _capital(words: str) -> str:
    return words[:1].upper() + words[1:]


def _before(contents: Contents) -> str:
    """What of a refused file is on the page, in words."""
    damaged = contents.damaged
    if contents.file is None:
        return "Nothing can be read before it."
    if damaged is None or damaged.event:
        whole = f"{_count(contents.whole, 'event')} before it" if contents.whole else "no event before it, and the configuration"
        part = f"; and of the damaged event, which begins at byte {damaged.place:,}, the part up to byte {damaged.end - 1:,}" if damaged else ""
        return f"What can be read is below: {whole}{part}. What follows isn't read."
    if contents.unconfigured:
        return "What can be read is the header."
    entries = int(contents.file.rows["one"][1])
    return f"What can be read is below: the header, and {_count(entries, 'entry', 'entries')} of the configuration. What follows isn't read."


# Rows by kind, and the configuration.


def _kinds(contents: Contents) -> str:
    if contents.file is None:
        return ""
    counts = np.bincount(contents.file.rows["kind"], minlength=max(labels.KINDS) + 1)
    counts[library.DWJ_CONFIGURATION] -= contents.unconfigured
    kinds = (kind for kind in labels.KINDS if counts[kind])
    facts = (_fact(_capital(labels.KINDS[kind]), f"{counts[kind]:,}") for kind in kinds)
    before = " before the fault" if contents.refusal else ""
    return f'<section id="records"><h2>Rows by kind{before}</h2>\n{_facts(facts, "facts kinds")}</section>\n'


def _configuration(contents: Contents) -> str:
    file = contents.file
    if file is None:
        return ""
    kinds = file.rows["kind"]
    entries = np.flatnonzero((kinds == library.DWJ_PHONON) | (kinds == library.DWJ_CHARGE))
    shown: list[Setting] = [file.at_row(int(index)) for index in entries[:SETTINGS]]  # type: ignore[misc]
    said = ""
    if contents.unconfigured:
        return '<section id="configuration"><h2>Configuration</h2>\n<p class="note">No configuration stands behind the header.</p>\n</section>\n'
    if contents.damaged and not contents.damaged.event and contents.refusal:
        what = f"its entries up to byte {contents.damaged.end - 1:,} are shown"
        said = f'<p class="note">The configuration is damaged at byte {contents.refusal.place:,}: {what}.</p>\n'
    if len(entries) == 0:
        said += "<p>No entries.</p>\n"
    if len(entries) > len(shown):
        said += f"<p>The first {len(shown):,} of {len(entries):,} entries; {len(entries) - len(shown):,} are left out.</p>\n"
    names, behind = ("Detector", "Class", "Channel", "Cold name", "Tower", "Gain"), ("Delta t, ns", "T0, ns", "Samples", "Code", "Byte")
    phonon = [setting for setting in shown if setting.kind == library.DWJ_PHONON]
    charge = [setting for setting in shown if setting.kind == library.DWJ_CHARGE]
    tables = ""
    if phonon:
        own = ("QET bias", "SQUID bias", "Lockpoint", "RTF offset", "Variable gain")
        tables += _table(f"Phonon: {_count(len(phonon), 'entry', 'entries')}", (*names, *own, *behind), map(_phonon, phonon), 4)
    if charge:
        tables += _table(f"Charge: {_count(len(charge), 'entry', 'entries')}", (*names, "Bias", "RTF offset", *behind), map(_charge, charge), 4)
    if tables:
        detectors = list(dict.fromkeys(_text(setting.channel.detector) for setting in shown))
        of = ", ".join(detectors[:12]) + (f" and {len(detectors) - 12:,} more" if len(detectors) > 12 else "")
        summary = f"<summary>{_count(len(entries), 'entry', 'entries')} in working units <small>{of}</small></summary>"
        tables = f'<details class="part"{"" if len(shown) > 16 else " open"}>{summary}<div class="inside">{tables}</div></details>\n'
    return f'<section id="configuration"><h2>Configuration</h2>\n{said}{tables}</section>\n'


def _names(setting: Setting) -> tuple[str, ...]:
    channel = setting.channel
    return channel.detector, channel.izip_class, channel.name, channel.cold


def _behind(setting: Setting) -> tuple[str, ...]:
    numbers = (setting.delta_t, setting.t0, setting.trace_length)
    return *map(_signed, numbers), str(setting.code), f"{setting.place:,}"


def _units(value: Optional[float]) -> str:
    return "" if value is None else f"{value:,.2f}".replace("-", "\N{MINUS SIGN}")


def _phonon(setting: Setting) -> tuple[str, ...]:
    values = (setting.gain, setting.qet_bias, setting.squid_bias, setting.lockpoint)
    whole = (_signed(setting.rtf_offset), _signed(setting.variable_gain or 0))
    return *_names(setting), _signed(setting.tower), *map(_units, values), *whole, *_behind(setting)


def _charge(setting: Setting) -> tuple[str, ...]:
    whole = (_signed(setting.bias or 0), _signed(setting.rtf_offset))
    return *_names(setting), _signed(setting.tower), _units(setting.gain), *whole, *_behind(setting)


# Events.


def _events(contents: Contents) -> tuple[str, int]:
    """The events, and how many of them are on the page, with their records or in a line."""
    tools = (
        '<div class="tools" id="tools" hidden><form id="go"><label>Go to event <input type="text" inputmode="numeric" id="number"></label> '
        '<button>Go</button> <output id="found"></output></form>'
        '<label><input type="checkbox" id="one-scale"> one scale for all traces of a panel</label>'
        '<span class="soft">In a panel, the pointer or the arrow keys show time and samples.</span></div>\n'
    )
    if contents.file is None:
        return tools, 0
    events, whole = contents.file.events, contents.whole
    cards: list[str] = []
    size = 0
    # The first event with traces is open.
    opened = contents.file.rows["parent"][contents.file.rows["kind"] == library.DWJ_TRACE][:1].tolist()
    for index in range(min(whole, CARDS)):
        cards.append(_card(contents, events[index], index, opened=contents.damaged_event is None and [events[index].index + 1] == opened))
        size += len(cards[-1])
        if size > CARDS_SIZE:
            break
    listed = range(len(cards), min(len(cards) + LISTED, whole))
    left = whole - len(cards) - len(listed)
    said = f"{_count(whole, 'event')}." if whole else "No events."
    if len(cards) < whole:
        said = f"{_count(whole, 'event')}: the first {len(cards):,} with their records and traces, {len(listed):,} more in a line each"
        said += f"; {left:,} are left out of this page." if left else "."
    if contents.damaged_event:
        said += " The damaged event is above, with the refusal."
    title = "Events before the fault" if contents.refusal else "Events"
    lines = _lines(contents, listed, left)
    return f'<section id="events"><h2>{title}</h2>\n<p>{said}</p>\n{tools}{"".join(cards)}{lines}</section>\n', listed.stop


def _lines(contents: Contents, listed: range, left: int) -> str:
    """Events in a line each."""
    if contents.file is None or len(listed) == 0:
        return ""
    rows = contents.file.rows
    at = np.flatnonzero(rows["kind"] == library.DWJ_EVENT)[listed.start : listed.stop]
    numbers, seconds, words, counts, places = (
        column.tolist() for column in (rows["one"][at + 1], rows["two"][at + 1], rows["one"][at], rows["two"][at], rows["start"][at])
    )
    head = "<th>Event</th><th class=word>Time</th><th class=word>Type</th><th>Records</th><th>Byte</th>"
    lines = "".join(
        f'<tr id="event-{index + 1}" data-number="{number}"><td>{number}</td><td class=word>{_time(second)}</td>'
        f"<td class=word>{labels.of(labels.EVENT_TYPES, word & 255)}</td><td>{count:,}</td><td>{place:,}</td></tr>\n"
        for index, number, second, word, count, place in zip(listed, numbers, seconds, words, counts, places)
    )
    said = f"<p>{left:,} events more are in the file and not on this page.</p>" if left else ""
    summary = f"<summary>{_count(len(listed), 'event')} more, without records and traces</summary>"
    table = f"<table><thead><tr>{head}</tr></thead>\n<tbody>\n{lines}</tbody></table>"
    region = f'<div class="scroll" tabindex="0" role="region" aria-label="events">{table}</div>'
    return f'<details class="part">{summary}<div class="inside">{region}{said}</div></details>\n'


def _card(contents: Contents, event: Event, index: int, opened: bool = False) -> str:
    """An event with its records and traces."""
    file = event.file
    last = index == contents.whole
    colour, type = _type(contents, event.word, last)
    behind = event.index + 1 + int(file.rows["two"][event.index])
    kinds = file.rows["kind"][event.index + 1 : behind]
    traces = event.index + 1 + np.flatnonzero(kinds == library.DWJ_TRACE)
    others = [file.at_row(event.index + 1 + int(at)) for at in np.flatnonzero(kinds != library.DWJ_TRACE)]
    admitted = colour != "type-none"
    facts: list[str] = []
    if admitted:
        facts += [
            _fact("Class", _text(labels.of(labels.EVENT_CLASSES, event.event_class))),
            _fact("Category", _text(labels.of(labels.CATEGORIES, event.category))),
            _fact("Type", _text(type)),
        ]
    else:
        facts += [_fact("Class, category, type", f"not admitted: 0x{int.from_bytes(contents.data[event.place : event.place + 2], 'little'):04X}")]
    administrative = event.administrative
    facts += [
        _fact("Time", _text(f"{_time(administrative.seconds)} UTC")),
        _fact("Series", _text(f"{administrative.series}, {administrative.site}")),
        _fact("Since the event before", f"{administrative.since:,} ms, {administrative.live:,} ms live"),
    ]
    for record in sorted(others, key=lambda record: bool(record.kind == library.DWJ_GPS), reverse=True):
        facts += _record(record)
    damaged = last and contents.refusal is not None
    note = ""
    if damaged and contents.refusal and contents.damaged:
        place, end = contents.refusal.place, contents.damaged.end
        what = f"Its records up to byte {end - 1:,} are shown; what stands behind them isn't read."
        if place == event.place:
            what = f"Its own two words are at fault. What stands behind them up to byte {end - 1:,} reads as the records shown; the rest isn't read."
        note = f'<p class="note">This event is damaged at byte {place:,}.</p>\n<p>{what}</p>\n'
    state = " open" if opened or damaged else ""
    return (
        f'<details class="event{" damaged" if damaged else ""}" id="event-{index + 1}" data-number="{event.number}"{state}>\n'
        f'<summary><strong>Event {event.number}</strong><span class="type"><span class="dot {colour}"></span>{_text(type)}</span>'
        f'<span>{_time(administrative.seconds)}</span><span class="soft">{_count(len(traces), "trace")}</span>'
        f'<span class="end">byte {event.place:,}</span></summary>\n'
        f'<div class="inside">\n{note}{_facts(facts)}{_traces(file, traces)}</div></details>\n'
    )


def _record(record: Any) -> list[str]:
    """The facts of a record; an administrative one's stand above, and a trace is drawn."""
    if isinstance(record, (Administrative, Trace)):
        return []
    if isinstance(record, Gps):
        date = f"{record.time.date().isoformat()} " if record.time else ""
        clock = f"{record.hour:02d}:{record.minute:02d}:{record.second:02d}.{record.tenths:07d}"
        return [_fact("GPS", f"{date}{clock} <span class=soft>day {record.day} of {record.year}, status {record.status}</span>", "two")]
    if isinstance(record, Trigger):
        return [_fact("Trigger masks 1 to 6", f'<span class="mono">{_hex(record.masks)}</span>', "line")]
    if isinstance(record, Tlb):
        towers = (f"tower {tower}: {'ZIP ' + ', '.join(map(str, zips)) if zips else 'none'}" for tower, zips in record.zips.items())
        return [_fact("ZIPs that triggered, by tower (TLB)", _text("; ".join(towers)), "line")]
    if isinstance(record, History):
        return [
            _fact(f"History: {_count(len(record.veto_times), 'veto time')}, µs", _times(record.veto_times, record.veto_masks), "line"),
            _fact(f"History: {_count(len(record.trigger_times), 'trigger time')}, µs", _times(record.trigger_times, record.trigger_masks), "line"),
        ]
    return [_fact(record.label, _text(described(record)), "line")]


def _times(times: npt.NDArray[np.int32], masks: npt.NDArray[np.uint32]) -> str:
    if len(times) == 0:
        return "none"
    rows = zip(times[:TIMES].tolist(), masks[:TIMES, :WORDS].tolist())
    cut = f" and {masks.shape[1] - WORDS:,} words" if masks.shape[1] > WORDS else ""
    items = "".join(f'<li>{_signed(time)} <span class="soft mono">{_hex(mask)}{cut}</span></li>' for time, mask in rows)
    left = len(times) - TIMES
    return f'<ul class="times">{items}{f"<li>and {left:,} more, left out</li>" if left > 0 else ""}</ul>'


# Traces.


def _traces(file: File, indices: npt.NDArray[np.intp]) -> str:
    """An event's traces by detector and, for an iZIP, by side."""
    if len(indices) == 0:
        return "<p>No traces.</p>\n"
    detectors: dict[tuple[int, int], dict[str, list[Trace]]] = {}
    for index in indices[:TRACES]:
        trace: Trace = file.at_row(int(index))  # type: ignore[assignment]
        channel = trace.channel
        detectors.setdefault((channel.type, channel.number), {}).setdefault(channel.side, []).append(trace)
    left = len(indices) - TRACES
    told = [f"<p>The first {TRACES:,} of {len(indices):,} traces; {left:,} are left out.</p>\n"] if left > 0 else []
    for sides in detectors.values():
        channel = next(iter(sides.values()))[0].channel
        izip = f" <small>class {channel.izip_class}</small>" if channel.izip_class else ""
        panels = "".join(_panel(channel.detector, side, sides[side]) for side in sorted(sides))
        told.append(f'<section><h3>{_text(channel.detector)}{izip}</h3>\n<div class="sides">\n{panels}</div></section>\n')
    return "".join(told)


def _panel(detector: str, side: str, traces: list[Trace]) -> str:
    """The traces of one side, by name, over one axis of time."""
    rows = "".join(map(_trace, sorted(traces, key=lambda trace: trace.channel.name)))
    caption = f"{f'Side {side}, ' if side else ''}µs from the trigger on"
    return (
        f'<figure class="panel" aria-label="{_text(f"traces of {detector} {side}".strip())}"><figcaption><span>{_text(caption)}</span>'
        f'<output class="at"></output></figcaption>\n<ul>\n{rows}</ul><div class="axis"></div></figure>\n'
    )


def _trace(trace: Trace) -> str:
    channel, samples = trace.channel, trace.samples
    drawn = base64.b64encode(envelope(samples)).decode("ascii")
    cold = f"cold {channel.cold}" if channel.cold != channel.name else ""
    about = (
        f"{channel}, code {trace.code}, byte {trace.place:,}: {trace.n:,} samples, one each {trace.delta_t / 1000:,} µs "
        f"from {_signed(trace.t0)} ns on; channel {trace.digitizer} of the digitizer at 0x{trace.address:08X}"
    )
    return (
        f'<li class="trace kind-{channel.name[0]}" data-t0="{trace.t0}" data-step="{trace.delta_t}" data-n="{trace.n}" data-values="{drawn}">'
        f'<span class="label" title="{_text(about)}"><strong>{_text(channel.name)}</strong><small>{_text(cold)}</small></span>'
        f'<span class="plot"></span><span class="range"><span title="largest sample">{samples.max()}</span><b class="read"></b>'
        f'<span title="least sample">{samples.min()}</span></span></li>\n'
    )
