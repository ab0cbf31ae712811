"""A file told to people and to programs: as a tree, as JSON, as the listing program's lines, and one structure by itself."""

from __future__ import annotations

from collections.abc import Iterator
from dataclasses import fields
from datetime import datetime
from typing import Any

import click
import numpy as np

from . import labels, records
from .channels import Channel
from .faults import Refused, hexadecimal
from .files import File


def spelled(name: str) -> str:
    """A name with what can't be printed in it spelled out, as in ``\\n``: bytes that are no text too."""
    letters = (
        f"\\x{ord(c) - 0xDC00:02x}" if "\udc80" <= c <= "\udcff" else c if c.isprintable() and c != "\\" else ascii(c)[1:-1] for c in name
    )
    return "".join(letters) or "(no name)"


def number(value: float) -> str:
    """A number as people write it."""
    return f"{value:.15g}"


def several(count: int, one: str, many: str = "") -> str:
    """So many of something, in words."""
    return f"{count:,} {one if count == 1 else many or one + 's'}"


def moment(time: datetime) -> str:
    """A time as people write it."""
    return time.strftime("%Y-%m-%d %H:%M:%S") + " UTC"


def titled(channel: Channel) -> str:
    """A channel, and of an iZIP its class."""
    return f"{channel} (class {channel.izip_class})" if channel.izip_class else str(channel)


def described(row: records.Row) -> str:
    """What a structure holds, in a line."""
    if isinstance(row, records.Header):
        return f"DAQ {row.daq[0]}.{row.daq[1]}, format {row.format[0]}.{row.format[1]}"
    if isinstance(row, records.Setting):
        units = [f"gain {number(row.gain)}"]
        for word, value in (("bias", row.bias), ("QET bias", row.qet_bias), ("SQUID bias", row.squid_bias), ("lockpoint", row.lockpoint)):
            if value is not None:
                units.append(f"{word} {number(value)}")
        return f"{titled(row.channel)}, tower {row.tower}, {', '.join(units)}, {row.trace_length} samples every {number(row.delta_t / 1000)} µs"
    if isinstance(row, records.Event):
        words = (
            labels.of(labels.EVENT_CLASSES, row.event_class),
            labels.of(labels.CATEGORIES, row.category),
            labels.of(labels.EVENT_TYPES, row.type),
        )
        return f"{moment(row.time)}, {', '.join(words)}"
    if isinstance(row, records.Administrative):
        return f"number {row.number}, {moment(row.time)}, series {row.series} ({row.site}), {row.since} ms since the last, {row.live} ms live"
    if isinstance(row, records.Trace):
        first, last = row.t0 / 1000, (row.t0 + row.delta_t * (row.n - 1)) / 1000
        every = number(row.delta_t / 1000)
        return f"{titled(row.channel)}, {row.n:,} samples, {number(first)} to {number(last)} µs, every {every} µs"
    if isinstance(row, records.History):
        return f"{several(len(row.veto_times), 'veto time')}, {several(len(row.trigger_times), 'trigger time')}"
    if isinstance(row, records.Gps):
        return f"{row}, status {row.status}"
    if isinstance(row, records.Trigger):
        return "masks " + " ".join(f"{mask:08x}" for mask in row.masks)
    if isinstance(row, records.Tlb):
        found = [f"tower {tower} ZIP {' '.join(map(str, zips))}" for tower, zips in row.zips.items() if zips]
        return ", ".join(found) or "no ZIP"
    if row.kind == labels.CONFIGURATION:
        return several(int(row.file.rows["one"][row.index]), "entry", "entries")
    # A kind that has no line of its own here: its fields, by name.
    return ", ".join(f"{f.name.replace('_', ' ')} {getattr(row, f.name)}" for f in fields(row) if f.name not in ("file", "index"))


def tree(file: File) -> Iterator[str]:
    """The file's structures, each inside of the one that holds it, a line each."""
    yield f"{click.style(spelled(file.name), bold=True)}  {len(file):,} bytes, {len(file.rows):,} rows, {described(file.header)}"
    parents = file.rows["parent"]
    top = np.flatnonzero(parents == 0)
    last = {0: int(top[-1])}
    for index in range(1, len(file.rows)):
        row = file.at_row(index)
        inside = parents[index] != 0
        ends = index + 1 == len(file.rows) or (parents[index + 1] == 0 if inside else index == last[0])
        within = "" if not inside else ("   " if int(parents[index]) - 1 == last[0] else "│  ")
        label = f"event {row.number}" if isinstance(row, records.Event) else row.label
        styled = click.style(label, fg="cyan" if isinstance(row, records.Trace) else "green" if not inside else None)
        yield f"{within}{'└─' if ends else '├─'} {styled} at {row.place}: {described(row)}"


def plain(value: Any) -> Any:
    """A field as JSON has it."""
    if isinstance(value, np.ndarray):
        return value.tolist()
    return list(value) if isinstance(value, tuple) else value


def fields_of(row: records.Row) -> dict[str, Any]:
    """The fields of a structure, by name."""
    found: dict[str, Any] = {"kind": row.label, "place": row.place, "length": row.length}
    if isinstance(row, records.Header):
        found |= {"daq": list(row.daq), "format": list(row.format)}
    if row.kind == labels.CONFIGURATION:
        found["entries"] = int(row.file.rows["one"][row.index])
    if isinstance(row, records.Event):
        found |= {"number": row.number, "time": row.time.isoformat(), "class": row.event_class, "category": row.category, "type": row.type}
    if isinstance(row, (records.Setting, records.Trace)):
        channel = row.channel
        found["channel"] = {
            "type": channel.type,
            "number": channel.number,
            "name": channel.name,
            "cold": channel.cold,
            "detector": channel.detector,
            "class": channel.izip_class,
            "side": channel.side,
        }
    if isinstance(row, records.Administrative):
        found |= {"series": row.series, "site": row.site, "time": row.time.isoformat()}
    if isinstance(row, records.Tlb):
        found["zips"] = row.zips
    found |= {f.name: plain(getattr(row, f.name)) for f in fields(row) if f.name not in ("file", "index") and getattr(row, f.name) is not None}
    return found


def document(file: File) -> dict[str, Any]:
    """The whole file but its samples, for programs."""
    events = []
    for event in file.events:
        events.append(fields_of(event) | {"records": [fields_of(record) for record in event.records]})
    return {
        "file": file.name,
        "length": len(file),
        "rows": len(file.rows),
        "header": fields_of(file.header),
        "configuration": [fields_of(setting) for setting in file.settings],
        "events": events,
    }


def refusal(name: str, refused: Refused) -> dict[str, Any]:
    """A refused file, for programs."""
    words = {"number": refused.number, "place": refused.place, "structure": refused.structure, "words": refused.words}
    return {"file": name, "refused": words}


def lines(file: File) -> Iterator[str]:
    """The lines of the listing program (FORMAT 8.9), for a file of any length."""
    yield f"0 {len(file.rows)} {len(file)}"
    for index, row in enumerate(file.rows.tolist(), 1):
        yield "%d %d %d %d %d %d %d" % (index, *row)


# Units of fields, behind their names.
UNITS = {"t0": ", ns", "delta_t": ", ns", "tenths": " of a µs", "since": ", ms", "live": ", ms", "veto_times": ", µs", "trigger_times": ", µs"}


def shown(file: File, place: int) -> Iterator[str]:
    """The structure that a byte belongs to: its fields, and its bytes."""
    row = file.at_row(file.row_at(place))
    label = f"event {row.number}" if isinstance(row, records.Event) else row.label
    if row.place != place:
        yield f"byte {place} is inside:"
    yield click.style(f"{label} at {row.place}", bold=True) + f", {row.length:,} bytes, row {row.index + 1}"
    found = fields_of(row)
    for name in ("kind", "place", "length"):
        del found[name]
    if isinstance(row, (records.Setting, records.Trace)):
        channel = row.channel
        found["channel"] = f"{titled(channel)}, type {channel.type}, cold name {channel.cold}"
    if isinstance(row, records.Event):
        found |= {
            "class": f"{row.event_class} ({labels.of(labels.EVENT_CLASSES, row.event_class)})",
            "category": f"{row.category} ({labels.of(labels.CATEGORIES, row.category)})",
            "type": f"{row.type} ({labels.of(labels.EVENT_TYPES, row.type)})",
        }
    if isinstance(row, records.Tlb):
        found["zips"] = described(row)
        found["words"] = " ".join(f"{word:08x}" for word in row.words)
    if isinstance(row, records.Trigger):
        found["masks"] = " ".join(f"{mask:08x}" for mask in row.masks)
    for name, value in found.items():
        title = name.replace("_", " ") + UNITS.get(name, "")
        yield f"  {title:<16}{number(value) if isinstance(value, float) else value}"
    if isinstance(row, records.Trace):
        samples = row.samples
        yield f"  {'samples':<16}{' '.join(map(str, samples[:12]))}{' ..' if len(samples) > 12 else ''}"
        yield f"  {'least, most':<16}{samples.min()}, {samples.max()}"
    yield from hexadecimal(file.data, row.place)
