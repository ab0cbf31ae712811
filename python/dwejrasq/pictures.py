"""Traces drawn: one, or all of an event by detector and side. matplotlib is loaded where a picture is asked for."""

from __future__ import annotations

import os
from typing import Any

# Pictures are files here, whatever a user has set for windows.
os.environ["MPLBACKEND"] = "Agg"
import matplotlib

matplotlib.use("Agg")
from matplotlib.backends.backend_agg import FigureCanvasAgg  # noqa: E402
from matplotlib.figure import Figure  # noqa: E402

from . import records  # noqa: E402
from .faults import Absent  # noqa: E402
from .listing import described, titled  # noqa: E402

# The same file gives the same picture: no date, and the names of SVG's parts from a fixed seed.
matplotlib.rcParams["svg.hashsalt"] = "dwejrasq"
matplotlib.rcParams["svg.fonttype"] = "none"

# Colours that the colour-blind can tell apart (Okabe and Ito), and lines that differ where colours run out.
COLOURS = ("#0072b2", "#d55e00", "#009e73", "#cc79a7", "#e69f00", "#56b4e9", "#000000")
LINES = ("-", "--", ":")


def suffix(path: str) -> str:
    """The picture's sort by the end of its name, png or svg, and png for standard output. Absent for any other."""
    if path == "-":
        return "png"
    end = os.path.splitext(path)[1].lower().lstrip(".")
    if end not in ("png", "svg"):
        raise Absent(f"'{path}': a picture's name ends with .png or .svg")
    return end


# Channels of the same letters have the same colour on both sides.
LETTERS = ("PA", "PB", "PC", "PD", "QI", "QO")


def drawn(axes: Any, traces: list[records.Trace]) -> None:
    """Traces in one pair of axes; where a channel is there again, with another line."""
    seen: dict[str, int] = {}
    for trace in traces:
        letters = trace.channel.name[:2]
        colour = COLOURS[LETTERS.index(letters)] if letters in LETTERS else COLOURS[-1]
        line = LINES[seen.get(letters, 0) % len(LINES)]
        seen[letters] = seen.get(letters, 0) + 1
        axes.plot(trace.time, trace.samples, line, color=colour, linewidth=0.8, label=trace.channel.name)
    axes.axvline(0, color="#999999", linewidth=0.6, zorder=0)
    axes.margins(x=0)
    axes.grid(color="#eeeeee")
    axes.legend(loc="upper right", fontsize=7, framealpha=0.8)
    for side in ("top", "right"):
        axes.spines[side].set_visible(False)


def trace_figure(trace: records.Trace) -> Figure:
    """One trace, over microseconds from the trigger on."""
    figure = Figure(figsize=(8, 3.2), layout="constrained")
    axes = figure.subplots()
    drawn(axes, [trace])
    axes.set_title(f"event {trace.event.number}, {titled(trace.channel)}", loc="left", fontsize=10)
    axes.set_xlabel("µs from the trigger")
    axes.set_ylabel("sample")
    return figure


# A picture holds so many detectors, and a panel so many traces: more can't be seen, and take minutes.
DETECTORS = 24
TRACES = 24


def event_figure(event: records.Event) -> tuple[Figure, int, int]:
    """All traces of an event: a line of panels for each detector, and in it one for each side that its channels have.

    With it, how many traces are drawn and how many there are: of more detectors, or traces of a side, than a picture holds the first are drawn.
    """
    panels: dict[tuple[int, int], dict[str, list[records.Trace]]] = {}
    for trace in event.traces:
        channel = trace.channel
        panels.setdefault((channel.type, channel.number), {}).setdefault(channel.side, []).append(trace)
    if not panels:
        raise Absent(f"event {event.number} has no traces")
    there = sum(len(traces) for sides in panels.values() for traces in sides.values())
    shown = dict(sorted(panels.items())[:DETECTORS])
    across, count = max(len(sides) for sides in shown.values()), 0
    figure = Figure(figsize=(2 + 4.5 * across, 1 + 2.2 * len(shown)), layout="constrained")
    axes = figure.subplots(len(shown), across, squeeze=False)
    for line, sides in zip(axes, shown.values()):
        for panel, (side, traces) in zip(line, sorted(sides.items())):
            first = traces[0].channel
            izip = f" (class {first.izip_class}), side {side}" if side else ""
            drawn(panel, traces[:TRACES])
            count += len(traces[:TRACES])
            panel.set_title(f"{first.detector}{izip}", loc="left", fontsize=9)
            panel.set_ylabel("sample", fontsize=8)
            panel.tick_params(labelsize=7)
        for panel in line[len(sides) :]:
            panel.set_visible(False)
        for panel in line[: len(sides)]:
            panel.set_xlabel("µs from the trigger", fontsize=8)
    part = f"; {count:,} of {there:,} traces" if count < there else ""
    figure.suptitle(f"event {event.number}, {described(event)}{part}", fontsize=10)
    return figure, count, there


def saved(figure: Figure, out: Any, kind: str) -> None:
    """A picture, written to a file or a stream."""
    FigureCanvasAgg(figure)
    figure.savefig(out, format=kind, dpi=110, metadata={"Date": None} if kind == "svg" else {"Software": None})
