"""The command dwj. What a file holds, and whether it is refused, is the library's answer; here it is asked for and printed."""

from __future__ import annotations

import csv
import io
import json
import os
import re
import signal
import sys
from collections.abc import Iterable, Iterator
from contextlib import contextmanager
from typing import Any, BinaryIO, Callable, NoReturn, Optional

import click

from . import __version__, faults, files, labels, listing, records, runs, writing
from ._native import Bytes
from .channels import Channel, channel, channels, named

ACCEPTED, REFUSED, WRONG = 0, 1, 2

# Where it is set, a fault of the command itself is shown with all that Python knows of it.
DEBUG = "DWJ_DEBUG"


class Trouble(click.ClickException):
    """Something that can't be done, in words: exit status 2."""

    exit_code = WRONG

    def show(self, file: Any = None) -> None:
        click.echo(f"dwj: {self.message}", err=True)


def loaded(path: str) -> tuple[str, Bytes]:
    """A file's bytes, or standard input's for '-', and a name for them. They are read, not mapped: nobody can change them then."""
    try:
        if path == "-":
            return "standard input", files.loaded(0, "standard input")
        descriptor = os.open(path, os.O_RDONLY | os.O_CLOEXEC)
        try:
            return path, files.loaded(descriptor, path)
        finally:
            os.close(descriptor)
    except (OSError, ValueError) as error:
        reason = runs.reason(error) if isinstance(error, OSError) else str(error)
        raise Trouble(f"{'standard input' if path == '-' else listing.spelled(path)}: {reason}") from None


def refused(answer: runs.Answer) -> NoReturn:
    """Says on standard error why a file is refused, with the bytes there: exit status 1."""
    click.echo(f"dwj: {listing.spelled(answer.name)}: {answer.refusal}", err=True)
    for line in answer.bytes_there:
        click.echo(line, err=True)
    raise SystemExit(REFUSED)


def opened(path: str) -> files.File:
    """An accepted file; for a refused one the command ends."""
    name, data = loaded(path)
    try:
        return files.read(data, name)
    except faults.Refused:
        refused(runs.answered(data, name))


def place_of(text: str) -> int:
    """A place, decimal or with 0x before it."""
    if not re.fullmatch("[0-9]{1,20}|0[xX][0-9a-fA-F]{1,16}", text):
        raise click.BadParameter(f"'{text}' is no byte's number: decimal digits are expected, or hexadecimal ones behind 0x")
    return int(text, 16 if text[:2] in ("0x", "0X") else 10)


def event_of(file: files.File, text: str) -> records.Event:
    """An event by its number, or by its place behind '@'."""
    if text.startswith("@"):
        found = file.at(place_of(text[1:]))
        if not isinstance(found, records.Event):
            raise faults.Absent(f"at byte {found.place} is no event but the {found.label}")
        return found
    return file.event(number_of(text))


def number_of(text: str) -> int:
    """An event's number."""
    if not re.fullmatch("[0-9]{1,20}", text):
        raise click.BadParameter(f"'{text}' is no event: its number is expected, or '@' and the byte where it begins")
    return int(text)


def trace_of(file: files.File, event: str, name: str) -> records.Trace:
    """A trace by its event and its channel's name or code; where both iZIP classes have it, the class must be said."""
    codes = named(name)
    if event.startswith("@"):
        traces = event_of(file, event).traces
        found = [next((trace for trace in traces if trace.code == code), None) for code in codes]
    else:
        found = [file.find(number_of(event), code) for code in codes]
    there = [trace for trace in found if trace is not None]
    if len(there) > 1:
        raise faults.Absent(f"{name} is there in both iZIP classes: {' and '.join(str(trace.code) for trace in there)}; give one of these codes")
    if there:
        return there[0]
    others = ", ".join(dict.fromkeys(str(trace.channel) for trace in event_of(file, event).traces[:24]))
    raise faults.Absent(f"event {event} has no trace of {name}; it has {others or 'no traces'}")


@contextmanager
def output(path: str, source: str) -> Iterator[BinaryIO]:
    """A stream to write into: standard output for '-', else a file that is there under its name once all of it is written, and isn't the source."""
    if path != "-" and os.path.exists(path) and os.path.exists(source) and os.path.samefile(path, source):
        raise Trouble(f"{listing.spelled(path)}: is the file that is read; it stays as it is")
    stream = io.BytesIO()
    yield stream
    if path == "-":
        sys.stdout.flush()
        sys.stdout.buffer.write(stream.getvalue())
        sys.stdout.buffer.flush()
        return
    try:
        writing.save(path, stream.getvalue())
    except OSError as error:
        raise Trouble(f"{listing.spelled(path)}: {runs.reason(error)}") from None


def said(lines: Iterable[str]) -> None:
    """Prints lines, many at a time."""
    several: list[str] = []
    for line in lines:
        several.append(line)
        if len(several) == 4096:
            click.echo("\n".join(several))
            several.clear()
    if several:
        click.echo("\n".join(several))


def made(path: str, what: str) -> None:
    """Says what was written, where that didn't go to standard output."""
    if path != "-":
        click.echo(f"{listing.spelled(path)}: {what}")


def not_at_a_terminal(path: str, what: str) -> None:
    """Bytes don't go to a terminal."""
    if path == "-" and sys.stdout.isatty():
        raise click.UsageError(f"{what} goes to a file or a pipe, not to a terminal: give -o FILE")


FILE = click.argument("file", type=click.Path(allow_dash=True, readable=False), metavar="FILE")


class Commands(click.Group):
    """The commands; a word that is none of them is wrong use, whatever it begins with."""

    def resolve_command(self, context: click.Context, words: list[str]) -> tuple[Optional[str], Optional[click.Command], list[str]]:
        """The command that is meant."""
        if self.get_command(context, words[0]) is None:
            context.fail(f"there is no command '{words[0]}'; a file is checked by: dwj check FILE")
        return super().resolve_command(context, words)


@click.group(cls=Commands, context_settings={"help_option_names": ["-h", "--help"], "max_content_width": 110}, no_args_is_help=False)
@click.version_option(__version__, prog_name="dwj", message="%(prog)s %(version)s")
def dwj() -> None:
    """Raw files of an underground dark matter search: checked, listed, drawn and written again by a proved library.

    FILE is a raw file, or - for standard input. Exit status: 0 accepted, 1 refused, 2 wrong use, or something that can't be read, found or
    written. Answers go to standard output, all else to standard error.
    """


@contextmanager
def listed_in(path: str) -> Iterator[Iterable[bytes]]:
    """The lines of a list of files."""
    try:
        with open(0 if path == "-" else path, "rb", closefd=path != "-") as lines:
            yield lines
    except OSError as error:
        raise Trouble(f"{listing.spelled(path)}: {runs.reason(error)}") from None


def answers(wanted: list[str], workers: Optional[int], scheduler: Optional[str]) -> Iterator[runs.Answer]:
    """What comes of each file, in their order."""
    if wanted == ["-"]:
        name, data = loaded("-")
        yield runs.answered(data, name)
    elif scheduler is None:
        yield from runs.answers(wanted, workers=workers)
    else:
        signal.signal(signal.SIGPIPE, signal.SIG_IGN)
        try:
            yield from runs.answers(wanted, scheduler=scheduler)
        except ImportError:
            raise Trouble("a Dask cluster needs the Debian package python3-distributed here and on its workers") from None
        except (OSError, ValueError) as error:
            raise Trouble(f"the Dask cluster at {scheduler}: {str(error) or type(error).__name__}") from None


def told(answer: runs.Answer, quiet: bool, as_json: bool) -> Iterator[str]:
    """One file's line, and the bytes where it is refused. A file that can't be read has none but as JSON: that goes to standard error."""
    name = answer.name if as_json else listing.spelled(answer.name)
    if as_json:
        found: dict[str, Any] = {"file": name, "length": answer.length, "rows": answer.count}
        if answer.refusal:
            found = listing.refusal(name, answer.refusal) | {"length": answer.length}
        elif answer.problem:
            found = {"file": name, "problem": answer.problem}
        yield json.dumps(found)
    elif answer.refusal:
        yield click.style(name, fg="red") + f": {answer.refusal}"
        yield from answer.bytes_there
    elif not quiet and not answer.problem:
        yield f"{name}: accepted: {answer.length:,} bytes, {answer.count:,} rows"


@contextmanager
def progress(count: int) -> Iterator[Callable[[Iterable[str], str], None]]:
    """For each file its lines, and what went wrong with it on standard error; and below them, on a terminal and for more than one file, a bar."""

    def plainly(lines: Iterable[str], trouble: str) -> None:
        said(lines)
        if trouble:
            click.echo(trouble, err=True)

    if count < 2 or not sys.stderr.isatty():
        yield plainly
        return
    from rich.console import Console
    from rich.progress import BarColumn, MofNCompleteColumn, Progress, TimeRemainingColumn
    from rich.text import Text

    both, columns = sys.stdout.isatty(), (BarColumn(), MofNCompleteColumn(), TimeRemainingColumn())
    console = Console(stderr=not both)
    with Progress(*columns, console=console, transient=True, redirect_stdout=False, redirect_stderr=False) as bar:
        task = bar.add_task("files", total=count)

        # What goes to the bar's own terminal is put above it.
        def step(lines: Iterable[str], trouble: str) -> None:
            if not both:
                said(lines)
            for line in [*(lines if both else ()), *([trouble] if trouble else ())]:
                console.print(Text.from_ansi(line), soft_wrap=True)
            bar.advance(task)

        yield step


@dwj.command(short_help="Check files, and say where a refused one is at fault.")
@click.argument("names", nargs=-1, type=click.Path(allow_dash=True, readable=False), metavar="FILE..")
@click.option(
    "--from",
    "listed",
    type=click.Path(allow_dash=True, readable=False),
    metavar="LIST",
    help="Also the files that LIST names, a line each; - is standard input.",
)
@click.option("-q", "--quiet", is_flag=True, help="Only say what is refused or can't be read.")
@click.option("--json", "as_json", is_flag=True, help="A JSON object a line.")
@click.option("-j", "--workers", type=click.IntRange(1, 1024), help="How many files at a time; else as many as there are processors.")
@click.option("--scheduler", metavar="ADDRESS", help="On the workers of a Dask cluster, by its scheduler's address, as in tcp://host:8786.")
def check(names: tuple[str, ...], listed: Optional[str], quiet: bool, as_json: bool, workers: Optional[int], scheduler: Optional[str]) -> None:
    """Check files: a line each, and of a refused one the bytes of the structure at fault.

    Ends with 2 where a file can't be read, else with 1 where one is refused, else with 0.
    """
    wanted = [*names]
    if listed is not None:
        with listed_in(listed) as lines:
            wanted += [os.fsdecode(line.rstrip(b"\r\n")) for line in lines if line.strip(b"\r\n")]
    if not wanted:
        raise click.UsageError("no file is given")
    if "-" in wanted and (wanted != ["-"] or scheduler or listed is not None):
        raise click.UsageError("standard input is checked alone")
    tally = [0, 0, 0]
    with progress(len(wanted)) as step:
        for answer in answers(wanted, workers, scheduler):
            tally[answer.status] += 1
            trouble = f"dwj: {listing.spelled(answer.name)}: {answer.problem}" if answer.problem and not as_json else ""
            step(told(answer, quiet, as_json), trouble)
    if len(wanted) > 1:
        click.echo(f"dwj: {len(wanted):,} files: {tally[0]:,} accepted, {tally[1]:,} refused, {tally[2]:,} not read", err=True)
    sys.exit(WRONG if tally[2] else REFUSED if tally[1] else ACCEPTED)


@dwj.command(short_help="List what a file holds, as a tree, JSON or rows.")
@FILE
@click.option("--json", "as_json", is_flag=True, help="As a JSON document: all fields, without samples.")
@click.option("--rows", "as_rows", is_flag=True, help="As the listing program's lines of numbers: answer, count, place; then a line a row.")
def ls(file: str, as_json: bool, as_rows: bool) -> None:
    """List what a file holds: a tree with names, dates, channels and units."""
    if as_json and as_rows:
        raise click.UsageError("either --json or --rows")
    name, data = loaded(file)
    try:
        found = files.read(data, name)
    except faults.Refused as refusal:
        if as_rows:
            click.echo(f"{refusal.number} 0 {refusal.place}")
        if as_json:
            click.echo(json.dumps(listing.refusal(name, refusal), indent=1))
        refused(runs.answered(data, name))
    if as_json:
        click.echo(json.dumps(listing.document(found), indent=1))
    else:
        said(listing.lines(found) if as_rows else listing.tree(found))


@dwj.command(short_help="Show one structure: its fields, and its bytes in hex.")
@FILE
@click.argument("place")
@click.option("--json", "as_json", is_flag=True, help="As a JSON object.")
def show(file: str, place: str, as_json: bool) -> None:
    """Show the structure that the byte at PLACE belongs to: its fields, and its bytes in hex.

    PLACE is a byte's number, from 0, or hexadecimal behind 0x. In a refused file the refusal is shown, and then the bytes at PLACE.
    """
    at = place_of(place)
    name, data = loaded(file)
    try:
        found = files.read(data, name)
    except faults.Refused as refusal:
        if as_json:
            click.echo(json.dumps(listing.refusal(name, refusal), indent=1))
        else:
            structure = faults.structure_at(data, at) if at < len(data) else "past the end"
            click.echo(f"byte {at}: {structure or 'no word that names a structure'}")
            said(faults.hexadecimal(data, at))
        refused(runs.answered(data, name))
    if as_json:
        click.echo(json.dumps(listing.fields_of(found.at_row(found.row_at(at))), indent=1))
    else:
        said(listing.shown(found, at))


@dwj.command(short_help="One trace: what it is, its samples, or a picture.")
@FILE
@click.argument("event")
@click.argument("name", metavar="CHANNEL", shell_complete=lambda context, parameter, begun: channels_of(context.params, begun))
@click.option("--csv", "as_csv", is_flag=True, help="As lines of time in microseconds and sample.")
@click.option("--npy", "as_npy", is_flag=True, help="As a NumPy file of the samples, 16 bits each.")
@click.option("--plot", metavar="OUT", help="Drawn to OUT, a name that ends with .png or .svg.")
@click.option("-o", "--output", "out", default="-", metavar="OUT", help="Where --csv and --npy go, else standard output.")
def trace(file: str, event: str, name: str, as_csv: bool, as_npy: bool, plot: Optional[str], out: str) -> None:
    """One trace: what it is, or its samples.

    EVENT is an event's number, or @ and the byte where it begins. CHANNEL is a detector with its number and a channel's analysis name, as in
    iZIP17:PAS2 (iZIP-I and iZIP-II say which class), or a detector code, as in 11017002. Of traces that are asked for by an event's number the
    first in the file is taken.
    """
    if not (as_csv or as_npy or plot is not None) and out != "-":
        as_csv, as_npy = out.lower().endswith(".csv"), out.lower().endswith(".npy")
        if not (as_csv or as_npy):
            raise click.UsageError("with -o also give --csv or --npy, or a name that ends so")
    if plot is not None and out != "-":
        raise click.UsageError("--plot has its own OUT: leave -o away")
    if as_csv + as_npy + (plot is not None) > 1:
        raise click.UsageError("give only one of --csv, --npy and --plot")
    if as_npy:
        not_at_a_terminal(out, "a NumPy file")
    found = trace_of(opened(file), event, name)
    if plot is not None:
        from . import pictures

        kind = pictures.suffix(plot)
        not_at_a_terminal(plot, "a picture")
        with output(plot, file) as stream:
            pictures.saved(pictures.trace_figure(found), stream, kind)
        made(plot, f"{found.channel}, {found.n:,} samples")
    elif as_csv:
        table = "".join(f"{time / 1000:.3f},{sample}\n" for time, sample in zip(found.nanoseconds.tolist(), found.samples.tolist()))
        with output(out, file) as stream:
            stream.write(f"time_us,sample\n{table}".encode())
    elif as_npy:
        import numpy

        with output(out, file) as stream:
            numpy.save(stream, found.samples)
    else:
        said(listing.shown(found.file, found.place))


def channels_of(given: dict[str, Any], begun: str) -> list[str]:
    """For the shell: the channels of the event that was typed before."""
    try:
        with files.open(given["file"], copy=True) as file:
            return [name for name in (str(trace.channel) for trace in event_of(file, given["event"]).traces) if name.startswith(begun)]
    except Exception:
        return []


@dwj.command(short_help="The configuration's entries, in working units.")
@FILE
@click.option("--csv", "as_csv", is_flag=True, help="As lines with commas.")
@click.option("--json", "as_json", is_flag=True, help="As a JSON list.")
def settings(file: str, as_csv: bool, as_json: bool) -> None:
    """The configuration's entries, in working units."""
    if as_csv and as_json:
        raise click.UsageError("either --csv or --json")
    entries = [listing.fields_of(setting) for setting in opened(file).settings]
    if as_json:
        click.echo(json.dumps(entries, indent=1))
        return
    columns = "channel code tower gain bias qet_bias squid_bias lockpoint rtf_offset variable_gain delta_t t0 trace_length".split()
    lines = []
    for entry in entries:
        entry["channel"] = str(channel(entry["code"]))
        lines.append(["" if entry.get(column) is None else cell(entry[column]) for column in columns])
    titles = [*columns[:10], "delta_t_ns", "t0_ns", "trace_length"]
    tabulated(titles, lines, as_csv)


def cell(value: Any) -> str:
    """A number or a word in a table."""
    return listing.number(value) if isinstance(value, float) else str(value)


def tabulated(titles: list[str], lines: list[list[str]], as_csv: bool) -> None:
    """Prints a table: for people, or with commas."""
    if as_csv:
        text = io.StringIO()
        csv.writer(text, lineterminator="\n").writerows([titles, *lines])
        click.echo(text.getvalue(), nl=False)
        return
    widths = [max(map(len, column)) for column in zip(titles, *lines)]
    for index, line in enumerate([titles, *lines]):
        text_line = "  ".join(word.ljust(width) for word, width in zip(line, widths)).rstrip()
        click.echo(click.style(text_line, bold=True) if index == 0 else text_line)


@dwj.command("channels", short_help="The channel list: types, analysis and cold names, sides.")
@click.argument("which", nargs=-1, metavar="[WHICH]..")
@click.option("--csv", "as_csv", is_flag=True, help="As lines with commas.")
def channels_(which: tuple[str, ...], as_csv: bool) -> None:
    """The channel list: of every detector type, the channels with their analysis and cold names.

    WHICH is a detector type, by its name or number (iZIP is both classes), a code, as in 11017002, or a channel, as in iZIP17:PAS2.
    """
    found: list[Channel] = []
    for word in which or tuple(str(type) for type in dict.fromkeys(c.type for c in channels())):
        of_type = [c for c in channels() if word.lower() in (str(c.type), labels.of(labels.DETECTORS, c.type).lower())]
        found += of_type or [channel(code) for code in named(word)]
    titles = ["code", "type", "detector", "class", "channel", "cold name", "side"]
    tabulated(titles, [[str(c.code), str(c.type), c.detector, c.izip_class, c.name, c.cold, c.side] for c in found], as_csv)


@dwj.command(short_help="Read a file's fields and write them again.")
@click.argument("source", type=click.Path(allow_dash=True, readable=False), metavar="IN")
@click.argument("out", type=click.Path(allow_dash=True, readable=False), metavar="OUT")
def rewrite(source: str, out: str) -> None:
    """Read IN's fields and write them again to OUT, which then has the same bytes. Either may be -."""
    not_at_a_terminal(out, "a raw file")
    name, data = loaded(source)
    try:
        again = writing.rewrite(data)
    except faults.Refused:
        refused(runs.answered(data, name))
    # Over the file itself too: they are the same bytes.
    with output(out, "") as stream:
        stream.write(again)
    made(out, f"{len(again):,} bytes, {'the same as' if again == data.tobytes() else 'other than'} {listing.spelled(name)}")


@dwj.command(short_help="Draw all traces of an event, by detector and side.")
@FILE
@click.argument("event")
@click.option("-o", "--output", "out", metavar="OUT", help="A name that ends with .png or .svg; without it event-NUMBER.png.")
def plot(file: str, event: str, out: Optional[str]) -> None:
    """Draw all traces of an event, by detector and side, over microseconds.

    EVENT is an event's number, or @ and the byte where it begins. Of events with the same number the first is drawn.
    """
    from . import pictures

    kind = pictures.suffix(out) if out is not None else "png"
    found = event_of(opened(file), event)
    out = out or f"event-{found.number}.png"
    not_at_a_terminal(out, "a picture")
    figure, drawn, there = pictures.event_figure(found)
    with output(out, file) as stream:
        pictures.saved(figure, stream, kind)
    made(out, f"event {found.number}, {listing.several(drawn, 'trace')}{f' of {there:,}, the others are left out' if drawn < there else ''}")


@dwj.command(short_help="Make a page of a file, for a browser.")
@FILE
@click.option("-o", "--output", "out", required=True, metavar="OUT", help="The page, as in event.html; - is standard output.")
def page(file: str, out: str) -> None:
    """Make a page of a file, to look at in a browser: all in one file, events, records and traces, and a refusal where it is.

    A refused file has its page too; the exit status is 1 then.
    """
    from . import page as pages

    name, data = loaded(file)
    made_page = pages.page(data.data, name).encode("utf-8", "replace")
    with output(out, file) as stream:
        stream.write(made_page)
    made(out, f"a page of {listing.spelled(name)}")
    answer = runs.answered(data, name)
    if answer.refusal:
        refused(answer)


SHELLS = ("bash", "zsh", "fish")


@dwj.command(short_help="Print what makes a shell complete dwj's words.")
@click.argument("shell", type=click.Choice(SHELLS))
def completion(shell: str) -> None:
    """Print what makes a shell complete dwj's words; for bash: eval "$(dwj completion bash)"."""
    from click.shell_completion import get_completion_class

    kind = get_completion_class(shell)
    if kind is None:
        raise Trouble(f"no completion for {shell}")
    click.echo(kind(dwj, {}, "dwj", "_DWJ_COMPLETE").source())


def main() -> NoReturn:
    """The command, as a process: it ends with a status, and standard output is written or said not to be."""
    signal.signal(signal.SIGPIPE, signal.SIG_DFL)
    for number in (signal.SIGTERM, signal.SIGHUP):
        signal.signal(number, stopped)
    if sys.stdout is None or sys.stderr is None:
        if sys.stderr is not None:
            print("dwj: standard output is closed", file=sys.stderr)
        sys.exit(WRONG)
    for stream in (sys.stdout, sys.stderr):
        if isinstance(stream, io.TextIOWrapper):
            stream.reconfigure(errors="replace")
    status = ended()
    try:
        sys.stdout.flush()
    except OSError as error:
        if status != WRONG:
            click.echo(f"dwj: standard output: {runs.reason(error)}", err=True)
        status = WRONG
        os.dup2(os.open(os.devnull, os.O_WRONLY), 1)
    sys.exit(status)


def stopped(number: int, _: object) -> NoReturn:
    """A signal to stop: what was begun is taken back, as at any other end."""
    raise SystemExit(128 + number)


def safe(text: str) -> str:
    """Words that are about to be printed, with whatever a user gave in them: nothing that a terminal would obey."""
    return "".join(c if c.isprintable() or c == "\n" else listing.spelled(c) for c in text)


def ended() -> int:
    """Runs the command: its status, and words on standard error for whatever went wrong."""
    plain: dict[str, Any] = {"color": False} if os.environ.get("NO_COLOR") or os.environ.get("TERM") == "dumb" else {}
    try:
        status = dwj.main(prog_name="dwj", standalone_mode=False, **plain)
        return status if isinstance(status, int) else ACCEPTED
    except SystemExit as end:
        return end.code if isinstance(end.code, int) else ACCEPTED
    except (click.exceptions.Abort, KeyboardInterrupt):
        click.echo("dwj: stopped", err=True)
        return 130
    except click.ClickException as trouble:
        trouble.message = safe(trouble.message)
        trouble.show()
    except (faults.Absent, faults.Refused) as error:
        click.echo(safe(f"dwj: {error.args[0] if isinstance(error, faults.Absent) else error}"), err=True)
    except ImportError as error:
        click.echo(f"dwj: {error.name} is missing: apt-get install {PACKAGES.get(str(error.name), 'python3-' + str(error.name))}", err=True)
    except OSError as error:
        click.echo(f"dwj: {f'{listing.spelled(str(error.filename))}: ' if error.filename else ''}{runs.reason(error)}", err=True)
    except MemoryError:
        click.echo("dwj: there is too little memory", err=True)
    except Exception as error:
        if os.environ.get(DEBUG):
            raise
        if isinstance(error, RuntimeError) and "thread" in str(error):
            click.echo("dwj: there is too little memory for so many files at a time (-j says how many)", err=True)
            return WRONG
        click.echo(safe(f"dwj: a fault of dwj itself: {type(error).__name__}: {error} ({DEBUG}=1 shows where)"), err=True)
    return WRONG


# The Debian packages of modules that are loaded where they are needed.
PACKAGES = {"matplotlib": "python3-matplotlib", "rich": "python3-rich", "distributed": "python3-distributed", "pandas": "python3-pandas"}

if __name__ == "__main__":
    main()
