"""The module against the listing program, a C program over the same calls and the bytes by docs/FORMAT.md; and what goes wrong around a file."""

from __future__ import annotations

import array
import copy
import gc
import mmap
import os
import pickle
import random
import re
import shutil
import signal
import struct
import subprocess
import sys
import textwrap
import threading
import time
from datetime import datetime, timedelta, timezone
from pathlib import Path
from typing import Any, Callable, Optional

import dwejrasq
import files
import numpy as np
import pytest
from cffi import FFI
from conftest import TREE
from dwejrasq import _native
from files import Drawn, Happening, Part, Seeded, Tree
from hypothesis import example, given, settings
from hypothesis import strategies as st

Rows = list[tuple[int, ...]]
LONGEST = 16_777_216
LISTED = 16_384


def answer(data: bytes) -> tuple[int, int, int, Rows]:
    """Number, count, place and rows, as the module gives them."""
    try:
        file = dwejrasq.read(data)
    except dwejrasq.Refused as refusal:
        return refusal.number, 0, refusal.place, []
    return 0, len(file.rows), len(file), [tuple(map(int, row)) for row in file.rows]


def whole(seed: int, most: int = 8) -> bytes:
    return files.laid(files.tree(Seeded(seed), most=most))


def every() -> Tree:
    """A file with every kind of entry and record, events of the same number among them."""
    pick = Seeded(11)
    records = [make(pick) for make in (files.history, files.gps, files.trigger, files.tlb)]
    masks = {"veto_masks": [[193], [2**32 - 1]], "trigger_masks": [[1, 2, 3, 4, 5, 6]]}
    records[0] = Part("history", {"veto_times": [-5, 9], "trigger_times": [0], **masks})
    traces = [files.trace(pick, [11017002]), files.trace(pick, [11017002, 10001003]), files.trace(pick, [10001003])]
    first = Happening((0, 0, 0), [files.administrative(pick, [7]), *records, *traces])
    entries = [Part("phonon", {"code": 11017002, **{name: 325 for name in files.ENTRY_WORDS["phonon"]}})]
    entries += [Part("charge", {"code": 11017006, **{name: -333 for name in files.ENTRY_WORDS["charge"]}})]
    second = Happening((2, 6, 10), [files.administrative(pick, [7]), files.trace(pick, [3001000])])
    return Tree((3, 5), entries, [first, second, Happening((0, 1, 4), [files.administrative(pick, [8])])])


def several(*calls: Callable[[], Any]) -> tuple[Callable[[], Any], ...]:
    """Calls that must all end alike."""
    return calls


def python(script: str, *words: object, timeout: float = 60, **more: Any) -> subprocess.CompletedProcess[str]:
    """A script in a process of its own: what becomes of it is its return code."""
    command = [sys.executable, "-c", textwrap.dedent(script), *map(str, words)]
    return subprocess.run(command, capture_output=True, text=True, timeout=timeout, **more)


def ended(script: str, *words: object, timeout: float = 60, **more: Any) -> str:
    """The same where it must end well: what it prints."""
    done = python(script, *words, timeout=timeout, **more)
    assert done.returncode == 0, f"ended with {done.returncode}: {done.stdout}{done.stderr}"
    return done.stdout


# --- The listing program, and a C program --------------------------------------------------------------------------------------------


@pytest.fixture(scope="session")
def listed(tmp_path_factory: pytest.TempPathFactory) -> Callable[[bytes], tuple[int, int, int, Rows]]:
    """The listing program, started as ./list does."""
    found = shutil.which("rt")
    if found is None:
        pytest.skip("the toolchain isn't on this machine")
    kit = Path(os.environ.get("RATTLE_HOME", Path(found).resolve().parents[1])) / "toolchain"
    program = tmp_path_factory.mktemp("listing") / "program"
    # ./list has rt prove and build it, where that isn't done.
    subprocess.run([TREE / "list", TREE / "examples/p14.raw"], capture_output=True, check=True)
    shutil.copy(TREE / "crates/listing/out/listing", program)
    command = [str(program)]
    if (kit / "bin/qemu-x86_64").exists():
        command = [str(kit / "bin/qemu-x86_64"), str(kit / "lib/ld-linux-x86-64.so.2"), "--library-path", str(kit / "lib"), str(program)]

    def ask(data: bytes) -> tuple[int, int, int, Rows]:
        said = subprocess.run(command, input=data, capture_output=True, check=True, timeout=60).stdout
        lines = [tuple(map(int, line.split())) for line in said.decode("ascii").splitlines()]
        number, count, place = lines[0]
        assert [line[0] for line in lines[1:]] == list(range(1, count + 1))
        return number, count, place, [line[1:] for line in lines[1:]]

    return ask


WALK = r"""
/* walk FILE..: of each file number, count and place by Table without room for a row, then its rows by the walker. */
#include "dwejrasq.h"
#include <stdio.h>
#include <stdlib.h>
int main(int argc, char **argv) {
    static uint8_t file[DWJ_LONGEST + 1];
    for (int i = 1; i < argc; i++) {
        FILE *from = fopen(argv[i], "rb");
        if (!from) return 2;
        size_t length = fread(file, 1, sizeof file, from);
        fclose(from);
        uint32_t none, row[6];
        uint64_t answer[3], walker[6], refused_at;
        answer[0] = dwj_table(file, length, &none, 0, &answer[1], &answer[2]);
        fwrite(answer, sizeof answer, 1, stdout);
        if (answer[0] != DWJ_FEW_ROWS) continue;
        uint32_t number = dwj_open(file, length, walker, row, &refused_at);
        while (number == 0 && row[0] != 0) {
            fwrite(row, sizeof row, 1, stdout);
            number = dwj_next(file, length, walker, row, &refused_at);
        }
    }
    return 0;
}
"""


@pytest.fixture(scope="session")
def walked(tmp_path_factory: pytest.TempPathFactory) -> Callable[[list[Path]], list[tuple[int, int, int, bytes]]]:
    """The C program: of each file number, count, place, and the rows as they stand in memory."""
    folder = tmp_path_factory.mktemp("walk")
    (folder / "walk.c").write_text(WALK)
    archive = os.environ.get("EXPORTS_ARCHIVE", str(TREE / "target/native/libdwejrasq.a"))
    subprocess.run(["cc", "-O2", "-Wall", "-Werror", f"-I{TREE / 'include'}", "-o", "walk", "walk.c", archive], cwd=folder, check=True)

    def ask(paths: list[Path]) -> list[tuple[int, int, int, bytes]]:
        said = subprocess.run([folder / "walk", *paths], capture_output=True, check=True, timeout=60).stdout
        answers, at = [], 0
        for _ in paths:
            number, count, place = struct.unpack_from("<3Q", said, at)
            at += 24
            size = 24 * count if number == 12 else 0
            answers.append((0 if number == 12 else number, count, place, said[at : at + size]))
            at += size
        assert at == len(said)
        return answers

    return ask


def test_examples_are_listed(examples: Path, listed: Callable[[bytes], Any]) -> None:
    for name in ("p14", "every-kind", "damaged"):
        data = (examples / f"{name}.raw").read_bytes()
        assert answer(data) == listed(data)
        number, count, place, rows = answer(data)
        lines = [f"{number} {count} {place}", *(f"{at} {' '.join(map(str, row))}" for at, row in enumerate(rows, 1))]
        assert "\n".join(lines) + "\n" == (examples / f"{name}.listing").read_text()


def test_files_are_listed(listed: Callable[[bytes], Any]) -> None:
    seen: set[int] = set()
    for seed in range(180):
        data = whole(seed)
        assert answer(data) == listed(data), seed
        rows, pick = dwejrasq.read(data).rows, Seeded(-seed)
        some = [part for part in (rows, rows[rows["kind"] == 5], rows[rows["kind"] == 7]) if len(part)]
        for bad in (files.hurt(data, pick), *(files.struck(data, part, pick) for part in some)):
            told = answer(bad)
            assert told == listed(bad), (seed, bad.hex())
            seen.add(told[0])
    # Damages that are all refused in the same way would say little.
    assert {0, *range(2, 12)} - seen == set()


def test_the_listings_limit(listed: Callable[[bytes], Any]) -> None:
    data = files.smallest(LISTED)
    data += bytes(LISTED - len(data))
    assert answer(data) == listed(data)
    assert listed(data + b"\0")[:3] == (1, 0, 0)


def test_larger_files_are_walked(tmp_path: Path, longest: Path, walked: Callable[[list[Path]], Any]) -> None:
    paths = [longest]
    for seed in range(24):
        pick = Seeded(1000 + seed)
        events = [files.happening(pick, most=40) for _ in range(60)]
        data = files.laid(Tree((1, 0), [files.entry(pick) for _ in range(20)], events))
        assert len(data) > LISTED
        rows = dwejrasq.read(data).rows
        for at, bad in enumerate((data, files.hurt(data, pick), files.struck(data, rows, pick), files.struck(data, rows, pick))):
            paths.append(tmp_path / f"{seed}-{at}.raw")
            paths[-1].write_bytes(bad)
    over = tmp_path / "over.raw"
    over.write_bytes(longest.read_bytes() + b"\0")
    trace = Part("trace", {"code": 11017002, "samples": [65535] * 32768, "t0": 0, "delta_t": 1, "address": 0, "digitizer": 8})
    traces = tmp_path / "traces.raw"
    traces.write_bytes(files.laid(Tree((0, 0), [], [Happening((0, 0, 0), [files.administrative(Seeded(1)), *[trace] * 255])])))
    paths += [over, traces]
    for path, (number, count, place, rows) in zip(paths, walked(paths)):
        try:
            with dwejrasq.open(path) as file:
                assert (0, len(file.rows), len(file)) == (number, count, place), path
                assert file.rows.tobytes() == rows, path
        except dwejrasq.Refused as refusal:
            assert (refusal.number, refusal.place, 0) == (number, place, count), path
        checked = dwejrasq.check(path)
        assert (checked.status, checked.count) == (int(number != 0), count)
        assert number == (checked.refusal.number if checked.refusal else 0)


# --- What is written reads back ------------------------------------------------------------------------------------------------------


def same(part: Part, row: Any) -> None:
    """That a row has what its Writer's call was handed."""
    words = part.words
    if part.call == "phonon":
        for name in ("gain", "qet_bias", "squid_bias", "lockpoint"):
            value = getattr(row, name)
            assert type(value) is float and value == words[name] / 100 and (words[name] != 0 or str(value) == "0.0"), name
        assert row.bias is None and row.variable_gain == words["variable_gain"] and row.channel.name[0] == "P"
    elif part.call == "charge":
        assert row.gain == words["gain"] / 100 and row.bias == words["bias"] and row.channel.name[0] == "Q"
        assert (row.qet_bias, row.squid_bias, row.lockpoint, row.variable_gain) == (None,) * 4
    elif part.call == "trace":
        assert row.samples.tolist() == words["samples"] and row.samples.dtype == np.uint16
        assert row.n == len(words["samples"])
        assert row.nanoseconds.tolist() == [words["t0"] + words["delta_t"] * k for k in range(row.n)]
        assert row.time.tolist() == [(words["t0"] + words["delta_t"] * k) / 1000 for k in range(row.n)]
    elif part.call == "history":
        for name in ("veto_times", "veto_masks", "trigger_times", "trigger_masks"):
            found = getattr(row, name)
            assert found.tolist() == words[name] and not found.flags.writeable, name
            assert found.dtype == (np.int32 if name.endswith("times") else np.uint32)
        assert row.veto_masks.shape[0] == len(words["veto_times"])
        assert row.trigger_masks.shape == (len(words["trigger_times"]), 6 if words["trigger_times"] else 0)
    elif part.call == "administrative":
        assert row.series == f"{words['date']:08d}_{words['hour']:04d}"
        assert row.time == datetime(1970, 1, 1, tzinfo=timezone.utc) + timedelta(seconds=words["seconds"])
        assert ("Monte Carlo" in row.site) == (words["date"] >= 50_000_000)
    elif part.call == "gps" and words["year"]:
        start = datetime(words["year"], 1, 1, words["hour"], words["minute"], words["second"], words["tenths"] // 10, timezone.utc)
        assert row.time == start + timedelta(days=words["day"] - 1)
    elif part.call == "gps":
        assert row.time is None
    if part.call == "trigger":
        assert row.masks == tuple(words["masks"])
    elif part.call == "tlb":
        assert row.words == tuple(words["words"])
        assert row.zips == {tower: [z for z in range(1, 25) if word >> (z - 1) & 1] for tower, word in enumerate(words["words"], 1)}
    else:
        for name, value in words.items():
            if isinstance(value, int) and name not in ("gain", "qet_bias", "squid_bias", "lockpoint"):
                assert getattr(row, name) == value and type(getattr(row, name)) is int, name


def same_tree(tree: Tree, file: dwejrasq.File) -> None:
    assert file.header.daq == tree.daq and file.header.format == (2, 0) and file.header.label == "header"
    assert len(file.settings) == len(tree.entries) and len(file.events) == len(tree.events)
    for part, setting in zip(tree.entries, file.settings):
        same(part, setting)
    place = 16 + sum(setting.length for setting in file.settings)
    for happening, event in zip(tree.events, file.events):
        assert (event.event_class, event.category, event.type) == happening.word and event.place == place
        place += event.length
        assert len(event.records) == len(happening.records)
        singles = {"history": event.history, "gps": event.gps, "trigger": event.trigger, "tlb": event.tlb, "administrative": event.administrative}
        for part, record in zip(happening.records, event.records):
            same(part, record)
            if part.call != "trace":
                same(part, singles.pop(part.call))
        assert not any(singles.values())
        traces = [part for part in happening.records if part.call == "trace"]
        assert [trace.code for trace in event.traces] == [part.words["code"] for part in traces]
        assert event.number == happening.records[0].words["number"] and event.time == event.administrative.time
    assert place == len(file)


@given(files.trees())
def test_what_is_written_reads_back(tree: Tree) -> None:
    data = files.written(tree)
    assert data == files.laid(tree)
    file = dwejrasq.read(data)
    same_tree(tree, file)
    assert dwejrasq.rewrite(data) == data
    assert dwejrasq.rewrite(file.data) == data


@given(st.data())
@pytest.mark.parametrize("make", [files.entry, files.administrative, files.trace, files.history, files.gps, files.trigger, files.tlb])
@settings(max_examples=60)
def test_each_kind_reads_back(make: Callable[[files.Pick], Part], data: st.DataObject) -> None:
    part = make(Drawn(data.draw))
    if make is files.entry:
        tree = Tree((255, 0), [part, part], [])
    else:
        first = [] if make is files.administrative else [files.administrative(Seeded(3))]
        tree = Tree((0, 255), [], [Happening((2, 6, 10), [*first, part])])
    raw = files.written(tree)
    assert raw == files.laid(tree)
    same_tree(tree, dwejrasq.read(raw))


def test_extreme_numbers_read_back() -> None:
    low, high, most = -(2**31), 2**31 - 1, 2**32 - 1
    for value in (low, high, -1, 0, 25, -333, 1050):
        codes = (("phonon", 10999011), ("charge", 7000000))
        entries = [Part(call, {"code": code, **{name: value for name in files.ENTRY_WORDS[call]}}) for call, code in codes]
        tree = Tree((0, 0), entries, [])
        same_tree(tree, dwejrasq.read(files.written(tree)))
    # FORMAT 8.6: one rounding, to nearest.
    assert dwejrasq.read(files.written(Tree((0, 0), entries, []))).settings[0].gain == 10.5
    for value in (0, most):
        administrative = Part("administrative", {"date": 57991231, "hour": 2359, "number": value, "seconds": value, "since": value, "live": value})
        trace = Part("trace", {"code": 3999000, "samples": [0, 65535] * 16384, "t0": low, "delta_t": most, "address": value, "digitizer": 8})
        tree = Tree((0, 0), [], [Happening((2, 6, 10), [administrative, trace, Part("trigger", {"masks": [value] * 6})])])
        same_tree(tree, dwejrasq.read(files.written(tree)))


def test_all_listed_channels() -> None:
    listed = {type * 1_000_000 + channel: (type, *names) for type, channels in files.LISTED.items() for channel, names in channels.items()}
    assert {one.code: (one.type, one.name, one.cold) for one in dwejrasq.channels()} == listed
    for code, (type, name, cold) in listed.items():
        for number in (0, 1, 17, 999):
            found = dwejrasq.channel(code + 1000 * number)
            assert (found.type, found.number, found.name, found.cold) == (type, number, name, cold)
            assert dwejrasq.code(type, number, name) == code + 1000 * number
            assert found.side == (name[-2:] if type in (10, 11) else "") and found.izip_class == {10: "I", 11: "II"}.get(type, "")
        call = {"P": "phonon", "Q": "charge"}.get(name[0])
        for asked in ("phonon", "charge"):
            writer = dwejrasq.Writer()
            if asked == call:
                getattr(writer, asked)((type, 5, name))
            else:
                with pytest.raises(dwejrasq.Refused) as raised:
                    getattr(writer, asked)(code)
                assert (raised.value.number, raised.value.place, writer.place) == (10, 8, 8)
    for code in [0, 8000000, 9000000, 12000000, 3005001, 10000012, 999999999, 1000000000, 2**32 - 1, 2**32, -1, 2**70]:
        with pytest.raises(dwejrasq.Refused, match=r"\(10\)"):
            dwejrasq.channel(code)
    for names in [(11, 17, "A1"), (11, 17, "pas2"), (11, 17, ""), (11, 17, "PAS2 "), (11, 1000, "PAS2"), (11, 2**40, "PAS2"), (3, 0, "Véto")]:
        with pytest.raises(dwejrasq.Refused, match=r"\(10\)"):
            dwejrasq.code(*names)
    for type in (-1, 0, 8, 9, 12, 2**32, 2**70):
        with pytest.raises(dwejrasq.Refused, match=r"\(10\)"):
            dwejrasq.code(type, 0, "Q")


# What the Writer must refuse: the call, what it is handed, the number.
GOOD_DATE: dict[str, Any] = {"date": 1100115, "hour": 1630, "number": 0, "seconds": 0}
WRONG: list[tuple[str, dict[str, Any], int]] = [
    ("phonon", {"code": 11017006}, 10),
    ("phonon", {"code": -1}, 10),
    ("charge", {"code": 11017002}, 10),
    ("charge", {"code": 3001000}, 10),
    ("administrative", {**GOOD_DATE, "date": 1100230}, 10),
    ("administrative", {**GOOD_DATE, "date": 4100115}, 10),
    ("administrative", {**GOOD_DATE, "date": 100_000_000}, 10),
    ("administrative", {**GOOD_DATE, "hour": 2360}, 10),
    ("administrative", {**GOOD_DATE, "hour": 2400}, 10),
    ("trace", {"code": 11017002, "samples": [1, 2], "digitizer": 0}, 10),
    ("trace", {"code": 11017002, "samples": [1, 2], "digitizer": 9}, 10),
    ("trace", {"code": 12000000, "samples": [1, 2]}, 10),
    ("trace", {"code": 11017002, "samples": [1, 2], "delta_t": 0}, 10),
    ("trace", {"code": 11017002, "samples": []}, 11),
    ("trace", {"code": 11017002, "samples": [1, 2, 3]}, 11),
    ("trace", {"code": 11017002, "samples": [0] * 32770}, 11),
    ("history", {"veto_times": [1]}, 10),
    ("history", {"veto_masks": [[1]]}, 6),
    ("history", {"veto_times": [1, 2], "veto_masks": [[1]]}, 6),
    ("history", {"veto_times": [1, 2], "veto_masks": [1, 2, 3]}, 6),
    ("history", {"trigger_times": [1], "trigger_masks": [[1]]}, 10),
    ("history", {"trigger_times": [1], "trigger_masks": [[1] * 7]}, 10),
    ("gps", {"year": 2010, "day": 366}, 10),
    ("gps", {"year": 2010, "day": 0}, 10),
    ("gps", {"year": 10000, "day": 1}, 10),
    ("gps", {"year": 2010, "day": 1, "status": 16}, 10),
    ("gps", {"year": 2010, "day": 1, "hour": 24}, 10),
    ("gps", {"year": 2010, "day": 1, "minute": 60}, 10),
    ("gps", {"year": 2010, "day": 1, "second": 60}, 10),
    ("gps", {"year": 2010, "day": 1, "tenths": 10_000_000}, 10),
    ("tlb", {"words": [0x02000000, 0, 0, 0, 0, 0]}, 10),
    ("tlb", {"words": [0, 0, 0, 0, 0, 1]}, 10),
]


@pytest.mark.parametrize(("call", "words", "number"), WRONG)
def test_the_writer_refuses(call: str, words: dict[str, Any], number: int) -> None:
    writer = dwejrasq.Writer()
    with writer.configuration():
        pass
    before = writer.bytes()
    with pytest.raises(dwejrasq.Refused) as raised:
        getattr(writer, call)(**words)
    assert (raised.value.number, raised.value.place) == (number, 16)
    assert writer.bytes() == before and writer.place == 16


@pytest.mark.parametrize(
    ("call", "words"),
    [
        ("phonon", {"code": 11017002, "tower": 2**31}),
        ("charge", {"code": 11017006, "gain": -(2**31) - 1}),
        ("charge", {"code": 11017006, "gain": 40.0}),
        ("charge", {"code": 11017006, "gain": np.float32(40.5)}),
        ("administrative", {**GOOD_DATE, "number": 2**32}),
        ("administrative", {**GOOD_DATE, "number": -1}),
        ("administrative", {**GOOD_DATE, "number": "7"}),
        ("trace", {"code": 11017002, "samples": [1, 65536]}),
        ("trace", {"code": 11017002, "samples": [1, -1]}),
        ("trace", {"code": 11017002, "samples": [1.0, 2.0]}),
        ("trace", {"code": 11017002, "samples": ["1", "2"]}),
        ("trace", {"code": 11017002, "samples": [1, 2], "t0": 2**31}),
        ("trace", {"code": 11017002, "samples": [1, 2], "delta_t": -1}),
        ("history", {"veto_times": [2**31], "veto_masks": [[1]]}),
        ("history", {"veto_times": [1], "veto_masks": [[-1]]}),
        ("history", {"veto_times": [0.5], "veto_masks": [[1]]}),
        ("trigger", {"masks": [0] * 5}),
        ("trigger", {"masks": [0] * 7}),
        ("tlb", {"words": []}),
        ("tlb", {"words": [2**32, 0, 0, 0, 0, 0]}),
    ],
)
def test_the_writer_takes_no_other_numbers(call: str, words: dict[str, Any]) -> None:
    """What is no word at all is no refusal of the library's, but it is an error, and writes nothing."""
    writer = dwejrasq.Writer()
    with pytest.raises((TypeError, ValueError, OverflowError)):
        getattr(writer, call)(**words)
    assert writer.place == 8 and len(writer.bytes()) == 8


def test_arrays_are_taken_as_lists_are() -> None:
    arrays: list[Any] = [np.arange(6, dtype=np.uint16), np.arange(6, dtype=">u2"), np.arange(12, dtype=np.int64)[::2], array.array("H", [9] * 6)]
    for samples in (*arrays, range(6), (5,) * 6, [65535] * 6):
        writer = dwejrasq.Writer()
        with writer.configuration():
            pass
        with writer.event():
            writer.administrative(**GOOD_DATE)
            writer.trace((11, 17, "PAS2"), samples)
        assert dwejrasq.read(writer.bytes()).events[0].traces[0].samples.tolist() == [int(sample) for sample in samples]


def test_containers_that_fail_leave_the_writer_as_it_was(tmp_path: Path) -> None:
    writer = dwejrasq.Writer()
    with writer.configuration():
        writer.phonon(11017002, tower=1)
    with writer.event(2, 6, 10):
        writer.administrative(**GOOD_DATE)
    before = writer.bytes()

    def fails(number: int, place: int, fill: Callable[[dwejrasq.Writer], None], *word: int) -> None:
        with pytest.raises(dwejrasq.Refused) as raised:
            with writer.event(*word):
                fill(writer)
        assert (raised.value.number, raised.value.place) == (number, place)
        assert writer.bytes() == before and writer.place == len(before)

    at = len(before)

    def first(w: dwejrasq.Writer) -> None:
        w.administrative(**GOOD_DATE)

    def twice(w: dwejrasq.Writer) -> None:
        first(w)
        w.trigger([0] * 6)
        w.trigger([0] * 6)

    fails(9, at, lambda w: None)
    fails(7, at, first, 1)
    fails(7, at, first, 16)
    fails(7, at, first, 0, 2)
    fails(7, at, first, 0, 0, 11)
    fails(7, at, first, 0, 0, 263)
    fails(8, at, first, 0, 0, 7)
    fails(9, at + 8, lambda w: w.trigger([0] * 6))
    fails(9, at + 8 + 32 + 36, twice)
    fails(5, at + 8, lambda w: w.phonon(11017002))
    fails(10, at + 8, lambda w: w.gps(year=2010, day=366))
    with pytest.raises(dwejrasq.Refused) as raised:
        with writer.configuration():
            writer.trigger([0] * 6)
    assert (raised.value.number, raised.value.place) == (5, at + 8)

    # Any other error inside of the block, also behind a record that was written.
    with pytest.raises(KeyError):
        with writer.event():
            writer.administrative(**GOOD_DATE)
            raise KeyError
    with pytest.raises(dwejrasq.Refused):
        with writer.event():
            writer.administrative(**GOOD_DATE)
            with writer.event():
                writer.administrative(**GOOD_DATE)
    assert writer.bytes() == before
    # It goes on as if nothing had been.
    with writer.event():
        writer.administrative(**GOOD_DATE)
    assert len(dwejrasq.read(writer.bytes()).events) == 2
    writer.save(tmp_path / "out.raw")
    assert (tmp_path / "out.raw").read_bytes() == writer.bytes() and os.listdir(tmp_path) == ["out.raw"]


def test_the_writers_limit() -> None:
    """Up to 16,777,216 bytes are written; what has no room any more is 13, and nothing is lost by it."""
    writer = dwejrasq.Writer()
    with writer.configuration():
        pass
    samples = np.arange(32768, dtype=np.uint16)
    with writer.event():
        writer.administrative(**GOOD_DATE)
        # 255 traces of 65,592 bytes; then one that leaves room for 8 bytes of an event and 32 of its record.
        for _ in range(255):
            writer.trace(11017002, samples)
        left = LONGEST - writer.place - 40
        writer.trace(11017002, samples[: (left - 56) // 2])
    assert writer.place == LONGEST - 40
    before = writer.bytes()
    for _ in range(2):
        with pytest.raises(dwejrasq.Refused) as raised:
            with writer.event():
                writer.administrative(**GOOD_DATE)
                writer.trigger([0] * 6)
        assert (raised.value.number, raised.value.place) == (13, LONGEST) and writer.place == len(before)
    with writer.event():
        writer.administrative(**GOOD_DATE)
    data = writer.bytes()
    assert len(data) == LONGEST and data[: len(before)] == before
    assert len(dwejrasq.read(data).events) == 2 and dwejrasq.rewrite(data) == data
    with pytest.raises(dwejrasq.Refused, match=r"\(13\)"):
        writer.trigger([0] * 6)
    with pytest.raises(dwejrasq.Refused, match=r"\(13\)"):
        with writer.event():
            writer.administrative(**GOOD_DATE)
    assert writer.bytes() == data


@given(st.integers(0, 2**32), st.data())
@settings(max_examples=60)
def test_rewrite_refuses_as_reading_does(seed: int, data: st.DataObject) -> None:
    bad = files.hurt(whole(seed), Drawn(data.draw))
    try:
        again: Optional[bytes] = dwejrasq.rewrite(bad)
        told = 0, 0, len(bad)
    except dwejrasq.Refused as refusal:
        again, told = None, (refusal.number, 0, refusal.place)
    number, _, place, _ = answer(bad)
    assert told == (number, 0, place) and (again is None or again == bad)


def test_saving_never_leaves_half_a_file(tmp_path: Path) -> None:
    writer = dwejrasq.Writer()
    with writer.configuration():
        pass
    with pytest.raises(OSError):
        writer.save(tmp_path / "none" / "out.raw")
    with pytest.raises(OSError):
        writer.save(tmp_path)
    assert os.listdir(tmp_path) == []
    # Two at a time, under one name: it is one of the two at any time.
    path, errors = tmp_path / "out.raw", []

    def save() -> None:
        try:
            for _ in range(200):
                writer.save(path)
                assert path.read_bytes() == writer.bytes()
        except BaseException as error:
            errors.append(error)

    threads = [threading.Thread(target=save) for _ in range(2)]
    for thread in threads:
        thread.start()
    for thread in threads:
        thread.join()
    assert errors == [] and os.listdir(tmp_path) == ["out.raw"]


# --- Views ---------------------------------------------------------------------------------------------------------------------------


def address(array: Any) -> int:
    return int(array.__array_interface__["data"][0])


def mapped(path: Path) -> list[tuple[int, int]]:
    """Where this process has a file mapped."""
    with open("/proc/self/maps") as lines:
        ranges = [line.split()[0].split("-") for line in lines if line.rstrip("\n").endswith(str(path))]
    return [(int(low, 16), int(high, 16)) for low, high in ranges]


@pytest.fixture
def raw(tmp_path: Path) -> Path:
    """A file with every kind."""
    path = tmp_path / "every.raw"
    path.write_bytes(files.laid(every()))
    return path


def test_samples_are_the_mapping_itself(raw: Path) -> None:
    with dwejrasq.open(raw) as file:
        ((low, high),) = mapped(raw)
        assert address(file.data) == low and high - low >= len(file)
        for trace in (trace for event in file.events for trace in event.traces):
            samples = trace.samples
            assert address(samples) == low + trace.place + 56
            assert samples.dtype == np.dtype("<u2") and samples.shape == (trace.n,) and samples.flags.c_contiguous
            assert not samples.flags.owndata and not samples.flags.writeable
            with pytest.raises(ValueError):
                samples[0] = 1
            with pytest.raises(ValueError):
                samples.flags.writeable = True
            with pytest.raises(ValueError):
                np.add(samples, 1, out=samples)
            assert address(file.samples(trace.place)) == address(samples)
        history = file.events[0].history
        assert history is not None
        assert address(history.veto_times) == low + history.place + 12
        assert address(history.trigger_masks) == low + history.place + history.length - 24
        others: list[Any] = [history.veto_times, history.veto_masks, history.trigger_times, history.trigger_masks, file.data]
        for view in others:
            assert not view.flags.owndata and not view.flags.writeable
            with pytest.raises(ValueError):
                view[0] = 0
        with pytest.raises(ValueError):
            file.rows["kind"][0] = 0
        # Where no trace is there are no samples; and no error.
        for place in (0, 8, 1, len(file), len(file) + 1, 2**63):
            assert len(file.samples(place)) == 0 and file.samples(place).dtype == np.uint16


def test_samples_of_bytes_at_hand_are_those_bytes(raw: Path) -> None:
    data = bytearray(raw.read_bytes())
    anonymous = mmap.mmap(-1, len(data))
    anonymous[:] = bytes(data)
    sorts: list[Any] = [data, bytes(data), memoryview(data), np.frombuffer(data, np.uint8), np.frombuffer(data, "<u4"), anonymous]
    while sorts:
        given_data = sorts.pop()
        file = dwejrasq.read(given_data)
        trace = file.events[0].traces[0]
        assert address(trace.samples) == address(np.frombuffer(given_data, np.uint8)) + trace.place + 56
        with pytest.raises(ValueError):
            trace.samples[0] = 1
        assert dwejrasq.rewrite(given_data) == bytes(data)
        file.close()
    del file, trace, given_data
    data.append(0)  # nobody holds it any more


def test_views_survive_closing_and_collection(raw: Path) -> None:
    file = dwejrasq.open(raw)
    trace, history = file.events[0].traces[1], file.events[0].history
    assert history is not None
    views: list[Any] = [trace.samples, history.veto_times, history.trigger_masks]
    want = [view.tolist() for view in views]
    file.close()
    file.close()
    gc.collect()
    assert [view.tolist() for view in views] == want and len(mapped(raw)) == 1
    for use in several(lambda: trace.samples, lambda: file.data, lambda: file.at(16), lambda: file.find(7, 11017002), lambda: file.settings):
        with pytest.raises(ValueError, match="closed"):
            use()
    assert trace.n == len(want[0]) and trace.time.shape == (trace.n,)
    assert repr(file) and len(file) == file.rows["start"][-1] + file.rows["length"][-1]
    try:
        assert not file.changed
    except ValueError as error:
        assert "closed" in str(error)
    part = views[0][1:]
    del file, trace, history, views
    gc.collect()
    assert part.tolist() == want[0][1:] and len(mapped(raw)) == 1
    del part
    gc.collect()
    assert mapped(raw) == []


def test_views_survive_the_files_name(raw: Path) -> None:
    """Its name taken away, or given to another file: what is open stays what it was, and isn't changed by that."""
    with dwejrasq.open(raw) as file:
        samples = file.events[0].traces[0].samples
        want = samples.tolist()
        (raw.parent / "other.raw").write_bytes(whole(5))
        os.replace(raw.parent / "other.raw", raw)
        assert not file.changed and file.events[0].traces[0].samples.tolist() == want
        raw.unlink()
        assert not file.changed and samples.tolist() == want


def test_time_axis() -> None:
    words = {"code": 11017002, "samples": [0] * 4, "t0": -51200, "delta_t": 800, "address": 0, "digitizer": 1}
    tree = Tree((0, 0), [], [Happening((0, 0, 0), [files.administrative(Seeded(1)), Part("trace", words)])])
    trace = dwejrasq.read(files.laid(tree)).events[0].traces[0]
    assert trace.nanoseconds.tolist() == [-51200, -50400, -49600, -48800] and trace.nanoseconds.dtype == np.int64
    assert trace.time.tolist() == [-51.2, -50.4, -49.6, -48.8]


# --- Refusals ------------------------------------------------------------------------------------------------------------------------


def header_words() -> dict[int, str]:
    text = (TREE / "include/dwejrasq.h").read_text()
    return {int(number): words for number, words in re.findall(r"^ \* {2,}(\d+)  (.+)$", text.split("#ifndef")[0], flags=re.M)}


def test_words_of_every_number() -> None:
    words = header_words()
    assert list(words) == list(range(1, 14))
    for number in words:
        refusal = dwejrasq.Refused(number, 772, "trace")
        assert refusal.words == words[number] and str(refusal) == f"refused at byte 772: trace: {words[number]} ({number})"
        assert str(dwejrasq.Refused(number, 4)) == f"refused at byte 4: {words[number]} ({number})"
        for again in (pickle.loads(pickle.dumps(refusal)), copy.copy(refusal), copy.deepcopy(refusal)):
            assert type(again) is dwejrasq.Refused and str(again) == str(refusal)
            assert (again.number, again.place, again.structure, again.words) == (number, 772, "trace", words[number])
    assert issubclass(dwejrasq.Refused, ValueError) and issubclass(dwejrasq.Changed, OSError) and issubclass(dwejrasq.Absent, LookupError)
    assert "10" in str(dwejrasq.Refused(10, 0)) and repr(dwejrasq.Refused(10, 772, "trace"))


def test_changed_and_absent_pickle() -> None:
    changed = dwejrasq.Changed("run.raw")
    for again in (pickle.loads(pickle.dumps(changed)), copy.copy(changed), copy.deepcopy(changed)):
        assert type(again) is dwejrasq.Changed and str(again) == "run.raw: was changed while it was read" and again.name == "run.raw"
    absent = dwejrasq.Absent("no event has the number 9")
    assert str(pickle.loads(pickle.dumps(absent))) == str(absent)


# Of each kind of structure: which row, the word in it, what it becomes, number and name.
FAULTY: list[tuple[int, int, int, int, str]] = [
    (1, 0, 0x04030201, 3, "header"),
    (1, 4, 0x01000300, 4, "header"),
    (2, 4, 2**32 - 1, 2, "configuration"),
    (3, 4, 40, 6, "phonon entry"),
    (3, 8, 11017006, 10, "phonon entry"),
    (3, 4, 2**31, 2, "phonon entry"),
    (4, 4, 28, 6, "charge entry"),
    (4, 8, 11017002, 10, "charge entry"),
    (5, 0, 0xA9801000, 7, "event"),
    (5, 0, 0xA9800200, 7, "event"),
    (5, 0, 0xA980000B, 7, "event"),
    (5, 0, 0xA9800007, 8, "event"),
    (5, 4, 0, 9, "event"),
    (5, 4, 2**32 - 8, 2, "event"),
    (5, 0, 0x00010000, 5, "configuration"),
    (5, 0, 0x60, 5, "GPS"),
    (5, 0, 0xA9810000, 5, ""),
    (6, 8, 1100230, 10, "administrative"),
    (6, 12, 2400, 10, "administrative"),
    (6, 0, 0x11, 9, "trace"),
    (7, 8, 0x12, 5, "trace"),
    (7, 12, 13, 6, "trace"),
    (7, 20, 0, 10, "trace"),
    (7, 24, 12000000, 10, "trace"),
    (7, 40, 0, 10, "trace"),
    (7, 44, 3, 11, "trace"),
    (7, 52, 3, 11, "trace"),
    (8, 8, 2**31, 10, "history"),
    (8, 4, 12, 6, "history"),
    (9, 8, 0x20100366, 10, "GPS"),
    (9, 4, 8, 6, "GPS"),
    (10, 8, 1, 10, "trigger"),
    (11, 8, 0x02000000, 10, "TLB mask"),
    (11, 0, 0x80, 9, "trigger"),
    (11, 0, 0xA9800000, 5, "event"),
]


@pytest.mark.parametrize(("kind", "word", "becomes", "number", "name"), FAULTY)
def test_faults_in_each_kind(kind: int, word: int, becomes: int, number: int, name: str, tmp_path: Path) -> None:
    data = bytearray(files.laid(every()))
    rows = dwejrasq.read(data).rows
    place = int(rows["start"][np.flatnonzero(rows["kind"] == kind)[0]])
    data[place + word : place + word + 4] = struct.pack("<I", becomes)
    path = tmp_path / "faulty.raw"
    path.write_bytes(data)
    words = f"refused at byte {place}: {name + ': ' if name else ''}{header_words()[number]} ({number})"
    for use in several(lambda: dwejrasq.open(path), lambda: dwejrasq.read(data), lambda: dwejrasq.open(path, copy=True)):
        with pytest.raises(dwejrasq.Refused) as raised:
            use()
        refusal = raised.value
        assert (refusal.number, refusal.place, refusal.structure, str(refusal)) == (number, place, name, words)
    checked = dwejrasq.check(path)
    assert checked.status == 1 and str(checked) == f"{path}: {words}" and checked.refusal is not None and checked.refusal.structure == name
    with pytest.raises(dwejrasq.Refused) as raised:
        dwejrasq.rewrite(data)
    assert (raised.value.number, raised.value.place) == (number, place)


def test_the_example_of_a_refusal(examples: Path) -> None:
    with pytest.raises(dwejrasq.Refused, match=r"^refused at byte 3948: GPS: a field is outside its rule \(10\)$"):
        dwejrasq.open(examples / "damaged.raw")


def test_bytes_left_over() -> None:
    data = files.laid(every())
    for more in range(1, 8):
        assert answer(data + bytes(more))[:3] == (2, 0, len(data))
        assert answer(data[:8] + bytes(more))[:3] == (2, 0, 8) and answer(data[:more])[:3] == (2, 0, 0)
    assert answer(data + data[:8])[:3] == (5, 0, len(data))


# --- Bad input -----------------------------------------------------------------------------------------------------------------------


def test_what_cannot_be_read(tmp_path: Path, raw: Path) -> None:
    empty = tmp_path / "empty.raw"
    empty.touch()
    for nothing in (b"", bytearray(), memoryview(b""), np.empty(0, np.uint8)):
        for use in several(lambda: dwejrasq.read(nothing), lambda: dwejrasq.rewrite(nothing), lambda: dwejrasq.open(empty)):
            with pytest.raises(dwejrasq.Refused) as refused:
                use()
            assert (refused.value.number, refused.value.place) == (2, 0)
    for name, error in ((tmp_path, IsADirectoryError), (tmp_path / "none.raw", FileNotFoundError), (raw / "in", NotADirectoryError)):
        for use in several(lambda: dwejrasq.open(name), lambda: dwejrasq.open(name, copy=True)):
            with pytest.raises(error) as raised:
                use()
            assert raised.value.filename == str(name) and str(name) in str(raised.value)
        checked = dwejrasq.check(name)
        assert checked.status == 2 and checked.problem and checked.refusal is None and str(checked).startswith(f"{name}: ")
    (tmp_path / "loop").symlink_to("loop")
    (tmp_path / "link").symlink_to(raw)
    assert len(dwejrasq.open(tmp_path / "link").rows) == len(dwejrasq.open(str(raw)).rows)
    for name in (tmp_path / "loop", tmp_path / ("n" * 300)):
        with pytest.raises(OSError):
            dwejrasq.open(name)
        assert dwejrasq.check(name).status == 2
    with pytest.raises(ValueError):
        dwejrasq.open(str(tmp_path / "a\0b"))
    assert dwejrasq.check(str(tmp_path / "a\0b")).status == 2
    with pytest.raises(TypeError):
        dwejrasq.open(3)  # type: ignore[arg-type]
    for wrong in ("text", None, 3, [1, 2], memoryview(bytes(32))[::2]):
        with pytest.raises((TypeError, BufferError, ValueError)) as odd:
            dwejrasq.read(wrong)
        assert not isinstance(odd.value, dwejrasq.Refused)


def test_no_permission(tmp_path: Path) -> None:
    """As another user than root, whom permissions bind."""
    tmp_path.chmod(0o755)
    path = tmp_path / "closed.raw"
    path.write_bytes(whole(1))
    path.chmod(0)
    # The module is loaded before the user changes: the source tree may be out of that user's reach.
    script = """
    import os, sys, dwejrasq
    dwejrasq.read(bytes.fromhex("04030201000200010000010000000000"))
    folder = os.open(os.path.dirname(sys.argv[1]), os.O_PATH)
    os.fchdir(folder)
    if os.getuid() == 0:
        os.setgroups([])
        os.setgid(65534)
        os.setuid(65534)
    for copy in (False, True):
        try:
            dwejrasq.open("closed.raw", copy=copy)
            sys.exit("opened")
        except PermissionError as error:
            assert error.filename == "closed.raw", error.filename
    answer = dwejrasq.check("closed.raw")
    assert answer.status == 2 and answer.problem == "permission denied", answer
    found = dwejrasq.run(["closed.raw"])
    assert found.unread["words"].tolist() == ["permission denied"]
    print("refused by the system")
    """
    assert ended(script, path) == "refused by the system\n"


def test_the_limit(tmp_path: Path, longest: Path) -> None:
    with dwejrasq.open(longest) as file:
        assert len(file) == LONGEST and len(file.rows) == 2 + 2 * ((LONGEST - 16) // 40)
    for size, number in ((LONGEST, 3), (LONGEST + 1, 1), (2**32, 1), (2**40, 1)):
        path = tmp_path / "sparse.raw"
        with open(path, "wb") as out:
            out.truncate(size)
        began = time.monotonic()
        for use in several(lambda: dwejrasq.open(path), lambda: dwejrasq.open(path, copy=True)):
            with pytest.raises(dwejrasq.Refused) as raised:
                use()
            assert (raised.value.number, raised.value.place) == (number, 0), size
            assert raised.value.structure == ("header" if number == 3 else "")
        checked = dwejrasq.check(path).refusal
        assert checked is not None and checked.number == number
        assert time.monotonic() - began < 2, "what is too long isn't read to its end"
    with pytest.raises(dwejrasq.Refused, match=r"\(1\)"):
        dwejrasq.read(bytes(LONGEST + 1))
    with pytest.raises(dwejrasq.Refused, match=r"\(1\)"):
        dwejrasq.rewrite(bytes(LONGEST + 1))


def test_no_regular_file(tmp_path: Path, raw: Path, longest: Path) -> None:
    """Pipes and devices are read to their end, but no further than the limit."""
    fifo = tmp_path / "fifo"
    os.mkfifo(fifo)
    for source in (raw, longest):
        feeder = threading.Thread(target=lambda: fifo.write_bytes(source.read_bytes()), daemon=True)
        feeder.start()
        with dwejrasq.open(fifo) as file:
            assert file.rows.tobytes() == dwejrasq.open(source).rows.tobytes() and not file.changed
            assert file.data.tobytes() == source.read_bytes()
        feeder.join(10)
        assert not feeder.is_alive()
    for use in several(lambda: dwejrasq.open("/dev/zero"), lambda: dwejrasq.open("/dev/zero", copy=True), lambda: dwejrasq.open("/dev/urandom")):
        with pytest.raises(dwejrasq.Refused, match=r"\(1\)"):
            use()
    assert str(dwejrasq.check("/dev/zero")).startswith("/dev/zero: refused at byte 0: ")
    endless = subprocess.Popen(["sh", "-c", 'exec cat /dev/zero >"$0"', str(fifo)], stderr=subprocess.DEVNULL)
    try:
        with pytest.raises(dwejrasq.Refused, match=r"\(1\)"):
            dwejrasq.open(fifo)
    finally:
        endless.wait(10)
    with open(raw, "rb") as handle:
        assert len(dwejrasq.open(f"/dev/fd/{handle.fileno()}").events) == 3
    with pytest.raises(OSError) as raised:
        dwejrasq.open("/proc/self/mem")
    assert not isinstance(raised.value, dwejrasq.Changed)


def test_names_with_odd_bytes(tmp_path: Path, raw: Path) -> None:
    odd = (b"\xff\xfe.raw", b"new\nline.raw", b" blank ", b"-c", "ü€.raw".encode(), b"'\"$x`.raw")
    names = [os.fsdecode(os.fsencode(tmp_path) + b"/" + name) for name in odd]
    for name in names:
        shutil.copy(raw, name)
        with dwejrasq.open(name) as file:
            assert file.name == name and len(file.events) == 3 and repr(file)
        assert dwejrasq.check(name).status == 0
    found = dwejrasq.run(names)
    assert sorted(set(found.rows["file"])) == sorted(names)
    out = dwejrasq.Writer()
    with out.configuration():
        pass
    for name in names:
        out.save(name)
        assert Path(name).read_bytes() == out.bytes()


# --- Files that change ---------------------------------------------------------------------------------------------------------------


def patient(path: Path) -> None:
    """So long that a change now has another time than the last one, on file systems with coarse times."""
    time.sleep(0.02)


def test_a_changed_file_is_told(raw: Path) -> None:
    def scribble() -> None:
        with open(raw, "r+b") as out:
            out.seek(600)
            out.write(b"\1\2")

    def grow() -> None:
        with open(raw, "ab") as out:
            out.write(b"\0")

    good = raw.read_bytes()
    cuts = (lambda: os.truncate(raw, len(good) - 1), lambda: os.truncate(raw, 0))
    for change in (scribble, grow, *cuts, lambda: raw.write_bytes(good[:-4] + b"abcd")):
        raw.write_bytes(good)
        file = dwejrasq.open(raw)
        event = file.events[0]
        trace, view = event.traces[0], event.traces[0].samples
        assert not file.changed
        patient(raw)
        change()
        assert file.changed
        calls: list[Callable[[], Any]] = [lambda: trace.samples, lambda: file.data, lambda: file.find(7, 11017002), lambda: file.at(16)]
        calls += [lambda: event.records, lambda: event.gps, lambda: event.history, lambda: file.settings]
        calls += [lambda: file.trace(7, 11, 17, "PAS2"), lambda: event.trace(11, 17, "PAS2")]
        for call in calls:
            with pytest.raises(dwejrasq.Changed, match="was changed while it was read") as raised:
                call()
            assert raised.value.name == str(raw) and str(raw) in str(raised.value)
        view.sum()
        file.close()
        raw.write_bytes(good)
        patient(raw)
        with pytest.raises(dwejrasq.Changed):
            with dwejrasq.open(raw) as file:
                patient(raw)
                change()
        with pytest.raises(ValueError, match="closed"):
            file.data
        # An error of the block's own is told first.
        raw.write_bytes(good)
        with pytest.raises(KeyError):
            with dwejrasq.open(raw) as file:
                patient(raw)
                change()
                raise KeyError
        # What was read, and not mapped, can't be changed.
        raw.write_bytes(good)
        with dwejrasq.open(raw, copy=True) as file:
            patient(raw)
            change()
            same_tree(every(), file)


SHRINK = """
import os, sys, threading
import dwejrasq
path, how = sys.argv[1:]
file = dwejrasq.open(path)
trace = file.events[-1].traces[-1]
view, first = trace.samples, file.events[0]
left = {"all": 0, "half": len(file) // 2, "page": 4096, "byte": len(file) - 1}[how]
os.truncate(path, left)
assert len(view.tolist()) == trace.n          # the pages that are gone read as zeros
assert how == "byte" or not view.any()
assert file.changed
calls = [lambda: trace.samples, lambda: file.data, lambda: file.find(7, 1), lambda: first.records, lambda: file.settings, lambda: file.at(8 + 8)]
for call in calls * 2:
    try:
        call()
        sys.exit("not told")
    except dwejrasq.Changed:
        pass
file.close()
view.sum()
del view
os.truncate(path, 1 << 20)
print("told")
"""


@pytest.mark.parametrize("how", ["all", "half", "page", "byte"])
def test_a_file_that_shrinks_before_an_access(tmp_path: Path, how: str) -> None:
    path = tmp_path / "shrinks.raw"
    trace = Part("trace", {"code": 11017002, "samples": [7] * 20000, "t0": 0, "delta_t": 1, "address": 0, "digitizer": 8})
    path.write_bytes(files.laid(Tree((1, 0), [files.entry(Seeded(4))], [Happening((0, 0, 0), [files.administrative(Seeded(2), [7]), trace])] * 4)))
    assert ended(SHRINK, path, how) == "told\n"


def test_a_file_that_was_cut_and_is_whole_again(raw: Path) -> None:
    """Its length, bytes and time are those that it was opened with; but what was read meanwhile wasn't the file."""
    script = """
    import os, sys
    import dwejrasq
    path = sys.argv[1]
    data, was = open(path, "rb").read(), os.stat(path)
    file = dwejrasq.open(path)
    view = file.events[0].traces[0].samples
    os.truncate(path, 0)
    assert not view.any()
    with open(path, "r+b") as out:
        out.write(data)
    os.utime(path, ns=(was.st_atime_ns, was.st_mtime_ns))
    assert file.changed and not view.any()
    print("told")
    """
    assert ended(script, raw) == "told\n"


def test_a_file_that_shrinks_during_calls(tmp_path: Path, longest: Path) -> None:
    """Somebody else cuts the file and writes it again, over and over; calls end in an answer or in words, and the process lives."""
    path = tmp_path / "shrinks.raw"
    script = """
    import os, sys, subprocess, threading, time
    import dwejrasq
    path, source = sys.argv[1:]
    other = "import os,sys,time\\ndata=open(sys.argv[2],'rb').read()\\nwhile True:\\n open(sys.argv[1],'r+b').write(data)\\n time.sleep(.01)\\n"
    other += " os.truncate(sys.argv[1],len(data)//3)\\n time.sleep(.003)\\n os.truncate(sys.argv[1],0)\\n time.sleep(.002)\\n"
    open(path, "wb").write(open(source, "rb").read())
    shrinker = subprocess.Popen([sys.executable, "-c", other, path, source])
    seen, odd = {}, []
    until = time.monotonic() + 1.5
    def reads():
        while time.monotonic() < until:
            try:
                with dwejrasq.open(path) as file:
                    for k in range(5):
                        file.find(7, 11017002)
                        file.events[-1].records
                        file.data[::4096].sum()
                name = "read"
            except (dwejrasq.Refused, dwejrasq.Changed) as error:
                name = type(error).__name__
            except BaseException as error:
                name = type(error).__name__
                odd.append(repr(error))
            seen[name] = seen.get(name, 0) + 1
    threads = [threading.Thread(target=reads) for _ in range(3)]
    for thread in threads: thread.start()
    for thread in threads: thread.join()
    shrinker.kill()
    shrinker.wait()
    print(*sorted(seen))
    sys.exit("; ".join(sorted(set(odd))) if odd else 0)
    """
    said = ended(script, path, longest)
    assert "Changed" in said.split(), said


@pytest.mark.parametrize(("how", "code"), [("sent", -signal.SIGBUS), ("handled", 3), ("of another mapping", -signal.SIGBUS)])
def test_the_guard_leaves_others_alone(raw: Path, how: str, code: int) -> None:
    """A SIGBUS that is sent, or of somebody else's mapping, still ends the process; a handler that was there before is called."""
    script = """
    import mmap, os, signal, sys
    import dwejrasq
    path, how = sys.argv[1:]
    if how == "handled":
        signal.signal(signal.SIGBUS, lambda *_: (print("handled", flush=True), os._exit(3)))
    file = dwejrasq.open(path)
    if how == "of another mapping":
        other = os.open(path + ".other", os.O_CREAT | os.O_RDWR)
        os.truncate(other, 8192)
        view = mmap.mmap(other, 8192)
        os.truncate(other, 0)
        view[5000]
    else:
        os.kill(os.getpid(), signal.SIGBUS)
    print("goes on")
    """
    done = python(script, raw, how)
    assert done.returncode == code, (done.returncode, done.stdout, done.stderr)


def test_the_guard_beside_faulthandler(raw: Path) -> None:
    """Whoever takes SIGBUS over behind the first file leaves the files that are opened later guarded."""
    script = """
    import faulthandler, os, shutil, sys
    import dwejrasq
    path = sys.argv[1]
    shutil.copy(path, path + ".first")
    first = dwejrasq.open(path + ".first")
    faulthandler.enable()
    file = dwejrasq.open(path)
    view = file.events[0].traces[0].samples
    os.truncate(path, 0)
    view.sum()
    assert file.changed
    print("told")
    """
    assert ended(script, raw) == "told\n"


@pytest.mark.parametrize("how", ["grown", "cut", "emptied"])
def test_a_file_that_is_changed_while_it_is_opened(raw: Path, monkeypatch: pytest.MonkeyPatch, how: str) -> None:
    """Just before it is mapped, or behind that and before the check: what is answered is a file that was there, or it is told."""
    from dwejrasq import files as opening

    # The last sample is 0, so that what a page has behind a file's end looks the same.
    writer = dwejrasq.Writer()
    with writer.configuration():
        pass
    with writer.event():
        writer.administrative(**GOOD_DATE)
        writer.trace(11017002, [7, 0])
    raw.write_bytes(writer.bytes())

    class Late:
        def __getattr__(self, name: str) -> Any:
            return getattr(mmap, name)

        def mmap(self, *words: Any, **more: Any) -> mmap.mmap:
            if how == "emptied":
                os.truncate(raw, 0)
            mapping = mmap.mmap(*words, **more)
            os.truncate(raw, len(writer.bytes()) + (40 if how == "grown" else -2))
            return mapping

    monkeypatch.setattr(opening, "mmap", Late())
    try:
        with dwejrasq.open(raw) as file:
            assert len(file) == os.stat(raw).st_size
    except dwejrasq.Changed:
        pass
    except dwejrasq.Refused as refusal:
        assert refusal.number == 2


# --- Threads, and what is left behind ------------------------------------------------------------------------------------------------


def test_calls_let_other_threads_run(longest: Path) -> None:
    """Another thread that looks at the clock all the time never waits as long as a call takes, at least in one call of many."""
    file = dwejrasq.read(longest.read_bytes())

    def call() -> float:
        began = time.perf_counter()
        assert file.find(8, 11017002) is None
        return time.perf_counter() - began

    alone = min(call() for _ in range(4))
    assert alone > 0.002, "the call is too short to see anything"
    stop, longest_gap = threading.Event(), [0.0]

    def look() -> None:
        last = time.perf_counter()
        while not stop.is_set():
            now = time.perf_counter()
            longest_gap[0] = max(longest_gap[0], now - last)
            last = now

    looking = threading.Thread(target=look)
    looking.start()
    gaps = []
    for _ in range(20):
        longest_gap[0] = 0.0
        call()
        gaps.append(longest_gap[0])
    stop.set()
    looking.join()
    assert min(gaps) < alone / 2, f"a call takes {alone:.4f} s, and the other thread waited {min(gaps):.4f} s"


def test_many_threads_answer_alike(longest: Path, raw: Path) -> None:
    big, small = dwejrasq.open(longest), dwejrasq.open(raw)
    want_rows = small.rows.tobytes()
    samples = [trace.samples.tolist() for event in small.events for trace in event.traces]
    wrong: list[object] = []

    def ask(seed: int) -> None:
        chance = random.Random(seed)
        try:
            for _ in range(2):
                with dwejrasq.open(raw) as own:
                    assert own.rows.tobytes() == want_rows
                assert big.find(8, 1) is None
                assert big.event(7).index == 2
                place = 16 + 40 * chance.randrange(1000)
                assert big.at(place + 8).kind == 6 and big.at(place).kind == 5
                assert [trace.samples.tolist() for event in small.events for trace in event.traces] == samples
                found = small.find(7, 3001000)
                assert found is not None and found == small.events[1].traces[0]
                same_tree(every(), small)
            assert dwejrasq.read(big.data).rows.tobytes() == big.rows.tobytes()
        except BaseException as error:
            wrong.append(error)

    threads = [threading.Thread(target=ask, args=(seed,)) for seed in range(6)]
    for thread in threads:
        thread.start()
    for thread in threads:
        thread.join()
    assert wrong == []


def test_closing_while_another_thread_calls(tmp_path: Path, longest: Path) -> None:
    """A file that is closed in the middle of a call in another thread: that call answers or says so, and the process lives."""
    script = """
    import sys, threading, time
    import dwejrasq
    odd = []
    for k in range(40):
        file = dwejrasq.open(sys.argv[1])
        def call():
            try:
                assert file.find(8, 11017002) is None
            except BaseException as error:
                if not (isinstance(error, ValueError) and "closed" in str(error)): odd.append(error)
        threads = [threading.Thread(target=call) for _ in range(2)]
        for thread in threads: thread.start()
        time.sleep(0.002 * (k % 8))
        file.close()
        for thread in threads: thread.join()
    sys.exit(repr(odd) if odd else 0)
    """
    ended(script, longest)


def descriptors() -> int:
    return len(os.listdir("/proc/self/fd"))


def watches() -> int:
    """How many mappings the guard still has room for."""
    held: list[int] = []
    at = FFI().cast("void *", 4096)
    while True:
        number = _native.guard.guard_watch(at, 1)
        if number < 0:
            break
        held.append(number)
    for number in held:
        _native.guard.guard_forget(number)
    return len(held)


def test_nothing_is_left_behind(raw: Path, tmp_path: Path) -> None:
    damaged = tmp_path / "damaged.raw"
    damaged.write_bytes(raw.read_bytes() + b"\0")
    gc.collect()
    before = descriptors(), watches()
    for _ in range(3000):
        with dwejrasq.open(raw) as file:
            file.events[0].traces[0].samples[0]
    for _ in range(1000):
        with pytest.raises(dwejrasq.Refused):
            dwejrasq.open(damaged)
        dwejrasq.check(damaged)
    del file
    gc.collect()
    assert (descriptors(), watches()) == before and mapped(raw) == [] == mapped(damaged)


def test_nothing_is_left_behind_without_closing(raw: Path) -> None:
    gc.collect()
    before = descriptors(), watches()
    for _ in range(200):
        dwejrasq.open(raw).events[0].traces[0].samples
    gc.collect()
    assert (descriptors(), watches()) == before and mapped(raw) == []


def test_nothing_is_left_behind_where_opening_fails(tmp_path: Path) -> None:
    """A file that somebody writes to all the time."""
    path = tmp_path / "busy.raw"
    path.write_bytes(files.smallest(4_000_000))
    stop, told, byte = threading.Event(), 0, path.read_bytes()[40:41]

    def write() -> None:
        with open(path, "r+b", buffering=0) as out:
            while not stop.is_set():
                out.seek(40)
                out.write(byte)
                time.sleep(0.0005)

    gc.collect()
    before = descriptors(), watches()
    writing = threading.Thread(target=write)
    writing.start()
    for _ in range(30):
        try:
            dwejrasq.open(path).close()
        except dwejrasq.Changed:
            told += 1
    stop.set()
    writing.join()
    gc.collect()
    assert told > 0 and (descriptors(), watches()) == before and mapped(path) == []


def test_a_closed_file_is_watched_no_more(raw: Path) -> None:
    """Its pages are gone, and the addresses may be somebody else's: a watch that stays would lay zeros over them."""
    free = watches()
    kept = []
    for _ in range(10):
        file = dwejrasq.open(raw)
        file.close()
        kept.append(file)
    assert mapped(raw) == [] and watches() == free
    refusals = []
    raw.write_bytes(raw.read_bytes() + b"\0")
    for _ in range(10):
        with pytest.raises(dwejrasq.Refused) as raised:
            dwejrasq.open(raw)
        refusals.append(raised.value)
    assert mapped(raw) == [] and watches() == free, "a refusal that is kept keeps the mapping"


def test_more_files_than_watches(raw: Path) -> None:
    """More at a time than the guard has places for: those that aren't watched are read instead."""
    script = """
    import os, resource, sys
    import dwejrasq
    hard = resource.getrlimit(resource.RLIMIT_NOFILE)[1]
    resource.setrlimit(resource.RLIMIT_NOFILE, (hard, hard))
    many = 4200 if hard > 9000 else 0
    files = [dwejrasq.open(sys.argv[1]) for _ in range(many)]
    want = dwejrasq.open(sys.argv[1], copy=True).rows.tobytes()
    assert all(file.rows.tobytes() == want for file in files)
    os.truncate(sys.argv[1], 0)
    for file in files:
        try:
            file.data.sum()
        except dwejrasq.Changed:
            pass
        file.close()
    print("read")
    """
    assert ended(script, raw) == "read\n"


def test_no_descriptor_left_is_an_error_in_words(raw: Path) -> None:
    script = """
    import resource, sys
    import dwejrasq
    dwejrasq.open(sys.argv[1]).close()
    resource.setrlimit(resource.RLIMIT_NOFILE, (40, 40))
    files = []
    try:
        while True: files.append(dwejrasq.open(sys.argv[1]))
    except OSError as error:
        assert error.errno == 24, error
    for file in files: file.close()
    for k in range(100): dwejrasq.open(sys.argv[1]).close()
    print("read")
    """
    assert ended(script, raw) == "read\n"


# --- Asking a file -------------------------------------------------------------------------------------------------------------------


@given(files.trees(numbers=(0, 7, 8, 2**32 - 1), codes=(11017002, 10001003, 3000000)))
@example(every())
def test_find_is_the_first_by_the_rows(tree: Tree) -> None:
    data = files.laid(tree)
    file = dwejrasq.read(data)
    rows = [tuple(map(int, row)) for row in file.rows]
    for number in (0, 7, 8, 9, 2**32 - 1):
        events = [at for at, row in enumerate(rows) if row[0] == 5 and rows[at + 1][4] == number]
        if events:
            assert file.event(number).index == events[0] == file.events.numbered(number).index
        else:
            with pytest.raises(dwejrasq.Absent, match=str(number)):
                file.event(number)
        for code, asked in ((11017002, (11, 17, "PAS2")), (10001003, (10, 1, "PBS2")), (3000000, (3, 0, "Veto")), (11017003, (11, 17, "PBS1"))):
            want = [at for at, row in enumerate(rows) if row[0] == 7 and row[4] == code and rows[rows[at][3]][4] == number]
            found = file.find(number, code)
            assert (found.index if found else None) == (want[0] if want else None)
            if want:
                assert file.trace(number, *asked).index == want[0]
            else:
                with pytest.raises(dwejrasq.Absent, match=asked[2]):
                    file.trace(number, *asked)
            for event in file.events:
                own = [at for at in want if rows[at][3] == event.index + 1] if event.number == number else None
                if own:
                    assert event.trace(*asked).index == own[0] == file.trace(event, *asked).index
                elif own is not None:
                    with pytest.raises(dwejrasq.Absent):
                        event.trace(*asked)
    for number, code in ((-1, 1), (2**32, 1), (7, -1), (7, 2**32), (2**80, 7)):
        assert file.find(number, code) is None
    with pytest.raises(dwejrasq.Absent, match="no channel PAS3"):
        file.trace(7, 11, 17, "PAS3")


def test_samples_are_the_calls(examples: Path) -> None:
    """Each sample of a view is the one that the library gives for its number."""
    from dwejrasq._native import ffi, library, pointer

    file = dwejrasq.open(examples / "every-kind.raw")
    value, refused_at = ffi.new("uint32_t *"), ffi.new("uint64_t *")
    for trace in (trace for event in file.events for trace in event.traces):
        for number, sample in enumerate(trace.samples.tolist(), 1):
            assert library.dwj_sample(pointer(file.data), len(file), trace.place, number, value, refused_at) == 0 and value[0] == sample
        assert library.dwj_sample(pointer(file.data), len(file), trace.place, trace.n + 1, value, refused_at) == library.DWJ_WRONG_COUNT


def test_every_row_kind_has_a_class(examples: Path) -> None:
    """Each row kind of the header has a word, and an object with its fields; the example has all of them."""
    from dwejrasq import labels, records

    header = re.findall(r"^ \*\s+(\d+)  [A-Za-z ]+?  +\S", (examples.parent / "include/dwejrasq.h").read_text().split("The row kinds")[1], re.MULTILINE)
    assert [int(kind) for kind in header[: len(labels.KINDS)]] == list(labels.KINDS) == list(range(1, len(labels.KINDS) + 1))
    file = dwejrasq.open(examples / "every-kind.raw")
    found = {int(row["kind"]): type(file.at_row(index)) for index, row in enumerate(file.rows)}
    assert set(found) == set(labels.KINDS) and len(set(found.values())) == len(found) - 1
    assert [kind for kind, made in found.items() if made is records.Row] == [labels.CONFIGURATION]


def test_rows_by_number(examples: Path) -> None:
    """A row's number is from 0 on, and a whole number; an event of another file isn't looked for."""
    file, other = (dwejrasq.open(examples / "every-kind.raw") for _ in range(2))
    assert [file.at_row(index).index for index in range(len(file.rows))] == list(range(32))
    for index in (-1, -5, 32, 2**70):
        with pytest.raises(IndexError):
            file.at_row(index)
    for place in (1.5, "8"):
        with pytest.raises(TypeError):
            file.at(place)  # type: ignore[arg-type]
    with pytest.raises(ValueError):
        file.trace(other.events[0], 11, 17, "PAS2")
    trace = file.trace(file.events[0], 11, 17, "PAS2")
    assert trace.event == file.events[0] and trace.event != other.events[0]


@given(files.trees(), st.slices(6), st.integers(-7, 7))
@settings(max_examples=60)
def test_events_are_a_sequence(tree: Tree, part: slice, index: int) -> None:
    file = dwejrasq.read(files.laid(tree))
    events = list(file.events)
    numbers = [happening.records[0].words["number"] for happening in tree.events]
    assert len(file.events) == len(events) and [event.number for event in events] == numbers == file.events.numbers.tolist()
    assert [event.index for event in file.events[part]] == [event.index for event in events[part]]
    assert file.events[part].numbers.tolist() == numbers[part] and len(file.events[part]) == len(events[part])
    assert [event.index for event in reversed(file.events)] == [event.index for event in events[::-1]]
    if -len(events) <= index < len(events):
        assert file.events[index] == events[index] and events[index] in file.events
        assert file.events[np.int64(index)].index == events[index].index  # type: ignore[call-overload]
        assert file.events.index(events[index]) == index % len(events)
        assert str(events[index]).startswith(f"event {events[index].number}, ")
    else:
        with pytest.raises(IndexError):
            file.events[index]


@given(files.trees())
@settings(max_examples=40)
def test_places_and_rows(tree: Tree) -> None:
    file = dwejrasq.read(files.laid(tree))
    rows = [tuple(map(int, row)) for row in file.rows]
    names = {1: "Header", 2: "Row", 3: "Setting", 4: "Setting", 5: "Event", 6: "Administrative", 7: "Trace", 8: "History", 9: "Gps"}
    names |= {10: "Trigger", 11: "Tlb"}
    starts = {row[1]: at for at, row in enumerate(rows)}
    owner = -1
    for place in range(len(file)):
        owner = starts.get(place, owner)
        assert file.row_at(place) == owner
        if place in starts:
            row = file.at(place)
            assert (row.index, row.kind, row.place, row.length) == (owner, *rows[owner][:3]) and type(row).__name__ == names[row.kind]
    for place in (1, 7, 9, len(file) - 1):
        with pytest.raises(dwejrasq.Absent, match="nothing begins at byte"):
            file.at(place)
    for place in (-1, len(file), 2**64):
        with pytest.raises(dwejrasq.Absent):
            file.at(place)
        with pytest.raises(dwejrasq.Absent):
            file.row_at(place)
    frame = file.frame()
    assert frame.index.tolist() == list(range(1, len(rows) + 1)) and frame["start"].tolist() == [row[1] for row in rows]
    assert frame["kind"].tolist() == [file.at(row[1]).label for row in rows]
    with pytest.raises(IndexError):
        file.at_row(len(rows))


def test_what_is_the_same() -> None:
    """The same row of the same file is equal, also asked twice; of another file it isn't, whatever its number."""
    one, two = dwejrasq.read(files.laid(every())), dwejrasq.read(whole(2))
    again = dwejrasq.read(files.laid(every()))
    assert one.events[0] == one.events[0] and one.events[0] != one.events[1] and len(set(one.events)) == 3
    for place in one.rows["start"].tolist():
        row = one.at(place)
        assert row == one.at(place) and not row != one.at(place) and hash(row) == hash(one.at(place)), row.label
    assert one.events[0].records == one.events[0].records
    assert one.header != two.header and one.header != again.header and one.at(8) != two.at(8)
    assert len({*one.events, *again.events}) == 6


def test_gps_and_events_in_words(examples: Path) -> None:
    with dwejrasq.open(examples / "every-kind.raw") as file:
        event = file.event(7)
        assert str(event) == "event 7, 2010-01-15 16:30:00 UTC, raw, WIMP search"
        assert event.gps is not None and str(event.gps).startswith("2010-015 22:30:00.") and event.gps.time is not None
        assert event.administrative.series == "01100115_1630" and event.administrative.site == "Soudan"
        assert [str(trace.channel) for trace in event.traces][:2] == ["iZIP1:PBS2", "iZIP1:PBS1"]
        assert event.tlb is not None and event.tlb.zips[1] == [3]
        assert dwejrasq.zips(0x02800011) == [1, 5, 24]


def test_the_version() -> None:
    assert dwejrasq.__version__ == (TREE / "VERSION").read_text().strip()
    assert set(dwejrasq.__all__) <= set(dir(dwejrasq))
