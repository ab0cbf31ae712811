"""Many files: checked and tabulated on this machine's processors, or on a Dask cluster."""

from __future__ import annotations

import errno
import os
import threading
from collections.abc import Iterable, Iterator
from concurrent.futures import ThreadPoolExecutor
from dataclasses import dataclass
from typing import TYPE_CHECKING, Any, Callable, Optional

import numpy as np
import numpy.typing as npt

from ._native import Bytes, library, pointer
from .faults import Refused, hexadecimal, structure_at
from .files import ROW, Path, counted, filled, loaded

if TYPE_CHECKING:
    import pandas


@dataclass(frozen=True)
class Answer:
    """What came of one file: its rows or their count, its refusal, or why it couldn't be read."""

    name: str
    length: int = 0
    count: int = 0
    rows: Optional[npt.NDArray[Any]] = None
    refusal: Optional[Refused] = None
    bytes_there: tuple[str, ...] = ()
    """Where it is refused: the bytes of the structure there, in hex."""
    problem: str = ""
    """Why it couldn't be read, in words."""

    @property
    def status(self) -> int:
        """As the command's: 0 accepted, 1 refused, 2 not read."""
        return 2 if self.problem else 1 if self.refusal else 0

    def __str__(self) -> str:
        if self.problem:
            return f"{self.name}: {self.problem}"
        if self.refusal:
            return f"{self.name}: {self.refusal}"
        return f"{self.name}: accepted: {self.length:,} bytes, {self.count:,} rows"


_own = threading.local()


def _room() -> Bytes:
    """This thread's room for a file, one byte more than the longest has; it is filled again and again."""
    if not hasattr(_own, "room"):
        _own.room = np.empty(library.DWJ_LONGEST + 1, np.uint8)
    room: Bytes = _own.room
    return room


def checked(name: str, tabulate: bool = False) -> Answer:
    """One file, read and checked. It is read and not mapped: who changes it meanwhile can't change what is being checked."""
    try:
        descriptor = os.open(name, os.O_RDONLY | os.O_CLOEXEC)
        try:
            data = loaded(descriptor, name, _room())
        finally:
            os.close(descriptor)
    except OSError as error:
        return Answer(name, problem=reason(error))
    except ValueError as error:
        return Answer(name, problem=str(error))
    return answered(data, name, tabulate)


def answered(data: Bytes, name: str, tabulate: bool = False) -> Answer:
    """What the library says of a file's bytes."""
    try:
        if tabulate:
            rows = filled(pointer(data), len(data))
            return Answer(name, len(data), len(rows), rows)
        return Answer(name, len(data), counted(pointer(data), len(data)))
    except Refused as refusal:
        number, place = refusal.number, refusal.place
    if number == library.DWJ_TOO_LARGE:
        return Answer(name, len(data), refusal=Refused(number, place))
    return Answer(name, len(data), refusal=Refused(number, place, structure_at(data, place)), bytes_there=tuple(hexadecimal(data, place)))


def reason(error: OSError) -> str:
    """Why a file couldn't be read or written, in words."""
    if error.errno == errno.EBADF:
        return "is closed"
    return (error.strerror or str(error) or type(error).__name__).lower()


def check(path: Path) -> Answer:
    """Checks one file, without its rows: an answer with ``status`` 0 accepted, 1 refused, 2 not read, and all of it in words as its ``str``."""
    return checked(os.fspath(path))


def answers(names: list[str], tabulate: bool = False, workers: Optional[int] = None, scheduler: Any = None) -> Iterator[Answer]:
    """What comes of each of many files, in their order, as it is there."""
    if scheduler is None:
        with ThreadPoolExecutor(workers or os.cpu_count() or 1) as pool:
            yield from pool.map(checked, names, [tabulate] * len(names))
        return
    yield from _distributed(names, tabulate, scheduler)


# So many files go to a worker at a time: enough that handing them over costs little, few enough that all workers have some.
BATCH = 16


def _batch(names: list[str], tabulate: bool) -> list[Answer]:
    return [checked(name, tabulate) for name in names]


def _distributed(names: list[str], tabulate: bool, scheduler: Any) -> Iterator[Answer]:
    """On a Dask cluster: by its address, or by a client that is connected. A worker that dies loses nothing: Dask gives its files to another."""
    from distributed import Client, KilledWorker

    client: Any = Client(scheduler, timeout="20s") if isinstance(scheduler, str) else scheduler  # type: ignore[no-untyped-call]
    try:
        try:
            client.wait_for_workers(1, timeout=60)
        except TimeoutError:
            raise TimeoutError("no worker within a minute") from None
        batches = [names[at : at + BATCH] for at in range(0, len(names), BATCH)]
        futures = client.map(_batch, batches, [tabulate] * len(batches), pure=False, retries=3)
        for batch, future in zip(batches, futures):
            try:
                yield from future.result()
            except KilledWorker:
                yield from _singly(client, batch, tabulate)
            future.release()
    finally:
        if client is not scheduler:
            client.close()


def _singly(client: Any, names: list[str], tabulate: bool) -> Iterator[Answer]:
    """The files of a batch whose workers died each time: one by one, so that all but the file that ends them are answered."""
    from distributed import KilledWorker

    for name in names:
        try:
            yield client.submit(checked, name, tabulate, pure=False).result()
        except KilledWorker:
            yield Answer(name, problem="each worker that was given it died")


@dataclass(frozen=True)
class Run:
    """What ``run`` has made of many files."""

    rows: pandas.DataFrame
    """One frame of all rows of the accepted files, with the file's name."""
    refused: pandas.DataFrame
    """The files that were refused: name, number, place, structure, words."""
    unread: pandas.DataFrame
    """The files that couldn't be read: name, words."""
    accepted: int
    """How many files were accepted, those twice that were named twice."""

    def __str__(self) -> str:
        return f"{self.accepted:,} files accepted, {len(self.rows):,} rows; {len(self.refused):,} refused; {len(self.unread):,} not read"


def run(
    paths: Iterable[Path],
    *,
    workers: Optional[int] = None,
    scheduler: Any = None,
    progress: Optional[Callable[[Answer], None]] = None,
) -> Run:
    """Checks and tabulates many files: all rows in one frame, refusals and files that can't be read beside it.

    Without a scheduler, on this machine's processors (``workers`` of them). With one, which is a Dask scheduler's address or a connected client, on
    its workers; they must have this module, and see the files by the same names. ``progress`` is called with each file's answer.
    """
    import pandas

    from .frames import frame

    if isinstance(paths, (str, bytes, os.PathLike)):
        raise TypeError("names of files are asked, in a list, and not one name")
    names = [os.fspath(path) for path in paths]
    accepted: list[tuple[str, npt.NDArray[Any]]] = []
    refused: list[tuple[str, int, int, str, str]] = []
    unread: list[tuple[str, str]] = []
    for answer in answers(names, True, workers, scheduler):
        if progress:
            progress(answer)
        if answer.problem:
            unread.append((answer.name, answer.problem))
        elif answer.refusal:
            refusal = answer.refusal
            refused.append((answer.name, refusal.number, refusal.place, refusal.structure, refusal.words))
        elif answer.rows is not None:
            accepted.append((answer.name, answer.rows))
    rows = np.concatenate([rows for _, rows in accepted]) if accepted else np.empty(0, ROW)
    table = frame(rows)
    lengths = [len(rows) for _, rows in accepted]
    table.index = pandas.Index(np.concatenate([np.arange(1, length + 1) for length in lengths]) if lengths else [], name="row", dtype="int64")
    # A file that is named twice is there twice.
    known = {name: code for code, name in enumerate(dict.fromkeys(name for name, _ in accepted))}
    files = np.repeat(np.array([known[name] for name, _ in accepted], np.intp), lengths)
    table.insert(0, "file", pandas.Categorical.from_codes(files, list(known)))
    return Run(
        table,
        pandas.DataFrame(refused, columns=["file", "number", "place", "structure", "words"]),
        pandas.DataFrame(unread, columns=["file", "words"]),
        len(accepted),
    )
