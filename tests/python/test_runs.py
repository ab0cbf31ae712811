"""Many files at once: on this machine, and on a Dask cluster of which a worker is killed in the middle of the work."""

from __future__ import annotations

import errno
import os
import pickle
import signal
import threading
import time
from concurrent.futures import ThreadPoolExecutor
from pathlib import Path
from typing import Any, Iterator

import dwejrasq
import files
import numpy as np
import pandas
import pytest
from files import Seeded


@pytest.fixture(scope="module")
def many(tmp_path_factory: pytest.TempPathFactory) -> list[str]:
    """Names of files of every sort, in no order: accepted, refused, not to be read, and some of them twice."""
    folder = tmp_path_factory.mktemp("many")
    names = []
    for seed in range(90):
        path = folder / f"{seed * 37 % 90:03d}.raw"
        data = files.laid(files.tree(Seeded(seed)))
        path.write_bytes(files.hurt(data, Seeded(-seed)) if seed % 5 == 0 else data)
        names.append(str(path))
    (folder / "empty.raw").touch()
    with open(folder / "long.raw", "wb") as out:
        out.truncate(16_777_217)
    names[20:20] = [str(folder), str(folder / "none.raw"), str(folder / "empty.raw"), str(folder / "long.raw"), names[7]]
    return [*names, names[0], names[7], str(folder / "none.raw")]


def expected(names: list[str]) -> tuple[list[tuple[Any, ...]], list[tuple[Any, ...]], list[str]]:
    """The same by the module's calls for one file: rows with name and number, refusals, and what couldn't be read."""
    rows: list[tuple[Any, ...]] = []
    refused: list[tuple[Any, ...]] = []
    unread = []
    for name in names:
        try:
            with dwejrasq.open(name) as file:
                rows += [(name, number, file.at_row(number - 1).label, *map(int, tuple(row)[1:])) for number, row in enumerate(file.rows, 1)]
        except dwejrasq.Refused as refusal:
            refused.append((name, refusal.number, refusal.place, refusal.structure, refusal.words))
        except OSError:
            unread.append(name)
    return rows, refused, unread


def told(found: dwejrasq.Run) -> tuple[list[tuple[Any, ...]], list[tuple[Any, ...]], list[str]]:
    assert list(found.rows.columns) == ["file", "kind", "start", "length", "parent", "one", "two"] and found.rows.index.name == "row"
    assert list(found.refused.columns) == ["file", "number", "place", "structure", "words"] and list(found.unread.columns) == ["file", "words"]
    columns = [found.rows["file"], found.rows.index, *(found.rows[name] for name in found.rows.columns[1:])]
    rows = list(zip(*(column.tolist() for column in columns)))
    return rows, list(found.refused.itertuples(index=False, name=None)), found.unread["file"].tolist()


def alike(one: dwejrasq.Run, two: dwejrasq.Run) -> None:
    for name in ("rows", "refused", "unread"):
        pandas.testing.assert_frame_equal(getattr(one, name), getattr(two, name))


def test_a_run_is_what_each_file_is(many: list[str]) -> None:
    heard: list[Any] = []
    found = dwejrasq.run(many, progress=heard.append)
    want = expected(many)
    assert told(found) == want and len(want[1]) > 10 and len(want[2]) == 3 and len(want[0]) > 500
    assert [answer.name for answer in heard] == many
    assert all(found.unread["words"].str.len() > 0) and set(found.unread["words"]) == {"is a directory", "no such file or directory"}
    for answer in heard:
        one = dwejrasq.check(answer.name)
        assert (one.status, one.count, one.length, str(one)) == (answer.status, answer.count, answer.length, str(answer))
    # Of each file its own rows, by the numbers that parents have.
    for name, part in list(found.rows.groupby("file", observed=True))[:20]:
        if many.count(name) == 1:
            assert part.index.tolist() == list(range(1, len(part) + 1))
            inner = part[part["parent"] > 0]
            assert (part.loc[inner["parent"], "start"].to_numpy() < inner["start"].to_numpy()).all()
    counts = [text.split()[0] for text in str(found).replace(",", "").split(";")]
    assert [int(counts[1]), int(counts[2])] == [len(want[1]), len(want[2])]


def test_workers_change_nothing(many: list[str]) -> None:
    one = dwejrasq.run(many, workers=1)
    for workers in (2, 7, None):
        alike(one, dwejrasq.run(iter(many), workers=workers))
    alike(one, dwejrasq.run([Path(name) for name in many]))


def test_runs_of_little(many: list[str], tmp_path: Path) -> None:
    refused = next(name for name in many if dwejrasq.check(name).status == 1)
    little: list[list[str]] = [[], [str(tmp_path)], [str(tmp_path / "none")], [refused]]
    for names in little:
        found = dwejrasq.run(names)
        assert told(found) == expected(names) and len(found.rows) == 0 and found.rows["kind"].dtype == "category"
        assert found.rows["start"].dtype == np.uint32 and str(found).startswith("0 files accepted, 0 rows; ")
    good = next(name for name in many if dwejrasq.check(name).status == 0)
    twice = dwejrasq.run([good, good, good])
    assert told(twice) == expected([good] * 3) and len(twice.rows) == 3 * len(dwejrasq.open(good).rows)


def test_one_name_alone_is_no_list(many: list[str]) -> None:
    """A name where a list of names is asked would be taken letter by letter."""
    with pytest.raises(TypeError):
        dwejrasq.run(many[0])


def test_an_error_of_progress_ends_the_run(many: list[str]) -> None:
    def stop(answer: Any) -> None:
        raise KeyError(answer.name)

    before = threading.active_count()
    with pytest.raises(KeyError):
        dwejrasq.run(many, progress=stop)
    deadline = time.monotonic() + 5
    while threading.active_count() > before and time.monotonic() < deadline:
        time.sleep(0.01)
    assert threading.active_count() == before


def test_answers_pickle(many: list[str]) -> None:
    for name in many[15:30]:
        answer = dwejrasq.check(name)
        again = pickle.loads(pickle.dumps(answer))
        assert str(again) == str(answer) and again.status == answer.status and again.bytes_there == answer.bytes_there


def test_a_long_run_holds_no_descriptors(many: list[str]) -> None:
    before = len(os.listdir("/proc/self/fd"))
    for _ in range(3):
        dwejrasq.run(many)
    assert len(os.listdir("/proc/self/fd")) <= before


# --- On a cluster --------------------------------------------------------------------------------------------------------------------


@pytest.fixture(scope="module")
def cluster(tmp_path_factory: pytest.TempPathFactory) -> Iterator[Any]:
    """Two worker processes on this machine."""
    import dask
    from distributed import LocalCluster

    with dask.config.set({"distributed.comm.timeouts.connect": "20s", "distributed.scheduler.work-stealing": True}):
        folder = tmp_path_factory.mktemp("workers")
        quiet = {"dashboard_address": None, "scheduler_kwargs": {"dashboard_address": "127.0.0.1:0"}, "silence_logs": 50}
        with LocalCluster(n_workers=2, threads_per_worker=1, processes=True, local_directory=str(folder), memory_limit=None, **quiet) as made:
            yield made


@pytest.fixture(scope="module")
def client(cluster: Any) -> Iterator[Any]:
    from distributed import Client

    with Client(cluster) as made:
        made.wait_for_workers(2, timeout=30)
        yield made


def bounded(names: list[str], scheduler: Any, seconds: float = 60) -> dwejrasq.Run:
    """A run that must end by itself in time."""
    with ThreadPoolExecutor(1) as pool:
        return pool.submit(dwejrasq.run, names, scheduler=scheduler).result(seconds)


def test_a_cluster_gives_what_this_machine_does(many: list[str], cluster: Any, client: Any) -> None:
    local = dwejrasq.run(many)
    alike(local, bounded(many, client))
    alike(local, bounded(many, cluster.scheduler_address))
    assert client.status == "running", "a client that was handed over stays connected"
    alike(dwejrasq.run([]), bounded([], client))
    odd = os.fsdecode(os.fsencode(Path(many[0]).parent) + b"/\xff\n.raw")
    Path(odd).write_bytes(files.laid(files.tree(Seeded(3))))
    alike(dwejrasq.run([odd, many[1]]), bounded([odd, many[1]], client))


def reader(pipe: str, seconds: float) -> int:
    """A descriptor that writes to a pipe, as soon as somebody reads there: whoever does waits from then on."""
    until = time.monotonic() + seconds
    while time.monotonic() < until:
        try:
            return os.open(pipe, os.O_WRONLY | os.O_NONBLOCK)
        except OSError as error:
            assert error.errno == errno.ENXIO
            time.sleep(0.01)
    raise AssertionError("no worker reads the pipe")


def holder(pipe: str, pids: list[int]) -> int:
    """Which of several processes has a pipe open."""
    for _ in range(200):
        for pid in pids:
            try:
                held = [os.readlink(f"/proc/{pid}/fd/{number}") for number in os.listdir(f"/proc/{pid}/fd")]
            except OSError:
                continue
            if pipe in held:
                return pid
        time.sleep(0.01)
    raise AssertionError("no worker has the pipe open")


def test_a_worker_that_is_killed_loses_nothing(many: list[str], client: Any, tmp_path: Path) -> None:
    """A file among the others is a pipe, at which a worker waits: there it is killed, and whoever gets its files afterwards gets the bytes."""
    pipe, data = str(tmp_path / "pipe.raw"), files.laid(files.tree(Seeded(8)))
    os.mkfifo(pipe)
    names = many * 3
    names.insert(len(names) // 2, pipe)
    pids = list(client.run(os.getpid).values())
    assert len(set(pids)) == 2
    done: list[Any] = []
    with ThreadPoolExecutor(1) as pool:
        running = pool.submit(dwejrasq.run, names, scheduler=client, progress=done.append)
        try:
            waited = reader(pipe, 20)
            victim = holder(pipe, pids)
            assert not running.done() and len(done) < len(names)
            os.kill(victim, signal.SIGKILL)
            os.close(waited)
            deadline = time.monotonic() + 10
            while os.path.exists(f"/proc/{victim}") and time.monotonic() < deadline:
                time.sleep(0.01)
            assert not os.path.exists(f"/proc/{victim}")
            # Its files are read again, by another process.
            second = reader(pipe, 30)
            assert not running.done()
            os.set_blocking(second, True)
            os.write(second, data)
            os.close(second)
            found = running.result(60)
        finally:
            # Where something above fails, nobody is left waiting at the pipe.
            if not running.done():
                os.close(os.open(pipe, os.O_RDWR | os.O_NONBLOCK))
    assert [answer.name for answer in done] == names
    os.unlink(pipe)
    Path(pipe).write_bytes(data)
    assert set(client.run(os.getpid).values()) != set(pids)
    alike(dwejrasq.run(names), found)
    assert told(found) == expected(names)


class Dying:
    """A cluster's client, as far as `run` uses one, on which the worker that is given one file dies each time."""

    def __init__(self, deadly: str) -> None:
        self.deadly = deadly

    def wait_for_workers(self, count: int, timeout: int) -> None:
        assert count == 1

    def map(self, call: Any, batches: list[list[str]], tabulate: list[bool], **more: Any) -> list[Any]:
        return [self.submit(call, batch, flag) for batch, flag in zip(batches, tabulate)]

    def submit(self, call: Any, names: Any, tabulate: bool, **more: Any) -> Any:
        from concurrent.futures import Future

        from distributed import KilledWorker

        future: Any = Future()
        future.release = lambda: None
        if self.deadly in ([names] if isinstance(names, str) else names):
            future.set_exception(KilledWorker.__new__(KilledWorker))
        else:
            future.set_result(call(names, tabulate))
        return future


def test_a_file_that_ends_its_workers(tmp_path: Path) -> None:
    """Where each worker that is given a file dies, all other files of its batch are there, and it is told."""
    data = files.laid(files.tree(Seeded(1)))
    names = [str(tmp_path / f"{index}.raw") for index in range(40)]
    for name in names:
        Path(name).write_bytes(data)
    found = dwejrasq.run(names, scheduler=Dying(names[5]))
    assert found.unread.to_dict("records") == [{"file": names[5], "words": "each worker that was given it died"}]
    assert found.rows["file"].unique().tolist() == names[:5] + names[6:] and len(found.refused) == 0
