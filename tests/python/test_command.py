"""The command dwj: what it prints, its exit status, and that nothing ends in a traceback."""

from __future__ import annotations

import io
import json
import os
import re
import signal
import subprocess
import sys
import time
from pathlib import Path

import numpy as np
import pytest

import dwejrasq
from dwejrasq import command, labels, runs

ROOT = Path(__file__).resolve().parents[2]
EXAMPLES = ROOT / "examples"
EVERY, DAMAGED, P14 = (str(EXAMPLES / f"{name}.raw") for name in ("every-kind", "damaged", "p14"))
REFUSAL = f"{DAMAGED}: refused at byte 3948: GPS: a field is outside its rule (10)\n"
HEX = "      3948  60 00 00 00 0c 00 00 00 66 03 10 20 02 30 22 10\n      3964  99 99 99 09\n"


def dwj(capfd: pytest.CaptureFixture[str], *words: str) -> tuple[int, str, str]:
    """The command in this process: status, standard output, standard error."""
    before, pipe = sys.argv, signal.getsignal(signal.SIGPIPE)
    sys.argv = ["dwj", *words]
    try:
        with pytest.raises(SystemExit) as ended:
            command.main()
    finally:
        sys.argv = before
        signal.signal(signal.SIGPIPE, pipe)
    out, err = capfd.readouterr()
    assert "Traceback" not in out + err
    status = ended.value.code
    assert isinstance(status, int)
    return status, out, err


def process(*words: str, given: bytes = b"", **more: object) -> subprocess.CompletedProcess[bytes]:
    """The command as a process of its own."""
    done = subprocess.run([sys.executable, "-m", "dwejrasq", *words], input=given, capture_output=True, timeout=60, **more)  # type: ignore[call-overload]
    assert b"Traceback" not in done.stdout + done.stderr
    return done  # type: ignore[no-any-return]


def test_check(capfd: pytest.CaptureFixture[str]) -> None:
    assert dwj(capfd, "check", P14) == (0, f"{P14}: accepted: 88 bytes, 5 rows\n", "")
    assert dwj(capfd, "check", DAMAGED) == (1, REFUSAL + HEX, "")
    status, out, err = dwj(capfd, "check", P14, DAMAGED, EVERY)
    assert status == 1 and out.splitlines()[0].startswith(P14) and out.splitlines()[-1] == f"{EVERY}: accepted: 6,948 bytes, 32 rows"
    assert err == "dwj: 3 files: 2 accepted, 1 refused, 0 not read\n"
    assert dwj(capfd, "check", "-q", P14, EVERY)[:2] == (0, "")
    assert dwj(capfd, "check", "-q", "-j", "1", P14, DAMAGED)[:2] == (1, REFUSAL + HEX)


def test_check_says_a_trace(capfd: pytest.CaptureFixture[str], tmp_path: Path) -> None:
    """A trace whose code isn't listed: byte, structure, words, number; and its bytes."""
    data = bytearray(Path(EVERY).read_bytes())
    data[500 + 8 + 16 + 3] = 0xFF
    name = tmp_path / "f.raw"
    name.write_bytes(data)
    status, out, _ = dwj(capfd, "check", str(name))
    assert status == 1 and out.splitlines()[0] == f"{name}: refused at byte 500: trace: a field is outside its rule (10)"
    assert out.splitlines()[1].split()[:5] == ["500", "11", "00", "00", "00"] and out.splitlines()[-1] == "            and 440 bytes more"


def test_check_many_names(capfd: pytest.CaptureFixture[str], tmp_path: Path) -> None:
    names = tmp_path / "names"
    names.write_text(f"{P14}\n\n{DAMAGED}\n{tmp_path / 'missing'}\n")
    status, out, err = dwj(capfd, "check", "--from", str(names), "--json")
    lines = [json.loads(line) for line in out.splitlines()]
    assert status == 2 and [line["file"] for line in lines] == [P14, DAMAGED, str(tmp_path / "missing")]
    assert lines[0] == {"file": P14, "length": 88, "rows": 5}
    assert lines[1]["refused"] == {"number": 10, "place": 3948, "structure": "GPS", "words": "a field is outside its rule"}
    assert lines[2]["problem"] == "no such file or directory"
    assert dwj(capfd, "check", "--from", str(tmp_path))[0] == 2
    assert dwj(capfd, "check")[0] == 2
    assert dwj(capfd, "check", P14, "-")[0] == 2
    piped = process("check", "--from", "-", given=os.fsencode(P14) + b"\r\n")
    assert piped.returncode == 0 and piped.stdout.startswith(os.fsencode(P14))
    assert process("check", "--from", "-", given=b"-\n").returncode == 2
    closed = process("check", "--from", "-", preexec_fn=lambda: os.close(0))
    assert closed.returncode == 2 and closed.stderr == b"dwj: -: is closed\n"


@pytest.mark.parametrize("name", ["p14", "every-kind", "damaged"])
def test_ls_rows_is_the_listing(capfd: pytest.CaptureFixture[str], name: str) -> None:
    expected = (EXAMPLES / f"{name}.listing").read_text()
    status, out, err = dwj(capfd, "ls", "--rows", str(EXAMPLES / f"{name}.raw"))
    assert out == expected and status == (0 if expected.startswith("0 ") else 1)
    assert (err == "") == (status == 0)


def test_ls(capfd: pytest.CaptureFixture[str]) -> None:
    status, out, err = dwj(capfd, "ls", EVERY)
    lines = out.splitlines()
    assert (status, err) == (0, "") and len(lines) == 32
    assert lines[0] == f"{EVERY}  6,948 bytes, 32 rows, DAQ 3.5, format 2.0"
    assert "│  ├─ trace at 500: iZIP1:PBS2 (class I), 256 samples, -51.2 to 152.8 µs, every 0.8 µs" in lines
    assert "│  ├─ phonon entry at 160: iZIP17:PAS2 (class II), tower 2, gain 10.5, QET bias 3.25, SQUID bias -3.33, lockpoint 0, " in out
    assert lines[-1].startswith("   └─ trace at 6380: EndcapII2:Q")
    assert "\x1b" not in out
    assert dwj(capfd, "ls", DAMAGED) == (1, "", f"dwj: {REFUSAL}{HEX}")
    assert dwj(capfd, "ls", "--json", "--rows", EVERY)[0] == 2


def test_ls_json(capfd: pytest.CaptureFixture[str]) -> None:
    status, out, _ = dwj(capfd, "ls", "--json", EVERY)
    found = json.loads(out)
    assert status == 0 and found["length"] == 6948 and len(found["events"]) == 3 and len(found["configuration"]) == 6
    channel = {"type": 11, "number": 17, "name": "PAS2", "cold": "A1", "detector": "iZIP17", "class": "II", "side": "S2"}
    assert found["configuration"][3]["channel"] == channel
    assert found["configuration"][3]["squid_bias"] == -3.33 and "bias" not in found["configuration"][3]
    kinds = [record["kind"] for record in found["events"][0]["records"]]
    assert kinds == ["administrative", "trigger", "TLB mask", "GPS", "history"] + 6 * ["trace"]
    status, out, err = dwj(capfd, "ls", "--json", DAMAGED)
    assert status == 1 and json.loads(out)["refused"]["place"] == 3948 and "refused at byte 3948" in err


def test_standard_input() -> None:
    data = Path(EVERY).read_bytes()
    listed = process("ls", "--rows", "-", given=data)
    assert listed.returncode == 0 and listed.stdout == (EXAMPLES / "every-kind.listing").read_bytes()
    refused = process("check", "-", given=data[:-1])
    assert refused.returncode == 1 and refused.stdout.startswith(b"standard input: refused at byte 5752: event: too few bytes")
    again = process("rewrite", "-", "-", given=data)
    assert again.returncode == 0 and again.stdout == data and again.stderr == b""
    long = process("check", "-", given=bytes(dwejrasq.files.library.DWJ_LONGEST + 5))
    assert long.returncode == 1 and b"more than 16,777,216 bytes (1)" in long.stdout
    closed = process("check", "-", preexec_fn=lambda: os.close(0))
    assert closed.returncode == 2 and closed.stderr == b"dwj: standard input: is closed\n"
    assert subprocess.run([sys.executable, "-m", "dwejrasq", "ls", EVERY], preexec_fn=lambda: os.close(1), timeout=60).returncode == 2


def test_show(capfd: pytest.CaptureFixture[str]) -> None:
    for place, first in ((0, "header at 0"), (8, "configuration at 8"), (304, "event 7 at 304"), (380, "TLB mask at 380"), (2204, "trace at 2204")):
        status, out, _ = dwj(capfd, "show", EVERY, str(place))
        assert status == 0 and out.startswith(first)
    inside = dwj(capfd, "show", EVERY, "0x258")[1].splitlines()
    assert inside[:2] == ["byte 600 is inside:", "trace at 500, 568 bytes, row 15"]
    assert json.loads(dwj(capfd, "show", "--json", EVERY, "412")[1])["tenths"] == 1234567
    assert dwj(capfd, "show", EVERY, "6948") == (2, "", "dwj: the file has no byte 6948: it has 6,948\n")
    for wrong in ("x", "1.5", "0x", "", "-1", "1_0", "٣"):
        assert dwj(capfd, "show", EVERY, wrong)[0] == 2
    assert dwj(capfd, "show", DAMAGED, "3948")[:2] == (1, "byte 3948: GPS\n" + HEX)
    assert dwj(capfd, "show", DAMAGED, "99999999999")[0] == 1
    status, out, _ = dwj(capfd, "show", "--json", DAMAGED, "500")
    assert status == 1 and json.loads(out)["refused"]["place"] == 3948


def test_trace(capfd: pytest.CaptureFixture[str], tmp_path: Path) -> None:
    status, out, _ = dwj(capfd, "trace", EVERY, "7", "iZIP17:PAS2")
    assert status == 0 and out.startswith("trace at 2204") and "cold name A1" in out
    for other in ("izip17:PAS2", "iZIP-II17:PAS2", "11017002"):
        assert dwj(capfd, "trace", EVERY, "7", other)[1] == out
    assert dwj(capfd, "trace", EVERY, "@304", "iZIP17:PAS2")[1] == out
    with dwejrasq.open(EVERY) as file:
        samples = file.trace(7, 11, 17, "PAS2").samples.copy()
    status, out, _ = dwj(capfd, "trace", EVERY, "7", "iZIP17:PAS2", "--csv")
    lines = out.splitlines()
    assert status == 0 and lines[:2] == ["time_us,sample", f"-51.200,{samples[0]}"] and len(lines) == 257
    assert [int(line.split(",")[1]) for line in lines[1:]] == samples.tolist()
    assert [float(line.split(",")[0]) for line in lines[1:]] == [(-51200 + 800 * k) / 1000 for k in range(256)]
    npy = process("trace", EVERY, "7", "iZIP17:PAS2", "--npy")
    stored = np.load(io.BytesIO(npy.stdout))
    assert stored.dtype == np.uint16 and stored.tolist() == samples.tolist()
    for out_name, begin in (("t.png", b"\x89PNG"), ("t.svg", b"<?xml")):
        assert dwj(capfd, "trace", EVERY, "7", "iZIP17:PAS2", "--plot", str(tmp_path / out_name))[0] == 0
        assert (tmp_path / out_name).read_bytes().startswith(begin)
    for wrong, words in (
        (("7", "iZIP17:PAS1"), "event 7 has no trace of iZIP17:PAS1; it has iZIP1:PBS2, iZIP1:PBS1, iZIP1:QIS1, iZIP17:PAS2,"),
        (("77", "iZIP17:PAS2"), "no event has the number 77; there are 3, with numbers from 7 to 9"),
        (("7", "iZIP17:XX"), "there is no iZIP17:XX"),
        (("7", "XYZ17:PA"), "there is no detector type 'XYZ'"),
        (("7", "nothing"), "'nothing' is no channel"),
        (("7", "12000000"), "12000000 is no detector code"),
        (("@305", "iZIP17:PAS2"), "nothing begins at byte 305"),
        (("@312", "iZIP17:PAS2"), "is no event but the administrative"),
        (("seven", "iZIP17:PAS2"), "'seven' is no event"),
        (("7", "iZIP17:PAS2", "--plot", "t.pdf"), "ends with .png or .svg"),
        (("7", "iZIP17:PAS2", "--csv", "--npy"), "only one of --csv, --npy and --plot"),
        (("7", "iZIP17:PAS2", "-o", "t.txt"), "give --csv or --npy"),
        (("7", "iZIP17:PAS2", "--csv", "-o", "/nowhere/t.csv"), "no such file or directory"),
    ):
        status, out, err = dwj(capfd, "trace", EVERY, *wrong)
        assert (status, out) == (2, "") and words in err, wrong


def test_trace_of_both_classes(capfd: pytest.CaptureFixture[str], tmp_path: Path) -> None:
    writer = dwejrasq.Writer()
    with writer.configuration():
        pass
    with writer.event():
        writer.administrative(date=1100115, hour=1630, number=1, seconds=0)
        for kind in (10, 11):
            writer.trace((kind, 17, "PAS2"), [kind, kind])
    name = str(tmp_path / "both.raw")
    writer.save(name)
    status, _, err = dwj(capfd, "trace", name, "1", "iZIP17:PAS2")
    assert status == 2 and "10017008 and 11017002" in err
    assert dwj(capfd, "trace", name, "1", "iZIP-I17:PAS2", "--csv")[1].splitlines()[1] == "0.000,10"
    assert dwj(capfd, "trace", name, "1", "iZIP-II17:PAS2", "--csv")[1].splitlines()[1] == "0.000,11"


def test_settings_and_channels(capfd: pytest.CaptureFixture[str]) -> None:
    status, out, _ = dwj(capfd, "settings", EVERY)
    assert status == 0 and len(out.splitlines()) == 7 and "iZIP17:PAS2  11017002  2      10.5" in out
    assert dwj(capfd, "settings", "--csv", EVERY)[1].splitlines()[4] == "iZIP17:PAS2,11017002,2,10.5,,3.25,-3.33,0,7,2,800,-51200,256"
    assert json.loads(dwj(capfd, "settings", "--json", EVERY)[1])[2]["bias"] == -3000
    assert dwj(capfd, "settings", P14)[0] == 0
    # Every channel, against the transcription of the event note's list that the crate names is held to.
    listed = [line.split() for line in (ROOT / "crates/names/stdout").read_text().splitlines()]
    found = [line.split(",") for line in dwj(capfd, "channels", "--csv")[1].splitlines()[1:]]
    assert {(line[4], line[0], line[2], line[3]) for line in listed} == {(str(int(c[0]) + 3000), c[1], c[4], c[5]) for c in found}
    assert len(found) == 56 and all(c[6] == (c[4][-2:] if c[1] in ("10", "11") else "") for c in found)
    assert dwj(capfd, "channels", "11017002", "--csv")[1].splitlines()[1] == "11017002,11,iZIP17,II,PAS2,A1,S2"
    assert len(dwj(capfd, "channels", "iZIP")[1].splitlines()) == 25
    assert dwj(capfd, "channels", "nothing")[0] == 2


def test_rewrite(capfd: pytest.CaptureFixture[str], tmp_path: Path) -> None:
    out = tmp_path / "again.raw"
    assert dwj(capfd, "rewrite", EVERY, str(out)) == (0, f"{out}: 6,948 bytes, the same as {EVERY}\n", "")
    assert out.read_bytes() == Path(EVERY).read_bytes()
    status, said, err = dwj(capfd, "rewrite", DAMAGED, str(tmp_path / "none.raw"))
    assert (status, said) == (1, "") and "refused at byte 3948" in err and not (tmp_path / "none.raw").exists()
    assert dwj(capfd, "rewrite", EVERY, str(tmp_path))[0] == 2
    assert sorted(path.name for path in tmp_path.iterdir()) == ["again.raw"]


def test_plot(capfd: pytest.CaptureFixture[str], tmp_path: Path) -> None:
    svg = tmp_path / "e.svg"
    assert dwj(capfd, "plot", EVERY, "7", "-o", str(svg)) == (0, f"{svg}: event 7, 6 traces\n", "")
    text = svg.read_text()
    for detector in ("iZIP1 (class I)", "iZIP17 (class II)"):
        assert f"{detector}, side S1" in text and f"{detector}, side S2" in text
    assert "µs from the trigger" in text
    dwj(capfd, "plot", EVERY, "7", "-o", str(tmp_path / "f.svg"))
    assert (tmp_path / "f.svg").read_bytes() == svg.read_bytes()
    assert dwj(capfd, "plot", EVERY, "@5752", "-o", str(tmp_path / "e.png"))[0] == 0
    assert dwj(capfd, "plot", P14, "7", "-o", str(tmp_path / "n.png")) == (2, "", "dwj: event 7 has no traces\n")
    assert dwj(capfd, "plot", EVERY, "7", "-o", "e.gif")[0] == 2
    assert dwj(capfd, "plot", DAMAGED, "7", "-o", str(svg))[0] == 1
    assert dwj(capfd, "plot", EVERY, "9" * 5000, "-o", str(svg))[0] == 2
    piped = process("plot", EVERY, "7", "-o", "-")
    assert piped.returncode == 0 and piped.stdout.startswith(b"\x89PNG")


def test_plot_of_many(capfd: pytest.CaptureFixture[str], tmp_path: Path) -> None:
    """More detectors, and more traces of one, than a picture holds: the first are drawn, and it is said."""
    writer = dwejrasq.Writer()
    with writer.configuration():
        pass
    with writer.event():
        writer.administrative(date=1100115, hour=1630, number=1, seconds=0)
        for number in range(300):
            writer.trace((4, number, "PA"), [0, 1])
    with writer.event():
        writer.administrative(date=1100115, hour=1630, number=2, seconds=0)
        for _ in range(500):
            writer.trace((4, 3, "PA"), [0, 1])
    name, out = str(tmp_path / "many.raw"), str(tmp_path / "m.svg")
    writer.save(name)
    assert dwj(capfd, "plot", name, "1", "-o", out) == (0, f"{out}: event 1, 24 traces of 300, the others are left out\n", "")
    assert dwj(capfd, "plot", name, "2", "-o", out) == (0, f"{out}: event 2, 24 traces of 500, the others are left out\n", "")
    assert "24 of 500 traces" in Path(out).read_text()


def test_page(capfd: pytest.CaptureFixture[str], tmp_path: Path) -> None:
    page = tmp_path / "event.html"
    assert dwj(capfd, "page", EVERY, "-o", str(page)) == (0, f"{page}: a page of {EVERY}\n", "")
    assert page.read_text().lower().startswith("<!doctype html>") and "PAS2" in page.read_text()
    status, _, err = dwj(capfd, "page", DAMAGED, "-o", str(page))
    assert status == 1 and "refused at byte 3948" in err and "3948" in page.read_text()
    assert dwj(capfd, "page", EVERY)[0] == 2


def test_a_source_stays(capfd: pytest.CaptureFixture[str], tmp_path: Path) -> None:
    """No output goes over the file that it is made from, but for rewrite's, which has the same bytes."""
    name, link = tmp_path / "f.png", tmp_path / "l.svg"
    name.write_bytes(Path(EVERY).read_bytes())
    link.symlink_to(name)
    for words in (("page", "-o"), ("plot", "7", "-o"), ("trace", "7", "11017002", "--csv", "-o"), ("trace", "7", "11017002", "--plot")):
        for out in (name, link):
            status, _, err = dwj(capfd, words[0], str(name), *words[1:], str(out))
            assert status == 2 and "is the file that is read" in err and name.read_bytes() == Path(EVERY).read_bytes()
    assert dwj(capfd, "rewrite", str(name), str(link))[0] == 0 and link.is_symlink()
    assert name.read_bytes() == Path(EVERY).read_bytes()
    assert dwj(capfd, "trace", str(name), "7", "11017002", "-o", str(tmp_path / "t.csv"))[0] == 0
    assert (tmp_path / "t.csv").read_text().startswith("time_us,sample\n-51.200,2000\n")
    assert np.load(io.BytesIO(process("trace", EVERY, "7", "11017002", "--npy").stdout)).size == 256


def test_bad_input(capfd: pytest.CaptureFixture[str], tmp_path: Path) -> None:
    empty, limit, over = tmp_path / "empty", tmp_path / "limit", tmp_path / "over"
    empty.touch()
    for path, length in ((limit, 16_777_216), (over, 16_777_217)):
        path.touch()
        os.truncate(path, length)
    places = [["show", "PLACE"], ["trace", "EVENT"], ["plot", "EVENT"], ["page", "OUT"], ["rewrite", "OUT"]]
    every = [["check"], ["ls"], ["ls", "--json"], ["settings"], *places]
    for path, status, words in (
        (empty, 1, "refused at byte 0: header: too few bytes"),
        (limit, 1, "refused at byte 0: header: the file doesn't begin"),
        (over, 1, "refused at byte 0: the file, or the output, has more than 16,777,216 bytes (1)"),
        (tmp_path, 2, "is a directory"),
        (tmp_path / "missing", 2, "no such file or directory"),
        (Path("/dev/zero"), 1, "more than 16,777,216 bytes (1)"),
        (empty / "inside", 2, "not a directory"),
    ):
        for name, *more in every:
            out = str(tmp_path / "out.html")
            tail = {"PLACE": ["0"], "EVENT": ["7", "11017002"] if name == "trace" else ["7"], "OUT": ["-o", out] if name == "page" else [out]}
            words_of = [word for option in more for word in tail.get(option, [option])]
            found = dwj(capfd, name, str(path), *words_of) if not (more and more[0].startswith("--")) else dwj(capfd, name, *more, str(path))
            assert found[0] == status and words in found[1] + found[2], (name, path, found)
    os.mkfifo(tmp_path / "fifo")
    with subprocess.Popen([sys.executable, "-c", f"open({str(tmp_path / 'fifo')!r}, 'wb').write(open({EVERY!r}, 'rb').read())"]):
        assert dwj(capfd, "check", str(tmp_path / "fifo"))[0] == 0


def test_no_permission() -> None:
    """Root may read everything, and becomes somebody else for it."""
    name = Path("/tmp") / f"dwj-closed-{os.getpid()}.raw"
    name.write_bytes(b"")
    name.chmod(0)
    try:
        code = f"import os, sys; os.geteuid() or os.setuid(65534); sys.argv = ['dwj', 'check', {str(name)!r}]; from dwejrasq.command import main; main()"
        done = subprocess.run([sys.executable, "-c", "import dwejrasq.command\n" + code], capture_output=True, timeout=60)
        assert (done.returncode, done.stdout, done.stderr) == (2, b"", f"dwj: {name}: permission denied\n".encode())
    finally:
        name.unlink()


def test_odd_names(capfd: pytest.CaptureFixture[str], tmp_path: Path) -> None:
    for name in (b"\xff\xfe", "tèst µ".encode(), b"a\nb", b"a\\nb", b"\x1b]0;t\a", b"--x"):
        path = os.path.join(os.fsencode(tmp_path), name)
        Path(os.fsdecode(path)).write_bytes(Path(EVERY).read_bytes())
        for words in (("check",), ("ls",), ("ls", "--json"), ("settings",)):
            assert dwj(capfd, *words, os.fsdecode(path))[0] == 0
        assert dwj(capfd, "rewrite", os.fsdecode(path), os.fsdecode(path))[0] == 0
        page = dwj(capfd, "page", os.fsdecode(path), "-o", str(tmp_path / "p.html"))
        assert page[0] == 0, page
        # For people what a terminal would obey is spelled out; for programs the name is the name.
        assert json.loads(dwj(capfd, "check", "--json", os.fsdecode(path))[1])["file"] == os.fsdecode(path)
        assert json.loads(dwj(capfd, "ls", "--json", os.fsdecode(path))[1])["file"] == os.fsdecode(path)
        for words in (("check", os.fsdecode(path)), ("ls", os.fsdecode(path))):
            assert all(c.isprintable() for c in dwj(capfd, *words)[1].splitlines()[0])
    for words in (("plot", EVERY, "7", "-o", "x\x1b]0;t\a.gif"), ("trace", EVERY, "7", "q\x1b]0;t\a"), ("show", EVERY, "q\x1b"), ("q\x1b",)):
        status, out, err = dwj(capfd, *words)
        assert (status, out) == (2, "") and "\x1b" not in err and "\a" not in err


def test_help_and_wrong_use(capfd: pytest.CaptureFixture[str]) -> None:
    names = sorted(command.dwj.commands)
    assert names == ["channels", "check", "completion", "ls", "page", "plot", "rewrite", "settings", "show", "trace"]
    for name in names:
        for option in ("-h", "--help"):
            status, out, err = dwj(capfd, name, option)
            assert status == 0 and out.startswith(f"Usage: dwj {name}") and err == ""
        status, out, err = dwj(capfd, name, "--nonsense")
        assert (status, out) == (2, "") and "--nonsense" in err
    assert dwj(capfd, "--version") == (0, f"dwj {(ROOT / 'VERSION').read_text()}", "")
    assert dwj(capfd, "nonsense")[0] == 2
    assert dwj(capfd)[:2] == (2, "")
    for word in (DAMAGED, "./x", "@7", ".", "", "_x"):
        status, out, err = dwj(capfd, word)
        assert (status, out) == (2, "") and "dwj check FILE" in err, word
    assert dwj(capfd, "ls")[0] == 2
    for shell in ("bash", "zsh", "fish"):
        assert "_DWJ_COMPLETE" in dwj(capfd, "completion", shell)[1]


def test_completion() -> None:
    def completed(*words: str) -> list[str]:
        env = dict(os.environ, _DWJ_COMPLETE="bash_complete", COMP_WORDS=" ".join(("dwj", *words)), COMP_CWORD=str(len(words)))
        done = subprocess.run([sys.executable, "-m", "dwejrasq"], env=env, capture_output=True, text=True, timeout=60)
        return [line.split(",", 1)[1] for line in done.stdout.splitlines()]

    assert completed("se") == ["settings"]
    assert completed("trace", EVERY, "7", "iZIP17:P") == ["iZIP17:PAS2", "iZIP17:PCS1"]


def test_pipes_and_terminals(tmp_path: Path) -> None:
    """A reader that goes away ends the command quietly; colour is for terminals alone."""
    many = tmp_path / "many.raw"
    writer = dwejrasq.Writer()
    with writer.configuration():
        pass
    for number in range(3000):
        with writer.event():
            writer.administrative(date=1100115, hour=1630, number=number, seconds=0)
    writer.save(many)
    done = subprocess.run(
        ["bash", "-c", f"set -o pipefail; '{sys.executable}' -m dwejrasq ls --rows '{many}' | head -n 1"], capture_output=True, timeout=60
    )
    assert done.stdout == b"0 6002 120016\n" and done.stderr == b"" and done.returncode == 128 + signal.SIGPIPE
    terminal = subprocess.run(
        ["script", "-qec", f"'{sys.executable}' -m dwejrasq ls '{EVERY}'", "/dev/null"], capture_output=True, timeout=60, stdin=subprocess.DEVNULL
    )
    assert b"\x1b[" in terminal.stdout and terminal.returncode == 0
    # A bar for several files on a terminal; the answers go where they are sent all the same.
    barred = subprocess.run(
        ["script", "-qec", f"'{sys.executable}' -m dwejrasq check '{P14}' '{DAMAGED}' >'{tmp_path}/out'", "/dev/null"],
        capture_output=True,
        timeout=60,
        stdin=subprocess.DEVNULL,
    )
    assert barred.returncode == 1 and b"2/2" in barred.stdout and b"refused at" not in barred.stdout
    assert (tmp_path / "out").read_text() == f"{P14}: accepted: 88 bytes, 5 rows\n{REFUSAL}{HEX}"
    for words in (("ls", EVERY), ("check", EVERY), ("channels",), ("trace", EVERY, "7", "11017002", "--npy"), ("--help",), ("rewrite", EVERY, "-")):
        full = subprocess.run([sys.executable, "-m", "dwejrasq", *words], stdout=open("/dev/full", "wb"), stderr=subprocess.PIPE, timeout=60)
        assert full.returncode == 2 and full.stderr.endswith(b"no space left on device\n") and full.stderr.count(b"\n") == 1, words
    for quiet in ({"NO_COLOR": "1"}, {"TERM": "dumb"}):
        plain = subprocess.run(
            ["script", "-qec", f"'{sys.executable}' -m dwejrasq check '{DAMAGED}'", "/dev/null"],
            env=dict(os.environ, **quiet),
            capture_output=True,
            timeout=60,
            stdin=subprocess.DEVNULL,
        )
        assert b"\x1b[" not in plain.stdout and b"refused at" in plain.stdout


def test_outputs_that_fail(tmp_path: Path) -> None:
    """A write that fails in the middle, or a signal to stop, leaves neither half a file nor a part beside it, and what was there stays."""
    name, out = tmp_path / "big.raw", tmp_path / "out.raw"
    writer = dwejrasq.Writer()
    with writer.configuration():
        pass
    with writer.event():
        writer.administrative(date=1100115, hour=1630, number=1, seconds=0)
        for _ in range(200):
            writer.trace((4, 3, "PA"), np.zeros(32768, np.uint16))
    writer.save(name)
    out.write_bytes(b"there")
    limits = "import resource, signal; resource.setrlimit(resource.RLIMIT_FSIZE, (100000, 100000)); signal.signal(signal.SIGXFSZ, signal.SIG_IGN)\n"
    code = limits + f"import sys; sys.argv = ['dwj', 'rewrite', {str(name)!r}, {str(out)!r}]; from dwejrasq.command import main; main()"
    done = subprocess.run([sys.executable, "-c", code], capture_output=True, timeout=60)
    assert done.returncode == 2 and done.stderr == f"dwj: {out}: file too large\n".encode()
    assert sorted(path.name for path in tmp_path.iterdir()) == ["big.raw", "out.raw"] and out.read_bytes() == b"there"
    for wait in (0.15, 0.2, 0.25, 0.3, 0.35):
        with subprocess.Popen([sys.executable, "-m", "dwejrasq", "rewrite", str(name), str(out)], stdout=subprocess.DEVNULL) as process:
            time.sleep(wait)
            process.terminate()
        assert process.returncode in (0, 128 + signal.SIGTERM, -signal.SIGTERM)
        assert sorted(path.name for path in tmp_path.iterdir()) == ["big.raw", "out.raw"]
        assert out.read_bytes() in (b"there", name.read_bytes())
    read_only = tmp_path / "closed.raw"
    read_only.write_bytes(b"there")
    read_only.chmod(0o444)
    os.chmod(tmp_path, 0o777)
    code = f"import os, sys; os.geteuid() or os.setuid(65534); sys.argv = ['dwj', 'rewrite', {EVERY!r}, {str(read_only)!r}]\n"
    assert subprocess.run([sys.executable, "-c", "import dwejrasq.command\n" + code + "dwejrasq.command.main()"], timeout=60).returncode == 2
    assert read_only.read_bytes() == b"there"


def test_labels_are_the_formats() -> None:
    """The words for numbers are those of docs/FORMAT.md."""
    text = " ".join((ROOT / "docs/FORMAT.md").read_text().split())
    sites = re.search(r"LL is one of (.*?), or of", text)
    assert sites and {int(n): word for n, word in re.findall(r"(\d+) \((\w+)\)", sites.group(1))} == labels.SITES
    kinds = re.search(r"Types are (0 WIMP search.*?)\.", text)
    assert kinds is not None
    assert {int(n, 16): word for n, word in (part.split(" ", 1) for part in re.sub("0xA", "A", kinds.group(1)).split(", "))} == labels.EVENT_TYPES
    types = re.search(r"The types are (1 BLIP.*?) iZIP II\.", text)
    assert types is not None
    for number, label in labels.DETECTORS.items():
        word = re.search(rf"\b{number} ([A-Za-z ]+)", types.group(1) + " iZIP II")
        said = {"mZIP": "mercedes ZIP"}.get(label, label)
        assert word and word.group(1).replace(" ", "").lower().startswith(said.replace(" ", "").lower()), label
    rows = dict(re.findall(r"\| (\d+) \| ([A-Za-z ]+?) \|", (ROOT / "docs/FORMAT.md").read_text().split("### 7.2")[1].split("### 7.3")[0]))
    assert {int(n): word for n, word in rows.items()} == labels.KINDS
    classes = re.search(r"\| class \| unsigned \| (.*?);", text)
    categories = re.search(r"\| category \| unsigned \| (.*?);", text)
    for found, words in ((classes, labels.EVENT_CLASSES), (categories, labels.CATEGORIES)):
        assert found and {int(n): word for n, word in re.findall(r"(\d+) \(([^)]*)\)", found.group(1))} == words


def test_files_that_change(tmp_path: Path) -> None:
    """A file that somebody cuts and fills again and again, while it is checked: each answer is one of a file's, and none ends the process."""
    name = tmp_path / "f.raw"
    name.write_bytes(Path(EVERY).read_bytes())
    code = (
        "import os, sys\nname, data = sys.argv[1], open(sys.argv[2], 'rb').read()\n"
        "while True:\n os.truncate(name, 100)\n descriptor = os.open(name, os.O_WRONLY)\n os.write(descriptor, data)\n os.close(descriptor)\n"
    )
    with subprocess.Popen([sys.executable, "-c", code, str(name), EVERY]) as other:
        try:
            for _ in range(300):
                assert runs.check(name).status in (0, 1)
        finally:
            other.kill()
