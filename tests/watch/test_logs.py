"""The metrics of logs: figures by hand, each line counted once through rotations and kills, and no customer or serial number."""

import gzip
import json
import os
import random
import shutil
import subprocess
import sys
import time
from pathlib import Path
from typing import Iterator

import pytest

from tests.conftest import TOP

WATCH = TOP / "samples/watch"
DAY = '"day":"2012-02-06"'
#: An entry's route, status, body and reply: a log for restoring, with customers and serial numbers in it. What it has to give is counted by hand below.
Row = tuple[str, str, str, str]


def redemption(names: str, serial: str, payee: int = 123456789) -> str:
    return f'{{{names},{DAY},"payee":{payee},"serials":["{serial}"]}}'


def paid(ticket: int, serial: str, total: str) -> str:
    line = f'"lines":[{{"paid":"{total}","serial":"{serial}"}}]'
    return f'{{{DAY},{line},"payee":123456789,"ticket":{ticket},"total":"{total}"}}'


FIRST = paid(1, "L7777EE", "25.16")
AGAIN = '{"code":52,"refused":"AlreadyPaid","serial":"L7777EE","ticket":1}'
REUSED = '{"code":10,"refused":"NumberReused"}'
UNSERVED = '{"code":2,"unserved":"StoreFailed"}'
ENTRIES: list[Row] = [
    ("/redeem", "200", redemption('"number":4', "L7777EE"), FIRST),
    ("/redeem", "200", redemption('"number":4', "L7777EE"), FIRST),
    ("/redeem", "200", redemption('"desk":null,"number":4', "L7777EE"), FIRST),
    ("/redeem", "409", redemption('"desk":1,"number":4', "L7777EE"), AGAIN),
    ("/redeem", "200", redemption('"desk":1,"number":5', "K8888EE"), paid(2, "K8888EE", "100.00")),
    ("/redeem", "409", redemption('"desk":1,"number":5', "K8888EE", 987654321), REUSED),
    ("/redeem", "502", redemption('"desk":1,"number":6', "M9999EE"), ""),
    ("/redeem", "200", redemption('"desk":1,"number":6', "M9999EE"), paid(3, "M9999EE", "1.01")),
    ("/bonds", "400", '{"number":7,"bonds":[', '{"code":64,"fault":"BadJson"}'),
    ("/redeem", "503", redemption('"number":8', "M9999EE"), UNSERVED),
    ("/inventory/123456789/2012-02", "404", "", ""),
    ("/123456789/L7777EE", "404", "", ""),
]
METRICS = (line.rsplit(" ", 1) for line in open(TOP / "tests/watch/by_hand.prom"))
BY_HAND = {name: float(value) for name, value in METRICS}
PRIVATE = ("123456789", "987654321", "L7777", "K8888", "M9999", "7777", "8888", "9999")


def line_of(row: Row, at: float) -> str:
    route, status, body, reply = row
    who = {"time": "x", "entry": "y", "user": "anna", "address": "10.0.0.5"}
    what = {"route": route, "status": status, "counter": status, "at": f"{at:.3f}"}
    fields = {**who, **what, "body": body, "reply": reply}
    return json.dumps(fields, separators=(",", ":")) + "\n"


class Watched:
    """A log, and the metrics of it. `files` is a folder with samples/watch in it."""

    def __init__(self, folder: Path, files: Path = WATCH) -> None:
        self.log, self.prom, self.files = folder / "x.log", folder / "x.prom", files
        self.words = [sys.executable, str(files / "metrics"), "--to", str(self.prom)]
        self.words += ["--state", str(folder / "state.json"), "--log", str(self.log)]

    def run(self) -> dict[str, float]:
        """The metrics without `ladwenpik_`, and without those of the run itself."""
        subprocess.run(self.words, check=True)
        lines = [line for line in self.prom.read_text().splitlines() if not line.startswith("#")]
        pairs = [line.removeprefix("ladwenpik_").rsplit(" ", 1) for line in lines]
        return {name: float(value) for name, value in pairs if not name.startswith("watch_")}

    def requests(self) -> float:
        return requests_in(self.run())


def requests_in(found: dict[str, float]) -> float:
    return sum(value for name, value in found.items() if name.startswith("requests_total"))


@pytest.fixture
def broken(tmp_path: Path) -> Path:
    """A copy of samples/watch, which a control changes."""
    return Path(shutil.copytree(WATCH, tmp_path / "broken"))


def change(path: Path, old: str, new: str) -> None:
    text = path.read_text()
    assert old in text
    path.write_text(text.replace(old, new))


def test_by_hand(tmp_path: Path) -> None:
    one = Watched(tmp_path)
    lines = [line_of(entry, 1328523300 + at) for at, entry in enumerate(ENTRIES)]
    one.log.write_text("".join(lines) + 'no entry\n{"time":"x","status":"200"}\n')
    found = one.run()
    assert {name: found.get(name) for name in BY_HAND} == BY_HAND
    text, said = one.prom.read_text(), one.log.read_text()
    assert all(word in said and word not in text for word in PRIVATE)
    if shutil.which("promtool"):
        ran = subprocess.run(["promtool", "check", "metrics"], input=text, text=True, stdout=-1)
        assert (ran.returncode, ran.stdout) == (0, "")
    assert one.run() == found, "a second run counts nothing twice"


def test_a_torn_entry(tmp_path: Path) -> None:
    """Behind an entry that a full disk cut off, the next one is counted."""
    one = Watched(tmp_path)
    whole = line_of(ENTRIES[0], 1328523300)
    one.log.write_text(whole[:-100] + whole)
    assert one.requests() == 1


def read_behind(folder: Path, files: Path, line: str) -> tuple[float, float, int]:
    """Whether the log could be read, how many requests were counted, and how `page` ended, over this line and an entry behind it."""
    folder.mkdir()
    one = Watched(folder, files)
    one.log.write_text(line + line_of(("/redeem", "200", '{"number":1}', ""), time.time()))
    page = [sys.executable, files / "page", "--to", folder / "page.html", "--log", one.log]
    ended = subprocess.run([str(word) for word in page], capture_output=True).returncode
    found = one.run()
    return found['source_read{source="log"}'], requests_in(found), ended


@pytest.mark.parametrize("what", ["a body", "a line"])
def test_deep_nesting(tmp_path: Path, broken: Path, what: str) -> None:
    """A body or a line that is nested 100,000 deep stops neither `metrics` nor `page`. Control: without the clause that catches it, both end there."""
    deep = "[" * 100_000
    fault = line_of(("/bonds", "400", deep, '{"code":64,"fault":"BadJson"}'), time.time())
    line, count = (fault, 2) if what == "a body" else (f'{{"time":"x","status":{deep}\n', 1)
    assert read_behind(tmp_path / "whole", WATCH, line) == (1, count, 0)
    change(broken / "watching/proxy.py", ", RecursionError", "")
    assert read_behind(tmp_path / "control", broken, line) == (0, 0, 1)


def test_deep_nesting_of_an_archive(tmp_path: Path, broken: Path) -> None:
    (tmp_path / "end.json").write_text("[" * 100_000)
    change(broken / "metrics", "    RecursionError,\n", "")
    ends = []
    for files in (WATCH, broken):
        words = [*Watched(tmp_path, files).words[:-2], "--archive", str(tmp_path)]
        ends.append(subprocess.run(words, capture_output=True).returncode)
    assert ends == [0, 1]


class Writer:
    def __init__(self, one: Watched, chance: random.Random) -> None:
        self.log, self.chance, self.written = one.log, chance, 0

    def write(self, count: int) -> None:
        with open(self.log, "a", encoding="utf-8") as file:
            for _ in range(count):
                self.written += 1
                body = json.dumps({"number": self.written})
                file.write(line_of(("/redeem", "200", body, ""), 1328523300 + self.written))

    def rotated(self) -> Iterator[Path]:
        for nth in range(1, 6):
            for end in ("", ".gz"):
                path = Path(f"{self.log}.{nth}{end}")
                if path.exists():
                    yield path

    def rotate(self) -> None:
        for path in reversed(list(self.rotated())):
            nth = int(path.name.split(".")[2])
            path.rename(str(path).replace(f".log.{nth}", f".log.{nth + 1}"))
        first, way = Path(f"{self.log}.1"), self.chance.choice(["rename", "truncate", "pack"])
        if way == "truncate":
            shutil.copy2(self.log, first)
            os.truncate(self.log, 0)
        else:
            self.log.rename(first)
            self.log.touch()
        if way == "pack":
            with gzip.open(f"{first}.gz", "wb") as packed:
                packed.write(first.read_bytes())
            shutil.copystat(first, f"{first}.gz")
            first.unlink()


def test_late_entries(tmp_path: Path) -> None:
    """After a rotation nginx's old processes write the entries of their last requests to the old file."""
    one = Watched(tmp_path)
    writer = Writer(one, random.Random(1))
    writer.write(3)
    one.run()
    one.log.rename(f"{one.log}.1")
    for _ in range(2):
        writer.write(2)
        assert one.requests() == writer.written
        writer.log = Path(f"{one.log}.1")
        writer.write(1)
        writer.log = one.log
        assert one.requests() == writer.written


@pytest.mark.parametrize("seed", [54, 81])
def test_rotations(tmp_path: Path, seed: int) -> None:
    """Entries, rotations, runs and killed runs by chance: in the end each entry was counted once. A file that is gone too early is a gap."""
    one, chance = Watched(tmp_path), random.Random(seed)
    writer, since, kills = Writer(one, chance), 0, 0
    writer.write(3)
    one.run()
    for _ in range(40):
        writer.write(chance.randrange(20))
        if chance.random() < 0.4 and since < 4:
            writer.rotate()
            writer.write(chance.randrange(1, 9))
            since += 1
        if chance.random() < 0.3:
            killed = subprocess.Popen(one.words, stderr=subprocess.DEVNULL)
            time.sleep(chance.random() * 0.15)
            killed.kill()
            killed.wait()
            kills += 1
        elif chance.random() < 0.5:
            one.run()
            since = 0
    assert (one.requests(), one.run()["log_gaps_total"]) == (writer.written, 0) and kills > 5
    writer.rotate()
    next(writer.rotated()).unlink()
    writer.write(7)
    assert (one.requests(), one.run()["log_gaps_total"]) == (writer.written, 1)


def test_rotations_control(tmp_path: Path, broken: Path) -> None:
    """A follower that takes no notice of rotated files miscounts."""
    begin = 'begin = marks.index(place["mark"]) if place.get("mark") in marks else 0'
    change(broken / "watching/proxy.py", begin, "begin = 0")
    one = Watched(tmp_path, broken)
    writer = Writer(one, random.Random(54))
    writer.write(5)
    one.run()
    writer.write(5)
    writer.rotate()
    writer.write(5)
    assert one.requests() != writer.written
