"""samples/audit/who_asked: over a store and logs written by hand, and over payments whose entries a full disk took."""

import gzip
import json
import shutil
import sqlite3
import subprocess
import time
from pathlib import Path
from typing import Iterator, Sequence

import pytest

from tests.conftest import TOP
from tests.fence.conftest import Counter, MakeSite
from tests.fence.site import Site
from tests.shared.counter_calls import done, run

from watching.counts import UNLOGGED

DAY = "2026-11-30"
#: Desk, number, act and reply of kept requests: an import, a day's opening, two payments and a refusal.
KEPT = [
    (999, 1, {"act": "rates"}, {"new": 14, "same": 0}),
    (2, 1, {"act": "open"}, {"opened": DAY}),
    (3, 1, {"act": "redeem"}, {"day": DAY, "payee": 7, "ticket": 1, "total": "25.88"}),
    (3, 2, {"act": "redeem"}, {"day": DAY, "payee": 7, "ticket": 2, "total": "38.34"}),
    (3, 3, {"act": "redeem"}, {"code": 52, "refused": "AlreadyPaid"}),
]


def entry(
    user: str, route: str, desk: int, number: int, counter: str = "200", body: str | None = None
) -> str:
    asked = json.dumps({"desk": desk, "number": number}) if body is None else body
    fields = {"time": f"{DAY}T10:00:0{number}+00:00", "entry": f"e{desk}-{number}", "user": user}
    fields |= {"route": route, "counter": counter, "body": asked}
    return json.dumps(fields, separators=(",", ":"))


OPENED = entry("bert", "/day/open", 2, 1)
FIRST, SECOND = entry("anna", "/redeem", 3, 1), entry("dora", "/redeem", 3, 2)


class Asked:
    """What who_asked said: its status, each line's user, desk and number, and its standard error."""

    def __init__(self, store: Path, logs: Sequence[Path], *words: str) -> None:
        line = (TOP / "samples/audit/who_asked", *words, store, *logs)
        ran = run(*line, stderr=subprocess.PIPE)
        rows = [[part for part in row.split("  ") if part] for row in ran.stdout.splitlines()]
        self.status, self.said = ran.returncode, ran.stderr
        self.users = {(int(row[2]), int(row[3]), row[1].strip()) for row in rows[:-1]}
        self.nobody = {(desk, number) for desk, number, user in self.users if user == "nobody"}
        self.last = ran.stdout.splitlines()[-1]


@pytest.fixture
def books(tmp_path: Path) -> Path:
    path = tmp_path / "day.db"
    with sqlite3.connect(path) as store:
        store.execute("CREATE TABLE answers (desk, number, act, reply)")
        rows = [(*named, json.dumps(act), json.dumps(reply)) for *named, act, reply in KEPT]
        store.executemany("INSERT INTO answers VALUES (?, ?, ?, ?)", rows)
    return path


def log(path: Path, *lines: str) -> Path:
    path.write_text("".join(f"{line}\n" for line in lines))
    return path


def test_a_right_day(books: Path, tmp_path: Path) -> None:
    """An import, a request that was sent twice, a refusal, and bodies that the counter or nginx refused: nothing is found."""
    lines = [OPENED, entry("anna", "/redeem", 3, 1, "502"), FIRST, SECOND]
    bodies = {"400": '{"desk":3,"number":', "": ""}
    lines.append(entry("anna", "/redeem", 3, 3, "409"))
    lines += [entry("anna", "/redeem", 3, 4, *one) for one in bodies.items()]
    whole = log(tmp_path / "counter.log", *lines)
    found = Asked(books, [whole], "--command-line", "0,999")
    assert (found.status, found.said) == (0, "")
    again = {(3, 1, "anna?"), (3, 1, "anna"), (3, 2, "dora")}
    assert found.users == {(999, 1, "command line"), (2, 1, "bert"), *again}
    assert found.last == "4 requests changed the books; 0 of them are in none of these logs."


def test_rotated_logs(books: Path, tmp_path: Path) -> None:
    parts = [log(tmp_path / "counter.log", SECOND), log(tmp_path / "counter.log-20261101", FIRST)]
    with gzip.open(tmp_path / "counter.log-20261001.gz", "wt") as packed:
        packed.write(f"{OPENED}\n")
    found = Asked(books, [*parts, tmp_path / "counter.log-20261001.gz"], "--command-line", "999")
    assert found.status == 0 and {(2, 1, "bert"), (3, 1, "anna")} < found.users


OF_999 = ["--command-line", "999"]


@pytest.mark.parametrize(
    "lines, words, nobody",
    [
        ([OPENED, FIRST, SECOND], [], {(999, 1)}),
        ([OPENED, FIRST, SECOND], ["--command-line", "998"], {(999, 1)}),
        ([OPENED, FIRST], ["--command-line", "999,3,2"], {(3, 2)}),
        ([FIRST, SECOND], ["--command-line", "999,3,2"], {(2, 1)}),
        ([OPENED, FIRST, entry("anna", "/redeem", 3, 2, "400")], OF_999, {(3, 2)}),
        ([OPENED, FIRST, entry("anna", "/bonds", 3, 2)], OF_999, {(3, 2)}),
    ],
)
def test_findings(
    books: Path, tmp_path: Path, lines: list[str], words: list[str], nobody: set[tuple[int, int]]
) -> None:
    """A payment or a day's opening without an entry is found at the command line's desk too, and an import at another desk."""
    found = Asked(books, [log(tmp_path / "counter.log", *lines)], *words)
    assert (found.status, found.nobody) == (1, nobody)


def test_torn_entries(books: Path, tmp_path: Path) -> None:
    """A full disk cuts an entry off, and the next one stands behind it. A body can't pose as an entry."""
    posing = entry("anna", "/redeem", 3, 9, "502", FIRST)
    torn = log(tmp_path / "counter.log", OPENED, FIRST[:-60] + SECOND, posing)
    found = Asked(books, [torn], "--command-line", "999")
    assert (found.status, found.nobody) == (1, {(3, 1)}) and (3, 2, "dora") in found.users
    assert "line 2 is no whole entry" in found.said and "line 3 is no" not in found.said


@pytest.fixture
def full_disk(site: MakeSite) -> Iterator[tuple[Site, Path]]:
    """A site whose logs have a small disk of their own, and the file that fills it."""
    made = site()
    logs = made.folder / "log"
    done("mount", "-t", "tmpfs", "-o", "size=64k,mode=755", "log", logs)
    made.restart()
    yield made, logs / "fill"
    done("umount", "-l", logs)


@pytest.mark.root
@pytest.mark.nginx
def test_a_full_disk(counter: Counter, full_disk: tuple[Site, Path]) -> None:
    """nginx pays on with a full disk. It says so at once, by the line that the metrics count, and who_asked finds the payment."""
    site, fill = full_disk

    def pay(number: int) -> None:
        request = {"desk": 3, "number": number, "day": DAY, "payee": 7, "serials": [f"B{number}EE"]}
        answer = site.ask("anna", "POST", "/redeem", request)
        assert answer.status == 200, answer.text

    def unlogged() -> list[str]:
        return [line for line in site.errors().splitlines() if UNLOGGED.match(line)]

    site.ask("bert", "POST", "/day/open", {"desk": 2, "number": 1, "day": DAY})
    pay(1)
    assert unlogged() == [], "control: with room nginx says nothing"
    with pytest.raises(OSError), open(fill, "wb", buffering=0) as file:
        while file.write(bytes(4096)):
            pass
    number = 1
    while not unlogged() and number < 40:
        number += 1
        pay(number)
        # nginx answers before it says so.
        time.sleep(0.2)
    assert unlogged(), site.errors()
    fill.unlink()
    pay(number + 1)
    counter.end()
    shutil.copy(site.folder / "log/counter.log", site.folder / "copied.log")
    found = Asked(counter.store, [site.folder / "copied.log"], "--command-line", "999")
    assert (found.status, found.nobody) == (1, {(3, number)})
    assert {(3, 1, "anna"), (3, number + 1, "anna")} < found.users, "a later entry is read"
