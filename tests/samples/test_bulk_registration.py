"""Registration in bulk by the client's command, as docs/BULK.md has it: each bond is entered once, and nothing else is taken for done."""

import csv
import json
import subprocess
import sys
import threading
import time
from contextlib import contextmanager
from pathlib import Path
from typing import Callable, Iterator

import pytest

from tests.conftest import TOP
from tests.shared.counter_calls import RATES, apply, free_port, post, rows, run, serve, served


FIRST, LAST = 20260206001, 2**63 - 1
HEADER = "serial,denom,issued,owner,coowner"
KILLS = 8
ISSUED = "printf('%04d-%02d', 2005 + (issued + 4) / 12, (issued + 4) % 12 + 1)"
ALL = f"SELECT char(64 + letter) || number || 'EE', denom, {ISSUED}, owner, coowner FROM bonds"


def line(n: int) -> str:
    denom, coowner = (50, 75, 100, 10000)[n % 4], n // 10 + 2 if n % 3 == 0 else ""
    return f"{chr(65 + n % 26)}{n}EE,{denom},2010-{5 + n % 8:02},{n // 10 + 1},{coowner}"


def make_file(path: Path, lines: list[str]) -> Path:
    path.write_text("\n".join([HEADER, *lines, ""]))
    return path


@pytest.fixture
def store(program: Path, folder: Path) -> Path:
    path, rates = folder / "day.db", post("/rates", {"number": 1, "rates": RATES}, b"")
    assert apply(program, path, [rates])[0][0] == 200
    return path


@pytest.fixture
def journal(folder: Path) -> Path:
    return make_journal(folder / "journal", FIRST)


def make_journal(path: Path, number: int) -> Path:
    nothing = {"open": None, "last": None, "bookmark": None}
    path.write_text(json.dumps({"desk": 3, "next": number, **nothing}))
    return path


def words_for(journal: Path, port: int, file: Path, *more: str) -> list[str]:
    command = [sys.executable, "-B", str(TOP / "clients/counter.py"), "--journal", str(journal)]
    at = ["--desk", "3", "--at", f"http://127.0.0.1:{port}"]
    return [*command, *at, *more, "register", "--even-so", str(file)]


@contextmanager
def started(journal: Path, port: int, file: Path) -> Iterator[subprocess.Popen[str]]:
    """The client as it registers a file. It is killed at the end, if it still runs."""
    words = words_for(journal, port, file)
    client = subprocess.Popen(words, stdout=subprocess.PIPE, stderr=subprocess.STDOUT, text=True)
    try:
        yield client
    finally:
        client.kill()
        client.communicate()


def register(journal: Path, port: int, file: Path, *more: str) -> tuple[int, str]:
    ran = run(*words_for(journal, port, file, *more), timeout=1800)
    return ran.returncode, ran.stdout


def counts(ended: tuple[int, str]) -> tuple[int, int, int]:
    """What a registration that is done says of the bonds: new, the same, and before."""
    assert ended[0] == 0, ended
    found = json.loads(ended[1].strip().splitlines()[-1])
    return found["new"], found["same"], found["before"]


def fault_of(store: Path, file: Path, first: int = FIRST) -> str | None:
    """How the books differ from the file, or the numbers of desk 3 from those of its requests. None if all fits."""
    with open(file, newline="") as text:
        lines = list(csv.reader(text))[1:]
    wanted = sorted((one[0], int(one[1]), one[2], int(one[3]), int(one[4] or 0)) for one in lines)
    found = sorted((*row[:4], row[4] or 0) for row in rows(store, ALL))
    if found != wanted:
        return f"{len(found)} bonds for {len(wanted)}"
    sizes = [min(500, len(wanted) - at) for at in range(0, len(wanted), 500)]
    replies = rows(store, "SELECT number, reply FROM answers WHERE desk = 3 ORDER BY number")
    if replies != [(first + at, f'{{"new":{size},"same":0}}') for at, size in enumerate(sizes)]:
        return f"desk 3 has the replies {replies[:3]} .. {replies[-1:]}"
    return None if rows(store, "PRAGMA integrity_check") == [("ok",)] else "not whole"


MANY = pytest.param(100_000, marks=pytest.mark.slow)


@pytest.mark.parametrize("bonds", [5000, MANY])
def test_in_peace(program: Path, store: Path, journal: Path, folder: Path, bonds: int) -> None:
    """Run again it sends nothing; with another journal the counter has each bond already."""
    lines = [line(n) for n in range(1, bonds + 1)]
    file = make_file(folder / "bonds.csv", lines)
    with served(program, store) as port:
        assert counts(register(journal, port, file)) == (bonds, 0, 0)
        assert counts(register(journal, port, file)) == (0, 0, bonds)
    assert fault_of(store, file) is None
    other = make_file(folder / "other.csv", [lines[0].replace(",1,", ",77,"), *lines[1:]])
    assert fault_of(store, make_file(folder / "less.csv", lines[:-1])), "control: a bond less"
    assert fault_of(store, other), "control: another owner"
    assert fault_of(store, file, 2**31 - 1), "control: another first number"
    with served(program, store) as port:
        later = make_journal(folder / "later", FIRST + bonds // 500)
        assert counts(register(later, port, file)) == (0, bonds, 0)


def number_in(journal: Path) -> int:
    return int(json.loads(journal.read_text())["next"])


def has_risen(journal: Path, count: int, ends: Callable[[], bool]) -> bool:
    """Waits until the next number has risen by `count`, and then for a moment that differs. False once `ends` says so."""
    wanted = number_in(journal) + count
    while not ends():
        if number_in(journal) >= wanted:
            time.sleep(wanted * 7 % 11 / 500)
            return True
        time.sleep(0.002)
    return False


@pytest.mark.parametrize("bonds", [20_000, MANY])
def test_under_kills(program: Path, store: Path, journal: Path, folder: Path, bonds: int) -> None:
    """The server and the client are killed at different places of the file, each while requests are sent."""
    file = make_file(folder / "bonds.csv", [line(n) for n in range(1, bonds + 1)])
    port = free_port()
    requests, kills, stops, is_over = bonds // 500, 0, 0, False
    server = serve(program, store, port)

    def kill_now_and_then() -> None:
        nonlocal server, kills
        while kills < KILLS and has_risen(journal, max(1, requests // 12), lambda: is_over):
            server.kill()
            server.wait()
            kills += 1
            server = serve(program, store, port)

    killing = threading.Thread(target=kill_now_and_then)
    killing.start()
    for _ in range(4):
        with started(journal, port, file) as client:
            stops += has_risen(journal, max(1, requests // 7), lambda: client.poll() is not None)
    ended = register(journal, port, file)
    is_over = True
    killing.join()
    server.kill()
    server.wait()
    new, same, before = counts(ended)
    assert same == 0 and new + before == bonds and before > 0
    assert stops == 4 and kills >= KILLS // 2, (stops, kills)
    assert fault_of(store, file) is None


def test_control_one_number_for_all(program: Path, store: Path) -> None:
    """Of four requests under one number, as awk may print it for each above 2,147,483,647, one is entered."""
    named: dict[str, object] = {"desk": 3, "number": 2**31 - 1}
    kind: dict[str, object] = {"denom": 50, "issued": "2010-11", "owner": 7}
    bonds = [kind | {"serial": f"A{n}EE"} for n in range(1, 2001)]
    parts = [bonds[at : at + 500] for at in range(0, 2000, 500)]
    sent = [post("/bonds", named | {"bonds": part}, b"") for part in parts]
    assert [status for status, _ in apply(program, store, sent)] == [200, 409, 409, 409]
    assert len(rows(store, ALL)) == 500


def test_last_numbers(program: Path, store: Path, folder: Path) -> None:
    """Numbers end at 2^63 - 1. A registration that needs more ends, and says so; with other numbers the rest is entered."""
    lines = [line(n) for n in range(1, 2501)]
    file, four = make_file(folder / "all.csv", lines), make_file(folder / "four.csv", lines[:2000])
    with served(program, store) as port:
        status, said = register(make_journal(folder / "last", LAST - 3), port, file)
        assert status == 3 and "desk 3 has no numbers left" in said, said
    assert fault_of(store, four, LAST - 3) is None
    with served(program, store) as port:
        assert counts(register(make_journal(folder / "first", 1), port, file)) == (500, 2000, 0)
