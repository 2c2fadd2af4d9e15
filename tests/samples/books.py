"""A known store, and what the tests of samples/ do to stores."""

import json
import os
import re
import shutil
import sqlite3
import subprocess
import tempfile
import time
from contextlib import closing
from pathlib import Path
from typing import Any, Callable

from reporting import making, store as reading

from tests.conftest import TOP, until
from tests.restore.counter_day import Ran, copied, run, started
from tests.shared.counter_calls import BONDS, RATES, TABLES, Answer, Load, Name, apply, ask
from tests.shared.counter_calls import beginning, end, fault_of, fault_of_books, free_port, post
from tests.shared.counter_calls import redeem, rows, serve

#: A day that is closed, one that is open, three desks, a refused request, and a bond that is left.
REQUESTS = [
    post("/rates", {"number": 1, "rates": [{**RATES[0], "extension": "4.00"}, *RATES[1:]]}, b""),
    post("/bonds", {"number": 2, "bonds": BONDS}, b""),
    post("/day/open", {"number": 3, "day": "2012-02-06"}, b""),
    redeem(1, 4, "2012-02-06", 7, "M3EE", "L1EE"),
    redeem(2, 10, "2012-02-06", 8, "K2EE"),
    redeem(1, 5, "2012-02-06", 7, "K2EE"),
    post("/day/close", {"number": 4, "day": "2012-02-06"}, b""),
    post("/day/open", {"number": 5, "day": "2012-02-07"}, b""),
    redeem(2, 12, "2012-02-07", 9, "N4EE"),
]
STATUSES = [200] * 5 + [409] + [200] * 3
LAST = redeem(3, 1, "2012-02-07", 9, "N5EE")


def held(store: Path) -> dict[str, list[tuple[Any, ...]]]:
    return {table: rows(store, f"SELECT * FROM {table} ORDER BY 1, 2") for table in TABLES}


def paths_of(store: Path) -> list[Path]:
    return [path for end in ("", "-wal", "-journal") if (path := Path(f"{store}{end}")).exists()]


def files_of(store: Path) -> dict[str, bytes]:
    return {path.name: path.read_bytes() for path in paths_of(store)}


def forget(store: Path) -> None:
    for path in paths_of(store):
        path.unlink()


def changed(store: Path, copy: Path, *statements: str) -> Path:
    shutil.copy(store, copy)
    with closing(sqlite3.connect(copy, isolation_level=None)) as base:
        base.executescript("; ".join(statements))
    return copy


def refused(folder: Path, status: int, why: str, *words: object, left: tuple[str, ...] = ()) -> Ran:
    """A command ends so, says why on its standard error, and leaves nothing but these in a folder."""
    before = {path.name for path in folder.iterdir()}
    ran = run(*words)
    assert (ran.returncode, ran.stdout) == (status, ""), ran
    assert re.search(why, ran.stderr) and "Traceback" not in ran.stderr, ran.stderr
    assert {path.name for path in folder.iterdir()} == before | set(left)
    return ran


def stopped(command: list[object], is_at_work: Callable[[], bool], by: int) -> int:
    """The status of a command that gets a signal, with its children, while it is at work."""
    process = started(*command, stderr=subprocess.DEVNULL, start_new_session=True)
    until(is_at_work, "it doesn't come so far")
    time.sleep(0.3)
    assert process.poll() is None and is_at_work()
    os.killpg(process.pid, by)
    return process.wait()


def script(path: Path, text: str) -> Path:
    path.write_text(text)
    path.chmod(0o755)
    return path


AUDIT = TOP / "samples/audit"
REPORT = AUDIT / "report"


def report(store: Path, to: Path, *words: object) -> Ran:
    as_of = () if "--as-of" in words else ("--as-of", "2026-11-28")
    return run(REPORT, store, "--to", to, *as_of, *words)


def made(store: Path, to: Path, *words: object) -> tuple[Ran, making.Report]:
    """The same of a report that has to be made."""
    ran = report(store, to, *words)
    assert "Traceback" not in ran.stderr and (to / "report.json").exists(), ran
    found: making.Report = json.loads((to / "report.json").read_text())
    return ran, found


def reported(store: Path, asked: making.Asked) -> making.Report:
    with tempfile.TemporaryDirectory(dir=store.parent) as private:
        opened = reading.open_copy(*reading.copy_of(str(store), private))
        with closing(opened.base):
            return making.report_of(opened, asked)


def differing(found: making.Report) -> dict[str, list[tuple[str, str, str]]]:
    """The tests that differ, with the table, the row and what of each difference."""
    tests = [(test["name"], test["differences"]) for test in found["tests"] if test["differing"]]
    return {name: [(it["table"], it["row"], it["what"]) for it in rows] for name, rows in tests}


class Busy:
    """A store that is served, which can be stopped and started again; and a load of its clients."""

    def __init__(self, program: Path, path: Path, bonds: int = 6000, pause: float = 0) -> None:
        self.program, self.path, self.port, self.pause = program, path, free_port(), pause
        apply(program, path, beginning(bonds))
        self.load = Load(self.ask, bonds, 3)
        self.start()

    def start(self) -> None:
        self.server = serve(self.program, self.path, self.port)

    def stop(self) -> None:
        end(self.server)

    def ask(self, message: bytes) -> Answer | None:
        """In memory a request is so fast that all bonds would be paid at once: a pause comes before it."""
        time.sleep(self.pause)
        return ask(self.port, message)

    def redeem(self, count: int) -> None:
        wanted = self.load.turn + count
        self.load.start()
        while self.load.turn < wanted and not self.load.wrong:
            time.sleep(0.005)
        self.load.stop()

    def header(self) -> bytes:
        """Of the log, which is another one once the log is started anew."""
        return Path(f"{self.path}-wal").read_bytes()[:32]

    def missing(self, path: Path, acknowledged: dict[Name, str]) -> list[Name] | None:
        """Which of these replies a copy lacks, by sqlite3. None if the program refuses the copy."""
        copy = copied(path, path.parent / "of_missing")
        try:
            if run(self.program, "export", "1", "--db", copy).returncode != 0:
                return None
            found = rows(copy, "SELECT desk, number, reply FROM answers")
        finally:
            shutil.rmtree(copy.parent)
        kept = {(desk, number): reply for desk, number, reply in found}
        wanted = ((name, key_of(self.load.requests[name])) for name in acknowledged)
        return [name for name, key in wanted if kept.get(key) != acknowledged[name]]

    def is_right(self, path: Path, acknowledged: dict[Name, str]) -> None:
        """A copy opens, has what was acknowledged before it, and answers a retry of all requests rightly."""
        assert self.missing(path, acknowledged) == [] and acknowledged
        names, replies = self.load.in_order(), {}
        requests = (self.load.requests[name] for name in names)
        retries = [request.replace(b"Connection: close\r\n", b"") for request in requests]
        copy = copied(path, path.parent / "of_retries")
        for name, (status, reply) in zip(names, apply(self.program, copy, retries), strict=True):
            replies[name] = reply
            assert status == 200 and fault_of(name, reply) is None
            assert reply == acknowledged.get(name, reply)
        assert fault_of_books(copy, replies) is None
        shutil.rmtree(copy.parent)


def key_of(message: bytes) -> tuple[int, int]:
    value = json.loads(message.split(b"\r\n\r\n", 1)[1])
    return value.get("desk", 0), value["number"]
