"""Seven commands, each killed at every call on the store's files, print what they do unkilled."""

import contextlib
import shutil
import signal
import socket
import subprocess
from pathlib import Path
from typing import Any, NamedTuple

import pytest

from tests.shared.counter_calls import answered, free_port, make_version_one, piped, post, rows
from tests.shared.counter_calls import served

CALLS = "openat pwrite64 write fsync fdatasync ftruncate fallocate unlink rename pread64 close"
RATES = "from,rate\n2010-05,3.50\n2010-11,3.50\n"
BONDS = "serial,denom,issued,owner,coowner\n"
BONDS += "".join(f"L{n}EE,50,2010-11,7,\n" for n in range(1, 41))
DAY = "2026-11-30"
NUMBERS = (1, 2, 3, 4, 5)
BEGINNINGS = ("no file", "version 1", "killed server")
pytestmark = pytest.mark.needs("strace")


class Command(NamedTuple):
    words: str
    messages: bytes = b""


def commands(numbers: tuple[int, ...] = NUMBERS) -> list[Command]:
    rates, bonds, opened, redeemed, closed = numbers
    day: dict[str, Any] = {"desk": 9, "day": DAY}
    desk = "--db day.db --desk 9 --number"
    paid = {**day, "number": redeemed, "payee": 7, "serials": ["L1EE", "L2EE", "L3EE"]}
    return [
        Command(f"import rates rates.csv {desk} {rates}"),
        Command(f"import inventory bonds.csv {desk} {bonds}"),
        Command("apply --db day.db", post("/day/open", {**day, "number": opened}, b"")),
        Command("serve --db day.db --connections 1 --port", post("/redeem", paid)),
        Command("sheet 7 2026-11 --db day.db"),
        Command("export 7 --db day.db"),
        Command("apply --db day.db", post("/day/close", {**day, "number": closed}, b"")),
    ]


def begin(program: Path, folder: Path, beginning: str) -> None:
    (folder / "rates.csv").write_text(RATES)
    (folder / "bonds.csv").write_text(BONDS)
    if beginning == "version 1":
        make_version_one(str(folder / "day.db"), 500, 10)
    elif beginning == "killed server":
        with served(program, folder / "day.db") as port:
            rates = [{"from": "2010-05", "rate": "3.50"}]
            answered(port, post("/rates", {"desk": 8, "number": 1, "rates": rates}))
        assert (folder / "day.db-wal").stat().st_size > 0


def sent(process: subprocess.Popen[bytes], port: int, message: bytes) -> bytes:
    answer = b""
    with contextlib.suppress(OSError):
        if piped(process.stderr).readline():
            with socket.create_connection(("127.0.0.1", port), 60) as client:
                client.sendall(message)
                while more := client.recv(65536):
                    answer += more
    return answer


class Bench:
    """Runs commands in folders, and knows what they print and leave without a kill."""

    def __init__(self, program: Path, place: Path, beginning: str) -> None:
        self.program, self.place, self.row = program, place, commands()
        self.before, self.printed = [], []
        folder = place / "whole"
        folder.mkdir()
        begin(program, folder, beginning)
        for at, command in enumerate(self.row):
            self.before.append(Path(shutil.copytree(folder, place / f"before-{at}")))
            status, said = self.run(folder, command)
            assert status == 0, said
            self.printed.append(said)
        self.content = content(folder)
        assert self.content[0] == [("ok",)]

    def case(self, at: int) -> Path:
        shutil.rmtree(self.place / "case", ignore_errors=True)
        return Path(shutil.copytree(self.before[at], self.place / "case"))

    def run(self, folder: Path, command: Command, *tracer: str) -> tuple[int, bytes]:
        """The status of a command, and what it answered and printed."""
        answer, pipe = b"", subprocess.PIPE
        words = [*tracer, str(self.program), *command.words.split()]
        serves, port = command.words.startswith("serve"), free_port()
        words += [str(port)] if serves else []
        with subprocess.Popen(words, cwd=folder, stdin=pipe, stdout=pipe, stderr=pipe) as process:
            if serves:
                answer = sent(process, port, command.messages)
            printed, _ = process.communicate(b"" if serves else command.messages, timeout=60)
        return process.returncode, answer + printed

    def is_killed(self, at: int, call: str, of_answer: bool, when: int) -> bool:
        """Whether a command has that call, at which it is killed, and run again."""
        folder = self.case(at)
        files = ["-P", str(folder / "day.db"), "-P", str(folder / "day.db-wal")]
        inject = f"--inject={call}:signal=SIGKILL:when={when}"
        traced = ["strace", "-f", "-qq", "-o", "/dev/null", f"--trace={call}", inject]
        status, said = self.run(folder, self.row[at], *traced, *files[: 0 if of_answer else 4])
        if status == 0:
            assert said == self.printed[at]
            return False
        assert status == -signal.SIGKILL and self.printed[at].startswith(said), (status, said)
        rest = [self.run(folder, command) for command in self.row[at:]]
        assert rest == [(0, said) for said in self.printed[at:]], (call, when)
        assert content(folder) == self.content, (call, when)
        return True


def content(folder: Path) -> list[object]:
    store = folder / "day.db"
    tables = rows(store, "SELECT name FROM sqlite_schema WHERE type = 'table' ORDER BY name")
    whole = rows(store, "PRAGMA integrity_check")
    named = [(name, rows(store, f'SELECT * FROM "{name}"')) for (name,) in tables]
    return [whole, *((name, sorted(found, key=str)) for name, found in named)]


@pytest.fixture(params=BEGINNINGS)
def bench(request: pytest.FixtureRequest, program: Path, folder: Path) -> Bench:
    return Bench(program, folder, request.param)


@pytest.mark.parametrize("every", [16, pytest.param(1, marks=pytest.mark.slow)])
def test_every_kill(bench: Bench, every: int) -> None:
    for at, command in enumerate(bench.row):
        kills = 0
        for call, of_answer in [*((call, False) for call in CALLS.split()), ("write", True)]:
            when = 1
            while bench.is_killed(at, call, of_answer, when):
                kills, when = kills + 1, when + every
        print(f"{command.words}: {kills} kills")
        assert kills >= max(1, 16 // every), "control: the kills came"


@pytest.mark.parametrize("bench", BEGINNINGS[:1], indirect=True)
@pytest.mark.parametrize("at, place", [(0, 0), (1, 1), (3, 3), (6, 4)])
def test_second_act_is_found(bench: Bench, at: int, place: int) -> None:
    """Control: a request again under a new number gives other replies and rows."""
    folder = bench.case(at)
    bench.run(folder, bench.row[at])
    numbers = tuple(10 * (n == place) + number for n, number in enumerate(NUMBERS))
    again = [commands(numbers)[at], *bench.row[at + 1 :]]
    said = [bench.run(folder, command)[1] for command in again]
    assert said != bench.printed[at:] and content(folder) != bench.content
