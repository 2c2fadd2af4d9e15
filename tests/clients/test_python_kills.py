"""The Python client over the program, with real kills: of a pool, and of the documented program at its calls."""

import collections
import contextlib
import datetime
import errno
import random
import re
import subprocess
import sys
import time
from pathlib import Path
from typing import Any, Iterator

import pytest

import ee_counter_client as client
from ee_counter_client.archive import Archive
from ee_counter_client.testing import Gate
from tests.clients.desk import DAY, OWN, TrueCounter, ran
from tests.clients.interruptions import Failing, Interrupt
from tests.conftest import TOP

STOPPED = (errno.EIO, errno.ENOSPC)
RATES = TOP / "crates/published_values/data/rates.csv"


@pytest.fixture
def gate(true: TrueCounter) -> Iterator[Gate]:
    with Gate(true.port, true.kill) as made:
        yield made


def begin(address: str, place: Path, bonds: int = 0) -> None:
    """By desk 1: the rates, bonds A1EE, A2EE .. of customer 7, and an open day if there are any."""
    with client.Counter(place / "other.journal", address, desk=1) as counter:
        counter.add_rates(client.rates_in(RATES))
        rows = [client.Bond(f"A{n}EE", 50, "2010-11", 7) for n in range(1, bonds + 1)]
        if rows:
            counter.add_bonds(rows, even_so=True)
            counter.open_day(DAY, even_so=True)


def after_messages(gate: Gate, wanted: int, running: subprocess.Popen[Any]) -> None:
    wanted, end = len(gate.bodies) + wanted, time.monotonic() + 20
    while len(gate.bodies) < wanted and time.monotonic() < end and running.poll() is None:
        time.sleep(0.002)


def test_restored_from_the_archive(true: TrueCounter, folder: Path, dice: random.Random) -> None:
    """A day of payments, each interrupted three times by Ctrl-C or a failed call: one ticket each, and counter-restore makes the store anew from the desk's archive alone."""
    archive = folder / "a.archive"

    def paid(serial: str) -> client.Ticket:
        for _ in range(3):
            at = dice.randint(1, 1000)
            if dice.random() < 0.5:
                with Interrupt(nth=at):
                    counter.redeem(DAY, 7, [serial], key=serial)
            else:
                failing = Failing(at % 25, dice.choice(STOPPED), dice.random() < 0.5)
                with contextlib.suppress(client.FileFailed), failing:
                    counter.redeem(DAY, 7, [serial], key=serial)
        return counter.redeem(DAY, 7, [serial], key=serial)

    with client.Counter(folder / "a.journal", true.address, desk=3, archive=archive) as counter:
        counter.add_rates(client.rates_in(TOP / "samples/rates.csv"))
        counter.add_bonds([client.Bond(f"L{n}EE", 50, "2010-11", 7) for n in range(1, 17)])
        counter.open_day(DAY, even_so=True)
        assert [paid(f"L{n}EE").number for n in range(1, 17)] == list(range(1, 17))
        assert counter.close_day(DAY).tickets == 16
    new = folder / "new.db"
    restore = (TOP / "samples/restore/counter-restore", new, "--from", archive)
    status, out, told = ran(*restore, "--program", true.program, "--yes")
    assert status == 0, out + told
    assert ran(true.program, "export", "1", "--db", new)[0] == 0


ON_FILES = "openat,read,write,pwrite64,ftruncate,fsync,rename,close,flock"
WITH_COUNTER = "connect,sendto,recvfrom"
FILES = ("", "desk3.journal", "desk3.journal.new", "desk3.journal.lock", "desk3.journal.keys")
HARM = ["signal=SIGKILL", "signal=SIGINT", "error=EIO", "error=ENOSPC"]
#: Runs a program again in the same process after Ctrl-C or a failed call, as a notebook does.
LIVES_ON = """
import signal, sys
from ee_counter_client import CounterError
signal.signal(signal.SIGINT, signal.default_int_handler)  # a shell's background job ignores it
code = compile(open(sys.argv[1]).read(), sys.argv[1], "exec")
for turn in range(4):
    try:
        exec(code, {"__name__": "__main__"})
        break
    except (KeyboardInterrupt, CounterError, OSError) as error:
        print(f"interrupted: {type(error).__name__}: {error}", file=sys.stderr, flush=True)
else:
    sys.exit(1)
"""


class Documented:
    """The first program of docs/PYTHON_CLIENT.md, as written but for its day, its bonds, its port and an archive. Each trial is a day with two bonds of its own."""

    def __init__(self, true: TrueCounter, folder: Path) -> None:
        self.true, self.folder, self.count = true, folder, 0
        text = (TOP / "docs/PYTHON_CLIENT.md").read_text()
        self.text = re.findall(r"^```python\n(.*?)^```$", text, re.M | re.S)[0]
        assert len(self.text.splitlines()) > 15
        (folder / "lives_on.py").write_text(LIVES_ON)
        begin(true.address, folder)

    def new_day(self, other: client.Counter) -> None:
        self.count += 1
        self.place = self.folder / f"trial{self.count}"
        self.place.mkdir()
        self.day = (datetime.date(2012, 2, 5) + datetime.timedelta(days=self.count)).isoformat()
        self.serials = [f"L{self.count}EE", f"K{self.count}EE"]
        other.add_bonds([client.Bond(self.serials[0], 50, "2010-11", 7)])
        other.add_bonds([client.Bond(self.serials[1], 75, "2010-10", 7)])
        changes = {"2026-11-30": self.day, "L1EE": self.serials[0], "K2EE": self.serials[1]}
        changes["http://127.0.0.1:8377"] = self.true.address
        changes["timeout=60"] = 'timeout=60, archive="desk3.archive"'
        program = self.text
        for old, new in changes.items():
            assert old in program
            program = program.replace(old, new)
        (self.place / "program.py").write_text(program)

    def run(self, calls: str = "", log: str = "/dev/null", harm: str = "") -> tuple[int, str, str]:
        words: list[object] = [sys.executable, "-B"]
        if calls:
            trace = ["strace", "-f", "-qq", "-o", log, f"--trace={calls}"]
            names = (*FILES, "desk3.archive") if calls == ON_FILES else ()
            paths = [word for name in names for word in ("-P", (self.place / name).resolve())]
            words = [*trace, *paths, *([f"--inject={harm}"] if harm else []), *words]
        if harm and "KILL" not in harm:
            words.append(self.folder / "lives_on.py")
        return ran(*words, "program.py", cwd=self.place)

    def points(self, other: client.Counter) -> list[tuple[str, str, int]]:
        """Each call that an unharmed run makes on its files, and with the counter."""
        found = []
        for calls in (ON_FILES, WITH_COUNTER):
            self.new_day(other)
            log = self.place / "calls"
            assert self.run(calls, str(log))[0] == 0
            counts = collections.Counter(re.findall(r"^\d+ +(\w+)\(", log.read_text(), re.M))
            found += [(calls, name, at) for name, n in counts.items() for at in range(1, n + 1)]
        return found

    def tried(self, other: client.Counter, point: tuple[str, str, int], harm: str) -> str:
        """Harms a run, and runs it again: the bonds are paid once. Returns how the first one ended."""
        self.new_day(other)
        calls, name, at = point
        status, out, told = self.run(calls, harm=f"{name}:{harm}:when={at}")
        again = self.run()
        batch = other.batch(self.day)
        assert batch and (batch.tickets, batch.bonds) == (1, 2), (told, again)
        ticket = other.ticket(self.count)
        assert ticket and [line.serial for line in ticket.lines] == self.serials
        assert ticket.total == batch.total and other.ticket(self.count + 1) is None
        wanted = f"pay out {ticket.total} for ticket {ticket.number}\n1 tickets, 2 bonds, {batch.total} dollars\n"
        assert again[:2] == (0, wanted), (told, again)
        archive = self.place / "desk3.archive"
        Archive(str(archive)).close()
        assert f'"reply":{ticket.text}' in archive.read_text()
        if "KILL" not in harm:
            assert status == 0 and out.endswith(wanted), "the process lived on"
        return "killed" if status in (-9, 137) else "interrupted" * ("interrupted" in told)


@pytest.mark.needs("strace")
@pytest.mark.parametrize("trials", [12, pytest.param(200, marks=pytest.mark.slow)])
def test_documented_program(
    true: TrueCounter, folder: Path, dice: random.Random, trials: int
) -> None:
    """It is killed, interrupted, or fails at one of its calls on its files or with the counter. Run again it goes on, and pays once."""
    documented = Documented(true, folder)
    with client.Counter(folder / "other.journal", true.address) as other:
        points = dice.choices(documented.points(other), k=trials)
        ends = [documented.tried(other, one, HARM[n % 4]) for n, one in enumerate(points)]
    assert ends.count("killed") >= trials / 5 and ends.count("interrupted") >= trials / 8, ends


POOL = """
import sys
from concurrent.futures import ThreadPoolExecutor
from ee_counter_client import Pool
folder, address, count = sys.argv[1], sys.argv[2], int(sys.argv[3])
with Pool(folder, address, desks=range(10, 14)) as pool, ThreadPoolExecutor(6) as workers:
    for ticket in workers.map(lambda job: pool.redeem("2012-02-06", 7, [f"A{job}EE"], key=f"job-{job}"), range(1, count + 1)):
        print(ticket.number, ticket.lines[0].serial, flush=True)
"""


def test_killed_pool(true: TrueCounter, gate: Gate, folder: Path, dice: random.Random) -> None:
    """The process of a pool is killed, and started again with the same jobs: one ticket for each job."""
    count, kills = 300, 0
    begin(true.address, folder, count)
    line = [sys.executable, "-c", POOL, str(folder), gate.address, str(count)]
    for _ in range(8):
        running = subprocess.Popen(line, env=OWN, stdout=subprocess.DEVNULL)
        after_messages(gate, dice.randint(2, 8), running)
        gate.faults = [dice.choice(("lost answer", "failed after", "lost request"))]
        time.sleep(dice.uniform(0, 0.05))
        running.kill()
        kills += running.wait() == -9
    gate.faults = []
    status, out, told = ran(*line)
    lines = [text.split() for text in out.splitlines()]
    jobs = range(1, count + 1)
    assert status == 0 and [serial for _, serial in lines] == [f"A{n}EE" for n in jobs]
    assert sorted(int(number) for number, _ in lines) == list(jobs), told
    assert kills >= 6, "kills that came while it worked"
    with client.Counter(folder / "other.journal", true.address) as counter:
        batch = counter.close_day(DAY)
    assert (batch.tickets, batch.bonds) == (count, count)
