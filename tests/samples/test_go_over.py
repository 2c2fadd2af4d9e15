"""samples/go_over carries terms and unpaid bonds into a new store, compares both, and leaves nothing if it can't."""

import random
import re
import shutil
import signal
import subprocess
import sys
import time
import tomllib
from pathlib import Path
from typing import Any, Iterator, NamedTuple

import pytest

from tests.conftest import TOP, until
from tests.restore.counter_day import Ran, run, started
from tests.samples.books import files_of, forget, refused, script
from tests.samples.conftest import Mount
from tests.shared import exact
from tests.shared.counter_calls import apply, get, post, redeem, replaced, rows, served

SCRIPT = TOP / "samples/go_over"
MONTH, MONTH_NUMBER = "2026-11", 202611
FACES = {"L": 50, "K": 75, "C": 100, "R": 200, "D": 500, "M": 1000, "V": 5000, "X": 10000}
#: Periods and their fixed rates in hundredths of a percent, and the rates of extended maturity of the changed terms.
RATES = {200505: 350, 200511: 320, 200605: 370, 200611: 360, 200705: 340, 201011: 60, 201111: 60}
CHANGED = {200505: 400, 200605: 125}
BONDS = "SELECT letter, number, denom, issued, owner, coowner FROM bonds ORDER BY letter, number"
KILLS = 20


def text_of(month: int) -> str:
    return f"{month // 100}-{month % 100:02}"


def money(cents: int) -> str:
    return f"{cents // 100}.{cents % 100:02}"


def period_of(month: int) -> int:
    return max(start for start in RATES if start <= month)


class Bond(NamedTuple):
    serial: str
    denom: int
    issued: int
    owner: int
    coowner: int | None = None

    def fields(self) -> dict[str, Any]:
        named = self._asdict() | {"issued": text_of(self.issued)}
        return {name: value for name, value in named.items() if value is not None}

    def row(self) -> tuple[Any, ...]:
        place = ord(self.serial[0]) - 64, int(self.serial[1:-2])
        months = 12 * (self.issued // 100 - 2005) + self.issued % 100 - 5
        return *place, self.denom, months, self.owner, self.coowner

    def value(self, extensions: dict[int, int]) -> int:
        rate = RATES[period_of(self.issued)]
        extension = extensions.get(period_of(self.issued), rate)
        return exact.row(self.denom, self.issued, MONTH_NUMBER, rate, extension)[3]


def many_bonds(count: int) -> list[Bond]:
    """1,700 bonds of customer 1, 501 of customer 2, 500 of customer 3, and a few of each other one."""
    dice, bonds = random.Random(66), []
    lasts = {start: start + 5 if start % 100 == 5 else start + 93 for start in RATES}
    months = [month for start, last in lasts.items() for month in (start, start + 1, last)]
    for place in range(count):
        owner = 1 if place < 1700 else 2 if place < 2201 else 3 if place < 2701 else 4 + place // 5
        letter, coowner = dice.choice(list(FACES)), owner + 1_000_000 if place % 4 == 0 else None
        serial, month = f"{letter}{place + 1}EE", dice.choice(months)
        bonds.append(Bond(serial, FACES[letter], month, owner, coowner))
    return bonds


def terms(extensions: dict[int, int]) -> list[dict[str, str]]:
    found = []
    for start, rate in RATES.items():
        more = {"extension": money(extensions[start])} if start in extensions else {}
        found.append({"from": text_of(start), "rate": money(rate), **more})
    return found


def rate_file(path: Path, extensions: dict[int, int], *more: str, without: str = "") -> Path:
    lines = [f"{row['from']},{row['rate']},{row.get('extension', '')}" for row in terms(extensions)]
    lines = [line for line in lines if not without or not line.startswith(without)]
    path.write_text("\n".join(["from,rate,extension", *lines, *more, ""]))
    return path


class Old:
    """A store with these bonds, of which some were paid on three closed days."""

    def __init__(self, program: Path, folder: Path, bonds: list[Bond], paid: list[Bond]) -> None:
        folder.mkdir()
        self.program, self.path, self.new = program, folder / "old.db", folder / "new.db"
        self.bonds, self.paid = bonds, paid
        gone = {bond.serial for bond in paid}
        self.unpaid = [bond for bond in bonds if bond.serial not in gone]
        messages = [post("/rates", {"number": 1, "rates": terms({})}, b"")]
        for first in range(0, len(bonds), 500):
            fields = [bond.fields() for bond in bonds[first : first + 500]]
            messages.append(post("/bonds", {"number": 2 + first // 500, "bonds": fields}, b""))
        for nth, day in enumerate(("2026-11-24", "2026-11-25", "2026-11-27"), 1):
            of_day = [(2 + at, bond) for at, bond in enumerate(paid) if at % 3 == nth - 1]
            messages.append(post("/day/open", {"desk": nth, "number": 1, "day": day}, b""))
            messages += [redeem(nth, at, day, bond.owner, bond.serial) for at, bond in of_day]
            messages.append(post("/day/close", {"desk": nth, "number": 100_000, "day": day}, b""))
        self.requests = len(messages)
        assert {status for status, _ in apply(program, self.path, messages)} == {200}
        self.files = files_of(self.path)

    def command(
        self, *words: object, old: object = None, program: object = None, by: Path = SCRIPT
    ) -> list[object]:
        files = (old or self.path, self.new, program or self.program)
        return [sys.executable, by, *files, *words, "--month", MONTH]

    def go(self, *words: object, **more: Any) -> Ran:
        return run(*self.command(*words, **more))

    def names(self) -> set[str]:
        return {path.name for path in self.path.parent.iterdir()}

    def refuses(self, status: int, said: str, *words: object, **more: Any) -> None:
        """It ends so, and nothing is left."""
        command = self.command(*words, **more)
        refused(self.path.parent, status, re.escape(said), *command)
        assert files_of(self.path) == self.files


@pytest.fixture(scope="module")
def three(program: Path, place: Path) -> Old:
    bonds = [Bond("L1EE", 50, 201011, 7), Bond("K2EE", 75, 200604, 7, 8)]
    bonds += [Bond("X3EE", 10000, 200506, 7)]
    return Old(program, place / "three", bonds, bonds[1:2])


@pytest.fixture(scope="module")
def many(program: Path, place: Path) -> Old:
    bonds = many_bonds(6000)
    return Old(program, place / "many", bonds, bonds[::7][:800])


@pytest.fixture
def old(request: pytest.FixtureRequest) -> Iterator[Old]:
    """The store that a test names, or the one of three bonds; the new one is gone at the end."""
    found: Old = request.getfixturevalue(getattr(request, "param", "three"))
    yield found
    forget(found.new)


@pytest.mark.parametrize("extensions", [{}, CHANGED], ids=["its own terms", "other terms"])
@pytest.mark.parametrize("old", ["three", "many"], indirect=True)
def test_carried(old: Old, tmp_path: Path, extensions: dict[int, int]) -> None:
    """The new store has just the unpaid bonds and the terms, and its sheets have the values of exact arithmetic."""
    there, unpaid = old.names(), old.unpaid
    words = ["--rates", rate_file(tmp_path / "terms.csv", extensions)] if extensions else []
    ran = old.go(*words)
    others = ", ".join(map(text_of, extensions)) or "none"
    owners = list(dict.fromkeys(bond.owner for bond in unpaid))
    dollars, periods = sum(b.denom for b in unpaid), {period_of(b.issued) for b in unpaid}
    own: dict[int, int] = {}
    was, now = (money(sum(bond.value(by) for bond in unpaid)) for by in (own, extensions))
    count = len(old.paid)
    assert ran.stdout.splitlines() == [
        f"terms    {len(RATES)}, others than before: {others}",
        f"bonds    {len(unpaid)} of {len(owners)} owners, {dollars} dollars, of {len(periods)} periods",
        f"value    {was} in {MONTH} by the terms before, {now} by these",
        f"left in {old.path}: {count} paid bonds, {count} tickets, 3 batches, {old.requests} replies",
    ], ran
    assert files_of(old.path) == old.files and old.names() == there | {"new.db"}
    assert rows(old.new, BONDS) == sorted(bond.row() for bond in unpaid)
    tables = ("bonds", "tickets", "batches", "rates", "extensions")
    counts = [rows(old.new, f"SELECT count(*) FROM {table}")[0][0] for table in tables]
    assert counts == [len(unpaid), 0, 0, len(RATES), len(extensions)]
    asked = owners[:: max(1, len(owners) // 200)]
    messages = [get(f"/inventory/{owner}/{MONTH}", b"") for owner in asked]
    sheets = apply(old.program, old.new, messages)
    for owner, (status, sheet) in zip(asked, sheets, strict=True):
        cents = sum(bond.value(extensions) for bond in unpaid if bond.owner == owner)
        assert (status, sheet.splitlines()[-1].split()[-1]) == (200, money(cents)), owner
    one, day = unpaid[-1], "2026-11-30"
    opening = post("/day/open", {"desk": 5, "number": 1, "day": day}, b"")
    _, paid = apply(old.program, old.new, [opening, redeem(5, 2, day, one.owner, one.serial)])
    assert paid[0] == 200 and f'"paid":"{money(one.value(extensions))}"' in paid[1]


@pytest.mark.parametrize(
    "rows_more, without, said",
    [
        ((), "2010-11", '"NoRate"'),
        (("2012-02,0.60,",), "", '"NotAnnouncementMonth"'),
        (("2012-05,much,",), "", "file: row"),
    ],
)
def test_refused_terms(
    old: Old, tmp_path: Path, rows_more: tuple[str, ...], without: str, said: str
) -> None:
    file = rate_file(tmp_path / "terms.csv", {}, *rows_more, without=without)
    old.refuses(1, said, "--rates", file)


@pytest.mark.parametrize(
    "serial, said", [("K2EE", "ticket 1 paid it"), ("K3EE", "isn't among the unpaid bonds")]
)
def test_refused_exceptions(old: Old, serial: str, said: str) -> None:
    old.refuses(1, said, "--without", serial)


def test_refused_stores(old: Old, tmp_path: Path) -> None:
    old.refuses(3, "No such file", old=tmp_path / "none.db")
    old.refuses(3, "isn't a regular file", old=tmp_path)
    old.refuses(3, "can't be run", program=tmp_path / "nothing")
    damaged = Path(shutil.copy(old.path, tmp_path / "damaged.db"))
    damaged.write_bytes(damaged.read_bytes()[:3000] + b"\xff" + damaged.read_bytes()[3001:])
    old.refuses(1, "StoreFailed", old=damaged)
    opened = shutil.copy(old.path, tmp_path / "opened.db")
    opening = post("/day/open", {"desk": 9, "number": 1, "day": "2026-11-30"}, b"")
    apply(old.program, opened, [opening])
    old.refuses(1, "2026-11-30 is open: close it first", old=opened)
    with served(old.program, shutil.copy(old.path, tmp_path / "served.db")):
        old.refuses(3, "is in use by another process", old=tmp_path / "served.db")
    old.new.touch()
    old.refuses(2, "wants a path of its own")


def test_exception_is_left_out(old: Old) -> None:
    """A bond that was registered with another owner is left out, and registered rightly in the new store."""
    ran = old.go("--without", "X3EE")
    assert ran.returncode == 0 and "left out: the bonds X3EE\n" in ran.stdout, ran
    assert rows(old.new, "SELECT letter FROM bonds") == [(12,)]
    bond = Bond("X3EE", 10000, 200506, 9).fields()
    asked = post("/bonds", {"desk": 5, "number": 1, "bonds": [bond]}, b"")
    assert apply(old.program, old.new, [asked]) == [(200, '{"new":1,"same":0}')]


@pytest.mark.parametrize("old", ["many"], indirect=True)
def test_killed(old: Old, dice: random.Random) -> None:
    """SIGKILL and SIGTERM at moments by chance: the new store is whole or missing, and the old one as it was."""
    there, begun, wanted = old.names(), time.monotonic(), sorted(bond.row() for bond in old.unpaid)
    assert old.go().returncode == 0
    whole_run, ends = time.monotonic() - begun, {"whole": 0, "missing": 0, "a hidden folder": 0}
    forget(old.new)
    for nth in range(KILLS):
        how = signal.SIGKILL if nth % 2 else signal.SIGTERM
        process = started(*old.command(), stdout=subprocess.DEVNULL, stderr=subprocess.DEVNULL)
        time.sleep(dice.random() * whole_run * 1.1)
        process.send_signal(how)
        process.wait()
        ends["whole" if old.new.exists() else "missing"] += 1
        assert not old.new.exists() or rows(old.new, BONDS) == wanted
        forget(old.new)
        left = old.names() - there
        ends["a hidden folder"] += bool(left)
        assert all(name.startswith(".go_over-") for name in left)
        assert how == signal.SIGKILL or not left
        for folder in (old.path.parent / name for name in left):
            until(lambda: run("pgrep", "-f", folder).returncode != 0, "its program doesn't end")
            shutil.rmtree(folder)
        assert files_of(old.path) == old.files
    assert ends["missing"] > KILLS // 4 and ends["a hidden folder"], ends
    assert old.go().returncode == 0


@pytest.mark.root
@pytest.mark.parametrize("old", ["many"], indirect=True)
@pytest.mark.parametrize("more", [-1, 300, 900])
def test_full_disk(old: Old, mount: Mount, more: int) -> None:
    """`more` KiB are free; with -1 it is the old store's size and 400 KiB."""
    size = more if more > 0 else old.path.stat().st_size // 1024 + 400
    small = mount("tmpfs", f"small{more}", "-o", f"size={size}k")
    ran = run(sys.executable, SCRIPT, old.path, small / "new.db", old.program, "--month", MONTH)
    assert (ran.returncode, ran.stdout, list(small.iterdir())) == (3, "", []), ran


WRONG = tomllib.loads((Path(__file__).parent / "parts/wrong_programs.toml").read_text())
FAKE: str = WRONG.pop("FAKE")


def fake(old: Old, path: Path, before: str, after: str) -> Path:
    words = {"python": sys.executable, "program": str(old.program)}
    return script(path, FAKE.format(**words, before=before, after=after))


@pytest.mark.parametrize("kind", WRONG)
def test_wrong_program(old: Old, tmp_path: Path, kind: str) -> None:
    """Control: without its comparison the script takes what the program made."""
    wrong = WRONG[kind]
    program = fake(old, tmp_path / "fake", wrong["before"], wrong["after"])
    old.refuses(1, wrong["said"], program=program)
    comparisons = [
        "    compare_terms(terms, new.terms)\n",
        "    compare_bonds(carried, new.bonds)\n",
        "    compare_exports(program, paths[1], by_owner(carried))\n",
        "    compare_sheets(program, paths, old, new, month)\n",
    ]
    folder = 'os.path.join(os.path.dirname(os.path.realpath(__file__)), "audit")'
    changes = [(line, "") for line in comparisons] + [(folder, repr(str(TOP / "samples/audit")))]
    careless = script(tmp_path / "careless", replaced(SCRIPT.read_text(), changes))
    ran = old.go(program=program, by=careless)
    assert ran.returncode == 0 and old.new.exists(), ran


def test_old_store_is_locked(old: Old, tmp_path: Path) -> None:
    """While the script works, no program opens the old store."""
    words = [str(old.program), "export", "7", "--db", str(old.path)]
    said = f"subprocess.run({words!r}, stderr=subprocess.PIPE, text=True).stderr"
    tried = f"open({str(tmp_path / 'tried')!r}, 'w').write({said})"
    program = fake(old, tmp_path / "fake", tried, "pass")
    assert old.go(program=program).returncode == 0
    assert (tmp_path / "tried").read_text() == "store: StoreFailed\n"
