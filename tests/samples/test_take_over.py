"""samples/take_over makes a store of a file that the program refuses, or finds why not."""

import json
import os
import re
import shutil
import sqlite3
import subprocess
from contextlib import closing
from pathlib import Path
from typing import Iterator, NamedTuple

import pytest

from tests.conftest import TOP
from tests.restore.counter_day import run
from tests.samples.books import LAST, REQUESTS, STATUSES, changed, files_of, held, refused, script
from tests.shared.counter_calls import Answer, apply, get, make_version_one, post, rows, served, sql

TAKE_OVER = TOP / "samples/take_over"
MORE = "CREATE TABLE notes (note TEXT); INSERT INTO notes VALUES ('of another program'); CREATE VIEW unpaid AS SELECT * FROM bonds WHERE ticket IS NULL"
ASKED = [f"/ticket/{nth}" for nth in range(1, 5)]
ASKED += [f"/batch/2012-02-0{day}" for day in (6, 7)]
ASKED += [f"/inventory/{owner}/2012-02" for owner in (7, 8, 9)]
QUERIES = [get(path, b"") for path in ASKED]
CLOSING = post("/day/close", {"desk": 3, "number": 2, "day": "2012-02-07"}, b"")
LATER = [LAST, CLOSING, get("/batch/2012-02-07", b"")]
pytestmark = pytest.mark.needs("sqlite3")


def exports(program: Path, store: Path, *customers: int) -> list[str]:
    ran = [run(program, "export", customer, "--db", store) for customer in customers]
    assert not any(one.stderr for one in ran), ran
    return [one.stdout for one in ran]


def answers(program: Path, store: Path) -> tuple[list[str], list[Answer]]:
    return exports(program, store, 7, 8, 9, 10), apply(program, store, REQUESTS + QUERIES)


class Known(NamedTuple):
    """A store without checksums that the program made, and what it answers."""

    program: Path
    path: Path
    answers: tuple[list[str], list[Answer]]

    def taken(self, store: Path) -> str:
        """What take_over says of a store; the new one has the rows of this one, and goes on."""
        new, said = taken(self.program, store)
        assert held(new) == held(self.path)
        self.goes_on(new)
        return said

    def goes_on(self, new: Path) -> None:
        """The new store is like one of the program's own, gives the same answers, and is paid from."""
        assert sql(new, "PRAGMA page_size; PRAGMA integrity_check").split() == ["1024", "ok"]
        assert new.read_bytes()[20] == 8, "it has checksums"
        rise_from_one(new)
        assert answers(self.program, new) == self.answers
        later = apply(self.program, new, LATER)
        assert [one[0] for one in later] == [200] * 3 and later[2][1] == later[1][1]
        again = apply(self.program, new, LATER + REQUESTS)
        assert again == later + self.answers[1][: len(REQUESTS)]


def rise_from_one(new: Path) -> None:
    for table in ("bonds", "paid", "answers"):
        numbers = [number for number, in rows(new, f"SELECT rowid FROM {table} ORDER BY rowid")]
        assert numbers == list(range(1, len(numbers) + 1)), table


@pytest.fixture(scope="module")
def known(program: Path, place: Path) -> Known:
    path = place / "known.db"
    sql(path, "PRAGMA page_size = 4096; VACUUM")
    assert [status for status, _ in apply(program, path, REQUESTS)] == STATUSES
    found = answers(program, path)
    Path(f"{path}-wal").unlink()
    return Known(program, path, found)


def is_refused(program: Path, store: Path, fault: str) -> None:
    before = store.read_bytes()
    for _ in range(2):
        ran = run(program, "export", "7", "--db", store)
        assert (ran.returncode, ran.stdout, ran.stderr) == (3, "", f"store: {fault}\n")
    assert store.read_bytes() == before
    Path(f"{store}-wal").unlink(missing_ok=True)


def taken(program: Path, store: Path) -> tuple[Path, str]:
    """The new store, and what is said; the old one stays as it was."""
    before, new = files_of(store), store.parent / "new.db"
    there = set(os.listdir(store.parent))
    ran = run(TAKE_OVER, store, new, program)
    assert ran.returncode == 0 and ran.stderr == "", ran
    assert files_of(store) == before and set(os.listdir(store.parent)) == there | {"new.db"}
    return new, ran.stdout


def refuses(status: int, why: str, store: Path, program: Path) -> None:
    to = store.parent
    refused(to, status, why, TAKE_OVER, store, to / "new.db", program)


NO_INDEX = "DROP INDEX bonds_owner; DROP INDEX tickets_day"
OTHERS = "CREATE INDEX a ON bonds (owner, letter, number); CREATE INDEX b ON tickets (day, ticket)"
PAGES = "PRAGMA journal_mode = DELETE; PRAGMA page_size = 512; VACUUM; ANALYZE"
CHANGES = ["VACUUM", f"VACUUM; {MORE}", f"{NO_INDEX}; {OTHERS}", NO_INDEX, PAGES]
SAID = """rates       2
extensions  1
bonds       5, 10225.00 dollars
tickets     3, 5222.10 dollars
lines       4, 5222.10 dollars
batches     1, 5196.22 dollars
replies     9
"""


@pytest.mark.parametrize("statements", CHANGES)
def test_changed_store(known: Known, tmp_path: Path, statements: str) -> None:
    store = changed(known.path, tmp_path / "changed.db", statements)
    is_refused(known.program, store, "Unusable")
    said = known.taken(store)
    is_named = "not taken over: notes, unpaid" in said
    assert is_named == (MORE in statements) and said.startswith(SAID)


@pytest.mark.parametrize("statements", ["ANALYZE", MORE])
def test_tables_of_others(known: Known, tmp_path: Path, statements: str) -> None:
    """Tables and views behind the program's don't keep it from serving, and stay as they are."""
    store = changed(known.path, tmp_path / "changed.db", statements)
    of_others = ".dump notes unpaid sqlite_stat%"
    there = sql(store, of_others)
    assert there != sql(known.path, of_others)
    assert answers(known.program, store) == known.answers
    assert [one[0] for one in apply(known.program, store, LATER)] == [200] * 3
    assert sql(store, "PRAGMA integrity_check") == "ok\n" and sql(store, of_others) == there


@pytest.mark.parametrize(
    "begin, fault",
    [
        ("PRAGMA page_size = 1024;", "Unusable"),
        ("PRAGMA page_size = 65536;", "Unusable"),
        (MORE.replace("bonds WHERE ticket IS NULL", "notes") + ";", "Unusable"),
        ("PRAGMA encoding = 'UTF-16';", "StoreFailed"),
    ],
)
def test_dump(known: Known, tmp_path: Path, begin: str, fault: str) -> None:
    store = tmp_path / "dumped.db"
    text = f"{begin}\n{sql(known.path, '.dump')}"
    subprocess.run(["sqlite3", store], input=text, stdout=subprocess.DEVNULL, text=True, check=True)
    is_refused(known.program, store, fault)
    known.taken(store)


@pytest.mark.parametrize("statement", ["", "VACUUM", MORE])
def test_store_with_checksums(known: Known, tmp_path: Path, statement: str) -> None:
    """A store as the program makes it: once a sqlite3 without checksums has written it, these are wrong."""
    store = tmp_path / "summed.db"
    apply(known.program, store, REQUESTS)
    Path(f"{store}-wal").unlink()
    if statement:
        sql(store, statement)
        is_refused(known.program, store, "StoreFailed")
    known.taken(store)


# A bond that is taken out, and what a writer did then: in the log it committed the bond again, in the journal it has to take back what it changed.
LOST = "DELETE FROM bonds WHERE number = 5"
WRITERS = {
    "-wal": f"{LOST}; PRAGMA journal_mode = WAL; PRAGMA wal_autocheckpoint = 0; INSERT INTO bonds VALUES (14, 5, 50, 66, 9, NULL, NULL)",
    "-journal": f"{MORE}; PRAGMA cache_size = 1; PRAGMA cache_spill = 1; BEGIN; UPDATE paid SET cents = 1; {LOST}; INSERT INTO notes SELECT hex(zeroblob(4000)) FROM paid AS a, paid AS b, paid AS c",
}


@pytest.mark.parametrize("end", WRITERS)
def test_stopped_writer(known: Known, tmp_path: Path, end: str) -> None:
    """What a writer left in its log counts, and what it left in its journal is taken back."""
    busy, store = Path(shutil.copy(known.path, tmp_path / "busy.db")), tmp_path / "stopped.db"
    with closing(sqlite3.connect(busy, isolation_level=None)) as base:
        base.executescript(f"PRAGMA journal_mode = DELETE; {WRITERS[end]}")
        for part in ("", end):
            shutil.copy(f"{busy}{part}", f"{store}{part}")
    alone = Path(shutil.copy(store, tmp_path / "alone.db"))
    bonds = sql(alone, "SELECT count(*) FROM bonds")
    assert bonds == "4\n", "control: without it a bond is missing"
    new, _ = taken(known.program, store)
    known.goes_on(new)


def of_formats(store: Path, version: int, has_extensions: bool, source: Path) -> None:
    """A store of the statements of docs/FORMATS.md with the rows of `source`: tables in another order, indexes of other names, other tables before, between and behind."""
    text = (TOP / "docs/FORMATS.md").read_text()
    made = re.findall(r"^CREATE (?:TABLE|INDEX) .*$", text, re.M)
    common = ("desk", "rates", "bonds", "tickets", "paid", "batches")
    wanted = {*common, "answers" if version == 2 else "replies"}
    wanted |= {"extensions"} if has_extensions else set()
    tables = [one for one in made if one.startswith("CREATE TABLE") and one.split()[2] in wanted]
    base = sqlite3.connect(store, isolation_level=None)
    base.execute("CREATE TABLE first (note TEXT)")
    for nth, one in enumerate(reversed(tables)):
        base.execute(one)
        base.execute(f"CREATE TABLE beside_{nth} (note TEXT UNIQUE)")
    for one in made:
        if one.startswith("CREATE INDEX"):
            base.execute(one.replace("bonds_owner", "by_owner").replace("tickets_day", "by_day"))
    base.execute("ATTACH ? AS source", (str(source),))
    for table in common:
        base.execute(f"INSERT INTO main.{table} SELECT * FROM source.{table} ORDER BY rowid")
    kept = "answers SELECT 0, number, act, reply" if version == 2 else "replies SELECT *"
    base.execute(f"INSERT INTO main.{kept} FROM source.replies ORDER BY number")
    base.execute(f"UPDATE main.desk SET version = {version}")
    base.close()


def retries(source: Path) -> Iterator[tuple[bytes, Answer]]:
    """Requests that the store keeps, with their first replies, as docs/FORMATS.md has messages and texts."""
    ways = {"rates": "/rates", "bonds": "/bonds", "open": "/day/open", "redeem": "/redeem"}
    kept = rows(source, "SELECT number, act, reply FROM replies ORDER BY number")
    for number, text, reply in kept:
        act = json.loads(text)
        way = ways.get(act.pop("act"), "/day/close")
        yield post(way, {"number": number, **act}, b""), (200, reply)


@pytest.mark.parametrize("version, has_extensions", [(2, True), (1, True), (1, False)])
def test_store_of_others(program: Path, tmp_path: Path, version: int, has_extensions: bool) -> None:
    source, store = tmp_path / "source.db", tmp_path / "made.db"
    make_version_one(source, 2000, 300, *([] if has_extensions else ["--without-extensions"]))
    of_formats(store, version, has_extensions, source)
    is_refused(program, store, "Unusable")
    new, said = taken(program, store)
    assert "not taken over: beside_0, beside_1" in said and "first" in said.splitlines()[-1]
    asked, first = zip(*retries(source))
    assert apply(program, new, list(asked)) == list(first) and len(first) == 300
    customers = (1, 2, 20)
    assert exports(program, new, *customers) == exports(program, source, *customers)
    assert held(new) == held(source), "the program migrates the source as it opens it"
    rise_from_one(new)


CENTS = "UPDATE paid SET cents = cents + 1 WHERE ticket = 1 AND place = 1"
SUM = "SET total = total + 1"
SUMS = f"; UPDATE tickets {SUM} WHERE ticket = 1; UPDATE batches {SUM}"
RATES = "DROP TABLE rates; CREATE TABLE rates (period, rate)"
RATES += "; INSERT INTO rates VALUES ('60', 200), (66, 350)"
REFUSED = "refuses the new store: store: Unusable"
WRONG_ROWS = [
    (CENTS, REFUSED),
    (CENTS + SUMS, REFUSED),
    ("DELETE FROM paid WHERE ticket = 2", REFUSED),
    ("UPDATE answers SET reply = '{}' WHERE number = 12", "new store: store: Unusable"),
    ("UPDATE desk SET version = 7", "it is of version 7"),
    ("DELETE FROM desk", "its table desk has other rows"),
    ("DROP TABLE batches", "it has no table batches"),
    ("ALTER TABLE bonds ADD COLUMN note TEXT", "its table bonds has other columns"),
    (RATES, f"differs in rates|{REFUSED[:21]}"),
]


@pytest.mark.parametrize("statements, why", WRONG_ROWS)
def test_wrong_rows(known: Known, tmp_path: Path, statements: str, why: str) -> None:
    store = changed(known.path, tmp_path / "changed.db", f"{MORE}; {statements}")
    refuses(1, why, store, known.program)


def test_another_reply(known: Known, tmp_path: Path) -> None:
    """Control: a kept reply that no rule contradicts is taken over."""
    statement = "UPDATE answers SET reply = replace(reply, '25.88', '25.89') WHERE number = 12"
    taken(known.program, changed(known.path, tmp_path / "changed.db", f"{MORE}; {statement}"))


LOSSES = ["DELETE FROM bonds WHERE number = 5", "UPDATE bonds SET owner = 11 WHERE number = 5"]
LOSSES += ["DELETE FROM answers WHERE number = 12"]


@pytest.mark.parametrize("turns", [1, 2, 4, 5, 6])
@pytest.mark.parametrize("statement", LOSSES)
def test_wrong_program(known: Known, tmp_path: Path, statement: str, turns: int) -> None:
    """A program that changes the store that it made, from its command of this turn on."""
    store = Path(shutil.copy(known.path, tmp_path / "known.db"))
    count = tmp_path / "count"
    count.write_text("0")
    text = f"""#!/bin/bash
{known.program} "$@"; status=$?
n=$(cat {count}); echo $((n + 1)) > {count}
[ "$n" -lt {turns} ] || sqlite3 "${{@: -1}}" "{statement}"
exit $status
"""
    wrong = script(tmp_path / "wrong", text)
    ran = run(TAKE_OVER, store, tmp_path / "new.db", wrong)
    if int(count.read_text()) <= turns:
        assert turns > 4 and ran.returncode == 0, ran
    else:
        assert (ran.returncode, ran.stdout) == (1, "") and ran.stderr, ran
        assert not (tmp_path / "new.db").exists()


def test_wrong_words(known: Known, tmp_path: Path) -> None:
    store, program = Path(shutil.copy(known.path, tmp_path / "known.db")), known.program
    refuses(3, "missing.db", tmp_path / "missing.db", program)
    for content in (b"", b"no store at all" * 100):
        (tmp_path / "none.db").write_bytes(content)
        refuses(1, "isn't taken over", tmp_path / "none.db", program)
    for name in ("pipe", "known.db-wal"):
        os.mkfifo(tmp_path / name)
        why = f"{name} isn't a regular file"
        refuses(3, why, tmp_path / name.removesuffix("-wal"), program)
    (tmp_path / "known.db-wal").unlink()
    refuses(3, "can't be run", store, tmp_path / "no_program")
    refuses(3, "made no new store", store, Path("/bin/false"))
    with served(program, store):
        refuses(3, "in use by another process", store, program)
    (tmp_path / "new.db").write_text("kept")
    refuses(2, "exists", store, program)
    assert (tmp_path / "new.db").read_text() == "kept"
    assert run(TAKE_OVER).returncode == run(TAKE_OVER, store).returncode == 2
