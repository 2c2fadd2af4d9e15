"""Which damage the report for auditors finds, alone, with an archive and with an earlier report, and which the program finds as it opens the store.

parts/damage.toml has the store and 100 kinds of damage. Each is done to a copy, and the checksums of all pages are made right again, as whoever damages a store can."""

import hashlib
import json
import shutil
import sqlite3
import struct
import sys
import tomllib
from collections import Counter
from contextlib import closing, contextmanager
from pathlib import Path
from typing import Any, Callable, Iterator
from unittest import mock

import pytest
from reporting import archive, digests, making, replay, texts

from tests.conftest import TOP
from tests.restore.counter_day import Ran, run
from tests.samples.books import changed
from tests.samples.books import REPORT, differing, made, reported
from tests.shared.checksums import size_of_pages, with_checksums
from tests.shared.counter_calls import TABLES, apply, post, rows
from tests.shared.hostile import counter, desk

ARCHIVE = TOP / "samples/restore/archive"
DATA = tomllib.loads((Path(__file__).parent / "parts/damage.toml").read_text())
KINDS: dict[str, dict[str, Any]] = {kind["name"]: kind for kind in DATA["kind"]}
#: How many of the requests an earlier report has: up to the closing of 2026-11-27.
EARLIER = 42
AS_OF = texts.read_day("2036-02-01") or 0
COMPARED = {"archive": "a", "earlier": "e"}
#: A route, and the text of a body.
Request = tuple[str, str]
UNUSED = "bytes of a page that no row has"


def history() -> list[Request]:
    numbers: Counter[int] = Counter()
    requests = []
    for of_desk, route, body in DATA["asked"]:
        numbers[of_desk] += 1
        named = {"desk": of_desk, "number": numbers[of_desk]}
        requests.append((route, json.dumps(named | json.loads(body))))
    return requests


def messages(requests: list[Request]) -> list[bytes]:
    return [post(route, json.loads(body), b"") for route, body in requests]


def change(requests: list[Request], how: str, *given: Any) -> None:
    def replace(old: str, new: str, at: range) -> None:
        assert any(old in requests[place][1] for place in at), old
        for place in at:
            route, body = requests[place]
            requests[place] = route, body.replace(old, new)

    def key_of(row: int) -> str:
        body = json.loads(requests[row - 1][1])
        return f'"desk": {body["desk"]}, "number": {body["number"]}'

    if how == "replace":
        rows_of_it = range(given[2] - 1, given[2]) if len(given) > 2 else range(len(requests))
        replace(given[0], given[1], rows_of_it)
    elif how == "pay":
        first, second = (f'"{serial}"' for serial in given)
        for place, (route, body) in enumerate(requests):
            if route == "/redeem":
                parts = [part.replace(second, first) for part in body.split(first)]
                requests[place] = route, second.join(parts)
    elif how == "desks":
        keys = [key_of(row) for row in given]
        for row, old, new in zip(given, keys, reversed(keys)):
            replace(old, new, range(row - 1, row))
    elif how == "out":
        for row in sorted(given, reverse=True):
            del requests[row - 1]
    elif how == "cut":
        del requests[given[0] - 1 :]
    elif how == "put":
        requests.insert(given[0] - 1, (given[1], given[2]))
    elif how == "move":
        requests.insert(given[1] - 1, requests.pop(given[0] - 1))
    else:
        one, other = (row - 1 for row in given)
        requests[one], requests[other] = requests[other], requests[one]


def rows_of(requests: list[Request]) -> dict[str, Any]:
    books = desk.Books()
    for message in messages(requests):
        counter.connection(books, message)
    order = {key: place for place, key in enumerate(books.kept)}
    found = dict(desk.rows_of(books))
    found["answers"] = sorted(found["answers"], key=lambda row: order[row[0], row[1]])
    return found


def write_unused(path: Path) -> None:
    """Writes a word to bytes of a page that no row has: between the pointers and the cells of a leaf of a table."""
    data = bytearray(path.read_bytes())
    size = size_of_pages(data)
    for at in range(size, len(data), size):
        cells, content = struct.unpack(">HH", data[at + 3 : at + 7])
        gap = at + 8 + 2 * cells
        if data[at] == 13 and at + content - gap >= 40:
            data[gap + 8 : gap + 16] = b"unnamed!"
            path.write_bytes(data)
            return
    raise AssertionError("no page has room")


def rewrite(path: Path, changes: list[list[Any]], tables: tuple[str, ...]) -> None:
    requests = history()
    for one in changes:
        change(requests, *one)
    with closing(sqlite3.connect(path, isolation_level=None)) as base:
        for table, found in rows_of(requests).items():
            if table in tables:
                base.execute(f"DELETE FROM {table}")
                places = ", ".join("?" * len(found[0])) if found else ""
                base.executemany(f"INSERT INTO {table} VALUES ({places})", found)


class Case:
    """The store by the program, with an archive from its first request on, one that begins with a copy of 24, and a report after 42 of the 52."""

    def __init__(self, program: Path, folder: Path) -> None:
        self.program, self.folder, self.store = program, folder, folder / "day.db"
        self.archive, self.late = folder / "archive", folder / "late"
        self.earlier = folder / "earlier"
        requests = messages(history())
        run(program, "export", "11", "--db", self.store).check_returncode()
        self.keep(self.archive)
        answers = apply(program, self.store, requests[:24])
        self.keep(self.late)
        answers += apply(program, self.store, requests[24:EARLIER])
        made(self.store, self.earlier, "--as-of", "2026-11-27")
        answers += apply(program, self.store, requests[EARLIER:])
        self.keep(self.archive, self.late)
        assert Counter(status for status, _ in answers) == {200: 40, 409: 12}
        counts = {table: len(rows(self.store, f"SELECT * FROM {table}")) for table in TABLES}
        assert counts == {table: len(found) for table, found in rows_of(history()).items()}

    def keep(self, *folders: Path) -> None:
        for folder in folders:
            folder.mkdir(exist_ok=True)
            run(sys.executable, ARCHIVE, self.store, folder).check_returncode()

    def reported(self, path: Path) -> making.Report:
        """A report that is compared with the archive and the earlier report."""
        private = path.parent / "archive"
        private.mkdir()
        copied = archive.copy_of_archive(str(self.archive), str(private))
        before = tuple(digests.read_earlier(str(self.earlier / "report.json")))
        return reported(path, making.Asked(as_of=AS_OF, archives=(copied,), earlier=before))

    def damaged(self, kind: dict[str, Any], folder: Path) -> Path:
        path = changed(self.store, folder / "damaged.db", *kind.get("sql", ()))
        for name, tables in (("requests", TABLES), ("books", TABLES[:-1])):
            if name in kind:
                rewrite(path, kind[name], tables)
        if kind.get("name") == UNUSED:
            write_unused(path)
        assert path.read_bytes() != self.store.read_bytes()
        return path

    def found_by(self, kind: dict[str, Any], folder: Path) -> str:
        """The letters of those that find it: opening, the report, with the archive, with the earlier report."""
        path = self.damaged(kind, folder)
        with_checksums(path)
        names = set(differing(self.reported(path)))
        assert not names & {"file", "checksums"}
        letters = [COMPARED.get(name, "r") for name in names] + ["o"] * self.refuses(path)
        return "".join(letter for letter in "orae" if letter in letters)

    def refuses(self, path: Path) -> bool:
        status = run(self.program, "export", "11", "--db", path).returncode
        assert status in (0, 3)
        return status == 3


@pytest.fixture(scope="module")
def case(program: Path, place: Path) -> Case:
    return Case(program, place)


def test_counts() -> None:
    """What docs/AUDIT.md says of 100 kinds: with both comparisons the report misses two."""
    found = Counter(letter for kind in KINDS.values() for letter in kind["found_by"])
    together = [name for name, kind in KINDS.items() if not set(kind["found_by"]) & set("rae")]
    assert len(KINDS) == len(DATA["kind"]) == 100
    assert together == ["a refusal is put at the end", UNUSED]
    cells = " | ".join(str(found[letter]) for letter in "orae")
    assert f"| {cells} | 98 |" in (TOP / "docs/AUDIT.md").read_text()


@pytest.mark.parametrize("name", KINDS)
def test_damage(case: Case, folder: Path, name: str) -> None:
    assert case.found_by(KINDS[name], folder) == KINDS[name]["found_by"]


def test_control_nothing_is_damaged(case: Case, folder: Path, tmp_path: Path) -> None:
    """Of the store as it was made, and as it is written again, nothing differs."""
    found = case.reported(Path(shutil.copy(case.store, folder / "copy.db")))
    tested = {test["name"]: test["tested"] for test in found["tests"]}
    assert differing(found) == {} and (tested["archive"], tested["earlier"]) == (52, 8)
    assert not case.refuses(folder / "copy.db")
    assert case.found_by({"requests": []}, tmp_path) == ""


def test_control_wrong_checksums(case: Case, folder: Path) -> None:
    """Damage without right checksums is found by them, and not opened."""
    path = case.damaged(KINDS["the owner of an unpaid bond, in its request too"], folder)
    assert "checksums" in differing(case.reported(path)) and case.refuses(path)


COMPARISONS = [
    (archive, "compare_requests", "a serial number of a refused request", ""),
    (digests, "earlier_digests_are_there", "the days since 2025 are undone", "a"),
    (replay, "compare_bonds", "the owner of an unpaid bond", ""),
]


@pytest.mark.parametrize("module, function, name, left", COMPARISONS)
def test_control_without_a_comparison(
    case: Case, folder: Path, module: object, function: str, name: str, left: str
) -> None:
    with mock.patch.object(module, function):
        assert case.found_by(KINDS[name], folder) == left != KINDS[name]["found_by"]


def test_later_row(case: Case, folder: Path) -> None:
    found = case.reported(case.damaged(KINDS["a refusal is put at the end"], folder))
    (archived,) = [test for test in found["tests"] if test["name"] == "archive"]
    assert archived["remarks"][0].startswith("Row 53 of the store is behind the end of this arch")


def audited(case: Case, to: Path, *more: object) -> Ran:
    archives = ("--archive", case.archive, "--archive", case.late)
    earlier = more or ("--earlier", case.earlier / "report.json")
    return run(REPORT, case.store, "--to", to, "--as-of", "2036-02-01", *archives, *earlier)


def test_whole_report(case: Case, tmp_path: Path) -> None:
    """It names all that it read; its digests are those of the paragraph in docs/AUDIT.md, computed here by SQL and SHA-256."""
    ran = audited(case, tmp_path)
    assert ran.returncode == 0, ran
    found = json.loads((tmp_path / "report.json").read_text())
    tested = {test["name"]: test["tested"] for test in found["tests"]}
    assert (tested["archive"], tested["archive-2"]) == (52, 52)
    names = [one["name"] for one in found["files"] if not one["name"].endswith("-wal")]
    kept = ["archive: end.json", "archive: requests.jsonl"]
    assert names == ["day.db", *kept, *kept, "archive: first.db", "earlier: report.json"]
    lines = rows(case.store, "SELECT desk, number, act, reply FROM answers ORDER BY rowid")
    before, after = "0" * 64, 0
    for one in found["digests"]:
        part = [before, *(" ".join(map(str, line)) for line in lines[after : one["requests"]])]
        before = hashlib.sha256("".join(f"{x}\n" for x in part).encode()).hexdigest()
        after = one["requests"]
        assert one["sha256"] == before
    days = " ".join(f"{one['day']}:{one['requests']}" for one in found["digests"])
    before_2020 = "2011-03-07:9 2011-03-08:15 2012-11-05:21 2016-06-01:23 2016-06-02:31"
    assert days == f"{before_2020} 2025-05-01:35 2026-11-27:42 2031-09-02:47 None:52"
    ran = audited(case, tmp_path, "--earlier", case.store)
    assert ran.returncode == 3 and "Traceback" not in ran.stderr, "an earlier report that is none"


ARCHIVES: dict[str, tuple[Callable[[list[bytes]], list[bytes]], int, str]] = {
    "a payee": (lambda a: [x.replace(b'"payee":12', b'"payee":13') for x in a], 1, "archive: "),
    "a line less": (lambda a: a[:20] + a[21:], 1, "archive: "),
    "a line twice": (lambda a: a[:20] + a[19:], 1, "archive: "),
    "no last line": (lambda a: a[:-1], 1, "archive: "),
    "a line that is none": (lambda a: [*a[:20], b"{}\n", *a[20:]], 1, "archive: "),
    "a cut line, which is a remark": (lambda a: [*a, b'{"before":"'], 0, "has no end"),
    "no lines at all": (lambda a: [], 3, "requests.jsonl"),
}


@contextmanager
def changed_file(path: Path, data: bytes) -> Iterator[None]:
    """A file with other bytes, or without any none."""
    whole = path.read_bytes()
    try:
        path.write_bytes(data) if data else path.unlink()
        yield
    finally:
        path.write_bytes(whole)


@pytest.mark.parametrize("name", ARCHIVES)
def test_changed_archive(case: Case, tmp_path: Path, name: str) -> None:
    alter, status, said = ARCHIVES[name]
    path = case.archive / "requests.jsonl"
    lines = alter(path.read_bytes().splitlines(keepends=True))
    with changed_file(path, b"".join(lines)):
        ran = audited(case, tmp_path)
    assert ran.returncode == status and said in ran.stdout + ran.stderr, ran


def test_changed_first_copy(case: Case, tmp_path: Path) -> None:
    first = case.late / "first.db"
    with changed_file(first, first.read_bytes()[:-1] + b"?"):
        ran = audited(case, tmp_path)
    assert ran.returncode == 1 and "first.db" in ran.stdout, ran
