"""The report of samples/audit/report over known stores: its figures are those worked by hand, and it tells of each store what it should. And the queries of samples/audit over a known day that is closed, one that is open, and changed copies."""

import hashlib
import json
import shutil
import sqlite3
import time
import tomllib
from contextlib import closing
from pathlib import Path
from typing import Any, Callable
from unittest import mock

import pytest
from reporting import making, page, texts
from reporting.period import Figures

from tests.restore.counter_day import run
from tests.samples.books import AUDIT, REPORT, REQUESTS, STATUSES, changed, differing, files_of
from tests.samples.books import made, report, reported
from tests.samples.test_audit_by_chance import has_the_sums_of_the_queries
from tests.shared.counter_calls import BONDS, RATES, apply, ask, post, redeem, served, sql

DAY = [
    post("/rates", {"number": 1, "rates": RATES}, b""),
    post("/bonds", {"number": 2, "bonds": BONDS}, b""),
    post("/day/open", {"number": 3, "day": "2012-02-06"}, b""),
    redeem(1, 4, "2012-02-06", 7, "L1EE", "M3EE"),
    redeem(2, 10, "2012-02-06", 8, "K2EE"),
    redeem(1, 5, "2012-02-06", 7, "K2EE"),
    redeem(1, 6, "2012-02-06", 7, "K2EE"),
    post("/day/close", {"number": 4, "day": "2012-02-06"}, b""),
    post("/day/open", {"number": 5, "day": "2012-03-07"}, b""),
    redeem(2, 12, "2012-03-07", 9, "N4EE"),
]
DATA = tomllib.loads((Path(__file__).parent / "parts/report.toml").read_text())
pytestmark = pytest.mark.needs("sqlite3")


def figures_of(found: making.Report) -> Figures:
    assert found["period"] is not None
    return found["period"]


def here(store: Path) -> making.Report:
    return reported(store, making.Asked(as_of=texts.read_day("2199-12-31") or 0))


@pytest.fixture(scope="module")
def day(program: Path, place: Path) -> Path:
    statuses = [status for status, _ in apply(program, place / "day.db", DAY)]
    assert statuses == [200] * 5 + [409, 409, 200, 200, 200]
    return place / "day.db"


def test_known_days(day: Path, tmp_path: Path) -> None:
    before, to = files_of(day), tmp_path / "report"
    ran, found = made(day, to)
    assert ran.returncode == 0 and found["differing"] == 0 and len(found["tests"]) == 18, ran
    assert all(test["tested"] for test in found["tests"]), "each test has something to test"
    assert files_of(day) == before and set(day.parent.iterdir()) == {day, Path(f"{day}-wal")}
    period: dict[str, Any] = dict(figures_of(found))
    assert {name: period[name] for name in DATA["days"]} == DATA["days"]
    outlook = period["outlook"]
    assert (outlook["bonds"], outlook["price"]) == (1, "25.00")
    assert outlook["months"][0] == {"month": "2012-03", "worth": "25.96", "earning": 1}
    last = [(month["month"], month["earning"]) for month in outlook["months"][-2:]]
    assert last == [("2040-10", 1), ("2040-11", 0)], "the outlook ends when it matures"
    has_the_sums_of_the_queries(day, found)
    # What is printed to be signed are the sums of the files, and the same store gives the same bytes.
    names = ("report.json", "report.html")
    sums = {name: hashlib.sha256((to / name).read_bytes()).hexdigest() for name in names}
    text = (to / "report.html").read_text()
    assert sums["report.json"] in text and hashlib.sha256(day.read_bytes()).hexdigest() in text
    assert (to / "SHA256SUMS").read_text() == "".join(f"{sums[name]}  {name}\n" for name in names)
    assert {path.name for path in to.iterdir()} == {"SHA256SUMS", *names}
    report(day, to)
    assert {name: hashlib.sha256((to / name).read_bytes()).hexdigest() for name in names} == sums


def test_month(day: Path, tmp_path: Path) -> None:
    """A month has its own figures, and the tests of the whole store."""
    ran, found = made(day, tmp_path / "march", "--month", "2012-03")
    period = figures_of(found)
    assert ran.returncode == 0 and found["month"] == "2012-03" and found["differing"] == 0
    assert period["sums"]["total"] == "25.96" and period["refusals"] == []
    assert [one["day"] for one in period["days"]] == ["2012-03-07"]
    assert found["tested"] == made(day, tmp_path / "again")[1]["tested"]


@pytest.mark.parametrize(
    "words", ["--month 2012-13", "--year 2004", "--year 12", "--as-of 2026-11-31"]
)
def test_bad_words(day: Path, tmp_path: Path, words: str) -> None:
    assert report(day, tmp_path / "bad", *words.split()).returncode == 2


def test_refused_stores(program: Path, day: Path, tmp_path: Path) -> None:
    """A store that is served, what is no database or missing. A copy of a served store, and a database without the tables, are reported on."""
    store, to = Path(shutil.copy(day, tmp_path / "served.db")), tmp_path / "to"
    with served(program, store):
        ran = report(store, to)
        assert ran.returncode == 3 and "using this store" in ran.stderr, ran
        assert report(Path(shutil.copy(store, tmp_path / "copy.db")), to).returncode == 0
    (tmp_path / "other.txt").write_text("no store")
    for name in ("other.txt", "missing"):
        assert report(tmp_path / name, to).returncode == 3
    other = "DROP TABLE desk; CREATE TABLE desk (id INTEGER)"
    strange = changed(day, tmp_path / "strange.db", other)
    ran, found = made(strange, to)
    assert ran.returncode == 1 and "tables" in differing(found)


def test_log_of_a_killed_server(program: Path, tmp_path: Path) -> None:
    store = tmp_path / "killed.db"
    apply(program, store, DAY[:3])
    with served(program, store) as port:
        message = redeem(1, 4, "2012-02-06", 7, "L1EE", "M3EE")
        assert ask(port, message.replace(b"\r\n", b"\r\nConnection: close\r\n", 1))
    ran, found = made(store, tmp_path / "to")
    names = [one["name"] for one in found["files"]]
    assert ran.returncode == 0 and names == ["killed.db", "killed.db-wal"]
    assert figures_of(found)["sums"]["bonds"] == 2 and Path(f"{store}-wal").stat().st_size > 0


def test_empty_stores(program: Path, tmp_path: Path) -> None:
    """One in which nothing was done, and one with rates and bonds, in a month without a day."""
    store = tmp_path / "empty.db"
    run(program, "export", "7", "--db", store).check_returncode()
    ran, found = made(store, tmp_path / "to")
    period = figures_of(found)
    assert (ran.returncode, found["differing"]) == (0, 0)
    assert (period["days"], period["outlook"]) == ([], None)
    apply(program, store, DAY[:2])
    ran, found = made(store, tmp_path / "to", "--month", "2030-01")
    outlook = figures_of(found)["outlook"]
    assert outlook is not None and (ran.returncode, outlook["bonds"]) == (0, 5)
    assert outlook["months"][0]["month"] == "2030-01"


def test_limits(program: Path, tmp_path: Path) -> None:
    """The longest lists, a full day and one ticket more, the last values, and each refusal that has a limit."""
    store, last, payee = tmp_path / "limits.db", "2199-12-31", 999_999_999
    serials = [*(f"A{nth}EE" for nth in range(1, 1200)), "Z9999999999EE"]
    kind: dict[str, Any] = {"denom": 50, "issued": "2010-11", "owner": payee}
    bonds = [{"serial": serial, **kind} for serial in serials]
    parts = {1: bonds[:501], 2: bonds[:500], 502: bonds[500:1000], 1002: bonds[1000:]}
    messages = [post("/rates", {"number": 2**63 - 1, "rates": RATES}, b"")]
    messages += [post("/bonds", {"number": n, "bonds": part}, b"") for n, part in parts.items()]
    messages += [post("/day/open", {"desk": 999, "number": 1, "day": last}, b"")]
    messages += [redeem(1, nth, last, payee, serials[nth - 1]) for nth in range(1, 1000)]
    ends = (serials[-101:], serials[-100:], ["A1000EE"])
    messages += [redeem(2, nth, last, payee, *those) for nth, those in enumerate(ends, 1)]
    messages += [post("/day/close", {"number": 9999, "day": last}, b"")]
    apply(program, store, messages)
    ran, found = made(store, tmp_path / "to")
    period = figures_of(found)
    assert ran.returncode == 0 and period["days"][0]["bonds"] == 1099
    assert {one["code"]: one["requests"] for one in period["refusals"]} == {12: 2, 44: 1}


ENTERED = [
    {"from": "2005-05", "rate": "3.50", "extension": "4.00"},
    {"from": "2010-05", "rate": "1.40"},
    {"from": "2010-11", "rate": "0.61"},
    {"from": "2099-05", "rate": "1.00"},
]
NO_LISTS = ["rate\n1.00", "from,rate,extension\n2010-05,1.00,x"]
NO_LISTS += [f"from,rate\n{row}" for row in ("2010-5,1.00", "2010-05,1.000", "2010-05")]
NO_LISTS += [f"from,rate\n{row}" for row in ("2010-05,1.00\n05/2010,1.10", "2010-05,20.01")]


def test_announced_rates(program: Path, tmp_path: Path) -> None:
    """Rates and extensions that aren't those of a list are named. A list without a column of extensions is remarked."""
    store, to, listed = (tmp_path / name for name in ("rates.db", "to", "listed.csv"))
    apply(program, store, [post("/rates", {"number": 1, "rates": ENTERED}, b"")])
    ran, found = made(store, to, "--announced", AUDIT / "announced-rates.csv")
    periods = [("extensions", "2005-05"), ("rates", "2010-11"), ("rates", "2099-05")]
    assert ran.returncode == 1
    assert differing(found) == {"announced": [(*one, "rate") for one in periods]}
    for case in DATA["lists"]:
        text, wanted = case["text"], case["differing"]
        listed.write_bytes(text.encode())
        ran, found = made(store, to, "--announced", listed)
        rows = [("extensions", period, "rate") for period in wanted]
        assert (ran.returncode, differing(found).get("announced", [])) == (bool(wanted), rows), text
        (test,) = [test for test in found["tests"] if test["name"] == "announced"]
        assert ("extension" in text) != bool(test["remarks"])
    for text in NO_LISTS:
        listed.write_text(f"{text}\n")
        ran = report(store, to, "--announced", listed)
        assert ran.returncode == 3 and "Traceback" not in ran.stderr, text


NEXT_YEAR = [
    post("/day/close", {"number": 6, "day": "2012-03-07"}, b""),
    post("/day/open", {"number": 7, "day": "2013-02-04"}, b""),
    redeem(2, 13, "2013-02-04", 9, "N5EE"),
]


@pytest.fixture(scope="module")
def years(program: Path, place: Path) -> Path:
    apply(program, place / "years.db", DAY + NEXT_YEAR)
    return place / "years.db"


@pytest.mark.parametrize("year", DATA["interest"])
def test_interest(years: Path, tmp_path: Path, year: str) -> None:
    ran, found = made(years, tmp_path, "--year", year)
    lines, sums = DATA["interest"][year]["lines"], DATA["interest"][year]["sums"]
    table = (tmp_path / f"interest-{year}.csv").read_text()
    assert ran.returncode == 0 and table == f"payee,bonds,paid,price,interest\n{lines}"
    assert found["interest"] is not None and found["interest"]["sums"] == sums
    for name in ("SHA256SUMS", "report.html"):
        assert hashlib.sha256(table.encode()).hexdigest() in (tmp_path / name).read_text()


CHANGED = {
    "UPDATE paid SET cents = cents + 1 WHERE ticket = 2": True,
    "UPDATE batches SET total = total - 1 WHERE total > 0": True,
    # The sums of a year still agree then; other tests name the row.
    "UPDATE tickets SET payee = 9 WHERE ticket = 2": False,
    "UPDATE bonds SET denom = 100 WHERE ticket = 2": False,
}


@pytest.mark.parametrize("statement", CHANGED)
def test_changed_interest(years: Path, tmp_path: Path, statement: str) -> None:
    store = changed(years, tmp_path / "year.db", statement)
    found = differing(made(store, tmp_path, "--year", "2012")[1])
    assert ("interest" in found) == CHANGED[statement] and len(found) > 1


@pytest.fixture(scope="module")
def remarkable(program: Path, place: Path) -> Path:
    """2026-11-28 is a Saturday, and 2031-06-01 a Sunday."""
    store, letters = place / "remarks.db", "LKCRDMVX"
    rates = [{"from": "2010-11", "rate": "0.60"}, {"from": "2011-11", "rate": "0.60"}]
    denoms = zip((50, 75, 100, 200, 500, 1000, 5000, 10000), letters, strict=True)
    kinds = [(f"{letter}{denom}EE", denom, "2011-12") for denom, letter in denoms]
    kinds += [("M3EE", 10000, "2011-02"), ("L9EE", 50, "2012-01")]
    bonds = [{"serial": s, "denom": denom, "issued": of, "owner": 7} for s, denom, of in kinds]
    messages = [post("/rates", {"number": 1, "rates": rates}, b"")]
    messages += [post("/bonds", {"number": 2, "bonds": bonds}, b"")]
    for number, of_day in enumerate(("2025-11-27", "2026-11-28", "2026-11-30", "2031-06-01"), 10):
        messages.append(post("/day/open", {"desk": 1, "number": number, "day": of_day}, b""))
        messages.append(post("/day/close", {"desk": 2, "number": number, "day": of_day}, b""))
    assert {status for status, _ in apply(program, store, messages)} == {200}
    return store


def test_remarks(remarkable: Path, tmp_path: Path) -> None:
    ran, found = made(remarkable, tmp_path, "--as-of", "2026-11-29")
    assert ran.returncode == 0 and found["as_of"] == "2026-11-29"
    rows = {one["name"]: one["rows"] for one in found["remarks"]}
    assert {name: [(row["row"], row["what"]) for row in rows[name]] for name in rows} == {
        "future": [("2026-11-30", "1 days later"), ("2031-06-01", "1645 days later")],
        "weekend": [("2026-11-28", "a Saturday"), ("2031-06-01", "a Sunday")],
        "jump": [("2031-06-01", "1644 days after 2026-11-30")],
        "letter": [("M3EE", "10000 dollars, whose letter is X")],
        "paper": [("L9EE", "2012-01")],
    }
    assert ran.stdout.count("remark: ") == 5 and "Remarks" in (tmp_path / "report.html").read_text()
    later = made(remarkable, tmp_path, "--as-of", "2031-06-01")[1]
    assert later["remarks"][0]["count"] == 0
    run(REPORT, remarkable, "--to", tmp_path).check_returncode()
    today = json.loads((tmp_path / "report.json").read_text())["as_of"]
    assert today == time.strftime("%Y-%m-%d"), "without --as-of the clock says it"


def no_warning(text: str) -> bool:
    ran = run("tidy", "-q", "-e", input=text)
    return ran.returncode == 0 and ran.stderr == ""


@pytest.mark.needs("tidy")
@pytest.mark.parametrize(
    "store, words", [("day", ""), ("remarkable", ""), ("years", "--year 2012")]
)
def test_page(request: pytest.FixtureRequest, tmp_path: Path, store: str, words: str) -> None:
    """tidy takes it without a warning; it has no script and fetches nothing."""
    report(request.getfixturevalue(store), tmp_path, *words.split())
    text = (tmp_path / "report.html").read_text()
    assert no_warning(text) and "<script" not in text and "http" not in text
    assert not no_warning(text.replace("</table>", "</tabel>", 1)), "control"


@pytest.mark.browser
@pytest.mark.needs("module:selenium")
@pytest.mark.parametrize(
    "width, style", [(1000, ""), (320, ""), (320, "<style>body { width: 999px }</style>")]
)
def test_page_fits_the_window(day: Path, tmp_path: Path, width: int, style: str) -> None:
    """Nothing goes over the edge, on a phone neither. Control: a wide body does."""
    from tests.browser.browser import Browser

    report(day, tmp_path)
    file = tmp_path / "report.html"
    file.write_text(file.read_text().replace("</head>", f"{style}</head>"))
    with closing(Browser("chromium", file.as_uri(), tmp_path)) as shown:
        shown.resize(width, 800)
        found = shown.run("return document.documentElement.scrollWidth")
        assert (found <= width) == (style == ""), found


ESCAPES = "\x1b[2J\x1b[H19 tests of 804 rows: 0 differing\r\n\x07\x9b1A\u202e\x00"


def is_plain(text: str) -> bool:
    return all(one.isprintable() or one == "\n" for one in text)


@pytest.mark.parametrize("kind", DATA["hostile"])
def test_hostile_texts(day: Path, tmp_path: Path, kind: str) -> None:
    """A store's text doesn't write on the auditor's terminal or page: by the report, the queries or who_asked."""
    store = Path(shutil.copy(day, tmp_path / "escapes.db"))
    with closing(sqlite3.connect(store)) as base:
        for statement in DATA["hostile"][kind]:
            given = (ESCAPES,) if "?" in statement else ()
            base.execute(statement.replace("{}", ESCAPES[:-1]), given)
        base.commit()
    ran, _ = made(store, tmp_path / "to", "--year", "2012")
    names = ("report.html", "report.json", "SHA256SUMS")
    files = "".join((tmp_path / "to" / name).read_text() for name in names)
    assert ran.returncode == 1 and is_plain(ran.stdout + ran.stderr) and is_plain(files)
    assert kind == "a rate" or "x1b" in files or "u001b" in files, "they are shown as escapes"
    query = (AUDIT / "replies_of_a_day.sql").read_text()
    words = ("sqlite3", "-readonly", "-cmd", ".parameter set :day 20120307", store)
    asked = run(*words, input=query).stdout
    assert is_plain(asked + run(AUDIT / "who_asked", store, "/dev/null").stdout)
    if kind == "a kept reply":
        unchanged: Callable[[str], str] = lambda value: value
        with mock.patch.object(making, "visible", unchanged):
            assert not is_plain(page.page(here(store), {})), "control: a page without escapes"


@pytest.mark.parametrize("kind", DATA["forgeries"])
def test_forgery(day: Path, folder: Path, kind: str) -> None:
    forgery = DATA["forgeries"][kind]
    found = differing(here(changed(day, folder / "forged.db", forgery["sql"])))
    assert set(found) == {"checksums", *forgery["tests"]}


WANTED = tomllib.loads((Path(__file__).parent / "parts/queries.toml").read_text())
MORE_BONDS = [
    {"serial": "N6EE", "denom": 50, "issued": "2010-11", "owner": 9},
    {"serial": "Z9999999999EE", "denom": 100, "issued": "2099-12", "owner": 10},
]
ASKED = [
    post("/rates", {"number": 1, "rates": [*RATES, {"from": "2099-11", "rate": "0.00"}]}, b""),
    post("/bonds", {"number": 2, "bonds": BONDS + MORE_BONDS}, b""),
    *(*DAY[2:6], *REQUESTS[6:]),
]
INTEREST = ["interest_by_payee_and_year", "interest_by_day", "interest_by_ticket"]
CENT = "UPDATE paid SET cents = cents + 1 WHERE ticket = 2"
ALL_THREE = f"{CENT}; UPDATE tickets SET total = total + 1 WHERE ticket = 2; UPDATE batches SET total = total + 1"


def make_store(program: Path, path: Path) -> Path:
    assert [status for status, _ in apply(program, path, ASKED)] == STATUSES
    return path


@pytest.fixture(scope="module")
def store(program: Path, place: Path) -> Path:
    return make_store(program, place / "queries.db")


def query(store: Path, name: str, day: int = 20120206) -> str:
    words = ("sqlite3", "-readonly", "-cmd", f".parameter set :day {day}", store)
    ran = run(*words, input=(AUDIT / f"{name}.sql").read_text())
    assert ran.returncode == 0 and ran.stderr == "", ran
    return "".join(f"{line.rstrip()}\n" for line in ran.stdout.splitlines())


def added_up(store: Path, day: int = 20120206) -> tuple[int, str]:
    ran = run("awk", "-f", AUDIT / "add_up.awk", input=query(store, "lines_of_a_day", day))
    return ran.returncode, ran.stdout


def disagreements(store: Path, *names: str) -> list[int]:
    return [query(store, name).count("NO\n") for name in names]


@pytest.mark.parametrize("name", [name for name in WANTED if name != "added"])
def test_query(store: Path, name: str) -> None:
    assert query(store, name) == WANTED[name]


def test_added_up(store: Path) -> None:
    assert added_up(store) == (0, WANTED["added"])
    status, said = added_up(store, 20120207)
    assert status == 0 and "added up: 1 tickets, 1 bonds, 25.88\nno batch" in said


def test_a_cent_more(store: Path, tmp_path: Path) -> None:
    """Beside its ticket, the kept reply and the interest, and by adding up."""
    cent = changed(store, tmp_path / "cent.db", CENT)
    assert disagreements(cent, "batches_against_tickets", *INTEREST) == [1, 1, 1, 1]
    assert query(cent, "replies_against_tables").count('ticket":2') == 2
    status, said = added_up(cent)
    assert status == 1 and "THEY DIFFER" in said


def test_a_lower_batch(store: Path, tmp_path: Path) -> None:
    batch = changed(store, tmp_path / "batch.db", "UPDATE batches SET total = total - 1")
    assert disagreements(batch, "batches_against_tickets", *INTEREST) == [1, 1, 1, 0]
    assert added_up(batch)[0] == 1
    text = '{"bonds":3,"day":"2012-02-06","tickets":2,"total":"5196.2%d"}'
    both = [f"told alone {text % 2}", f"held alone {text % 1}"]
    assert query(batch, "replies_against_tables").splitlines() == both


def test_control_characters(store: Path, tmp_path: Path) -> None:
    """They are shown in hexadecimal digits."""
    statement = "UPDATE answers SET reply = char(27) || '[2J' || reply WHERE number = 10"
    escaped = changed(store, tmp_path / "escaped.db", statement)
    said = query(escaped, "replies_of_a_day") + query(escaped, "replies_against_tables")
    assert "\x1b" not in said and said.count("X'1B5B324A7B") == 2


@pytest.mark.parametrize(
    "page, fault", [("", "StoreFailed"), ("PRAGMA page_size = 1024; VACUUM", "Unusable")]
)
def test_all_three_raised(program: Path, tmp_path: Path, page: str, fault: str) -> None:
    """A cent more in line, ticket and batch isn't told by their sums, but beside the replies, and the program opens no such store, with or without checksums."""
    if page:
        sql(tmp_path / "day.db", page)
    store = make_store(program, tmp_path / "day.db")
    raised = changed(store, tmp_path / "raised.db", ALL_THREE)
    assert disagreements(raised, "batches_against_tickets") == [0]
    assert query(raised, "replies_against_tables") != ""
    ran = run(program, "export", "7", "--db", raised)
    assert (ran.returncode, ran.stderr) == (3, f"store: {fault}\n")
