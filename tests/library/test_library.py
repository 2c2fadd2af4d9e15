"""The built library of values: from C and C++ by each compiler, from COBOL and Python, beside the published values, arithmetic of the tests' own, and the program."""

import array
import ctypes
import datetime
import decimal
import doctest
import importlib
import os
import random
import subprocess
import sys
from concurrent.futures import ThreadPoolExecutor
from pathlib import Path
from typing import Any, Callable, Iterator, Sequence

import pytest

from tests.conftest import TOP
from tests.samples.books import script
from tests.shared import exact
from tests.shared.counter_calls import csv_rows, done, run

VALUE, OUT = TOP / "clients/value", TOP / "clients/value/out"
HERE = Path(__file__).resolve().parent
DATA = TOP / "crates/published_values/data"
PUBLISHED, RATES = DATA / "published-values.csv", DATA / "rates.csv"
pytestmark = pytest.mark.needs("file:clients/value/out/libee_value.a")
Question = tuple[int, int, int, int, int]
WARNINGS = ["-Wall", "-Wextra", "-Wpedantic", "-Wshadow", "-Wconversion", "-Werror"]
STATIC = str(OUT / "libee_value.a")


def compiled(folder: Path, *words: str) -> Path:
    done(*words, *WARNINGS, f"-I{TOP / 'include'}", "-o", folder / "program")
    return folder / "program"


def compared(program: Path, values: Path = PUBLISHED, rates: Path = RATES) -> None:
    """check.c: each published value at 8 denominations by 4 functions, refusals, borders, texts and lists."""
    said = run(program, values, rates, env={**os.environ, "LD_LIBRARY_PATH": str(OUT)}).stdout
    assert said.endswith(" lists: 0 wrong\n"), said[-500:]
    assert "compared 8256 published values" in said


SOURCE = str(HERE / "check.c")
SANITIZED = ["-g", "-fsanitize=address,undefined", "-fno-sanitize-recover=all"]
#: By name: the compiler's words, with the library.
WAYS: dict[str, list[str]] = {
    "unoptimized": ["-O0", "-std=c11", SOURCE, STATIC],
    "optimized": ["-O2", "-std=c11", SOURCE, STATIC],
    "static": ["-O2", "-std=c11", "-static", SOURCE, STATIC],
    "shared": ["-O2", "-std=c11", SOURCE, f"-L{OUT}", "-lee_value"],
    "sanitized": ["-O1", "-std=c11", *SANITIZED, SOURCE, STATIC],
    "C++": ["-O2", "-std=c++11", "-x", "c++", SOURCE, "-x", "none", STATIC],
}


COMPILERS = [pytest.param(name, marks=pytest.mark.needs(name)) for name in ("gcc", "clang")]


@pytest.mark.parametrize("way", WAYS)
@pytest.mark.parametrize("compiler", COMPILERS)
def test_compiler(tmp_path: Path, compiler: str, way: str) -> None:
    if way == "C++":
        compiler = {"gcc": "g++", "clang": "clang++"}[compiler]
    compared(compiled(tmp_path, compiler, *WAYS[way]))


@pytest.mark.parametrize("standard", ["c99", "c11", "c17"])
def test_header(tmp_path: Path, standard: str) -> None:
    (tmp_path / "header.c").write_text('#include "ee_value.h"\n')
    compiled(tmp_path, "cc", f"-std={standard}", "-c", str(tmp_path / "header.c"))


@pytest.mark.needs("aarch64-linux-gnu-gcc", "qemu-aarch64", "file:clients/value/out/aarch64")
@pytest.mark.parametrize("library", [str(OUT / "aarch64/libee_value.a"), f"-L{OUT}/aarch64"])
def test_aarch64(tmp_path: Path, library: str) -> None:
    words = ["aarch64-linux-gnu-gcc", "-O2", "-std=c11", SOURCE, library]
    program = compiled(tmp_path, *words, *(["-lee_value"] if library.startswith("-L") else []))
    path = ("-E", f"LD_LIBRARY_PATH={OUT}/aarch64")
    root = ("-L", "/usr/aarch64-linux-gnu")
    assert " 0 wrong" in done("qemu-aarch64", *root, *path, program, PUBLISHED, RATES)


def test_compared_with_wrong_values(tmp_path: Path) -> None:
    """Control: a published value that is a cent more, and the rate of another period."""
    program = compiled(tmp_path, "cc", *WAYS["optimized"])
    text, rates = PUBLISHED.read_text(), RATES.read_text()
    last, cents = text.rstrip().rsplit(",", 1)
    more, other = f"{last},{int(cents) + 1}\n", rates.replace("3.20", "3.30")
    for wrong, of_rates in ((more, rates), (text, other)):
        (tmp_path / "values.csv").write_text(wrong)
        (tmp_path / "rates.csv").write_text(of_rates)
        with pytest.raises(AssertionError, match="[1-9][0-9]* wrong"):
            compared(program, tmp_path / "values.csv", tmp_path / "rates.csv")


def test_example_in_C(tmp_path: Path) -> None:
    program = compiled(tmp_path, "cc", str(VALUE / "examples/bond.c"), STATIC)
    assert done(program) == "52.02\n"


@pytest.mark.needs("cobc")
def test_example_in_COBOL(tmp_path: Path) -> None:
    program = tmp_path / "bondcob"
    done("cobc", "-x", "-o", program, VALUE / "examples/bond.cob", STATIC)
    assert run(program, input="202611\n200610\n201313\n").stdout.splitlines() == [
        "202611 pays         52.02 note 0 until 203511",
        "200610 pays          0.00 note 2 until 203511",
        "201313 refused: the month is no month from 200505 to 219912",
    ]


def test_example_of_an_inventory(tmp_path: Path, dice: random.Random) -> None:
    """The sums of prices, interest, values and payable values of 20,000 random bonds are those of the tests' own arithmetic; a bond without a rate is refused."""
    number = {"from": "-", "rate": "."}
    terms = [[int(it[n].replace(c, "")) for n, c in number.items()] for it in csv_rows(RATES)]
    text, sums = "serial,denom,issued,owner,coowner\nB1EE,50,2099-12,7,\n", [0] * 4
    for k in range(20_000):
        dollars = dice.choice(exact.DOLLARS)
        issued = exact.number_of(dice.randrange(12 * 2005 + 4, 12 * 2021 + 4))
        year, month = divmod(issued, 100)
        written = f"{year}-{month:02}" if k % 3 else f"{month:02}/{year}"
        text += f"A{k + 1}EE,{dollars},{written},{k % 9 + 1},\n"
        rate = [rate for start, rate in terms if start <= issued][-1]
        row = exact.row(dollars, issued, 202607, rate, rate)
        sums = [total + cents for total, cents in zip(sums, row)]
    (tmp_path / "bonds.csv").write_text(text)
    words = (VALUE / "examples/inventory.py", tmp_path / "bonds.csv", RATES, "2026-07")
    ran = run(sys.executable, *words, env={**os.environ, "PYTHONPATH": str(VALUE)})
    names = ("price", "interest", "value", "payable")
    cents = dict(zip(names, [*sums[1:], sums[0]]))
    wanted = [f"{name} {cents[name] // 100}.{cents[name] % 100:02}" for name in names]
    assert ran.stdout.splitlines() == ["20001 bonds in 2026-07, 1 refused", *wanted]
    assert ran.returncode == 1


@pytest.fixture(scope="module")
def module() -> Iterator[Any]:
    sys.path.insert(0, str(VALUE))
    yield importlib.import_module("ee_value")
    sys.path.remove(str(VALUE))


def answer(call: Callable[..., Any], *question: object) -> Any:
    """What a call of the module answers, or the status that it raises."""
    try:
        return call(*question)
    except ValueError as refused:
        return -refused.status  # type: ignore[attr-defined]


def published_is(module: Any, more: int = 0) -> None:
    """Each published value, at each denomination, by three functions."""
    rates = csv_rows(RATES)
    for it in csv_rows(PUBLISHED):
        rate = [rate["rate"] for rate in rates if rate["from"] <= it["issued"]][-1]
        (y, m), (ry, rm) = (map(int, it[k].split("-")) for k in ("issued", "redeemed"))
        note = "P5" if 12 * (ry - y) + rm - m < 60 else ""
        after, last = f"{ry + rm // 12}-{rm % 12 + 1:02}", f"{y + 30}-{m:02}"
        for dollars in exact.DOLLARS:
            value, price = dollars // 25 * (int(it["unit_cents"]) + more), 50 * dollars
            wanted = (value, price, value - price, value, note, after, last)
            question = (dollars, it["issued"], it["redeemed"], rate)
            assert module.row(*question) == wanted and module.rows([question]) == [wanted]
            assert module.cents(*question, "7.77") == value


def test_published_values(module: Any) -> None:
    published_is(module)
    assert doctest.testmod(module).failed == 0
    with pytest.raises(AssertionError):  # control: a cent more
        published_is(module, 1)


def agrees(module: Any, questions: Sequence[Question]) -> None:
    """The library's four calls and the module's answer each question as the tests' own arithmetic does."""
    library, into = module._library, module._Row()
    names = [name for name, _ in module.ROW_FIELDS]
    fields: Callable[[Any], Any] = lambda row: tuple(getattr(row, name) for name in names)
    listed = (module._Row * len(questions))()
    asked = (module._Question * len(questions))(*(module._Question(*it) for it in questions))
    assert module.rows_into(asked, listed) == len(questions)
    for question, row in zip(questions, listed):
        wanted, cents = exact.row(*question), exact.cents(*question)
        assert fields(library.ee_value_row(*question)) == wanted, question
        assert library.ee_value_row_into(*question, ctypes.byref(into)) == wanted[4], question
        assert fields(into) == fields(row) == wanted, question
        both = (library.ee_value_cents(*question), answer(module.cents, *question))
        assert both == (cents, cents), question


def asked(dice: random.Random, count: int) -> list[Question]:
    return [exact.random_question(dice) for _ in range(count)]  # type: ignore[misc]


def test_random_questions(module: Any, dice: random.Random, monkeypatch: Any) -> None:
    questions = asked(dice, 30_000)
    assert 1_000 < sum(exact.refusal(*it) != exact.DONE for it in questions) < 20_000
    agrees(module, questions)
    monkeypatch.setattr(exact, "P5", exact.PLAIN)
    with pytest.raises(AssertionError):  # control: rules without the penalty's note
        agrees(module, questions)


def test_every_age(module: Any) -> None:
    for rate in range(0, 2001, 20):
        extension = (7 * rate + 400) % 2001
        for age in range(400):
            question = (10000, 201001, exact.number_of(12 * 2010 + age), rate, extension)
            assert module._library.ee_value_cents(*question) == exact.cents(*question), question


GOOD = (50, 201005, 201505, 350, 350)
MONTHS = [200504, 200505, 209912, 209913, 210001, 201000, 201001, 201012, 201013]
NEAR: list[list[int]] = [[n + d for n in exact.DOLLARS for d in (-1, 0, 1)], MONTHS]
NEAR += [[*MONTHS, 219912, 219913, 220001], [0, 1, 1999, 2000, 2001], [0, 1, 1999, 2000, 2001]]
BEYOND = [-1, -50, -201005, -350, -(2**31), -(2**32), -(2**63), -(10**30)]
BEYOND += [2**32 - 1, 2**32, 2**63, 2**64 + 50, 10**30]


@pytest.mark.parametrize("field", range(5))
def test_borders(module: Any, field: int) -> None:
    """Each field at its borders and beyond, as ints and as what no 32 bits hold."""
    wrapped = [GOOD[field] + 2**k for k in (32, 33, 48, 64, 100)]
    for value in (*NEAR[field], *wrapped, *BEYOND):
        question: Any = [*GOOD[:field], value, *GOOD[field + 1 :]]
        wanted = exact.cents(*question)
        assert answer(module.cents, *question) == wanted, question
        row = answer(module.row, *question)
        is_shown = wanted > 0 or -wanted > exact.BAD_EXTENSION
        paid = row if isinstance(row, int) else row.payable_cents
        assert paid == (max(wanted, 0) if is_shown else wanted), question
        (listed,) = module.rows([tuple(question)])
        assert (-listed.status if isinstance(listed, module.Refused) else listed) == row


SPELLED: list[Any] = ["2015-05", "05/2015", 201505, datetime.date(2015, 5, 31)]
SPELLED += [datetime.datetime(2015, 5, 1, 23)]


@pytest.mark.parametrize("rate", ["3.50", "3.5", "3.50%", 350, decimal.Decimal("3.500")])
@pytest.mark.parametrize("month", SPELLED)
def test_spellings(module: Any, month: Any, rate: Any) -> None:
    assert module.cents(50, "2010-05", month, rate) == 2974
    extended = module.cents(50, "2010-05", "2030-11", "3.40", rate)
    assert extended == module.cents(50, 201005, 203011, 340, 350)


NO_RATES = [*("", "3.555", "3,5", "1_0", "-1", "\u0663", " 3.5", -1, 2001)]
MORE = ("NaN", "Infinity", "3.505", "20.01", "1e-40", "3." + 60 * "0" + "1")
NO_RATES += map(decimal.Decimal, MORE)
REFUSED: list[tuple[int, tuple[Any, ...]]] = [
    (exact.BAD_DENOMINATION, (-50, "2010-05", "2015-05", 350)),
    (exact.BAD_DENOMINATION, (2**32 + 50, "2010-05", "2015-05", 350)),
    (exact.BAD_ISSUE_MONTH, (50, "2010-5", "2015-05", 350)),
    (exact.BAD_ISSUE_MONTH, (50, "2010-13", "2015-05", 350)),
    (exact.BAD_ISSUE_MONTH, (50, datetime.date(1, 1, 1), "2015-05", 350)),
    (exact.BAD_MONTH, (50, "2010-05", "", 350)),
    (exact.BAD_MONTH, (50, "2010-05", "2015-05\n", 350)),
    (exact.NOT_ISSUED, (50, "2010-05", "2010-04", 350)),
    (exact.NOT_ELIGIBLE, (50, "2010-05", "2011-04", 350)),
    *((exact.BAD_RATE, (50, "2010-05", "2015-05", rate)) for rate in NO_RATES),
    *((exact.BAD_EXTENSION, (50, "2010-05", "2015-05", 350, rate)) for rate in NO_RATES),
]


def test_refusals(module: Any) -> None:
    for status, question in REFUSED:
        for call in (module.cents, module.row):
            if call is module.row and status > exact.BAD_EXTENSION:
                assert call(*question)
                continue
            with pytest.raises(module.Refused) as raised:
                call(*question)
            assert raised.value.status == status, question
            assert str(raised.value) == module.status_text(status)
    no_arguments: list[tuple[Any, ...]] = [(50.0, True, "50", None), (None, 201005.0)]
    no_arguments += [(None, 201505.0, b"2015-05"), (3.5, None), (3.5, False)]
    for field, values in enumerate(no_arguments):
        for value in values:
            with pytest.raises(TypeError):
                module.cents(*GOOD[:field], value, *GOOD[field + 1 :])


def test_arrays(module: Any) -> None:
    """rows_into refuses what would be read or written past an end."""
    one, two = module._Question * 1, module._Question * 2
    of_one, of_two = one(module._Question(*GOOD)), two(*(module._Question(*GOOD),) * 2)
    rows = (module._Row * 2)()
    gaps = memoryview((module._Row * 4)())[::2]
    for given, place in (
        *((of_one, rows), (rows, rows), (of_one, of_one), (of_one, bytes(48)), (b"", rows)),
        *((of_two, gaps), (of_one, bytearray(47)), (of_one, bytearray(96))),
        *((bytes(20), bytearray(48)), (array.array("I", [50] * 6), bytearray(48))),
    ):
        with pytest.raises(ValueError):
            module.rows_into(given, place)
    assert module.rows([]) == []
    assert module.rows_into((module._Question * 0)(), (module._Row * 0)()) == 0
    row, written = module.row(*GOOD), bytearray(96)
    assert module.rows_into(array.array("I", 2 * GOOD), written) == 2
    wanted = (*row[:4], 0, module.NOTES.index(row.note), 201506, 204005)
    for at in (0, 48):
        assert module.ROW.unpack_from(written, at) == wanted


WORDS = ("denom", "issued", "month", "rate", "extension")


def words_of(question: Question) -> list[str]:
    dollars, issued, month, rate, extension = question
    words = [str(dollars), *(f"{it // 100:04}-{it % 100:02}" for it in (issued, month))]
    words += [f"{it // 100}.{it % 100:02}" for it in (rate, extension)]
    return words[:4] if rate == extension and month % 2 else words


def is_same(module: Any, program: Path, question: Question) -> bool:
    """Whether the command `value` answers a question as the library does."""
    ran = run(program, "value", *words_of(question), stderr=subprocess.PIPE)
    row = answer(module.row, *question)
    if isinstance(row, int):
        fault = f"bad argument: {WORDS[-row - 1]}"
        return (ran.returncode, ran.stdout) == (2, "") and fault in ran.stderr
    note = f" {row.note}" if row.note else ""
    wanted = f"{module.dollars_and_cents(row.value_cents)}{note}\n"
    return (ran.returncode, ran.stdout) == (0, wanted)


@pytest.mark.parametrize("count", [400, pytest.param(100_000, marks=pytest.mark.slow)])
def test_against_the_program(module: Any, program: Path, dice: random.Random, count: int) -> None:
    questions = asked(dice, count)
    with ThreadPoolExecutor(os.cpu_count()) as pool:
        same = list(pool.map(lambda question: is_same(module, program, question), questions))
    assert [question for question, one in zip(questions, same) if not one] == []


def test_against_another_program(module: Any, program: Path, tmp_path: Path) -> None:
    """Control: a program that takes every rate for 3.50."""
    other = script(tmp_path / "other", f'#!/bin/sh\nexec {program} "$1" "$2" "$3" "$4" 3.50\n')
    assert is_same(module, other, GOOD) and not is_same(module, other, (*GOOD[:3], 340, 340))
