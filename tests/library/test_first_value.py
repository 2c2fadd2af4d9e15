"""The program of the command `value` alone beside the whole one: the same bytes and status for each line that it reads, and for any other status 4 and nothing written.

Which lines it has to read is told by a rule of the tests, so that one which reads no line fails."""

import os
import re
import subprocess
from concurrent.futures import ThreadPoolExecutor
from pathlib import Path
from typing import Iterator, Sequence

import pytest
from hypothesis import HealthCheck, given, settings
from hypothesis import strategies as st

from tests.conftest import TOP
from tests.shared import exact

NAME = "crates/ee_cli_value_alone/out/ee_cli_value_alone"
pytestmark = pytest.mark.needs(f"file:{NAME}")
UNREAD = 4
MONTH = re.compile(r"(\d{4})-(\d\d)|(\d\d)/(\d{4})", re.ASCII)
RATE = re.compile(r"(\d{1,2})(?:\.(\d{1,2}))?%?", re.ASCII)
DENOMS = list(map(str, exact.DOLLARS))
#: The words of a line.
Words = Sequence[str | bytes]
GOOD = ["value", "50", "2010-05", "2011-08", "3.50"]


def month(count: int) -> str:
    return f"{2005 + (count + 4) // 12:04}-{(count + 4) % 12 + 1:02}"


def is_month(word: str, last: int) -> bool:
    found = MONTH.fullmatch(word)
    if not found:
        return False
    year, part = (found[1], found[2]) if found[1] else (found[4], found[3])
    return 1 <= int(part) <= 12 and (2005, 5) <= (int(year), int(part)) <= (last, 12)


def is_rate(word: str) -> bool:
    found = RATE.fullmatch(word)
    return found is not None and int(found[1]) * 100 + int((found[2] or "0").ljust(2, "0")) <= 2000


def is_read(words: Words) -> bool:
    """Whether the small program has to read the line."""
    texts = [word for word in words if isinstance(word, str)]
    if len(texts) != len(words) or len(words) not in (5, 6) or words[0] != "value":
        return False
    denom, issued, shown, *rates = texts[1:]
    is_dated = is_month(issued, 2099) and is_month(shown, 2199)
    return denom in DENOMS and is_dated and all(map(is_rate, rates))


def at_ages() -> Iterator[Words]:
    """Every age, from before issue to two years past final maturity, at several rates; and every denomination."""
    for rates in (["3.50"], ["3.40", "4.00"], ["0.00", "20.00"], ["20.00"], ["2.00", "0.00"]):
        for age in range(-3, 385):
            at = 60 + age % 7
            yield ["value", DENOMS[age % 8], month(at), month(at + age), *rates]
    for denom in DENOMS:
        for age in (-1, 0, 11, 12, 59, 60, 239, 240, 241, 359, 360, 361, 2000):
            yield ["value", denom, "2010-05", month(60 + age), "3.60"]
    yield ["value", "50", "2010-05", "2199-12", "3.40", "0.00"]
    yield ["value", "10000", "2005-05", "2199-12", "20.00"]


ODD = b"2010-05\xc3"
SPELLINGS: list[Words] = [
    ["Value", "values", "val", "", "sheet", "--value"],
    ["050", "+50", "-50", "50.0", "25", "10000", "", " 50", "--", "--denom=50", b"\xff50"],
    [*"05/2010 2005-05 2005-04 2099-12 2100-01 2010-13 2010-5 10/2010 2010/05 x".split(), ODD],
    "05/2015 2199-12 2200-01 2005-04 00/2015 2015-05-01 -h".split(),
    "3.5 3 3.50% 3% 20 20.00 20.01 100 3.505 .5 3. -3.50 03.50 3,50 \u0663 -1".split(),
    ["4", "4%", "0", "20.01", "x", "", "-4.00", "--help", "--version"],
]


def spelled() -> Iterator[Words]:
    """Other spellings, words that spell nothing, missing and further words, options, and other commands."""
    good: list[str | bytes] = ["value", "50", "2010-05", "2015-05", "3.50", "4.00"]
    for place, found in enumerate(SPELLINGS):
        for word in found:
            yield [*good[:place], word, *good[place + 1 :]]
            yield [*good[:place], word, *good[place + 1 : 5]]
    yield from (good[:length] for length in range(7))
    yield from ([*good, "5.00"], [*good[:5], "--"], ["value", "--", *good[1:]], ["--", *good])
    for word in ("--help", "-h", "--version", "-V", "--db", "x"):
        yield from ([*good[:place], word, *good[place:]] for place in range(7))
    others = ["--help", "--version", "help", "apply", "apply --db", "sheet 7 2012-02", "nothing"]
    yield from (line.split() for line in others)
    yield [b"\xff"]


def run(program: Path, words: Words, **outputs: str) -> tuple[int, bytes, bytes]:
    more = {name: open(path, "wb") for name, path in outputs.items()}
    try:
        done = subprocess.run(
            [program, *words],
            stdin=subprocess.DEVNULL,
            stdout=more.get("stdout", subprocess.PIPE),
            stderr=more.get("stderr", subprocess.PIPE),
            timeout=60,
        )
    finally:
        for file in more.values():
            file.close()
    return done.returncode, done.stdout or b"", done.stderr or b""


def same(programs: list[Path], words: Words, **outputs: str) -> None:
    whole, small = programs
    wanted = run(whole, words, **outputs) if is_read(words) else (UNREAD, b"", b"")
    assert run(small, words, **outputs) == wanted, words


@pytest.fixture
def programs(program: Path) -> list[Path]:
    return [program, TOP / NAME]


@pytest.mark.parametrize("lines", [at_ages, spelled])
def test_lines(programs: list[Path], lines: object) -> None:
    found = [*at_ages()] if lines is at_ages else [*spelled()]
    assert sum(map(is_read, found)) > 30
    with ThreadPoolExecutor(os.cpu_count()) as pool:
        list(pool.map(lambda words: same(programs, words), found))


RATES = st.integers(0, 2100).map(lambda rate: f"{rate / 100:.2f}")
SENSELESS = st.sampled_from(["", "x", "-1", "2010-00", "99"])
LINES = st.tuples(
    st.just("value") | SENSELESS,
    st.sampled_from(DENOMS) | SENSELESS,
    st.integers(0, 1135).map(month) | SENSELESS,
    st.integers(0, 2335).map(month) | SENSELESS,
    RATES | SENSELESS,
)


@settings(max_examples=300, deadline=None, database=None, suppress_health_check=list(HealthCheck))
@given(line=LINES, more=st.lists(RATES, max_size=2))
def test_random_lines(programs: list[Path], line: tuple[str, ...], more: list[str]) -> None:
    same(programs, [*line, *more])


@pytest.mark.parametrize("devices", [["stdout"], ["stderr"], ["stdout", "stderr"]])
@pytest.mark.parametrize("words", [GOOD, [*GOOD, "4.00"], GOOD[:4]])
def test_outputs_that_fail(programs: list[Path], words: list[str], devices: list[str]) -> None:
    same(programs, words, **dict.fromkeys(devices, "/dev/full"))


def test_another_program(programs: list[Path], tmp_path: Path) -> None:
    """Control: a program that reads nothing, one that adds a month, and the whole one, which reads more."""
    unread, other = tmp_path / "unread", tmp_path / "other"
    unread.write_text(f"#!/bin/sh\nexit {UNREAD}\n")
    other.write_text(f'#!/bin/sh\nexec {programs[1]} "$1" "$2" "$3" 2011-09 "$5"\n')
    for path in (unread, other):
        path.chmod(0o755)
        with pytest.raises(AssertionError):
            same([programs[0], path], GOOD)
    with pytest.raises(AssertionError):
        same([programs[0], programs[0]], GOOD[:4])
