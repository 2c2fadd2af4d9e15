"""The least stack with which every command does its work: what is said with 8,192 KiB is what the rules
give, and half of that is enough. TABLE=1 measures the least stack of each, for benchmarks/README.md."""

import functools
import os
import resource
from typing import NamedTuple

import pytest

from tests.shared.counter_calls import make_version_one
from tests.shared.hostile import counter, desk, judging, scenes, store, talk
from tests.shared.hostile.program import Program, Ran

AMPLE, MOST, STEP = 8_192, 4_096, 4
BONDS, REPLIES = 100_000, 10_000
BOND = {"denom": 50, "issued": "2010-11", "owner": 7}
TICKET = b"GET /ticket/1 HTTP/1.1\r\n\r\n"
APPLY = "apply --db DB"


class Case(NamedTuple):
    """A command over a copy of a store ("" is a new one), an input, and what it has to say."""

    words: str
    base: str = ""
    stream: bytes = b""
    wanted: bytes | None = None


def run(program: Program, case: Case, kib: int, plant: str = "") -> tuple[int, bytes, str]:
    path = program.place("stack")
    if case.base:
        store.copy(case.base, path)
    words, stack = case.words.replace("DB", path).split(), resource.RLIMIT_STACK
    limits = (kib << 10, resource.getrlimit(stack)[1])
    limited = lambda: resource.setrlimit(stack, limits)
    try:
        ran = program.run(path, words, case.stream, bool(plant), limited, plant=plant)
    except OSError as error:
        return -1, b"", str(error)
    return ran.status, ran.told, ran.faults


def least(program: Program, case: Case, ample: tuple[int, bytes, str]) -> int:
    low, high = 0, AMPLE
    while high - low > STEP:
        middle = (low + high) // 2 // STEP * STEP
        low, high = (low, middle) if run(program, case, middle) == ample else (middle, high)
    return high


def posted(path: str, value: object) -> bytes:
    return talk.message(f"POST {path} {desk.compact(value)}")


def bonds(letter: str, first: int, count: int) -> list[dict[str, object]]:
    return [{**BOND, "serial": f"{letter}{n}EE"} for n in range(first, first + count)]


@functools.cache
def bodies() -> dict[str, bytes]:
    found = {}
    for kind, front, end in (("arrays", "[", "]"), ("objects", '{"a":', "}")):
        for depth in (127, 128, 170_000):
            text = front * depth + "0" + end * depth
            found[f"JSON {kind} {depth} deep"] = talk.message(f"POST /rates {text}")
    wide = {f"k{n}": n for n in range(70_000)}
    text = '{"x":"' + "a" * 1_048_550 + '"}'
    return {
        **found,
        "an object of 70,000 members": posted("/rates", wide),
        "a string of 1,048,550 bytes": talk.message(f"POST /rates {text}"),
        "a body of 1,048,577 bytes": talk.message("POST /rates " + " " * 1_048_577),
        "a head of 16,384 bytes": TICKET[:-2] + b"a:" + b"d" * 16_354 + b"\r\n\r\n",
        "1,000 messages": TICKET * 1_001,
    }


@functools.cache
def lists() -> dict[str, bytes]:
    """Lists over a begun store that are accepted, and as long as a body may be."""
    months = [f"{2005 + n // 2}-{(5, 11)[n % 2]:02}" for n in range(190)]
    terms = [(month, f"{n % 20}.{n % 97:02}", f"{n % 19}.50") for n, month in enumerate(months)]
    rates = [dict(zip(("from", "rate", "extension"), one)) for one in terms]
    one, day = {"from": "2010-11", "rate": "3.50"}, {"day": "2012-02-06", "payee": 7}
    serials = [f"A{n}EE" for n in range(1, 96_330)]
    hundred = posted("/bonds", {"number": 8, "bonds": bonds("A", 1, 100)})
    paid = posted("/redeem", {"number": 9, **day, "serials": serials[:100]})
    return {
        "190 rates with extensions": posted("/rates", {"number": 9, "rates": rates}),
        "31,774 rates": posted("/rates", {"number": 9, "rates": [one] * 31_774}),
        "500 bonds": posted("/bonds", {"number": 9, "bonds": bonds("A", 1, 500)}),
        "17,091 bonds": posted("/bonds", {"number": 9, "bonds": bonds("A", 1, 17_091)}),
        "100 serial numbers": hundred + paid,
        "96,329 serial numbers": posted("/redeem", {"number": 9, **day, "serials": serials}),
    }


#: A store and its books.
Made = tuple[str, desk.Books]


@pytest.fixture(scope="module")
def begun(hostile: Program) -> Made:
    text = talk.texts("BEGUN")["BEGUN"]
    path = hostile.place("begun")
    hostile.apply(path, talk.stream(text), shimmed=False)
    return path, judging.start([text])


@pytest.fixture(scope="module")
def owned(hostile: Program, begun: Made) -> Made:
    path, books = hostile.place("owned"), begun[1].copy()
    store.copy(begun[0], path)
    parts = [{"number": 100 + n, "bonds": bonds("B", n * 500 + 1, 500)} for n in range(34)]
    stream = b"".join(posted("/bonds", part) for part in parts)
    wanted, _ = counter.connection(books, stream)
    assert hostile.apply(path, stream, shimmed=False).told == wanted
    return path, books


def right(program: Program, case: Case, name: str, plant: str = "") -> None:
    """It is right with ample stack, and says the same with half of it."""
    ample = run(program, case, AMPLE, plant)
    assert ample[0] in (0, 1, 2, 3), ample
    assert case.wanted is None or ample[1] == case.wanted, ample
    if "TABLE" in os.environ:
        print(f"| {name} | {least(program, case, ample):,} |")
    assert run(program, case, MOST, plant) == ample


@pytest.mark.parametrize("name", bodies())
def test_bodies(hostile: Program, name: str) -> None:
    stream = bodies()[name]
    wanted, _ = counter.connection(desk.Books(), stream)
    right(hostile, Case(APPLY, "", stream, wanted), name)


@pytest.mark.parametrize("name", lists())
def test_lists(hostile: Program, begun: Made, name: str) -> None:
    stream = lists()[name]
    wanted, _ = counter.connection(begun[1].copy(), stream)
    right(hostile, Case(APPLY, begun[0], stream, wanted), name)


def test_inventories(hostile: Program, owned: Made) -> None:
    sheet = owned[1].ask_inventory(7, 12 * 2012 + 1).encode()
    asked = talk.message("GET /inventory/7/2012-02")
    wanted, _ = counter.connection(owned[1], asked)
    right(hostile, Case(APPLY, owned[0], asked, wanted), "an inventory of 17,003 bonds")
    exported = owned[1].export(7).encode()
    right(hostile, Case("export 7 --db DB", owned[0], b"", exported), "`export` of 17,003 bonds")
    case = Case("sheet 7 2012-02 --db DB", owned[0], b"", sheet)
    right(hostile, case, "`sheet` of 17,003 bonds")


def test_files(hostile: Program, begun: Made) -> None:
    rows = b"".join(b"C%dEE,50,2010-11,7,\n" % n for n in range(1, 501))
    header = b"serial,denom,issued,owner,coowner\n"
    words = "import inventory {} --db DB --number 9"
    path = words.format(scenes.written(hostile, "five_hundred.csv", header + rows))
    right(hostile, Case(path, begun[0], b"", b'{"new":500,"same":0}\n'), "`import` of 500 bonds")
    path = words.format(scenes.written(hostile, "quoted.csv", b'"' * 1_048_576))
    right(hostile, Case(path, begun[0]), "`import` of a file of 1,048,576 quotes")


def test_words(hostile: Program) -> None:
    right(hostile, Case("value 50 2010-05 2030-11 3.40 4.00", "", b"", b"51.00\n"), "`value`")
    right(hostile, Case("--help"), "`--help`")
    right(hostile, Case("x " * 1_000), "a bad command line of 1,000 words")


def test_large_stores(hostile: Program) -> None:
    """A store of version 1 with many bonds and replies, which is migrated, and afterwards."""
    first, second = hostile.place("first"), hostile.place("second")
    make_version_one(first, BONDS, REPLIES)
    store.copy(first, second)
    ran: Ran = hostile.run(second, ["export", "1", "--db", second], shimmed=False)
    assert ran.status == 0, ran.faults
    export = "export 1 --db DB"
    right(hostile, Case(export, first, b"", ran.told), f"migrating {BONDS:,} bonds")
    right(hostile, Case(export, second, b"", ran.told), f"`export` over {BONDS:,} bonds")
    asked = b"GET /ticket/9000 HTTP/1.1\r\n\r\n"
    right(hostile, Case(APPLY, second, asked), f"a ticket over {BONDS:,} bonds")


def test_deep_call_is_found(hostile: Program) -> None:
    """Control: a write that takes nearly all of the stack."""
    with pytest.raises(AssertionError):
        right(hostile, Case(APPLY, "", TICKET), "a ticket", "deep_call")
