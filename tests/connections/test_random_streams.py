"""Random streams get the bytes that the rules give. STREAMS names how many are tried."""

import os
from typing import Any, Iterator

import pytest
from hypothesis import HealthCheck, Phase, given, note, seed, settings
from hypothesis import strategies as st

from tests.connections import streams
from tests.shared.counter_calls import RATES
from tests.shared.hostile import counter, desk, framing, judging, store, talk
from tests.shared.hostile.program import Program

SEED = int(os.environ.get("SEED", int.from_bytes(os.urandom(4), "big")))
STREAMS = int(os.environ.get("STREAMS", "200"))
BOND = {"denom": 50, "issued": "2010-11", "owner": 7}
TICKET = b"GET /ticket/1 HTTP/1.1\r\n\r\n"
Plant = str | None
QUIET: dict[str, Any] = {"deadline": None, "database": None}
QUIET["suppress_health_check"] = list(HealthCheck)
PLANTS = ['.88" .89"', "409 404", "close xxxxx", '"code":6 "code":9']


def agree(program: Program, path: str, books: desk.Books, sent: bytes, plant: Plant = None) -> None:
    """Sends a stream, and compares what comes back; the books get what it does."""
    wanted, status = counter.connection(books, sent)
    ran = program.apply(path, sent, shimmed=plant is not None, plant=plant)
    if (ran.status, ran.told, ran.faults) != (status, wanted, ""):
        answered = f"status {ran.status}, {ran.told!r:.2000} {ran.faults}"
        raise judging.Wrong(f"sent {sent!r}: {answered}, and not status {status}, {wanted!r:.2000}")


def begun(program: Program, plant: Plant = None) -> tuple[str, desk.Books]:
    """A store with rates, bonds and an open day, so that there is something to pay."""
    path, books = program.place(f"streams{os.getpid()}"), desk.Books()
    rates = {"number": 2**62, "rates": RATES}
    rows: list[dict[str, object]] = [{**BOND, "serial": f"L{n}EE"} for n in range(1, 7)]
    bonds = {"number": 2**62 + 1, "bonds": rows}
    opened = {"number": 2**62 + 2, "day": "2012-02-06"}
    sent = {"/rates": rates, "/bonds": bonds, "/day/open": opened}
    messages = [talk.message(f"POST {name} {desk.compact(sent[name])}") for name in sent]
    agree(program, path, books, b"".join(messages), plant)
    return path, books


def search(program: Program, most: int, plant: Plant = None, shrinks: bool = True) -> None:
    """Random connections, one after another over a store, and all of its rows after them."""
    phases = tuple(Phase) if shrinks else (Phase.generate,)

    @settings(max_examples=most, phases=phases, print_blob=True, **QUIET)
    @seed(SEED)
    @given(st.data())
    def connections(data: st.DataObject) -> None:
        path, books = begun(program, plant)
        for _ in range(data.draw(st.integers(1, 4), label="connections")):
            sent = streams.stream(data.draw, books)
            note(f"sent: {sent!r}")
            agree(program, path, books, sent, plant)
        judging.shows_books([books], store.rows(path), "after the streams")
        assert store.is_whole(path)

    print(f"SEED={SEED}")
    connections()


def test_random_streams(hostile: Program) -> None:
    search(hostile, STREAMS)


@pytest.mark.parametrize("change", PLANTS)
def test_changed_answer_is_found(hostile: Program, change: str) -> None:
    """Control: programs that answer another cent, status or header, or codes from 90 on."""
    with pytest.raises(AssertionError):
        search(hostile, 2000, f"changed_answer {change}", shrinks=False)


def test_smallest_stream_is_printed(hostile: Program) -> None:
    """Control: a failure says the smallest stream that was found."""
    with pytest.raises(judging.Wrong) as found:
        search(hostile, 100, 'changed_answer "code":6 "code":9')
    assert len(str(found.value)) < 500


def cuts() -> Iterator[bytes]:
    """The worked day, cut after every byte in turn."""
    whole = talk.stream(talk.texts("FIVE")["FIVE"]) + b"GET /ticket/1 HTTP/1.0\r\nx:y\r\n\r\nGET"
    return (whole[:end] for end in range(len(whole) + 1))


def limits() -> Iterator[bytes]:
    """1,000 messages and then the end, one less, one more, and other bytes; heads and bodies at
    their limits."""
    post = b"POST /rates HTTP/1.1\r\nContent-Length: %d\r\n\r\n"
    head = b"GET /ticket/1 HTTP/1.1\r\na:%s\r\n\r\n"
    room, most = framing.MOST_HEAD - len(head) + 2, framing.MOST_BODY
    for rest in (b"", b"x\n", b"GET", b"GET /ticket/1 HTTP/1.0\r\n\r\n"):
        yield from (TICKET * count + rest for count in (998, 999, 1000, 1001))
    yield from (head % (b"d" * (room + more)) + TICKET for more in (-1, 0, 1))
    for size in (most - 1, most, most + 1):
        yield (post % size) + b" " * (size - 2) + b"{}" + TICKET
    yield from (b"\r\n" * count for count in (1, 8191, 8192, 8193))
    yield from (b"\r\n" * 8000 + TICKET, b"a" * 16_383, b"a" * 16_384, b"a" * 16_383 + b"\n")


def test_cut_everywhere(hostile: Program) -> None:
    path, books = hostile.place("cuts"), desk.Books()
    for sent in cuts():
        agree(hostile, path, books, sent)
    judging.shows_books([books], store.rows(path), "after the cuts")


def test_limits(hostile: Program) -> None:
    path, books = hostile.place("limits"), desk.Books()
    for sent in limits():
        agree(hostile, path, books, sent)
