"""`serve` is killed ROUNDS times while requests come, and started again: every reply stands."""

import itertools
import os
import random
import threading
from pathlib import Path

import pytest

from tests.shared.counter_calls import apply, ask, beginning, bond, day_text, free_port, post, rows
from tests.shared.counter_calls import serve

BONDS, ROUNDS = 900, int(os.environ.get("ROUNDS", "20"))
Replies = dict[int, str]


def redemption(turn: int, number: int, headers: bytes = b"") -> bytes:
    value = {"number": number, "day": day_text(0), "payee": 7, "serials": [bond(turn)["serial"]]}
    return post("/redeem", value, headers)


def begin(program: Path, store: Path) -> None:
    opened = post("/day/open", {"number": 1_000_000, "day": day_text(0)}, b"")
    apply(program, store, [*beginning(BONDS), opened])


def one_round(program: Path, store: Path, turns: list[int], replies: Replies, delay: float) -> int:
    """Serves until the kill, which comes that long after it listens: how many replies came."""
    port, came = free_port(), 0
    server = serve(program, store, port)
    killing = threading.Timer(delay, server.kill)
    killing.start()
    for turn in itertools.cycle(turns):
        answer = ask(port, redemption(turn, 100 + turn, b"Connection: close\r\n"))
        if answer is None:
            break
        assert answer[0] == 200, answer
        assert replies.setdefault(turn, answer[1]) == answer[1], f"bond {turn} has another reply"
        came += 1
    killing.join()
    server.communicate()
    return came


def paid(program: Path, store: Path, replies: Replies) -> None:
    """Every request once more: each has its one reply, and the file has just these payments."""
    answers = apply(program, store, [redemption(turn, 100 + turn) for turn in range(BONDS)])
    assert [status for status, _ in answers] == [200] * BONDS
    assert {turn: answers[turn][1] for turn in replies} == replies
    assert rows(store, "PRAGMA integrity_check") == [("ok",)]
    assert rows(store, "SELECT count(*), count(DISTINCT number) FROM paid") == [(BONDS, BONDS)]


def test_replies_stand(program: Path, folder: Path, dice: random.Random) -> None:
    store, at_work = folder / "day.db", 0
    replies: Replies = {}
    begin(program, store)
    for _ in range(10 * ROUNDS):
        turns = list(range(BONDS * (at_work + 1) // ROUNDS))
        dice.shuffle(turns)
        at_work += one_round(program, store, turns, replies, dice.uniform(0.001, 0.1)) > 0
        if at_work == ROUNDS:
            break
    assert at_work == ROUNDS, f"{at_work} kills came while it worked"
    assert len(replies) > BONDS // 4
    paid(program, store, replies)


def test_lost_reply_is_found(program: Path, folder: Path) -> None:
    """Control: a store that is put back to before a reply gives another one."""
    store = folder / "day.db"
    replies: Replies = {}
    begin(program, store)
    before = store.read_bytes()
    apply(program, store, [redemption(1, 900)])
    replies[0] = apply(program, store, [redemption(0, 100)])[0][1]
    store.write_bytes(before)
    store.with_name("day.db-wal").unlink(missing_ok=True)
    with pytest.raises(AssertionError):
        paid(program, store, replies)
