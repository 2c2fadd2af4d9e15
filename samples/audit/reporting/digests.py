"""The digests of the kept requests, one for every closed day, each over the one before it too; and
comparing them with those of an earlier report. docs/AUDIT.md defines them."""

import hashlib
import itertools
import json
from typing import Any, Iterator, NamedTuple

from . import texts
from .findings import Findings
from .store import NoStore, Store

BEFORE_THE_FIRST = "0" * 64
KEPT = "SELECT desk, number, CAST(act AS BLOB), CAST(reply AS BLOB) FROM kept ORDER BY place"
CLOSING = b'{"act":"close","day":"'


class Digest(NamedTuple):
    """The digest up to the request that closed a day, or without a day up to the last request. `requests`
    counts all requests from the first one on."""

    day: str | None
    requests: int
    sha256: str


def lines_of(store: Store) -> Iterator[tuple[bytes, str | None]]:
    """The line of every kept request in the order of the rows, and the day that it closed, if any."""
    for desk, number, act, reply in store.rows(KEPT):
        yield b"%s %s %s %s\n" % (str(desk).encode(), str(number).encode(), act, reply), closed_by(
            act, reply
        )


def closed_by(act: bytes, reply: bytes) -> str | None:
    """The day that a request closed: its act closes a day, and its reply is a batch."""
    if not act.startswith(CLOSING):
        return None
    batch = texts.read_reply(reply.decode("utf-8", "replace")) or {}
    return str(batch["day"]) if "tickets" in batch else None


def begun(before: str) -> Any:
    """The digest of a day before its first request: over the digest of the day before."""
    return hashlib.sha256(before.encode() + b"\n")


def digests_of(store: Store) -> list[Digest]:
    """The digest of every closed day, and behind them that of the last request."""
    found: list[Digest] = []
    count, running = 0, begun(BEFORE_THE_FIRST)
    for count, (line, day) in enumerate(lines_of(store), 1):
        running.update(line)
        if day is not None:
            found.append(Digest(day, count, running.hexdigest()))
            running = begun(found[-1].sha256)
    return [*found, Digest(None, count, running.hexdigest())]


# ---- an earlier report


def read_earlier(path: str) -> list[Digest]:
    """The digests of an earlier report, from its report.json."""
    with open(path, encoding="utf-8") as file:
        text = file.read()
    try:
        found = [
            Digest(one["day"], one["requests"], one["sha256"])
            for one in json.loads(text)["digests"]
        ]
        are_digests = all(
            type(one.requests) is int and isinstance(one.sha256, str) for one in found
        )
        is_rising = all(one.requests <= other.requests for one, other in itertools.pairwise(found))
    except (ValueError, KeyError, TypeError, RecursionError) as fault:
        raise NoStore(
            f"{path} is no report with digests: {type(fault).__name__}: {fault}"
        ) from fault
    if not found or found[-1].day is not None or not are_digests or not is_rising:
        raise NoStore(f"{path} is no report with digests")
    return found


def earlier_digests_are_there(earlier: list[Digest], store: Store, findings: Findings) -> None:
    """Compares every digest of the earlier report with the same requests now. Each is computed from the
    earlier digest before it, so a change shows at its own day alone."""
    lines, before, done = lines_of(store), BEFORE_THE_FIRST, 0
    for one in earlier:
        wanted = one.requests - done
        running, taken = begun(before), 0
        for line, _ in itertools.islice(lines, wanted):
            running.update(line)
            taken += 1
        findings.tested += 1
        row = (
            f"requests up to the closing of {one.day}"
            if one.day
            else "requests after the last closing"
        )
        if taken < wanted:
            findings.differs(
                "answers",
                row,
                "requests",
                done + taken,
                f"{one.requests} at least, as in the earlier report",
            )
            return
        findings.compare("answers", row, "digest", running.hexdigest(), one.sha256)
        before, done = one.sha256, one.requests
