"""Requests from logs: what nginx wrote of every POST (samples/nginx), and the archive of the Python
client."""
from __future__ import annotations

import bisect
import contextlib
import datetime
import gzip
import json
import math
import re
from typing import Any, Iterator, NamedTuple

from archives import FRONT, KEY, UNREADABLE, Refused, checksum

ROUTES = {"rates": "/rates", "bonds": "/bonds", "open": "/day/open", "redeem": "/redeem"}
ROUTES["close"] = "/day/close"
ACT = re.compile(r'\{"act":"(\w+)",(.*)\}', re.S)
RATE = re.compile(r'("(?:rate|extension)":"\d+)(?:\.00|(\.\d)0|(\.\d\d))%"')
#: A line of a client's archive.
SENT = re.compile(FRONT + KEY + rb'(?:,"reply":(\{.*\}))?\}')
#: The front of a reply that refuses a number which another request has.
NUMBER_REUSED = '{"code":10,'
#: What rotation adds to the name of a log.
ROTATED = re.compile(r"(-\d+|\.\d+)?(\.gz)?$")
#: nginx's name of an entry, which no other one has.
NAMED = re.compile(r'"entry": ?"\w+"')


class Asked(NamedTuple):
    """A request of a log. `reply` is its text, if the log has it whole; `status` that of the
    response, None without one; `at` its seconds, and `place` its place in its log."""

    desk: int
    number: int
    path: str
    body: str
    reply: str | None
    status: int | None
    at: float
    time: str
    source: str
    place: int = 0

    @property
    def when(self) -> tuple[float, int]:
        return self.at, self.place

    @property
    def key(self) -> tuple[int, int]:
        return self.desk, self.number

    @property
    def said(self) -> dict[str, Any]:
        """The reply's keys and values."""
        return dict(json.loads(self.reply or "{}"))


def path_and_body(desk: int, number: int, act: str) -> tuple[str, str]:
    """What asks for a canonical act. The body is no longer than any other that asks for it."""
    found = ACT.fullmatch(act)
    assert found is not None
    kind, rest = found.groups()
    if kind == "rates":
        rest = RATE.sub(lambda rate: f'{rate[1]}{rate[2] or rate[3] or ""}"', rest)
    named = f'"desk":{desk},' if desk else ""
    return ROUTES[kind], f'{{{named}"number":{number},{rest}}}'


class Logs:
    """The requests of logs, each once. `notes` says what was passed over."""

    def __init__(self, paths: list[str]) -> None:
        self.notes: list[str] = []
        self.cut: list[tuple[str, str]] = []
        self.asked: dict[tuple[int, int], Asked] = {}
        texts: list[str] = []
        logs: dict[str, list[tuple[bool, float, list[Asked]]]] = {}
        for path in paths:
            opened: Any = gzip.open if path.endswith(".gz") else open
            with opened(
                path, "rt", encoding="utf-8", errors="surrogateescape", newline="\n"
            ) as log:
                lines = log.read().split("\n")
            is_archive = lines[0].startswith('{"archive":')
            name = path if is_archive else ROTATED.sub("", path)
            asked = of_client(path, lines) if is_archive else self.of_proxy(path, lines)
            texts += [] if is_archive else lines
            logs.setdefault(name, []).append((path == name, asked[0].at if asked else 0.0, asked))
        self.refuse_cut(texts)
        for files in logs.values():
            self.add([one for file in sorted(files, key=lambda file: file[:2]) for one in file[2]])

    def of_proxy(self, path: str, lines: list[str]) -> list[Asked]:
        """The requests of a proxy's log that reached the counter. Refuses an entry that the counter
        answered 200 or 409 and that isn't a request: the store would lack what it did."""
        found, others = [], 0
        for count, text in enumerate(lines, 1):
            entry: Any = None
            start = text.find("{")
            try:
                entry = json.loads(text[start:])
                one = entry_in(entry, path)
                found += [one] if one else []
            except UNREADABLE as fault:
                where = f"{path}: line {count}"
                if status_in(entry) is not None:
                    what = f"was answered {entry['counter']} by the counter, and isn't a request"
                    raise Refused(f"{where} {what}: {text[:300]}") from fault
                if entry is None and start >= 0:
                    self.cut.append((where, text[start:]))
                else:
                    others += bool(text.strip())
        if others:
            self.notes.append(f"{others} lines of {path} are no entries, and were passed over")
        return found

    def refuse_cut(self, texts: list[str]) -> None:
        """Refuses a line that a full disk or a stop cut, unless the whole one stands elsewhere."""
        whole = sorted(text[text.find("{") :] for text in texts) if self.cut else []
        for where, text in self.cut:
            after = whole[bisect.bisect_right(whole, text) :][:1]
            if not NAMED.search(text) or not after or not after[0].startswith(text):
                may = "isn't whole, and a request of it may have been done"
                raise Refused(f"{where} {may}: {text[:300]}")

    def add(self, asked: list[Asked]) -> None:
        """Adds the requests of one log, with times that never fall: its lines stand in the order in
        which they were written, also if the clock was set back. Of two entries of a request the
        first answered one counts: a later one under its number was refused, and kept nowhere."""
        latest = 0.0
        for place, one in enumerate(asked):
            latest = max(latest, one.at)
            had = self.asked.get(one.key)
            if had and had.reply is not None and one.reply not in (None, had.reply):
                two = f"{had.reply} in {had.source}, {one.reply} in {one.source}"
                raise Refused(f"desk {one.desk}, number {one.number} has two replies: {two}")
            known = [(it.reply is not None, it.status is not None) for it in (had, one) if it]
            if had is None or known[1] > known[0]:
                self.asked[one.key] = one._replace(at=latest, place=place)


def of_client(path: str, lines: list[str]) -> list[Asked]:
    """The requests of a client's archive, whose chain is tested. A cut last line is left out."""
    found, before = [], checksum(lines[0].encode())
    for count, text in enumerate(lines[1:-1], 2):
        line = text.encode("utf-8", "surrogateescape")
        parts = SENT.fullmatch(line)
        if parts is None or not line.isascii() or parts[1].decode() != before:
            why = f"isn't the one that was written behind line {count - 1}"
            raise Refused(f"{path}: line {count} {why}: it was changed, taken out or moved")
        before, reply = checksum(line), parts[6].decode() if parts[6] else None
        desk, number, time = int(parts[3]), int(parts[4]), parts[2].decode()
        status = None if reply is None else 409 if '"refused":' in reply else 200
        way, body = path_and_body(desk, number, parts[5].decode())
        at = seconds_of(time.replace("Z", "+00:00"))
        found.append(Asked(desk, number, way, body, reply, status, at, time, path))
    return found


def seconds_of(time: str) -> float:
    return datetime.datetime.fromisoformat(time).timestamp()


def asked_of(text: str) -> Iterator[Asked]:
    """The requests in lines of a proxy's log. A line that can't be read is passed over."""
    for line in text.split("\n"):
        with contextlib.suppress(*UNREADABLE):
            one = entry_in(json.loads(line[line.find("{") :]), "the witness's log")
            if one is not None:
                yield one


def status_in(entry: Any) -> int | None:
    """The counter's status of an entry, if it kept a reply to the request: 200 or 409."""
    is_posted = isinstance(entry, dict) and entry.get("route") in ROUTES.values()
    return int(entry["counter"]) if is_posted and entry.get("counter") in ("200", "409") else None


def entry_in(entry: dict[str, Any], path: str) -> Asked | None:
    """The request of an entry. None if the counter never saw it, or kept no reply to it."""
    status = status_in(entry)
    is_unknown = entry["counter"] in ("-", "502", "503", "504")
    if entry["route"] not in ROUTES.values() or (status is None and not is_unknown):
        return None
    body, reply = json.loads(entry["body"]), reply_in(entry.get("reply", "")) if status else None
    desk, number = body.get("desk") or 0, body["number"]
    if type(desk) is not int or type(number) is not int:
        raise ValueError("no desk or no number")
    if reply is not None and NUMBER_REUSED in reply:
        return None
    at, way = float(entry["at"]) if "at" in entry else seconds_of(entry["time"]), entry["route"]
    return Asked(desk, number, way, entry["body"], reply, status, at, entry["time"], path)


def reply_in(text: str) -> str | None:
    """A reply that is whole. A client that left may have cut what the proxy wrote down."""
    with contextlib.suppress(ValueError, RecursionError):
        return text if isinstance(json.loads(text), dict) else None
    return None


def place_of(reply: dict[str, Any]) -> tuple[str, int, int] | None:
    """Where a reply stands: a day is opened, its tickets follow by number, and it is closed."""
    if "opened" in reply:
        return reply["opened"], 0, 0
    if "lines" in reply:
        return reply["day"], 1, reply["ticket"]
    return (reply["day"], 2, 0) if "tickets" in reply else None


def in_order(asked: list[Asked], next_ticket: int) -> tuple[list[Asked], list[Asked]]:
    """The answered requests in the order in which they act, and those without a reply."""
    waiting = sorted((one for one in asked if one.status is None), key=lambda one: one.when)
    found = ((place_of(one.said), one) for one in asked)
    placed = [(place, one) for place, one in found if place is not None]
    placed.sort(key=lambda pair: pair[0])
    order: dict[tuple[int, int], tuple[tuple[float, int], float, int]] = {}
    tickets: dict[int, tuple[tuple[float, int], float, int]] = {}
    latest = (0.0, 0)
    for index, ((_, kind, ticket), one) in enumerate(placed):
        latest = max(latest, one.when)
        order[one.key] = latest, index, 0
        if kind == 1:
            tickets[ticket] = latest, index, 1
    answered = [one for one in asked if one.status is not None]
    for one in answered:
        behind = tickets.get(one.said.get("ticket", 0), ((0.0, 0), 0, 0))
        order.setdefault(one.key, max((one.when, math.inf, 0), behind))
    answered.sort(key=lambda one: (order[one.key], one.when))
    return with_missing_tickets(answered, waiting, next_ticket)


def with_missing_tickets(
    ordered: list[Asked], waiting: list[Asked], next_ticket: int
) -> tuple[list[Asked], list[Asked]]:
    """Puts redemptions without a reply where a ticket is missing, if there is one way to do so."""
    found: list[Asked] = []
    for one in ordered:
        if "lines" in one.said:
            ticket = one.said["ticket"]
            able = [it for it in waiting if it.path == "/redeem" and it.when <= one.when]
            gap = ticket - next_ticket
            if gap > 0 and len(able) != gap:
                lack = f"tickets {next_ticket} to {ticket - 1} are missing"
                may = f"{len(able)} redemptions without a reply may be theirs"
                how = "they were sent another way, or a log is missing"
                raise Refused(f"{lack}, and {may}: {how}")
            if gap > 0:
                found += able
                waiting = [other for other in waiting if other not in able]
            next_ticket = ticket + 1
        elif one.path == "/redeem" and one.status == 200:
            next_ticket += 1
        found.append(one)
    return found, waiting
