"""A day of a store: each of its requests with who asked for it and whether the archives have it, and what differs."""

from __future__ import annotations

import json
from typing import Iterable, NamedTuple

from . import archive, asked, digests
from .archive import Archive
from .store import NoStore, Store


class Kept(NamedTuple):
    """A kept request: its row, its name, and its two texts as values."""

    row: int
    desk: int
    number: int
    act: asked.Value
    reply: asked.Value

    @property
    def name(self) -> asked.Name:
        return self.desk, self.number

    @property
    def is_done(self) -> bool:
        return "refused" not in self.reply

    @property
    def title(self) -> str:
        return f"row {self.row}, desk {self.desk}, number {self.number}"

    @property
    def words(self) -> str:
        if not self.is_done:
            return f"refused: {self.reply['refused']}"
        return asked.in_words(self.act, self.reply)


class Line(NamedTuple):
    """A request of the day: `entries` asked for it, and `is_archived` if each archive reaches its row."""

    kept: Kept
    entries: list[asked.Entry]
    is_archived: bool


class Day(NamedTuple):
    """A day's lines, and what of it differs from the logs."""

    lines: list[Line]
    differences: list[str]
    remarks: list[str]


def requests_of(store: Store, day: str) -> list[Kept]:
    """The requests behind the closing of the day before, up to the closing of this one, or to the last one if it is open."""
    found: list[Kept] = []
    for row, desk, number, act, reply in store.rows(archive.IN_ORDER):
        found.append(Kept(row, desk, number, json.loads(act), json.loads(reply)))
        closed = digests.closed_by(act.encode(), reply.encode())
        if closed == day:
            return found
        if closed is not None:
            found = []
    if not any(one.reply.get("opened") == day for one in found):
        raise NoStore(f"the store has no day {day}")
    return found


def examined(
    store: Store,
    day: str,
    entries: Iterable[tuple[asked.Name, asked.Entry]],
    archives: Iterable[Archive],
    command_line: frozenset[int],
) -> Day:
    """Joins a day with the logs and the archives."""
    requests, told = requests_of(store, day), list(entries)
    acts = ((one.name, one.act) for one in requests if one.is_done)
    askers = asked.askers(acts, told, command_line)
    end = min((one.end.get("row", one.head["row"]) for one in archives), default=None)
    lines = [
        Line(one, askers.get(one.name, []), end is not None and one.row <= end) for one in requests
    ]
    differences = [text for line in lines for text in faults_of(line, end)]
    differences += lost(store, told, day)
    return Day(lines, differences, remarks_of(lines, end))


def faults_of(line: Line, end: int | None) -> list[str]:
    """A request that was done and that nobody asked for, and a reply of the log that isn't the kept one."""
    one, found = line.kept, []
    if one.is_done and not line.entries:
        behind = ", and it is behind the archive's end" if end is not None and one.row > end else ""
        found.append(f"{one.title}: {one.words}: no log has it{behind}")
    for entry in line.entries:
        reply = entry.get("reply", "")
        if entry["counter"] == "200" and reply and value_in(reply) != one.reply:
            found.append(f"{one.title}: the log has the reply {reply}, and the store {one.words}")
    return found


def value_in(text: str) -> object:
    try:
        return json.loads(text)
    except asked.UNREADABLE:
        return text


def lost(store: Store, told: list[tuple[asked.Name, asked.Entry]], day: str) -> list[str]:
    """The entries of the day that the counter answered 200, and whose request the store hasn't kept."""
    kept = {(desk, number) for desk, number in store.rows("SELECT desk, number FROM kept")}
    return [
        f"desk {desk}, number {number}: {entry['user']} had an answer at {entry['time']}, and the store has no such request"
        for (desk, number), entry in told
        if entry["counter"] == "200"
        and (desk, number) not in kept
        and entry["route"] in asked.ROUTES.values()
        and (entry["time"].startswith(day) or f'"{day}"' in entry["body"])
    ]


def remarks_of(lines: list[Line], end: int | None) -> list[str]:
    """Requests that two people asked for, bonds and rates that one person entered and paid by, and rows that the archives don't have yet."""
    found = []
    entered: dict[str, str] = {}
    for line in lines:
        one, users = line.kept, {entry["user"] for entry in line.entries}
        if len(users) > 1:
            found.append(f"{one.title}: {' and '.join(sorted(users))} asked for it")
        user = next(iter(users), "")
        if not one.is_done or user in ("", "command line"):
            continue
        for bond in one.act.get("bonds", []):
            entered[bond["serial"]] = user
        if one.act["act"] == "rates":
            found.append(f"{one.title}: {user} entered rates")
        own = [serial for serial in one.act.get("serials", []) if entered.get(serial) == user]
        if own:
            found.append(f"{one.title}: {user} entered and paid {', '.join(own)}")
    later = [line.kept.row for line in lines if end is not None and line.kept.row > end]
    if later:
        found.append(f"rows {later[0]} to {later[-1]} are behind the archive's end")
    return found
