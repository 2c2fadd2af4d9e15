"""The entries of nginx's log of posted requests (samples/nginx/nginx.conf), and the kept requests that they asked for."""

from __future__ import annotations

import gzip
import json
import sys
from typing import IO, Any, Iterable, Iterator

from .findings import visible

ROUTES = {
    "rates": "/rates",
    "bonds": "/bonds",
    "open": "/day/open",
    "redeem": "/redeem",
    "close": "/day/close",
}
UNANSWERED = ("-", "502", "503", "504")
#: The counter's statuses of requests that may have changed the books, now or before.
ACTED = ("200", "409", *UNANSWERED)
#: What `ee_cli import` does.
IMPORTS = ("rates", "bonds")
FIELDS = ("time", "entry", "user", "route", "counter", "body")
#: The desk and number of a request.
Name = tuple[int, int]
#: A value of JSON with keys. An entry has FIELDS, and each is a text.
Value = dict[str, Any]
Entry = dict[str, str]
#: Raised for text that isn't JSON, and for JSON that is nested too deep for Python.
UNREADABLE = (ValueError, RecursionError)


def opened_log(path: str) -> IO[str]:
    if path.endswith(".gz"):
        return gzip.open(path, "rt", encoding="utf-8", errors="replace")
    return open(path, encoding="utf-8", errors="replace")


def entries_of(paths: Iterable[str]) -> Iterator[tuple[Name, Entry]]:
    """The entries of logs that may have acted, each with the desk and number of its body."""
    for path in paths:
        with opened_log(path) as log:
            for count, line in enumerate(log, 1):
                yield from entries_in(line, f"{path}: line {count}")


def entries_in(line: str, where: str) -> Iterator[tuple[Name, Entry]]:
    # Behind an entry that a full disk cut off, the next one stands in the same line. A body's quotes are escaped, so it has no such beginning.
    start = max(0, line.rfind('{"time":"'))
    entry = entry_in(line[start:])
    if entry is None or start > 0:
        print(f"{where} is no whole entry", file=sys.stderr)
    if entry is None or entry["counter"] not in ACTED:
        return
    request = request_in(entry["body"])
    if request is not None:
        yield request, entry
        return
    by = f"(user {entry['user']}, counter's status {entry['counter']})"
    print(visible(f"{where} has no request in its body {by}"), file=sys.stderr)


def entry_in(text: str) -> Entry | None:
    """Returns the entry of a text; None if it is none."""
    try:
        entry = json.loads(text)
    except UNREADABLE:
        return None
    is_entry = isinstance(entry, dict) and all(isinstance(entry.get(name), str) for name in FIELDS)
    return entry if is_entry else None


def request_in(text: str) -> Name | None:
    """Returns desk and number of a body, or None. As for the counter, the last of a key's values counts, and null is desk 0."""
    try:
        body = json.loads(text)
    except UNREADABLE:
        return None
    if not isinstance(body, dict):
        return None
    desk, number = body.get("desk") or 0, body.get("number")
    return (desk, number) if type(desk) is int and type(number) is int else None


def is_asking(entry: Entry, act: Value) -> bool:
    """A request that changed the books has the status 200; another act under its number had 409."""
    return entry["route"] == ROUTES[act["act"]] and entry["counter"] in ("200", *UNANSWERED)


def user_of(entry: Entry) -> str:
    """The user of an entry, with a question mark if the counter gave no answer."""
    return entry["user"] + ("?" if entry["counter"] in UNANSWERED else "")


def askers(
    kept: Iterable[tuple[Name, Value]],
    asked: Iterable[tuple[Name, Entry]],
    command_line: frozenset[int],
) -> dict[Name, list[Entry]]:
    """The entries that asked for each kept request, by time. An import at a desk of the command line has one that names it; a request that nobody asked for has none."""
    acts = dict(kept)
    found: dict[Name, list[Entry]] = {name: [] for name in acts}
    for name, entry in asked:
        if name in acts and is_asking(entry, acts[name]):
            found[name].append(entry)
    for name, entries in found.items():
        entries.sort(key=lambda entry: entry["time"])
        if not entries and name[0] in command_line and acts[name]["act"] in IMPORTS:
            entries.append({"time": "-", "user": "command line", "counter": "200", "entry": "-"})
    return found


def in_words(act: Value, reply: Value) -> str:
    if act["act"] == "redeem":
        return f"ticket {reply['ticket']}: {reply['total']} to {reply['payee']} on {reply['day']}"
    if act["act"] == "close":
        return f"closed {reply['day']}: {reply['total']} on {reply['tickets']} tickets"
    if act["act"] == "open":
        return f"opened {reply['opened']}"
    return f"{reply['new']} {act['act']} entered"


def desks(text: str) -> frozenset[int]:
    """The desks of an argument, as `998,999`."""
    return frozenset(int(desk) for desk in text.split(","))
