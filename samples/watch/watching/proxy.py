"""nginx's log: entries of samples/watch/nginx, or of the logs of samples/nginx, followed through rotations."""
from __future__ import annotations

import bisect
import glob
import gzip
import hashlib
import json
import os
import re
from typing import Any, BinaryIO, Iterator, NamedTuple, Optional

REFUSALS = {
    # the refusals: .ci/refusals
    10: "NumberReused",
    11: "Empty",
    12: "TooMany",
    13: "Repeated",
    14: "SameCoowner",
    20: "NotAnnouncementMonth",
    21: "RateConflict",
    22: "RateUnsettled",
    30: "NoRate",
    31: "SerialConflict",
    40: "DayOpen",
    41: "DayNotLater",
    42: "NoOpenDay",
    43: "DayIsOther",
    44: "DayFull",
    50: "UnknownSerial",
    51: "NotPayee",
    52: "AlreadyPaid",
    53: "NotIssued",
    54: "NotEligible",
    # the end of the refusals
}
FAULTS = {
    60: "BadHead",
    61: "HeadTooLong",
    62: "BodyTooLong",
    63: "BadLength",
    64: "BadJson",
    65: "BadField",
    66: "NoRoute",
    67: "BadMethod",
    68: "Truncated",
    69: "NotFound",
}
UNSERVED = {1: "NoMemory", 2: "StoreFailed"}
WRITING = ("/rates", "/bonds", "/day/open", "/day/close", "/redeem")
READING = ("/inventory", "/ticket", "/batch", "/value")
#: The bytes of a first line by which a log's file is known.
MARK = 4096
#: How many ranges of numbers are kept of a desk.
MOST_RANGES = 1000


class Entry(NamedTuple):
    """A request of the log. What the log doesn't have is None or an empty text; `at` is the second of the response."""

    at: float
    route: str
    status: str
    by: str
    took: Optional[float]
    desk: Optional[int]
    number: Optional[int]
    code: Optional[int]
    ticket: Optional[int]
    total: Optional[int]


# ---- following


def opened(path: str) -> gzip.GzipFile | BinaryIO:
    """A file of the log, which may be compressed."""
    return gzip.GzipFile(path) if path.endswith(".gz") else open(path, "rb")


def mark_of(path: str) -> str:
    """By what a file of the log is known again when it has another name: its first line. An empty text for a file without a whole line."""
    with opened(path) as file:
        line = file.readline(MARK)
    return hashlib.sha256(line).hexdigest() if line.endswith(b"\n") or len(line) == MARK else ""


def files_of(path: str) -> list[str]:
    """The log and its rotated files, the newest first."""
    rotated = [
        other for end in (".[0-9]*", "-[0-9]*") for other in glob.glob(glob.escape(path) + end)
    ]
    found = sorted(rotated, key=lambda other: os.stat(other).st_mtime, reverse=True)
    return [path, *found] if os.path.exists(path) else found


def lines_from(path: str, offset: int) -> Iterator[bytes]:
    """The whole lines behind an offset."""
    with opened(path) as file:
        file.seek(offset)
        for line in file:
            if line.endswith(b"\n"):
                yield line


def follow(path: str, place: dict[str, Any]) -> Iterator[bytes]:
    """Yields the lines that came after `place`, each once, and brings it forward. Without a place it begins with the log as it is now. If the file of the place
    is gone, lines were lost: `place["gaps"]` counts it. After a rotation nginx's old processes end their requests in the file before.
    """
    files = files_of(path)
    if not files:
        raise FileNotFoundError(f"there is no {path}")
    marks = [mark_of(file) for file in files]
    begin = marks.index(place["mark"]) if place.get("mark") in marks else 0
    if place.get("mark") and place["mark"] not in marks:
        place["gaps"] = place.get("gaps", 0) + 1
    before = place.get("before", {})
    if before.get("mark") in marks:
        yield from followed(files[marks.index(before["mark"])], before)
    for index in range(begin, -1, -1):
        if marks[index] == "":
            continue
        if marks[index] != place.get("mark"):
            place["before"] = {name: place[name] for name in ("mark", "offset") if name in place}
            place.update(mark=marks[index], offset=0)
        yield from followed(files[index], place)


def followed(path: str, place: dict[str, Any]) -> Iterator[bytes]:
    for line in lines_from(path, place["offset"]):
        place["offset"] += len(line)
        yield line


# ---- entries


def route_of(text: str) -> str:
    """One of the counter's routes, without what follows in a path: a customer, a ticket or a day. So no such thing becomes a label."""
    if text in WRITING:
        return text
    first = "/" + text.strip("/").partition("/")[0]
    return first if first in (*READING, "/teller") else "other"


def number_in(text: object, most: int = 19) -> int | None:
    return int(text) if isinstance(text, str) and re.fullmatch(rf"\d{{1,{most}}}", text) else None


def seconds_in(text: object) -> float | None:
    return float(text) if isinstance(text, str) and re.fullmatch(r"\d+(\.\d+)?", text) else None


def cents_in(text: object) -> int | None:
    found = re.fullmatch(r"(\d+)\.(\d\d)", text) if isinstance(text, str) else None
    return int(found[1] + found[2]) if found else None


def entry_of(line: bytes) -> Entry | None:
    """The entry of a line of the log for watching, or of one with bodies and replies. None for any other line. Before the entry may stand what syslog writes, or an
    entry that a full disk cut off. A body's quotes are escaped, so it has no such beginning."""
    start = line.rfind(b'{"time":"')
    try:
        read = json.loads(line[start:].decode("utf-8", "replace")) if start >= 0 else None
        status, at = read["status"], seconds_in(read["at"])
    except (ValueError, KeyError, TypeError, RecursionError):
        return None
    if not re.fullmatch(r"\d{3}", str(status)) or at is None:
        return None
    if "body" in read:
        read.update(of_texts(read["body"], read.get("reply", "")))
    by = "counter" if read.get("counter") == status and status not in ("502", "504") else "nginx"
    desk, number, code, ticket = (
        number_in(read.get(name)) for name in ("desk", "number", "code", "ticket")
    )
    return Entry(
        at,
        route_of(str(read.get("route", ""))),
        status,
        by,
        seconds_in(read.get("took")),
        desk,
        number,
        code,
        ticket,
        cents_in(read.get("total")),
    )


def of_texts(body: Any, reply: Any) -> dict[str, str]:
    """What the log for watching takes from a body and a reply."""
    found: dict[str, str] = {}
    for text, names in ((body, ("desk", "number")), (reply, ("code", "ticket", "total"))):
        try:
            read = json.loads(text)
            found.update((name, str(read[name])) for name in names if name in read)
        except (ValueError, TypeError, RecursionError):
            pass
    if "code" in found:
        found.pop("ticket", None)
    return found


# ---- numbers that were seen


def see(ranges: list[list[int]], number: int) -> bool:
    """Adds a number to ranges that are in order and apart. True if it was there already. Beyond MOST_RANGES the lowest is forgotten."""
    place = bisect.bisect_right(ranges, [number, number])
    for held in ranges[max(0, place - 1) : place + 1]:
        if held[0] <= number <= held[1]:
            return True
    low, high = number, number
    if place < len(ranges) and ranges[place][0] == number + 1:
        high = ranges.pop(place)[1]
    if place > 0 and ranges[place - 1][1] == number - 1:
        low, place = ranges.pop(place - 1)[0], place - 1
    ranges.insert(place, [low, high])
    if len(ranges) > MOST_RANGES:
        del ranges[0]
    return False
