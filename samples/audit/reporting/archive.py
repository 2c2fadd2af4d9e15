"""An archive of the requests of a store, as samples/restore/README.md has it, and the
comparison of a store with it. It is read from a private copy, by code that the archiver doesn't share."""

import hashlib
import json
import os
import re
from typing import Any, Iterator, NamedTuple

from .checks import name_of
from .findings import Findings
from .store import NoStore, Source, Store, copied, make_views, open_copy

LINES, END, FIRST = "requests.jsonl", "end.json", "first.db"
LINE = re.compile(
    rb'\{"before":"([0-9a-f]{64})","time":"[0-9TZ:.-]+","row":([1-9]\d*),"desk":(\d+),"number":(\d+),"act":(\{.*?\}),"reply":(\{.*\})\}'
)
IN_ORDER = "SELECT place, desk, number, act, reply FROM kept ORDER BY place"


class Request(NamedTuple):
    """A request of an archive or of a store, by its row."""

    row: int
    desk: int
    number: int
    act: str
    reply: str


class Archive(NamedTuple):
    """The private copy of an archive: its folder, its first line, what its end.json says, and the files
    that it is a copy of."""

    folder: str
    head: dict[str, Any]
    end: dict[str, Any]
    sources: tuple[Source, ...]

    def path(self, name: str) -> str:
        return os.path.join(self.folder, name)


def object_in(text: bytes) -> dict[str, Any]:
    try:
        value = json.loads(text)
    except (ValueError, RecursionError):
        return {}
    return value if isinstance(value, dict) else {}


def bytes_of(path: str) -> bytes:
    if not os.path.exists(path):
        return b""
    with open(path, "rb") as file:
        return file.read()


def copy_of_archive(path: str, folder: str) -> Archive:
    """A copy in `folder` of the archive at `path`. Its end.json is copied first: the lines that it names
    are there then, though an archiver may write more of them."""
    names = [
        name
        for name in (END, LINES, FIRST, FIRST + "-wal")
        if os.path.exists(os.path.join(path, name))
    ]
    if LINES not in names:
        raise NoStore(f"{path} has no {LINES}")
    sources = tuple(
        copied(os.path.join(path, name), os.path.join(folder, name), "archive: ") for name in names
    )
    with open(os.path.join(folder, LINES), "rb") as file:
        head = object_in(file.readline())
    if (head.get("archive"), head.get("of"), type(head.get("row"))) != (1, "store", int):
        raise NoStore(f"the first line of {LINES} in {path} isn't that of an archive of a store")
    return Archive(folder, head, object_in(bytes_of(os.path.join(folder, END))), sources)


# ---- what an archive holds


def first_requests(archive: Archive, findings: Findings) -> Iterator[Request]:
    """The requests of the copy of a store with which the archive begins, if it is the one that it names."""
    wanted = archive.head.get("first") or {}
    found = {one.name: one.sha256 for one in archive.sources}
    before = findings.differing
    for part, name in (("file", FIRST), ("log", FIRST + "-wal")):
        findings.compare(name, "all", "SHA-256", found.get(f"archive: {name}"), wanted.get(part))
    if not wanted or findings.differing != before:
        return
    first = open_copy(archive.path(FIRST), archive.sources)
    try:
        make_views(first)
        findings.compare(FIRST, "all", "requests", first.count("kept"), archive.head["row"])
        for row in first.rows(IN_ORDER):
            yield Request(*row)
    finally:
        first.base.close()


def later_requests(archive: Archive, findings: Findings) -> Iterator[Request]:
    """The requests of the lines. A line differs that doesn't chain on to the one before it."""
    row, found_at_end = archive.head["row"], None
    with open(archive.path(LINES), "rb") as file:
        before = hashlib.sha256(file.readline()[:-1]).hexdigest()
        for line in file:
            found_at_end = before if archive.end.get("row") == row else found_at_end
            found = LINE.fullmatch(line[:-1])
            if not line.endswith(b"\n"):
                findings.remarks.append(
                    f"The last line of {LINES} has no end: it isn't part of the archive."
                )
                break
            if found is None:
                findings.differs(
                    LINES,
                    f"the line behind row {row}",
                    "text",
                    line[:-1].decode("utf-8", "replace"),
                    "the line of a request",
                )
                return
            findings.compare(LINES, f"the line behind row {row}", "row", int(found[2]), row + 1)
            row = int(found[2])
            findings.compare(
                LINES, f"row {row}", "checksum of the line before it", found[1].decode(), before
            )
            before = hashlib.sha256(line[:-1]).hexdigest()
            yield Request(
                row,
                int(found[3]),
                int(found[4]),
                found[5].decode("utf-8", "replace"),
                found[6].decode("utf-8", "replace"),
            )
    found_at_end = before if archive.end.get("row") == row else found_at_end
    if archive.end or row > archive.head["row"]:
        findings.compare(
            END,
            f"row {archive.end.get('row')}",
            "checksum of its line",
            archive.end.get("checksum"),
            found_at_end,
        )


# ---- the store compared with it


def store_is_as_archived(archive: Archive, store: Store, findings: Findings) -> None:
    """Every request of the archive is in the store, in the same row and with the same texts."""
    held = (Request(*row) for row in store.rows(IN_ORDER))
    here = next(held, None)
    for requests in (first_requests(archive, findings), later_requests(archive, findings)):
        for wanted in requests:
            findings.tested += 1
            while here is not None and here.row < wanted.row:
                findings.differs(
                    "answers",
                    name_of("answers", (here.desk, here.number)),
                    f"row {here.row}",
                    here.act,
                    "no such row in the archive",
                )
                here = next(held, None)
            if here is None or here.row > wanted.row:
                findings.differs(
                    "answers",
                    name_of("answers", (wanted.desk, wanted.number)),
                    f"row {wanted.row}",
                    None,
                    wanted.act,
                )
                continue
            compare_requests(here, wanted, findings)
            here = next(held, None)
    if here is not None:
        remark_later(here.row, [here.row, *(one.row for one in held)][-1], archive, findings)


def compare_requests(here: Request, wanted: Request, findings: Findings) -> None:
    row = name_of("answers", (here.desk, here.number))
    findings.compare(
        "answers",
        row,
        f"desk and number of row {here.row}",
        f"{here.desk} {here.number}",
        f"{wanted.desk} {wanted.number}",
    )
    findings.compare("answers", row, f"act of row {here.row}", here.act, wanted.act)
    findings.compare("answers", row, f"reply of row {here.row}", here.reply, wanted.reply)


def remark_later(first: int, last: int, archive: Archive, findings: Findings) -> None:
    """Rows behind the end of the archive are no difference: they may have come later."""
    rows = (
        f"Row {first} of the store is"
        if first == last
        else f"Rows {first} to {last} of the store are"
    )
    until = f", which saw the store until {archive.end['time']}" if "time" in archive.end else ""
    findings.remarks.append(f"{rows} behind the end of this archive{until}.")
