"""Reads the counter's answers exactly. A text that isn't, byte for byte, an answer to what was asked is no answer of the counter."""
from __future__ import annotations

import json
import re
from typing import Any, Callable, NamedTuple, Optional, Sequence, TypeVar

from .errors import (
    REASONS,
    CertificateRefused,
    CounterError,
    Fault,
    Forbidden,
    ForeignAnswer,
    NotReady,
    is_known_shape,
    shown,
)
from .spelling import Json, cents_of, day_of

Reader = Callable[[str], Optional[Any]]
Found = TypeVar("Found")
Error = TypeVar("Error", bound=CounterError)

NUMBER_REUSED = 10
NOT_FOUND = 69
#: Faults of the way, not of what was sent: the same request is sent again.
DAMAGED = (60, 61, 63, 68)
#: Statuses of a proxy whose counter doesn't answer it.
GATEWAY = (502, 503, 504)
#: What a proxy's word on the certificate means, and what to do.
NO_CERTIFICATE = "the proxy got no certificate of the staff, or one that has ended or was revoked: give a valid certificate and its key"
#: How much of a foreign page an error quotes, in characters.
QUOTED = 80


def compact(value: Any) -> str:
    """The JSON text without spaces, as the counter writes it."""
    return json.dumps(value, separators=(",", ":"))


def exactly(text: str, keys: Sequence[str]) -> Optional[Json]:
    """The object, if its compact text with these keys in this order is the text."""
    try:
        value = json.loads(text)
    except (ValueError, RecursionError):
        return None
    if not isinstance(value, dict):
        return None
    same = {key: value[key] for key in keys if key in value}
    return same if compact(same) == text else None


def is_count(value: object) -> bool:
    """Whether it is a JSON number that counts something."""
    return type(value) is int and value >= 0


def is_day(text: object) -> bool:
    """Whether it is a printed day."""
    try:
        return isinstance(text, str) and day_of(text) == text
    except ValueError:
        return False


def is_line(line: object) -> bool:
    """Whether it is a line of a ticket."""
    if (
        not isinstance(line, dict)
        or list(line) != ["paid", "serial"]
        or cents_of(line["paid"]) is None
    ):
        return False
    return (
        isinstance(line["serial"], str)
        and re.fullmatch(r"[A-Z][1-9][0-9]{0,9}EE", line["serial"]) is not None
    )


def ticket_in(text: str) -> Optional[Json]:
    """A ticket whose lines add up to its total."""
    ticket = exactly(text, ("day", "lines", "payee", "ticket", "total"))
    if (
        ticket is None
        or len(ticket) != 5
        or not isinstance(ticket["lines"], list)
        or not all(map(is_line, ticket["lines"]))
    ):
        return None
    if not (is_day(ticket["day"]) and is_count(ticket["payee"]) and is_count(ticket["ticket"])):
        return None
    return (
        ticket
        if sum(cents_of(line["paid"]) or 0 for line in ticket["lines"]) == cents_of(ticket["total"])
        else None
    )


def batch_in(text: str) -> Optional[Json]:
    """The batch of a closed day."""
    batch = exactly(text, ("bonds", "day", "tickets", "total"))
    if batch is None or len(batch) != 4 or cents_of(batch["total"]) is None:
        return None
    return (
        batch
        if is_day(batch["day"]) and is_count(batch["bonds"]) and is_count(batch["tickets"])
        else None
    )


def with_its(found: Optional[Json], **asked: Any) -> Optional[Json]:
    """What was found, if it is what was asked for."""
    return (
        found
        if found is not None and all(found[name] == value for name, value in asked.items())
        else None
    )


MONTH = r"[0-9]{4}-(?:0[1-9]|1[0-2])"
CELLS = {
    "issued": MONTH,
    "next": f"({MONTH})?",
    "final": f"({MONTH})?",
    "note": "(NI|NE|P5|MA)?",
    "rate": r"([0-9]{1,2}\.[0-9]{2}%)?",
}


def row_in(text: str) -> Optional[Json]:
    """The row of a bond, whose value is its price and its interest."""
    keys = ("denom", "final", "interest", "issued", "next", "note", "price", "rate", "value")
    row = exactly(text, keys)
    if row is None or len(row) != len(keys) or not is_count(row["denom"]):
        return None
    if not all(
        isinstance(row[name], str) and re.fullmatch(pattern, row[name])
        for name, pattern in CELLS.items()
    ):
        return None
    price, interest, value = (cents_of(row[name]) for name in ("price", "interest", "value"))
    return row if price is not None and interest is not None and price + interest == value else None


def reply_in(path: str, fields: Json, text: str) -> Optional[Json]:
    """The reply to an act, if the text is one and speaks of exactly what was asked."""
    if path == "/redeem":
        ticket = ticket_in(text)
        asked = (fields["day"], fields["payee"], fields["serials"])
        return (
            ticket
            if ticket is not None
            and (ticket["day"], ticket["payee"], [line["serial"] for line in ticket["lines"]])
            == asked
            else None
        )
    if path == "/day/close":
        return with_its(batch_in(text), day=fields["day"])
    if path == "/day/open":
        opened = exactly(text, ("opened",))
        return opened if opened == {"opened": fields["day"]} else None
    added = exactly(text, ("new", "same"))
    rows = fields["rates"] if path == "/rates" else fields["bonds"]
    is_added = added is not None and len(added) == 2 and all(map(is_count, added.values()))
    return added if added is not None and is_added and sum(added.values()) == len(rows) else None


class Answer(NamedTuple):
    """What came: a `reply`, a "refused" request, a "fault", an "unserved" request, one that the proxy didn't pass on ("forbidden", for the reason `value`), or no
    answer of the counter ("none"), with what was met instead. `setup` is the error that it is before the first good exchange, `entry` the proxy's entry in its log.
    """

    kind: str
    value: Any = None
    met: str = ""
    setup: Optional[CounterError] = None
    entry: Optional[str] = None

    def named(self, error: Error) -> Error:
        """The error, with the log entry of this answer."""
        error.request_id = self.entry
        return error


def reason_in(status: int, text: str) -> Optional[str]:
    """Why a proxy didn't pass a request on, by its name for it. None if it says no reason."""
    try:
        value = json.loads(text) if 400 <= status < 500 else None
    except (ValueError, RecursionError):
        return None
    reason = value.get("forbidden") if isinstance(value, dict) else None
    return reason if isinstance(reason, str) else None


def foreign(status: int, text: str) -> Answer:
    """What a proxy, or another program, says in the counter's place."""
    reason = reason_in(status, text)
    if reason == "certificate":
        return Answer("none", met=NO_CERTIFICATE, setup=CertificateRefused(NO_CERTIFICATE))
    if reason in REASONS:
        return Answer("forbidden", reason, met=REASONS[reason])
    if status == 429:
        return Answer("none", met="too many requests (status 429)")
    met = f"an answer of status {status} that isn't the counter's"
    if status in GATEWAY:
        behind = f"a proxy answers, and the counter behind it doesn't (status {status})"
        return Answer("none", met=behind, setup=NotReady(behind))
    begins = " ".join(text[: 4 * QUOTED].split())[:QUOTED]
    return Answer("none", met=met, setup=ForeignAnswer(status, f"{met}: {begins!r}"))


def answer_of(status: int, text: str, read: Reader) -> Answer:
    """Reads a response: what `read` makes of a 200, or one of the counter's other answers."""
    value: Any = None
    if status == 200:
        value = read(text)
        kind = "reply"
    elif status == 409:
        value = exactly(text, ("code", "month", "refused", "serial", "ticket"))
        kind = "refused"
    elif status == 503:
        value = exactly(text, ("code", "unserved"))
        kind = "unserved"
    else:
        value = (
            exactly(text, ("code", "fault", "field")) if status in (400, 404, 405, 413) else None
        )
        kind = "fault"
    is_named = kind == "reply" or (
        value is not None and type(value.get("code")) is int and type(value.get(kind)) is str
    )
    if value is None or not is_named or (kind == "refused" and not is_known_shape(value)):
        return foreign(status, text)
    return Answer(kind, value, shown(value["unserved"]) if kind == "unserved" else "")


def is_good(answer: Answer) -> bool:
    """Whether the counter, or its proxy in the counter's name, wrote it."""
    return answer.kind != "none"


def is_of_one_sending(answer: Answer) -> bool:
    """Whether it answers one sending alone, and would be the same for the next one."""
    return answer.kind == "forbidden" or (
        answer.kind == "fault" and answer.value["code"] not in DAMAGED
    )


def error_of(answer: Answer, path: str) -> CounterError:
    """The error of an answer to one sending."""
    is_forbidden = answer.kind == "forbidden"
    return answer.named(Forbidden(path, answer.value) if is_forbidden else Fault(answer.value))
