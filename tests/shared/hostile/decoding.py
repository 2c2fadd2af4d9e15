"""What a message asks for, or its first fault, by docs/FORMATS.md, 'Requests'."""
import functools
from typing import Any, Callable, Sequence, TypeVar

from . import framing, json_text, spelling

T = TypeVar("T")
#: The members of a JSON object.
Members = dict[str, Any]
POSTS = ("/rates", "/bonds", "/day/open", "/day/close", "/redeem")
GETS: dict[str, tuple[tuple[str, Callable[[str], object]], ...]] = {
    "inventory": (("customer", spelling.customer), ("month", spelling.month)),
    "ticket": (("ticket", spelling.ticket),),
    "batch": (("day", spelling.day),),
}
GETS["value"] = (("denom", spelling.denomination), ("issued", spelling.issue))
GETS["value"] += (("month", spelling.month),)
NAMES = {64: "BadJson", 65: "BadField", 66: "NoRoute", 67: "BadMethod"}


class Fault(Exception):
    """The code of a fault, and the field that it names."""


def bad(field: str) -> Fault:
    return Fault(65, field)


def in_range(value: object, first: int, last: int) -> int | None:
    return value if type(value) is int and first <= value <= last else None


number = functools.partial(in_range, first=1, last=spelling.LAST_NUMBER)
desk = functools.partial(in_range, first=0, last=999)
customer = functools.partial(in_range, first=1, last=999_999_999)


def denomination(value: object) -> int | None:
    return value if type(value) is int and value in spelling.DENOMINATIONS else None


def text(read: Callable[[str], T | None]) -> Callable[[object], T | None]:
    return lambda value: read(value) if isinstance(value, str) else None


def field(members: Members, name: str, kind: Callable[[object], T | None]) -> T:
    found = kind(members[name]) if name in members else None
    if found is None:
        raise bad(name)
    return found


def optional(
    members: Members, name: str, kind: Callable[[object], T | None], other: T | None = None
) -> T | None:
    return other if members.get(name) is None else field(members, name, kind)


def members_of(value: object, fault: str) -> Members:
    if not isinstance(value, dict):
        raise bad(fault)
    return value


def only(members: Members, names: Sequence[str]) -> None:
    if any(name not in names for name in members):
        raise bad("other")


def rows_in(members: Members, name: str, row: Callable[[object], T]) -> tuple[T, ...]:
    listed = field(members, name, lambda value: value if isinstance(value, list) else None)
    return tuple(map(row, listed))


def rate_row(value: object) -> tuple[int, int, int | None]:
    members = members_of(value, "rates")
    begins = field(members, "from", text(spelling.issue))
    rate = field(members, "rate", text(spelling.rate))
    extension = optional(members, "extension", text(spelling.rate), rate)
    only(members, ("from", "rate", "extension"))
    return begins, rate, extension


def bond_row(value: object) -> tuple[spelling.Serial, int, int, int, int | None]:
    members = members_of(value, "bonds")
    serial = field(members, "serial", text(spelling.serial))
    dollars = field(members, "denom", denomination)
    issued = field(members, "issued", text(spelling.issue))
    owner = field(members, "owner", customer)
    coowner = optional(members, "coowner", customer)
    only(members, ("serial", "denom", "issued", "owner", "coowner"))
    return serial, dollars, issued, owner, coowner


def act_in(path: str, members: Members) -> tuple[tuple[Any, ...], tuple[str, ...]]:
    """The act, and the names that its body has beside `desk` and `number`."""
    if path == "/rates":
        return ("rates", rows_in(members, "rates", rate_row)), ("rates",)
    if path == "/bonds":
        return ("bonds", rows_in(members, "bonds", bond_row)), ("bonds",)
    day = field(members, "day", text(spelling.day))
    if path != "/redeem":
        return (path.removeprefix("/day/"), day), ("day",)
    payee = field(members, "payee", customer)
    serial = text(spelling.serial)
    serials = rows_in(members, "serials", lambda one: field({"serials": one}, "serials", serial))
    return ("redeem", day, payee, serials), ("day", "payee", "serials")


def posted(path: str, body: bytes) -> tuple[Any, ...]:
    try:
        value = json_text.read(body)
    except json_text.NoJson:
        raise Fault(64, None) from None
    members = members_of(value, "body")
    key = (optional(members, "desk", desk, 0), field(members, "number", number))
    act, names = act_in(path, members)
    only(members, ("desk", "number", *names))
    return "act", key, act


def asked(name: str, parts: Sequence[str]) -> tuple[Any, ...]:
    found = []
    for (field_name, kind), part in zip(GETS[name], parts):
        value = kind(part)
        if value is None:
            raise bad(field_name)
        found.append(value)
    return (name, *found)


def call(message: framing.Message) -> tuple[Any, ...]:
    """A request is ("act", its desk and number, the act), a query its name and parts."""
    path = message.target.decode("utf-8")
    if path in POSTS:
        if message.method != b"POST":
            raise Fault(67, None)
        return posted(path, message.body)
    name, *parts = path[1:].split("/")
    is_known = path.startswith("/") and len(parts) == len(GETS.get(name, ()))
    if name not in GETS or not is_known or not all(parts):
        raise Fault(66, None)
    if message.method != b"GET":
        raise Fault(67, None)
    return asked(name, parts)
